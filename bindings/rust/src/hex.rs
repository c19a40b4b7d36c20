//! Why a hex number was unreadable.
use crate::{Refusal, raw};
use core::fmt;

/// One row a key: its case, the header's `CK_KEY_..`, its name and its width.
macro_rules! keys {
    ($($case:ident = $number:literal, $name:literal, $bits:literal;)*) => {
        /// A key of a line whose value is read as hex.
        #[derive(Clone, Copy, Debug, PartialEq, Eq, Hash)]
        pub enum HexKey {
            $(#[doc = concat!("`", $name, "`, ", $bits, " bits.")] $case,)*
        }

        impl HexKey {
            /// Every key, in the order of the header.
            pub const ALL: &'static [HexKey] = &[$(HexKey::$case,)*];

            fn number(self) -> u8 {
                match self {
                    $(HexKey::$case => $number,)*
                }
            }

            /// Its name in a line.
            pub fn name(self) -> &'static str {
                match self {
                    $(HexKey::$case => $name,)*
                }
            }

            /// How many bits its number has at most.
            pub fn bits(self) -> u32 {
                match self {
                    $(HexKey::$case => $bits,)*
                }
            }
        }
    };
}

keys! {
    Route = 1, "route", 64;
    Offset = 2, "offset", 16;
    Error = 3, "error", 8;
    Config = 4, "config", 8;
    Unplug = 5, "unplug", 8;
}

impl fmt::Display for HexKey {
    fn fmt(&self, f: &mut fmt::Formatter<'_>) -> fmt::Result {
        f.pad(self.name())
    }
}

/// What a text reads as: a number, or why it is none.
#[derive(Clone, Copy, Debug, PartialEq, Eq, Hash)]
pub enum Hex {
    /// A number.
    Value(u64),
    /// It has no digit: it is nothing, or a bare `0x`.
    Empty,
    /// It has a byte that is no hex digit. This goes before its width.
    BadDigit {
        /// Where the first of them stands in the text, from 0; a leading `0x` is counted.
        at: usize,
    },
    /// Its digits are a number past the width.
    TooWide,
}

impl Hex {
    /// By the header's `CK_HEX_..`: 4 is the last, and no other number is answered (proved).
    fn told(raw: &raw::HexAnswer) -> Self {
        match raw.what {
            1 => Hex::Value(raw.value),
            2 => Hex::Empty,
            3 => Hex::BadDigit { at: raw.bad },
            _ => Hex::TooWide,
        }
    }

    /// The number, if it is one.
    pub fn value(self) -> Option<u64> {
        match self {
            Hex::Value(value) => Some(value),
            _ => None,
        }
    }
}

impl fmt::Display for Hex {
    fn fmt(&self, f: &mut fmt::Formatter<'_>) -> fmt::Result {
        match self {
            Hex::Value(value) => write!(f, "the number {value:#x}"),
            Hex::Empty => f.pad("empty: it has no digit"),
            Hex::BadDigit { at } => write!(f, "no number: its byte at place {at} is no hex digit"),
            Hex::TooWide => f.pad("too wide: its number is past the largest that fits"),
        }
    }
}

/// A text of a line that is read as hex, and what it reads as: [`hex_key`], [`hex_piece`].
#[derive(Clone, Copy, Debug, PartialEq, Eq, Hash)]
pub struct HexText<'a> {
    /// The text, a part of the line.
    pub text: &'a str,
    /// Where it starts in the line.
    pub at: usize,
    /// What it reads as.
    pub hex: Hex,
}

impl<'a> HexText<'a> {
    fn told(line: &'a [u8], raw: raw::HexAnswer) -> Self {
        // The text lies inside the line, and a line that has a payload is ASCII (proved); were it not so, it would be empty and no harm done.
        let bytes = line
            .get(raw.at..)
            .and_then(|rest| rest.get(..raw.len))
            .unwrap_or_default();
        Self {
            text: core::str::from_utf8(bytes).unwrap_or_default(),
            at: raw.at,
            hex: Hex::told(&raw),
        }
    }
}

impl fmt::Display for HexText<'_> {
    fn fmt(&self, f: &mut fmt::Formatter<'_>) -> fmt::Result {
        write!(f, "`{}` is {}", self.text, self.hex)
    }
}

/// What the last pair of a key says in a line, `None` if there is none.
///
/// It answers on every line that has a payload, also on one that [`Entry::parse`](crate::Entry::parse) refuses with 5 or more. A line without a
/// payload is refused: [`Refusal::Idle`], [`Refusal::LongLine`], [`Refusal::NotAscii`], [`Refusal::NoColon`].
///
/// ```
/// use chomkadieu::{Hex, HexKey, hex_key};
///
/// let line = b"a-1 [002] 1.2: f: type=t size=3 domain=0 route=0x30z offset=0x1ffff data=[0]";
/// let route = hex_key(line, HexKey::Route)?.unwrap();
/// assert_eq!((route.text, route.hex), ("0x30z", Hex::BadDigit { at: 4 }));
/// assert_eq!(hex_key(line, HexKey::Offset)?.unwrap().hex, Hex::TooWide);
/// assert_eq!(hex_key(line, HexKey::Config)?, None);
/// # Ok::<(), chomkadieu::Refusal>(())
/// ```
pub fn hex_key(line: &[u8], key: HexKey) -> Result<Option<HexText<'_>>, Refusal> {
    told(line, raw::hex_key(line, key.number()))
}

/// What a piece of a line's `data` says, by its number from 0: `None` behind the last, and if `data` is missing or not in brackets. It answers on the
/// lines that [`hex_key`] does.
pub fn hex_piece(line: &[u8], piece: usize) -> Result<Option<HexText<'_>>, Refusal> {
    told(line, raw::hex_piece(line, piece))
}

/// All pieces of a line's `data` in their order, none if it is missing or not in brackets.
///
/// Each step reads the line anew, so that all of them take the time of as many readings as there are pieces.
///
/// ```
/// use chomkadieu::{Hex, hex_pieces};
///
/// let line = b"a-1 [002] 1.2: f: type=t size=3 domain=0 route=0 data=[0x1, 0x04zz, ]";
/// let pieces: Vec<Hex> = hex_pieces(line)?.map(|piece| piece.hex).collect();
/// assert_eq!(pieces, [Hex::Value(1), Hex::BadDigit { at: 4 }, Hex::Empty]);
/// # Ok::<(), chomkadieu::Refusal>(())
/// ```
pub fn hex_pieces(line: &[u8]) -> Result<HexPieces<'_>, Refusal> {
    hex_piece(line, 0)?;
    Ok(HexPieces { line, next: 0 })
}

/// The pieces of a line's `data`: [`hex_pieces`].
#[derive(Clone, Debug)]
pub struct HexPieces<'a> {
    line: &'a [u8],
    next: usize,
}

impl<'a> Iterator for HexPieces<'a> {
    type Item = HexText<'a>;

    fn next(&mut self) -> Option<Self::Item> {
        // The line has a payload, so nothing is refused; were it not so, this would end and no harm be done.
        let piece = hex_piece(self.line, self.next).ok()??;
        self.next += 1;
        Some(piece)
    }
}

impl core::iter::FusedIterator for HexPieces<'_> {}

fn told(line: &[u8], raw: raw::Told<raw::HexAnswer>) -> Result<Option<HexText<'_>>, Refusal> {
    let text = raw.map_err(Refusal::from_number)?;
    Ok(text.map(|raw| HexText::told(line, raw)))
}
