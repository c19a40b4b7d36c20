//! Trace lines of USB4 control packets, and the records made of them, as entries; requests matched to their responses; streams
//! fed in parts; why a hex number was unreadable.
//!
//! The work is done by proved code behind C calls (`include/chomkadieu.h`); this crate is the thin, safe side of it. Nothing is copied and
//! nothing allocated: an [`Entry`] borrows the text that it was read from and the slots that its dwords went to. Names follow the `trace`
//! module of tbtools.
//!
//! ```
//! use chomkadieu::{Entry, Pdf, MOST_DWORDS};
//!
//! let line = b" fwd-7 [002] d..1. 12.000345: tb_tx: type=TB_CFG_PKG_READ, size=3, domain=0, route=0, data=[0x0, 0x0, 0x04002001]\n";
//! let mut slots = [0; MOST_DWORDS];
//! let entry = Entry::parse(line, &mut slots)?;
//! assert_eq!((entry.task(), entry.pid(), entry.pdf()), ("fwd", 7, Pdf::ReadRequest));
//! assert_eq!(entry.data(), [0, 0, 0x04002001]);
//! # Ok::<(), chomkadieu::Refusal>(())
//! ```
//!
//! Readings are strict: a line with a piece of `data` that is no hex number of 32 bits is refused ([`Refusal::BadPiece`]). Whoever asks for lenient
//! ([`Entry::parse_lenient`], [`Entry::read_lenient`], [`what_lenient`]) has such pieces left out, as tbtools does it. Records are read alike.
//!
//! What comes in parts, as from a pipe or a socket, goes to a [`Stream`]. With the feature `std`, which is off by default, `StreamReader` does that over
//! any `std::io::Read`; nothing else here needs it.
#![no_std]
#![deny(missing_docs)]

#[cfg(feature = "std")]
extern crate std;

mod book;
mod entry;
mod event;
mod hex;
mod packet;
mod pdf;
mod pending;
mod raw;
#[cfg(feature = "std")]
mod reader;
mod refusal;
mod stream;
mod what;

pub use book::Book;
pub use entry::{Entry, Timestamp};
pub use event::Event;
pub use hex::{Hex, HexKey, HexPieces, HexText, hex_key, hex_piece, hex_pieces};
pub use packet::{ControlPacket, Field, Range, Source};
pub use pdf::Pdf;
pub use pending::{OldestFirst, Pending, Report};
pub use raw::{Four, Slot};
#[cfg(feature = "std")]
pub use reader::StreamReader;
pub use refusal::Refusal;
pub use stream::{Stream, Unit};
pub use what::{What, what, what_lenient};

/// No line or record has more dwords: with as many slots, none is refused for want of slots.
pub const MOST_DWORDS: usize = 256;

/// No record has more bytes: with as long a buffer, none is refused for want of room.
pub const MOST_BYTES: usize = 5227;

/// No table of requests has more slots.
pub const MOST_PENDING: usize = 64;
