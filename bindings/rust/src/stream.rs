//! A stream fed in parts.
use crate::raw::{self, RawEntry, RawStream, StreamAnswer, Told};
use crate::{Entry, MOST_DWORDS, Refusal};
use core::fmt;

/// `CK_REST`: the rest buffer has this size and no other.
const REST: usize = 8192;

/// What a unit of a stream comes to: its entry, or why there is none.
pub type Unit<'s> = Result<Entry<'s, 's>, Refusal>;

pub(crate) type Feed = fn(RawStream, &[u8], &mut [u8], &mut [u32]) -> StreamAnswer;
pub(crate) type Finish = fn(RawStream, &[u8], &mut [u32]) -> StreamAnswer;

/// A stream of lines and records that comes in parts, cut anywhere.
///
/// A unit that starts with byte A1 is a record of the length that it says; any other is a line and runs to its newline, which belongs to it, or to the
/// stream's end. However the stream is cut, also into empty parts, the answers are the same: those of its units, one by one. A refused unit is one
/// answer, and the next is read on. A line of more than 4,096 bytes is [`Refusal::Idle`] if it starts with `#`, else [`Refusal::LongLine`]; a record that
/// says more than [`MOST_BYTES`](crate::MOST_BYTES) bytes is [`Refusal::LongRecord`], another that the end cuts [`Refusal::CutRecord`]. All of it is kept
/// inside, in about 9 KB that do not grow: nothing is allocated.
///
/// ```
/// use chomkadieu::{Refusal, Stream};
///
/// let mut stream = Stream::new();
/// let mut tasks = 0;
/// for part in [&b"fwd-7 [002] 12.5: tb_tx: type=TB_CFG_PKG_REA"[..], b"D size=3 domain=0 route=0 data=[1]\nnonsense\nfw", b"d"] {
///     let mut left = part;
///     while let Some(unit) = stream.feed(&mut left) {
///         match unit {
///             Ok(entry) => tasks += usize::from(entry.task() == "fwd"),
///             Err(refusal) => assert_eq!(refusal, Refusal::NoColon),
///         }
///     }
/// }
/// assert_eq!(tasks, 1);
/// // The end of the stream is the end of its last line.
/// assert_eq!(stream.finish(), Some(Err(Refusal::NoColon)));
/// ```
#[derive(Clone)]
pub struct Stream {
    state: RawStream,
    rest: [u8; REST],
    slots: [u32; MOST_DWORDS],
}

impl Stream {
    /// A stream that has not begun.
    pub const fn new() -> Self {
        Self {
            state: RawStream { held: 0, passed: 0 },
            rest: [0; REST],
            slots: [0; MOST_DWORDS],
        }
    }

    /// Takes bytes from the front of `part`, up to the end of the next unit, and answers it; or takes them all, and no unit has ended. So whoever
    /// calls until there is none has fed the part. The entry lies in the stream: it is to be used, or written, before the next call. A line with a
    /// piece of `data` that is no hex number of 32 bits is refused: [`Refusal::BadPiece`].
    pub fn feed(&mut self, part: &mut &[u8]) -> Option<Unit<'_>> {
        let told = self.take(raw::stream_feed, part);
        self.unit(told)
    }

    /// The same, but such a piece is left out.
    pub fn feed_lenient(&mut self, part: &mut &[u8]) -> Option<Unit<'_>> {
        let told = self.take(raw::stream_feed_lenient, part);
        self.unit(told)
    }

    /// The stream's end: answers the open unit, if there is one. What is fed next is a new stream.
    pub fn finish(&mut self) -> Option<Unit<'_>> {
        let told = self.end(raw::stream_finish);
        self.unit(told)
    }

    /// The same, but bad pieces of `data` are left out.
    pub fn finish_lenient(&mut self) -> Option<Unit<'_>> {
        let told = self.end(raw::stream_finish_lenient);
        self.unit(told)
    }

    pub(crate) fn take(&mut self, feed: Feed, part: &mut &[u8]) -> Told<RawEntry> {
        // 53 cannot come of this, nor of the end: the buffer has its size, and buffer and state are as the last call left them, since nobody else
        // writes to them; what calls leave is good (proved). Were it to come, it would be told as any refusal.
        let fed = feed(self.state, part, &mut self.rest, &mut self.slots);
        self.state = fed.state;
        *part = part.get(fed.at..).unwrap_or_default();
        fed.told()
    }

    pub(crate) fn end(&mut self, finish: Finish) -> Told<RawEntry> {
        let finished = finish(self.state, &self.rest, &mut self.slots);
        self.state = finished.state;
        finished.told()
    }

    /// What a call told, with the entry over the stream's own bytes and slots.
    pub(crate) fn unit(&self, told: Told<RawEntry>) -> Option<Unit<'_>> {
        match told {
            Ok(entry) => entry.map(|raw| Ok(Entry::over(raw, &self.rest, &self.slots))),
            Err(number) => Some(Err(Refusal::from_number(number))),
        }
    }
}

impl Default for Stream {
    fn default() -> Self {
        Self::new()
    }
}

/// How much of the open unit is kept, without its bytes.
impl fmt::Debug for Stream {
    fn fmt(&self, f: &mut fmt::Formatter<'_>) -> fmt::Result {
        f.debug_struct("Stream")
            .field("held", &self.state.held)
            .field("passed", &self.state.passed)
            .finish_non_exhaustive()
    }
}

#[cfg(test)]
mod alien {
    use super::*;

    fn is_alien(stream: &Stream) -> bool {
        let state = RawStream { held: 9, passed: 1 };
        stream.state == state && stream.rest == [b'x'; REST] && stream.slots == [7; MOST_DWORDS]
    }

    /// A state that safe code cannot make is told as what it is, and nothing changes.
    #[test]
    fn a_state_that_no_stream_leaves_is_53() {
        let mut stream = Stream {
            state: RawStream { held: 9, passed: 1 },
            rest: [b'x'; REST],
            slots: [7; MOST_DWORDS],
        };
        for feed in [Stream::feed, Stream::feed_lenient] {
            let mut part = &b"x\ny\n"[..];
            assert_eq!(feed(&mut stream, &mut part), Some(Err(Refusal::NoStream)));
            assert!(part == b"x\ny\n" && is_alien(&stream));
        }
        for finish in [Stream::finish, Stream::finish_lenient] {
            assert_eq!(finish(&mut stream), Some(Err(Refusal::NoStream)));
            assert!(is_alien(&stream));
        }
    }
}
