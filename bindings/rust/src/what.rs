//! What a text is.
use crate::{Refusal, raw};

/// What a text is: exactly one of the three, for every text.
#[derive(Clone, Copy, Debug, PartialEq, Eq, Hash)]
pub enum What {
    /// It belongs to the record grammar: it is what writing an entry gives, so it is decoded already.
    Record,
    /// It belongs to the line grammar: that of [`what`] has no bad piece of `data`, that of [`what_lenient`] may have some.
    Line,
    /// It belongs to neither, and this is why.
    Neither(Refusal),
}

/// What a text is. Nothing is lent for writing, and no text is refused for want of slots.
///
/// ```
/// use chomkadieu::{Refusal, What, what};
///
/// assert_eq!(what(b"a-1 [002] 1.2: f: type=t size=3 domain=0 route=0 data=[1]"), What::Line);
/// assert_eq!(what(b"nonsense"), What::Neither(Refusal::NoColon));
/// assert_eq!(what(b"\xa1"), What::Neither(Refusal::NoRecord));
/// ```
pub fn what(text: &[u8]) -> What {
    told(raw::what(text))
}

/// The same, but a line with a bad piece of `data` is a line, as [`Entry::read_lenient`](crate::Entry::read_lenient) reads it.
///
/// ```
/// use chomkadieu::{Refusal, What, what, what_lenient};
///
/// let line = b"a-1 [002] 1.2: f: type=t size=3 domain=0 route=0 data=[0x04zz]";
/// assert_eq!((what(line), what_lenient(line)), (What::Neither(Refusal::BadPiece), What::Line));
/// ```
pub fn what_lenient(text: &[u8]) -> What {
    told(raw::what_lenient(text))
}

fn told(is_record: Result<bool, u8>) -> What {
    match is_record {
        Ok(true) => What::Record,
        Ok(false) => What::Line,
        Err(number) => What::Neither(Refusal::from_number(number)),
    }
}
