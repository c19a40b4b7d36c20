//! Why there is no answer.
use core::error::Error;
use core::fmt;

/// One row a number: the case, the document's number, and a sentence.
macro_rules! refusals {
    ($($case:ident = $number:literal, $sentence:literal;)*) => {
        /// Why a text, a book, an entry or a table has no answer. Each case has one number of documents 01 and 02.
        #[derive(Clone, Copy, Debug, PartialEq, Eq, Hash)]
        #[non_exhaustive]
        pub enum Refusal {
            $(#[doc = concat!("Number ", $number, ": ", $sentence, ".")] $case,)*
            /// A number that this crate does not know: the archive is newer than the crate.
            Unlisted(u8),
        }

        impl Refusal {
            /// Every case that has a number of the documents, in the order of the numbers.
            pub const ALL: &'static [Refusal] = &[$(Refusal::$case,)*];

            pub(crate) fn from_number(number: u8) -> Self {
                match number {
                    $($number => Refusal::$case,)*
                    other => Refusal::Unlisted(other),
                }
            }

            /// The document's number.
            pub fn number(self) -> u8 {
                match self {
                    $(Refusal::$case => $number,)*
                    Refusal::Unlisted(number) => number,
                }
            }
        }

        impl fmt::Display for Refusal {
            fn fmt(&self, f: &mut fmt::Formatter<'_>) -> fmt::Result {
                match self {
                    $(Refusal::$case => f.pad($sentence),)*
                    Refusal::Unlisted(number) => write!(f, "refused with number {number}"),
                }
            }
        }
    };
}

refusals! {
    Idle = 1, "the line is empty, a newline alone, or a comment";
    LongLine = 2, "the line has more than 4,096 bytes";
    NotAscii = 3, "the line has a byte of 128 or more";
    NoColon = 4, "no colon parts header from payload";
    NoTask = 5, "the header has no task";
    NoPid = 6, "the header has no pid, or one past 32 bits";
    NoCpu = 7, "the header has no CPU in brackets";
    NoTimestamp = 8, "the header has no timestamp, or one with a part past 63 bits";
    NoFunction = 9, "the header does not end with a function";
    NoType = 11, "the payload has no `type`";
    NoSize = 12, "`size` is missing or no decimal of 16 bits";
    NoDomain = 13, "`domain` is missing or no decimal of 32 bits";
    NoRoute = 14, "`route` is missing or no hex number of 64 bits";
    NoData = 15, "`data` is missing or not in brackets";
    ManyDwords = 16, "the line has more than 256 dwords";
    FewSlots = 17, "fewer slots are lent than the line has dwords";
    BadPiece = 18, "a piece of `data` is no hex number of 32 bits";
    BadBook = 20, "the book breaks its grammar";
    NoKind = 21, "the packet is of no known kind";
    NoTable = 22, "the book has no control table for the kind";
    NoHeaderTable = 23, "the book has no header table for kind 8 or 9";
    LongPacket = 24, "the packet has more than 256 dwords";
    ShortPacket = 25, "a packet of kind 2 or 3 has fewer dwords than its table has entries";
    FewPlaces = 26, "fewer places are lent than the packet has dwords";
    NoPacketRoute = 27, "a packet of fewer than two dwords has no route";
    UnnamedType = 28, "the value of `Packet Type` has no name";
    NoRecord = 30, "no record: under 3 bytes, not A1 first, or a length that is not the rest";
    Overrun = 31, "a field of the record runs past the end";
    BadTag = 32, "a tag of the record is unknown, repeated or not ascending";
    MissingTag = 33, "a required tag of the record is missing";
    BadBody = 34, "the body of a record's field breaks its rule";
    FewRecordSlots = 35, "fewer slots are lent than the record has dwords";
    ShortBuffer = 36, "the lent buffer is too short for the record";
    BadEntry = 37, "the entry is out of the record's ranges, or its parts lie outside what is lent";
    TableSize = 50, "the table of requests has no slot, or more than 64";
    BrokenTable = 51, "the waiting slots do not carry the ranks 1 to their number once each, or one of them has a route with its top bit set, or neither reads nor writes";
    NoStream = 53, "the rest buffer is not of 8,192 bytes, or no stream leaves the kept state";
    CutRecord = 54, "the stream ends inside a record (one that says more than 5,227 bytes is 55)";
    LongRecord = 55, "the record says that it has more than 5,227 bytes";
}

impl Error for Refusal {}
