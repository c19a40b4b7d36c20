//! C calls that the crate has no use for: the packet with a check of the book, and the small calls that are timed.

use crate::tally::Said;

/// `ck_packet_answer`.
#[repr(C)]
struct PacketAnswer {
    number: u8,
    start: u32,
    has_uuid: u8,
    uuid: [u32; 4],
}

/// `ck_event_text`.
#[repr(C)]
pub struct EventText {
    pub bytes: [u8; 14],
    pub len: usize,
}

unsafe extern "C" {
    fn ck_packet(
        kind: u8,
        book: *const u8,
        book_len: usize,
        dwords: *const u32,
        dwords_len: usize,
        places: *mut u32,
        places_len: usize,
    ) -> PacketAnswer;
    fn ck_book_check(book: *const u8, length: usize) -> u8;
    fn ck_event_name(code: u8) -> EventText;
}

/// What a packet's call says: where the data starts and the UUID only of an answer.
#[derive(PartialEq)]
pub struct Answer {
    pub said: Said,
    pub start: Option<u16>,
    pub uuid: Option<[u32; 4]>,
}

impl Answer {
    pub fn refused(number: u8) -> Self {
        Self {
            said: Said::Refused(number),
            start: None,
            uuid: None,
        }
    }
}

pub fn packet(kind: u8, book: &[u8], dwords: &[u32], places: &mut [u32]) -> Answer {
    // SAFETY: each slice is valid for its length, the places are lent alone, and the call keeps nothing.
    let answer = unsafe {
        ck_packet(
            kind,
            book.as_ptr(),
            book.len(),
            dwords.as_ptr(),
            dwords.len(),
            places.as_mut_ptr(),
            places.len(),
        )
    };
    let said = match answer.number {
        0 => Said::Row,
        number => Said::Refused(number),
    };
    Answer {
        said,
        start: u16::try_from(answer.start).ok(),
        uuid: (answer.has_uuid == 1).then_some(answer.uuid),
    }
}

pub fn book_check(book: &[u8]) -> u8 {
    // SAFETY: the slice is valid for its length, and the call only reads it.
    unsafe { ck_book_check(book.as_ptr(), book.len()) }
}

pub fn event_name(code: u8) -> EventText {
    // SAFETY: any byte is taken.
    unsafe { ck_event_name(code) }
}
