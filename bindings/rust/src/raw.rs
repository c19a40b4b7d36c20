//! The C calls, and safe functions over them. All that is unsafe stands here.

/// Stands for an optional field that is absent, and for a question without an answer.
const NONE: u32 = 0xffff_ffff;

/// `ck_entry`.
#[derive(Clone, Copy, Debug)]
#[repr(C)]
pub struct RawEntry {
    pub task_at: usize,
    pub task_len: usize,
    pub pid: u32,
    pub cpu: u16,
    pub seconds: u64,
    pub microseconds: u64,
    pub function_at: usize,
    pub function_len: usize,
    pub kind: u8,
    pub size: u16,
    pub dropped: u8,
    pub domain: u32,
    pub route: u64,
    pub offset: u32,
    pub code: u32,
    pub len: u32,
    pub port: u32,
    pub config: u32,
    pub seq: u32,
    pub unplug: u32,
    pub dwords: usize,
}

/// `ck_entry_answer`.
#[repr(C)]
pub struct EntryAnswer {
    number: u8,
    entry: RawEntry,
}

/// `ck_what_answer`.
#[repr(C)]
pub struct WhatAnswer {
    number: u8,
    what: u8,
}

/// `ck_write_answer`.
#[repr(C)]
pub struct WriteAnswer {
    number: u8,
    bytes: usize,
}

/// `ck_event_text`.
#[repr(C)]
pub struct EventText {
    pub bytes: [u8; 14],
    pub len: usize,
}

/// `ck_packet_answer`.
#[repr(C)]
pub struct PacketAnswer {
    number: u8,
    start: u32,
    has_uuid: u8,
    uuid: [u32; 4],
}

/// `ck_value`.
#[repr(C)]
pub struct Value {
    number: u8,
    present: u8,
    value: u64,
}

/// `ck_uuid`.
#[repr(C)]
pub struct Uuid {
    number: u8,
    present: u8,
    dwords: [u32; 4],
}

/// `ck_type`.
#[repr(C)]
pub struct Type {
    number: u8,
    present: u8,
    value: u32,
    name: usize,
}

/// `ck_field_answer`.
#[derive(Clone, Copy, Debug)]
#[repr(C)]
pub struct RawField {
    number: u8,
    present: u8,
    pub offset: u16,
    pub value: u32,
    pub source: u8,
    pub entry: usize,
}

/// `ck_range_answer`.
#[derive(Clone, Copy, Debug)]
#[repr(C)]
pub struct RawRange {
    present: u8,
    pub low: u8,
    pub high: u8,
    pub value: u32,
    pub place: usize,
}

/// `ck_name_part`.
#[repr(C)]
pub struct NamePart {
    at: usize,
    len: usize,
}

/// What a request and its response share.
#[derive(Clone, Copy, Debug, Default, PartialEq, Eq, Hash)]
#[repr(C)]
pub struct Four {
    /// The route without its top bit, which responses carry.
    pub route: u64,
    /// The domain.
    pub domain: u32,
    /// The sequence number.
    pub seq: u8,
    /// 1 if it writes, 0 if it reads. A waiting slot with another value is refused with 51.
    pub write: u8,
}

/// A slot of a table of requests.
#[derive(Clone, Copy, Debug, Default, PartialEq, Eq, Hash)]
#[repr(C)]
pub struct Slot {
    /// The request's. A slot that was freed keeps it, and of a free slot nothing but its rank is judged.
    pub four: Four,
    /// 0 for a free slot; of those that wait 1 is the oldest, 2 the next.
    pub rank: u32,
}

/// `ck_step_answer`.
#[repr(C)]
pub struct StepAnswer {
    number: u8,
    report: u8,
    place: usize,
}

/// `ck_count_answer`.
#[repr(C)]
pub struct CountAnswer {
    number: u8,
    count: u32,
}

/// `ck_place_answer`.
#[repr(C)]
pub struct PlaceAnswer {
    number: u8,
    present: u8,
    place: usize,
}

/// `ck_stream`.
#[derive(Clone, Copy, Debug, Default, PartialEq, Eq)]
#[repr(C)]
pub struct RawStream {
    pub held: usize,
    pub passed: usize,
}

/// `ck_stream_answer`.
#[repr(C)]
pub struct StreamAnswer {
    number: u8,
    ended: u8,
    pub at: usize,
    pub state: RawStream,
    entry: RawEntry,
}

/// `ck_hex_answer`.
#[repr(C)]
pub struct HexAnswer {
    number: u8,
    pub what: u8,
    pub value: u64,
    pub bad: usize,
    pub at: usize,
    pub len: usize,
}

/// One row a call, as the header has it: a slice stands in brackets, and C takes it as a pointer and a length. Each row makes the declaration and
/// a safe function of the same name over it.
macro_rules! calls {
    ($($name:ident($($given:tt)*) -> $answer:ty;)*) => {
        $(calls!(@ $name $answer; () () (); $($given)*);)*
    };
    (@ $name:ident $answer:ty; ($($declared:tt)*) ($($taken:tt)*) ($($passed:tt)*);) => {
        fn $name($($taken)*) -> $answer {
            unsafe extern "C" {
                fn $name($($declared)*) -> $answer;
            }
            // SAFETY: a slice is valid for its length, also an empty one, and a `&mut` overlaps nothing. The call takes any input, keeps no
            // pointer, and writes only inside what it is lent for writing (proved).
            unsafe { $name($($passed)*) }
        }
    };
    (@ $name:ident $answer:ty; ($($d:tt)*) ($($t:tt)*) ($($p:tt)*); [mut $s:ident: $of:ty] $(, $($rest:tt)*)?) => {
        calls!(@ $name $answer; ($($d)* $s: *mut $of, _: usize,) ($($t)* $s: &mut [$of],) ($($p)* $s.as_mut_ptr(), $s.len(),); $($($rest)*)?);
    };
    (@ $name:ident $answer:ty; ($($d:tt)*) ($($t:tt)*) ($($p:tt)*); [$s:ident: $of:ty] $(, $($rest:tt)*)?) => {
        calls!(@ $name $answer; ($($d)* $s: *const $of, _: usize,) ($($t)* $s: &[$of],) ($($p)* $s.as_ptr(), $s.len(),); $($($rest)*)?);
    };
    (@ $name:ident $answer:ty; ($($d:tt)*) ($($t:tt)*) ($($p:tt)*); $n:ident: $of:ty $(, $($rest:tt)*)?) => {
        calls!(@ $name $answer; ($($d)* $n: $of,) ($($t)* $n: $of,) ($($p)* $n,); $($($rest)*)?);
    };
}

calls! {
    ck_parse([line: u8], [mut slots: u32]) -> EntryAnswer;
    ck_parse_lenient([line: u8], [mut slots: u32]) -> EntryAnswer;
    ck_record_read([text: u8], [mut slots: u32]) -> EntryAnswer;
    ck_read([text: u8], [mut slots: u32]) -> EntryAnswer;
    ck_read_lenient([text: u8], [mut slots: u32]) -> EntryAnswer;
    ck_what([text: u8]) -> WhatAnswer;
    ck_what_lenient([text: u8]) -> WhatAnswer;
    ck_record_write([text: u8], entry: RawEntry, [dwords: u32], [mut out: u8]) -> WriteAnswer;
    ck_book_check([book: u8]) -> u8;
    ck_event_name(code: u8) -> EventText;
    ck_adapter_num(entry: RawEntry) -> u32;
    ck_unplug(entry: RawEntry) -> u32;
    ck_checked_packet(kind: u8, [book: u8], [dwords: u32], [mut places: u32]) -> PacketAnswer;
    ck_described_route([dwords: u32]) -> Value;
    ck_described_cm([dwords: u32]) -> Value;
    ck_described_value([book: u8], [dwords: u32], [places: u32], [name: u8]) -> Value;
    ck_described_adapter_num([book: u8], [dwords: u32], [places: u32]) -> Value;
    ck_described_data_address(kind: u8, [book: u8], [dwords: u32], [places: u32]) -> Value;
    ck_described_data_size(kind: u8, [book: u8], [dwords: u32], [places: u32]) -> Value;
    ck_described_uuid_by_name([book: u8], [dwords: u32], [places: u32], [name: u8]) -> Uuid;
    ck_described_type([book: u8], [dwords: u32], [places: u32]) -> Type;
    ck_described_field(kind: u8, [book: u8], [dwords: u32], [places: u32], offset: u16) -> RawField;
    ck_described_field_by_name(kind: u8, [book: u8], [dwords: u32], [places: u32], [name: u8]) -> RawField;
    ck_described_field_by_range(kind: u8, [book: u8], [dwords: u32], [places: u32], [name: u8]) -> RawField;
    ck_range_count([book: u8], entry: usize) -> usize;
    ck_range([book: u8], entry: usize, dword: u32, k: usize) -> RawRange;
    ck_range_named([book: u8], entry: usize, dword: u32, [name: u8]) -> RawRange;
    ck_name_at([book: u8], place: usize) -> NamePart;
    ck_value_at([book: u8], range: usize, number: u32) -> usize;
    ck_pending_clear([mut slots: Slot]) -> ();
    ck_pending_step(entry: RawEntry, [mut slots: Slot]) -> StepAnswer;
    ck_pending_waiting([slots: Slot]) -> CountAnswer;
    ck_pending_oldest([slots: Slot], k: u32) -> PlaceAnswer;
    ck_stream_feed(state: RawStream, [part: u8], [mut rest: u8], [mut slots: u32]) -> StreamAnswer;
    ck_stream_feed_lenient(state: RawStream, [part: u8], [mut rest: u8], [mut slots: u32]) -> StreamAnswer;
    ck_stream_finish(state: RawStream, [rest: u8], [mut slots: u32]) -> StreamAnswer;
    ck_stream_finish_lenient(state: RawStream, [rest: u8], [mut slots: u32]) -> StreamAnswer;
    ck_hex_key([line: u8], key: u8) -> HexAnswer;
    ck_hex_piece([line: u8], piece: usize) -> HexAnswer;
}

/// A number other than 0 is the refusal's.
fn accepted<T>(number: u8, answer: T) -> Result<T, u8> {
    if number == 0 { Ok(answer) } else { Err(number) }
}

fn entry(answer: EntryAnswer) -> Result<RawEntry, u8> {
    accepted(answer.number, answer.entry)
}

pub fn parse(line: &[u8], slots: &mut [u32]) -> Result<RawEntry, u8> {
    entry(ck_parse(line, slots))
}

pub fn parse_lenient(line: &[u8], slots: &mut [u32]) -> Result<RawEntry, u8> {
    entry(ck_parse_lenient(line, slots))
}

pub fn record_read(text: &[u8], slots: &mut [u32]) -> Result<RawEntry, u8> {
    entry(ck_record_read(text, slots))
}

pub fn read(text: &[u8], slots: &mut [u32]) -> Result<RawEntry, u8> {
    entry(ck_read(text, slots))
}

pub fn read_lenient(text: &[u8], slots: &mut [u32]) -> Result<RawEntry, u8> {
    entry(ck_read_lenient(text, slots))
}

/// Is it a record, and not a line?
fn is_record(answer: WhatAnswer) -> Result<bool, u8> {
    /// `CK_IS_RECORD`.
    const RECORD: u8 = 2;
    accepted(answer.number, answer.what == RECORD)
}

pub fn what(text: &[u8]) -> Result<bool, u8> {
    is_record(ck_what(text))
}

pub fn what_lenient(text: &[u8]) -> Result<bool, u8> {
    is_record(ck_what_lenient(text))
}

/// How many bytes were written.
pub fn record_write(
    text: &[u8],
    entry: RawEntry,
    dwords: &[u32],
    out: &mut [u8],
) -> Result<usize, u8> {
    let answer = ck_record_write(text, entry, dwords, out);
    accepted(answer.number, answer.bytes)
}

pub fn book_check(book: &[u8]) -> Result<(), u8> {
    accepted(ck_book_check(book), ())
}

pub fn event_name(code: u8) -> EventText {
    ck_event_name(code)
}

pub fn adapter_num(entry: RawEntry) -> Option<u8> {
    byte(ck_adapter_num(entry))
}

pub fn unplug(entry: RawEntry) -> Option<bool> {
    byte(ck_unplug(entry)).map(|answer| answer == 1)
}

/// An optional field of one byte.
pub fn byte(n: u32) -> Option<u8> {
    (n != NONE).then_some(n as u8)
}

/// An optional field of two bytes.
pub fn word(n: u32) -> Option<u16> {
    (n != NONE).then_some(n as u16)
}

/// What a question is told: a value, none, or a refusal's number.
pub type Told<T> = Result<Option<T>, u8>;

fn told<T>(number: u8, present: u8, answer: T) -> Told<T> {
    accepted(number, (present == 1).then_some(answer))
}

fn value(v: Value) -> Told<u64> {
    told(v.number, v.present, v.value)
}

fn field(f: RawField) -> Told<RawField> {
    told(f.number, f.present, f)
}

fn range(r: RawRange) -> Option<RawRange> {
    (r.present == 1).then_some(r)
}

/// Where the data view starts, and the UUID.
pub type Made = (Option<u16>, Option<[u32; 4]>);

/// The packet over a book that was checked.
pub fn packet(kind: u8, book: &[u8], dwords: &[u32], places: &mut [u32]) -> Result<Made, u8> {
    let p = ck_checked_packet(kind, book, dwords, places);
    let uuid = (p.has_uuid == 1).then_some(p.uuid);
    accepted(p.number, (word(p.start), uuid))
}

/// A described packet: what every question takes.
#[derive(Clone, Copy, Debug)]
pub struct Described<'a> {
    pub kind: u8,
    pub book: &'a [u8],
    pub dwords: &'a [u32],
    pub places: &'a [u32],
}

impl Described<'_> {
    pub fn route(self) -> Told<u64> {
        value(ck_described_route(self.dwords))
    }

    pub fn cm(self) -> Told<u64> {
        value(ck_described_cm(self.dwords))
    }

    pub fn value(self, name: &[u8]) -> Told<u64> {
        value(ck_described_value(
            self.book,
            self.dwords,
            self.places,
            name,
        ))
    }

    pub fn adapter_num(self) -> Told<u64> {
        value(ck_described_adapter_num(
            self.book,
            self.dwords,
            self.places,
        ))
    }

    pub fn data_address(self) -> Told<u64> {
        let (b, d, p) = (self.book, self.dwords, self.places);
        value(ck_described_data_address(self.kind, b, d, p))
    }

    pub fn data_size(self) -> Told<u64> {
        let (b, d, p) = (self.book, self.dwords, self.places);
        value(ck_described_data_size(self.kind, b, d, p))
    }

    pub fn uuid_by_name(self, name: &[u8]) -> Told<[u32; 4]> {
        let u = ck_described_uuid_by_name(self.book, self.dwords, self.places, name);
        told(u.number, u.present, u.dwords)
    }

    /// Its value, and the place of its name.
    pub fn packet_type(self) -> Told<(u32, usize)> {
        let t = ck_described_type(self.book, self.dwords, self.places);
        told(t.number, t.present, (t.value, t.name))
    }

    pub fn field(self, offset: u16) -> Told<RawField> {
        let (b, d, p) = (self.book, self.dwords, self.places);
        field(ck_described_field(self.kind, b, d, p, offset))
    }

    pub fn field_by_name(self, name: &[u8]) -> Told<RawField> {
        let (b, d, p) = (self.book, self.dwords, self.places);
        field(ck_described_field_by_name(self.kind, b, d, p, name))
    }

    pub fn field_by_range(self, name: &[u8]) -> Told<RawField> {
        let (b, d, p) = (self.book, self.dwords, self.places);
        field(ck_described_field_by_range(self.kind, b, d, p, name))
    }
}

pub fn range_count(book: &[u8], entry: usize) -> usize {
    ck_range_count(book, entry)
}

pub fn nth_range(book: &[u8], entry: usize, dword: u32, k: usize) -> Option<RawRange> {
    range(ck_range(book, entry, dword, k))
}

pub fn range_named(book: &[u8], entry: usize, dword: u32, name: &[u8]) -> Option<RawRange> {
    range(ck_range_named(book, entry, dword, name))
}

/// The name at a place: a part of the book, none where it would be empty.
pub fn name(book: &[u8], place: usize) -> Option<&str> {
    let part = ck_name_at(book, place);
    // A name lies inside the book (proved) and a checked book's is ASCII; were it not so, there would be none and no harm done.
    let bytes = book.get(part.at..)?.get(..part.len)?;
    let text = core::str::from_utf8(bytes).ok()?;
    (!text.is_empty()).then_some(text)
}

/// The name that the bit range at a place gives to a number.
pub fn value_name(book: &[u8], range: usize, number: u32) -> Option<&str> {
    name(book, ck_value_at(book, range, number))
}

pub fn pending_clear(slots: &mut [Slot]) {
    ck_pending_clear(slots)
}

/// `CK_PENDING_..`, and the place.
pub fn pending_step(entry: RawEntry, slots: &mut [Slot]) -> Result<(u8, usize), u8> {
    let answer = ck_pending_step(entry, slots);
    accepted(answer.number, (answer.report, answer.place))
}

pub fn pending_waiting(slots: &[Slot]) -> Result<u32, u8> {
    let answer = ck_pending_waiting(slots);
    accepted(answer.number, answer.count)
}

pub fn pending_oldest(slots: &[Slot], k: u32) -> Told<usize> {
    let answer = ck_pending_oldest(slots, k);
    told(answer.number, answer.present, answer.place)
}

impl StreamAnswer {
    /// The entry of the unit that ended, none if no unit has, or the number.
    pub fn told(self) -> Told<RawEntry> {
        told(self.number, self.ended, self.entry)
    }
}

pub fn stream_feed(
    state: RawStream,
    part: &[u8],
    rest: &mut [u8],
    slots: &mut [u32],
) -> StreamAnswer {
    ck_stream_feed(state, part, rest, slots)
}

pub fn stream_feed_lenient(
    state: RawStream,
    part: &[u8],
    rest: &mut [u8],
    slots: &mut [u32],
) -> StreamAnswer {
    ck_stream_feed_lenient(state, part, rest, slots)
}

pub fn stream_finish(state: RawStream, rest: &[u8], slots: &mut [u32]) -> StreamAnswer {
    ck_stream_finish(state, rest, slots)
}

pub fn stream_finish_lenient(state: RawStream, rest: &[u8], slots: &mut [u32]) -> StreamAnswer {
    ck_stream_finish_lenient(state, rest, slots)
}

pub fn hex_key(line: &[u8], key: u8) -> Told<HexAnswer> {
    hex(ck_hex_key(line, key))
}

pub fn hex_piece(line: &[u8], piece: usize) -> Told<HexAnswer> {
    hex(ck_hex_piece(line, piece))
}

fn hex(answer: HexAnswer) -> Told<HexAnswer> {
    /// `CK_HEX_ABSENT`.
    const ABSENT: u8 = 0;
    accepted(answer.number, (answer.what != ABSENT).then_some(answer))
}

#[cfg(test)]
mod layout {
    extern crate std;
    use super::*;
    use core::mem::{offset_of, size_of};
    use std::format;
    use std::string::String;

    /// How many bytes a field takes, by a function that would hand it out.
    fn size_of_field<S, F>(_: fn(&S) -> &F) -> usize {
        size_of::<F>()
    }

    /// A row for the struct and one for each field, by the names of the header: offset and size.
    macro_rules! rows {
        ($($header:ident $ours:ident { $($field:ident),* })*) => {{
            let mut rows = String::new();
            $(
                rows += &format!("{} 0 {}\n", stringify!($header), size_of::<$ours>());
                $(
                    let (at, size) = (offset_of!($ours, $field), size_of_field(|s: &$ours| &s.$field));
                    rows += &format!("{}.{} {at} {size}\n", stringify!($header), stringify!($field));
                )*
            )*
            rows
        }};
    }

    /// The file that the C test holds the header to; this crate asks for a text's entry first and has no `ck_text_packet`.
    #[test]
    fn each_field_lies_where_it_does_in_c() {
        let ours = rows! {
            ck_entry RawEntry {
                task_at, task_len, pid, cpu, seconds, microseconds, function_at, function_len, kind, size, dropped, domain, route, offset, code,
                len, port, config, seq, unplug, dwords
            }
            ck_entry_answer EntryAnswer { number, entry }
            ck_what_answer WhatAnswer { number, what }
            ck_write_answer WriteAnswer { number, bytes }
            ck_event_text EventText { bytes, len }
            ck_packet_answer PacketAnswer { number, start, has_uuid, uuid }
            ck_value Value { number, present, value }
            ck_uuid Uuid { number, present, dwords }
            ck_type Type { number, present, value, name }
            ck_field_answer RawField { number, present, offset, value, source, entry }
            ck_range_answer RawRange { present, low, high, value, place }
            ck_name_part NamePart { at, len }
            ck_four Four { route, domain, seq, write }
            ck_slot Slot { four, rank }
            ck_step_answer StepAnswer { number, report, place }
            ck_count_answer CountAnswer { number, count }
            ck_place_answer PlaceAnswer { number, present, place }
            ck_stream RawStream { held, passed }
            ck_stream_answer StreamAnswer { number, ended, at, state, entry }
            ck_hex_answer HexAnswer { number, what, value, bad, at, len }
        };
        let promised: String = include_str!("../../../tests/capi/layout.txt")
            .split_inclusive('\n')
            .filter(|row| !row.starts_with("ck_text_packet"))
            .collect();
        assert_eq!(ours, promised);
    }
}
