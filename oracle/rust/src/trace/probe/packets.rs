//! A packet's answer: descriptions with their places, and every question.

use super::caught;
use crate::{
    Pdf,
    answer::{bit, hex, hex_or_none, list, or_none},
    book::{Book, Entry},
    debugfs::{BitFields, Name},
    trace::{CONTROL_METADATA, ControlPacket, Field, Metadata, XDOMAIN_METADATA},
    util,
};
use std::collections::HashMap;
use uuid::Uuid;

/// The names that are always asked for; the book's own come behind them.
pub const ASKED: [&str; 9] = [
    "UUID",
    "Packet Type",
    "Adapter Num",
    "Address",
    "Offset",
    "Read Size",
    "Write Size",
    "Properties Block Size",
    "Properties Block Generation",
];

/// The book as the judged file holds it: each description's place and table, by its address.
pub struct Tables {
    known: HashMap<*const Metadata, (usize, char)>,
    control: HashMap<u8, usize>,
    asked: Vec<String>,
}

impl Tables {
    /// Call after the book was put into the data folder.
    pub fn new(book: &Book) -> Self {
        let mut known = HashMap::new();
        for (kind, entries) in &book.control {
            pair(
                &mut known,
                &CONTROL_METADATA[&u32::from(*kind)],
                entries,
                'c',
            );
        }
        for (uuid, entries) in &book.protocol {
            let source = if *uuid == [0; 4] { 'h' } else { 'p' };
            pair(
                &mut known,
                &XDOMAIN_METADATA[&util::uuid_of(uuid)],
                entries,
                source,
            );
        }
        let control = book
            .control
            .iter()
            .map(|(kind, entries)| (*kind, entries.len()))
            .collect();
        let new = book
            .names
            .iter()
            .map(String::as_str)
            .filter(|n| !ASKED.contains(n));
        let asked = ASKED.into_iter().chain(new).map(String::from).collect();
        Self {
            known,
            control,
            asked,
        }
    }

    fn of(&self, field: &Field) -> (usize, char) {
        field
            .metadata
            .map_or((0, '-'), |m| self.known[&(m as *const Metadata)])
    }
}

fn pair(
    known: &mut HashMap<*const Metadata, (usize, char)>,
    metadata: &[Metadata],
    entries: &[Entry],
    source: char,
) {
    assert_eq!(metadata.len(), entries.len());
    for (m, e) in metadata.iter().zip(entries) {
        known.insert(m as *const Metadata, (e.place, source));
    }
}

/// One line of text for one packet.
pub fn answer(tables: &Tables, kind: u8, dwords: &[u32]) -> String {
    match caught(|| ControlPacket::parse(Pdf::from_kind(kind), dwords)) {
        Err(number) => format!("panic {}", or_none(number)),
        Ok(None) => "none 21".into(),
        Ok(Some(packet)) => print(tables, &packet, dwords),
    }
}

/// A sum over the packet that a caller can make from any reading of it.
pub fn sum(kind: u8, dwords: &[u32]) -> u64 {
    caught(|| ControlPacket::parse(Pdf::from_kind(kind), dwords))
        .ok()
        .flatten()
        .map_or(0, |packet| {
            let described = packet
                .fields
                .iter()
                .filter(|f| f.metadata.is_some())
                .count();
            let viewed = packet.data().map_or(0, <[u32]>::len);
            1 + described as u64 + viewed as u64 + u64::from(packet.uuid.is_some())
        })
}

fn print(tables: &Tables, packet: &ControlPacket, dwords: &[u32]) -> String {
    let fields = packet.fields();
    let sources: String = fields.iter().map(|f| tables.of(f).1).collect();
    let head = format!(
        "packet n={} places={} sources={} uuid={}",
        tables.control[&packet.pdf().kind()],
        list(fields.iter().map(|f| tables.of(f).0), ","),
        if sources.is_empty() { "-" } else { &sources },
        uuid(packet.uuid().copied()),
    );
    let described = fields.iter().filter(|f| f.metadata.is_some());
    format!(
        "{head} {} {} {} fields={} asked={}",
        route(packet),
        data(packet, dwords),
        class(packet),
        list(described.map(print_field), ","),
        list(tables.asked.iter().map(|name| by_name(packet, name)), ","),
    )
}

fn route(packet: &ControlPacket) -> String {
    let refused = |number: Option<u32>| format!("refused{}", or_none(number));
    format!(
        "route={} cm={} adapter={}",
        caught(|| packet.route()).map_or_else(refused, |r| r.to_string()),
        caught(|| packet.cm()).map_or_else(refused, |c| bit(c).to_string()),
        or_none(packet.adapter_num()),
    )
}

fn data(packet: &ControlPacket, dwords: &[u32]) -> String {
    let view = packet.data().map(|view| {
        let start = (view.as_ptr() as usize - dwords.as_ptr() as usize) / 4;
        format!("{start}+{}", view.len())
    });
    format!(
        "address={} start={} size={} view={}",
        or_none(packet.data_address()),
        or_none(packet.data_start()),
        or_none(packet.data_size()),
        or_none(view),
    )
}

fn class(packet: &ControlPacket) -> String {
    let kind = match caught(|| packet.packet_type()) {
        Err(number) => format!("refused{}", or_none(number)),
        Ok(None) => "-".into(),
        Ok(Some((value, name))) => format!("{value}:{}", hex(name.as_bytes())),
    };
    format!(
        "read={} write={} xdomain={} type={kind}",
        bit(packet.is_read()),
        bit(packet.is_write()),
        bit(packet.is_xdomain()),
    )
}

fn print_field(field: &Field) -> String {
    let mut text = format!("{}:{}", field.offset(), hex_or_none(field.name()));
    for range in field.fields().into_iter().flatten() {
        let value = field.field_value(range);
        let (low, high) = (range.range().start(), range.range().end());
        let name = hex_or_none(range.value_name(value));
        text += &format!(";{low}-{high}={value}:{name}");
    }
    text
}

fn by_name(packet: &ControlPacket, name: &str) -> String {
    let index = |field: Option<&Field>| or_none(field.map(|f| f.offset()));
    format!(
        "{}:{}:{}",
        uuid(packet.uuid_by_name(name)),
        index(packet.field_by_name(name)),
        index(packet.field_by_bitfield_name(name)),
    )
}

fn uuid(one: Option<Uuid>) -> String {
    or_none(one.map(|u| list(util::dwords_of(u).map(|d| format!("{d:08x}")), ".")))
}
