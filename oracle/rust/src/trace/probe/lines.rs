//! A line's answer: every field of the entry, or the step at which the judged file gives up.

use super::caught;
use crate::{
    Pdf,
    answer::{bit, hex, list, or_none},
    trace::{Entry, Event},
    util,
};

/// One line of text for one line of trace.
pub fn answer(bytes: &[u8]) -> String {
    let Ok(line) = std::str::from_utf8(bytes) else {
        return "notutf8".into();
    };
    match caught(|| (Entry::parse(line), stop(line))) {
        Err(_) => "panic".into(),
        Ok((Some(entry), None)) => print(&entry),
        Ok((None, Some(step))) => format!("none {step}"),
        Ok(_) => "torn".into(),
    }
}

/// A sum over the entry that a caller can make from any reading of the line.
pub fn sum(line: &str) -> u64 {
    Entry::parse(line).map_or(0, |entry| {
        let dwords = entry
            .data
            .iter()
            .fold(0u64, |sum, &d| sum.wrapping_add(d.into()));
        1 + u64::from(entry.pdf.kind()) + entry.data.len() as u64 + dwords
    })
}

/// The judged file's own steps, in its order; the number is document 01's.
fn stop(line: &str) -> Option<u32> {
    if line.is_empty() || line.starts_with('#') {
        return Some(1);
    }
    let Some((header, payload)) = line.rsplit_once(':') else {
        return Some(4);
    };
    header_stop(header.trim()).or_else(|| payload_stop(payload.trim()))
}

fn header_stop(header: &str) -> Option<u32> {
    let steps = [
        (5, Entry::parse_task(header).is_some()),
        (6, Entry::parse_pid(header).is_some()),
        (7, Entry::parse_cpu(header).is_some()),
        (8, Entry::parse_timestamp(header).is_some()),
        (9, Entry::parse_function(header).is_some()),
    ];
    first_miss(&steps)
}

fn payload_stop(payload: &str) -> Option<u32> {
    let Some(pairs) = Entry::parse_kv(payload) else {
        // The `?` of `parse_kv`: it was never seen to stop there, and no number of ours is 10.
        return Some(10);
    };
    let of = |key: &str| pairs.get(key);
    let steps = [
        (11, of("type").is_some()),
        (12, of("size").is_some_and(|v| v.parse::<u16>().is_ok())),
        (13, of("domain").is_some_and(|v| v.parse::<u32>().is_ok())),
        (
            14,
            of("route").is_some_and(|v| util::parse_route(v).is_ok()),
        ),
        (
            15,
            of("data").is_some_and(|v| Entry::parse_data(v).is_some()),
        ),
    ];
    first_miss(&steps)
}

fn first_miss(steps: &[(u32, bool)]) -> Option<u32> {
    steps
        .iter()
        .find(|(_, reached)| !reached)
        .map(|(number, _)| *number)
}

fn print(entry: &Entry) -> String {
    let head = format!(
        "entry task={} pid={} cpu={} sec={} usec={} function={}",
        hex(entry.task().as_bytes()),
        entry.pid(),
        entry.cpu(),
        entry.timestamp().tv_sec(),
        entry.timestamp().tv_usec(),
        hex(entry.function().as_bytes()),
    );
    let body = format!(
        "kind={} size={} dropped={} domain={} route={}",
        Pdf::kind(entry.pdf()),
        entry.size(),
        bit(entry.dropped()),
        entry.domain_index(),
        entry.route(),
    );
    let dwords = list(entry.data().iter().map(|d| format!("{d:08x}")), ",");
    let count = entry.data().len();
    format!(
        "{head} {body} {} dwords={count} data={dwords}",
        print_optional(entry)
    )
}

fn print_optional(entry: &Entry) -> String {
    format!(
        "offset={} event={} len={} port={} config={} seq={} unplug={} \
         adapter={} unplugged={} name={}",
        or_none(entry.offset()),
        or_none(entry.event().map(code)),
        or_none(entry.dwords()),
        or_none(entry.adapter_num),
        or_none(entry.cs().map(|config| config.0)),
        or_none(entry.sn()),
        or_none(entry.unplug),
        or_none(entry.adapter_num()),
        or_none(entry.unplug().map(bit)),
        or_none(entry.event()),
    )
}

/// The byte that the event was made from; no two bytes make the same event.
fn code(event: Event) -> u8 {
    (0..=255).find(|&byte| Event::from(byte) == event).unwrap()
}
