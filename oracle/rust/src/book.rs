//! The book, read strictly from document 01, and its tables as the judged file wants them.
//!
//! The judged file knows no book, so this reader is checked against the one in ../reading only.

use crate::util;
use serde_json::{Map, Value, json};
use std::collections::HashSet;

const LIMIT: usize = 65_535;

pub struct Book {
    pub control: Vec<(u8, Vec<Entry>)>,
    pub protocol: Vec<([u32; 4], Vec<Entry>)>,
    /// Every name of tag 4, 5 or 7, once each, in the order of their places.
    pub names: Vec<String>,
}

pub struct Entry {
    /// Where the entry's tag byte stands in the book.
    pub place: usize,
    offset: u16,
    name: Option<String>,
    kind: Option<String>,
    ranges: Vec<Range>,
}

struct Range {
    low: u8,
    high: u8,
    name: String,
    values: Vec<(u32, String)>,
}

/// A field: its tag, where that tag stands, and its body.
struct Part<'b> {
    tag: u8,
    place: usize,
    body: &'b [u8],
}

impl<'b> Part<'b> {
    /// The fields that fill the body from its `skip`th byte on.
    fn inner(&self, skip: usize) -> Option<Vec<Part<'b>>> {
        parts(self.body.get(skip..)?, self.place + 3 + skip)
    }
}

fn parts(mut rest: &[u8], mut place: usize) -> Option<Vec<Part<'_>>> {
    let mut all = Vec::new();
    while !rest.is_empty() {
        let (&[tag, low, high], behind) = rest.split_first_chunk::<3>()?;
        let length = usize::from(u16::from_le_bytes([low, high]));
        let (body, behind) = behind.split_at_checked(length)?;
        all.push(Part { tag, place, body });
        place += 3 + length;
        rest = behind;
    }
    Some(all)
}

/// The book's tables, none if it breaks the grammar.
pub fn read(bytes: &[u8]) -> Option<Book> {
    if bytes.len() > LIMIT {
        return None;
    }
    let mut book = Book {
        control: Vec::new(),
        protocol: Vec::new(),
        names: Vec::new(),
    };
    for part in parts(bytes, 0)? {
        match part.tag {
            1 => book.control.push(control_table(&part)?),
            2 => book.protocol.push(protocol_table(&part)?),
            _ => return None,
        }
    }
    once(book.control.iter().map(|(kind, _)| kind))?;
    once(book.protocol.iter().map(|(uuid, _)| uuid))?;
    book.names = book.gather_names();
    Some(book)
}

fn control_table(part: &Part) -> Option<(u8, Vec<Entry>)> {
    let kind = *part.body.first()?;
    (1..=12).contains(&kind).then_some(())?;
    Some((kind, entries(part.inner(1)?)?))
}

fn protocol_table(part: &Part) -> Option<([u32; 4], Vec<Entry>)> {
    let (words, _) = part.body.split_first_chunk::<16>()?;
    let word = |i: usize| u32::from_le_bytes(words[4 * i..4 * i + 4].try_into().unwrap());
    Some((
        [word(0), word(1), word(2), word(3)],
        entries(part.inner(16)?)?,
    ))
}

fn entries(parts: Vec<Part>) -> Option<Vec<Entry>> {
    let all: Vec<Entry> = parts.iter().map(entry).collect::<Option<_>>()?;
    once(all.iter().map(|e| (e.offset, &e.kind)))?;
    Some(all)
}

fn entry(part: &Part) -> Option<Entry> {
    (part.tag == 3).then_some(())?;
    let (offset, _) = part.body.split_first_chunk::<2>()?;
    let mut inner = part.inner(2)?.into_iter().peekable();
    let name = inner.next_if(|p| p.tag == 4);
    let kind = inner.next_if(|p| p.tag == 5);
    Some(Entry {
        place: part.place,
        offset: u16::from_le_bytes(*offset),
        name: name.map_or(Some(None), |p| text(p.body).map(Some))?,
        kind: kind.map_or(Some(None), |p| text(p.body).map(Some))?,
        ranges: inner.map(|p| range(&p)).collect::<Option<_>>()?,
    })
}

fn range(part: &Part) -> Option<Range> {
    let (&[low, high], _) = part.body.split_first_chunk::<2>()?;
    (part.tag == 6 && low <= high && high <= 31).then_some(())?;
    let mut inner = part.inner(2)?.into_iter();
    let name = inner.next().filter(|p| p.tag == 4)?;
    let values: Vec<_> = inner.map(|p| value(&p)).collect::<Option<_>>()?;
    once(values.iter().map(|(v, _)| v))?;
    Some(Range {
        low,
        high,
        name: text(name.body)?,
        values,
    })
}

fn value(part: &Part) -> Option<(u32, String)> {
    (part.tag == 7).then_some(())?;
    let (number, name) = part.body.split_first_chunk::<4>()?;
    Some((u32::from_le_bytes(*number), text(name)?))
}

/// A name: 1 to 255 bytes below 128.
fn text(body: &[u8]) -> Option<String> {
    let good = (1..=255).contains(&body.len()) && body.is_ascii();
    good.then(|| body.iter().map(|&b| b as char).collect())
}

/// None if something stands twice.
fn once<T: std::hash::Hash + Eq>(mut all: impl Iterator<Item = T>) -> Option<()> {
    let mut seen = HashSet::new();
    all.all(|one| seen.insert(one)).then_some(())
}

impl Book {
    fn gather_names(&self) -> Vec<String> {
        let control = self.control.iter().flat_map(|(_, entries)| entries);
        let protocol = self.protocol.iter().flat_map(|(_, entries)| entries);
        let mut entries: Vec<&Entry> = control.chain(protocol).collect();
        entries.sort_by_key(|e| e.place);
        let mut seen = HashSet::new();
        let names = entries.into_iter().flat_map(Entry::names);
        names.filter(|n| seen.insert(*n)).cloned().collect()
    }

    pub fn control_json(&self) -> Value {
        let table =
            |(kind, entries): &(u8, Vec<Entry>)| json!({"pdf": kind, "fields": list(entries)});
        self.control.iter().map(table).collect()
    }

    /// The all-zero UUID goes by the word that the judged file looks for.
    pub fn protocol_json(&self) -> Value {
        let mut tables = Map::new();
        for (uuid, entries) in &self.protocol {
            let key = if *uuid == [0; 4] {
                "header".into()
            } else {
                util::uuid_of(uuid).to_string()
            };
            tables.insert(key, list(entries));
        }
        Value::Object(tables)
    }
}

fn list(entries: &[Entry]) -> Value {
    entries.iter().map(Entry::json).collect()
}

impl Entry {
    fn names(&self) -> impl Iterator<Item = &String> {
        let ranges = self
            .ranges
            .iter()
            .flat_map(|r| std::iter::once(&r.name).chain(r.values.iter().map(|(_, name)| name)));
        self.name.iter().chain(&self.kind).chain(ranges)
    }

    fn json(&self) -> Value {
        let mut entry = Map::new();
        entry.insert("offset".into(), self.offset.into());
        if let Some(name) = &self.name {
            entry.insert("name".into(), name.as_str().into());
        }
        if let Some(kind) = &self.kind {
            entry.insert("packet_type".into(), kind.as_str().into());
        }
        if !self.ranges.is_empty() {
            entry.insert(
                "bitfields".into(),
                self.ranges.iter().map(Range::json).collect(),
            );
        }
        Value::Object(entry)
    }
}

impl Range {
    fn json(&self) -> Value {
        let values = self
            .values
            .iter()
            .map(|(v, name)| json!({"value": v, "name": name}));
        json!({
            "name": self.name,
            "low": self.low,
            "high": self.high,
            "values": values.collect::<Vec<_>>(),
        })
    }
}
