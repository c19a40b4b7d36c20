//! The readers of lines and of packets: tbtools as the oracle has it, and the crate.

use super::race;
use crate::packet::kind_of;
use chomkadieu::{Book, ControlPacket, Entry, MOST_DWORDS, Pdf, Refusal};
use oracle::frames::{frames, packet};
use oracle::linked::{self, put_book};
use std::fs;
use std::io::{self, Error};

/// Lines to entries, then the entries' packets over a book.
pub fn lines(book: &str, file: &str) -> io::Result<()> {
    let (book, bytes) = (fs::read(book)?, fs::read(file)?);
    let rust = linked::Lines::new(&bytes).ok_or_else(cut)?;
    let mut texts = frames(&bytes).ok_or_else(cut)?;
    // The judged reader cannot be given other lines.
    texts.retain(|line| std::str::from_utf8(line).is_ok());
    let mean = rust.bytes() as f64 / texts.len() as f64;
    println!("{} lines of {mean:.1} bytes on average", texts.len());
    let (mut slots, mut other) = ([0; MOST_DWORDS], [0; MOST_DWORDS]);
    let mut lenient = || {
        sum_all(&texts, |line| {
            line_sum(Entry::parse_lenient(line, &mut slots))
        })
    };
    // Kernel-like lines have no bad piece, so that the sums are the same.
    let mut strict = || sum_all(&texts, |line| line_sum(Entry::parse(line, &mut other)));
    race(
        "line",
        texts.len(),
        &mut [
            ("tbtools Entry::parse", &mut || rust.run()),
            ("chomkadieu Entry::parse_lenient", &mut lenient),
            ("chomkadieu Entry::parse", &mut strict),
        ],
    )?;
    entries(&book, &texts)
}

fn cut() -> Error {
    Error::other("a frame is cut short")
}

fn sum_all<T>(all: &[T], mut one: impl FnMut(&T) -> u64) -> u64 {
    all.iter().fold(0, |sum, item| sum.wrapping_add(one(item)))
}

/// What the oracle sums up for a line.
fn line_sum(entry: Result<Entry, Refusal>) -> u64 {
    let Ok(entry) = entry else {
        return 0;
    };
    let data = entry.data();
    let dwords = sum_all(data, |&dword| dword.into());
    (1 + u64::from(entry.pdf().kind()) + data.len() as u64).wrapping_add(dwords)
}

/// What the oracle sums up for a packet, but for its described dwords.
fn packet_sum(packet: ControlPacket) -> u64 {
    let view = packet.data().map_or(0, <[u32]>::len);
    1 + view as u64 + u64::from(packet.uuid().is_some())
}

/// The sum with them: they have a place, which can be read once the packet has given the places back.
fn whole_sum(sum: Result<u64, Refusal>, places: &[u32]) -> u64 {
    let described = places.iter().filter(|place| **place != 0).count();
    sum.map_or(0, |sum| sum + described as u64)
}

fn entry_sum(entry: &Entry, book: Book, places: &mut [u32]) -> u64 {
    let sum = entry.packet(book, places).map(packet_sum);
    whole_sum(sum, &places[..entry.data().len()])
}

fn parsed_sum(pdf: Pdf, dwords: &[u32], book: Book, places: &mut [u32]) -> u64 {
    let sum = ControlPacket::parse(pdf, book, dwords, places).map(packet_sum);
    whole_sum(sum, &places[..dwords.len()])
}

/// The packets of those lines that have one, the entries read beforehand.
fn entries(data: &[u8], texts: &[&[u8]]) -> io::Result<()> {
    let book = both_books(data)?;
    let (mut slots, mut places) = ([0; MOST_DWORDS], [0; MOST_DWORDS]);
    let (mut kept, mut bytes, mut total) = (Vec::new(), Vec::new(), 0);
    for line in texts {
        let Ok(entry) = Entry::parse(line, &mut slots) else {
            continue;
        };
        if entry.packet(book, &mut places).is_ok() {
            kept.push((line, entry.data().len()));
            total += entry.data().len();
            put_frame(&mut bytes, entry.pdf(), entry.data());
        }
    }
    let mut room = vec![0; total];
    let mut rest = &mut room[..];
    let mut all = Vec::new();
    for (line, dwords) in kept {
        let (mine, behind) = rest.split_at_mut(dwords);
        all.push(Entry::parse(line, mine).map_err(Error::other)?);
        rest = behind;
    }
    let rust = linked::Packets::new(&bytes).ok_or_else(cut)?;
    let mut ours = || sum_all(&all, |entry| entry_sum(entry, book, &mut places));
    show_packets(data, all.len(), total);
    race(
        "packet",
        all.len(),
        &mut [
            ("tbtools ControlPacket::parse", &mut || rust.run()),
            ("chomkadieu Entry::packet", &mut ours),
        ],
    )
}

/// A packet's frame, as the oracle takes it.
fn put_frame(bytes: &mut Vec<u8>, pdf: Pdf, dwords: &[u32]) {
    bytes.extend((1 + 4 * dwords.len() as u32).to_le_bytes());
    bytes.push(pdf.kind());
    bytes.extend(dwords.iter().flat_map(|dword| dword.to_le_bytes()));
}

fn show_packets(book: &[u8], count: usize, dwords: usize) {
    let mean = dwords as f64 / count as f64;
    println!(
        "{count} packets of {mean:.1} dwords on average, a book of {} bytes",
        book.len()
    );
}

/// Puts the book before the judged file and checks it for ours.
fn both_books(data: &[u8]) -> io::Result<Book<'_>> {
    if !put_book(data) {
        return Err(Error::other("the book breaks its grammar"));
    }
    Book::check(data).map_err(Error::other)
}

/// Packets over a book, those that are answered.
pub fn packets(book: &str, file: &str) -> io::Result<()> {
    let (data, bytes) = (fs::read(book)?, fs::read(file)?);
    let book = both_books(&data)?;
    let mut places = [0; MOST_DWORDS];
    let (mut all, mut kept) = (Vec::new(), Vec::new());
    for frame in frames(&bytes).ok_or_else(cut)? {
        let (kind, dwords) = packet(frame).ok_or_else(cut)?;
        let Some(pdf) = kind_of(kind) else { continue };
        if ControlPacket::parse(pdf, book, &dwords, &mut places).is_ok() {
            put_frame(&mut kept, pdf, &dwords);
            all.push((pdf, dwords));
        }
    }
    let rust = linked::Packets::new(&kept).ok_or_else(cut)?;
    show_packets(&data, all.len(), rust.dwords());
    let mut ours = || {
        sum_all(&all, |(pdf, dwords)| {
            parsed_sum(*pdf, dwords, book, &mut places)
        })
    };
    race(
        "packet",
        all.len(),
        &mut [
            ("tbtools ControlPacket::parse", &mut || rust.run()),
            ("chomkadieu ControlPacket::parse", &mut ours),
        ],
    )
}
