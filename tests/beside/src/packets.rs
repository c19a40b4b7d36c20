//! Packets: ours beside the judged Rust over one book, since the Rust reads its tables once a process.

use crate::frames::Frames;
use crate::packet::{Packets, as_ours, asked};
use crate::tally::{Said, Tally};
use chomkadieu::Book;
use oracle::debugfs::DATA_DIR;
use oracle::trace::probe::{packets, watch};
use oracle::{book, frames};
use std::io::{self, BufRead, Error};

const MOST_DWORDS: usize = 256;

/// The book is the first frame, every other a packet's: the kind byte, then its dwords.
pub fn compare(from: impl BufRead) -> io::Result<Tally> {
    watch();
    let mut frames = Frames::new(from);
    let data = frames.frame()?.to_vec();
    let read = book::read(&data).ok_or_else(|| Error::other("the book breaks its grammar"))?;
    DATA_DIR.put(&read);
    let tables = packets::Tables::new(&read);
    let checked = Book::check(&data).map_err(Error::other)?;
    let mut ours = Packets::new(checked, asked(read.names));
    let mut tally = Tally::default();
    while !frames.is_done()? {
        judge(&mut tally, &mut ours, &tables, frames.frame()?)?;
    }
    Ok(tally)
}

fn judge(
    tally: &mut Tally,
    ours: &mut Packets,
    tables: &packets::Tables,
    frame: &[u8],
) -> io::Result<()> {
    let cut = || Error::other("a packet's frame has no whole dwords");
    let (kind, dwords) = frames::packet(frame).ok_or_else(cut)?;
    let rust = as_ours(kind, &packets::answer(tables, kind, &dwords));
    let places = lent(tally.given(), dwords.len());
    let (class, expected) = expected(&rust, dwords.len(), places);
    let said = ours.answer(kind, &dwords, places);
    if said == expected && (said != Said::Row || ours.row() == rust) {
        tally.same(class, said);
        if said == Said::Row {
            also(tally, &rust);
        }
    } else {
        let (expected, ours) = (expected.told(&rust), said.told(ours.row()));
        tally.differ("a packet", frame, expected, ours, &rust);
    }
    Ok(())
}

/// Places lent: mostly 256, for some packets just enough, for some one too few.
fn lent(turn: u64, dwords: usize) -> usize {
    match turn % 9 {
        8 => dwords.saturating_sub(1),
        4 => dwords,
        _ => MOST_DWORDS,
    }
}

/// What ours must say, and the class it is counted in. The Rust decides but for 24 and 26, which it lacks: 24 comes before 25, 26 is the last.
fn expected(rust: &str, dwords: usize, places: usize) -> (&'static str, Said) {
    match decided(rust) {
        Said::Row | Said::Refused(25) if dwords > MOST_DWORDS => {
            ("over 256 dwords: refused", Said::Refused(24))
        }
        Said::Row if dwords > places => ("few places: refused", Said::Refused(26)),
        Said::Row => ("packet", Said::Row),
        said => ("refused", said),
    }
}

fn decided(rust: &str) -> Said {
    if rust.starts_with("packet ") {
        return Said::Row;
    }
    rust.strip_prefix("none ")
        .or_else(|| rust.strip_prefix("panic "))
        .and_then(|number| number.parse().ok())
        .map_or(Said::Unjudged, Said::Refused)
}

/// What the answered packets had, by their row.
fn also(tally: &mut Tally, row: &str) {
    for part in row.split(' ') {
        match part.split_once('=') {
            Some(("route", "refused27")) => tally.also("of the packets: route refused 27"),
            Some(("type", "refused28")) => tally.also("of the packets: type refused 28"),
            Some(("uuid", value)) if value != "-" => tally.also("of the packets: with a UUID"),
            Some(("view", value)) if value != "-" => tally.also("of the packets: with a view"),
            Some(("type", value)) if value != "-" => tally.also("of the packets: with a type"),
            Some(("sources", value)) if value.contains('p') => {
                tally.also("of the packets: with a protocol's table");
            }
            _ => {}
        }
    }
}
