//! Our rows alone, to be held against another reading. The inputs are those of the programs `replay` and `replay_packets`.

use crate::frames::Frames;
use crate::line::Lines;
use crate::packet::Packets;
use crate::tally::Said;
use chomkadieu::Book;
use std::io::{self, BufRead, Error, Write};

/// Each line behind its length and the number of slots lent, four bytes each, and the choice, a byte: 0 is lenient, all else strict.
pub fn lines(from: impl BufRead, mut to: impl Write) -> io::Result<()> {
    let mut frames = Frames::new(from);
    let (mut lenient, mut strict) = (Lines::lenient(), Lines::strict());
    while !frames.is_done()? {
        let (length, slots, choice) = (frames.number()?, frames.number()?, frames.byte()?);
        let ours = match choice {
            0 => &mut lenient,
            _ => &mut strict,
        };
        let said = ours.answer(frames.bytes(length)?, slots);
        writeln!(to, "{}", said.told(ours.row()))?;
    }
    to.flush()
}

/// One group a book: three lengths, the book, the names to be asked for, the packets.
pub fn packets(from: impl BufRead, mut to: impl Write) -> io::Result<()> {
    let mut frames = Frames::new(from);
    while !frames.is_done()? {
        group(&mut frames, &mut to)?;
    }
    to.flush()
}

fn group<R: BufRead>(frames: &mut Frames<R>, to: &mut impl Write) -> io::Result<()> {
    let (length, names, count) = (frames.number()?, frames.number()?, frames.number()?);
    let book = frames.bytes(length)?.to_vec();
    let asked = names_of(frames.bytes(names)?)?;
    let mut ours = Book::check(&book).map(|book| Packets::new(book, asked));
    for _ in 0..count {
        let (length, places) = (frames.number()?, frames.number()?);
        let frame = oracle::frames::packet(frames.bytes(length)?);
        let (kind, dwords) = frame.ok_or_else(|| Error::other("a packet has no whole dwords"))?;
        let (said, row) = match &mut ours {
            Ok(ours) => (ours.answer(kind, &dwords, places), ours.row()),
            Err(refusal) => (Said::Refused(refusal.number()), ""),
        };
        writeln!(to, "{}", said.told(row))?;
    }
    Ok(())
}

/// Each name stands behind its length in one byte.
fn names_of(mut rest: &[u8]) -> io::Result<Vec<String>> {
    let mut all = Vec::new();
    while let Some((&length, behind)) = rest.split_first() {
        let cut = || Error::other("a name is cut short");
        let (name, behind) = behind.split_at_checked(length.into()).ok_or_else(cut)?;
        all.push(String::from_utf8(name.to_vec()).map_err(Error::other)?);
        rest = behind;
    }
    Ok(all)
}
