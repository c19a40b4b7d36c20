//! Lines: our lenient reading beside the judged Rust save the name of code 38, and document 01's numbers where the Rust has no limit; our strict reading
//! beside the same, but for 18.

use crate::frames::Frames;
use crate::lent::ROOM;
use crate::line::Lines;
use crate::pieces::any_bad;
use crate::tally::{Said, Tally};
use oracle::trace::probe::{lines, watch};
use std::borrow::Cow;
use std::io::{self, BufRead};

const LONGEST: usize = 4096;
const MOST_DWORDS: usize = 256;
const BAD_PIECE: Said = Said::Refused(18);
// The one word in which an entry departs from the Rust's: the name of code 38 (document 02 d).
const CODE_38: &str = " event=38 ";
const RUST_NAME: &str = " name=DP_CON_CHANGE ";
const OWN_NAME: &str = " name=LINK_RECOVERY ";

/// Both choices.
struct Ours {
    lenient: Lines,
    strict: Lines,
}

pub fn compare(from: impl BufRead) -> io::Result<Tally> {
    watch();
    let (mut frames, mut tally) = (Frames::new(from), Tally::default());
    let mut ours = Ours {
        lenient: Lines::lenient(),
        strict: Lines::strict(),
    };
    while !frames.is_done()? {
        judge(&mut tally, &mut ours, frames.frame()?);
    }
    Ok(tally)
}

fn judge(tally: &mut Tally, ours: &mut Ours, line: &[u8]) {
    let rust = lines::answer(line);
    let dwords = dwords(&rust);
    let slots = slots(tally.given(), dwords.unwrap_or_default());
    let row = by_rust(&rust);
    let (class, lenient) = expected(line, &rust, dwords, slots);
    let (strict_class, strict) = strictly(lenient, line);
    for (reading, ours, expected) in [
        ("a lenient line", &mut ours.lenient, lenient),
        ("a strict line", &mut ours.strict, strict),
    ] {
        let said = ours.answer(line, slots);
        if said != expected || (said == Said::Row && ours.row() != row) {
            let (expected, ours) = (expected.told(&row), said.told(ours.row()));
            return tally.differ(reading, line, expected, ours, &rust);
        }
    }
    if lenient == Said::Row && row != rust {
        tally.also("entry, departs from the Rust in the name of 38 alone");
    }
    tally.same(class, lenient);
    tally.beside(strict_class, strict);
}

/// What the Rust's answer lets us expect: the same, but for the name of 38. If the Rust names 38 otherwise, a text that no reader answers, so that it
/// shows as a difference.
fn by_rust(rust: &str) -> Cow<'_, str> {
    if !rust.contains(CODE_38) {
        rust.into()
    } else if rust.contains(RUST_NAME) {
        rust.replace(RUST_NAME, OWN_NAME).into()
    } else {
        format!("another name of 38 than{RUST_NAME}: {rust}").into()
    }
}

/// What the strict reading must say where the lenient one must say this, and the class it is counted in: 18 comes before 16 and 17.
fn strictly(lenient: Said, line: &[u8]) -> (&'static str, Said) {
    match lenient {
        Said::Row if any_bad(line) => ("strict: a bad piece, lenient an entry: refused", BAD_PIECE),
        Said::Refused(16) if any_bad(line) => {
            ("strict: a bad piece, lenient 16: refused", BAD_PIECE)
        }
        Said::Refused(17) if any_bad(line) => {
            ("strict: a bad piece, lenient 17: refused", BAD_PIECE)
        }
        Said::Row => ("strict: entry", lenient),
        _ => ("strict: refused", lenient),
    }
}

/// How many dwords the Rust's entry has.
fn dwords(rust: &str) -> Option<usize> {
    let (_, rest) = rust.rsplit_once(" dwords=")?;
    rest.split(' ').next()?.parse().ok()
}

/// Slots lent: mostly 256; for some lines hardly any, for some just enough, for some one too few.
fn slots(turn: u64, dwords: usize) -> usize {
    let slots = match turn % 20 {
        3 => (turn / 20 % 4) as usize,
        9 => dwords,
        15 => dwords.saturating_sub(1),
        _ => MOST_DWORDS,
    };
    slots.min(ROOM)
}

/// What ours must say, and the class it is counted in. Inside the limits the Rust decides.
fn expected(line: &[u8], rust: &str, dwords: Option<usize>, slots: usize) -> (&'static str, Said) {
    let or_comment = |number| Said::Refused(if line.starts_with(b"#") { 1 } else { number });
    if line.len() > LONGEST {
        return ("over 4,096 bytes: refused", or_comment(2));
    }
    if !line.is_ascii() {
        return ("a byte of 128 or more: refused", or_comment(3));
    }
    // The Rust takes the newline for a line and looks for a colon in it.
    if line == b"\n" && rust == "none 4" {
        return ("a newline alone: refused", Said::Refused(1));
    }
    match dwords {
        Some(count) if count > MOST_DWORDS => ("over 256 dwords: refused", Said::Refused(16)),
        Some(count) if count > slots => ("few slots: refused", Said::Refused(17)),
        Some(_) => ("entry", Said::Row),
        None => ("refused", step(rust)),
    }
}

/// The step at which the Rust gave up.
fn step(rust: &str) -> Said {
    let number = rust.strip_prefix("none ").and_then(|n| n.parse().ok());
    number.map_or(Said::Unjudged, Said::Refused)
}
