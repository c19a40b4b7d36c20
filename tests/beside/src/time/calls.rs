//! What crossing the C boundary costs: the smallest calls, and the same in plain Rust for scale.

use super::{Runner, race};
use crate::direct::{EventText, book_check, event_name};
use oracle::trace::Event;
use std::hint::black_box;
use std::io::{self, Write};

const CALLS: usize = 4_000_000;

pub fn calls() -> io::Result<()> {
    race_calls(&mut [
        ("an empty book, Rust inlined", &mut || {
            each(|_| black_box::<&[u8]>(&[]).len() as u64)
        }),
        ("an empty book, Rust called", &mut || {
            each(|_| plain_check(black_box(&[])).into())
        }),
        ("an empty book, ck_book_check", &mut || {
            each(|_| book_check(black_box(&[])).into())
        }),
    ])?;
    race_calls(&mut [
        ("an event's name, printed by tbtools", &mut || {
            each(|code| text_sum(&plain_name(shared(code))))
        }),
        ("an event's name, ck_event_name", &mut || {
            each(|code| text_sum(&event_name(shared(code))))
        }),
    ])
}

fn race_calls(runners: &mut [Runner]) -> io::Result<()> {
    race("call", CALLS, runners)
}

/// Every code in turn, the same for each run.
fn each(one: impl Fn(u8) -> u64) -> u64 {
    (0..CALLS).fold(0, |sum, i| sum.wrapping_add(one(black_box(i as u8))))
}

/// Codes whose names are the same on both sides: for 38, which tbtools prints with the name of 36, stands 36.
fn shared(code: u8) -> u8 {
    if code == 38 { 36 } else { code }
}

fn text_sum(text: &EventText) -> u64 {
    text.bytes.iter().map(|&byte| u64::from(byte)).sum::<u64>() + text.len as u64
}

/// As much of a check as an empty book takes.
#[inline(never)]
fn plain_check(book: &[u8]) -> u8 {
    if book.is_empty() { 0 } else { 20 }
}

#[inline(never)]
fn plain_name(code: u8) -> EventText {
    let mut bytes = [0; 14];
    let mut rest = &mut bytes[..];
    write!(rest, "{}", Event::from(code)).expect("the longest name has 14 bytes");
    let len = 14 - rest.len();
    EventText { bytes, len }
}
