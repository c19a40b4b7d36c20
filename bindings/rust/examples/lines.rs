//! Lines of trace on standard input to their entries: `cargo run --example lines < samples/fwd.txt`. With the word `lenient`, as in
//! `cargo run --example lines lenient < samples/desk.txt`, pieces of `data` that are no dwords are left out and do not refuse their line.
use chomkadieu::{Entry, MOST_DWORDS};
use std::env;
use std::io::{self, BufRead};

mod rows;

fn main() -> io::Result<()> {
    let lenient = env::args().nth(1).is_some_and(|word| word == "lenient");
    let mut input = io::stdin().lock();
    let mut out = io::stdout().lock();
    let mut slots = [0; MOST_DWORDS];
    let mut line = Vec::new();
    while input.read_until(b'\n', &mut line)? > 0 {
        let entry = if lenient {
            Entry::parse_lenient(&line, &mut slots)
        } else {
            Entry::parse(&line, &mut slots)
        };
        rows::row(&mut out, entry)?;
        line.clear();
    }
    Ok(())
}
