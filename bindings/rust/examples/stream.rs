//! A stream of lines and records to its entries, as its parts come: `cargo run --features std --example stream < STREAM`, or from a socket with
//! `cargo run --features std --example stream HOST:PORT`. With the word `lenient`, pieces of `data` that are no dwords are left out.
use chomkadieu::StreamReader;
use std::env;
use std::io::{self, Read};
use std::net::TcpStream;

mod rows;

fn main() -> io::Result<()> {
    let words = env::args().skip(1);
    let (lenient, addresses): (Vec<_>, Vec<_>) = words.partition(|word| word == "lenient");
    let lenient = !lenient.is_empty();
    match addresses.first() {
        Some(address) => show(TcpStream::connect(address)?, lenient),
        None => show(io::stdin().lock(), lenient),
    }
}

/// A row for each unit as soon as it has ended.
fn show(input: impl Read, lenient: bool) -> io::Result<()> {
    let mut out = io::stdout().lock();
    let mut units = StreamReader::new(input);
    let next = if lenient {
        StreamReader::next_unit_lenient
    } else {
        StreamReader::next_unit
    };
    while let Some(unit) = next(&mut units)? {
        rows::row(&mut out, unit)?;
    }
    Ok(())
}
