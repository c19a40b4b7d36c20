//! Lines of trace on standard input to packets with named fields: `cargo run --example packets BOOK < LINES`.
use chomkadieu::{Book, ControlPacket, Entry, MOST_DWORDS};
use std::error::Error;
use std::io::{self, BufRead, Write};
use std::{env, fs};

fn main() -> Result<(), Box<dyn Error>> {
    let bytes = fs::read(env::args().nth(1).ok_or("usage: packets BOOK < LINES")?)?;
    let book = Book::check(&bytes)?;
    let (mut input, mut out) = (io::stdin().lock(), io::stdout().lock());
    let mut line = Vec::new();
    while input.read_until(b'\n', &mut line)? > 0 {
        let (mut slots, mut places) = ([0; MOST_DWORDS], [0; MOST_DWORDS]);
        let packet =
            Entry::parse(&line, &mut slots).and_then(|entry| entry.packet(book, &mut places));
        match packet {
            Ok(packet) => show(&mut out, &packet)?,
            Err(refusal) => writeln!(out, "refused {}: {refusal}", refusal.number())?,
        }
        line.clear();
    }
    Ok(())
}

fn show(out: &mut impl Write, packet: &ControlPacket) -> io::Result<()> {
    for field in packet.fields() {
        writeln!(
            out,
            "{:>3} {:08x} {}",
            field.offset(),
            field.value(),
            field.name().unwrap_or_default()
        )?;
        for range in field.ranges() {
            writeln!(
                out,
                "      {:<24} {} {}",
                range.name(),
                range.value(),
                range.value_name().unwrap_or_default()
            )?;
        }
    }
    match packet.data() {
        Some(data) => writeln!(out, "  data {data:08x?}"),
        None => Ok(()),
    }
}
