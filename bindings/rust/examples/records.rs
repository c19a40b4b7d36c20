//! Lines of trace on standard input to records and back: each accepted line's record must say what the line says.
use chomkadieu::{Entry, MOST_BYTES, MOST_DWORDS, Refusal};
use std::io::{self, BufRead};

fn main() -> io::Result<()> {
    let mut input = io::stdin().lock();
    let (mut lines, mut records, mut bytes) = (0, 0, 0);
    let mut line = Vec::new();
    while input.read_until(b'\n', &mut line)? > 0 {
        lines += 1;
        match there_and_back(&line) {
            Ok(size) => {
                records += 1;
                bytes += size;
            }
            Err(refusal) => println!("line {lines} refused {}: {refusal}", refusal.number()),
        }
        line.clear();
    }
    println!("lines {lines} records {records} bytes {bytes}");
    Ok(())
}

/// How many bytes the line's record has.
fn there_and_back(line: &[u8]) -> Result<usize, Refusal> {
    let mut slots = [0; MOST_DWORDS];
    let mut record = [0; MOST_BYTES];
    let mut other_slots = [0; MOST_DWORDS];
    let entry = Entry::parse(line, &mut slots)?;
    let size = entry.write(&mut record)?;
    let back = Entry::read(&record[..size], &mut other_slots)?;
    assert!(
        entry == back,
        "the record says something else than the line"
    );
    let mut again = [0; MOST_BYTES];
    assert_eq!(back.write(&mut again), Ok(size));
    assert_eq!(record[..size], again[..size]);
    Ok(size)
}
