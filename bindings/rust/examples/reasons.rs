//! Lines of trace on standard input: what each hex number of a line that is none says instead, and what is absent.
use chomkadieu::{HexKey, Refusal, hex_key, hex_pieces};
use std::io::{self, BufRead};

fn main() -> io::Result<()> {
    for (number, line) in (1..).zip(io::stdin().lock().split(b'\n')) {
        println!("line {number}");
        if let Err(refusal) = show(&line?) {
            println!("  refused {}: {refusal}", refusal.number());
        }
    }
    Ok(())
}

fn show(line: &[u8]) -> Result<(), Refusal> {
    for &key in HexKey::ALL {
        match hex_key(line, key)? {
            Some(text) => println!("  {key}: {text}"),
            None => println!("  {key}: absent"),
        }
    }
    for (i, piece) in hex_pieces(line)?.enumerate() {
        if piece.hex.value().is_none() {
            println!("  piece {i} of data: {piece}");
        }
    }
    Ok(())
}
