//! Both readers in one process; ../README.md says what each command does.

mod direct;
mod frames;
mod lent;
mod line;
mod lines;
mod packet;
mod packets;
mod pieces;
mod row;
mod rows;
mod tally;
mod time;

use std::env;
use std::io::{self, BufReader, BufWriter};
use std::process::ExitCode;

const BUFFER: usize = 1 << 16;

fn main() -> ExitCode {
    let words: Vec<String> = env::args().skip(1).collect();
    let words: Vec<&str> = words.iter().map(String::as_str).collect();
    let from = BufReader::with_capacity(BUFFER, io::stdin().lock());
    let to = BufWriter::with_capacity(BUFFER, io::stdout().lock());
    let done = match words[..] {
        ["lines"] => lines::compare(from).map(|tally| tally.show()),
        ["packets"] => packets::compare(from).map(|tally| tally.show()),
        ["rows", "lines"] => rows::lines(from, to).map(good),
        ["rows", "packets"] => rows::packets(from, to).map(good),
        ["time", "lines", book, frames] => time::lines(book, frames).map(good),
        ["time", "packets", book, frames] => time::packets(book, frames).map(good),
        ["time", "calls"] => time::calls().map(good),
        _ => Err(io::Error::other(
            "usage: lines | packets | rows lines | rows packets | time lines BOOK FRAMES | time packets BOOK FRAMES | time calls",
        )),
    };
    done.unwrap_or_else(|error| {
        eprintln!("beside: {error}");
        ExitCode::from(2)
    })
}

fn good((): ()) -> ExitCode {
    ExitCode::SUCCESS
}
