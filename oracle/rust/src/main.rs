//! The oracle's commands; ../README.md says what each answers.

use oracle::{
    book,
    debugfs::DATA_DIR,
    frames::{frames, packet},
    linked::{Lines, Packets, put_book},
    trace::probe::{lines, packets, watch},
};
use std::{
    env, fs,
    hint::black_box,
    io::{self, BufWriter, Write},
    process::exit,
    time::Instant,
};

const ROUNDS: u32 = 7;

fn main() {
    let words: Vec<String> = env::args().skip(1).collect();
    let words: Vec<&str> = words.iter().map(String::as_str).collect();
    let done = match words[..] {
        ["lines", file] => answer_lines(file),
        ["books", file] => answer_books(file),
        ["packets", book, file] => answer_packets(book, file),
        ["time-lines", file] => time_lines(file),
        ["time-packets", book, file] => time_packets(book, file),
        _ => fail(
            "usage: lines FRAMES | books FRAMES | packets BOOK FRAMES | time-lines FRAMES \
             | time-packets BOOK FRAMES",
        ),
    };
    done.unwrap_or_else(|error| fail(&error.to_string()));
}

fn fail(words: &str) -> ! {
    eprintln!("oracle: {words}");
    exit(2);
}

fn load(file: &str) -> Vec<u8> {
    fs::read(file).unwrap_or_else(|error| fail(&format!("{file}: {error}")))
}

/// One answer a frame on standard output.
fn answer_all(file: &str, answer: impl Fn(&[u8]) -> String) -> io::Result<()> {
    let bytes = load(file);
    let all = frames(&bytes).unwrap_or_else(|| fail("a frame is cut short"));
    let mut out = BufWriter::new(io::stdout().lock());
    for frame in all {
        writeln!(out, "{}", answer(frame))?;
    }
    out.flush()
}

fn answer_lines(file: &str) -> io::Result<()> {
    watch();
    answer_all(file, lines::answer)
}

fn answer_books(file: &str) -> io::Result<()> {
    answer_all(file, |frame| {
        book::read(frame)
            .map_or("refused 20", |_| "accepted")
            .into()
    })
}

fn answer_packets(book: &str, file: &str) -> io::Result<()> {
    watch();
    let book = book::read(&load(book)).unwrap_or_else(|| fail("refused 20"));
    DATA_DIR.put(&book);
    let tables = packets::Tables::new(&book);
    answer_all(file, |frame| match packet(frame) {
        Some((kind, dwords)) => packets::answer(&tables, kind, &dwords),
        None => "cut".into(),
    })
}

fn time_lines(file: &str) -> io::Result<()> {
    watch();
    let all = Lines::new(&load(file)).unwrap_or_else(|| fail("a frame is cut short"));
    println!("lines {} bytes {}", all.count(), all.bytes());
    time(all.count(), || all.run())
}

fn time_packets(book: &str, file: &str) -> io::Result<()> {
    if !put_book(&load(book)) {
        fail("refused 20");
    }
    let given = Packets::new(&load(file)).unwrap_or_else(|| fail("a frame is cut short"));
    let count = given.count();
    let all = given.answered();
    println!("packets {} of {count} dwords {}", all.count(), all.dwords());
    time(all.count(), || all.run())
}

/// A first round warms patterns and tables up and is not counted.
fn time(count: usize, run: impl Fn() -> u64) -> io::Result<()> {
    println!("sum {}", run());
    let rounds: Vec<f64> = (0..ROUNDS)
        .map(|_| {
            let start = Instant::now();
            black_box(run());
            start.elapsed().as_nanos() as f64 / count.max(1) as f64
        })
        .collect();
    for (i, nanoseconds) in rounds.iter().enumerate() {
        println!("round {} ns {nanoseconds:.1}", i + 1);
    }
    println!(
        "best ns {:.1}",
        rounds.iter().copied().fold(f64::INFINITY, f64::min)
    );
    Ok(())
}
