//! Lines of trace on standard input: what each is to a table of requests, and behind the last the requests that nobody answered.
use chomkadieu::{Entry, MOST_DWORDS, MOST_PENDING, Pending, Refusal, Report, Slot};
use std::error::Error;
use std::io::{self, BufRead};

fn main() -> Result<(), Box<dyn Error>> {
    let mut slots = [Slot::FREE; MOST_PENDING];
    let mut pending = Pending::clear(&mut slots);
    // Which line each slot's request stood on: a slot stays where it is while it waits.
    let mut lines = [0; MOST_PENDING];
    for (number, line) in (1..).zip(io::stdin().lock().split(b'\n')) {
        match step(&mut pending, &line?) {
            Ok(report) => {
                if let Report::Taken(place) = report {
                    lines[place] = number;
                }
                println!("{number} {report}");
            }
            Err(refusal) => println!("{number} refused {}: {refusal}", refusal.number()),
        }
    }
    for (place, slot) in pending.oldest_first()? {
        let (line, four) = (lines[place], slot.four);
        let way = if four.is_write() { "write" } else { "read" };
        println!(
            "line {line} has no answer: {way}, domain {}, route {:x}, sequence number {}",
            four.domain, four.route, four.seq
        );
    }
    Ok(())
}

fn step(pending: &mut Pending<'_>, line: &[u8]) -> Result<Report, Refusal> {
    let mut dwords = [0; MOST_DWORDS];
    pending.step(&Entry::read(line, &mut dwords)?)
}
