//! The row that `lines` and `stream` print of an entry or a refusal.
use chomkadieu::{Entry, Refusal};
use std::io::{self, Write};

pub fn row(out: &mut impl Write, entry: Result<Entry, Refusal>) -> io::Result<()> {
    match entry {
        Ok(entry) => show(out, &entry),
        Err(refusal) => writeln!(out, "refused {}: {refusal}", refusal.number()),
    }
}

fn show(out: &mut impl Write, entry: &Entry) -> io::Result<()> {
    let time = entry.timestamp();
    write!(
        out,
        "{} {}-{} cpu {} ",
        time.seconds,
        entry.task(),
        entry.pid(),
        entry.cpu()
    )?;
    write!(
        out,
        "{}: {}, route {:x}",
        entry.function(),
        entry.pdf(),
        entry.route()
    )?;
    if let Some(event) = entry.event() {
        write!(out, ", event {event}")?;
    }
    if let Some(adapter) = entry.adapter_num() {
        write!(out, ", adapter {adapter}")?;
    }
    writeln!(out, ", data {:08x?}", entry.data())
}
