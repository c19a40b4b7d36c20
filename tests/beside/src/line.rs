//! Our answer to a line, through the crate, in the form of the oracle's.

use crate::lent::Lent;
use crate::row::{OrNone, put_hex, put_list};
use crate::tally::Said;
use chomkadieu::{Entry, Refusal};
use std::fmt::{self, Write};

type Reader = for<'t, 's> fn(&'t [u8], &'s mut [u32]) -> Result<Entry<'t, 's>, Refusal>;

/// One of the crate's two readings of lines, with memory of its own.
pub struct Lines {
    reader: Reader,
    lent: Lent,
    row: String,
}

impl Lines {
    /// A bad piece refuses its line.
    pub fn strict() -> Self {
        Self::by(|line, slots| Entry::parse(line, slots))
    }

    /// A bad piece is left out, as the Rust does it.
    pub fn lenient() -> Self {
        Self::by(|line, slots| Entry::parse_lenient(line, slots))
    }

    fn by(reader: Reader) -> Self {
        Self {
            reader,
            lent: Lent::new(),
            row: String::new(),
        }
    }

    /// The row of the last answer.
    pub fn row(&self) -> &str {
        &self.row
    }

    /// What is said of a line with so many slots lent; the entry's row is kept.
    pub fn answer(&mut self, line: &[u8], slots: usize) -> Said {
        self.row.clear();
        let answer = (self.reader)(line, self.lent.lend(slots));
        let (said, owned) = match answer {
            Ok(entry) => {
                put_entry(&mut self.row, &entry).expect("a row takes any text");
                (Said::Row, entry.data().len())
            }
            Err(refusal) => (Said::Refused(refusal.number()), 0),
        };
        said.if_kept(self.lent.is_kept(owned))
    }
}

fn put_entry(row: &mut String, entry: &Entry) -> fmt::Result {
    row.push_str("entry task=");
    put_hex(row, entry.task());
    let time = entry.timestamp();
    write!(
        row,
        " pid={} cpu={} sec={} usec={} function=",
        entry.pid(),
        entry.cpu(),
        time.seconds,
        time.microseconds
    )?;
    put_hex(row, entry.function());
    write!(
        row,
        " kind={} size={} dropped={} domain={} route={}",
        entry.pdf().kind(),
        entry.size(),
        u8::from(entry.dropped()),
        entry.domain_index(),
        entry.route()
    )?;
    put_optional(row, entry)?;
    write!(row, " dwords={} data=", entry.data().len())?;
    put_list(row, entry.data(), |row, dword| write!(row, "{dword:08x}"))
}

fn put_optional(row: &mut String, entry: &Entry) -> fmt::Result {
    write!(
        row,
        " offset={} event={} len={} port={} config={} seq={} unplug={} adapter={} unplugged={} name={}",
        OrNone(entry.offset()),
        OrNone(entry.event().map(|event| event.code())),
        OrNone(entry.dwords()),
        OrNone(entry.port()),
        OrNone(entry.cs()),
        OrNone(entry.sn()),
        OrNone(entry.unplug_byte()),
        OrNone(entry.adapter_num()),
        OrNone(entry.unplug().map(u8::from)),
        OrNone(entry.event())
    )
}
