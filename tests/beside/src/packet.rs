//! Our answer to a packet, through the crate, in the form of the oracle's.

use crate::direct::{self, Answer};
use crate::lent::Lent;
use crate::row::{OrNone, put_hex, put_hex_or_none, put_list};
use crate::tally::Said;
use chomkadieu::{Book, ControlPacket, Field, Pdf, Refusal, Source};
use oracle::trace::probe::packets::ASKED;
use std::fmt::{self, Display, Write};

/// The kind of a number; the crate has none above 12.
pub fn kind_of(number: u8) -> Option<Pdf> {
    Some(Pdf::from_kind(number)).filter(|pdf| pdf.kind() == number)
}

/// The names to be asked for over a book with these names.
pub fn asked(names: Vec<String>) -> Vec<String> {
    let new = names.into_iter().filter(|n| !ASKED.contains(&n.as_str()));
    ASKED.map(String::from).into_iter().chain(new).collect()
}

/// Answers by the crate, which has its book checked once, and by the C call that checks it each time; each has memory of its own.
pub struct Packets<'b> {
    book: Book<'b>,
    asked: Vec<String>,
    lent: Lent,
    lent_again: Lent,
    row: String,
}

impl<'b> Packets<'b> {
    pub fn new(book: Book<'b>, asked: Vec<String>) -> Self {
        Self {
            book,
            asked,
            lent: Lent::new(),
            lent_again: Lent::new(),
            row: String::new(),
        }
    }

    /// The row of the last answer.
    pub fn row(&self) -> &str {
        &self.row
    }

    /// What both say of a packet with so many places lent; its row is kept. Of a kind above 12 the crate cannot be asked.
    pub fn answer(&mut self, kind: u8, dwords: &[u32], places: usize) -> Said {
        self.row.clear();
        let again = self.lent_again.lend(places);
        let checked = direct::packet(kind, self.book.bytes(), dwords, again);
        let Some(pdf) = kind_of(kind) else {
            return checked.said.if_kept(self.lent_again.is_kept(0));
        };
        let told = self.parsed(pdf, dwords, places);
        let owned = if told.said == Said::Row {
            dwords.len()
        } else {
            0
        };
        let same = told == checked && self.lent.first(owned) == self.lent_again.first(owned);
        let kept = self.lent.is_kept(owned) & self.lent_again.is_kept(owned);
        if same {
            told.said.if_kept(kept)
        } else {
            Said::Torn
        }
    }

    fn parsed(&mut self, pdf: Pdf, dwords: &[u32], places: usize) -> Answer {
        match ControlPacket::parse(pdf, self.book, dwords, self.lent.lend(places)) {
            Err(refusal) => Answer::refused(refusal.number()),
            Ok(packet) => {
                put_packet(&mut self.row, &packet, dwords, &self.asked)
                    .expect("a row takes any text");
                Answer {
                    said: Said::Row,
                    start: packet.data_start(),
                    uuid: packet.uuid(),
                }
            }
        }
    }
}

/// How many entries the kind's table has: no call tells it but by the data's start, for the kinds that start behind the table.
fn told_n(packet: &ControlPacket) -> Option<u16> {
    let tells = matches!(packet.pdf(), Pdf::ReadResponse | Pdf::WriteRequest);
    packet.data_start().filter(|_| tells)
}

/// The oracle's row with `n` for those kinds only.
pub fn as_ours(kind: u8, rust: &str) -> String {
    match rust.split_once(" places=") {
        Some((_, rest)) if kind != 2 && kind != 3 => format!("packet n=- places={rest}"),
        _ => rust.into(),
    }
}

fn put_packet(
    row: &mut String,
    packet: &ControlPacket,
    dwords: &[u32],
    asked: &[String],
) -> fmt::Result {
    write!(row, "packet n={} places=", OrNone(told_n(packet)))?;
    put_list(row, packet.places(), |row, place| write!(row, "{place}"))?;
    row.push_str(" sources=");
    let before = row.len();
    row.extend(packet.fields().map(|field| letter(field.source())));
    if row.len() == before {
        row.push('-');
    }
    row.push_str(" uuid=");
    put_uuid(row, packet.uuid())?;
    put_questions(row, packet, dwords)?;
    row.push_str(" type=");
    put_type(row, packet)?;
    row.push_str(" fields=");
    let described = packet.fields().filter(|f| f.source() != Source::Bare);
    put_list(row, described, put_field)?;
    row.push_str(" asked=");
    put_list(row, asked, |row, name| put_asked(row, packet, name))
}

fn letter(source: Source) -> char {
    match source {
        Source::Bare => '-',
        Source::Control => 'c',
        Source::Header => 'h',
        Source::Protocol => 'p',
    }
}

fn put_questions(row: &mut String, packet: &ControlPacket, dwords: &[u32]) -> fmt::Result {
    write!(
        row,
        " route={} cm={} adapter={} address={} start={} size={} view={} read={} write={} xdomain={}",
        OrRefused(packet.route()),
        OrRefused(packet.cm().map(u8::from)),
        OrNone(packet.adapter_num()),
        OrNone(packet.data_address()),
        OrNone(packet.data_start()),
        OrNone(packet.data_size()),
        OrNone(packet.data().map(|view| place_of(view, dwords))),
        u8::from(packet.is_read()),
        u8::from(packet.is_write()),
        u8::from(packet.is_xdomain())
    )
}

/// Where the view lies in the dwords, by its address, and how long it is.
fn place_of(view: &[u32], dwords: &[u32]) -> String {
    let start = (view.as_ptr() as usize).wrapping_sub(dwords.as_ptr() as usize) / 4;
    format!("{start}+{}", view.len())
}

/// An answer, or `refused` and its number.
struct OrRefused<T>(Result<T, Refusal>);

impl<T: Display> Display for OrRefused<T> {
    fn fmt(&self, f: &mut fmt::Formatter<'_>) -> fmt::Result {
        match &self.0 {
            Ok(value) => value.fmt(f),
            Err(refusal) => write!(f, "refused{}", refusal.number()),
        }
    }
}

fn put_uuid(row: &mut String, uuid: Option<[u32; 4]>) -> fmt::Result {
    match uuid {
        Some([a, b, c, d]) => write!(row, "{a:08x}.{b:08x}.{c:08x}.{d:08x}"),
        None => row.write_str("-"),
    }
}

fn put_type(row: &mut String, packet: &ControlPacket) -> fmt::Result {
    match packet.packet_type() {
        Err(refusal) => write!(row, "refused{}", refusal.number()),
        Ok(None) => row.write_str("-"),
        Ok(Some((value, name))) => {
            write!(row, "{value}:")?;
            put_hex(row, name);
            Ok(())
        }
    }
}

fn put_field(row: &mut String, field: Field) -> fmt::Result {
    write!(row, "{}:", field.offset())?;
    put_hex_or_none(row, field.name());
    for range in field.ranges() {
        write!(row, ";{}-{}={}:", range.low(), range.high(), range.value())?;
        put_hex_or_none(row, range.value_name());
    }
    Ok(())
}

fn put_asked(row: &mut String, packet: &ControlPacket, name: &str) -> fmt::Result {
    put_uuid(row, packet.uuid_by_name(name))?;
    write!(
        row,
        ":{}:{}",
        OrNone(packet.field_by_name(name).map(|f| f.offset())),
        OrNone(packet.field_by_bitfield_name(name).map(|f| f.offset()))
    )
}
