//! The safe side of the C calls: answers, refusals, and lent memory that stays as it was.
use chomkadieu::{Book, Entry, Event, MOST_BYTES, MOST_DWORDS, Pdf, Refusal, What, what};
use std::collections::HashSet;

const FWD: &[u8] =
    b" fwd-7 [002] d..1. 12.000345: tb_tx: type=TB_CFG_PKG_READ, size=3, domain=0, route=0, data=[0x0, 0x0, 0x04002001]\n";
const EVENT: &[u8] =
    b"a-1 [002] 1.2: tb_event: type=TB_CFG_PKG_ERROR size=3 domain=1 route=3 error=21 port=5 unplug=2 dropped=1 offset=ffff len=4 config=2 seq=3 data=[1]";

#[test]
fn a_line_is_an_entry() {
    let mut slots = [7; MOST_DWORDS];
    let entry = Entry::parse(FWD, &mut slots).unwrap();
    assert_eq!(
        (entry.task(), entry.pid(), entry.cpu(), entry.function()),
        ("fwd", 7, 2, "tb_tx")
    );
    assert_eq!(
        (entry.timestamp().seconds, entry.timestamp().microseconds),
        (12, 345)
    );
    assert_eq!(
        (entry.pdf(), entry.size(), entry.dropped()),
        (Pdf::ReadRequest, 3, false)
    );
    assert_eq!(
        (entry.domain_index(), entry.route(), entry.data()),
        (0, 0, &[0, 0, 0x04002001][..])
    );
    assert_eq!(
        (entry.offset(), entry.event(), entry.dwords(), entry.cs()),
        (None, None, None, None)
    );
    assert_eq!(
        (entry.sn(), entry.adapter_num(), entry.unplug()),
        (None, None, None)
    );
    assert!(slots[3..].iter().all(|slot| *slot == 7));
}

#[test]
fn optional_fields_and_questions() {
    let mut slots = [0; 1];
    let entry = Entry::parse(EVENT, &mut slots).unwrap();
    assert_eq!(
        (entry.offset(), entry.dwords(), entry.cs(), entry.sn()),
        (Some(0xffff), Some(4), Some(2), Some(3))
    );
    assert_eq!(entry.event().map(Event::code), Some(33));
    assert_eq!(entry.event().unwrap().to_string(), "ROP_CMPLT");
    assert_eq!((entry.port(), entry.adapter_num()), (Some(5), None));
    assert_eq!(
        (entry.unplug_byte(), entry.unplug(), entry.dropped()),
        (Some(2), Some(false), true)
    );
    assert_eq!(Event::DpConChange.to_string(), "DP_CON_CHANGE");
    assert_eq!(Event::LinkRecovery.to_string(), "LINK_RECOVERY");
    assert_eq!(Event::Unknown(3).to_string(), "3");
    assert!((0..=255).all(|code| Event::from(code).code() == code));
    let names: HashSet<_> = (0..=255)
        .map(|code| Event::from(code).to_string())
        .collect();
    assert_eq!(names.len(), 256);
}

#[test]
fn line_and_record_are_one_entry() {
    for line in [FWD, EVENT] {
        let (mut a, mut b, mut c) = ([0; MOST_DWORDS], [0; MOST_DWORDS], [0; MOST_DWORDS]);
        let mut record = [0x5c; MOST_BYTES];
        let entry = Entry::parse(line, &mut a).unwrap();
        let size = entry.write(&mut record).unwrap();
        assert!(record[size..].iter().all(|byte| *byte == 0x5c));
        let back = Entry::from_record(&record[..size], &mut b).unwrap();
        assert_eq!(entry, back);
        assert_eq!(back, Entry::read(&record[..size], &mut c).unwrap());
        assert_eq!(
            Entry::parse(&record[..size], &mut c).err(),
            Some(Refusal::NotAscii)
        );
    }
    let (mut a, mut b) = ([0; 3], [0; 3]);
    assert_ne!(
        Entry::parse(FWD, &mut a).unwrap(),
        Entry::parse(EVENT, &mut b).unwrap()
    );
}

#[test]
fn a_text_is_a_record_a_line_or_neither() {
    for line in [FWD, EVENT] {
        let mut slots = [0; MOST_DWORDS];
        let mut record = [0; MOST_BYTES];
        let size = Entry::read(line, &mut slots)
            .unwrap()
            .write(&mut record)
            .unwrap();
        assert_eq!(
            (what(line), what(&record[..size])),
            (What::Line, What::Record)
        );
        assert_eq!(what(&record[..size - 1]), What::Neither(Refusal::NoRecord));
    }
    for (text, refusal) in [
        (&b""[..], Refusal::Idle),
        (&[b'x'; 4097], Refusal::LongLine),
        (b"nonsense", Refusal::NoColon),
        (b"\xa1\x00\x00", Refusal::MissingTag),
        (&[0xa1; 65539], Refusal::NoRecord),
    ] {
        assert_eq!(what(text), What::Neither(refusal));
    }
    // A line of 257 dwords is refused for these, and not for want of slots.
    let mut line = b"a-1 [002] 1.2: f: type=t size=3 domain=0 route=0 data=[1".to_vec();
    line.extend(b", 1".repeat(256));
    line.push(b']');
    assert_eq!(what(&line), What::Neither(Refusal::ManyDwords));
}

#[test]
fn refusals_leave_memory_as_it_was() {
    let mut slots = [7; 2];
    for (line, refusal) in [
        (&b""[..], Refusal::Idle),
        (b"# tracer: nop\n", Refusal::Idle),
        (b"nonsense", Refusal::NoColon),
        (
            b"a-1 [002] 1.2: f: type=t size=z domain=0 route=0 data=[1]",
            Refusal::NoSize,
        ),
        (FWD, Refusal::FewSlots),
    ] {
        assert_eq!(Entry::parse(line, &mut slots).err(), Some(refusal));
        assert_eq!(slots, [7; 2]);
    }
    assert_eq!(
        Entry::read(b"\xa1\x00\x00", &mut slots).err(),
        Some(Refusal::MissingTag)
    );
    let mut enough = [0; 3];
    let entry = Entry::parse(FWD, &mut enough).unwrap();
    let mut short = [0x5c; 10];
    assert_eq!(entry.write(&mut short), Err(Refusal::ShortBuffer));
    assert_eq!(short, [0x5c; 10]);
}

#[test]
fn each_number_has_one_case_and_a_sentence_of_its_own() {
    let numbers: Vec<u8> = Refusal::ALL
        .iter()
        .map(|refusal| refusal.number())
        .collect();
    let expected: Vec<u8> = (1..=9)
        .chain(11..=18)
        .chain(20..=28)
        .chain(30..=37)
        .chain(50..=51)
        .chain(53..=55)
        .collect();
    assert_eq!(numbers, expected);
    let sentences: std::collections::HashSet<String> = Refusal::ALL
        .iter()
        .map(|refusal| refusal.to_string())
        .collect();
    assert_eq!(sentences.len(), Refusal::ALL.len());
}

#[test]
fn books() {
    let book = std::fs::read(concat!(
        env!("CARGO_MANIFEST_DIR"),
        "/../../books/usb4.book"
    ))
    .unwrap();
    assert_eq!(Book::check(&book).unwrap().bytes(), &book[..]);
    assert_eq!(Book::check(&book[1..]).err(), Some(Refusal::BadBook));
}
