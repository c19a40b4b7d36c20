//! Strict and lenient: a line with a bad piece of `data` is refused, or read without it.
use chomkadieu::{Entry, MOST_BYTES, MOST_DWORDS, Refusal, What, hex_pieces, what, what_lenient};

const MARK: u32 = 0xdead_beef;

type Reader = for<'t, 's> fn(&'t [u8], &'s mut [u32]) -> Result<Entry<'t, 's>, Refusal>;

const STRICT: [Reader; 2] = [|t, s| Entry::parse(t, s), |t, s| Entry::read(t, s)];
const LENIENT: [Reader; 2] = [
    |t, s| Entry::parse_lenient(t, s),
    |t, s| Entry::read_lenient(t, s),
];

fn line(data: &str) -> Vec<u8> {
    format!("a-1 [002] 1.2: f: type=t size=3 domain=0 route=0 data={data}").into_bytes()
}

/// The dwords that a reading gives with so many slots, or its refusal. All slots but those of the dwords must be as they were.
fn read(by: Reader, text: &[u8], lent: usize) -> Result<Vec<u32>, Refusal> {
    let mut slots = [MARK; MOST_DWORDS + 2];
    let told = by(text, &mut slots[1..=lent]).map(|entry| entry.data().to_vec());
    let owned = told.as_ref().map_or(0, Vec::len);
    assert!(slots[0] == MARK && slots[owned + 1..].iter().all(|slot| *slot == MARK));
    told
}

/// What each form must say: the strict ones this, the lenient ones that.
fn reads(
    text: &[u8],
    lent: usize,
    strict: Result<&[u32], Refusal>,
    lenient: Result<&[u32], Refusal>,
) {
    let said = text.escape_ascii();
    for by in STRICT {
        assert_eq!(
            read(by, text, lent),
            strict.map(<[u32]>::to_vec),
            "strict: {said}"
        );
    }
    for by in LENIENT {
        assert_eq!(
            read(by, text, lent),
            lenient.map(<[u32]>::to_vec),
            "lenient: {said}"
        );
    }
}

#[test]
fn a_bad_piece_refuses_or_is_left_out() {
    let bad = Err(Refusal::BadPiece);
    for (data, dwords) in [
        ("[0x1, zz, 0x2]", &[1, 2][..]),
        ("[0x1,0x2]", &[]),
        ("[0x1, ]", &[1]),
        ("[, 0x1]", &[1]),
        ("[zz]", &[]),
        ("[ ]", &[]),
        ("[0x, 1]", &[1]),
        ("[1 , 2]", &[2]),
        ("[100000000, ffffffff]", &[0xffff_ffff]),
        ("[0x1] data=[0x2, 0x04zz]", &[2]),
    ] {
        reads(&line(data), MOST_DWORDS, bad, Ok(dwords));
    }
}

#[test]
fn without_a_bad_piece_both_are_one() {
    for (data, dwords) in [
        ("[0x1, 0x2]", &[1, 2][..]),
        ("[00000000000000000001]", &[1]),
        ("[zz] data=[aBcDeF01]", &[0xabcd_ef01]),
    ] {
        reads(&line(data), MOST_DWORDS, Ok(dwords), Ok(dwords));
    }
    for data in ["[]", "zz", "[zz] data=zz"] {
        let refusal = Err(Refusal::NoData);
        reads(&line(data), MOST_DWORDS, refusal, refusal);
    }
}

#[test]
fn where_18_stands() {
    let many = line(&format!("[{}z]", "1, ".repeat(257)));
    let (bad, none) = (Err(Refusal::BadPiece), Err(Refusal::FewSlots));
    reads(&many, MOST_DWORDS, bad, Err(Refusal::ManyDwords));
    reads(&line("[1, z]"), 0, bad, none);
    reads(&line("[1]"), 0, none, none);
    // Numbers up to 15 come first.
    for (text, refusal) in [
        (&b"f: data=[z]"[..], Refusal::NoTask),
        (
            b"a-1 [002] 1.2: f: type=t size=3 domain=0 route=z data=[z]",
            Refusal::NoRoute,
        ),
        (
            b"a-1 [002] 1.2: f: type=t size=3 domain=0 route=0 data=[z] data=1",
            Refusal::NoData,
        ),
    ] {
        reads(text, MOST_DWORDS, Err(refusal), Err(refusal));
    }
}

#[test]
fn a_record_is_read_alike() {
    for data in ["[0x1, zz, 0x2]", "[zz]", "[0x1, 0x2]"] {
        let text = line(data);
        let (mut slots, mut record) = ([0; MOST_DWORDS], [0; MOST_BYTES]);
        let entry = Entry::parse_lenient(&text, &mut slots).unwrap();
        let size = entry.write(&mut record).unwrap();
        let (mut a, mut b) = ([0; MOST_DWORDS], [0; MOST_DWORDS]);
        let strict = Entry::read(&record[..size], &mut a).unwrap();
        let lenient = Entry::read_lenient(&record[..size], &mut b).unwrap();
        assert!(strict == entry && lenient == entry);
        for is in [what, what_lenient] {
            assert_eq!(is(&record[..size]), What::Record);
        }
    }
}

#[test]
fn what_a_line_with_a_bad_piece_is() {
    let bad = line("[0x1, zz, 0x2]");
    assert_eq!(what(&bad), What::Neither(Refusal::BadPiece));
    assert_eq!(what_lenient(&bad), What::Line);
    let good = line("[0x1]");
    assert_eq!((what(&good), what_lenient(&good)), (What::Line, What::Line));
    for text in [&b""[..], b"nonsense", b"\xa1\x00\x00"] {
        assert_eq!(what(text), what_lenient(text));
    }
}

#[test]
fn strict_refuses_exactly_where_a_piece_has_a_reason() {
    for data in [
        "[0x1, zz, 0x2]",
        "[1,2]",
        "[0x1, 0x2]",
        "[1, 100000000]",
        "[1]",
    ] {
        let text = line(data);
        let good = hex_pieces(&text)
            .unwrap()
            .all(|piece| piece.hex.value().is_some());
        assert_eq!(read(STRICT[0], &text, MOST_DWORDS).is_ok(), good, "{data}");
    }
}
