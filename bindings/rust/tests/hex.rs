//! Why a hex number was unreadable, from Rust.
use chomkadieu::{Entry, Hex, HexKey, HexText, Refusal, hex_key, hex_piece, hex_pieces};

/// What a text reads as under a key, and that it is the text that was asked.
fn reads(key: HexKey, text: &str) -> Hex {
    let line = format!("a-1 [002] 1.2: f: {key}=7, {key}={text}, x=1\n");
    let told = hex_key(line.as_bytes(), key).unwrap().unwrap();
    assert_eq!(told.text, text);
    assert_eq!(&line[told.at..][..text.len()], text);
    told.hex
}

#[test]
fn each_reading_of_each_key() {
    for &key in HexKey::ALL {
        let most = u64::MAX >> (64 - key.bits());
        for (text, hex) in [
            ("0", Hex::Value(0)),
            ("0x7f", Hex::Value(0x7f)),
            ("000000000000000000000aB", Hex::Value(0xab)),
            ("0x", Hex::Empty),
            ("g", Hex::BadDigit { at: 0 }),
            ("0x0x1", Hex::BadDigit { at: 3 }),
            ("0X1", Hex::BadDigit { at: 1 }),
            ("[1]", Hex::BadDigit { at: 0 }),
            ("0x1ffffffffffffffffz", Hex::BadDigit { at: 19 }),
            ("10000000000000000", Hex::TooWide),
        ] {
            assert_eq!(reads(key, text), hex, "{key}={text}");
        }
        assert_eq!(reads(key, &format!("{most:x}")), Hex::Value(most));
        assert_eq!(
            reads(key, &format!("1{:x}", most >> 4)),
            Hex::Value((most >> 4) + (1 << (key.bits() - 4)))
        );
        assert_eq!(reads(key, &format!("1{most:x}")), Hex::TooWide);
        assert_eq!(hex_key(b"f: x=1", key), Ok(None));
        assert_eq!(hex_key(format!("f: {key}=").as_bytes(), key), Ok(None));
    }
}

#[test]
fn each_key_is_asked_for_its_own_pair() {
    let line = b"f: route=1 offset=2 error=3 config=4 unplug=5 data=[6]";
    for (value, &key) in (1..).zip(HexKey::ALL) {
        let told = hex_key(line, key).unwrap().unwrap();
        assert_eq!(told.hex.value(), Some(value));
        assert_eq!(line[told.at..][..1], [b'0' + value as u8]);
    }
}

#[test]
fn pieces() {
    let line = b"f: data=[9] data=[0x04002001, , 04zz, 0x1ffffffff, 1,2, ]";
    let want = [
        ("0x04002001", Hex::Value(0x04002001)),
        ("", Hex::Empty),
        ("04zz", Hex::BadDigit { at: 2 }),
        ("0x1ffffffff", Hex::TooWide),
        ("1,2", Hex::BadDigit { at: 1 }),
        ("", Hex::Empty),
    ];
    let found: Vec<HexText> = hex_pieces(line).unwrap().collect();
    assert_eq!(found.len(), want.len());
    let mut at = 18;
    for (i, (told, (text, hex))) in found.iter().zip(want).enumerate() {
        assert_eq!(*told, HexText { text, at, hex });
        assert_eq!(hex_piece(line, i), Ok(Some(*told)));
        at += text.len() + 2;
    }
    for past in [want.len(), 1000, usize::MAX] {
        assert_eq!(hex_piece(line, past), Ok(None));
    }
    let mut over = hex_pieces(line).unwrap();
    assert_eq!(over.by_ref().count(), want.len());
    assert_eq!(over.next(), None);
    for none in [&b"f: x=1"[..], b"f: data=1", b"f: data=[]", b":"] {
        assert_eq!(hex_pieces(none).unwrap().count(), 0);
        assert_eq!(hex_piece(none, 0), Ok(None));
    }
}

#[test]
fn lines_without_a_payload_have_their_number() {
    let long = [b'x'; 4097];
    for (line, refusal) in [
        (&b""[..], Refusal::Idle),
        (b"# offset=1: offset=1", Refusal::Idle),
        (&long, Refusal::LongLine),
        (b"\xa1: offset=1", Refusal::NotAscii),
        (b"offset=1", Refusal::NoColon),
    ] {
        for &key in HexKey::ALL {
            assert_eq!(hex_key(line, key), Err(refusal));
        }
        assert_eq!(hex_piece(line, 3), Err(refusal));
        assert_eq!(hex_pieces(line).err(), Some(refusal));
    }
}

#[test]
fn a_refused_line_says_why() {
    let line = b"a-1 [002] 1.2: f: type=t size=3 domain=0 route=0x data=[1]";
    assert_eq!(
        Entry::parse(line, &mut [0; 1]).err(),
        Some(Refusal::NoRoute)
    );
    let route = hex_key(line, HexKey::Route).unwrap().unwrap();
    assert_eq!(route.to_string(), "`0x` is empty: it has no digit");
    assert_eq!(
        hex_key(b":offset=0x", HexKey::Offset).unwrap().unwrap().hex,
        Hex::Empty
    );
}

#[test]
fn sentences() {
    for (hex, value, sentence) in [
        (Hex::Value(0x30), Some(0x30), "the number 0x30"),
        (Hex::Empty, None, "empty: it has no digit"),
        (
            Hex::BadDigit { at: 4 },
            None,
            "no number: its byte at place 4 is no hex digit",
        ),
        (
            Hex::TooWide,
            None,
            "too wide: its number is past the largest that fits",
        ),
    ] {
        assert_eq!((hex.value(), hex.to_string().as_str()), (value, sentence));
    }
    assert_eq!(format!("{:>7}", HexKey::Route), "  route");
}
