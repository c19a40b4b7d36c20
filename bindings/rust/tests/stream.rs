//! A stream fed in parts, from Rust: the same units however it is cut.
use chomkadieu::{Entry, MOST_BYTES, MOST_DWORDS, Stream, Unit};

/// Lines, their records, and a line with a bad piece.
const FWD: &str = " fwd-7 [002] d..1. 12.000345: tb_tx: type=TB_CFG_PKG_READ, size=3, domain=0, route=0, data=[0x0, 0x0, 0x04002001]\n";
const EVENT: &str = "ev/8:3-64 [012] 13.5: tb_event: type=TB_CFG_PKG_EVENT size=3 domain=1 route=3 error=21 port=5 unplug=2 data=[1]\n";
const BAD: &str =
    "b-1 [002] 1.2: tb_tx: type=TB_CFG_PKG_READ size=3 domain=0 route=0 data=[1, zz, 2]\n";

/// What a unit says: its record, which is a function of its entry, or the number.
type Said = Result<Vec<u8>, u8>;

fn said(unit: Unit<'_>) -> Said {
    let mut record = [0; MOST_BYTES];
    let entry = unit.map_err(|refusal| refusal.number())?;
    let size = entry.write(&mut record).unwrap();
    Ok(record[..size].to_vec())
}

/// A line's record.
fn record(line: &str) -> Vec<u8> {
    let mut slots = [0; MOST_DWORDS];
    said(Entry::parse_lenient(line.as_bytes(), &mut slots)).unwrap()
}

/// Feeds a part, and adds what its units say.
fn feed(stream: &mut Stream, lenient: bool, part: &[u8], list: &mut Vec<Said>) {
    let mut left = part;
    let call = if lenient {
        Stream::feed_lenient
    } else {
        Stream::feed
    };
    let mut before = left.len();
    while let Some(unit) = call(stream, &mut left) {
        list.push(said(unit));
        assert!(left.len() < before, "no byte was taken");
        before = left.len();
    }
    assert!(left.is_empty());
}

/// What the units of a stream say that comes in these parts.
fn fed<'p>(lenient: bool, parts: impl IntoIterator<Item = &'p [u8]>) -> Vec<Said> {
    let (mut stream, mut list) = (Stream::new(), Vec::new());
    for part in parts {
        feed(&mut stream, lenient, part, &mut list);
    }
    let finish = if lenient {
        Stream::finish_lenient
    } else {
        Stream::finish
    };
    list.extend(finish(&mut stream).map(said));
    assert_eq!(finish(&mut stream), None);
    list
}

/// The stream whole, in bytes, in parts of each of some sizes, and cut once in each of some places, with empty parts: always this is said.
fn says(bytes: &[u8], lenient: bool, expected: &[Said]) {
    assert_eq!(fed(lenient, [bytes]), expected);
    for size in [1, 2, 3, 7, 4096, 4097, 8191] {
        assert_eq!(
            fed(lenient, bytes.chunks(size)),
            expected,
            "parts of {size}"
        );
    }
    for cut in (0..=bytes.len()).step_by(1 + bytes.len() / 400) {
        let (front, back) = bytes.split_at(cut);
        assert_eq!(
            fed(lenient, [b"", front, b"", b"", back, b""]),
            expected,
            "cut at {cut}"
        );
    }
}

/// The same by numbers, 0 for an entry.
fn numbers(bytes: &[u8], expected: &[u8]) {
    let list = fed(false, [bytes]);
    let numbers: Vec<u8> = list
        .iter()
        .map(|said| said.as_ref().err().map_or(0, |number| *number))
        .collect();
    assert_eq!(
        numbers,
        expected,
        "{}",
        bytes[..bytes.len().min(40)].escape_ascii()
    );
    says(bytes, false, &list);
}

/// Pieces one behind the other.
fn joined(pieces: &[&[u8]]) -> Vec<u8> {
    pieces.concat()
}

#[test]
fn lines_and_records_in_any_cut() {
    let (fwd, event) = (record(FWD), record(EVENT));
    let bytes = joined(&[
        FWD.as_bytes(),
        &event,
        &fwd,
        b"\n",
        EVENT.as_bytes(),
        b"nonsense\n\xa1\x00\x00",
        FWD.trim_end().as_bytes(),
    ]);
    let expected = [
        Ok(fwd.clone()),
        Ok(event.clone()),
        Ok(fwd.clone()),
        Err(1),
        Ok(event),
        Err(4),
        Err(33),
        Ok(fwd),
    ];
    says(&bytes, false, &expected);
    says(&bytes, true, &expected);
    // The records of its entries, fed again, say the same and nothing else.
    let entries: Vec<Said> = expected.into_iter().filter(Result::is_ok).collect();
    let again: Vec<u8> = entries.iter().flatten().flatten().copied().collect();
    says(&again, false, &entries);
}

#[test]
fn an_entry_lies_in_the_stream() {
    for cut in 0..FWD.len() {
        let (front, back) = FWD.as_bytes().split_at(cut);
        let mut stream = Stream::new();
        assert_eq!(stream.feed(&mut &*front), None);
        let mut left = back;
        let entry = stream.feed(&mut left).unwrap().unwrap();
        assert_eq!(
            (entry.task(), entry.pid(), entry.function()),
            ("fwd", 7, "tb_tx")
        );
        assert_eq!(
            (entry.timestamp().microseconds, entry.data()),
            (345, &[0, 0, 0x04002001][..])
        );
        assert!(left.is_empty());
    }
}

#[test]
fn a_part_is_taken_up_to_its_next_unit() {
    let mut stream = Stream::new();
    let mut left = &b"x\nyy\nzzz"[..];
    assert!(stream.feed(&mut left).unwrap().is_err());
    assert_eq!(left, b"yy\nzzz");
    assert!(stream.feed(&mut left).unwrap().is_err());
    assert_eq!(left, b"zzz");
    assert_eq!(stream.feed(&mut left), None);
    assert!(left.is_empty());
    assert_eq!(format!("{stream:?}"), "Stream { held: 3, passed: 0, .. }");
    // Both go on from here.
    let mut other = stream.clone();
    assert_eq!(stream.finish().map(said), Some(Err(4)));
    assert_eq!(other.feed(&mut &b"\n"[..]).map(said), Some(Err(4)));
    assert_eq!((stream.finish(), other.finish()), (None, None));
    // Behind its end a new one begins.
    let mut list = Vec::new();
    feed(&mut stream, false, FWD.as_bytes(), &mut list);
    assert_eq!(list, [Ok(record(FWD))]);
}

#[test]
fn each_number_of_the_stream() {
    for (bytes, expected) in [
        (&b""[..], &[][..]),
        (b"\n\n", &[1, 1]),
        (b"x", &[4]),
        // A newline in a record does not end it, and A1 in a line starts none.
        (b"\xa1\x02\x00\n\nx\n", &[31, 4]),
        (b"x\xa1\x02\x00\n\xa1\x00\x00", &[3, 33]),
        (b"\xa1\x03\x00\x14\x00\x00#\n", &[32, 1]),
        (b"\xa1", &[54]),
        (b"\xa1\xff", &[54]),
        (b"\xa1\x01\x00", &[54]),
        (b"\xa1\x68\x14\n", &[54]),
        (b"\xa1\x69\x14", &[55]),
        (b"\xa1\xff\xff\n\n", &[55]),
    ] {
        numbers(bytes, expected);
    }
}

#[test]
fn lines_at_the_limit() {
    for (first, size, ends, expected) in [
        (b'x', 4095, true, &[4, 0][..]),
        (b'x', 4096, false, &[4]),
        (b'x', 4096, true, &[2, 0]),
        (b'x', 4097, false, &[2]),
        (b'x', 20000, true, &[2, 0]),
        (b'#', 4096, true, &[1, 0]),
        (b'#', 20000, true, &[1, 0]),
        (b'#', 20000, false, &[1]),
    ] {
        let mut bytes = vec![b'x'; size];
        bytes[0] = first;
        if ends {
            bytes.push(b'\n');
            bytes.extend(FWD.as_bytes());
        }
        numbers(&bytes, expected);
    }
}

#[test]
fn records_at_the_limit() {
    for (says, number, cut) in [
        (MOST_BYTES, 34, 54),
        (MOST_BYTES + 1, 55, 55),
        (65538, 55, 55),
    ] {
        let length = u16::try_from(says - 3).unwrap().to_le_bytes();
        let record = joined(&[b"\xa1", &length, &vec![b'\n'; says - 3]]);
        numbers(&joined(&[&record, FWD.as_bytes()]), &[number, 0]);
        numbers(&record[..says - 1], &[cut]);
    }
}

#[test]
fn a_bad_piece_refuses_or_is_left_out() {
    // The last line ends with the stream.
    let bytes = joined(&[
        BAD.as_bytes(),
        &record(BAD),
        FWD.as_bytes(),
        BAD.trim_end().as_bytes(),
    ]);
    let (bad, fwd) = (record(BAD), record(FWD));
    says(
        &bytes,
        false,
        &[Err(18), Ok(bad.clone()), Ok(fwd.clone()), Err(18)],
    );
    says(
        &bytes,
        true,
        &[Ok(bad.clone()), Ok(bad.clone()), Ok(fwd), Ok(bad)],
    );
}

#[cfg(feature = "std")]
mod reader {
    use super::*;
    use chomkadieu::StreamReader;
    use std::collections::VecDeque;
    use std::io::{self, ErrorKind, Read, Write};
    use std::os::unix::net::UnixStream;

    /// What a read does.
    enum Step {
        Gives(Vec<u8>),
        Fails(ErrorKind),
    }

    /// Gives each step's bytes, as many as are asked for, and then the end; what it is asked behind its end is counted.
    struct Script {
        steps: VecDeque<Step>,
        ends: usize,
    }

    impl Read for Script {
        fn read(&mut self, out: &mut [u8]) -> io::Result<usize> {
            match self.steps.pop_front() {
                Some(Step::Fails(kind)) => Err(kind.into()),
                Some(Step::Gives(mut bytes)) => {
                    let size = bytes.len().min(out.len());
                    out[..size].copy_from_slice(&bytes[..size]);
                    if size < bytes.len() {
                        self.steps.push_front(Step::Gives(bytes.split_off(size)));
                    }
                    Ok(size)
                }
                None => {
                    self.ends += 1;
                    Ok(0)
                }
            }
        }
    }

    fn script(steps: impl IntoIterator<Item = Step>) -> Script {
        let steps = steps.into_iter().collect();
        Script { steps, ends: 0 }
    }

    /// What its units say, and how many errors there were. Behind the end there is nothing more, and nobody is asked.
    fn read(input: Script, lenient: bool) -> (Vec<Said>, usize) {
        let mut units = StreamReader::new(input);
        let next = if lenient {
            StreamReader::next_unit_lenient
        } else {
            StreamReader::next_unit
        };
        let (mut list, mut errors) = (Vec::new(), 0);
        while list.len() < 100 {
            match next(&mut units) {
                Ok(Some(unit)) => list.push(said(unit)),
                Ok(None) => break,
                Err(error) => {
                    assert_eq!(error.kind(), ErrorKind::WouldBlock);
                    errors += 1;
                }
            }
        }
        assert!(next(&mut units).unwrap().is_none());
        assert_eq!(units.get_ref().ends, 1);
        (list, errors)
    }

    /// A stream in which each kind of unit stands, the last one open.
    fn sample() -> Vec<u8> {
        joined(&[
            FWD.as_bytes(),
            &record(EVENT),
            b"\n",
            BAD.as_bytes(),
            &[b'x'; 9000],
            b"\n\xa1\xff\xff",
            &[b'\n'; 65535],
            EVENT.as_bytes(),
            b"\xa1\x07",
        ])
    }

    #[test]
    fn any_reader_gives_the_same_units() {
        let bytes = sample();
        for lenient in [false, true] {
            let bad = if lenient { Ok(record(BAD)) } else { Err(18) };
            let expected = vec![
                Ok(record(FWD)),
                Ok(record(EVENT)),
                Err(1),
                bad,
                Err(2),
                Err(55),
                Ok(record(EVENT)),
                Err(54),
            ];
            for size in [1, 100, 8192, 8193, bytes.len()] {
                let steps = bytes.chunks(size).map(|part| Step::Gives(part.to_vec()));
                assert_eq!(
                    read(script(steps), lenient),
                    (expected.clone(), 0),
                    "reads of {size}"
                );
            }
        }
        assert_eq!(read(script([]), false), (vec![], 0));
    }

    #[test]
    fn the_end_of_the_input_ends_a_line() {
        let open = || script([Step::Gives(BAD.trim_end().as_bytes().to_vec())]);
        assert_eq!(read(open(), false), (vec![Err(18)], 0));
        assert_eq!(read(open(), true), (vec![Ok(record(BAD))], 0));
    }

    #[test]
    fn interrupted_reads_are_tried_again_and_errors_handed_on() {
        let bytes = joined(&[
            FWD.as_bytes(),
            &record(EVENT),
            b"\n",
            &[b'x'; 5000],
            b"\n",
            EVENT.as_bytes(),
            b"x",
        ]);
        let expected = vec![
            Ok(record(FWD)),
            Ok(record(EVENT)),
            Err(1),
            Err(2),
            Ok(record(EVENT)),
            Err(4),
        ];
        for (kind, errors) in [(ErrorKind::Interrupted, 0), (ErrorKind::WouldBlock, 1)] {
            for cut in (0..=bytes.len()).step_by(13).chain([bytes.len()]) {
                let (front, back) = bytes.split_at(cut);
                let parts = [front, back]
                    .map(|part| (!part.is_empty()).then(|| Step::Gives(part.to_vec())));
                let [front, back] = parts;
                let steps = front.into_iter().chain([Step::Fails(kind)]).chain(back);
                assert_eq!(
                    read(script(steps), false),
                    (expected.clone(), errors),
                    "{kind} at {cut}"
                );
            }
        }
        let failing = (0..3).flat_map(|_| {
            [
                Step::Fails(ErrorKind::Interrupted),
                Step::Fails(ErrorKind::WouldBlock),
            ]
        });
        assert_eq!(read(script(failing), false), (vec![], 3));
    }

    #[test]
    fn a_unit_is_answered_with_its_last_byte() {
        let (mut to, from) = UnixStream::pair().unwrap();
        let mut units = StreamReader::new(from);
        let event = record(EVENT);
        to.write_all(&FWD.as_bytes()[..50]).unwrap();
        to.write_all(&FWD.as_bytes()[50..]).unwrap();
        assert_eq!(units.next_unit().unwrap().map(said), Some(Ok(record(FWD))));
        to.write_all(&event[..event.len() - 1]).unwrap();
        units.get_ref().set_nonblocking(true).unwrap();
        assert_eq!(
            units.next_unit().err().map(|error| error.kind()),
            Some(ErrorKind::WouldBlock)
        );
        to.write_all(&event[event.len() - 1..]).unwrap();
        assert_eq!(units.next_unit().unwrap().map(said), Some(Ok(event)));
        drop(to);
        assert_eq!(units.next_unit().unwrap(), None);
    }
}
