//! The table of requests, from Rust.
use chomkadieu::{Entry, Four, MOST_PENDING, Pending, Refusal, Report, Slot};

const TOP: u64 = 1 << 63;

fn four(route: u64, domain: u32, seq: u8, write: u8) -> Four {
    Four {
        route,
        domain,
        seq,
        write,
    }
}

/// A line whose entry is a read or write, sent or received.
fn line(function: &str, kind: &str, route: u64, rest: &str) -> String {
    format!(
        "a-1 [002] 1.2: {function}: type=TB_CFG_PKG_{kind} size=3 domain=7 route={route:x} {rest} data=[1]"
    )
}

fn read(route: u64, rest: &str) -> String {
    line("tb_tx", "READ", route, rest)
}

fn read_back(route: u64, rest: &str) -> String {
    line("tb_rx", "READ", route, rest)
}

/// What a step over the slots reports of a line.
fn step(slots: &mut [Slot], line: &str) -> Result<Report, Refusal> {
    let mut dwords = [0; 1];
    let entry = Entry::parse(line.as_bytes(), &mut dwords).unwrap();
    Pending::resume(slots).step(&entry)
}

#[test]
fn each_report() {
    let mut slots = [Slot {
        rank: 9,
        ..Slot::FREE
    }; 2];
    assert_eq!(Pending::clear(&mut slots).slots(), [Slot::FREE; 2]);
    let s = &mut slots;
    assert_eq!(step(s, &read(0x301, "seq=9")), Ok(Report::Taken(0)));
    let write = line("tb_tx", "WRITE", 0x301 | TOP, "seq=9");
    assert_eq!(step(s, &write), Ok(Report::Taken(1)));
    assert_eq!(step(s, &read(0x301, "seq=9")), Ok(Report::TurnedAway));
    assert_eq!(step(s, &read_back(0x301, "seq=8")), Ok(Report::Stray));
    assert_eq!(step(s, &read_back(0x301, "")), Ok(Report::NoSeq));
    assert_eq!(
        step(s, &read_back(0x301, "seq=9 dropped=1")),
        Ok(Report::Dropped)
    );
    assert_eq!(
        step(s, &line("tb_event", "EVENT", 0x301, "seq=9")),
        Ok(Report::Other)
    );
    let both = [
        Slot {
            four: four(0x301, 7, 9, 0),
            rank: 1,
        },
        Slot {
            four: four(0x301, 7, 9, 1),
            rank: 2,
        },
    ];
    assert_eq!(*s, both);
    assert_eq!(
        step(s, &read_back(0x301 | TOP, "seq=9")),
        Ok(Report::Answered(0))
    );
    assert_eq!((s[0].four, s[0].waits()), (both[0].four, false));
    assert_eq!(
        (s[1].rank, s[1].waits(), s[1].four.is_write()),
        (1, true, true)
    );
}

#[test]
fn the_oldest_come_first() {
    let mut slots = [Slot::FREE; MOST_PENDING];
    for route in 0..10 {
        step(&mut slots, &read(route, "seq=1")).unwrap();
    }
    for route in [0, 4, 2] {
        let place = route as usize;
        assert_eq!(
            step(&mut slots, &read_back(route, "seq=1")),
            Ok(Report::Answered(place))
        );
    }
    step(&mut slots, &read(99, "seq=1")).unwrap();
    let pending = Pending::resume(&mut slots);
    let oldest = pending.oldest_first().unwrap();
    assert_eq!((oldest.len(), pending.waiting()), (8, Ok(8)));
    let met: Vec<(usize, u64, u32)> = oldest.map(|(p, s)| (p, s.four.route, s.rank)).collect();
    let routes = [
        (1, 1),
        (3, 3),
        (5, 5),
        (6, 6),
        (7, 7),
        (8, 8),
        (9, 9),
        (0, 99),
    ];
    let expected: Vec<(usize, u64, u32)> = (1..).zip(routes).map(|(k, (p, r))| (p, r, k)).collect();
    assert_eq!(met, expected);
}

#[test]
fn a_refusal_leaves_the_table_as_it_was() {
    let waiting = |route, write, rank| Slot {
        four: four(route, 7, 9, write),
        rank,
    };
    let cases: [(&[Slot], Refusal); 7] = [
        (&[], Refusal::TableSize),
        (&[Slot::FREE; MOST_PENDING + 1], Refusal::TableSize),
        (&[waiting(1, 0, 2); MOST_PENDING + 1], Refusal::TableSize),
        (&[waiting(1, 0, 2)], Refusal::BrokenTable),
        (&[waiting(1, 0, 1), waiting(2, 0, 1)], Refusal::BrokenTable),
        (&[waiting(TOP, 0, 1)], Refusal::BrokenTable),
        (&[waiting(1, 2, 1)], Refusal::BrokenTable),
    ];
    for (table, refusal) in cases {
        let mut slots = table.to_vec();
        for rest in ["seq=9", "", "seq=9 dropped=1"] {
            assert_eq!(step(&mut slots, &read(1, rest)), Err(refusal));
            assert_eq!(step(&mut slots, &read_back(1, rest)), Err(refusal));
        }
        let pending = Pending::resume(&mut slots);
        assert_eq!(pending.waiting(), Err(refusal));
        assert_eq!(pending.oldest_first().err(), Some(refusal));
        assert_eq!(slots, table);
    }
    let mut free = [waiting(TOP, 255, 0)];
    assert_eq!(step(&mut free, &read(1, "seq=9")), Ok(Report::Taken(0)));
}

#[test]
fn each_report_has_a_sentence_of_its_own() {
    let reports = [
        Report::Dropped,
        Report::Other,
        Report::NoSeq,
        Report::Taken(3),
        Report::Taken(4),
        Report::TurnedAway,
        Report::Answered(3),
        Report::Answered(4),
        Report::Stray,
    ];
    let sentences: std::collections::HashSet<String> =
        reports.iter().map(|report| report.to_string()).collect();
    assert_eq!(sentences.len(), reports.len());
    assert_eq!(
        Report::Answered(4).to_string(),
        "the request in slot 4 is answered"
    );
}
