//! The builder: build, close, write, read back; and its refusals.

use second::*;

const DONE: Refusal = refusal(0, 0);

/// A refusal other than 15, or none. Request 2: "all others have reason 0".
const fn refusal(number: u64, room: u64) -> Refusal {
    Refusal {
        number,
        place: 0,
        recording_place: 0,
        room,
        reason: 0,
    }
}

/// Refusal 15.
const fn layout(reason: u64) -> Refusal {
    Refusal {
        number: 15,
        place: 0,
        recording_place: 0,
        room: 0,
        reason,
    }
}

/// The flags under which a body of this time rule is read.
fn flags_of(rule: u64) -> u64 {
    match rule {
        2 => 0xC1,
        3 => 0xC6,
        4 => 0xCB,
        _ => 0x03,
    }
}

#[test]
fn build_write_and_read_back() {
    for kind in [0x30, 0x50] {
        for rule in 0..=4 {
            if kind == 0x30 && rule == 0 {
                continue;
            }
            let mut buf = vec![0xAA; 1000];
            let fresh = Draft::default();
            let (answer, mut draft) = open(fresh, &mut buf, kind, rule);
            assert_eq!(answer, DONE);
            for i in 1..=20u64 {
                let bytes = vec![i as u8; i as usize];
                let time = if rule == 0 { 0 } else { i << 16 };
                let (answer, next) = add(draft, &mut buf, time, 0xFFFF - i, &bytes);
                assert_eq!(answer, DONE);
                assert_eq!(next.blocks, i);
                draft = next;
            }
            let (answer, closed) = close(draft, &mut buf);
            assert_eq!(answer, DONE);
            assert_eq!(closed, draft);
            let used = closed.used as usize;
            assert!(buf[used..].iter().all(|byte| *byte == 0xAA));

            let fields = Fields {
                channel: 7,
                version: 9,
                sequence: 255,
                flags: flags_of(rule),
                kind,
                rtc: (1 << 48) - 1,
                time: 0,
            };
            let mut out = vec![0; 1100];
            let length = write_packet(&fields, &buf[..used], &mut out).unwrap() as usize;
            let packet = read_packet(&out, 0, length, 0).unwrap();
            assert_eq!(packet.fields, fields);
            assert_eq!(packet.data_length, closed.used);
            let mut starts = [0; 20];
            let mut lengths = [0; 20];
            assert_eq!(
                list_messages(&out, 0, length, 0, &mut starts, &mut lengths),
                Ok(20)
            );
            for i in 1..=20u64 {
                let read = message(&out, 0, length, 0, i as usize - 1).unwrap();
                assert_eq!(read.time, if rule == 0 { 0 } else { i << 16 });
                assert_eq!(read.id, ((0xFFFF - i) << 16) + i);
                assert_eq!(read.length, i);
                let start = read.start as usize;
                assert_eq!(out[start..start + i as usize], vec![i as u8; i as usize]);
                assert_eq!(starts[i as usize - 1] as u64, read.start);
                assert_eq!(lengths[i as usize - 1] as u64, read.length);
            }
        }
    }
}

#[test]
fn opening() {
    let given = Draft {
        used: u64::MAX,
        blocks: 5,
        kind: 6,
        rule: 7,
    };
    let mut buf = [0xAA; 8];
    let refused = [
        (0x30, 0),
        (0x30, 5),
        (0x30, 6),
        (0x50, 5),
        (0x50, u64::MAX),
        (0x38, 1),
        (0x130, 1),
    ];
    for (kind, rule) in refused {
        assert_eq!(open(given, &mut buf, kind, rule), (refusal(17, 0), given));
        assert_eq!(
            open(given, &mut buf[..3], kind, rule),
            (refusal(17, 0), given)
        );
    }
    assert_eq!(open(given, &mut buf[..3], 0x50, 0), (refusal(16, 4), given));
    assert_eq!(buf, [0xAA; 8]);

    let (answer, draft) = open(given, &mut buf, 0x50, 4);
    assert_eq!(answer, DONE);
    let opened = Draft {
        used: 4,
        blocks: 0,
        kind: 0x50,
        rule: 4,
    };
    assert_eq!(draft, opened);
    assert_eq!(buf, [0, 0, 0, 0x80, 0xAA, 0xAA, 0xAA, 0xAA]);
    open(given, &mut buf, 0x50, 0);
    assert_eq!(buf, [0, 0, 0, 0, 0xAA, 0xAA, 0xAA, 0xAA]);
}

#[test]
fn bad_states() {
    let good = Draft {
        used: 20,
        blocks: 1,
        kind: 0x30,
        rule: 1,
    };
    let mut bad = [good; 7];
    bad[0].used = 3;
    bad[1].used = 101;
    bad[2].used = u64::MAX;
    bad[3].kind = 0x38;
    bad[4].rule = 0;
    bad[5].rule = 5;
    bad[6].blocks = 65_536;
    let mut buf = [0xAA; 100];
    for draft in bad {
        assert_eq!(
            add(draft, &mut buf, u64::MAX, u64::MAX, &[]),
            (refusal(1, 0), draft)
        );
        assert_eq!(close(draft, &mut buf), (refusal(1, 0), draft));
    }
    assert_eq!(buf, [0xAA; 100]);
}

#[test]
fn adding() {
    let draft = Draft {
        used: 4,
        blocks: 0,
        kind: 0x30,
        rule: 1,
    };
    let mut buf = vec![0xAA; 19];
    let long = vec![1; 65_536];
    assert_eq!(
        add(draft, &mut buf, 1 << 48, 0, &[]),
        (refusal(17, 0), draft)
    );
    assert_eq!(
        add(draft, &mut buf, 1 << 48, 0, &long),
        (refusal(17, 0), draft)
    );
    assert_eq!(
        add(draft, &mut buf, 1 << 48, 0x1_0000, &[1]),
        (refusal(17, 0), draft)
    );
    assert_eq!(
        add(draft, &mut buf, 1 << 48, 0, &long[1..]),
        (layout(3), draft)
    );
    // 4 + 8 + 4 + 65,535 + 1, and 4 + 8 + 4 + 3 + 1.
    assert_eq!(
        add(draft, &mut buf, 1, 0, &long[1..]),
        (refusal(16, 65_552), draft)
    );
    assert_eq!(
        add(draft, &mut buf, 1, 0, &[1, 2, 3]),
        (refusal(16, 20), draft)
    );
    assert_eq!(buf, vec![0xAA; 19]);

    let full = Draft {
        used: 10,
        blocks: 65_535,
        kind: 0x30,
        rule: 1,
    };
    assert_eq!(
        add(full, &mut buf, 1 << 48, 0, &[1]),
        (refusal(17, 0), full)
    );

    let untimed = Draft {
        used: 4,
        blocks: u64::MAX,
        kind: 0x50,
        rule: 0,
    };
    assert_eq!(
        add(untimed, &mut buf, 1, 0, &long[1..]),
        (refusal(17, 0), untimed)
    );
    let (answer, next) = add(untimed, &mut buf, 0, 0x1234, &[9]);
    assert_eq!(answer, DONE);
    assert_eq!(next.blocks, 0);
    assert_eq!(next.used, 10);
    assert_eq!(
        buf[..11],
        [0xAA, 0xAA, 0xAA, 0xAA, 1, 0, 0x34, 0x12, 9, 0, 0xAA]
    );
}

#[test]
fn closing() {
    let mut buf = [0xAA; 30];
    let empty = Draft {
        used: 4,
        blocks: 3,
        kind: 0x30,
        rule: 1,
    };
    assert_eq!(close(empty, &mut buf), (layout(7), empty));
    let uart = Draft {
        used: 10,
        blocks: u64::MAX,
        kind: 0x50,
        rule: 0,
    };
    assert_eq!(close(uart, &mut buf), (DONE, uart));
    assert_eq!(buf, [0xAA; 30]);
    let full = Draft {
        used: 10,
        blocks: 65_535,
        kind: 0x30,
        rule: 4,
    };
    assert_eq!(close(full, &mut buf), (DONE, full));
    assert_eq!(buf[..4], [0xFF, 0xFF, 0xAA, 0xAA]);
}

#[test]
fn ten_thousand_messages() {
    let mut buf = vec![0; 200_000];
    let (_, mut draft) = open(Draft::default(), &mut buf, 0x30, 1);
    for i in 0..10_000 {
        let (answer, next) = add(draft, &mut buf, i, 0, &[1, 2]);
        assert_eq!(answer, DONE);
        draft = next;
    }
    let (_, closed) = close(draft, &mut buf);
    let fields = Fields {
        channel: 1,
        version: 1,
        kind: 0x30,
        ..Fields::default()
    };
    let mut out = vec![0; 200_000];
    let length = write_packet(&fields, &buf[..closed.used as usize], &mut out).unwrap();
    let mut starts = vec![0; 10_000];
    let mut lengths = vec![0; 10_000];
    let count = list_messages(&out, 0, length as usize, 0, &mut starts, &mut lengths);
    assert_eq!(count, Ok(10_000));
    assert_eq!(
        message(&out, 0, length as usize, 0, 9_999).unwrap().time,
        9_999
    );
}
