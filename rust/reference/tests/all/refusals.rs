//! Refusals in checking order; every lent byte as before. All pairs of faults are tried.

use crate::support::{bytes, id, joined, Lent};
use reference::{Session, MAX_ITEMS};

/// The inputs of a call, good until a fault is put in.
#[derive(Clone, Debug, PartialEq)]
struct Call {
    times: Vec<u64>,
    ids: Vec<u8>,
    b: usize,
    t: usize,
    bytes: Option<usize>,
    message: Vec<u8>,
    session: Session,
    marks: Vec<u8>,
    needed: Vec<u8>,
    out: Vec<u8>,
}

/// The table of the ids 01, 02 and 03.
fn three() -> Lent {
    Lent::new(&[(5, id(1)), (5, id(2)), (7, id(3))])
}

impl Call {
    /// A take that needs one more id and writes a query of 40 bytes.
    fn good() -> Call {
        let table = three();
        Call {
            session: table.session(1, 1, false),
            times: table.times,
            ids: table.ids,
            b: 2,
            t: 2,
            bytes: None,
            message: joined(&[&bytes("61 07 00 02 01"), &id(0xaa), &bytes("00 00 01 BB*16")]),
            marks: vec![0, 1, 0],
            needed: [id(0xa0), [0xdd; 32]].concat(),
            out: vec![0xcc; 60],
        }
    }

    fn take(&mut self) -> Result<reference::Sent, u8> {
        let Call {
            times,
            ids,
            b,
            t,
            bytes,
            message,
            session,
            marks,
            needed,
            out,
        } = self;
        reference::take_within(times, ids, *b, *t, *bytes, message, *session, marks, needed, out)
    }

    fn open(&mut self) -> Result<reference::Sent, u8> {
        let Call {
            times,
            ids,
            b,
            t,
            bytes,
            marks,
            needed,
            out,
            ..
        } = self;
        reference::open_within(times, ids, *b, *t, *bytes, marks, needed, out)
    }

    fn answer(&mut self) -> Result<usize, u8> {
        let Call {
            times,
            ids,
            b,
            t,
            bytes,
            message,
            out,
            ..
        } = self;
        reference::answer_within(times, ids, *b, *t, *bytes, message, out)
    }
}

type Fault = fn(&mut Call);

/// Faults in their checking order. Those of 6 to 10 put in a message, so at most one of them stands in a call.
const TAKE_FAULTS: &[(u8, Fault)] = &[
    (1, |call| call.ids.truncate(95)),
    (1, |call| call.ids.push(0)),
    (1, |call| call.ids.clear()),
    (2, |call| call.times[0] = 6),
    (2, |call| call.times[2] = u64::MAX),
    (2, |call| call.ids[32] = 1),
    (3, |call| call.b = 1),
    (3, |call| call.b = 65),
    (3, |call| call.t = 1),
    (3, |call| call.t = 4097),
    (14, |call| call.bytes = Some(0)),
    (14, |call| call.bytes = Some(1)),
    (14, |call| call.bytes = Some(4_095)),
    (4, |call| call.marks.push(0)),
    (4, |call| call.marks.truncate(2)),
    (4, |call| call.needed.push(0)),
    (4, |call| call.marks[0] = 2),
    (4, |call| call.session.marked = 0),
    (4, |call| call.session.marked = 2),
    (4, |call| call.session.needed = 3),
    (4, |call| call.session.needed = 1 << 59),
    (4, |call| call.session.needed = usize::MAX),
    (4, |call| {
        call.session.needed = 2;
        call.needed = [id(2), id(2)].concat();
    }),
    (4, |call| {
        call.session.needed = 2;
        call.needed = [id(3), id(2)].concat();
    }),
    (18, |call| call.session.label.sum[0] += 1),
    (18, |call| call.session.label.sum[1] += 1),
    (18, |call| call.session.label.sum[2] += 1),
    (18, |call| call.session.label.sum[3] += 1),
    (18, |call| call.session.label.count += 1),
    (18, |call| call.session.label.count -= 1),
    // Another id, above its predecessor too.
    (18, |call| call.ids[95] ^= 1),
    (5, |call| call.session.done = true),
    (6, |call| call.message.clear()),
    (6, |call| call.message[0] = 0x5f),
    (6, |call| call.message[0] = 0x70),
    (7, |call| call.message.truncate(55)),
    (8, |call| call.message.push(0x80)),
    (9, |call| call.message.push(0x01)),
    (10, |call| {
        call.message.truncate(37);
        call.message.extend([0, 0, 3]);
    }),
    (11, |call| call.needed.truncate(32)),
    (12, |call| call.out.truncate(39)),
    (12, |call| call.out.clear()),
];

fn single(number: u8) -> Vec<Fault> {
    TAKE_FAULTS
        .iter()
        .filter(|fault| fault.0 == number)
        .map(|fault| fault.1)
        .collect()
}

/// A limit that the message does not exceed changes nothing.
#[test]
fn good_take() {
    for limit in [None, Some(4_096), Some(usize::MAX)] {
        let good = Call {
            bytes: limit,
            ..Call::good()
        };
        let mut call = good.clone();
        let sent = call.take().unwrap();
        assert_eq!(sent.session, three().session(2, 2, false));
        let query = joined(&[&bytes("61 07 00 00 00 00 02 01"), &id(3)]);
        assert_eq!(sent.length, query.len());
        assert_eq!(sent.length, 40);
        let expected = Call {
            marks: vec![1, 1, 0],
            needed: [id(0xa0), id(0xaa)].concat(),
            out: [query, vec![0xcc; 20]].concat(),
            ..good
        };
        assert_eq!(call, expected);
    }
}

/// Of two faults, the one that is checked first counts.
#[test]
fn take_pairs_of_faults() {
    for (i, (first, put_first)) in TAKE_FAULTS.iter().enumerate() {
        for (second, put_second) in &TAKE_FAULTS[i..] {
            let in_message = |number: &u8| (6..=10).contains(number);
            if first != second && in_message(first) && in_message(second) {
                continue;
            }
            // The later fault is put in first, so that the earlier one stands whole.
            let mut call = Call::good();
            if first != second {
                put_second(&mut call);
            }
            put_first(&mut call);
            let before = call.clone();
            assert_eq!(call.take(), Err(*first), "{first} and {second}: {before:?}");
            assert_eq!(call, before);
        }
    }
}

/// Answer checks 1, 2, 3, 14, 6 to 10 and 12.
#[test]
fn answer_pairs_of_faults() {
    let numbers = [1, 2, 3, 14, 6, 7, 8, 9, 10, 12];
    let by_reading = |number: &u8| (6..=10).contains(number);
    let good = Call::good();
    for (i, first) in numbers.iter().enumerate() {
        for second in numbers[i..]
            .iter()
            .filter(|second| !by_reading(second) || !by_reading(first) || *second == first)
        {
            for (put_first, put_second) in single(*first).iter().zip(single(*second).iter().cycle()) {
                let mut call = good.clone();
                put_second(&mut call);
                put_first(&mut call);
                if first == second {
                    call = good.clone();
                    put_first(&mut call);
                }
                let before = call.clone();
                assert_eq!(call.answer(), Err(*first), "{first} and {second}: {before:?}");
                assert_eq!(call, before);
            }
        }
    }
    // Faults of 4, 18, 5 and 11 are not an answer's.
    for number in [4, 18, 5, 11] {
        for put in single(number) {
            let mut call = good.clone();
            put(&mut call);
            call.out = vec![0xcc; 200];
            assert!(call.answer().is_ok());
        }
    }
}

/// Open checks 1, 2, 3, 14, 4 (lengths only) and 12.
#[test]
fn open_pairs_of_faults() {
    let lengths: [Fault; 3] = [
        |call| call.marks.push(0),
        |call| call.marks.truncate(2),
        |call| call.needed.truncate(31),
    ];
    // The query of this table is E4's, 40 bytes.
    let room: [Fault; 2] = [|call| call.out.truncate(39), |call| call.out.clear()];
    let faults = [
        (1, single(1)),
        (2, single(2)),
        (3, single(3)),
        (14, single(14)),
        (4, lengths.to_vec()),
        (12, room.to_vec()),
    ];
    for (i, (first, puts)) in faults.iter().enumerate() {
        for (second, later) in &faults[i..] {
            for (put_first, put_second) in puts.iter().zip(later.iter().cycle()) {
                let mut call = Call::good();
                if first != second {
                    put_second(&mut call);
                }
                put_first(&mut call);
                let before = call.clone();
                assert_eq!(call.open(), Err(*first), "{first} and {second}");
                assert_eq!(call, before);
            }
        }
    }
}

/// Contents of marks and needed buffer aren't judged by open; marks become 0, needed bytes stay.
#[test]
fn open_judges_no_contents() {
    let mut call = Call::good();
    call.marks = vec![9, 1, 255];
    call.needed = [id(3), id(2)].concat();
    call.out.truncate(40);
    let before = call.clone();
    let sent = call.open().unwrap();
    assert_eq!(sent.length, 40);
    assert_eq!(sent.session, three().session(0, 0, false));
    assert_eq!(call.marks, [0, 0, 0]);
    assert_eq!(call.needed, before.needed);
    call.needed.clear();
    assert!(call.open().is_ok());
}

/// Bytes behind the needed list are not judged.
#[test]
fn bytes_behind_the_list_are_free() {
    let mut call = Call::good();
    call.needed = [id(0xa0), id(0x01), id(0xa0)].concat();
    assert!(call.take().is_ok());
    assert_eq!(call.needed, [id(0xa0), id(0xaa), id(0xa0)].concat());
}

/// 5 comes after 4 and 18 and before the message.
#[test]
fn done_sessions() {
    let mut call = Call::good();
    call.session.done = true;
    call.message.clear();
    assert_eq!(call.clone().take(), Err(5));
    call.ids[95] ^= 1;
    assert_eq!(call.clone().take(), Err(18));
    call.marks[0] = 3;
    assert_eq!(call.take(), Err(4));
}

/// 11 is judged on the final list, also when the session would be done. Done needs no out room.
#[test]
fn done_takes() {
    let mut call = Call::good();
    call.message.truncate(37);
    call.out.clear();
    let mut full = call.clone();
    full.needed.truncate(32);
    let before = full.clone();
    assert_eq!(full.take(), Err(11));
    assert_eq!(full, before);
    let sent = call.take().unwrap();
    assert_eq!(sent.length, 0);
    assert_eq!(sent.session, three().session(2, 2, true));
    assert_eq!(call.needed, [id(0xa0), id(0xaa)].concat());
}

/// No effect of an earlier range shows when a later one is faulty.
#[test]
fn faulty_tail() {
    for tail in ["80", "00 01", "00 00 03", "00 00 01 BB*15", "00 00 02 02 BB*33", "01"] {
        let mut call = Call::good();
        call.message.truncate(37);
        call.message.extend(bytes(tail));
        let before = call.clone();
        assert!(call.take().is_err(), "{tail}");
        assert_eq!(call, before);
    }
}

/// 1 before 2 over the whole table, and time 2^64 − 1 anywhere.
#[test]
fn tables() {
    let answer = |times: &[u64], ids: &[u8]| reference::answer(times, ids, 2, 2, &[0x61], &mut [0]);
    assert_eq!(answer(&[6, 5], &[0; 63]), Err(1));
    assert_eq!(answer(&[6, 5], &[0; 64]), Err(2));
    assert_eq!(answer(&[5, 5], &[0; 64]), Err(2));
    assert_eq!(answer(&[u64::MAX], &[0; 32]), Err(2));
    assert_eq!(answer(&[u64::MAX - 1], &[0; 32]), Ok(1));
    assert_eq!(answer(&[], &[0; 32]), Err(1));
    assert_eq!(answer(&[], &[]), Ok(1));
    assert_eq!(MAX_ITEMS, 1_048_576);
    let times: Vec<u64> = (0..MAX_ITEMS as u64 + 1).collect();
    let ids = vec![7; 32 * times.len()];
    assert_eq!(answer(&times, &ids), Err(1));
    assert_eq!(answer(&times[1..], &ids[32..]), Ok(1));
    assert_eq!(answer(&vec![u64::MAX; MAX_ITEMS + 1], &ids), Err(1));
}
