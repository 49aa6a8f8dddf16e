//! Messages with byte limits, byte by byte.

use crate::support::{at, bytes, id, joined, last, range, Lent, INFINITY};
use reference::{read, spell, Payload};

type Item = (u64, [u8; 32]);

/// The item of time 5 whose id is 01, this byte and 00.
fn numbered(number: u8) -> Item {
    let mut own = id(1);
    own[1] = number;
    (5, own)
}

/// 128 items, whose list is a message of 4,102 bytes.
fn items() -> Vec<Item> {
    (0..128).map(numbered).collect()
}

fn listed(items: &[Item]) -> Vec<u8> {
    items.iter().flat_map(|item| item.1).collect()
}

/// The fingerprint of all these items.
fn of_all(items: &[Item]) -> [u8; 16] {
    Lent::new(items).fingerprint(&at(0, &[]), &INFINITY).unwrap()
}

/// All ids in one list; and 127 of them, with the fingerprint of the last item.
fn whole_and_short() -> (Vec<u8>, Vec<u8>) {
    let items = items();
    let whole = joined(&[&bytes("61 00 00 02 81 00"), &listed(&items)]);
    let fingerprint = of_all(&items[127..]);
    let start = bytes("61 06 02 01 7F 02 7F");
    let short = joined(&[&start, &listed(&items[..127]), &bytes("00 00 01"), &fingerprint]);
    assert_eq!((whole.len(), short.len()), (4_102, 4_090));
    (whole, short)
}

/// The limits, and whether the list of 128 is kept whole.
const LIMITS: [(Option<usize>, bool); 6] = [
    (None, true),
    (Some(usize::MAX), true),
    (Some(4_103), true),
    (Some(4_102), true),
    (Some(4_101), false),
    (Some(4_096), false),
];

#[test]
fn openings_and_answers_of_128_ids() {
    let table = Lent::new(&items());
    let (whole, short) = whole_and_short();
    for (limit, is_whole) in LIMITS {
        let expected = if is_whole { &whole } else { &short };
        let mut marks = vec![9; 128];
        let mut out = vec![0xcc; expected.len()];
        let Lent { times, ids } = &table;
        let sent = reference::open_within(times, ids, 2, 128, limit, &mut marks, &[], &mut out).unwrap();
        assert_eq!((sent.length, &out), (expected.len(), expected), "{limit:?}");
        assert_eq!(marks, vec![0; 128]);
        assert_eq!(
            table.answer_within(2, 2, limit, &bytes("61 00 00 02 00")),
            Ok(expected.clone())
        );
        assert_eq!(
            table.answer_within(2, 128, limit, &bytes("61 00 00 01 AA*16")),
            Ok(expected.clone())
        );
    }
    for limit in [0, 1, 4_095] {
        assert_eq!(
            table.answer_within(2, 2, Some(limit), &bytes("61 00 00 02 00")),
            Err(14)
        );
    }
}

/// A take of a fingerprint whose next query lists all, with exact room and one byte less.
#[test]
fn takes_of_128_ids() {
    let table = Lent::new(&items());
    let (Lent { times, ids }, opened) = (&table, table.session(0, 0, false));
    let (whole, short) = whole_and_short();
    let reply = bytes("61 00 00 01 AA*16");
    for (limit, is_whole) in LIMITS {
        let expected = if is_whole { &whole } else { &short };
        let take = |out: &mut [u8]| {
            let mut marks = vec![0; 128];
            reference::take_within(times, ids, 2, 128, limit, &reply, opened, &mut marks, &mut [], out)
        };
        let mut out = vec![0xcc; expected.len()];
        assert_eq!(take(&mut out[1..]), Err(12));
        assert_eq!(out, vec![0xcc; expected.len()]);
        let sent = take(&mut out).unwrap();
        assert_eq!((sent.length, sent.session, &out), (expected.len(), opened, expected));
    }
}

/// The reply lists none of 128 items, or says nothing. The session is done, and no room is needed.
#[test]
fn a_take_that_is_done_writes_nothing() {
    let table = Lent::new(&items());
    let (Lent { times, ids }, opened) = (&table, table.session(0, 0, false));
    let limit = Some(4_096);
    for (reply, marked) in [("61 00 00 02 00", 128), ("61", 0)] {
        let (reply, mut marks) = (bytes(reply), vec![0; 128]);
        let (needed, out) = (&mut [], &mut []);
        let sent = reference::take_within(times, ids, 2, 2, limit, &reply, opened, &mut marks, needed, out);
        let done = table.session(marked, 0, true);
        assert_eq!(sent.map(|sent| (sent.length, sent.session)), Ok((0, done)));
    }
}

/// With a limit the answer to another version is the byte 61 too; 14 comes before it.
#[test]
fn another_version() {
    let table = Lent::new(&items());
    for first in (0x60..=0x6f).filter(|&first| first != 0x61) {
        let query = [first, 0x80];
        assert_eq!(table.answer_within(2, 2, Some(4_096), &query), Ok(vec![0x61]));
        assert_eq!(table.answer_within(2, 2, Some(4_095), &query), Err(14));
        assert_eq!(table.answer_within(1, 2, Some(4_095), &query), Err(3));
    }
    assert_eq!(table.answer_within(2, 2, Some(4_095), &[0x70]), Err(14));
}

/// Equal fingerprints give skips, which stand as one range before the list that is cut.
#[test]
fn skips_before_a_list() {
    let mut own = vec![(1, id(1)), (2, id(2))];
    own.extend(items());
    let table = Lent::new(&own);
    let fingerprint = |item: usize| Payload::Fingerprint(of_all(&own[item..=item]));
    let query = spell(&[
        range(2, &[], fingerprint(0)),
        range(3, &[], fingerprint(1)),
        range(4, &[], Payload::Skip),
        last(Payload::Ids(vec![])),
    ]);
    let answer = table.answer_within(2, 2, Some(4_096), &query).unwrap();
    let ranges = read(&answer).unwrap();
    assert_eq!(ranges.len(), 3);
    assert_eq!(ranges[0], range(4, &[], Payload::Skip));
    let kept = Payload::Ids(items()[..127].iter().map(|item| item.1).collect());
    assert_eq!(ranges[1], range(5, &[1, 127], kept));
    let rest = of_all(&items()[127..]);
    assert_eq!(ranges[2], last(Payload::Fingerprint(rest)));
}
