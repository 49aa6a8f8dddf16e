//! E1 to E11 of the specification, and byte examples of answer, open and take.

use crate::sessions::Opener;
use crate::support::{at, bytes, id, joined, last, range, Lent, INFINITY};
use reference::{read, spell, Odd, Payload};

/// The query that a table opens with.
fn opened(table: &Lent, b: usize, t: usize) -> Vec<u8> {
    Opener::open(table.clone(), b, t).1
}

/// The same by the former rule.
fn opened_by_former_rule(table: &Lent, b: usize, t: usize) -> Vec<u8> {
    Opener::open_by(Odd::ToFirst, table.clone(), b, t, None).1
}

fn e4_table() -> Lent {
    Lent::new(&[(5, id(1)), (5, id(2)), (7, id(3))])
}

fn e5_table() -> Lent {
    Lent::new(&[(5, id(1)), (5, id(2)), (5, id(3))])
}

/// Varints as the time codes of a bound, the mode 0 and the count 0.
#[test]
fn e1_varints() {
    let table = [(127, "7F"), (128, "81 00"), (300, "82 2C"), (u64::MAX, "81 FF*8 7F")];
    for (code, varint) in table {
        let message = joined(&[&[0x61], &bytes(varint), &[0, 0]]);
        let ranges = [range(code - 1, &[], Payload::Skip)];
        assert_eq!(spell(&ranges), message, "{code}");
        assert_eq!(read(&message).unwrap(), ranges, "{code}");
    }
    assert_eq!(spell(&[last(Payload::Skip)]), bytes("61 00 00 00"));
}

#[test]
fn e2_refused_varints() {
    assert_eq!(read(&bytes("61 80")), Err(8));
    assert_eq!(read(&bytes("61 82 80*8 00")), Err(8));
}

#[test]
fn e3_empty_tables() {
    let empty = Lent::default();
    let (mut opener, query) = Opener::open(empty.clone(), 2, 2);
    assert_eq!(query, bytes("61 00 00 02 00"));
    let reply = empty.answer(2, 2, &query).unwrap();
    assert_eq!(reply, query);
    assert_eq!(opener.take(&reply, 0, 0), Ok(vec![]));
    assert_eq!(opener.session, opener.table.session(0, 0, true));
}

/// The fingerprints of the ids 01 alone, 02 and 03, 01 and 02, and 03 alone.
const ID_1: &str = "2e255099d6d6bee307c8e7075acc78f9";
const IDS_2_3: &str = "d27c48779563ae9b8f7bfc1ba05462c8";
const IDS_1_2: &str = "055ec405febfad804c1c5638d7369361";
const ID_3: &str = "7e839d7aa6d079f68e2589f6c668a00f";

/// "In E4 and E5 the parts hold 1 and 2 items, so both begin 61, 06 01 02 01 and have 40 bytes."
#[test]
fn e4_and_e5_first_queries() {
    for table in [e4_table(), e5_table()] {
        let f = table.fingerprint(&at(0, &[]), &at(5, &[2])).unwrap();
        let g = table.fingerprint(&at(5, &[2]), &INFINITY).unwrap();
        let query = opened(&table, 2, 2);
        assert_eq!(query, joined(&[&bytes("61 06 01 02 01"), &f, &bytes("00 00 01"), &g]));
        assert_eq!(query.len(), 40);
        // The bytes in full.
        assert_eq!(query, bytes(&format!("61 06 01 02 01 {ID_1} 00 00 01 {IDS_2_3}")));
    }
}

/// By the former rule the parts held 2 and 1 items, so that the bound was the one before the third.
#[test]
fn e4_and_e5_by_the_former_rule() {
    let query = opened_by_former_rule(&e4_table(), 2, 2);
    assert_eq!(query, bytes(&format!("61 08 00 01 {IDS_1_2} 00 00 01 {ID_3}")));
    assert_eq!(query.len(), 39);
    let query = opened_by_former_rule(&e5_table(), 2, 2);
    assert_eq!(query, bytes(&format!("61 06 01 03 01 {IDS_1_2} 00 00 01 {ID_3}")));
    assert_eq!(query.len(), 40);
}

/// Seven items with the times 10 to 70 in three parts, the second and the third of them from these times on: their
/// opening, and an answer to another fingerprint of all.
fn seven_in_three(odd: Odd, second: u64, third: u64) {
    let items: Vec<_> = (1..8).map(|i| (10 * u64::from(i), id(i))).collect();
    let table = Lent::new(&items);
    let part = |from, to| Payload::Fingerprint(table.fingerprint(&at(from, &[]), &at(to, &[])).unwrap());
    let expected = [
        range(second, &[], part(10, second - 9)),
        range(third, &[], part(second, third - 9)),
        last(part(third, 71)),
    ];
    let (_, query) = Opener::open_by(odd, table.clone(), 3, 3, None);
    assert_eq!(read(&query).unwrap(), expected);
    let reply = table.answer_by(odd, 3, 3, None, &bytes("61 00 00 01 00*16"));
    assert_eq!(reply, Ok(spell(&expected)));
    if odd == Odd::ToLast {
        assert_eq!(opened(&table, 3, 3), query);
        assert_eq!(table.answer(3, 3, &bytes("61 00 00 01 00*16")), reply);
    }
}

/// 2, 2 and 3 items; by the former rule 3, 2 and 2.
#[test]
fn e6_parts() {
    seven_in_three(Odd::ToLast, 30, 50);
    seven_in_three(Odd::ToFirst, 40, 60);
}

/// Five items of times 100 to 500 were cut into 3 and 2, and the other end has 89 below them. It cuts the range below
/// 400, of 92 items, into 46 and 46, and the opener cuts its own three there: by the new rule into 1 and 2.
#[test]
fn an_opening_by_the_former_rule_is_carried_on() {
    let ours: Vec<_> = (1..6).map(|i| (100 * u64::from(i), id(i))).collect();
    let below = (1..90).map(|i| (u64::from(i), id(100 + i)));
    let theirs = Lent::new(&below.chain(ours.iter().copied()).collect::<Vec<_>>());
    let (opener, query) = Opener::open_by(Odd::ToFirst, Lent::new(&ours), 2, 2, None);
    assert_eq!(query[..5], bytes("61 83 11 00 01"));
    let reply = theirs.answer(2, 2, &query).unwrap();
    assert_eq!(theirs.answer_by(Odd::ToFirst, 2, 2, None, &query), Ok(reply.clone()));
    // Up to 47, 200 and 400; by the former rule up to 47, 300 and 400.
    let last = format!("61 30 00 02 00 81 1A 00 01 {ID_1} 81 49 00 01 {IDS_2_3}");
    let first = format!("61 30 00 02 00 81 7E 00 01 {IDS_1_2} 65 00 01 {ID_3}");
    for (odd, next) in [(Odd::ToLast, last), (Odd::ToFirst, first)] {
        let mut opener = Opener { odd, ..opener.clone() };
        let mut query = opener.take(&reply, 0, 100).unwrap();
        assert_eq!(query, bytes(&next));
        // L is 2, so two takes more end the session, whatever they cut by.
        for done in [false, true] {
            opener.odd = Odd::ToLast;
            let reply = theirs.answer(2, 2, &query).unwrap();
            query = opener.take(&reply, 89, 1_000).unwrap();
            assert_eq!(opener.session.done, done);
        }
        assert_eq!((opener.session.marked, opener.session.needed), (0, 89));
    }
}

#[test]
fn e7_equal_bound() {
    assert_eq!(read(&bytes("61 06 00 00 01 00 00")), Err(9));
}

#[test]
fn e8_prefix_at_infinity_and_mode() {
    assert_eq!(read(&bytes("61 00 01 07 00")), Err(9));
    assert_eq!(read(&bytes("61 00 00 03")), Err(10));
}

#[test]
fn e9_fingerprint_cut_short() {
    assert_eq!(read(&bytes("61 00 00 01 AB*15")), Err(7));
    assert_eq!(
        read(&bytes("61 00 00 01 AB*16")).unwrap(),
        [last(Payload::Fingerprint([0xab; 16]))]
    );
}

#[test]
fn e10_count_is_hashed() {
    let table = Lent::new(&[(5, id(1)), (6, [0xff; 32])]);
    let own = table.fingerprint(&at(0, &[]), &INFINITY).unwrap();
    assert_eq!(own, reference::sha256(&bytes("00*32 02"))[..16]);
    assert_ne!(Ok(own), Lent::default().fingerprint(&at(0, &[]), &INFINITY));
}

#[test]
fn e11_one_item() {
    let (mut opener, query) = Opener::open(Lent::new(&[(5, id(9))]), 2, 2);
    assert_eq!(query, joined(&[&bytes("61 00 00 02 01"), &id(9)]));
    assert_eq!(opener.take(&bytes("61 00 00 02 00"), 0, 0), Ok(vec![]));
    assert_eq!(opener.marks, [1]);
    assert_eq!(opener.session, opener.table.session(1, 0, true));
}

/// "A first byte from 60 to 6F other than 61 is met with the single byte 61", whatever follows. A take refuses it.
#[test]
fn e12_another_version() {
    let table = Lent::new(&[(5, id(9))]);
    let (opener, _) = Opener::open(table.clone(), 2, 2);
    for first in (0x60..=0x6f).filter(|&first| first != 0x61) {
        for rest in ["", "80", "00 00 02 00", "FF*40"] {
            let message = joined(&[&[first], &bytes(rest)]);
            assert_eq!(table.answer(2, 2, &message), Ok(vec![0x61]), "{message:x?}");
            assert_eq!(opener.clone().take(&message, 1, 99), Err(6), "{message:x?}");
        }
    }
    let mut out = [];
    assert_eq!(
        reference::answer(&table.times, &table.ids, 2, 2, &[0x62], &mut out),
        Err(12)
    );
}

/// An empty query, and a first byte outside 60 to 6F.
#[test]
fn e13_no_version() {
    let table = Lent::new(&[(5, id(9))]);
    assert_eq!(table.answer(2, 2, &[]), Err(6));
    for first in (0x00..=0xff).filter(|first| !(0x60..=0x6f).contains(first)) {
        assert_eq!(table.answer(2, 2, &[first, 0x80]), Err(6), "{first:x}");
    }
}

/// An own id listed under another range than its item's is marked and needed.
#[test]
fn k4_id_in_another_range() {
    let (mut opener, _) = Opener::open(Lent::new(&[(5, id(1))]), 2, 2);
    let reply = joined(&[&bytes("61 07 00 02 00 00 00 02 01"), &id(1)]);
    assert_eq!(opener.take(&reply, 1, 0), Ok(vec![]));
    assert_eq!(opener.marks, [1]);
    assert_eq!(opener.needed, [id(1)]);
    assert_eq!(opener.session, opener.table.session(1, 1, true));
}

/// An id that stands under two times is marked and needed although both ends have it.
#[test]
fn d2_id_under_two_times() {
    let ours = Lent::new(&[(5, id(0xaa)), (6, id(1)), (8, id(2))]);
    let theirs = Lent::new(&[(6, id(1)), (8, id(2)), (9, id(0xaa))]);
    let (mut opener, mut query) = Opener::open(ours, 2, 2);
    while !opener.session.done {
        let reply = theirs.answer(2, 2, &query).unwrap();
        query = opener.take(&reply, 3, 300).unwrap();
    }
    assert_eq!(opener.marks, [1, 0, 0]);
    assert_eq!(opener.needed, [id(0xaa)]);
}

/// Ids in a query always give ids, whatever they are and however many its own are.
#[test]
fn ids_give_ids() {
    let table = e4_table();
    let all = joined(&[&bytes("61 00 00 02 03"), &table.ids]);
    assert_eq!(table.answer(2, 2, &bytes("61 00 00 02 00")).unwrap(), all);
    assert_eq!(table.answer(2, 2, &all).unwrap(), all);
    let low = bytes("61 03 00 02 00");
    assert_eq!(table.answer(2, 2, &low).unwrap(), low);
    assert_eq!(table.answer(2, 2, &bytes("61 03 00 02 01 AA*32")).unwrap(), low);
}

/// Equal fingerprints give skip, also of empty ranges; another gives ids even if it has none.
#[test]
fn fingerprints_in_a_query() {
    let table = e4_table();
    let empty = "7f9c9e31ac8256ca2f258583df262dbc";
    let query = bytes(&format!("61 05 00 01 {empty} 02 00 02 00"));
    assert_eq!(table.answer(2, 2, &query).unwrap(), bytes("61 05 00 00 02 00 02 00"));
    let query = bytes("61 05 00 01 AA*16");
    assert_eq!(table.answer(2, 2, &query).unwrap(), bytes("61 05 00 02 00"));
    // c = t gives ids.
    let query = bytes("61 00 00 01 AA*16");
    let all = joined(&[&bytes("61 00 00 02 03"), &table.ids]);
    assert_eq!(table.answer(2, 3, &query).unwrap(), all);
    assert_eq!(table.answer(2, 2, &query).unwrap(), opened(&table, 2, 2));
}

/// The last part keeps the range's own bound as spelled.
#[test]
fn last_bound_as_spelled() {
    let reply = e5_table().answer(2, 2, &bytes("61 06 03 09 00 00 01 AA*16")).unwrap();
    let uppers: Vec<_> = read(&reply).unwrap().into_iter().map(|range| range.upper).collect();
    assert_eq!(uppers[0], range(5, &[2], Payload::Skip).upper);
    assert_eq!(uppers[1], range(5, &[9, 0, 0], Payload::Skip).upper);
    assert_eq!(uppers.len(), 2);
}

/// An id that stands under two times in the range is listed twice.
#[test]
fn id_listed_twice() {
    let table = Lent::new(&[(5, id(1)), (6, id(1))]);
    let twice = joined(&[&bytes("61 00 00 02 02"), &id(1), &id(1)]);
    assert_eq!(opened(&table, 2, 2), twice);
    assert_eq!(table.answer(2, 2, &bytes("61 00 00 02 00")).unwrap(), twice);
}

/// Equal fingerprints and the bare 61 are done at once; a reply that stops early still counts.
#[test]
fn short_replies() {
    let (opener, query) = Opener::open(e4_table(), 2, 2);
    for reply in [vec![0x61], query.clone()] {
        let mut opener = opener.clone();
        assert_eq!(opener.take(&reply, 0, 0), Ok(vec![]));
        assert_eq!(opener.session, opener.table.session(0, 0, true));
    }
    let mut early = opener.clone();
    let next = early.take(&bytes("61 08 00 01 AA*16"), 0, 100).unwrap();
    assert_eq!(next, joined(&[&bytes("61 08 00 02 02"), &id(1), &id(2)]));
    assert_eq!(early.session, early.table.session(0, 0, false));
    // No own item there: an ids range with count 0 is asked for.
    let mut none = opener;
    assert_eq!(
        none.take(&bytes("61 03 00 01 AA*16"), 0, 100).unwrap(),
        bytes("61 03 00 02 00")
    );
}

/// In a take: skip, equal fingerprint and ids all give skips, merged into one.
#[test]
fn skips_of_a_take_merge() {
    let (mut opener, _) = Opener::open(e4_table(), 2, 2);
    let empty = "7f9c9e31ac8256ca2f258583df262dbc";
    let reply = bytes(&format!(
        "61 02 00 00 02 00 01 {empty} 03 00 00 03 00 02 00 00 00 01 AA*16"
    ));
    let next = opener.take(&reply, 0, 100).unwrap();
    assert_eq!(next, joined(&[&bytes("61 07 00 00 00 00 02 01"), &id(3)]));
    // The item at 5 is in the range up to 6, which lists nothing.
    assert_eq!(opener.marks, [1, 1, 0]);
}

/// Repeats in one list, across ranges and with the list count once; the list rises by id.
#[test]
fn repeats_count_once() {
    let (mut opener, _) = Opener::open(Lent::new(&[(5, id(9)), (6, id(2))]), 2, 2);
    let mut high = [0; 32];
    high[31] = 7;
    let first = joined(&[&bytes("61 00 00 02 05"), &id(8), &id(2), &id(8), &id(9), &high]);
    // A fingerprint before it keeps the session open.
    let open = joined(&[&bytes("61 02 00 01 AA*16"), &first[1..]]);
    opener.take(&open, 2, 100).unwrap();
    assert_eq!(opener.needed, [high, id(8)]);
    assert_eq!(opener.marks, [0, 0]);
    let again = joined(&[&bytes("61 03 00 02 01"), &id(8), &bytes("00 00 02 02"), &id(4), &id(8)]);
    assert_eq!(opener.clone().take(&again, 2, 0), Err(11));
    assert_eq!(opener.take(&again, 3, 0), Ok(vec![]));
    assert_eq!(opener.needed, [high, id(4), id(8)]);
    assert_eq!(opener.marks, [1, 1]);
}

/// An id listed once serves all own items that have it, and an own item serves every repeat of its id.
#[test]
fn repeats_of_own_ids() {
    let (mut twice, _) = Opener::open(Lent::new(&[(5, id(1)), (6, id(1)), (6, id(2))]), 2, 2);
    let reply = joined(&[&bytes("61 00 00 02 01"), &id(1)]);
    assert_eq!(twice.take(&reply, 0, 0), Ok(vec![]));
    assert_eq!(twice.marks, [0, 0, 1]);
    let (mut once, _) = Opener::open(Lent::new(&[(5, id(1))]), 2, 2);
    let reply = joined(&[&bytes("61 00 00 02 03"), &id(1), &id(1), &id(1)]);
    assert_eq!(once.take(&reply, 0, 0), Ok(vec![]));
    assert_eq!(once.session, once.table.session(0, 0, true));
}

/// Marks set earlier remain, and a later listing or skip clears nothing.
#[test]
fn reports_only_grow() {
    let (mut opener, _) = Opener::open(Lent::new(&[(5, id(1)), (6, id(2))]), 2, 2);
    let open = "61 02 00 01 AA*16 00 00 02 01";
    opener.take(&joined(&[&bytes(open), &id(3)]), 4, 100).unwrap();
    assert_eq!((&opener.marks[..], &opener.needed[..]), (&[1, 1][..], &[id(3)][..]));
    opener.take(&joined(&[&bytes(open), &id(1)]), 4, 100).unwrap();
    assert_eq!((&opener.marks[..], &opener.needed[..]), (&[1, 1][..], &[id(3)][..]));
    assert_eq!(opener.take(&[0x61], 1, 0), Ok(vec![]));
    assert_eq!(opener.session, opener.table.session(2, 1, true));
}
