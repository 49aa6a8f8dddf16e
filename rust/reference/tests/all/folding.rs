//! Folding in: E21 to E23, how open places are read, the refusals in checking order, and whole sessions with commits.

use crate::sessions::Opener;
use crate::support::{id, Lent, Random, Seed};
use reference::{Committed, Inquiry, Session, MAX_ITEMS};
use std::collections::BTreeSet;

type Id = [u8; 32];
type Item = (u64, Id);

/// The inputs of both calls, good until a fault is put in.
#[derive(Clone, Debug, PartialEq)]
struct Call {
    times: Vec<u64>,
    ids: Vec<u8>,
    items: usize,
    session: Session,
    needed: Vec<u8>,
    batch_times: Vec<u64>,
    batch_ids: Vec<u8>,
}

impl Call {
    /// A table of these items in buffers for so many, and a session that is done and needs these ids.
    fn new(items: &[Item], room: usize, needed: &[Id], batch: &[Item]) -> Call {
        let (own, batch) = (Lent::new(items), Lent::new(batch));
        let (mut times, mut ids) = (own.times, own.ids);
        times.resize(room, 0x7777);
        ids.resize(32 * room, 0x77);
        Call {
            times,
            ids,
            items: items.len(),
            session: Lent::new(items).session(5, needed.len(), true),
            needed: needed.concat(),
            batch_times: batch.times,
            batch_ids: batch.ids,
        }
    }

    /// E21's table and list, in buffers for four items.
    fn of_three_needed(batch: &[Item]) -> Call {
        Call::new(&[(5, id(1)), (7, id(3))], 4, &[id(2), id(3), id(4)], batch)
    }

    fn e21() -> Call {
        Call::of_three_needed(&[(5, id(2)), (7, id(4))])
    }

    fn inquire(&self) -> Result<Inquiry, u8> {
        let (batch_times, batch_ids) = (&self.batch_times, &self.batch_ids);
        let (times, ids, needed) = (&self.times, &self.ids, &self.needed);
        reference::fold_inquire(times, ids, self.items, self.session, needed, batch_times, batch_ids)
    }

    fn commit(&mut self) -> Result<Committed, u8> {
        let Call {
            times,
            ids,
            items,
            session,
            needed,
            batch_times,
            batch_ids,
        } = self;
        reference::fold_commit(times, ids, *items, *session, needed, batch_times, batch_ids)
    }

    /// Both calls; what they agree on. A refused commit leaves all as it was.
    fn fold(&mut self) -> Result<Inquiry, u8> {
        let told = self.inquire();
        let before = self.clone();
        match self.commit() {
            Err(number) => {
                assert_eq!(told, Err(number));
                assert_eq!(*self, before);
            }
            Ok(Committed { items, session }) => {
                let entering = items - before.items;
                let staying = session.needed;
                assert_eq!(told, Ok(Inquiry { entering, staying }));
                assert_eq!((session.marked, session.done), (before.session.marked, true));
                assert_eq!(self.times[items..], before.times[items..]);
                assert_eq!(self.ids[32 * items..], before.ids[32 * items..]);
                assert_eq!(self.needed[32 * staying..], before.needed[32 * staying..]);
                (self.items, self.session) = (items, session);
            }
        }
        told
    }

    /// The items at the front of the buffers.
    fn table(&self) -> Vec<Item> {
        let ids = self.ids.chunks_exact(32).map(|id| id.try_into().unwrap());
        self.times.iter().copied().zip(ids).take(self.items).collect()
    }
}

fn told(entering: usize, staying: usize) -> Result<Inquiry, u8> {
    Ok(Inquiry { entering, staying })
}

#[test]
fn e21_two_of_three() {
    let mut call = Call::e21();
    assert_eq!(call.fold(), told(2, 1));
    assert_eq!(call.table(), [(5, id(1)), (5, id(2)), (7, id(3)), (7, id(4))]);
    assert_eq!(call.needed, [id(3), id(3), id(4)].concat());
    assert_eq!(call.session.needed, 1);
}

#[test]
fn e22_ids_under_two_times() {
    let mut twice = Call::of_three_needed(&[(6, id(2)), (8, id(2))]);
    assert_eq!(twice.fold(), told(2, 2));
    assert_eq!(twice.table(), [(5, id(1)), (6, id(2)), (7, id(3)), (8, id(2))]);
    assert_eq!(twice.needed, [id(3), id(4), id(4)].concat());
    let mut other_time = Call::of_three_needed(&[(9, id(3))]);
    assert_eq!(other_time.fold(), told(1, 2));
    assert_eq!(other_time.table(), [(5, id(1)), (7, id(3)), (9, id(3))]);
    assert_eq!(other_time.needed, [id(2), id(4), id(4)].concat());
}

#[test]
fn e23_refusals() {
    let mut open = Call::e21();
    open.session.done = false;
    assert_eq!(open.fold(), Err(15));
    assert_eq!(Call::of_three_needed(&[(6, id(5))]).fold(), Err(16));
    assert_eq!(Call::of_three_needed(&[(7, id(3))]).fold(), Err(16));
    let mut short = Call::e21();
    short.times.truncate(3);
    short.ids.truncate(96);
    assert_eq!(short.fold(), Err(17));
    let mut odd = Call::e21();
    odd.needed.truncate(95);
    assert_eq!(odd.fold(), Err(4));
}

/// The list shrinks, and what stood behind it stays: A, B, C without A are B, C, C.
#[test]
fn needed_bytes_behind_the_list() {
    let mut call = Call::of_three_needed(&[(6, id(2))]);
    call.needed.extend([0xee; 64]);
    assert_eq!(call.fold(), told(1, 2));
    assert_eq!(call.needed, [id(3), id(4), id(4), [0xee; 32], [0xee; 32]].concat());
}

/// Buffers of the table may be longer than its items, and of different lengths; 17 tests each by itself.
#[test]
fn room_of_times_and_ids() {
    for times in 0..8 {
        for ids in 0..8 * 32 {
            let mut call = Call::e21();
            call.times.resize(times, 9);
            call.ids.resize(ids, 9);
            let expected = if times < 2 || ids < 64 {
                Err(1)
            } else if times < 4 || ids < 128 {
                Err(17)
            } else {
                told(2, 1)
            };
            assert_eq!(call.fold(), expected, "{times} times, {ids} id bytes");
        }
    }
}

/// An empty batch changes nothing, also in full buffers and for an empty table.
#[test]
fn an_empty_batch() {
    let items = [(5, id(1)), (7, id(3))];
    for (count, needed) in [(2, &[id(2)][..]), (2, &[]), (0, &[id(2)]), (0, &[])] {
        let mut call = Call::new(&items[..count], count, needed, &[]);
        let before = call.clone();
        assert_eq!(call.fold(), told(0, needed.len()));
        assert_eq!(call, before);
    }
}

#[test]
fn into_an_empty_table() {
    let batch = [(0, id(9)), (u64::MAX - 1, id(8))];
    let mut call = Call::new(&[], 2, &[id(8), id(9)], &batch);
    assert_eq!(call.fold(), told(2, 0));
    assert_eq!(call.table(), batch);
}

/// A count that the buffers hold is 1 where it exceeds the most items. Counts whose bytes pass 2^64 − 1 are 1 and 4.
#[test]
fn counts_do_not_wrap() {
    for count in [1 << 59, (1 << 59) + 1, 1 << 61, 1 << 63, usize::MAX, MAX_ITEMS + 1] {
        let mut table = Call::new(&[], 0, &[], &[]);
        table.items = count;
        assert_eq!(table.fold(), Err(1), "{count}");
        let mut list = Call::new(&[], 0, &[], &[]);
        list.session.needed = count;
        assert_eq!(list.fold(), Err(4), "{count}");
    }
}

/// So many items of rising times.
fn many(count: usize) -> Vec<Item> {
    (0..count as u64).map(|time| (time, [7; 32])).collect()
}

#[test]
fn the_most_items() {
    let (last, next) = ((MAX_ITEMS as u64, id(1)), (MAX_ITEMS as u64 + 1, id(2)));
    let mut call = Call::new(&many(MAX_ITEMS - 1), MAX_ITEMS + 1, &[id(1), id(2)], &[last]);
    let mut one_more = call.clone();
    one_more.batch_times.push(next.0);
    one_more.batch_ids.extend(next.1);
    assert_eq!(one_more.fold(), Err(17));
    assert_eq!(call.fold(), told(1, 1));
    assert_eq!(call.items, MAX_ITEMS);
    call.batch_times.clear();
    call.batch_ids.clear();
    assert_eq!(call.fold(), told(0, 1));
    // The buffers hold one item more than a table may have.
    call.times[MAX_ITEMS] = next.0;
    call.items += 1;
    assert_eq!(call.fold(), Err(1));
    let mut batch = Call::new(&[], 0, &[[7; 32]], &many(MAX_ITEMS + 1));
    assert_eq!(batch.fold(), Err(1));
    batch.batch_times.pop();
    batch.batch_ids.truncate(32 * MAX_ITEMS);
    assert_eq!(batch.fold(), Err(17));
}

type Fault = fn(&mut Call);

/// Faults in checking order; each edit leaves those of earlier numbers as they are. Faults of 1 in the table come after
/// those of 17, which shorten the same buffers.
const FAULTS: &[(u8, Fault)] = &[
    (1, |call| call.times.truncate(1)),
    (1, |call| call.ids.truncate(63)),
    (1, |call| call.items = 5),
    (1, |call| call.items = usize::MAX),
    (1, |call| call.batch_ids.truncate(63)),
    (1, |call| call.batch_ids.push(0)),
    (1, |call| call.batch_ids.extend(id(9))),
    (1, |call| call.batch_times.push(9)),
    (2, |call| call.times[0] = 8),
    (2, |call| call.times[1] = u64::MAX),
    (2, |call| call.batch_times[0] = 8),
    (2, |call| call.batch_times[1] = u64::MAX),
    (2, |call| {
        call.batch_times[1] = 5;
        call.batch_ids.copy_within(..32, 32);
    }),
    (4, |call| call.needed.truncate(95)),
    (4, |call| call.needed.push(0)),
    (4, |call| call.session.needed = 4),
    (4, |call| call.session.needed = 1 << 59),
    (4, |call| call.session.needed = usize::MAX),
    (4, |call| call.needed[32] = 2),
    (4, |call| call.needed[64] = 3),
    (15, |call| call.session.done = false),
    (16, |call| call.batch_ids[1] = 1),
    (16, |call| call.batch_ids[63] = 1),
    (16, |call| call.batch_ids[32] = 3),
    (17, |call| call.times.truncate(3)),
    (17, |call| call.ids.truncate(127)),
    (17, |call| call.ids.truncate(96)),
];

/// Of two faults, the one that is checked first counts, in both calls.
#[test]
fn pairs_of_faults() {
    for (i, (first, put_first)) in FAULTS.iter().enumerate() {
        for (second, put_second) in &FAULTS[i..] {
            // The later fault is put in first, so that the earlier one stands whole.
            let mut call = Call::e21();
            if first != second {
                put_second(&mut call);
            }
            put_first(&mut call);
            let before = call.clone();
            assert_eq!(call.fold(), Err(*first), "{first} and {second}: {before:?}");
        }
    }
}

/// A fault 1 of the batch comes before a fault 2 of the table.
#[test]
fn sizes_before_orders() {
    let mut call = Call::e21();
    call.times[0] = 9;
    call.batch_ids.pop();
    assert_eq!(call.fold(), Err(1));
}

/// The marks are not handed over, and their count is not judged; nor are bytes behind the list.
#[test]
fn what_is_not_judged() {
    for marked in [0, 1, usize::MAX] {
        let mut call = Call::e21();
        call.session.marked = marked;
        call.needed.extend([id(9), id(1)].concat());
        assert_eq!(call.fold(), told(2, 1));
    }
}

/// Runs a session to its end.
fn finished(ours: &[Item], theirs: &[Item], limit: Option<usize>) -> Opener {
    let theirs = Lent::new(theirs);
    let (mut opener, mut query) = Opener::open_within(Lent::new(ours), 2, 3, limit);
    while !opener.session.done {
        let reply = theirs.answer_within(3, 4, limit, &query).unwrap();
        query = opener.take(&reply, 500, 100_000).unwrap();
    }
    opener
}

/// So many items, each in ours, in theirs or in both.
fn two_tables(random: &mut Random, count: usize) -> [Vec<Item>; 2] {
    let mut tables = [Vec::new(), Vec::new()];
    let items: BTreeSet<Item> = (0..count)
        .map(|number| {
            let mut id = [0; 32];
            random.fill(&mut id);
            (number as u64 / 3, id)
        })
        .collect();
    for item in items {
        let owner = random.below(3);
        for (table, _) in tables.iter_mut().zip(0..).filter(|(_, number)| owner != *number) {
            table.push(item);
        }
    }
    tables
}

/// Whole sessions, and the needed items handed over by parts: the table becomes the union of both.
#[test]
fn unions() {
    for seed in 0..60 {
        let _name = Seed(seed);
        let mut random = Random(seed);
        let count = random.below(400);
        let [ours, theirs] = two_tables(&mut random, count);
        let limit = if random.one_in(2) { Some(4_096) } else { None };
        let opener = finished(&ours, &theirs, limit);
        let union: BTreeSet<Item> = ours.iter().chain(&theirs).copied().collect();
        let mut left: Vec<Item> = theirs.iter().copied().filter(|item| !ours.contains(item)).collect();
        let mut call = Call::new(&ours, union.len(), &opener.needed, &[]);
        while call.session.needed > 0 {
            let part: Vec<Item> = left.iter().copied().filter(|_| random.one_in(3)).collect();
            left.retain(|item| !part.contains(item));
            let batch = Lent::new(&part);
            (call.batch_times, call.batch_ids) = (batch.times, batch.ids);
            assert_eq!(call.fold(), told(part.len(), left.len()));
            // A batch that has entered is not due any more.
            assert_eq!(call.clone().fold().is_err(), !part.is_empty());
        }
        assert!(call.table().into_iter().eq(union));
    }
}
