//! Tables, cuts and messages, random and structured.
use crate::rng::Rng;
use recon::{Cut, Label, Table};
use reference::{Bound, Payload, Range};
use std::collections::BTreeSet;

pub type Id = [u8; 32];
pub type Item = (u64, Id);

/// The largest time of an item.
pub const LAST_TIME: u64 = u64::MAX - 1;

/// A table and its bytes.
#[derive(Clone, Default)]
pub struct OwnedTable {
    pub times: Vec<u64>,
    pub ids: Vec<u8>,
}

impl OwnedTable {
    /// The table of some items, in their order.
    pub fn of(items: &[Item]) -> OwnedTable {
        OwnedTable {
            times: items.iter().map(|item| item.0).collect(),
            ids: items.iter().flat_map(|item| item.1).collect(),
        }
    }

    pub fn lent(&self) -> Table<'_> {
        Table {
            times: &self.times,
            ids: &self.ids,
        }
    }

    pub fn count(&self) -> usize {
        self.times.len()
    }

    pub fn items(&self) -> Vec<Item> {
        self.times.iter().copied().zip(whole_ids(&self.ids)).collect()
    }
}

/// The ids that stand in a byte string.
pub fn whole_ids(bytes: &[u8]) -> impl Iterator<Item = Id> + '_ {
    bytes.chunks_exact(32).map(|bytes| {
        let mut id = [0; 32];
        id.copy_from_slice(bytes);
        id
    })
}

/// The id with these first bytes, the others 00.
pub fn id_from(start: &[u8]) -> Id {
    let mut id = [0; 32];
    id[..start.len()].copy_from_slice(start);
    id
}

#[derive(Clone, Copy)]
enum Times {
    Random,
    One,
    Few,
    Rising,
    /// Among others 0 and 2^64 - 2.
    Ends,
}

#[derive(Clone, Copy)]
enum Ids {
    Random,
    /// Many share their first 31 bytes.
    LastByte,
    /// Almost all bytes 00, one id all of them.
    Low,
    /// Almost all bytes FF, one id all of them.
    High,
}

/// How the items of a table are made.
#[derive(Clone, Copy)]
pub struct Shape(Times, Ids);

pub const SHAPES: [Shape; 10] = [
    Shape(Times::Random, Ids::Random),
    Shape(Times::One, Ids::Random),
    Shape(Times::One, Ids::LastByte),
    Shape(Times::One, Ids::Low),
    Shape(Times::Few, Ids::Random),
    Shape(Times::Few, Ids::LastByte),
    Shape(Times::Few, Ids::High),
    Shape(Times::Rising, Ids::High),
    Shape(Times::Ends, Ids::Low),
    Shape(Times::Ends, Ids::Random),
];

impl Shape {
    fn time(self, rng: &mut Rng, number: usize) -> u64 {
        match self.0 {
            Times::Random => rng.word() % u64::MAX,
            Times::One => 1_700_000_000,
            Times::Few => 250 + rng.below(6) as u64,
            Times::Rising => 3 * number as u64,
            Times::Ends => rng.pick(&[0, 1, 127, 128, 1 << 32, LAST_TIME - 1, LAST_TIME]),
        }
    }

    fn id(self, rng: &mut Rng, number: usize) -> Id {
        let mut id = match self.1 {
            Ids::Random => return rng.id(),
            Ids::LastByte => {
                // A hundred at a time have the same 31 bytes.
                let group = number / 100;
                let mut id = [0xa5; 32];
                id[3..5].copy_from_slice(&[group as u8, (group >> 8) as u8]);
                id[31] = rng.byte();
                return id;
            }
            Ids::Low => [0; 32],
            Ids::High => [0xff; 32],
        };
        if number > 0 {
            for _ in 0..rng.between(1, 3) {
                id[rng.below(32)] = rng.byte();
            }
        }
        id
    }
}

/// So many items of a shape, no id twice, in random order.
pub fn items(rng: &mut Rng, shape: Shape, count: usize) -> Vec<Item> {
    let mut ids = BTreeSet::new();
    let mut items = Vec::with_capacity(count);
    while items.len() < count {
        let item = (shape.time(rng, items.len()), shape.id(rng, items.len()));
        if ids.insert(item.1) {
            items.push(item);
        }
    }
    rng.shuffle(&mut items);
    items
}

/// How the responder's table differs from the opener's.
#[derive(Clone, Copy, PartialEq, Eq)]
pub enum Relation {
    Equal,
    Disjoint,
    OursInside,
    TheirsInside,
    OneLess,
    OneMore,
    OneOther,
    TenPercent,
    Half,
    /// Some ids stand under two times, in one table or in both together.
    TwoTimes,
}

pub const RELATIONS: [Relation; 10] = [
    Relation::Equal,
    Relation::Disjoint,
    Relation::OursInside,
    Relation::TheirsInside,
    Relation::OneLess,
    Relation::OneMore,
    Relation::OneOther,
    Relation::TenPercent,
    Relation::Half,
    Relation::TwoTimes,
];

/// The items of two tables, in no order; the opener's are `count`, save for those under two times.
pub struct TwoTables {
    ours: Vec<Item>,
    theirs: Vec<Item>,
}

impl TwoTables {
    pub fn new(rng: &mut Rng, shape: Shape, relation: Relation, count: usize) -> TwoTables {
        let more = match relation {
            Relation::Disjoint | Relation::Half => rng.below(count + 3),
            Relation::OursInside => rng.between(1, count / 2 + 3),
            Relation::OneMore | Relation::OneOther => 1,
            Relation::TenPercent => count / 10 + 1,
            _ => 0,
        };
        let mut ours = items(rng, shape, count + more);
        let spare = ours.split_off(count);
        let dropped = match relation {
            Relation::Disjoint => 100,
            Relation::TheirsInside | Relation::Half => 50,
            Relation::TenPercent => 10,
            _ => 0,
        };
        let mut theirs: Vec<Item> = ours.iter().copied().filter(|_| !rng.chance(dropped)).collect();
        if matches!(relation, Relation::OneLess | Relation::OneOther) {
            theirs.pop();
        }
        theirs.extend(spare);
        let mut both = TwoTables { ours, theirs };
        if relation == Relation::TwoTimes {
            both.repeat_ids(rng);
        }
        both
    }

    /// Puts some ids under a second time, into either table.
    fn repeat_ids(&mut self, rng: &mut Rng) {
        for number in 0..rng.between(1, 4).min(self.ours.len()) {
            let (time, id) = self.ours[number];
            let again = (if time == LAST_TIME { 0 } else { time + 1 }, id);
            let tables: &mut [&mut Vec<Item>] = &mut [&mut self.ours, &mut self.theirs];
            tables[rng.below(2)].push(again);
        }
    }

    /// Adds two items to each table, all of one time: the four differ, and have the same sum and count. With x and y as
    /// numbers, least significant byte first: x + 1 and y in ours, x and y + 1 in theirs.
    pub fn add_collision(&mut self, rng: &mut Rng) {
        let mut x = rng.id();
        x[0] = x[0].min(0xfe);
        let mut y = x;
        y[31] ^= 1;
        let plus_one = |mut id: Id| {
            id[0] += 1;
            id
        };
        let time = match self.ours.last() {
            Some(item) if rng.chance(50) => item.0,
            _ => rng.below(2_000) as u64,
        };
        self.ours.extend([(time, plus_one(x)), (time, y)]);
        self.theirs.extend([(time, x), (time, plus_one(y))]);
    }

    /// The opener's table and the responder's.
    pub fn tables(mut self) -> [OwnedTable; 2] {
        for items in [&mut self.ours, &mut self.theirs] {
            items.sort_unstable();
            items.dedup();
        }
        [OwnedTable::of(&self.ours), OwnedTable::of(&self.theirs)]
    }
}

/// A lawful cut, small values more often.
fn cut(rng: &mut Rng) -> Cut {
    let parts = match rng.below(10) {
        0..=5 => rng.between(2, 4),
        6 | 7 => rng.between(2, 16),
        8 => rng.between(2, 64),
        _ => rng.pick(&[2, 63, 64]),
    };
    let limit = match rng.below(10) {
        0..=3 => parts,
        4..=6 => parts + rng.below(8),
        7 | 8 => parts + rng.below(64),
        _ if rng.chance(20) => 4_096,
        _ => rng.between(parts, 4_096),
    };
    Cut { parts, limit }
}

/// A cut with few parts and a small list limit, so that small tables need several replies.
fn small_cut(rng: &mut Rng) -> Cut {
    let parts = rng.pick(&[2, 2, 2, 3, 4]);
    Cut {
        parts,
        limit: parts + rng.pick(&[0, 0, 1, 3]),
    }
}

/// The cuts of both ends, small ones in so many of a hundred cases.
pub fn two_cuts(rng: &mut Rng, small: usize) -> [Cut; 2] {
    if rng.chance(small) {
        [small_cut(rng), small_cut(rng)]
    } else {
        [cut(rng), cut(rng)]
    }
}

pub fn any_label(rng: &mut Rng) -> Label {
    Label {
        sum: [0; 4].map(|_: u64| rng.word()),
        count: rng.word(),
    }
}

/// No byte limit, or a lawful one; the least more often.
pub fn lawful_limit(rng: &mut Rng) -> Option<usize> {
    let any = rng.between(4_096, 10_000);
    rng.pick(&[None, Some(4_096), Some(4_096), Some(any), Some(usize::MAX)])
}

/// A message about a table: rising bounds spelled in all ways, true and false fingerprints, lists of own and other ids
/// in any order and with repeats. It is lawful, save that a bound sometimes equals the one before.
pub fn message(rng: &mut Rng, table: &OwnedTable, others: &[Id]) -> Vec<u8> {
    let items = table.items();
    let bounds = (0..rng.below(7)).map(|_| bound(rng, &items)).collect();
    let is_lawful = rng.chance(90);
    let uppers = uppers(rng, bounds, is_lawful);
    spelled(rng, table, uppers, [1; 4], |rng| list(rng, &items, others))
}

/// A lawful message about a table with a bound near many of its items; its lists are short, with a long one at times.
pub fn long_message(rng: &mut Rng, table: &OwnedTable) -> Vec<u8> {
    let items = table.items();
    let near = rng.pick(&[10, 40, 90]);
    let mut bounds = Vec::new();
    for number in 0..items.len() {
        if rng.chance(near) {
            bounds.push(bound(rng, &items[number..=number]));
        }
    }
    let uppers = uppers(rng, bounds, true);
    // Of true fingerprints only a few, as each takes a reading of the table.
    let weights = rng.pick(&[
        [10, 1, 10, 10],
        [1, 0, 0, 10],
        [1, 0, 10, 0],
        [30, 3, 5, 5],
        [0, 1, 10, 10],
    ]);
    spelled(rng, table, uppers, weights, |rng| {
        let count = if rng.chance(2) { 300 } else { rng.below(3) };
        (0..count).map(|_| rng.id()).collect()
    })
}

/// Rising upper bounds, at times with infinity as the last. A lawful message has no bound that equals the one before.
fn uppers(rng: &mut Rng, mut bounds: Vec<(u64, Vec<u8>)>, is_lawful: bool) -> Vec<Bound> {
    bounds.sort_by_key(|(time, prefix)| (*time, id_from(prefix)));
    if is_lawful {
        bounds.dedup_by_key(|(time, prefix)| (*time, id_from(prefix)));
        bounds.retain(|(time, prefix)| (*time, id_from(prefix)) > (0, [0; 32]));
    }
    let mut uppers: Vec<Bound> = bounds
        .into_iter()
        .map(|(time, prefix)| Bound::At { time, prefix })
        .collect();
    if rng.chance(40) {
        uppers.push(Bound::Infinity);
    }
    uppers
}

/// The message with these bounds. The weights are those of skips, true fingerprints, false ones and lists.
fn spelled(
    rng: &mut Rng,
    table: &OwnedTable,
    uppers: Vec<Bound>,
    weights: [usize; 4],
    mut list: impl FnMut(&mut Rng) -> Vec<Id>,
) -> Vec<u8> {
    let [skips, truths, lies, lists] = weights;
    let mut lower = Bound::At {
        time: 0,
        prefix: Vec::new(),
    };
    let mut ranges = Vec::new();
    for upper in uppers {
        let drawn = rng.below(skips + truths + lies + lists);
        let payload = if drawn < skips {
            Payload::Skip
        } else if drawn < skips + truths {
            Payload::Fingerprint(true_fingerprint(table.lent(), &lower, &upper))
        } else if drawn < skips + truths + lies {
            Payload::Fingerprint(first_16(&rng.id()))
        } else {
            Payload::Ids(list(rng))
        };
        lower = upper.clone();
        ranges.push(Range { upper, payload });
    }
    reference::spell(&ranges)
}

/// A time and a prefix, mostly near an item.
fn bound(rng: &mut Rng, items: &[Item]) -> (u64, Vec<u8>) {
    let (time, id) = if items.is_empty() || rng.chance(20) {
        (rng.pick(&[0, 1, 250, 255, 256, LAST_TIME - 1, LAST_TIME]), rng.id())
    } else {
        items[rng.below(items.len())]
    };
    let mut prefix = match rng.below(4) {
        0 | 1 => Vec::new(),
        2 => id[..rng.between(1, 32)].to_vec(),
        _ => id.to_vec(),
    };
    if rng.chance(20) {
        // Missing bytes count as 00, so these say nothing new.
        prefix.resize(rng.between(prefix.len(), 32), 0);
    }
    (time, prefix)
}

/// Some ids of the items and others, some of them random and some twice, in any order.
fn list(rng: &mut Rng, items: &[Item], others: &[Id]) -> Vec<Id> {
    let mut ids: Vec<Id> = items.iter().map(|item| item.1).filter(|_| rng.chance(60)).collect();
    ids.extend(others.iter().filter(|_| rng.chance(30)));
    ids.extend((0..rng.below(3)).map(|_| rng.id()));
    if !ids.is_empty() && rng.chance(50) {
        ids.extend_from_within(..rng.between(1, ids.len()));
    }
    rng.shuffle(&mut ids);
    ids
}

pub fn first_16(bytes: &[u8]) -> [u8; 16] {
    let mut first = [0; 16];
    first.copy_from_slice(&bytes[..16]);
    first
}

/// The fingerprint of a table's items between two bounds.
pub fn true_fingerprint(table: Table<'_>, lower: &Bound, upper: &Bound) -> [u8; 16] {
    let given = |bound: &Bound| match bound {
        Bound::Infinity => reference::GivenBound {
            infinite: true,
            time: 0,
            length: 0,
            prefix: [0; 32],
        },
        Bound::At { time, prefix } => reference::GivenBound {
            infinite: false,
            time: *time,
            length: prefix.len(),
            prefix: id_from(prefix),
        },
    };
    reference::fingerprint(table.times, table.ids, &given(lower), &given(upper)).expect("the table is lawful")
}

/// Bytes from text: two hex digits each, `FF*8` for eight of them.
pub fn from_text(text: &str) -> Vec<u8> {
    text.split_whitespace()
        .flat_map(|word| {
            let (digits, count) = word
                .split_once('*')
                .map_or((word, 1), |(d, n)| (d, n.parse().expect("a count")));
            let bytes: Vec<u8> = (0..digits.len() / 2)
                .map(|i| u8::from_str_radix(&digits[2 * i..2 * i + 2], 16).expect("hex digits"))
                .collect();
            bytes.repeat(count)
        })
        .collect()
}
