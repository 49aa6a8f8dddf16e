//! Folding in: each fault of an inquiry and a commit, and each two of them at once; room of every size; batches that go
//! in front of a table, between its items and behind them, ids under two times, and inputs that are changed at random;
//! whole sessions whose needed items come in several commits. An inquiry and a commit of the same input have to agree.
use super::{Case, Group};
use crate::compare::Check;
use crate::faults::with_first;
use crate::fold_faults::{fold_faults, FoldDraft};
use crate::generate::{any_label, items, Id, Item, OwnedTable, Shape, LAST_TIME, SHAPES};
use crate::rng::Rng;
use crate::story;
use recon::Session;
use std::collections::BTreeSet;

const GROUPS: [Group; 6] = [
    Group {
        cases: |long| fold_faults().len() * if long { 16 } else { 8 },
        run: faults,
    },
    Group {
        cases: |long| 25 * if long { 8 } else { 3 },
        run: room,
    },
    Group {
        cases: |long| PLACES.len() * SHAPES.len() * if long { 200 } else { 60 },
        run: places,
    },
    Group {
        cases: |long| if long { 10_000 } else { 3_000 },
        run: changed,
    },
    Group {
        cases: |long| if long { 5_000 } else { 1_500 },
        run: |case, _| story::without_limits(case),
    },
    Group {
        cases: |long| if long { 600 } else { 150 },
        run: |case, _| story::within_limits(case),
    },
];

pub fn cases(long: bool) -> u64 {
    Group::cases(&GROUPS, long)
}

pub fn run(case: &mut Case<'_, '_>) -> Check {
    Group::run(&GROUPS, case)
}

/// A session that is done. Neither the count of its marks nor its label is judged.
fn done(rng: &mut Rng, needed: usize) -> Session {
    Session {
        marked: rng.pick(&[0, 3, usize::MAX]),
        needed,
        done: true,
        label: any_label(rng),
    }
}

/// The needed list of a batch and other ids, with any bytes behind it.
fn needed_list(rng: &mut Rng, batch: &[Item], others: &[Id]) -> (Session, Vec<u8>) {
    let ids: BTreeSet<Id> = batch.iter().map(|item| item.1).chain(others.iter().copied()).collect();
    let mut needed: Vec<u8> = ids.iter().flatten().copied().collect();
    let behind = 32 * rng.pick(&[0, 0, 1, 4]);
    needed.extend(rng.bytes(behind));
    (done(rng, ids.len()), needed)
}

/// A lawful draft of table and batch, both in order, with this room behind the table beside that of the batch.
fn draft(rng: &mut Rng, table: &[Item], batch: &[Item], others: &[Id], room: (usize, usize)) -> FoldDraft {
    let (session, needed) = needed_list(rng, batch, others);
    let batch = OwnedTable::of(batch);
    let mut draft = FoldDraft::new(&OwnedTable::of(table), session, &needed, &batch);
    let times = (0..batch.count() + room.0).map(|_| rng.word());
    draft.times.extend(times);
    draft.ids.extend(rng.bytes(32 * batch.count() + room.1));
    draft
}

/// Items of rising times, the batch anywhere among them; at least two other ids are needed.
fn small_draft(rng: &mut Rng, count: usize, batch_count: usize, room: (usize, usize)) -> FoldDraft {
    let mut items: Vec<Item> = (0..(count + batch_count) as u64)
        .map(|number| (10 * number + 5, rng.id()))
        .collect();
    rng.shuffle(&mut items);
    let (batch, table) = items.split_at_mut(batch_count);
    batch.sort_unstable();
    table.sort_unstable();
    let others = [rng.id(), rng.id()];
    draft(rng, table, batch, &others, room)
}

/// A lawful input, and that input with a first fault and then each other.
fn faults(case: &mut Case<'_, '_>, number: usize) -> Check {
    let faults = fold_faults();
    let first = number % faults.len();
    let (count, batch_count) = (case.rng.between(3, 9), case.rng.between(3, 6));
    let room = case.rng.pick(&[(0, 0), (0, 0), (1, 32), (3, 5)]);
    let lawful = small_draft(&mut case.rng, count, batch_count, room);
    case.expect_fold(&lawful.input(), 0)?;
    with_first(&lawful, &faults, first, |draft| Ok(case.fold(&draft.input())?.number()))
}

/// Up to four items and a batch of up to four, with every number of times and with id bytes around each whole id: 1
/// where they are too few for the table, 17 where they are too few for the merge.
fn room(case: &mut Case<'_, '_>, number: usize) -> Check {
    let (count, batch_count) = (number % 5, number / 5 % 5);
    let merged = count + batch_count;
    let lawful = small_draft(&mut case.rng, count, batch_count, (3, 3 * 32));
    for times in 0..=merged + 3 {
        let sizes = (0..=merged + 2).flat_map(|ids| [32 * ids, 32 * ids + 1, 32 * ids + 31]);
        for ids in sizes {
            let mut draft = lawful.clone();
            draft.times.truncate(times);
            draft.ids.truncate(ids);
            let expected = if times < count || ids < 32 * count {
                1
            } else if times < merged || ids < 32 * merged {
                17
            } else {
                0
            };
            case.expect_fold(&draft.input(), expected)
                .map_err(|text| format!("{} times, {} id bytes: {}", times, ids, text))?;
        }
    }
    Ok(())
}

/// Where the items of a batch stand among those of the table.
#[derive(Clone, Copy)]
enum Place {
    Front,
    Between,
    Behind,
    Alternating,
    Anywhere,
}

const PLACES: [Place; 5] = [
    Place::Front,
    Place::Between,
    Place::Behind,
    Place::Alternating,
    Place::Anywhere,
];

impl Place {
    /// Parts items in order into those of the table and so many of a batch.
    fn parted(self, rng: &mut Rng, items: &[Item], batch_count: usize) -> [Vec<Item>; 2] {
        let count = items.len() - batch_count;
        let first = match self {
            Place::Front => 0,
            Place::Behind => count,
            _ => rng.between(0, count),
        };
        let mut places: Vec<usize> = match self {
            Place::Front | Place::Between | Place::Behind => (first..first + batch_count).collect(),
            Place::Alternating => (0..items.len()).step_by(2).take(batch_count).collect(),
            Place::Anywhere => {
                let mut all: Vec<usize> = (0..items.len()).collect();
                rng.shuffle(&mut all);
                all.split_off(count)
            }
        };
        places.sort_unstable();
        let mut parts = [Vec::new(), Vec::new()];
        for (place, item) in items.iter().enumerate() {
            parts[usize::from(places.binary_search(&place).is_ok())].push(*item);
        }
        parts
    }
}

/// Tables of every shape with a batch at every place, with ids of the batch under a second time in batch or table.
fn places(case: &mut Case<'_, '_>, number: usize) -> Check {
    let place = PLACES[number % PLACES.len()];
    let shape = SHAPES[number / PLACES.len() % SHAPES.len()];
    let draft = placed(&mut case.rng, place, shape);
    let after = case.expect_fold(&draft.input(), 0)?;
    // What a commit leaves passes the checks of the next one.
    let left = after.committed().ok_or("no commit")?;
    let mut next = FoldDraft::new(
        &OwnedTable::default(),
        left.session,
        &after.needed,
        &OwnedTable::default(),
    );
    (next.times, next.ids, next.items) = (after.times, after.ids, left.items);
    case.expect_fold(&next.input(), 0)?;
    // The same batch is not due any more, unless it is empty.
    next.set_batch(draft.batch());
    let number = if draft.batch().count() > 0 { 16 } else { 0 };
    case.expect_fold(&next.input(), number).map(|_| ())
}

fn placed(rng: &mut Rng, place: Place, shape: Shape) -> FoldDraft {
    let batch_count = rng.pick(&[0, 1, 2, 5, 20]);
    let count = rng.pick(&[0, 1, 3, 20, 60]);
    let mut items = items(rng, shape, count + batch_count);
    items.sort_unstable();
    let [mut table, mut batch] = place.parted(rng, &items, batch_count);
    if rng.chance(40) {
        repeat_ids(rng, &mut table, &mut batch);
    }
    let mut others: Vec<Id> = (0..rng.below(8)).map(|_| rng.id()).collect();
    // An id may be needed and stand in the table.
    others.extend(table.iter().map(|item| item.1).filter(|_| rng.chance(10)));
    let room = (rng.pick(&[0, 0, 1, 9]), rng.pick(&[0, 0, 1, 31, 32, 100]));
    draft(rng, &table, &batch, &others, room)
}

/// Puts ids of a batch under another time into batch or table, and sorts both.
fn repeat_ids(rng: &mut Rng, table: &mut Vec<Item>, batch: &mut Vec<Item>) {
    for number in 0..rng.between(1, 4).min(batch.len()) {
        let (time, id) = batch[number];
        let any = rng.word() % u64::MAX;
        let again = (rng.pick(&[0, LAST_TIME, any, time ^ 1]).min(LAST_TIME), id);
        if !table.contains(&again) && !batch.contains(&again) {
            let tables: [&mut Vec<Item>; 2] = [table, batch];
            tables[rng.below(2)].push(again);
        }
    }
    table.sort_unstable();
    batch.sort_unstable();
}

/// Inputs that are lawful but for a few changes at random: the two implementations agree, and the two calls.
fn changed(case: &mut Case<'_, '_>, _: usize) -> Check {
    let (place, shape) = (case.rng.pick(&PLACES), case.rng.pick(&SHAPES));
    let lawful = placed(&mut case.rng, place, shape);
    for _ in 0..10 {
        let mut draft = lawful.clone();
        for _ in 0..case.rng.between(1, 2) {
            change(&mut case.rng, &mut draft);
        }
        let after = case.fold(&draft.input())?;
        draft.input().check_merge(&after)?;
    }
    Ok(())
}

fn change(rng: &mut Rng, draft: &mut FoldDraft) {
    let mut batch = draft.batch().clone();
    match rng.below(9) {
        0 => change_byte(rng, &mut draft.needed),
        1 => change_byte(rng, &mut draft.ids),
        2 => change_byte(rng, &mut batch.ids),
        3 => change_time(rng, &mut draft.times),
        4 => change_time(rng, &mut batch.times),
        5 => draft.items = near(rng, draft.items),
        6 => draft.session.needed = near(rng, draft.session.needed),
        7 => draft.times.truncate(rng.below(draft.times.len() + 1)),
        _ => draft.ids.truncate(rng.below(draft.ids.len() + 1)),
    }
    draft.set_batch(&batch);
}

fn change_byte(rng: &mut Rng, bytes: &mut [u8]) {
    if !bytes.is_empty() {
        let (at, by) = (rng.below(bytes.len()), rng.pick(&[1, 0x80, 0xff]));
        bytes[at] ^= by;
    }
}

fn change_time(rng: &mut Rng, times: &mut [u64]) {
    if !times.is_empty() {
        let at = rng.below(times.len());
        times[at] = rng.pick(&[times[at] ^ 1, times[at].wrapping_sub(1), u64::MAX, times[0]]);
    }
}

fn near(rng: &mut Rng, count: usize) -> usize {
    rng.pick(&[count.wrapping_sub(1), count + 1, 0, usize::MAX])
}
