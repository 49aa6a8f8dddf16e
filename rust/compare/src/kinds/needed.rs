//! Folding in with needed lists of the sizes at which the library goes on to another byte of marks, from a short list
//! to a long one, to another window of ids or to another block of windows. The ids of a batch stand at both ends of the
//! list, around the end of each window and in between. The same batch with an id that is not on the list is refused.
use super::limits::table;
use super::merges::done;
use super::{Case, Group};
use crate::calls::FoldCall;
use crate::compare::Check;
use crate::fold::FoldInput;
use crate::generate::{whole_ids, Id, Item, OwnedTable};
use crate::rng::Rng;
use std::collections::BTreeSet;

/// Each with random ids, and batches of few of them where the list is long.
#[rustfmt::skip]
const SIZES: [usize; 18] = [
    0, 1, 7, 8, 9,                              // 8: a byte of marks
    1_016, 1_023, 1_024, 1_025, 1_032,          // 1,024: a short list
    131_071, 131_072, 131_073, 262_145,         // 131,072: a window
    1_048_575, 1_048_576, 1_048_577, 1_060_000, // 1,048,576: a block
];

/// Those with a batch of the last id alone, so that the other windows have none. They come first: the self-check finds
/// its damage there.
const LAST: [usize; 3] = [131_073, 262_145, 1_048_577];

/// Those with batches of so many ids that the library notes where first bytes change, and searches by that.
const MANY: [usize; 3] = [131_073, 262_145, 1_060_000];

/// Those with ids that share their first 24 bytes, which tell nothing of their places then.
const ALIKE: [usize; 9] = [1, 9, 1_023, 1_024, 1_025, 131_072, 131_073, 262_145, 1_048_577];

const WINDOW: usize = 131_072;

/// Up to this size there is time for many batches.
const SHORT: usize = 1_032;

const GROUPS: [Group; 4] = [
    Group {
        cases: |_| LAST.len(),
        run: |case, number| list(case, LAST[number], 0, |_, size| BTreeSet::from([size - 1])),
    },
    Group {
        cases: |_| SIZES.len(),
        run: |case, number| list(case, SIZES[number], 0, few),
    },
    Group {
        cases: |_| MANY.len(),
        run: |case, number| list(case, MANY[number], 0, |rng, size| around(rng, size, 9_000)),
    },
    Group {
        cases: |_| ALIKE.len(),
        run: |case, number| list(case, ALIKE[number], 24, few),
    },
];

pub fn cases(long: bool) -> u64 {
    Group::cases(&GROUPS, long)
}

pub fn run(case: &mut Case<'_, '_>) -> Check {
    Group::run(&GROUPS, case)
}

/// The places of a batch's ids in a list of some size.
type Places = fn(&mut Rng, usize) -> BTreeSet<usize>;

/// Any share of a short list, and few places of a long one.
fn few(rng: &mut Rng, size: usize) -> BTreeSet<usize> {
    if size > SHORT {
        return around(rng, size, 40);
    }
    let share = rng.pick(&[0, 1, 10, 50, 90, 99, 100]);
    (0..size).filter(|_| rng.chance(share)).collect()
}

/// Two places at each end of the list, two before and two behind each end of a window, and so many others.
fn around(rng: &mut Rng, size: usize, others: usize) -> BTreeSet<usize> {
    let ends = (0..size).step_by(WINDOW).chain([size]);
    let near = ends.flat_map(|end| end.saturating_sub(2)..size.min(end + 2));
    near.chain((0..others).map(|_| rng.below(size))).collect()
}

/// A list of so many ids that share so many first bytes, with batches of the ids at some places.
fn list(case: &mut Case<'_, '_>, size: usize, alike: usize, places: Places) -> Check {
    // Four more, which may stand behind the list.
    let mut ids: Vec<Id> = whole_ids(&case.rng.bytes(32 * (size + 4))).collect();
    ids.iter_mut().for_each(|id| id[..alike].fill(7));
    ids.sort_unstable();
    let batches = if size <= SHORT { 60 } else { 1 };
    for _ in 0..batches {
        let places = places(&mut case.rng, size);
        let mut batch: Vec<Item> = places.iter().map(|&place| (time(&mut case.rng), ids[place])).collect();
        // An id under two times leaves once.
        if let Some(&(time, id)) = batch.get(case.rng.below(batch.len() + 1)) {
            batch.push((time + 1, id));
        }
        commit(case, &ids, size, &mut batch, 0)?;
        batch.push((time(&mut case.rng), unlisted(&mut case.rng, &ids, size)));
        commit(case, &ids, size, &mut batch, 16)?;
    }
    Ok(())
}

/// A time of the table, or one near to those.
fn time(rng: &mut Rng) -> u64 {
    rng.between(998, 1_006) as u64
}

/// The id right behind the list, or one beside an id at the end of a window or anywhere.
fn unlisted(rng: &mut Rng, ids: &[Id], size: usize) -> Id {
    if rng.chance(50) {
        return ids[size];
    }
    let end = WINDOW * rng.between(0, size / WINDOW);
    let any = rng.below(size + 1);
    let mut id = ids[rng.pick(&[end.saturating_sub(1), end, any])];
    id[31] ^= 1;
    id
}

/// An inquiry and a commit of a batch. The first ids are needed, and none, one or all of the others stand behind them.
fn commit(case: &mut Case<'_, '_>, ids: &[Id], size: usize, batch: &mut [Item], number: u8) -> Check {
    batch.sort_unstable();
    let batch = OwnedTable::of(batch);
    let own = table(case, 9);
    let items = own.count();
    let room = batch.count() + case.rng.pick(&[0, 0, 2]);
    let (times, bytes) = (vec![3; room], case.rng.bytes(32 * room));
    let behind = case.rng.pick(&[0, 1, 4]);
    let input = FoldInput {
        call: FoldCall::Inquire,
        times: &[own.times, times].concat(),
        ids: &[own.ids, bytes].concat(),
        items,
        session: done(size),
        needed: &ids[..size + behind].concat(),
        batch: batch.lent(),
    };
    case.expect_fold(&input, number)
        .map(|_| ())
        .map_err(|text| format!("{} needed ids: {}", size, text))
}
