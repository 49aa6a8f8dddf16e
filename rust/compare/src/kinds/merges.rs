//! Folding in at 1,048,576 items and one more, and needed lists of more ids than the library looks at at once
//! (131,072).
use super::limits::table;
use super::{expect_number, Case};
use crate::calls::FoldCall;
use crate::compare::Check;
use crate::fold::FoldInput;
use crate::generate::{whole_ids, Id, OwnedTable};
use crate::label::NO_SESSION;
use crate::rng::Rng;
use recon::{Session, Table, MAX_ITEMS};

type Merge = fn(&mut Case<'_, '_>) -> Check;

const MERGES: [Merge; 2] = [most_items, long_lists];

pub fn cases(_long: bool) -> u64 {
    MERGES.len() as u64
}

pub fn run(case: &mut Case<'_, '_>) -> Check {
    MERGES[case.index as usize](case)
}

/// The first items of a table.
fn first(table: &OwnedTable, count: usize) -> Table<'_> {
    Table {
        times: &table.times[..count],
        ids: &table.ids[..32 * count],
    }
}

/// A session that is done and needs so many ids. No label is compared.
pub fn done(needed: usize) -> Session {
    Session {
        needed,
        done: true,
        ..NO_SESSION
    }
}

/// Merges of the most items and of one more; a table and a batch of one item too many.
fn most_items(case: &mut Case<'_, '_>) -> Check {
    let buffers = table(case, MAX_ITEMS + 1);
    let others = [[7; 32], [8; 32]];
    let (times, needed) = ([2_000, 2_000], others.concat());
    let batch = |count: usize| Table {
        times: &times[..count],
        ids: &needed[..32 * count],
    };
    for (items, batch, number) in [
        (MAX_ITEMS - 1, batch(1), 0),
        (MAX_ITEMS - 1, batch(2), 17),
        (MAX_ITEMS, batch(0), 0),
        (MAX_ITEMS + 1, batch(0), 1),
        (1, buffers.lent(), 1),
        (1, first(&buffers, MAX_ITEMS), 16),
    ] {
        let input = FoldInput {
            call: FoldCall::Inquire,
            times: &buffers.times,
            ids: &buffers.ids,
            items,
            session: done(2),
            needed: &needed,
            batch,
        };
        case.expect_fold(&input, number)
            .map_err(|text| format!("{} items and {}: {}", items, batch.times.len(), text))?;
    }
    Ok(())
}

/// Needed lists of more than twice 131,072 ids, whose ids leave in two commits. In some all ids begin alike.
fn long_lists(case: &mut Case<'_, '_>) -> Check {
    for alike in [0, 9] {
        let count = if case.long { 600_000 } else { 280_000 };
        let mut ids: Vec<Id> = whole_ids(&case.rng.bytes(32 * count)).collect();
        ids.iter_mut().for_each(|id| id[..alike].fill(7));
        ids.sort_unstable();
        let own = table(case, 10_000);
        let parts = parted(&mut case.rng, &ids);
        let (mut times, mut all, mut needed) = (own.times, own.ids, ids.concat());
        let (mut items, mut session) = (times.len(), done(count));
        times.resize(items + count, 0);
        all.resize(32 * (items + count), 0);
        for batch in &parts {
            let input = FoldInput {
                call: FoldCall::Inquire,
                times: &times,
                ids: &all,
                items,
                session,
                needed: &needed,
                batch: batch.lent(),
            };
            let after = case.expect_fold(&input, 0)?;
            let left = after.committed().ok_or("no commit")?;
            (items, session) = (left.items, left.session);
            (times, all, needed) = (after.times, after.ids, after.needed);
        }
        expect_number(u8::from(session.needed > 0), 0)?;
    }
    Ok(())
}

/// Parts ids into two batches, a tenth of them and the rest, under any times.
fn parted(rng: &mut Rng, ids: &[Id]) -> [OwnedTable; 2] {
    let mut parts = [Vec::new(), Vec::new()];
    for id in ids {
        parts[usize::from(rng.chance(90))].push((rng.word() >> 40, *id));
    }
    parts.map(|mut items| {
        items.sort_unstable();
        OwnedTable::of(&items)
    })
}
