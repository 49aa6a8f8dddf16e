//! Tables of 1,048,576 items and one more, long lists, and parts of them.
use super::{expect_number, Case};
use crate::calls::{Call, GivenBound, GivenItem};
use crate::compare::Check;
use crate::exchange::{End, Ends, Exchange};
use crate::generate::OwnedTable;
use crate::tree::TreeInput;
use recon::{Cut, Table, MAX_ITEMS};

type Limit = fn(&mut Case<'_, '_>) -> Check;

const LIMITS: [Limit; 9] = [
    openings,
    byte_limits,
    refusals,
    fingerprints,
    trees,
    few_differences,
    all_ours,
    all_theirs,
    nothing_shared,
];

const LARGEST_CUT: Cut = Cut {
    parts: 64,
    limit: 4_096,
};
const SMALLEST_CUT: Cut = Cut { parts: 2, limit: 2 };
const MIDDLE_CUT: Cut = Cut { parts: 16, limit: 64 };

pub fn cases(_long: bool) -> u64 {
    LIMITS.len() as u64
}

pub fn run(case: &mut Case<'_, '_>) -> Check {
    LIMITS[case.index as usize](case)
}

/// Rising times, three items for each, and ids that rise in their first bytes.
pub fn table(case: &mut Case<'_, '_>, count: usize) -> OwnedTable {
    let mut ids = case.rng.bytes(32 * count);
    for (number, id) in ids.chunks_exact_mut(32).enumerate() {
        id[..4].copy_from_slice(&(number as u32).to_be_bytes());
    }
    let times = (0..count as u64).map(|number| 1_000 + number / 3).collect();
    OwnedTable { times, ids }
}

fn openings(case: &mut Case<'_, '_>) -> Check {
    let largest = table(case, MAX_ITEMS);
    let marks = case.rng.bytes(MAX_ITEMS);
    let out = case.rng.bytes(200_000);
    for cut in [LARGEST_CUT, SMALLEST_CUT, MIDDLE_CUT] {
        let opener = End { table: &largest, cut };
        let input = opener.input(Call::Open).with_out(&out);
        case.expect(&input.opened(&marks, &[]), 0)?;
    }
    Ok(())
}

/// Parts of one list of all ids.
fn byte_limits(case: &mut Case<'_, '_>) -> Check {
    let largest = table(case, MAX_ITEMS);
    let responder = End {
        table: &largest,
        cut: MIDDLE_CUT,
    };
    for limit in [4_096, 1_000_000] {
        let out = case.rng.bytes(limit);
        let input = responder.input(Call::Answer).within(Some(limit));
        case.expect(&input.with_message(&[0x61, 0, 0, 2, 0]).with_out(&out), 0)?;
    }
    Ok(())
}

/// One item more, and faults at the end of the largest table.
fn refusals(case: &mut Case<'_, '_>) -> Check {
    let mut items = table(case, MAX_ITEMS + 1);
    each_call(case, &items, 1)?;
    items.times.pop();
    each_call(case, &items, 1)?;
    items.ids.truncate(32 * MAX_ITEMS);
    each_call(case, &items, 0)?;
    let last = MAX_ITEMS - 1;
    items.times[last] = u64::MAX;
    each_call(case, &items, 2)?;
    items.times[last] = items.times[last - 1];
    items.ids.copy_within(32 * (last - 1)..32 * last, 32 * last);
    each_call(case, &items, 2)
}

fn each_call(case: &mut Case<'_, '_>, table: &OwnedTable, number: u8) -> Check {
    let marks = vec![0; table.count()];
    let out = case.rng.bytes(10_000);
    let cut = LARGEST_CUT;
    for call in Call::ALL {
        let input = End { table, cut }.input(call).with_message(&[0x61]).with_out(&out);
        case.expect(&input.opened(&marks, &[]), number)?;
    }
    Ok(())
}

fn fingerprints(case: &mut Case<'_, '_>) -> Check {
    let items = table(case, MAX_ITEMS + 1);
    for (count, number) in [(MAX_ITEMS, 0), (MAX_ITEMS + 1, 1)] {
        let table = Table {
            times: &items.times[..count],
            ids: &items.ids[..32 * count],
        };
        let told = case.comparer.fingerprint(table, GivenBound::WHOLE)?;
        expect_number(told.err().unwrap_or(0), number)?;
    }
    Ok(())
}

/// A tree of the largest size is full: 13, but 2 for an item that is not above the last, and 1 for one item more.
fn trees(case: &mut Case<'_, '_>) -> Check {
    let items = table(case, MAX_ITEMS + 1);
    let tree = vec![0x5a; 40 * (2 * MAX_ITEMS - 1)];
    let last = items.times[MAX_ITEMS];
    for (count, build, append, equal) in [(MAX_ITEMS, 0, 13, 2), (MAX_ITEMS + 1, 1, 1, 1)] {
        let table = Table {
            times: &items.times[..count],
            ids: &items.ids[..32 * count],
        };
        let lent = |item| TreeInput {
            table,
            item,
            tree: &tree,
        };
        let given = |time, id| lent(Some(GivenItem { time, id }));
        case.expect_tree(&lent(None), build)?;
        case.expect_tree(&given(last + 1, &[0; 32]), append)?;
        case.expect_tree(&given(table.times[count - 1], &table.ids[32 * (count - 1)..]), equal)?;
    }
    Ok(())
}

/// Two tables of the largest size that differ in some items.
fn few_differences(case: &mut Case<'_, '_>) -> Check {
    let ours = table(case, MAX_ITEMS);
    let mut theirs = ours.clone();
    for _ in 0..5 {
        let changed = 32 * case.rng.below(MAX_ITEMS) + 9;
        theirs.ids[changed] ^= 0x55;
    }
    session(case, [ours, theirs], [MIDDLE_CUT, LARGEST_CUT])
}

/// An empty responder.
fn all_ours(case: &mut Case<'_, '_>) -> Check {
    let ours = table(case, MAX_ITEMS);
    session(case, [ours, OwnedTable::default()], [LARGEST_CUT, LARGEST_CUT])
}

/// An empty opener: one list of many ids, more than any list limit.
fn all_theirs(case: &mut Case<'_, '_>) -> Check {
    let theirs = table(case, if case.long { MAX_ITEMS } else { 100_000 });
    session(case, [OwnedTable::default(), theirs], [MIDDLE_CUT, MIDDLE_CUT])
}

fn nothing_shared(case: &mut Case<'_, '_>) -> Check {
    let count = if case.long { 300_000 } else { 50_000 };
    let tables = [table(case, count), table(case, count)];
    session(case, tables, [LARGEST_CUT, MIDDLE_CUT])
}

fn session(case: &mut Case<'_, '_>, tables: [OwnedTable; 2], cuts: [Cut; 2]) -> Check {
    let ends = Ends { tables, cuts };
    Exchange::open(case, &ends)?.finish(case)
}
