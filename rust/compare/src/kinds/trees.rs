//! Trees of labels: trees of every length, of any bytes, appended to until they are full, and every run of small ones;
//! each fault of a build and an append, and each two of them at once. The label of a run is also summed item by item.
use super::{expect_number, Case, Group};
use crate::calls::{GivenItem, TreeCall};
use crate::compare::{same_bytes, Check};
use crate::faults::with_first;
use crate::generate::{id_from, items, whole_ids, Id, Item, OwnedTable, LAST_TIME, SHAPES};
use crate::label::Sum;
use crate::tree::{appended, bytes_of, places_of, places_over, TreeInput};
use crate::tree_faults::{tree_faults_of, TreeDraft};
use recon::{Label, Table, LABEL_BYTES};

const GROUPS: [Group; 6] = [
    Group {
        cases: |_| 4,
        run: lengths,
    },
    Group {
        cases: |long| 9 * if long { 400 } else { 100 },
        run: any_bytes,
    },
    Group {
        cases: |long| STARTS.len() * if long { 8 } else { 2 },
        run: until_full,
    },
    Group {
        cases: |long| first_faults() * if long { 8 } else { 2 },
        run: faults,
    },
    Group {
        cases: |long| 71 * if long { 6 } else { 2 },
        run: every_run,
    },
    Group {
        cases: |long| if long { 400 } else { 100 },
        run: larger,
    },
];

/// How many items there are before the appends.
const STARTS: [usize; 18] = [0, 1, 2, 3, 4, 5, 6, 7, 9, 12, 17, 20, 33, 65, 129, 200, 257, 600];

pub fn cases(long: bool) -> u64 {
    Group::cases(&GROUPS, long)
}

pub fn run(case: &mut Case<'_, '_>) -> Check {
    Group::run(&GROUPS, case)
}

/// A table of any shape, and its items.
fn table(case: &mut Case<'_, '_>, count: usize) -> (OwnedTable, Vec<Item>) {
    let shape = case.rng.pick(&SHAPES);
    let mut items = items(&mut case.rng, shape, count);
    items.sort_unstable();
    (OwnedTable::of(&items), items)
}

/// The table of the first items.
fn first(table: &OwnedTable, count: usize) -> Table<'_> {
    Table {
        times: &table.times[..count],
        ids: &table.ids[..32 * count],
    }
}

/// The tree over a table, built into any bytes.
fn built(case: &mut Case<'_, '_>, table: Table<'_>) -> Check<Vec<u8>> {
    let tree = case.rng.bytes(bytes_of(places_over(table.times.len())));
    let (item, tree) = (None, &tree[..]);
    Ok(case.expect_tree(&TreeInput { table, item, tree }, 0)?.tree)
}

/// An append that gives this number; the tree afterwards.
fn append(case: &mut Case<'_, '_>, table: Table<'_>, item: &Item, tree: &[u8], number: u8) -> Check<Vec<u8>> {
    let item = Some(GivenItem {
        time: item.0,
        id: &item.1,
    });
    Ok(case.expect_tree(&TreeInput { table, item, tree }, number)?.tree)
}

/// A run of a tree from builds and appends, whose items have this label.
fn summed(case: &mut Case<'_, '_>, tree: &[u8], (from, to): (usize, usize), label: Label) -> Check {
    let told = case.comparer.tree_label(tree, from, to)?;
    let told = told.map_err(|number| format!("0 expected, both say {}", number))?;
    if told.label != label {
        let what = format!("{:?}, and summed item by item {:?}", told.label, label);
        return Err(format!("tree run from {} to {}: {}", from, to, what));
    }
    case.comparer.counts.summed += 1;
    Ok(())
}

/// Runs of any kind in a tree over these ids.
fn random_runs(case: &mut Case<'_, '_>, tree: &[u8], ids: &[u8], count: usize) -> Check {
    for _ in 0..count {
        let (from, to) = random_run(case, tree);
        let mut sum = Sum::default();
        let run = whole_ids(ids).take(to).skip(from);
        run.for_each(|id| sum.add(&id, 1));
        summed(case, tree, (from, to), sum.label())?;
    }
    Ok(())
}

/// Two places, often where a larger half ends or right beside it, at times none that exists.
fn random_run(case: &mut Case<'_, '_>, tree: &[u8]) -> (usize, usize) {
    let places = places_of(tree);
    let rng = &mut case.rng;
    let mut place = || match rng.below(10) {
        0..=4 => rng.below(places + 2),
        5 => 0,
        6 => rng.pick(&[places, places + 1, usize::MAX - 1, usize::MAX]),
        _ => {
            let half = places >> rng.below(4);
            (half * rng.below(9) + rng.below(3)).saturating_sub(1)
        }
    };
    let (one, other) = (place(), place());
    if rng.chance(80) {
        (one.min(other), one.max(other))
    } else {
        (one, other)
    }
}

/// The lengths of trees of 1 to 1,024 places.
const LENGTHS: [usize; 11] = [40, 120, 280, 600, 1_240, 2_520, 5_080, 10_200, 20_440, 40_920, 81_880];

/// Trees of each length up to 5,200 bytes, and around the lengths of larger ones: a run is refused by 13, save where
/// the length is that of a tree.
fn lengths(case: &mut Case<'_, '_>, number: usize) -> Check {
    let bytes = case.rng.bytes(90_000);
    let around = LENGTHS
        .iter()
        .flat_map(|&length| [length - 40, length - 1, length, length + 1, length + 40]);
    for length in (0..=5_200).chain(around).filter(|length| length % 4 == number) {
        let (from, to) = (case.rng.below(4), case.rng.below(9));
        let told = case.comparer.tree_label(&bytes[..length], from, to)?;
        let refused = if LENGTHS.contains(&length) { 0 } else { 13 };
        expect_number(told.err().unwrap_or(0), refused)?;
    }
    lengths_by_count(case, &bytes)
}

/// A build and an append are refused by 13, save where the length is that of the table's tree and, for an append, a
/// place is free.
fn lengths_by_count(case: &mut Case<'_, '_>, bytes: &[u8]) -> Check {
    let (table, items) = table(case, 18);
    for (count, item) in items.iter().enumerate() {
        let (table, places) = (first(&table, count), places_over(count));
        for &length in [0, 39, 80, 160, 200].iter().chain(&LENGTHS) {
            let (none, tree) = (None, &bytes[..length]);
            let is_right = length == bytes_of(places);
            let number = |is_lawful| if is_lawful { 0 } else { 13 };
            case.expect_tree(
                &TreeInput {
                    table,
                    item: none,
                    tree,
                },
                number(is_right),
            )?;
            append(case, table, item, tree, number(is_right && count < places))?;
        }
    }
    Ok(())
}

/// A tree that is not from builds and appends, by its number of 1 to 256 places: runs, and appends of items one after
/// another.
fn any_bytes(case: &mut Case<'_, '_>, number: usize) -> Check {
    let k = number % 9;
    let places = 1 << k;
    let mut tree = any_tree(case, places);
    runs_of_any(case, &tree)?;
    // The tables that go with so many places have more than half as many items.
    let least = if k == 0 { 0 } else { places / 2 + 1 };
    let (table, items) = table(case, places + 1);
    for count in (least..places).take(20) {
        let after = append(case, first(&table, count), &items[count], &tree, 0)?;
        same_bytes(&after, &appended(&tree, count, &items[count].1), || {
            "the tree after an append and the one from the halves".to_string()
        })?;
        tree = after;
    }
    append(case, first(&table, places), &items[places], &tree, 13)?;
    runs_of_any(case, &tree)
}

/// Any bytes, or all FF; counts are often so large that the sum of two passes 2^64 - 1.
fn any_tree(case: &mut Case<'_, '_>, places: usize) -> Vec<u8> {
    let length = bytes_of(places);
    if case.rng.chance(10) {
        return vec![0xff; length];
    }
    let mut tree = case.rng.bytes(length);
    for label in tree.chunks_exact_mut(LABEL_BYTES) {
        let random = case.rng.word();
        let count = case
            .rng
            .pick(&[u64::MAX, u64::MAX - 1, u64::MAX - 5, 1 << 63, random, 0, 1]);
        label[32..].copy_from_slice(&count.to_le_bytes());
        if case.rng.chance(30) {
            // The carry goes through several words.
            label[case.rng.below(16)..32].fill(0xff);
        }
    }
    tree
}

/// Every run of at most eight places, or some of more.
fn runs_of_any(case: &mut Case<'_, '_>, tree: &[u8]) -> Check {
    let places = places_of(tree);
    let runs: Vec<(usize, usize)> = if places <= 8 {
        let ends = || (0..places + 2).chain([usize::MAX]);
        ends().flat_map(|from| ends().map(move |to| (from, to))).collect()
    } else {
        (0..200).map(|_| random_run(case, tree)).collect()
    };
    for (from, to) in runs {
        let told = case.comparer.tree_label(tree, from, to)?;
        expect_number(told.err().unwrap_or(0), 0)?;
    }
    Ok(())
}

/// Appends to a built tree until no place is free. Each leaves what a build leaves, and refused ones come between them.
fn until_full(case: &mut Case<'_, '_>, number: usize) -> Check {
    let start = STARTS[number % STARTS.len()];
    let places = places_over(start);
    let (table, items) = table(case, places + 1);
    let mut tree = built(case, first(&table, start))?;
    for (count, item) in items.iter().enumerate().take(places).skip(start) {
        refused_appends(case, &table, count, &tree)?;
        tree = append(case, first(&table, count), item, &tree, 0)?;
        let again = built(case, first(&table, count + 1))?;
        same_bytes(&tree, &again, || {
            "the tree after an append and one built afresh".to_string()
        })?;
        case.comparer.counts.rebuilt += 1;
        random_runs(case, &tree, first(&table, count + 1).ids, 4)?;
    }
    refused_appends(case, &table, places, &tree)?;
    append(case, first(&table, places), &items[places], &tree, 13)?;
    let twice = built(case, table.lent())?;
    random_runs(case, &twice, &table.ids, 10)
}

/// Items that are not above the first ones, and trees of another length.
fn refused_appends(case: &mut Case<'_, '_>, table: &OwnedTable, count: usize, tree: &[u8]) -> Check {
    let own = first(table, count);
    let id = case.rng.id();
    append(case, own, &(u64::MAX, id), tree, 2)?;
    if count > 0 {
        let item = table.items()[case.rng.below(count)];
        append(case, own, &item, tree, 2)?;
    }
    let item = (LAST_TIME, [0xff; 32]);
    // This item may be the table's last one.
    if own.times.last() != Some(&LAST_TIME) {
        append(case, own, &item, &tree[1..], 13)?;
        append(case, own, &item, &[tree, &[0; 40]].concat(), 13)?;
    }
    let item = Some(GivenItem {
        time: LAST_TIME,
        id: &item.1[..31],
    });
    case.expect_tree(&TreeInput { table: own, item, tree }, 1)?;
    Ok(())
}

/// Every run of the tree over 0 to 70 items: from and to each place, one behind the last, and far behind.
fn every_run(case: &mut Case<'_, '_>, number: usize) -> Check {
    let count = number % 71;
    let (table, items) = table(case, count);
    let tree = built(case, table.lent())?;
    let ends = places_over(count) + 1;
    for from in 0..=ends {
        let mut sum = Sum::default();
        for to in 0..=ends {
            if let Some(item) = items.get(to.wrapping_sub(1)).filter(|_| to > from) {
                sum.add(&item.1, 1);
            }
            summed(case, &tree, (from, to), sum.label())?;
        }
        summed(case, &tree, (from, usize::MAX), sum.label())?;
        summed(case, &tree, (usize::MAX, from), Label::default())?;
    }
    Ok(())
}

/// Some thousands of items, or at times as many as a power of two or one more or less; runs before and after an append.
fn larger(case: &mut Case<'_, '_>, _: usize) -> Check {
    let most = if case.long { 60_000 } else { 6_000 };
    let any = case.rng.between(500, most);
    let near = case.rng.pick(&[511, 512, 513, 1_024, 2_047, 4_096, 4_097]);
    let count = case.rng.pick(&[any, any, near]);
    let (table, items) = large_table(case, count + 1);
    let tree = built(case, first(&table, count))?;
    random_runs(case, &tree, first(&table, count).ids, 40)?;
    let is_full = count == places_over(count);
    let number = if is_full { 13 } else { 0 };
    let after = append(case, first(&table, count), &items[count], &tree, number)?;
    if !is_full {
        random_runs(case, &after, &table.ids, 20)?;
    }
    Ok(())
}

/// Items of random ids, three for each time.
fn large_table(case: &mut Case<'_, '_>, count: usize) -> (OwnedTable, Vec<Item>) {
    let mut items: Vec<Item> = (0..count as u64).map(|number| (number / 3, case.rng.id())).collect();
    items.sort_unstable();
    (OwnedTable::of(&items), items)
}

/// The calls that have faults by pairs.
const WITH_FAULTS: [TreeCall; 2] = [TreeCall::Build, TreeCall::Append];

/// How many faults these calls have together. A case is a first fault, alone and with each second one.
fn first_faults() -> usize {
    WITH_FAULTS.iter().map(|&call| tree_faults_of(call).len()).sum()
}

/// A lawful input, and that input with a first fault and then each other.
fn faults(case: &mut Case<'_, '_>, number: usize) -> Check {
    let mut index = number % first_faults();
    for call in WITH_FAULTS {
        let faults = tree_faults_of(call);
        if index < faults.len() {
            let lawful = lawful(case, call);
            case.expect_tree(&lawful.input(), 0)?;
            return with_first(&lawful, &faults, index, |draft| {
                Ok(case.comparer.tree(&draft.input())?.number())
            });
        }
        index -= faults.len();
    }
    Err("there is no such case".to_string())
}

/// Items of rising times and rising ids, fewer than places, and an item above them, by its time or by its id alone.
fn lawful(case: &mut Case<'_, '_>, call: TreeCall) -> TreeDraft {
    let rng = &mut case.rng;
    let count = rng.pick(&[3, 5, 6, 7, 9]);
    let item = |number: usize, any: u8| (10 * number as u64 + 5, id_from(&[number as u8 + 1, any, 3]));
    let items: Vec<Item> = (0..count).map(|number| item(number, rng.byte())).collect();
    let last = items[count - 1].0;
    let any: Id = rng.id();
    let (time, id) = rng.pick(&[(last, [0xff; 32]), (last + 1, any), (LAST_TIME, any)]);
    let tree = rng.bytes(bytes_of(places_over(count)));
    TreeDraft::new(call, &OwnedTable::of(&items), (time, &id), &tree)
}
