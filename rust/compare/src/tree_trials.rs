//! The damages of the self-check in the calls on trees of labels.
use crate::calls::{Calls, Reference, RunOutcome, TreeCall};
use crate::damage::Damage;
use crate::label::Sum;
use crate::tree::{bytes_of, places_of, places_over, stored, TreeInput};
use crate::trials::{flip, trial, Trial};
use recon::{RunLabel, LABEL_BYTES, MAX_ITEMS};

/// Damages of one side, that comparing has to find.
pub fn one_sided() -> Vec<Trial> {
    let lists = [wrong_trees(), wrong_runs(), wrong_refusals()];
    lists.into_iter().flatten().collect()
}

fn build(spoil: fn(&TreeInput<'_>, &mut [u8])) -> Damage {
    Damage::Tree(TreeCall::Build, spoil)
}

fn append(spoil: fn(&TreeInput<'_>, &mut [u8])) -> Damage {
    Damage::Tree(TreeCall::Append, spoil)
}

/// Copies the label that stands at a place, level by level, if there is one.
fn put_back(tree: &mut [u8], before: &[u8], at: usize) {
    let bytes = LABEL_BYTES * at..LABEL_BYTES * (at + 1);
    if let (Some(now), Some(before)) = (tree.get_mut(bytes.clone()), before.get(bytes)) {
        now.copy_from_slice(before);
    }
}

#[rustfmt::skip]
fn wrong_trees() -> Vec<Trial> {
    let (kind, words) = ("trees", "tree bytes differ");
    vec![
        trial(kind, words, "an append leaves the label of the whole as it was", append(stale_whole)),
        trial(kind, words, "an append adds to the label of the whole", append(add_to_whole)),
        trial(kind, words, "an append changes the label before its place", append(|input, tree| {
            let place = places_of(tree) - 1 + input.table.times.len();
            flip(tree, (LABEL_BYTES * place).wrapping_sub(1));
        })),
        trial(kind, words, "a build leaves the bytes of a free place", build(|input, tree| {
            if input.table.times.len() < places_of(tree) {
                put_back(tree, input.tree, tree.len() / LABEL_BYTES - 1);
            }
        })),
        trial(kind, words, "a build lays two halves the other way round", build(swap_halves)),
        trial(kind, words, "a build lays the count before the sum", build(count_first)),
    ]
}

/// Those of the whole.
fn swap_halves(_: &TreeInput<'_>, tree: &mut [u8]) {
    if let Some(halves) = tree.get_mut(LABEL_BYTES..3 * LABEL_BYTES) {
        halves.rotate_left(LABEL_BYTES);
    }
}

fn count_first(_: &TreeInput<'_>, tree: &mut [u8]) {
    tree.chunks_exact_mut(LABEL_BYTES)
        .for_each(|label| label.rotate_left(32));
}

fn stale_whole(input: &TreeInput<'_>, tree: &mut [u8]) {
    // The whole of a single place is the label of the item itself.
    if tree.len() > LABEL_BYTES {
        put_back(tree, input.tree, 0);
    }
}

/// For a tree from builds and appends it makes no difference.
fn add_to_whole(input: &TreeInput<'_>, tree: &mut [u8]) {
    if let Some(item) = input.item {
        let mut whole = Sum::of_stored(stored(input.tree, 0));
        whole.add(item.id, 1);
        tree[..LABEL_BYTES].copy_from_slice(&whole.stored());
    }
}

#[rustfmt::skip]
fn wrong_runs() -> Vec<Trial> {
    let (kind, words) = ("trees", "tell Ok");
    vec![
        trial(kind, words, "a run counts a label too many", visits_one_more()),
        trial(kind, words, "a run does not count the whole", Damage::Run(|_, _, result| {
            if let Ok(run) = result {
                run.visited = run.visited.saturating_sub(1).max(1);
            }
        })),
        trial(kind, words, "an empty run inside the tree is opened", opens_empty_run()),
        trial(kind, words, "a reversed run is taken the other way round", Damage::Run(|tree, (from, to), result| {
            *result = Reference.tree_label(tree, from.min(to), from.max(to));
        })),
        trial(kind, words, "a run is not cut to the places", Damage::Run(|tree, (from, to), result| {
            if let (Ok(run), true) = (result, from == 0 && to > places_of(tree)) {
                run.visited += 2;
            }
        })),
        trial(kind, words, "the counts of two halves are not added", no_counts_added()),
        trial(kind, words, "counts are added up to 2^64 - 1", Damage::Run(saturate_count)),
        trial(kind, words, "the last word of a sum lacks a carry", Damage::Run(|_, _, result| {
            if let Ok(run) = result {
                run.label.sum[3] = run.label.sum[3].wrapping_sub(u64::from(run.visited > 1));
            }
        })),
        trial(kind, words, "the whole is summed place by place", Damage::Run(sum_places)),
        trial(kind, "tell Err(13)", "a tree of two labels is answered", Damage::Run(|tree, _, result| {
            if tree.len() == 2 * LABEL_BYTES {
                *result = Ok(RunLabel::default());
            }
        })),
        trial(kind, "tell Err(13)", "a tree without labels is answered", Damage::Run(|tree, _, result| {
            if tree.is_empty() {
                *result = Ok(RunLabel::default());
            }
        })),
    ]
}

fn visits_one_more() -> Damage {
    Damage::Run(|_, _, result| {
        if let Ok(run) = result {
            run.visited += 1;
        }
    })
}

fn opens_empty_run() -> Damage {
    Damage::Run(|tree, (from, to), result| {
        if let (Ok(run), true) = (result, from == to && 0 < from && from < places_of(tree)) {
            run.visited = 3;
        }
    })
}

fn no_counts_added() -> Damage {
    Damage::Run(|_, _, result| {
        if let Ok(run) = result {
            if run.visited > 1 {
                run.label.count = run.label.count.min(1);
            }
        }
    })
}

/// Of four places the two in the middle, which are two labels of the lowest level.
fn saturate_count(tree: &[u8], run: (usize, usize), result: &mut RunOutcome) {
    if let (Ok(told), 280, (1, 3)) = (result, tree.len(), run) {
        let counts = [4, 5].map(|at| Sum::of_stored(stored(tree, at)).label().count);
        told.label.count = counts[0].saturating_add(counts[1]);
    }
}

/// For a tree from builds and appends it makes no difference.
fn sum_places(tree: &[u8], (from, to): (usize, usize), result: &mut RunOutcome) {
    let places = if result.is_ok() { places_of(tree) } else { 0 };
    if let (Ok(run), true) = (result, from == 0 && to == places) {
        let mut sum = Sum::default();
        (places - 1..2 * places - 1).for_each(|at| sum.add_sum(&Sum::of_stored(stored(tree, at))));
        run.label = sum.label();
    }
}

#[rustfmt::skip]
fn wrong_refusals() -> Vec<Trial> {
    let kind = "trees";
    vec![
        trial(kind, "tree bytes differ", "a refused append changes a tree byte", refused_writes()),
        trial(kind, "answer Err(2)", "13 is checked before 2", checks_tree_first()),
        trial(kind, "answer Err(1)", "2 is checked before 1", Damage::AnyTree(|input, _, result| {
            if *result == Err(1) && matches!(input.item, Some(item) if item.time == u64::MAX) {
                *result = Err(2);
            }
        })),
        trial(kind, "answer Err(1)", "an id of 31 bytes is refused by 2", Damage::AnyTree(|input, _, result| {
            if *result == Err(1) && matches!(input.item, Some(item) if item.id.len() == 31) {
                *result = Err(2);
            }
        })),
        trial(kind, "answer Err(2)", "an item equal to the last is accepted", Damage::AnyTree(|input, _, result| {
            let last = input.table.ids.rchunks(32).next();
            if *result == Err(2) && matches!(input.item, Some(item) if Some(item.id) == last) {
                *result = Ok(());
            }
        })),
        trial(kind, "answer Err(2)", "a first item of time 2^64 - 1 is accepted", Damage::AnyTree(|input, _, result| {
            if *result == Err(2) && input.table.times.is_empty() {
                *result = Ok(());
            }
        })),
        trial(kind, "answer Err(13)", "an append to a full tree is accepted", accepts_full()),
        trial(kind, "answer Err(13)", "a longer tree is accepted", Damage::AnyTree(|input, _, result| {
            if *result == Err(13) && input.tree.len() > bytes_of(places_over(input.table.times.len())) {
                *result = Ok(());
            }
        })),
        trial(kind, "answer Ok", "a tree over no items is refused", Damage::AnyTree(|input, tree, result| {
            if input.table.times.is_empty() {
                tree.copy_from_slice(input.tree);
                *result = Err(13);
            }
        })),
        trial("limits", "answer Err(13)", "an append to the largest tree is refused by 1",
            Damage::AnyTree(|input, _, result| {
                if *result == Err(13) && input.table.times.len() == MAX_ITEMS {
                    *result = Err(1);
                }
            })),
        trial("limits", "answer Ok", "the largest tree is not built", Damage::AnyTree(|input, tree, result| {
            if result.is_ok() && input.table.times.len() == MAX_ITEMS {
                tree.copy_from_slice(input.tree);
                *result = Err(1);
            }
        })),
    ]
}

fn refused_writes() -> Damage {
    Damage::AnyTree(|input, tree, result| {
        if result.is_err() && input.item.is_some() {
            flip(tree, 0);
        }
    })
}

fn checks_tree_first() -> Damage {
    Damage::AnyTree(|input, _, result| {
        if *result == Err(2) && input.tree.len() != bytes_of(places_over(input.table.times.len())) {
            *result = Err(13);
        }
    })
}

/// It leaves the tree as it was.
fn accepts_full() -> Damage {
    Damage::AnyTree(|input, _, result| {
        if *result == Err(13) && input.tree.len() == bytes_of(places_over(input.table.times.len())) {
            *result = Ok(());
        }
    })
}

/// Damages of both sides alike, that the checks on the results themselves have to find.
#[rustfmt::skip]
pub fn both_sided() -> Vec<Trial> {
    let (kind, both) = ("trees", "both say");
    vec![
        trial("examples", both, "a run counts a label too many", visits_one_more()),
        trial(kind, both, "a run counts two labels too few", Damage::Run(|_, _, result| {
            if let Ok(run) = result {
                run.visited = run.visited.saturating_sub(2).max(1);
            }
        })),
        trial(kind, both, "an empty run inside the tree is opened", opens_empty_run()),
        trial(kind, both, "counts are added up to 2^64 - 1", Damage::Run(saturate_count)),
        trial(kind, both, "the whole is summed place by place", Damage::Run(sum_places)),
        trial(kind, "labels visited, at most", "a run opens all halves", Damage::Run(|tree, _, result| {
            if let Ok(run) = result {
                if run.visited > 1 {
                    run.visited = (tree.len() / LABEL_BYTES) as u64;
                }
            }
        })),
        trial(kind, both, "the counts of two halves are not added", no_counts_added()),
        trial(kind, "summed item by item", "a build lays two halves the other way round", build(swap_halves)),
        trial(kind, "one built afresh", "an append leaves the label of the whole as it was", append(stale_whole)),
        trial(kind, "the one from the halves", "an append adds to the label of the whole", append(add_to_whole)),
        trial(kind, "before and afterwards", "a refused append changes a tree byte", refused_writes()),
        trial(kind, both, "13 is checked before 2", checks_tree_first()),
        trial(kind, both, "an append to a full tree is accepted", accepts_full()),
        trial(kind, both, "a tree without labels is answered by 12", Damage::Run(|tree, _, result| {
            if tree.is_empty() {
                *result = Err(12);
            }
        })),
        trial("examples", "the tree and the expected one", "a build lays the count before the sum", build(count_first)),
    ]
}
