//! What a build or an append is handed and what it leaves, and what holds of trees and runs by the specification alone.
use crate::calls::{Calls, GivenItem, TreeCall};
use crate::compare::{same_bytes, Check};
use crate::generate::Id;
use crate::label::Sum;
use recon::{Label, RunLabel, Table, LABEL_BYTES};

/// What a build or an append is handed.
#[derive(Clone, Copy)]
pub struct TreeInput<'a> {
    pub table: Table<'a>,
    /// The item of an append; a build has none.
    pub item: Option<GivenItem<'a>>,
    pub tree: &'a [u8],
}

/// What it answers, and the tree afterwards.
pub struct TreeAfter {
    pub outcome: Result<(), u8>,
    pub tree: Vec<u8>,
}

impl TreeAfter {
    /// The number of the refusal, 0 for none.
    pub fn number(&self) -> u8 {
        self.outcome.err().unwrap_or(0)
    }
}

impl TreeInput<'_> {
    pub fn call(&self) -> TreeCall {
        match self.item {
            None => TreeCall::Build,
            Some(_) => TreeCall::Append,
        }
    }

    /// Makes the call on a tree that has the same bytes.
    pub fn make(&self, calls: &dyn Calls, tree: &mut [u8]) -> Result<(), u8> {
        match self.item {
            None => calls.tree_build(self.table, tree),
            Some(item) => calls.tree_append(self.table, item, tree),
        }
    }

    /// Makes the call on a copy of the tree.
    pub fn run(&self, calls: &dyn Calls) -> TreeAfter {
        let mut tree = self.tree.to_vec();
        let outcome = self.make(calls, &mut tree);
        TreeAfter { outcome, tree }
    }

    /// A refused call leaves the tree as it was.
    pub fn check_refused(&self, after: &TreeAfter) -> Check {
        match after.outcome {
            Ok(()) => Ok(()),
            Err(number) => same_bytes(self.tree, &after.tree, || {
                format!("refused by {}: tree bytes before and afterwards", number)
            }),
        }
    }
}

/// The places of the tree over so many items: 1, 2, 4, 8 ..
pub fn places_over(items: usize) -> usize {
    (0..)
        .map(|k| 1 << k)
        .find(|&places| places >= items)
        .expect("a power of two")
}

/// The bytes of a tree of so many places.
pub fn bytes_of(places: usize) -> usize {
    LABEL_BYTES * (2 * places - 1)
}

/// The bytes of the label that stands at a place of the tree, level by level.
pub fn stored(tree: &[u8], at: usize) -> &[u8] {
    &tree[LABEL_BYTES * at..LABEL_BYTES * (at + 1)]
}

/// The places of a tree.
pub fn places_of(tree: &[u8]) -> usize {
    (tree.len() / LABEL_BYTES + 1) / 2
}

/// What holds of the label of a run in any tree. Both of its parts are told level by level, not from the whole down.
pub fn check_run(tree: &[u8], from: usize, to: usize, run: RunLabel) -> Check {
    let places = places_of(tree);
    let most = 4 * (u64::from(places.trailing_zeros()) + 1);
    if run.visited > most {
        return Err(format!("{} labels visited, at most {} expected", run.visited, most));
    }
    let to = to.min(places);
    let expected = RunLabel {
        label: label_by_levels(tree, from, to),
        visited: visits(places, from, to),
    };
    if run != expected {
        return Err(format!("{:?} expected, both say {:?}", expected, run));
    }
    Ok(())
}

/// The label of a run of places that exist, from the lowest level up: of each level those labels are added which are
/// inside the run while the one above them is not.
fn label_by_levels(tree: &[u8], mut from: usize, mut to: usize) -> Label {
    let mut sum = Sum::default();
    // A level of so many labels stands behind one fewer.
    let mut level = places_of(tree);
    let mut add = |at| sum.add_sum(&Sum::of_stored(stored(tree, at)));
    while from < to {
        if from % 2 == 1 {
            add(level - 1 + from);
        }
        if to % 2 == 1 {
            add(level - 1 + to - 1);
        }
        from = (from + 1) / 2;
        to /= 2;
        level /= 2;
    }
    sum.label()
}

/// How many labels a run of places that exist visits, told level by level: the whole, and two for each that is opened.
/// Those are opened inside of which the run begins or ends.
fn visits(places: usize, from: usize, to: usize) -> u64 {
    if from >= to {
        return 1;
    }
    let sizes = (0..places.trailing_zeros()).map(|level| places >> level);
    let opened = sizes.map(|size| {
        let (begins, ends) = (from % size > 0, to % size > 0);
        let is_same = begins && ends && from / size == to / size;
        u64::from(begins) + u64::from(ends) - u64::from(is_same)
    });
    1 + 2 * opened.sum::<u64>()
}

/// What an append to any tree leaves: the label of its id at its place, those above it from their two halves, and all
/// others as they were.
pub fn appended(before: &[u8], place: usize, id: &Id) -> Vec<u8> {
    let mut tree = before.to_vec();
    let put = |tree: &mut [u8], at: usize, sum: &Sum| {
        tree[LABEL_BYTES * at..LABEL_BYTES * (at + 1)].copy_from_slice(&sum.stored());
    };
    // A level of so many labels stands behind one fewer.
    let mut level = places_of(before);
    let mut in_level = place;
    let mut sum = Sum::default();
    sum.add(id, 1);
    put(&mut tree, level - 1 + in_level, &sum);
    while level > 1 {
        let left = level - 1 + in_level / 2 * 2;
        let mut sum = Sum::of_stored(stored(&tree, left));
        sum.add_sum(&Sum::of_stored(stored(&tree, left + 1)));
        level /= 2;
        in_level /= 2;
        put(&mut tree, level - 1 + in_level, &sum);
    }
    tree
}
