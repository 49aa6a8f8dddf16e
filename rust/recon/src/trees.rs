//! Labels kept in a tree, in a buffer of the caller.
use crate::{ffi, Refusal, Table, LABEL_BYTES};
use core::ops::Range;

/// The label of some items: the sum of their ids modulo 2^256, each read as a number with the least significant byte first, and how many they
/// are. That of no items is zero and zero.
#[derive(Clone, Copy, Debug, Default, PartialEq, Eq, Hash)]
pub struct Label {
    /// The sum in four words, the least significant first.
    pub sum: [u64; 4],
    /// The number of items.
    pub count: u64,
}

/// The label of a run of places, and what it took to find it.
#[derive(Clone, Copy, Debug, Default, PartialEq, Eq, Hash)]
pub struct RunLabel {
    /// The label of the run.
    pub label: Label,
    /// How many labels of the tree were visited: at most 4 × (k + 1) where it has 2^k places.
    pub visited: u64,
}

/// The bytes of the tree over so many items. It has 2^k places, the smallest power of two that is not below their number, and
/// 2^(k + 1) - 1 labels of [`LABEL_BYTES`]. Where they are more than `usize::MAX`, that is told.
///
/// ```
/// use recon::tree_bytes;
///
/// assert_eq!([0, 1, 2, 3, 4, 5].map(tree_bytes), [40, 40, 120, 280, 280, 600]);
/// ```
pub const fn tree_bytes(items: usize) -> usize {
    match items.checked_next_power_of_two() {
        Some(places) => LABEL_BYTES.saturating_mul(places.saturating_mul(2) - 1),
        None => usize::MAX,
    }
}

/// Makes `tree`, whatever its bytes are, the tree over a table of n items. It takes time in proportion to n.
///
/// The places behind the items have the empty label, so items can be appended until there are as many as places.
///
/// ```
/// use recon::{build_tree, tree_bytes, Refusal, Table};
///
/// let table = Table { times: &[5, 7], ids: &[1; 64] };
/// let mut tree = [0xaa; tree_bytes(2)];
/// build_tree(table, &mut tree)?;
/// // Of all, of the first item and of the second: 32 bytes of sum, and the count.
/// assert_eq!(tree[..40], [[2; 32].to_vec(), vec![2, 0, 0, 0, 0, 0, 0, 0]].concat());
/// assert_eq!(tree[40..80], tree[80..]);
/// assert_eq!(build_tree(table, &mut tree[1..]), Err(Refusal::WrongTree));
/// # Ok::<(), Refusal>(())
/// ```
///
/// # Errors
/// Refusals 1 and 2 for the table, and 13 where `tree` has not [`tree_bytes`] of its items; then no byte has changed.
pub fn build_tree(table: Table<'_>, tree: &mut [u8]) -> Result<(), Refusal> {
    unless_refused(ffi::tree_build(table, tree))
}

/// Brings the tree over a table to the one over the same table with one more item, which is above all others. The table is the one before the
/// item; the call leaves it, and the caller adds the item.
///
/// A full tree, over 1, 2, 4, 8 .. items, is refused by 13: then build one over the items with the new one, which has twice the places.
///
/// The whole table is checked as with every call, so an append takes time in proportion to n; its work on the tree is k + 1 labels.
///
/// ```
/// use recon::{append_to_tree, build_tree, tree_bytes, Refusal, Table};
///
/// let (times, ids) = ([5, 6, 7, 8, 9], [1; 5 * 32]);
/// let first = |n: usize| Table { times: &times[..n], ids: &ids[..32 * n] };
/// let mut tree = vec![0; tree_bytes(3)];
/// build_tree(first(3), &mut tree)?;
/// append_to_tree(first(3), 8, &[1; 32], &mut tree)?;
///
/// // Four items fill the four places.
/// assert_eq!(append_to_tree(first(4), 9, &[1; 32], &mut tree), Err(Refusal::WrongTree));
/// tree.resize(tree_bytes(5), 0);
/// build_tree(first(5), &mut tree)?;
/// # Ok::<(), Refusal>(())
/// ```
///
/// # Errors
/// Refusals 1 for the table and for an id that has not 32 bytes; 2 for the table, for an item that is not above its last one, and for the time
/// 2^64 - 1; 13 where `tree` has not [`tree_bytes`] of the table's items or is full. Then no byte has changed.
pub fn append_to_tree(table: Table<'_>, time: u64, id: &[u8], tree: &mut [u8]) -> Result<(), Refusal> {
    unless_refused(ffi::tree_append(table, time, id, tree))
}

/// The label of the places from `places.start` to below `places.end`. The item at place i is the table's item i; the places behind the items are
/// empty, so a run may go beyond the last item, and beyond the last place. A run that is empty or reversed has the empty label.
///
/// At most 4 × (k + 1) labels are visited, where the tree has 2^k places. Any bytes of the right length are a tree: what they answer is the sum of
/// the labels that stand there.
///
/// ```
/// use recon::{build_tree, label_of_run, tree_bytes, Label, Refusal, Table};
///
/// let table = Table { times: &[5, 6, 7], ids: &[1; 96] };
/// let mut tree = [0; tree_bytes(3)];
/// build_tree(table, &mut tree)?;
/// let two = label_of_run(&tree, 1..3)?;
/// assert_eq!(two.label, Label { sum: [0x0202_0202_0202_0202; 4], count: 2 });
/// assert_eq!(label_of_run(&tree, 1..usize::MAX)?.label, two.label);
/// assert_eq!(label_of_run(&tree, 3..1)?.label, Label::default());
/// assert_eq!(label_of_run(&tree[40..], 1..3), Err(Refusal::WrongTree));
/// # Ok::<(), Refusal>(())
/// ```
///
/// # Errors
/// Refusal 13 where `tree` has not the length of a tree, 40 × (2^(k + 1) - 1) bytes for some k.
pub fn label_of_run(tree: &[u8], places: Range<usize>) -> Result<RunLabel, Refusal> {
    let answer = ffi::tree_label(tree, places.start, places.end);
    unless_refused(answer.refusal)?;
    Ok(RunLabel {
        label: answer.label.into(),
        visited: answer.visited,
    })
}

fn unless_refused(number: u64) -> Result<(), Refusal> {
    match Refusal::from_number(number) {
        Some(refusal) => Err(refusal),
        None => Ok(()),
    }
}
