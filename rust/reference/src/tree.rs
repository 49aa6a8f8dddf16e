//! Labels kept in a tree ("Labels kept in a tree").

use crate::bound::{Item, MAX_TIME};
use crate::label::Label;
use crate::refusal;
use crate::table::Table;
use std::ops::Range;

/// "Each takes 40 bytes".
const LABEL: usize = 40;

/// The label of a run of places, and "how many labels were visited".
#[derive(Clone, Copy, Debug, PartialEq, Eq)]
pub struct RunLabel {
    /// The label of the run.
    pub label: Label,
    /// How many labels were visited.
    pub visited: u64,
}

/// Build: makes the lent bytes the tree over a table. Refuses by 1, 2 and 13.
pub fn tree_build(times: &[u64], ids: &[u8], tree: &mut [u8]) -> Result<(), u8> {
    let table = Table::lent(times, ids)?; // 1, 2
    judge_length(places_for(table.count()), tree)?; // 13
    for (bytes, label) in tree.chunks_exact_mut(LABEL).zip(labels(&table)) {
        bytes.copy_from_slice(&label.bytes());
    }
    Ok(())
}

/// Append, "handed the table before it": stores the item's label at the first free place and "makes each label above
/// its place afresh from its two halves". Refuses by 1, 2 and 13.
pub fn tree_append(times: &[u64], ids: &[u8], time: u64, id: &[u8], tree: &mut [u8]) -> Result<(), u8> {
    let id: [u8; 32] = id.try_into().map_err(|_| refusal::TABLE_SIZE)?; // 1
    let table = Table::lent(times, ids)?; // 1, 2
    judge_item(&table, (time, &id))?; // 2
    let places = places_for(table.count());
    judge_length(places, tree)?; // 13
    let place = table.count();
    if place == places {
        return Err(refusal::TREE);
    }
    // The lowest level is the last one, with a label for each place, and has as many labels before it less one.
    let mut at = places - 1 + place;
    put(tree, at, Label::of_id(&id));
    while at > 0 {
        at = (at - 1) / 2;
        let [left, right] = halves(at);
        put(tree, at, get(tree, left).plus(get(tree, right)));
    }
    Ok(())
}

/// The label "of any run of places, from one to below another". Refuses by 13; any k will do.
pub fn tree_label(tree: &[u8], from: usize, to: usize) -> Result<RunLabel, u8> {
    let labels = tree.len() / LABEL;
    if tree.len() % LABEL != 0 || labels == 0 || !(labels + 1).is_power_of_two() {
        return Err(refusal::TREE);
    }
    // 2^(k+1) − 1 labels are over 2^k places.
    let places = (labels + 1) / 2;
    // "The whole first and ruled like a half".
    Ok(visit(tree, 0, 0..places, &(from..to)))
}

/// "An appended item not above the last meets 2", and so does the time 2^64 − 1.
fn judge_item(table: &Table, item: Item) -> Result<(), u8> {
    let last = table.count().checked_sub(1).map(|last| table.item(last));
    if item.0 > MAX_TIME || last.map_or(false, |last| item <= last) {
        return Err(refusal::TABLE_ORDER);
    }
    Ok(())
}

/// "2^k, the smallest power of two not below the item count (1 for no items)".
fn places_for(items: usize) -> usize {
    let mut places = 1;
    while places < items {
        places *= 2;
    }
    places
}

/// 13 for the length: "40 × (2^(k+1) − 1) bytes".
fn judge_length(places: usize, tree: &[u8]) -> Result<(), u8> {
    if tree.len() != LABEL * (2 * places - 1) {
        return Err(refusal::TREE);
    }
    Ok(())
}

/// All labels of a table's tree: "the whole lies first, then level by level from the left".
fn labels(table: &Table) -> Vec<Label> {
    // "The item places are filled with empty labels up to 2^k".
    let mut level: Vec<Label> = table.ids(0..table.count()).map(|id| Label::of_id(&id)).collect();
    level.resize(places_for(table.count()), Label::EMPTY);
    let mut levels = vec![level.clone()];
    while level.len() > 1 {
        // "Each label is the sum of the labels of its two halves".
        level = level.chunks_exact(2).map(|halves| halves[0].plus(halves[1])).collect();
        levels.push(level.clone());
    }
    levels.reverse();
    levels.concat()
}

/// Where the labels of the two halves stand. Level by level, the label at 0 has those at 1 and 2, the next ones 3 to 6.
fn halves(at: usize) -> [usize; 2] {
    [2 * at + 1, 2 * at + 2]
}

fn get(tree: &[u8], at: usize) -> Label {
    Label::of_bytes(&tree[LABEL * at..LABEL * (at + 1)])
}

fn put(tree: &mut [u8], at: usize, label: Label) {
    tree[LABEL * at..LABEL * (at + 1)].copy_from_slice(&label.bytes());
}

/// Visits the label that stands at `at` and is over these places. "A run is cut to the places that exist", as others
/// are in no half. "An empty or reversed run" shares no place with any, so the whole is outside it and isn't opened.
fn visit(tree: &[u8], at: usize, places: Range<usize>, run: &Range<usize>) -> RunLabel {
    let shared = places.start.max(run.start)..places.end.min(run.end);
    // "A half wholly inside or outside the run counts one and isn't opened".
    if shared.is_empty() || shared == places {
        let label = if shared.is_empty() { Label::EMPTY } else { get(tree, at) };
        return RunLabel { label, visited: 1 };
    }
    // "Any other counts one and both its halves are visited".
    let middle = (places.start + places.end) / 2;
    let [left, right] = halves(at);
    let left = visit(tree, left, places.start..middle, run);
    let right = visit(tree, right, middle..places.end, run);
    RunLabel {
        label: left.label.plus(right.label),
        visited: 1 + left.visited + right.visited,
    }
}

#[cfg(test)]
mod tests {
    use super::*;

    fn id(first: u8) -> [u8; 32] {
        let mut id = [0; 32];
        id[0] = first;
        id
    }

    /// A label with a small sum.
    fn label(sum: u64, count: u64) -> Label {
        let sum = [sum, 0, 0, 0];
        Label { sum, count }
    }

    fn tree(labels: &[(u64, u64)]) -> Vec<u8> {
        labels
            .iter()
            .flat_map(|&(sum, count)| label(sum, count).bytes())
            .collect()
    }

    #[test]
    fn e14_two_ids() {
        let mut built = [0xaa; 120];
        let ids = [[0xff; 32], id(1)].concat();
        assert_eq!(tree_build(&[5, 6], &ids, &mut built), Ok(()));
        let first = Label::of_id(&[0xff; 32]).bytes();
        assert_eq!(
            built[..],
            [label(0, 2).bytes(), first, label(1, 1).bytes()].concat()[..]
        );
    }

    #[test]
    fn e15_places() {
        let places = [0, 1, 2, 3, 4, 5, 8, 9].map(places_for);
        assert_eq!(places, [0, 0, 1, 2, 2, 3, 3, 4].map(|k| 1 << k));
        assert_eq!(places_for(1_048_576), 1_048_576);
        assert_eq!(places_for(524_289), 1_048_576);
    }

    #[test]
    fn e16_visits() {
        let visited = |from, to| tree_label(&[0; 600], from, to).unwrap().visited;
        let runs = [(0, 8), (0, 5), (1, 7), (3, 4), (8, 9), (5, 2), (3, 3)];
        assert_eq!(runs.map(|(from, to)| visited(from, to)), [1, 7, 11, 7, 1, 1, 1]);
        assert_eq!(visited(0, usize::MAX), 1);
        assert_eq!(visited(usize::MAX, 0), 1);
        assert_eq!(tree_label(&[0; 40], 0, 0).unwrap().visited, 1);
    }

    /// Empty places stand behind the items, and a build leaves no byte of what was there.
    #[test]
    fn three_items() {
        let mut built = [0xaa; 280];
        let ids = [id(1), id(2), id(4)].concat();
        assert_eq!(tree_build(&[5, 6, 7], &ids, &mut built), Ok(()));
        let labels = [(7, 3), (3, 2), (4, 1), (1, 1), (2, 1), (4, 1), (0, 0)];
        assert_eq!(built[..], tree(&labels)[..]);
        let run = |from, to| tree_label(&built, from, to).unwrap().label;
        assert_eq!(run(1, 3), label(6, 2));
        assert_eq!(run(0, 3), label(7, 3));
        assert_eq!(run(3, 9), Label::EMPTY);
        assert_eq!(run(2, 1), Label::EMPTY);
    }

    #[test]
    fn appends_build_the_same() {
        let ids: Vec<u8> = (0..40).flat_map(id).collect();
        let times: Vec<u64> = (0..40).collect();
        for start in 0..40 {
            let length = LABEL * (2 * places_for(start) - 1);
            let (mut grown, mut built) = (vec![0; length], vec![0; length]);
            tree_build(&times[..start], &ids[..32 * start], &mut grown).unwrap();
            for n in start..places_for(start).min(39) {
                let id = &ids[32 * n..32 * n + 32];
                tree_append(&times[..n], &ids[..32 * n], times[n], id, &mut grown).unwrap();
                tree_build(&times[..n + 1], &ids[..32 * n + 32], &mut built).unwrap();
                assert_eq!(grown, built, "{} items", n + 1);
            }
        }
    }

    /// "A tree not from build and appends answers by its stored labels".
    #[test]
    fn a_foreign_tree() {
        let mut foreign = tree(&[(10, 1), (20, 2), (30, 3), (40, 4), (50, 5), (60, 6), (70, 7)]);
        let run = |from, to| tree_label(&foreign, from, to).unwrap().label;
        assert_eq!(
            [run(0, 4), run(0, 2), run(1, 3)],
            [label(10, 1), label(20, 2), label(110, 11)]
        );
        let ids = [id(1), id(2), id(4)].concat();
        assert_eq!(tree_append(&[5, 6, 7], &ids, 8, &id(9), &mut foreign), Ok(()));
        let labels = [(89, 9), (20, 2), (69, 7), (40, 4), (50, 5), (60, 6), (9, 1)];
        assert_eq!(foreign, tree(&labels));
    }

    #[test]
    fn lengths() {
        let accepted: Vec<usize> = (0..1300).filter(|&n| tree_label(&vec![0; n], 0, 1).is_ok()).collect();
        assert_eq!(accepted, [40, 120, 280, 600, 1240]);
        assert_eq!(tree_label(&[0; 80], 0, 1), Err(13));
    }

    #[test]
    fn refusals_in_order() {
        let ids = [id(1), id(2), id(4)].concat();
        let append = |times: &[u64], bytes: usize, time, id: &[u8], length: usize| {
            let mut tree = vec![0x55; length];
            let answer = tree_append(times, &ids[..bytes], time, id, &mut tree);
            assert!(answer.is_ok() || tree == vec![0x55; length]);
            answer
        };
        assert_eq!(append(&[5, 6, 7], 96, 7, &id(5), 280), Ok(()));
        assert_eq!(append(&[5, 5, 4], 95, 4, &id(1), 0), Err(1));
        assert_eq!(append(&[5, 5, 4], 96, u64::MAX, &[9; 31], 0), Err(1));
        assert_eq!(append(&[5, 5, 4], 96, 9, &id(9), 0), Err(2));
        assert_eq!(append(&[5, 6, 7], 96, 7, &id(4), 0), Err(2));
        assert_eq!(append(&[5, 6, 7], 96, u64::MAX, &id(9), 0), Err(2));
        assert_eq!(append(&[], 0, u64::MAX, &id(9), 40), Err(2));
        assert_eq!(append(&[5, 6, 7], 96, 9, &id(9), 279), Err(13));
        assert_eq!(append(&[5, 6], 64, 9, &id(9), 120), Err(13));
        assert_eq!(append(&[5, 6], 64, 9, &id(9), 280), Err(13));
        assert_eq!(append(&[5, 6], 64, 6, &id(2), 120), Err(2));
        assert_eq!(tree_build(&[6, 5], &ids[..63], &mut []), Err(1));
        assert_eq!(tree_build(&[6, 5], &ids[..64], &mut []), Err(2));
        assert_eq!(tree_build(&[5, 6], &ids[..64], &mut [0; 119]), Err(13));
    }
}
