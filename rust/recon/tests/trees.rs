//! Trees of labels: known answers, written by hand. E14 to E16 are examples of the specification.
use recon::{
    append_to_tree, build_tree, label_of_run, tree_bytes, Label, Refusal, RunLabel, Table, LABEL_BYTES, MAX_ITEMS,
};

const NONE: Table<'static> = Table { times: &[], ids: &[] };

/// The id that starts with a byte and is then zero.
fn id(first: u8) -> [u8; 32] {
    let mut id = [0; 32];
    id[0] = first;
    id
}

/// The bytes of a label whose sum starts with a byte and is then zero.
fn stored(sum: u8, count: u8) -> Vec<u8> {
    let mut bytes = vec![0; LABEL_BYTES];
    (bytes[0], bytes[32]) = (sum, count);
    bytes
}

/// The label of a sum below 2^64.
fn label(sum: u64, count: u64) -> Label {
    Label {
        sum: [sum, 0, 0, 0],
        count,
    }
}

/// Items of the times 1, 2, 3 .. and the ids id(1), id(2), id(3) ..
struct Items {
    times: Vec<u64>,
    ids: Vec<u8>,
}

impl Items {
    fn new(count: u8) -> Items {
        Items {
            times: (1..=u64::from(count)).collect(),
            ids: (1..=count).flat_map(id).collect(),
        }
    }

    /// The table of the first items.
    fn first(&self, count: usize) -> Table<'_> {
        Table {
            times: &self.times[..count],
            ids: &self.ids[..32 * count],
        }
    }

    fn table(&self) -> Table<'_> {
        self.first(self.times.len())
    }

    /// The tree over them.
    fn tree(&self) -> Vec<u8> {
        let mut tree = vec![0xaa; tree_bytes(self.times.len())];
        assert_eq!(build_tree(self.table(), &mut tree), Ok(()));
        tree
    }
}

/// How many labels the run visits in a tree of so many places.
fn visited(places: usize, from: usize, to: usize) -> u64 {
    label_of_run(&vec![0; tree_bytes(places)], from..to).unwrap().visited
}

#[test]
fn e14_the_tree_over_two_ids() {
    let ids = [[0xff; 32], id(1)].concat();
    let table = Table {
        times: &[5, 6],
        ids: &ids,
    };
    let mut tree = [0xaa; 120];
    assert_eq!(build_tree(table, &mut tree), Ok(()));
    let mut first = vec![0xff; 32];
    first.extend([1, 0, 0, 0, 0, 0, 0, 0]);
    assert_eq!(tree[..], [stored(0, 2), first, stored(1, 1)].concat());
}

#[test]
fn e15_the_bytes_of_trees() {
    let labels = |items| tree_bytes(items) / LABEL_BYTES;
    let counts = [0, 1, 2, 3, 4, 5, 8, 9].map(labels);
    assert_eq!(counts, [1, 1, 3, 7, 7, 15, 15, 31]);
    assert_eq!(tree_bytes(MAX_ITEMS), 40 * (2 * MAX_ITEMS - 1));
    assert_eq!(tree_bytes(1 << 57), 40 * ((1 << 58) - 1));
    for items in [(1 << 57) + 1, 1 << 63, (1 << 63) + 1, usize::MAX] {
        assert_eq!(tree_bytes(items), usize::MAX);
    }
}

#[test]
fn e16_labels_visited() {
    let runs = [(0, 8), (0, 5), (1, 7), (3, 4), (8, 9), (5, 2), (3, 3)];
    assert_eq!(runs.map(|(from, to)| visited(8, from, to)), [1, 7, 11, 7, 1, 1, 1]);
}

#[test]
fn one_label_is_never_opened() {
    for (from, to) in [(0, 1), (0, 0), (1, 0), (0, usize::MAX), (1, 2), (usize::MAX, 0)] {
        assert_eq!(visited(1, from, to), 1, "{from} to {to}");
    }
}

/// 4k - 1 labels, which are below 4 × (k + 1), are visited where a run leaves out the first and the last place.
#[test]
fn the_most_labels_visited() {
    for k in 2..13 {
        let places = 1 << k;
        assert_eq!(visited(places, 1, places - 1), 4 * k - 1);
    }
}

/// The places that exist are 2^k, and not as many as the items.
#[test]
fn a_run_is_cut_to_the_places() {
    let tree = Items::new(5).tree();
    let all = label(1 + 2 + 3 + 4 + 5, 5);
    let run = |from, to| label_of_run(&tree, from..to);
    let found = |label, visited| Ok(RunLabel { label, visited });
    assert_eq!(run(0, 5), found(all, 7));
    assert_eq!(run(0, 7), found(all, 7));
    for to in [8, 9, usize::MAX] {
        assert_eq!(run(0, to), found(all, 1));
        assert_eq!(run(3, to), found(label(4 + 5, 2), 7));
        assert_eq!(run(8, to), found(Label::default(), 1));
    }
    assert_eq!(run(usize::MAX, usize::MAX), found(Label::default(), 1));
}

#[test]
fn runs_of_three_items() {
    let tree = Items::new(3).tree();
    let rows = [
        (0..4, label(6, 3), 1),
        (0..2, label(3, 2), 3),
        (2..4, label(3, 1), 3),
        (1..2, label(2, 1), 5),
        (1..3, label(5, 2), 7),
        (3..4, label(0, 0), 5),
    ];
    for (places, label, visited) in rows {
        assert_eq!(
            label_of_run(&tree, places.clone()),
            Ok(RunLabel { label, visited }),
            "{places:?}"
        );
    }
}

#[test]
fn the_tree_over_three_items() {
    let labels = [(6, 3), (3, 2), (3, 1), (1, 1), (2, 1), (3, 1), (0, 0)];
    assert_eq!(
        Items::new(3).tree(),
        labels.map(|(sum, count)| stored(sum, count)).concat()
    );
}

#[test]
fn no_items_have_the_empty_label() {
    assert_eq!(Items::new(0).tree(), [0; 40]);
    assert_eq!(
        label_of_run(&[0; 40], 0..1),
        Ok(RunLabel {
            label: Label::default(),
            visited: 1
        })
    );
}

/// Ids are added modulo 2^256, the first byte being the lowest.
#[test]
fn sums_carry_and_wrap() {
    let mut low = [0xff; 32];
    low[31] = 0;
    let ids = [id(1), low, [0xff; 32], id(1)].concat();
    let mut tree = [0; 280];
    build_tree(
        Table {
            times: &[1, 2, 3, 4],
            ids: &ids,
        },
        &mut tree,
    )
    .unwrap();
    let sum = |places| label_of_run(&tree, places).unwrap().label.sum;
    assert_eq!(sum(0..2), [0, 0, 0, 1 << 56]);
    assert_eq!(sum(1..2), [u64::MAX, u64::MAX, u64::MAX, u64::MAX >> 8]);
    assert_eq!(sum(2..4), [0; 4]);
    assert_eq!(sum(1..3), [u64::MAX - 1, u64::MAX, u64::MAX, (1 << 56) - 1]);
}

/// Appends until the tree is full: each leaves the bytes that a build leaves.
#[test]
fn appends_until_the_tree_is_full() {
    for start in [0, 1, 2, 3, 5, 9, 17, 33] {
        let mut tree = Items::new(start).tree();
        let mut items = Items::new(start);
        loop {
            let place = items.times.len() as u8 + 1;
            let appended = append_to_tree(items.table(), u64::from(place), &id(place), &mut tree);
            if tree_bytes(usize::from(place)) != tree.len() {
                assert_eq!(appended, Err(Refusal::WrongTree));
                break;
            }
            assert_eq!(appended, Ok(()));
            items = Items::new(place);
            assert_eq!(tree, items.tree(), "{start} items, then {place}");
        }
        assert!(items.times.len().is_power_of_two() && tree == items.tree());
    }
}

#[test]
fn a_run_is_refused_for_the_length_of_the_tree() {
    let bytes = [0; 1300];
    let accepted: Vec<usize> = (0..=bytes.len())
        .filter(|&length| label_of_run(&bytes[..length], 0..1).is_ok())
        .collect();
    assert_eq!(accepted, [40, 120, 280, 600, 1240]);
    for length in [0, 39, 80, 160, 200] {
        for (from, to) in [(0, 1), (1, 0), (0, usize::MAX)] {
            assert_eq!(label_of_run(&bytes[..length], from..to), Err(Refusal::WrongTree));
        }
    }
}

/// A build and an append ask for the length that goes with the items, and for no other k.
#[test]
fn the_length_goes_with_the_items() {
    let items = Items::new(10);
    for count in 0..10_u8 {
        let table = items.first(usize::from(count));
        for length in [0, 39, 40, 41, 80, 120, 160, 200, 280, 600, 1240] {
            let mut tree = vec![0; length];
            let right = length == tree_bytes(usize::from(count));
            let refusal = if right { Ok(()) } else { Err(Refusal::WrongTree) };
            assert_eq!(build_tree(table, &mut tree), refusal, "{count} items, {length} bytes");
            let full = [1, 2, 4, 8].contains(&count);
            let refusal = if right && !full {
                Ok(())
            } else {
                Err(Refusal::WrongTree)
            };
            let appended = append_to_tree(table, u64::from(count) + 1, &id(count + 1), &mut tree);
            assert_eq!(appended, refusal, "{count} items, {length} bytes");
        }
    }
}

/// Rows of a table, an item and the bytes of a tree: the first check that fails counts, and then no byte has changed.
#[test]
fn refusals_in_order() {
    let three = Items::new(3);
    let falling = Table {
        times: &[2, 1, 3],
        ids: &three.ids,
    };
    let short = Table {
        times: &[2, 1, 3],
        ids: &three.ids[1..],
    };
    let long = &[9; 33][..];
    let rows = [
        (three.table(), 4, &long[..32], 280, None),
        (three.table(), 3, &id(4), 280, None),
        (short, 3, &id(3), 0, Some(Refusal::TableSize)),
        (falling, 3, &long[..31], 0, Some(Refusal::TableSize)),
        (three.table(), u64::MAX, long, 0, Some(Refusal::TableSize)),
        (three.table(), 4, &[], 280, Some(Refusal::TableSize)),
        (falling, 4, &id(4), 0, Some(Refusal::TableOrder)),
        (three.table(), 3, &id(3), 0, Some(Refusal::TableOrder)),
        (three.table(), 3, &id(2), 280, Some(Refusal::TableOrder)),
        (three.table(), 2, &id(9), 280, Some(Refusal::TableOrder)),
        (three.table(), u64::MAX, &id(9), 280, Some(Refusal::TableOrder)),
        (NONE, u64::MAX, &id(9), 40, Some(Refusal::TableOrder)),
        (three.table(), 4, &id(4), 279, Some(Refusal::WrongTree)),
        (three.table(), 4, &id(4), 281, Some(Refusal::WrongTree)),
        (three.first(2), 2, &id(2), 120, Some(Refusal::TableOrder)),
        (three.first(2), 3, &id(3), 120, Some(Refusal::WrongTree)),
    ];
    for (row, (table, time, id, length, refusal)) in rows.into_iter().enumerate() {
        let mut tree = vec![0x55; length];
        let appended = append_to_tree(table, time, id, &mut tree);
        assert_eq!(appended.err(), refusal, "row {row}");
        assert_eq!(tree.iter().all(|&byte| byte == 0x55), refusal.is_some(), "row {row}");
    }
    let mut tree = [0x55; 279];
    assert_eq!(build_tree(short, &mut tree), Err(Refusal::TableSize));
    assert_eq!(build_tree(falling, &mut tree), Err(Refusal::TableOrder));
    assert_eq!(build_tree(three.table(), &mut tree), Err(Refusal::WrongTree));
    assert_eq!(tree, [0x55; 279]);
}

/// A tree over as many items as there can be is full: 13, and 2 where the item is not above the last.
#[test]
fn the_largest_tree_is_full() {
    let times: Vec<u64> = (0..=MAX_ITEMS as u64).collect();
    let ids: Vec<u8> = vec![7; 32 * times.len()];
    let first = |count: usize| Table {
        times: &times[..count],
        ids: &ids[..32 * count],
    };
    let mut tree = vec![0; tree_bytes(MAX_ITEMS)];
    let last = MAX_ITEMS as u64 - 1;
    assert_eq!(build_tree(first(MAX_ITEMS - 1), &mut tree), Ok(()));
    assert_eq!(append_to_tree(first(MAX_ITEMS - 1), last, &[7; 32], &mut tree), Ok(()));
    let whole = label_of_run(&tree, 0..MAX_ITEMS).unwrap();
    assert_eq!((whole.label.count, whole.visited), (1 << 20, 1));
    // 32 bytes 07, moved up by five hex digits.
    let [low, .., high] = whole.label.sum;
    assert_eq!((low, high), (0x7070_7070_7070_0000, 0x7070_7070_7070_7070));
    let full = first(MAX_ITEMS);
    assert_eq!(
        append_to_tree(full, last + 1, &[7; 32], &mut tree),
        Err(Refusal::WrongTree)
    );
    assert_eq!(
        append_to_tree(full, last, &[7; 32], &mut tree),
        Err(Refusal::TableOrder)
    );
    assert_eq!(
        append_to_tree(full, last + 1, &[7; 31], &mut tree),
        Err(Refusal::TableSize)
    );
    let more = first(MAX_ITEMS + 1);
    assert_eq!(build_tree(more, &mut tree), Err(Refusal::TableSize));
    assert_eq!(
        append_to_tree(more, last + 2, &[7; 32], &mut tree),
        Err(Refusal::TableSize)
    );
    assert_eq!(label_of_run(&tree, 0..MAX_ITEMS), Ok(whole));
}

/// A tree of four places that is not from a build: its seven labels are 10, 20 .. 70, and the counts 1, 2 .. 7.
fn foreign() -> Vec<u8> {
    (1..=7).flat_map(|at| stored(10 * at, at)).collect()
}

/// It answers by the labels that are visited, so that two runs over the same places can differ from a third over both.
#[test]
fn a_foreign_tree_answers_by_its_labels() {
    let tree = foreign();
    let rows = [
        (0..4, label(10, 1)),
        (0..2, label(20, 2)),
        (2..4, label(30, 3)),
        (0..1, label(40, 4)),
        (1..2, label(50, 5)),
        (0..3, label(20 + 60, 2 + 6)),
        (1..4, label(50 + 30, 5 + 3)),
        (1..3, label(50 + 60, 5 + 6)),
    ];
    for (places, label) in rows {
        assert_eq!(label_of_run(&tree, places.clone()).unwrap().label, label, "{places:?}");
    }
}

/// Sums and counts are added modulo 2^256 and 2^64.
#[test]
fn counts_of_a_foreign_tree_wrap() {
    let mut tree = vec![0xff; 280];
    let sum = [u64::MAX - 1, u64::MAX, u64::MAX, u64::MAX];
    let count = u64::MAX - 1;
    assert_eq!(label_of_run(&tree, 1..3).unwrap().label, Label { sum, count });
    assert_eq!(append_to_tree(Items::new(3).table(), 4, &id(4), &mut tree), Ok(()));
    // With all bytes FF beside them, 4 and 1 become 3 and 0, and these 2 and 2^64 - 1.
    let whole = [&stored(2, 0)[..32], &[0xff; 8]].concat();
    assert_eq!(
        tree,
        [whole, vec![0xff; 40], stored(3, 0), vec![0xff; 120], stored(4, 1)].concat()
    );
}

/// An append stores its label and makes those above it afresh, each from the two that stand below it; all others stay.
#[test]
fn an_append_to_a_foreign_tree() {
    let items = Items::new(3);
    let mut tree = foreign();
    assert_eq!(append_to_tree(items.table(), 9, &id(9), &mut tree), Ok(()));
    let labels = [
        (20 + 60 + 9, 2 + 6 + 1),
        (20, 2),
        (60 + 9, 6 + 1),
        (40, 4),
        (50, 5),
        (60, 6),
        (9, 1),
    ];
    assert_eq!(tree, labels.map(|(sum, count)| stored(sum, count)).concat());
}

/// A build leaves nothing of what stood in the buffer.
#[test]
fn a_build_writes_every_byte() {
    for count in [0, 1, 3, 5, 9, 40] {
        let items = Items::new(count);
        let mut tree = vec![0; tree_bytes(usize::from(count))];
        build_tree(items.table(), &mut tree).unwrap();
        assert_eq!(tree, items.tree());
    }
}
