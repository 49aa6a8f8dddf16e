//! How long the message of an opening can be.
use recon::{open_session, Cut, Refusal, Table, MAX_LIMIT, MAX_OPENING_BYTES, MAX_PARTS, MIN_PARTS};

/// The items of a table.
struct Items {
    times: Vec<u64>,
    ids: Vec<u8>,
}

impl Items {
    /// So many items. Those that are alike differ in the last bytes of their ids alone, so that bounds between them are long.
    fn new(count: usize, alike: bool) -> Items {
        let time = |i: usize| if alike { u64::MAX - 1 } else { i as u64 };
        let id = |i: usize| {
            let mut id = [0xff; 32];
            id[24..].copy_from_slice(&(i as u64).to_be_bytes());
            id
        };
        Items {
            times: (0..count).map(time).collect(),
            ids: (0..count).flat_map(id).collect(),
        }
    }
}

/// The length of an opening of these items, in a buffer of so many bytes.
fn opened(items: &Items, parts: usize, limit: usize, room: usize) -> Result<usize, Refusal> {
    let Items { times, ids } = items;
    let (mut marks, mut out) = (vec![0; times.len()], vec![0; room]);
    let sent = open_session(Table { times, ids }, Cut { parts, limit }, &mut marks, &[], &mut out);
    sent.map(|sent| sent.length)
}

#[test]
fn the_longest_opening_lists_as_many_ids_as_can_be() {
    assert_eq!(MAX_OPENING_BYTES, 131_078);
    for alike in [false, true] {
        let items = Items::new(MAX_LIMIT, alike);
        let too_little = MAX_OPENING_BYTES - 1;
        assert_eq!(opened(&items, 16, MAX_LIMIT, MAX_OPENING_BYTES), Ok(MAX_OPENING_BYTES));
        assert_eq!(opened(&items, 16, MAX_LIMIT, too_little), Err(Refusal::NoRoom));
    }
}

#[test]
fn no_opening_is_longer() {
    let limits = [
        MIN_PARTS,
        3,
        16,
        MAX_PARTS - 1,
        MAX_PARTS,
        127,
        128,
        MAX_LIMIT - 1,
        MAX_LIMIT,
    ];
    let counts = [
        0,
        1,
        2,
        63,
        64,
        65,
        127,
        128,
        129,
        MAX_LIMIT - 1,
        MAX_LIMIT,
        MAX_LIMIT + 1,
        10_000,
    ];
    for count in counts {
        for alike in [false, true] {
            let items = Items::new(count, alike);
            for limit in limits {
                for parts in [MIN_PARTS, 16, MAX_PARTS].into_iter().filter(|&parts| parts <= limit) {
                    let length = opened(&items, parts, limit, MAX_OPENING_BYTES);
                    assert!(length.is_ok(), "{count} items, {parts} parts, limit {limit}");
                }
            }
        }
    }
}

#[test]
fn the_limits_of_a_cut_are_those_of_the_calls() {
    let items = Items::new(3, false);
    let refused = |parts, limit| opened(&items, parts, limit, MAX_OPENING_BYTES).err();
    for (parts, limit) in [(MIN_PARTS, MIN_PARTS), (MAX_PARTS, MAX_PARTS), (MAX_PARTS, MAX_LIMIT)] {
        assert_eq!(refused(parts, limit), None);
        assert_eq!(refused(parts, parts - 1), Some(Refusal::CutLimits));
    }
    assert_eq!(refused(MIN_PARTS - 1, MAX_LIMIT), Some(Refusal::CutLimits));
    assert_eq!(refused(MAX_PARTS + 1, MAX_LIMIT), Some(Refusal::CutLimits));
    assert_eq!(refused(MAX_PARTS, MAX_LIMIT + 1), Some(Refusal::CutLimits));
    let Cut { parts, limit } = Cut::default();
    assert_eq!((parts, limit, refused(parts, limit)), (16, 64, None));
}
