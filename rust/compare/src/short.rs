//! What a byte limit leaves of a message, found on the bytes of the whole one by trying every number of ranges and ids.
use crate::compare::{same_bytes, Check};
use crate::generate::{id_from, true_fingerprint, whole_ids, Item};
use recon::Table;
use reference::Bound;
use std::ops::Range;

/// The bytes of the last range: infinity without prefix, the mode and a fingerprint.
const LAST: usize = 3 + 16;

/// What is kept of a message.
#[derive(Clone, Copy, PartialEq, Eq)]
pub enum Kept {
    Whole,
    /// Ranges from the start.
    Ranges,
    /// The same, and a part of the list behind them.
    PartOfList,
}

/// Whether a message is what the limit leaves of the whole one, by an end with this table.
pub fn check(table: Table<'_>, limit: usize, whole: &[u8], message: &[u8]) -> Check<Kept> {
    let (expected, kept) = shortened(table, limit, whole);
    same_bytes(message, &expected, || {
        format!(
            "the message and what a limit of {} leaves of {} bytes",
            limit,
            whole.len()
        )
    })?;
    Ok(kept)
}

fn shortened(table: Table<'_>, limit: usize, whole: &[u8]) -> (Vec<u8>, Kept) {
    if whole.len() <= limit {
        return (whole.to_vec(), Kept::Whole);
    }
    let ranges = ranges(whole);
    let count = ranges.iter().filter(|range| range.end + LAST <= limit).count();
    let (mut end, mut message) = match ranges[..count].last() {
        None => ((0, [0; 32]), vec![0x61]),
        Some(last) => (last.upper, whole[..last.end].to_vec()),
    };
    let mut kept = Kept::Ranges;
    let room = limit - LAST - message.len();
    if let Some((upper, part)) = part_of_list(table, end, &whole[ranges[count].ids.clone()], room) {
        (end, kept) = (upper, Kept::PartOfList);
        message.extend(part);
    }
    let (time, prefix) = (end.0, end.1.to_vec());
    let fingerprint = true_fingerprint(table, &Bound::At { time, prefix }, &Bound::Infinity);
    message.extend([0, 0, 1]);
    message.extend(fingerprint);
    (message, kept)
}

/// The limits at which one range more of a message is kept.
pub fn steps(message: &[u8]) -> impl Iterator<Item = usize> {
    ranges(message).into_iter().map(|range| range.end + LAST)
}

/// A range of a message: what its upper bound compares as, where it ends, and where its listed ids are.
struct Placed {
    upper: Item,
    end: usize,
    ids: Range<usize>,
}

/// The ranges of a lawful message. The upper bound of one up to infinity does not count.
fn ranges(message: &[u8]) -> Vec<Placed> {
    let (mut at, mut time) = (1, 0);
    let mut ranges = Vec::new();
    while at < message.len() {
        time += varint(message, &mut at).saturating_sub(1);
        let length = varint(message, &mut at) as usize;
        let upper = (time, id_from(&message[at..at + length]));
        at += length;
        let mode = varint(message, &mut at);
        let listed = if mode == 2 {
            varint(message, &mut at) as usize
        } else {
            0
        };
        let ids = at..at + 32 * listed;
        at = if mode == 1 { at + 16 } else { ids.end };
        ranges.push(Placed { upper, end: at, ids });
    }
    ranges
}

fn varint(message: &[u8], at: &mut usize) -> u64 {
    let mut value = 0;
    loop {
        let byte = message[*at];
        *at += 1;
        value = value << 7 | u64::from(byte & 0x7f);
        if byte < 0x80 {
            return value;
        }
    }
}

fn spelled(value: u64) -> Vec<u8> {
    let mut digits = vec![(value & 0x7f) as u8];
    let mut rest = value >> 7;
    while rest > 0 {
        digits.insert(0, 0x80 | (rest & 0x7f) as u8);
        rest >>= 7;
    }
    digits
}

/// The range with the most ids of a list that has room, and its bound. The list begins at this bound.
fn part_of_list(table: Table<'_>, lower: Item, ids: &[u8], room: usize) -> Option<(Item, Vec<u8>)> {
    let items: Vec<Item> = table.times.iter().copied().zip(whole_ids(table.ids)).collect();
    let first = items.iter().filter(|item| **item < lower).count();
    for count in (1..ids.len() / 32).rev() {
        let next = items[first + count];
        let prefix = shortest_prefix(&items[first + count - 1], &next);
        let mut part = spelled(next.0 - lower.0 + 1);
        part.extend(spelled(prefix.len() as u64));
        part.extend(prefix);
        part.push(2);
        part.extend(spelled(count as u64));
        if part.len() + 32 * count <= room {
            part.extend(&ids[..32 * count]);
            return Some(((next.0, id_from(prefix)), part));
        }
    }
    None
}

/// The fewest first bytes of an id with which a bound at the time of q is above p.
pub fn shortest_prefix<'a>(p: &Item, q: &'a Item) -> &'a [u8] {
    let is_above = |length: &usize| (q.0, id_from(&q.1[..*length])) > *p;
    let length = (0..=32).find(is_above).expect("q is above p");
    &q.1[..length]
}
