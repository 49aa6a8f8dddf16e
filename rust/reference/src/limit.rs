//! Messages within a byte limit ("Byte limits").

use crate::bound::Bound;
use crate::label::Label;
use crate::message::{lengths, spell, tidy, write, Payload, Range};
use crate::refusal;
use crate::table::Table;
use std::slice::from_ref;

/// A limit is refused "below 4,096".
const LEAST: usize = 4_096;

/// The bytes of the "one last fingerprint range": infinity without prefix, the mode and the fingerprint.
const LAST_BYTES: usize = 1 + 1 + 1 + 16;

/// "Either end may be given a byte limit."
#[derive(Clone, Copy)]
pub struct Limit(Option<usize>);

impl Limit {
    /// Refusal 14.
    pub fn given(bytes: Option<usize>) -> Result<Limit, u8> {
        match bytes {
            Some(bytes) if bytes < LEAST => Err(refusal::BYTES),
            bytes => Ok(Limit(bytes)),
        }
    }

    /// Writes the message of an end that holds this table (12).
    pub fn write(self, table: &Table, ranges: Vec<Range>, out: &mut [u8]) -> Result<usize, u8> {
        match self.0 {
            None => write(ranges, out),
            Some(bytes) => write(within(table, tidy(ranges), bytes), out),
        }
    }
}

/// "If its message would exceed it, it keeps the longest run of ranges from the start that fits together with one last
/// fingerprint range, from the run's end to infinity." Ranges are those that are written, neighbouring skips as one.
fn within(table: &Table, message: Vec<Range>, bytes: usize) -> Vec<Range> {
    let lengths = lengths(&message);
    if lengths[message.len()] <= bytes {
        return message;
    }
    // The byte 61 alone fits, as a limit is at least 4,096, and the whole message does not.
    let room = bytes - LAST_BYTES;
    let longest = (0..message.len()).rev().find(|&count| lengths[count] <= room);
    let longest = longest.unwrap_or(0);
    let mut run = message[..longest].to_vec();
    run.extend(cut_ids(table, &run, &message[longest], room));
    let rest = end(table, &run)..table.count();
    run.push(Range {
        upper: Bound::Infinity,
        payload: Payload::Fingerprint(Label::of_items(table, rest).fingerprint()),
    });
    run
}

/// "An ids range that doesn't fit whole is cut after the most ids that fit, at the shortest bound before the next id.
/// If not one fits, the run ends before that range." The next id is one of this range, so at least one is not kept.
fn cut_ids(table: &Table, run: &[Range], range: &Range, room: usize) -> Option<Range> {
    let ids = match &range.payload {
        Payload::Ids(ids) => ids,
        Payload::Skip | Payload::Fingerprint(_) => return None,
    };
    let first = end(table, run);
    let cut_after = |count: usize| Range {
        upper: Bound::shortest(table.item(first + count - 1), table.item(first + count)),
        payload: Payload::Ids(ids[..count].to_vec()),
    };
    let fits = |part: &Range| spell(&[run, from_ref(part)].concat()).len() <= room;
    // No more ids than that fit, even without a bound.
    let most = (room - spell(run).len()) / 32;
    (1..ids.len().min(most + 1)).rev().map(cut_after).find(fits)
}

/// The place of a run's end: of its last upper bound, or of the first lower bound if it has no range.
fn end(table: &Table, run: &[Range]) -> usize {
    run.last().map_or(0, |last| table.place(&last.upper))
}

#[cfg(test)]
mod tests {
    use super::*;
    use crate::bound::Id;
    use crate::message::read;

    type Owned = (u64, Id);

    /// The item of this time whose id begins with these bytes, the others 00.
    fn item(time: u64, start: &[u8]) -> Owned {
        let mut id = [0; 32];
        id[..start.len()].copy_from_slice(start);
        (time, id)
    }

    fn ids(own: &[Owned]) -> Payload {
        Payload::Ids(own.iter().map(|item| item.1).collect())
    }

    fn range(time: u64, prefix: &[u8], payload: Payload) -> Range {
        let prefix = prefix.to_vec();
        let upper = Bound::At { time, prefix };
        Range { upper, payload }
    }

    fn last(payload: Payload) -> Range {
        let upper = Bound::Infinity;
        Range { upper, payload }
    }

    /// Fingerprint ranges up to times below 215, after which so many bytes of 4,096 are left for ranges before the last.
    fn filled(left: usize) -> Vec<Range> {
        let bytes = 4_096 - LAST_BYTES - 1 - left;
        // 19 bytes each; the prefix of the last bound makes up the rest.
        let count = bytes / 19;
        let filler = |time| range(time, &[], Payload::Fingerprint([7; 16]));
        let mut ranges: Vec<Range> = (1..count as u64).map(filler).collect();
        let prefix = vec![1; bytes % 19];
        ranges.push(range(count as u64, &prefix, Payload::Fingerprint([7; 16])));
        assert_eq!(spell(&ranges).len() + LAST_BYTES + left, 4_096);
        ranges
    }

    /// What is kept within a limit of a message about these items, without the last range. That must be there, with the
    /// fingerprint of the items from this one on.
    fn kept(own: &[Owned], message: &[Range], bytes: usize, rest: usize) -> Vec<Range> {
        let times: Vec<u64> = own.iter().map(|item| item.0).collect();
        let all: Vec<u8> = own.iter().flat_map(|item| item.1).collect();
        let table = Table::lent(&times, &all).unwrap();
        let mut out = vec![0; 20_000];
        let limit = Limit::given(Some(bytes)).unwrap();
        let length = limit.write(&table, message.to_vec(), &mut out).unwrap();
        assert!(length <= bytes);
        let mut ranges = read(&out[..length]).unwrap();
        let fingerprint = Label::of_items(&table, rest..own.len()).fingerprint();
        assert_eq!(ranges.pop(), Some(last(Payload::Fingerprint(fingerprint))));
        ranges
    }

    /// The ranges of the first list, then those of the second.
    fn followed(first: Vec<Range>, second: &[Range]) -> Vec<Range> {
        [&first[..], second].concat()
    }

    /// Three items behind the filled ranges.
    fn three() -> [Owned; 3] {
        [item(215, &[1]), item(215, &[2]), item(215, &[3])]
    }

    #[test]
    fn limits() {
        for bytes in [0, 1, 4_095] {
            assert_eq!(Limit::given(Some(bytes)).err(), Some(14));
        }
        for bytes in [None, Some(4_096), Some(usize::MAX)] {
            assert!(Limit::given(bytes).is_ok());
        }
    }

    #[test]
    fn a_message_of_just_the_limit_is_left_alone() {
        let message = followed(filled(0), &[last(Payload::Fingerprint([8; 16]))]);
        assert_eq!(spell(&message).len(), 4_096);
        let table = Table::lent(&[], &[]).unwrap();
        for bytes in [4_096, 4_097, usize::MAX] {
            assert_eq!(within(&table, message.clone(), bytes), message);
        }
    }

    /// The range that is left out has 4 bytes, and the last one 19: the one before it has to go as well.
    #[test]
    fn earlier_ranges_go_for_a_short_one() {
        let before = range(215, &[], Payload::Fingerprint([7; 16]));
        let message = followed(filled(0), &[before, last(ids(&[]))]);
        assert_eq!(spell(&message).len(), 4_100);
        for bytes in 4_096..4_100 {
            assert_eq!(kept(&[], &message, bytes, 0), filled(0));
        }
    }

    /// The last range has all items behind the run, whatever was said of them.
    #[test]
    fn lists_are_cut_after_the_most_ids() {
        let own = three();
        let list = range(216, &[], ids(&own));
        let behind = [range(300, &[], Payload::Skip), last(Payload::Fingerprint([8; 16]))];
        // A part takes 5 bytes and 32 for each id, its bound being 02 01 and a byte; the list takes 100, its bound
        // being 03 00.
        for (left, count) in [(36, 0), (37, 1), (68, 1), (69, 2), (99, 2), (100, 3)] {
            let message = [filled(left), vec![list.clone()], behind.to_vec()].concat();
            let expected = match count {
                0 => vec![],
                3 => vec![list.clone()],
                _ => vec![range(215, &own[count].1[..1], ids(&own[..count]))],
            };
            let run = followed(filled(left), &expected);
            assert_eq!(kept(&own, &message, 4_096, count), run, "{left}");
        }
    }

    /// After one id the bound has a prefix of 32 bytes, after two it has none: both take 68 bytes.
    #[test]
    fn of_equal_lengths_the_one_with_more_ids_counts() {
        let mut low = [5; 32];
        low[31] = 1;
        let mut high = low;
        high[31] = 2;
        let own = [item(215, &low), item(215, &high), item(216, &[1])];
        let behind = last(Payload::Fingerprint([8; 16]));
        let message = |left| followed(filled(left), &[range(217, &[], ids(&own)), behind.clone()]);
        let part = range(216, &[], ids(&own[..2]));
        assert_eq!(kept(&own, &message(68), 4_096, 2), followed(filled(68), &[part]));
        assert_eq!(kept(&own, &message(67), 4_096, 0), filled(67));
    }

    /// There is no next id in the range, so it is kept whole or not at all.
    #[test]
    fn lists_of_one_id_or_none_are_not_cut() {
        let own = [item(215, &[1]), item(216, &[2]), item(216, &[3])];
        for (count, length) in [(0, 4), (1, 36)] {
            let (listed, behind) = own.split_at(count);
            let list = range(215 + count as u64, &[], ids(listed));
            let message = |left| followed(filled(left), &[list.clone(), last(ids(behind))]);
            let with_list = followed(filled(length), from_ref(&list));
            assert_eq!(kept(&own, &message(length), 4_096, count), with_list);
            assert_eq!(kept(&own, &message(length - 1), 4_096, 0), filled(length - 1));
        }
    }

    /// Not after all its ids, at the bound before an item behind the range, though that would fit.
    #[test]
    fn the_next_id_is_one_of_the_range() {
        let own = three();
        let list = range(215, &[2, 9, 9, 9], ids(&own[..2]));
        let message = |left| followed(filled(left), &[list.clone(), last(ids(&own[2..]))]);
        let part = range(215, &[2], ids(&own[..1]));
        // The list takes 72 bytes; with the bound before the third item it would take 69.
        assert_eq!(kept(&own, &message(71), 4_096, 1), followed(filled(71), &[part]));
        assert_eq!(
            kept(&own, &message(72), 4_096, 2),
            followed(filled(72), from_ref(&list))
        );
    }

    #[test]
    fn a_skip_at_the_end_of_the_run_is_kept() {
        let skip = range(215, &[], Payload::Skip);
        let message = |left| followed(filled(left), &[skip.clone(), last(ids(&three()))]);
        assert_eq!(
            kept(&three(), &message(3), 4_096, 0),
            followed(filled(3), from_ref(&skip))
        );
        assert_eq!(kept(&three(), &message(2), 4_096, 0), filled(2));
    }

    /// Two skips of 3 and 35 bytes are written as one of 35.
    #[test]
    fn neighbouring_skips_are_one_range() {
        let skips = [range(215, &[], Payload::Skip), range(215, &[1; 32], Payload::Skip)];
        let own = [item(216, &[1]), item(216, &[2]), item(216, &[3])];
        let message = |left| [filled(left), skips.to_vec(), vec![last(ids(&own))]].concat();
        assert_eq!(kept(&own, &message(34), 4_096, 0), filled(34));
        assert_eq!(kept(&own, &message(35), 4_096, 0), followed(filled(35), &skips[1..]));
    }

    /// The count of a list takes two bytes from 128 on.
    #[test]
    fn the_width_of_the_count() {
        let own: Vec<Owned> = (0..130).map(|i| item(5, &[1, i])).collect();
        let message = [last(ids(&own))];
        assert_eq!(spell(&message).len(), 4_166);
        for (bytes, count) in [
            (4_096, 127),
            (4_122, 127),
            (4_123, 128),
            (4_154, 128),
            (4_155, 129),
            (4_165, 129),
        ] {
            let part = range(5, &[1, count as u8], ids(&own[..count]));
            assert_eq!(kept(&own, &message, bytes, count), [part], "{bytes}");
        }
    }
}
