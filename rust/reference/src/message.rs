//! Message reader and writer ("Messages").

use crate::bound::{Bound, Id};
use crate::cursor::{push_varint, Cursor};
use crate::refusal;
use crate::table::to_id;
use std::cmp::Ordering;

/// "A message is the byte 61, then ranges."
const VERSION: u8 = 0x61;

/// "One of three payloads".
#[derive(Clone, Debug, PartialEq, Eq)]
pub enum Payload {
    /// "Mode 0, skip: no payload."
    Skip,
    /// "Mode 1, fingerprint: 16 bytes."
    Fingerprint([u8; 16]),
    /// "Mode 2, ids: a varint count, then 32 bytes for each."
    Ids(Vec<Id>),
}

/// "A range is its bound together with one of three payloads." The bound is the upper one.
#[derive(Clone, Debug, PartialEq, Eq)]
pub struct Range {
    /// The upper bound. "The lower bound is the preceding upper bound".
    pub upper: Bound,
    /// What stands in the message for the range.
    pub payload: Payload,
}

/// Another version is offered by "a first byte from 60 to 6F other than 61".
pub fn offers_other_version(query: &[u8]) -> bool {
    matches!(query.first(), Some(&first) if first >> 4 == 6 && first != VERSION)
}

/// Another version "is met with the single byte 61, the highest version we know"; 12.
pub fn write_version(out: &mut [u8]) -> Result<usize, u8> {
    put(&[VERSION], out)
}

/// Reads a message as it is spelled, or refuses by 6 to 10: "the first fault met counts".
/// "What follows the last bound up to infinity is a skip": no range stands for it here, as a final skip isn't written.
pub fn read(message: &[u8]) -> Result<Vec<Range>, u8> {
    if message.first() != Some(&VERSION) {
        return Err(refusal::VERSION);
    }
    let start = Bound::start();
    let mut ranges: Vec<Range> = Vec::new();
    let mut cursor = Cursor::new(message, 1);
    while cursor.left() > 0 {
        let lower = ranges.last().map_or(&start, |range| &range.upper);
        let (upper, moved) = read_bound(cursor, lower)?;
        let (payload, moved) = read_payload(moved)?;
        ranges.push(Range { upper, payload });
        cursor = moved;
    }
    Ok(ranges)
}

/// "Then time code judged, length read and judged, prefix read, bound compared".
fn read_bound<'a>(cursor: Cursor<'a>, lower: &Bound) -> Result<(Bound, Cursor<'a>), u8> {
    let (code, cursor) = cursor.varint()?;
    let time = judge_time_code(code, lower)?;
    let (length, cursor) = cursor.varint()?;
    // "A prefix length above 32, a prefix at infinity".
    if length > 32 || (length > 0 && time.is_none()) {
        return Err(refusal::BOUND);
    }
    let (prefix, cursor) = cursor.bytes(length as usize)?;
    let upper = match time {
        None => Bound::Infinity,
        Some(time) => Bound::At {
            time,
            prefix: prefix.to_vec(),
        },
    };
    // "Or isn't above its lower bound".
    if upper.compare(lower) != Ordering::Greater {
        return Err(refusal::BOUND);
    }
    Ok((upper, cursor))
}

/// The time of a bound, None for infinity. "Code v above 0 means the previous bound's time in this message (0 at
/// first) plus v − 1." The previous bound is the lower one.
fn judge_time_code(code: u64, lower: &Bound) -> Result<Option<u64>, u8> {
    match (code, lower) {
        (0, _) => Ok(None),
        // "After infinity any time code above 0 counts as such".
        (_, Bound::Infinity) => Err(refusal::BOUND),
        (code, Bound::At { time: previous, .. }) => match previous.checked_add(code - 1) {
            // "A finite time above 2^64−2".
            None | Some(u64::MAX) => Err(refusal::BOUND),
            time => Ok(time),
        },
    }
}

/// The "mode (varint)" and the payload.
fn read_payload(cursor: Cursor) -> Result<(Payload, Cursor), u8> {
    let (mode, cursor) = cursor.varint()?;
    match mode {
        0 => Ok((Payload::Skip, cursor)),
        1 => {
            let (bytes, cursor) = cursor.bytes(16)?;
            let mut fingerprint = [0; 16];
            fingerprint.copy_from_slice(bytes);
            Ok((Payload::Fingerprint(fingerprint), cursor))
        }
        2 => {
            let (count, cursor) = cursor.varint()?;
            // Compared this way round, as 32 × count may pass 2^64 − 1.
            if count > (cursor.left() / 32) as u64 {
                return Err(refusal::ENDS_EARLY);
            }
            let (bytes, cursor) = cursor.bytes(32 * count as usize)?;
            Ok((Payload::Ids(bytes.chunks_exact(32).map(to_id).collect()), cursor))
        }
        _ => Err(refusal::MODE),
    }
}

/// The writer: judges bounds (9), then room (12), then lays the tidied ranges into the out buffer.
/// Gives the message's length. "Out bytes behind the message" remain unchanged.
pub fn write(ranges: Vec<Range>, out: &mut [u8]) -> Result<usize, u8> {
    judge(&ranges)?;
    put(&spell(&tidy(ranges)), out)
}

fn put(message: &[u8], out: &mut [u8]) -> Result<usize, u8> {
    if message.len() > out.len() {
        return Err(refusal::OUT_ROOM);
    }
    out[..message.len()].copy_from_slice(message);
    Ok(message.len())
}

/// "The writer judges bounds by 9 whole": each bound handed over, skips that won't be written included.
fn judge(ranges: &[Range]) -> Result<(), u8> {
    let start = Bound::start();
    let mut lower = &start;
    for Range { upper, .. } in ranges {
        upper.judge()?;
        if upper.compare(lower) != Ordering::Greater {
            return Err(refusal::BOUND);
        }
        lower = upper;
    }
    Ok(())
}

/// "Neighbouring skips are written as one with the last upper bound; a final skip isn't written."
pub fn tidy(ranges: Vec<Range>) -> Vec<Range> {
    let mut tidied: Vec<Range> = Vec::with_capacity(ranges.len());
    for range in ranges {
        if range.payload == Payload::Skip {
            drop_final_skip(&mut tidied);
        }
        tidied.push(range);
    }
    drop_final_skip(&mut tidied);
    tidied
}

/// Drops the last range if it is a skip.
fn drop_final_skip(ranges: &mut Vec<Range>) {
    if matches!(
        ranges.last(),
        Some(Range {
            payload: Payload::Skip,
            ..
        })
    ) {
        ranges.pop();
    }
}

/// The bytes of a message that has exactly these ranges. It judges nothing; that is the writer's part.
///
/// # Panics
///
/// If the times fall or a time is 2^64 − 1 after time 0: no time code spells that.
pub fn spell(ranges: &[Range]) -> Vec<u8> {
    spell_each(ranges, |_| ())
}

/// The lengths of the messages that have the first 0, 1, 2 and so on of these ranges, the last one that of all.
pub fn lengths(ranges: &[Range]) -> Vec<usize> {
    let mut lengths = vec![1];
    spell_each(ranges, |length| lengths.push(length));
    lengths
}

/// Spells the ranges, and tells the length so far behind each of them.
fn spell_each(ranges: &[Range], mut tell: impl FnMut(usize)) -> Vec<u8> {
    let mut message = vec![VERSION];
    let mut previous = 0;
    for range in ranges {
        previous = spell_bound(&mut message, &range.upper, previous);
        spell_payload(&mut message, &range.payload);
        tell(message.len());
    }
    message
}

fn spell_payload(message: &mut Vec<u8>, payload: &Payload) {
    match payload {
        Payload::Skip => push_varint(message, 0),
        Payload::Fingerprint(fingerprint) => {
            push_varint(message, 1);
            message.extend_from_slice(fingerprint);
        }
        Payload::Ids(ids) => {
            push_varint(message, 2);
            push_varint(message, ids.len() as u64);
            message.reserve(32 * ids.len());
            ids.iter().for_each(|id| message.extend_from_slice(id));
        }
    }
}

/// "A bound is a varint time code, a varint prefix length, and the prefix." Gives the time to count from next.
fn spell_bound(message: &mut Vec<u8>, bound: &Bound, previous: u64) -> u64 {
    match bound {
        // "Time code 0 is infinity."
        Bound::Infinity => {
            push_varint(message, 0);
            push_varint(message, 0);
            previous
        }
        Bound::At { time, prefix } => {
            let code = time.checked_sub(previous).and_then(|step| step.checked_add(1));
            push_varint(message, code.expect("a time code can spell the bound"));
            push_varint(message, prefix.len() as u64);
            message.extend_from_slice(prefix);
            *time
        }
    }
}
