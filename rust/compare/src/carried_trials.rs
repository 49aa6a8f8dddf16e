//! The damages of the self-check in what ranges are cut by.
use crate::calls::{Call, Calls, Outcome, Reference};
use crate::damage::{Damage, Made};
use crate::generate::{true_fingerprint, whole_ids, Item};
use crate::short::shortest_prefix;
use crate::trials::{drop_reports, mark_more, never_say_done, say_done, say_nothing, trial, Trial};
use crate::within_trials::START;
use recon::{Sent, Table};
use reference::{Bound, Odd, Payload, Range};
use std::cmp::Ordering;

/// Damages of one side, that comparing has to find.
#[rustfmt::skip]
pub fn one_sided() -> Vec<Trial> {
    let words = "out bytes differ";
    vec![
        trial("tables", words, "an opening gives the odd items to the first parts", Damage::Any(|made, outcome| {
            by_former_rule(made, outcome, Call::Open);
        })),
        trial("tables", words, "an answer gives the odd items to the first parts", Damage::Any(|made, outcome| {
            by_former_rule(made, outcome, Call::Answer);
        })),
        trial("sessions", words, "a take gives the odd items to the first parts", Damage::Any(|made, outcome| {
            by_former_rule(made, outcome, Call::Take);
        })),
        trial("within", words, "with a byte limit the odd items go to the first parts", Damage::Lent(|lent| {
            if lent.bytes.is_some() {
                lent.odd = Odd::ToFirst;
            }
        })),
        trial("carried", words, "a session is carried on under the former rule", always_former()),
    ]
}

/// Makes a call anew by the former rule.
fn by_former_rule(made: &mut Made<'_, '_>, outcome: &mut Outcome, call: Call) {
    if made.call == call {
        made.undo();
        made.lent.odd = Odd::ToFirst;
        *outcome = Reference.run(call, made.lent);
    }
}

fn always_former() -> Damage {
    Damage::Lent(|lent| lent.odd = Odd::ToFirst)
}

/// Damages of both sides alike, that the checks on the results themselves have to find.
#[rustfmt::skip]
pub fn both_sided() -> Vec<Trial> {
    let (kind, untold) = ("carried", "is not reported");
    vec![
        trial("examples", "E4, different times", "the odd items go to the first parts", always_former()),
        trial("examples", "E5, equal times", "the odd items go to the first parts", always_former()),
        trial("examples", "bounds of the parts", "the odd items go to the first parts", always_former()),
        trial("examples", "carried on", "the odd items go to the first parts", always_former()),
        trial(kind, "takes in a row", "a part by the former rule has an item too many", Damage::Former(one_too_many)),
        trial(kind, "takes in a row", "a part of today has an item too many", Damage::Sent(Call::Take, one_too_many)),
        trial(kind, "takes in a row", "take is never done", Damage::Sent(Call::Take, never_say_done)),
        trial(kind, untold, "an answer by the former rule is always 61", Damage::Former(|made, sent| {
            if made.call == Call::Answer {
                say_nothing(made, sent);
            }
        })),
        trial(kind, untold, "a take by the former rule says done without looking", Damage::Former(|made, sent| {
            if made.call == Call::Take {
                say_done(made, sent);
            }
        })),
        trial(kind, untold, "a take by the former rule drops its reports", Damage::Former(|made, sent| {
            if made.call == Call::Take {
                drop_reports(made, sent);
            }
        })),
        trial(kind, "they have it too", "a take by the former rule marks an item too many", Damage::Former(|made, sent| {
            if made.call == Call::Take {
                mark_more(made, sent);
            }
        })),
    ]
}

/// Writes a message of a call anew with a part that has an item too many, if there is one and room for it.
fn one_too_many(made: &mut Made<'_, '_>, sent: &mut Sent) {
    let ranges = reference::read(&made.lent.out[..sent.length]).unwrap_or_default();
    if let Some(enlarged) = enlarged(made.lent.table, ranges) {
        made.write(sent, &reference::spell(&enlarged));
    }
}

/// Moves the first bound between two fingerprints up by an item, if the second has more than one.
fn enlarged(table: Table<'_>, mut ranges: Vec<Range>) -> Option<Vec<Range>> {
    let is_compared = |range: &Range| matches!(range.payload, Payload::Fingerprint(_));
    let first = ranges.windows(2).position(|pair| pair.iter().all(is_compared))?;
    let lower = first
        .checked_sub(1)
        .map_or(START, |before| ranges[before].upper.clone());
    let upper = ranges[first + 1].upper.clone();
    let behind = between(table, &ranges[first].upper, &upper);
    let next = behind.get(1)?;
    let (time, prefix) = (next.0, shortest_prefix(&behind[0], next).to_vec());
    let moved = Bound::At { time, prefix };
    ranges[first] = compared(table, &lower, moved.clone());
    ranges[first + 1] = compared(table, &moved, upper);
    Some(ranges)
}

fn compared(table: Table<'_>, lower: &Bound, upper: Bound) -> Range {
    let payload = Payload::Fingerprint(true_fingerprint(table, lower, &upper));
    Range { upper, payload }
}

/// The items between two bounds.
fn between(table: Table<'_>, lower: &Bound, upper: &Bound) -> Vec<Item> {
    let is_below = |item: &Item, bound: &Bound| {
        let (time, prefix) = (item.0, item.1.to_vec());
        Bound::At { time, prefix }.compare(bound) == Ordering::Less
    };
    let items = table.times.iter().copied().zip(whole_ids(table.ids));
    items
        .filter(|item| !is_below(item, lower) && is_below(item, upper))
        .collect()
}
