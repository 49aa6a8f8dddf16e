//! The damages of the self-check in the calls with a byte limit.
use crate::calls::{Call, Calls, Reference};
use crate::damage::{Damage, Made};
use crate::generate::{id_from, true_fingerprint, whole_ids, Item};
use crate::short::shortest_prefix;
use crate::trials::{drop_reports, is_refused_by, say_done, trial, Trial};
use recon::{Sent, Table};
use reference::{Bound, Payload, Range};
use std::cmp::Ordering;

/// A message that a limit cut short: the ranges before its last one, and those of the whole message.
pub struct Short<'a> {
    table: Table<'a>,
    limit: usize,
    run: Vec<Range>,
    whole: Vec<Range>,
    last: Last,
}

/// The items of the last fingerprint.
enum Last {
    Rest,
    All,
    NoRange,
}

pub const START: Bound = Bound::At {
    time: 0,
    prefix: Vec::new(),
};

impl<'a> Short<'a> {
    /// What a call wrote, if its limit cut it short.
    fn of(made: &Made<'_, 'a>, sent: &Sent) -> Option<Short<'a>> {
        let limit = made.lent.bytes?;
        let whole = made.whole();
        if whole.len() <= limit {
            return None;
        }
        let mut run = reference::read(&made.lent.out[..sent.length]).ok()?;
        run.pop();
        Some(Short {
            table: made.lent.table,
            limit,
            run,
            whole: reference::read(&whole).ok()?,
            last: Last::Rest,
        })
    }

    fn bytes(&self) -> Vec<u8> {
        let lower = match self.last {
            Last::Rest => self.end(),
            Last::All => START,
            Last::NoRange => return reference::spell(&self.run),
        };
        let fingerprint = true_fingerprint(self.table, &lower, &Bound::Infinity);
        let last = Range {
            upper: Bound::Infinity,
            payload: Payload::Fingerprint(fingerprint),
        };
        reference::spell(&[&self.run[..], &[last]].concat())
    }

    /// Takes the part of a list off the end of the run, if there is one: how many ids it has.
    fn take_part(&mut self) -> Option<usize> {
        let at = self.run.len().checked_sub(1)?;
        match &self.run[at].payload {
            Payload::Ids(ids) if self.run[at] != self.whole[at] => {
                let count = ids.len();
                self.run.pop();
                Some(count)
            }
            _ => None,
        }
    }

    /// Puts a range behind the run, if it has room and is above.
    fn push(&mut self, upper: Bound, payload: Payload) -> bool {
        let is_above = upper.compare(&self.end()) == Ordering::Greater;
        self.run.push(Range { upper, payload });
        let is_put = is_above && self.bytes().len() <= self.limit;
        if !is_put {
            self.run.pop();
        }
        is_put
    }

    /// The end of the run.
    fn end(&self) -> Bound {
        self.run.last().map_or(START, |range| range.upper.clone())
    }

    /// The items behind the run.
    fn rest(&self) -> Vec<Item> {
        let Table { times, ids } = self.table;
        let end = match self.end() {
            Bound::Infinity => return Vec::new(),
            Bound::At { time, prefix } => (time, id_from(&prefix)),
        };
        let items = times.iter().copied().zip(whole_ids(ids));
        items.filter(|item| *item >= end).collect()
    }
}

/// Writes a message anew that a limit cut short, with a change, if there is room.
pub fn rewrite(made: &mut Made<'_, '_>, sent: &mut Sent, change: fn(&mut Short<'_>)) {
    if let Some(mut short) = Short::of(made, sent) {
        change(&mut short);
        made.write(sent, &short.bytes());
    }
}

/// Damages of one side, that comparing has to find.
pub fn one_sided() -> Vec<Trial> {
    let lists = [wrong_messages(), wrong_lists(), wrong_limits(), wrong_refusals()];
    lists.into_iter().flatten().collect()
}

#[rustfmt::skip]
fn wrong_messages() -> Vec<Trial> {
    let (kind, length, bytes) = ("within", "answer Ok", "out bytes differ");
    vec![
        trial(kind, length, "the last fingerprint is left out", Damage::Short(|short| short.last = Last::NoRange)),
        trial(kind, bytes, "the last fingerprint is that of all items", Damage::Short(|short| short.last = Last::All)),
        trial(kind, length, "one range less is kept", one_range_less()),
        trial(kind, length, "a skip at the end of the run is left out", Damage::Short(|short| {
            if matches!(short.run.last(), Some(range) if range.payload == Payload::Skip) {
                short.run.pop();
            }
        })),
        trial(kind, length, "a skip that does not fit is cut at the time of its bound", Damage::Short(cut_skip)),
        trial(kind, length, "a take whose query is cut short says done", done_where_short()),
    ]
}

fn one_range_less() -> Damage {
    Damage::Short(|short| {
        short.run.pop();
    })
}

/// As where neighbouring skips are not one range.
fn cut_skip(short: &mut Short<'_>) {
    let next = &short.whole[short.run.len()];
    if let (Payload::Skip, Bound::At { time, .. }) = (&next.payload, &next.upper) {
        let (time, prefix) = (*time, Vec::new());
        short.push(Bound::At { time, prefix }, Payload::Skip);
    }
}

fn done_where_short() -> Damage {
    Damage::Sent(Call::Take, |made, sent| {
        if Short::of(made, sent).is_some() {
            say_done(made, sent);
        }
    })
}

#[rustfmt::skip]
fn wrong_lists() -> Vec<Trial> {
    let (kind, length) = ("within", "answer Ok");
    vec![
        trial(kind, length, "a list is not cut", Damage::Short(|short| {
            short.take_part();
        })),
        trial(kind, length, "a list is cut one id too early", Damage::Short(|short| {
            if let Some(count) = short.take_part() {
                list(short, count - 1);
            }
        })),
        trial(kind, length, "a list is cut at the whole id of the next item", Damage::Short(|short| {
            if let Some(count) = short.take_part() {
                let rest = short.rest();
                let (time, prefix) = (rest[count].0, rest[count].1.to_vec());
                let ids = rest[..count].iter().map(|item| item.1).collect();
                let _ = short.push(Bound::At { time, prefix }, Payload::Ids(ids)) || list(short, count);
            }
        })),
        trial(kind, length, "a list is cut after all its ids", Damage::Short(|short| {
            let part = short.take_part();
            let all = match &short.whole[short.run.len()].payload {
                Payload::Ids(ids) => ids.len(),
                _ => 0,
            };
            let _ = list(short, all) || list(short, part.unwrap_or(0));
        })),
    ]
}

/// Lists so many of the items behind the run, up to the shortest bound before the next item.
fn list(short: &mut Short<'_>, count: usize) -> bool {
    let rest = short.rest();
    if count == 0 || count >= rest.len() {
        return false;
    }
    let (time, prefix) = (rest[count].0, shortest_prefix(&rest[count - 1], &rest[count]).to_vec());
    let ids = rest[..count].iter().map(|item| item.1).collect();
    short.push(Bound::At { time, prefix }, Payload::Ids(ids))
}

#[rustfmt::skip]
fn wrong_limits() -> Vec<Trial> {
    let (kind, words) = ("within", "answer Ok");
    vec![
        trial(kind, words, "a limit is taken for one byte more", one_byte_more()),
        trial(kind, words, "a limit is taken for one byte less", Damage::Lent(|lent| {
            lent.bytes = lent.bytes.map(|bytes| if bytes > 4_096 { bytes - 1 } else { bytes });
        })),
        trial(kind, words, "a limit is not looked at", Damage::Lent(|lent| {
            lent.bytes = lent.bytes.map(|bytes| if bytes < 4_096 { bytes } else { usize::MAX });
        })),
        trial(kind, words, "12 is judged on the whole message", Damage::Any(|made, outcome| {
            if made.lent.bytes.is_some() && outcome.is_ok() && made.whole().len() > made.out.len() {
                made.refuse(outcome, 12);
            }
        })),
        trial(kind, words, "12 is judged on the limit", Damage::Any(|made, outcome| {
            let limit = made.lent.bytes.unwrap_or(0);
            if matches!(outcome, Ok(sent) if sent.length > 0 && made.out.len() < limit && limit < usize::MAX) {
                made.refuse(outcome, 12);
            }
        })),
    ]
}

fn one_byte_more() -> Damage {
    Damage::Lent(|lent| {
        // A limit of 4,095 stays refused.
        lent.bytes = lent
            .bytes
            .map(|bytes| if bytes < 4_096 { bytes } else { bytes.saturating_add(1) });
    })
}

#[rustfmt::skip]
fn wrong_refusals() -> Vec<Trial> {
    let (kind, number) = ("refusals", "answer Err");
    vec![
        trial(kind, number, "limit 4095 is accepted", accepts_4095()),
        trial(kind, number, "limit 0 is no limit", Damage::Lent(|lent| {
            lent.bytes = lent.bytes.filter(|&bytes| bytes > 0);
        })),
        trial("examples", "answer Ok", "limit 4096 is refused", Damage::Any(|made, outcome| {
            if made.lent.bytes == Some(4_096) {
                made.refuse(outcome, 14);
            }
        })),
        trial(kind, number, "14 is checked before 3", Damage::Any(|made, outcome| {
            if is_refused_by(outcome, 3) && made.lent.bytes.map_or(false, |bytes| bytes < 4_096) {
                made.refuse(outcome, 14);
            }
        })),
        trial(kind, number, "14 is checked after 4", Damage::Any(|made, outcome| {
            if is_refused_by(outcome, 14) {
                made.lent.bytes = None;
                let without = Reference.run(made.call, made.lent);
                if is_refused_by(&without, 4) {
                    *outcome = without;
                } else {
                    made.refuse(outcome, 14);
                }
            }
        })),
        trial("versions", number, "another version is answered before 14 is checked", Damage::Any(|made, outcome| {
            if is_refused_by(outcome, 14) && made.call == Call::Answer && made.lent.message.starts_with(&[0x62]) {
                made.accept(outcome);
            }
        })),
    ]
}

fn accepts_4095() -> Damage {
    Damage::Lent(|lent| lent.bytes = lent.bytes.filter(|&bytes| bytes != 4_095))
}

/// Damages of both sides alike, that the checks on the results themselves have to find.
#[rustfmt::skip]
pub fn both_sided() -> Vec<Trial> {
    let (kind, left) = ("within", "what a limit of");
    vec![
        trial(kind, left, "one range less is kept", one_range_less()),
        trial(kind, left, "the last fingerprint is that of all items", Damage::Short(|short| short.last = Last::All)),
        trial(kind, left, "a skip that does not fit is cut at the time of its bound", Damage::Short(cut_skip)),
        trial(kind, "more than the limit", "a limit is taken for one byte more", one_byte_more()),
        trial(kind, left, "a take whose query is cut short says done", done_where_short()),
        trial(kind, "is not reported", "a take with a limit drops its reports", Damage::Sent(Call::Take, |made, sent| {
            if made.lent.bytes.is_some() {
                drop_reports(made, sent);
            }
        })),
        trial("refusals", "both say", "limit 4095 is accepted", accepts_4095()),
        trial("examples", "more than the limit", "limit 4095 is accepted", accepts_4095()),
    ]
}
