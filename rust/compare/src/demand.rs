//! What is owed of a whole list of takes (demand 3), checked on what the calls report, from the two tables alone.
use crate::compare::Check;
use crate::generate::{id_from, true_fingerprint, whole_ids, Id, Item, OwnedTable};
use recon::Cut;
use reference::{Bound, Payload};
use std::collections::BTreeSet;

/// L: the smallest whole number with t × b^L at least n.
fn rounds(count: usize, cut: Cut) -> usize {
    let mut reach = cut.limit;
    let mut rounds = 0;
    while reach < count {
        reach *= cut.parts;
        rounds += 1;
    }
    rounds
}

/// What an opener holds.
#[derive(Clone, Copy)]
pub struct Reports<'a> {
    pub marks: &'a [u8],
    pub needed: &'a [u8],
    pub done: bool,
}

/// An unrefused take.
pub struct Taken<'a> {
    /// The query that its reply answers.
    pub query: &'a [u8],
    pub reply: &'a [u8],
    /// The query sent last before it.
    pub last_sent: &'a [u8],
    /// No byte limit cut short the query or the reply.
    pub whole: bool,
}

/// The differences of two tables, and what the takes so far have compared.
pub struct Demand<'a> {
    ours: &'a OwnedTable,
    theirs: &'a OwnedTable,
    /// By item of ours, whether they have its id.
    shared: Vec<bool>,
    /// The items that they alone have, by id.
    theirs_only: Vec<(Id, u64)>,
    /// An id of ours stands under another time in theirs: then reports may be wrong, and only rounds are owed.
    two_times: bool,
    rounds: usize,
    /// The takes in a row up to now, none of whose messages was cut short.
    row: usize,
    compared: BTreeSet<(Place, Place)>,
}

/// What a bound compares as: a time and an id, or none for infinity, which is above all.
type Place = (bool, Item);

impl<'a> Demand<'a> {
    pub fn new(ours: &'a OwnedTable, theirs: &'a OwnedTable, cut: Cut) -> Demand<'a> {
        let by_id = |table: &OwnedTable| {
            let mut items: Vec<(Id, u64)> = table.items().into_iter().map(|(time, id)| (id, time)).collect();
            items.sort_unstable();
            items
        };
        let (our_items, their_items) = (by_id(ours), by_id(theirs));
        let has = |items: &[(Id, u64)], id: &Id| items.binary_search_by(|item| item.0.cmp(id)).is_ok();
        let shared = whole_ids(&ours.ids).map(|id| has(&their_items, &id)).collect();
        let two_times = our_items.iter().any(|(id, time)| {
            let first = their_items.partition_point(|item| item.0 < *id);
            their_items[first..]
                .iter()
                .take_while(|item| item.0 == *id)
                .any(|item| item.1 != *time)
        });
        let theirs_only = their_items
            .iter()
            .copied()
            .filter(|item| !has(&our_items, &item.0))
            .collect();
        let rounds = rounds(ours.count(), cut);
        Demand {
            ours,
            theirs,
            shared,
            theirs_only,
            two_times,
            rounds,
            row: 0,
            compared: BTreeSet::new(),
        }
    }

    /// Checks what is owed after an unrefused take: how many differences stay unreported, each in a colliding range.
    pub fn after_take(&mut self, taken: &Taken<'_>, reports: Reports<'_>) -> Check<usize> {
        self.note_compared(taken.query);
        self.note_compared(taken.reply);
        // In a row the query that a take answers is the one that the take before it sent.
        self.row = if taken.query == taken.last_sent && taken.whole {
            self.row + 1
        } else {
            0
        };
        if self.row > self.rounds && !reports.done {
            return Err(format!(
                "{} takes in a row, L is {}, and the session is not done",
                self.row, self.rounds
            ));
        }
        self.check_true(reports)?;
        if reports.done {
            self.check_complete(reports)
        } else {
            Ok(0)
        }
    }

    /// Whether the last take stands in a row.
    pub fn is_in_row(&self) -> bool {
        self.row > 0
    }

    /// Whether the session took L + 1 replies in a row.
    pub fn row_is_full(&self) -> bool {
        self.row == self.rounds + 1
    }

    fn note_compared(&mut self, message: &[u8]) {
        let mut lower = (false, (0, [0; 32]));
        for range in reference::read(message).expect("a message of a lawful end") {
            let upper = place(&range.upper);
            if matches!(range.payload, Payload::Fingerprint(_)) {
                self.compared.insert((lower, upper));
            }
            lower = upper;
        }
    }

    /// Each reported id is only ours or only theirs.
    fn check_true(&self, reports: Reports<'_>) -> Check {
        if self.two_times {
            return Ok(());
        }
        if let Some(at) = (0..self.shared.len()).find(|&at| reports.marks[at] == 1 && self.shared[at]) {
            return Err(format!("item {} is marked as only ours, and they have it too", at));
        }
        let unknown = |id: &Id| self.theirs_only.binary_search_by(|item| item.0.cmp(id)).is_err();
        match whole_ids(reports.needed).find(unknown) {
            Some(id) => Err(format!("{:02x?} is needed, and it is not only theirs", id)),
            None => Ok(()),
        }
    }

    /// Each difference is reported, or lies in a compared range with equal fingerprints over different items.
    fn check_complete(&self, reports: Reports<'_>) -> Check<usize> {
        if self.two_times {
            return Ok(0);
        }
        let ours = self.ours.items();
        let unmarked = (0..ours.len())
            .filter(|&at| reports.marks[at] == 0 && !self.shared[at])
            .map(|at| ours[at]);
        let needed: BTreeSet<Id> = whole_ids(reports.needed).collect();
        let not_needed = self
            .theirs_only
            .iter()
            .filter(|item| !needed.contains(&item.0))
            .map(|&(id, time)| (time, id));
        let mut excused = 0;
        for item in unmarked.chain(not_needed) {
            if !self.is_excused(item) {
                return Err(format!(
                    "done, and the difference {:02x?} at time {} is not reported",
                    item.1, item.0
                ));
            }
            excused += 1;
        }
        Ok(excused)
    }

    fn is_excused(&self, item: Item) -> bool {
        let at = (false, item);
        self.compared
            .iter()
            .any(|&(lower, upper)| lower <= at && at < upper && self.collides(lower, upper))
    }

    /// Whether the tables have different items and the same fingerprint between two places.
    fn collides(&self, lower: Place, upper: Place) -> bool {
        let within = |table: &OwnedTable| {
            let inside = |item: &Item| lower <= (false, *item) && (false, *item) < upper;
            table.items().into_iter().filter(inside).collect::<Vec<Item>>()
        };
        let fingerprint = |table: &OwnedTable| true_fingerprint(table.lent(), &bound(lower), &bound(upper));
        within(self.ours) != within(self.theirs) && fingerprint(self.ours) == fingerprint(self.theirs)
    }
}

fn place(bound: &Bound) -> Place {
    match bound {
        Bound::Infinity => (true, (0, [0; 32])),
        Bound::At { time, prefix } => (false, (*time, id_from(prefix))),
    }
}

fn bound(place: Place) -> Bound {
    match place {
        (true, _) => Bound::Infinity,
        (false, (time, id)) => Bound::At {
            time,
            prefix: id.to_vec(),
        },
    }
}
