//! An inquiry or a commit of the reference, to be spoiled by the self-check.
use crate::calls::{Calls, FoldAnswer, FoldCall, FoldLent, FoldOutcome, FoldRefused, Reference};
use crate::fold::items_of;
use crate::generate::{whole_ids, Id, Item};
use recon::{Committed, Inquiry};
use std::collections::BTreeSet;

/// What an undamaged inquiry or commit did, and what was lent to it before.
pub struct FoldMade<'a, 'b> {
    pub call: FoldCall,
    pub lent: &'a mut FoldLent<'b>,
    pub times: Vec<u64>,
    pub ids: Vec<u8>,
    pub needed: Vec<u8>,
    pub outcome: FoldOutcome,
}

impl<'a, 'b> FoldMade<'a, 'b> {
    /// Makes the call with a change of what it is lent.
    pub fn new(call: FoldCall, lent: &'a mut FoldLent<'b>, change: fn(&mut FoldLent<'_>)) -> FoldMade<'a, 'b> {
        let (times, ids, needed) = (lent.times.to_vec(), lent.ids.to_vec(), lent.needed.to_vec());
        let (items, session) = (lent.items, lent.session);
        change(lent);
        let outcome = Reference.fold(call, lent);
        (lent.items, lent.session) = (items, session);
        let beside = lent.beside_refusal(call);
        FoldMade {
            call,
            lent,
            times,
            ids,
            needed,
            outcome: outcome.map_err(|refused| FoldRefused { beside, ..refused }),
        }
    }

    /// Tells a refusal by another number.
    pub fn renumber(&mut self, from: u8, to: u8) {
        if self.is_refused_by(from) {
            self.refuse(to);
        }
    }

    pub fn is_refused_by(&self, number: u8) -> bool {
        matches!(self.outcome, Err(refused) if refused.number == number)
    }

    /// Refuses after all.
    pub fn refuse(&mut self, number: u8) {
        self.lent.times.copy_from_slice(&self.times);
        self.lent.ids.copy_from_slice(&self.ids);
        self.lent.needed.copy_from_slice(&self.needed);
        let beside = self.lent.beside_refusal(self.call);
        self.outcome = Err(FoldRefused { number, beside });
    }

    /// Accepts after all, and writes nothing. The counts are those that the batch would give.
    pub fn accept(&mut self) {
        let (entering, staying) = (self.lent.batch.times.len(), self.staying());
        let mut session = self.lent.session;
        session.needed = staying;
        let items = self.lent.items.wrapping_add(entering);
        self.outcome = Ok(match self.call {
            FoldCall::Inquire => FoldAnswer::Inquired(Inquiry { entering, staying }),
            FoldCall::Commit => FoldAnswer::Committed(Committed { items, session }),
        });
    }

    fn staying(&self) -> usize {
        let leaving: BTreeSet<Id> = whole_ids(self.lent.batch.ids).collect();
        let listed = whole_ids(&self.needed).take(self.lent.session.needed);
        listed.filter(|id| !leaving.contains(id)).count()
    }

    /// The number that the call would give if something else were lent.
    pub fn number_with(&self, change: fn(&mut FoldLent<'_>)) -> u8 {
        let (mut times, mut ids, mut needed) = (self.times.clone(), self.ids.clone(), self.needed.clone());
        let mut other = FoldLent {
            times: &mut times,
            ids: &mut ids,
            needed: &mut needed,
            ..*self.lent
        };
        change(&mut other);
        let outcome = Reference.fold(FoldCall::Inquire, &mut other);
        outcome.map_or_else(|refused| refused.number, |_| 0)
    }

    /// How many items of the batch have the id of another.
    pub fn repeated_ids(&self) -> usize {
        let ids: BTreeSet<Id> = whole_ids(self.lent.batch.ids).collect();
        self.lent.batch.times.len().saturating_sub(ids.len())
    }

    /// Whether the needed list has every id of the batch.
    pub fn lists_all(&self) -> bool {
        let listed: BTreeSet<Id> = whole_ids(&self.needed).take(self.lent.session.needed).collect();
        whole_ids(self.lent.batch.ids).all(|id| listed.contains(&id))
    }

    /// Whether the table before had an id of the batch, under any time.
    pub fn table_has_id(&self) -> bool {
        let ids: BTreeSet<Id> = whole_ids(self.lent.batch.ids).collect();
        let mut own = whole_ids(&self.ids).take(self.lent.items);
        own.any(|id| ids.contains(&id))
    }

    /// The items of the table before, and those of the batch.
    pub fn both(&self) -> impl Iterator<Item = Item> + '_ {
        let own = items_of(&self.times, &self.ids).take(self.lent.items);
        own.chain(items_of(self.lent.batch.times, self.lent.batch.ids))
    }

    /// Makes these items the table.
    pub fn lay(&mut self, items: &[Item]) {
        let places = self.lent.times.iter_mut().zip(self.lent.ids.chunks_exact_mut(32));
        for ((time, id), item) in places.zip(items) {
            *time = item.0;
            id.copy_from_slice(&item.1);
        }
    }

    /// How many items the merge has.
    pub fn merged(&self) -> usize {
        self.lent.items.saturating_add(self.lent.batch.times.len())
    }
}
