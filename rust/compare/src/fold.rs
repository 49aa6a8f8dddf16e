//! What an inquiry or a commit is handed and what it leaves, and what holds of both by the specification alone.
use crate::calls::{Calls, FoldAnswer, FoldCall, FoldLent, FoldOutcome};
use crate::compare::{same_bytes, Check};
use crate::generate::{whole_ids, Id, Item};
use recon::{Committed, Session, Table};
use std::collections::BTreeSet;

/// What an inquiry or a commit is handed.
#[derive(Clone, Copy)]
pub struct FoldInput<'a> {
    pub call: FoldCall,
    /// The table's buffers, with whatever is behind its items.
    pub times: &'a [u64],
    pub ids: &'a [u8],
    pub items: usize,
    pub session: Session,
    pub needed: &'a [u8],
    pub batch: Table<'a>,
}

/// What it answers, and the lent buffers afterwards.
pub struct FoldAfter {
    pub outcome: FoldOutcome,
    pub times: Vec<u64>,
    pub ids: Vec<u8>,
    pub needed: Vec<u8>,
}

impl FoldAfter {
    /// The number of the refusal, 0 for none.
    pub fn number(&self) -> u8 {
        self.outcome.map_or_else(|refused| refused.number, |_| 0)
    }

    /// What a commit left that was not refused.
    pub fn committed(&self) -> Option<Committed> {
        match self.outcome {
            Ok(FoldAnswer::Committed(left)) => Some(left),
            _ => None,
        }
    }
}

/// The items of times and ids that stand side by side.
pub fn items_of<'a>(times: &'a [u64], ids: &'a [u8]) -> impl Iterator<Item = Item> + 'a {
    times.iter().copied().zip(whole_ids(ids))
}

impl<'a> FoldInput<'a> {
    /// The same for the other call.
    pub fn of(self, call: FoldCall) -> FoldInput<'a> {
        FoldInput { call, ..self }
    }

    /// Makes the call on copies of the buffers.
    pub fn run(&self, calls: &dyn Calls) -> FoldAfter {
        let (mut times, mut ids, mut needed) = (self.times.to_vec(), self.ids.to_vec(), self.needed.to_vec());
        let mut lent = FoldLent {
            times: &mut times,
            ids: &mut ids,
            items: self.items,
            session: self.session,
            needed: &mut needed,
            batch: self.batch,
        };
        let outcome = calls.fold(self.call, &mut lent);
        FoldAfter {
            outcome,
            times,
            ids,
            needed,
        }
    }

    /// What holds of the lent bytes after every call, whichever implementation made it: only a commit writes, and
    /// nothing behind table and list.
    pub fn check(&self, after: &FoldAfter) -> Check {
        match after.outcome {
            Err(refused) => self.check_unchanged(after, &format!("refused by {}", refused.number)),
            Ok(FoldAnswer::Inquired(_)) => self.check_unchanged(after, "an inquiry"),
            Ok(FoldAnswer::Committed(left)) => self.check_behind(after, left),
        }
    }

    fn check_unchanged(&self, after: &FoldAfter, call: &str) -> Check {
        let what = |buffer| move || format!("{}: {} before and afterwards", call, buffer);
        same_times(self.times, &after.times, what("times"))?;
        same_bytes(self.ids, &after.ids, what("ids"))?;
        same_bytes(self.needed, &after.needed, what("needed bytes"))
    }

    fn check_behind(&self, after: &FoldAfter, left: Committed) -> Check {
        let (items, needed) = (left.items, left.session.needed);
        if items > self.times.len().min(self.ids.len() / 32) || needed > self.needed.len() / 32 {
            return Err(format!("{:?} is more than the buffers hold", left));
        }
        let what = |buffer| move || format!("{} behind what was written", buffer);
        same_times(&self.times[items..], &after.times[items..], what("times"))?;
        same_bytes(&self.ids[32 * items..], &after.ids[32 * items..], what("ids"))?;
        let (before, after) = (&self.needed[32 * needed..], &after.needed[32 * needed..]);
        same_bytes(before, after, what("needed bytes"))
    }

    /// What a commit leaves that was not refused: the table is the union of itself and the batch, and the list has the
    /// ids that the batch has not.
    pub fn check_merge(&self, after: &FoldAfter) -> Check {
        let left = match after.committed() {
            None => return Ok(()),
            Some(left) => left,
        };
        let leaving: BTreeSet<Id> = whole_ids(self.batch.ids).collect();
        let listed = whole_ids(self.needed).take(self.session.needed);
        let staying: Vec<Id> = listed.filter(|id| !leaving.contains(id)).collect();
        let (items, needed) = (self.items + self.batch.times.len(), staying.len());
        let session = Session { needed, ..self.session };
        if left != (Committed { items, session }) {
            return Err(format!(
                "{} items and {:?} expected, both say {:?}",
                items, session, left
            ));
        }
        let own = items_of(self.times, self.ids).take(self.items);
        let union: BTreeSet<Item> = own.chain(items_of(self.batch.times, self.batch.ids)).collect();
        if !items_of(&after.times, &after.ids).take(items).eq(union) {
            return Err("the table afterwards is not the union of table and batch".to_string());
        }
        same_bytes(&after.needed[..32 * needed], &staying.concat(), || {
            "the needed list and the one without the batch".to_string()
        })
    }
}

/// Whether two implementations answer the same and leave the same.
pub fn compare(first: &FoldAfter, second: &FoldAfter, names: &str) -> Check {
    if first.outcome != second.outcome {
        let outcomes = (first.outcome, second.outcome);
        return Err(format!("{} answer {:?} and {:?}", names, outcomes.0, outcomes.1));
    }
    same_times(&first.times, &second.times, || format!("{}: times", names))?;
    same_bytes(&first.ids, &second.ids, || format!("{}: ids", names))?;
    same_bytes(&first.needed, &second.needed, || format!("{}: needed bytes", names))
}

/// Whether an inquiry and a commit of the same input agree.
pub fn agree(input: &FoldInput<'_>, inquiry: &FoldAfter, commit: &FoldAfter) -> Check {
    let told = match (inquiry.outcome, commit.committed()) {
        (Ok(FoldAnswer::Inquired(told)), Some(left)) => {
            input.items + told.entering == left.items && told.staying == left.session.needed
        }
        _ => inquiry.number() > 0 && inquiry.number() == commit.number(),
    };
    if !told {
        let outcomes = (inquiry.outcome, commit.outcome);
        return Err(format!(
            "the inquiry and the commit do not agree: {:?} and {:?}",
            outcomes.0, outcomes.1
        ));
    }
    Ok(())
}

/// Whether two lists of times are the same; if not, the first that differs.
fn same_times(first: &[u64], second: &[u64], what: impl FnOnce() -> String) -> Check {
    if first == second {
        return Ok(());
    }
    let at = first.iter().zip(second).position(|(a, b)| a != b);
    Err(format!("{} differ at {:?}", what(), at))
}
