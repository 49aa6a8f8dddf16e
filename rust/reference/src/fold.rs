//! The inquiry and the commit ("Folding in").

use crate::bound::Id;
use crate::ends::Session;
use crate::refusal;
use crate::table::{to_id, Table, MAX_ITEMS};
use std::collections::BTreeSet;

/// What an inquiry reports.
#[derive(Clone, Copy, Debug, PartialEq, Eq)]
pub struct Inquiry {
    /// "How many items would enter".
    pub entering: usize,
    /// "How many ids would stay needed".
    pub staying: usize,
}

/// What an unrefused commit gives back.
#[derive(Clone, Copy, Debug, PartialEq, Eq)]
pub struct Committed {
    /// How many items the table has now.
    pub items: usize,
    /// The session from now on.
    pub session: Session,
}

/// Inquire: "changes nothing and reports how many items would enter and how many ids would stay needed". Refuses by 1,
/// 2, 4 and 15 to 17. "Our table comes with its item count": its buffers may be longer.
pub fn fold_inquire(
    times: &[u64],
    ids: &[u8],
    items: usize,
    session: Session,
    needed: &[u8],
    batch_times: &[u64],
    batch_ids: &[u8],
) -> Result<Inquiry, u8> {
    let fold = Fold::judged(times, ids, items, session, needed, batch_times, batch_ids)?;
    Ok(Inquiry {
        entering: batch_times.len(),
        staying: fold.needed.len(),
    })
}

/// Commit: "makes every check afresh and merges the batch into the lent table; its ids leave the needed list".
pub fn fold_commit(
    times: &mut [u64],
    ids: &mut [u8],
    items: usize,
    session: Session,
    needed: &mut [u8],
    batch_times: &[u64],
    batch_ids: &[u8],
) -> Result<Committed, u8> {
    let fold = Fold::judged(times, ids, items, session, needed, batch_times, batch_ids)?;
    fold.lay(times, ids, needed);
    Ok(Committed {
        items: fold.merged.len(),
        session: Session {
            needed: fold.needed.len(),
            ..session
        },
    })
}

/// The table and the needed list that a commit would leave. The lent buffers change only when nothing can refuse any
/// more.
struct Fold {
    merged: Vec<(u64, Id)>,
    needed: Vec<Id>,
}

impl Fold {
    /// All checks. "The batch is ruled by 1 and 2 like a table", each of them before the next check is made of either.
    fn judged(
        times: &[u64],
        ids: &[u8],
        items: usize,
        session: Session,
        needed: &[u8],
        batch_times: &[u64],
        batch_ids: &[u8],
    ) -> Result<Fold, u8> {
        let table = first_items(times, ids, items)?; // 1
        let batch = Table::sized(batch_times, batch_ids)?; // 1
        table.judge_order()?; // 2
        batch.judge_order()?; // 2
        let needed = needed_ids(session, needed)?; // 4
        if !session.done {
            return Err(refusal::NOT_DONE);
        }
        let (own, new) = (owned(&table), owned(&batch));
        // "A batch id isn't on the needed list or its item is already in the table". Table and list rise.
        let is_due = |item: &(u64, Id)| needed.binary_search(&item.1).is_ok() && own.binary_search(item).is_err();
        if !new.iter().all(is_due) {
            return Err(refusal::NOT_DUE);
        }
        let count = own.len() + new.len();
        if count > MAX_ITEMS || count > times.len() || 32 * count > ids.len() {
            return Err(refusal::TABLE_ROOM);
        }
        // An id that the batch has under two times leaves once.
        let leaving: BTreeSet<Id> = new.iter().map(|item| item.1).collect();
        let mut merged = [own, new].concat();
        merged.sort();
        let needed = needed.into_iter().filter(|id| !leaving.contains(id)).collect();
        Ok(Fold { merged, needed })
    }

    /// Lays table and list into the lent buffers. "Table bytes behind the merge stay", and needed bytes behind the
    /// list.
    fn lay(&self, times: &mut [u64], ids: &mut [u8], needed: &mut [u8]) {
        let items = times.iter_mut().zip(ids.chunks_exact_mut(32)).zip(&self.merged);
        for ((time, bytes), item) in items {
            *time = item.0;
            bytes.copy_from_slice(&item.1);
        }
        for (bytes, id) in needed.chunks_exact_mut(32).zip(&self.needed) {
            bytes.copy_from_slice(id);
        }
    }
}

/// Refusal 1 of the table: its buffers meet it "only if too short for that count", or the count exceeds the most items.
fn first_items<'a>(times: &'a [u64], ids: &'a [u8], items: usize) -> Result<Table<'a>, u8> {
    if items > MAX_ITEMS || times.len() < items || ids.len() < 32 * items {
        return Err(refusal::TABLE_SIZE);
    }
    Table::sized(&times[..items], &ids[..32 * items])
}

/// The needed list. Refusal 4 without the marks, "judged as for a take"; bytes behind the list are not judged.
fn needed_ids(session: Session, needed: &[u8]) -> Result<Vec<Id>, u8> {
    if needed.len() % 32 != 0 || session.needed > needed.len() / 32 {
        return Err(refusal::REPORT);
    }
    let needed: Vec<Id> = needed[..32 * session.needed].chunks_exact(32).map(to_id).collect();
    if needed.windows(2).any(|pair| pair[0] >= pair[1]) {
        return Err(refusal::REPORT);
    }
    Ok(needed)
}

fn owned(table: &Table) -> Vec<(u64, Id)> {
    (0..table.count())
        .map(|index| table.item(index))
        .map(|(time, id)| (time, to_id(id)))
        .collect()
}
