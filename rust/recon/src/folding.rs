//! A table that takes batches, with its buffers.
use crate::{fold_commit, fold_inquire, Committed, Inquiry, Opener, Refusal, Session, Table, ID_BYTES, MAX_ITEMS};
use alloc::vec::Vec;
use core::fmt;

/// A table after its session, which takes the items that the other end hands over, a batch at a time.
///
/// It owns the table, the session and the needed list. The buffers of the table grow with each batch, so 17 is answered only past
/// [`MAX_ITEMS`] or where memory cannot be had. Let each batch have items of the other end's table alone, as they are there. Once no id is
/// needed any more, the table is the union of both, if nothing else has changed either of them since the opening; save, as with a session, where
/// fingerprints collide or an id has not the same time at both ends.
///
/// ```
/// use recon::{sha256, Cut, Fold, Opener, Refusal, Responder, Table};
///
/// let [a, b, c, d] = [sha256(b"a"), sha256(b"b"), sha256(b"c"), sha256(b"d")];
/// let (times, ids) = (vec![100, 200], [a, b].concat());
/// let their_ids = [a, c, d].concat();
/// let theirs = Table { times: &[100, 300, 400], ids: &their_ids };
///
/// let mut opener = Opener::open(Table { times: &times, ids: &ids }, Cut::default())?;
/// let mut responder = Responder::new(theirs, Cut::default());
/// while let Some(query) = opener.query() {
///     opener.take(responder.answer(query)?)?;
/// }
/// // The table is moved, not copied: the opener only borrowed it.
/// let (session, needed) = opener.into_parts();
/// let mut fold = Fold::new(times, ids, session, needed)?;
///
/// let batch = Table { times: &[400], ids: &d };
/// let told = fold.inquire(batch)?;
/// assert_eq!((told.entering, told.staying), (1, 1));
/// fold.commit(batch)?;
/// assert_eq!(fold.still_needed().collect::<Vec<_>>(), [&c]);
/// assert_eq!(fold.commit(batch), Err(Refusal::NotDue));
///
/// fold.commit(Table { times: &[300], ids: &c })?;
/// assert!(fold.is_complete());
/// let (times, ids) = fold.into_table();
/// assert_eq!((times, ids), (vec![100, 200, 300, 400], [a, b, c, d].concat()));
/// # Ok::<(), Refusal>(())
/// ```
#[derive(Clone)]
pub struct Fold {
    /// As many ids as times, outside of a call.
    times: Vec<u64>,
    ids: Vec<u8>,
    session: Session,
    needed: Vec<u8>,
}

impl Fold {
    /// A table, the session that it had, and the needed list. The list is the first `session.needed` ids of `needed`.
    ///
    /// All of it is judged here, so that a batch is refused by what is wrong with the batch alone, or by 17.
    ///
    /// # Errors
    /// Refusals 1 and 2 for the table, 4 for the needed list, and 15 where the session is not done.
    pub fn new(times: Vec<u64>, ids: Vec<u8>, session: Session, needed: Vec<u8>) -> Result<Fold, Refusal> {
        // The call takes ids that are too many for bytes behind the table.
        if ids.len() / ID_BYTES > times.len() || ids.len() % ID_BYTES > 0 {
            return Err(Refusal::TableSize);
        }
        fold_inquire(
            &times,
            &ids,
            times.len(),
            session,
            &needed,
            Table { times: &[], ids: &[] },
        )?;
        Ok(Fold {
            times,
            ids,
            session,
            needed,
        })
    }

    /// A copy of an opener's table, with its session and needed list.
    fn of_opener(opener: &Opener<'_>) -> Result<Fold, Refusal> {
        let table = opener.table();
        let copied = (copy(table.times), copy(table.ids), copy(opener.needed()));
        match copied {
            (Some(times), Some(ids), Some(needed)) => Fold::new(times, ids, opener.session(), needed),
            _ => Err(Refusal::TableFull),
        }
    }

    /// Tells what a commit of the batch would do. The table and the needed list stay as they are; the memory for the merge is had here already,
    /// so that a commit of the batch does not fail for it.
    ///
    /// # Errors
    /// Refusals 1 and 2 for the batch, 16, and 17 past [`MAX_ITEMS`] or where memory cannot be had.
    pub fn inquire(&mut self, batch: Table<'_>) -> Result<Inquiry, Refusal> {
        let items = self.grow(batch);
        let told = fold_inquire(&self.times, &self.ids, items, self.session, &self.needed, batch);
        self.cut_to(items);
        told
    }

    /// Merges the batch into the table, and takes its ids off the needed list.
    ///
    /// # Errors
    /// Those of [`inquire`](Fold::inquire). Then nothing has changed, and another batch can be committed.
    pub fn commit(&mut self, batch: Table<'_>) -> Result<Committed, Refusal> {
        let items = self.grow(batch);
        let (times, ids, needed) = (&mut self.times, &mut self.ids, &mut self.needed);
        let left = fold_commit(times, ids, items, self.session, needed, batch);
        self.cut_to(left.map_or(items, |left| left.items));
        let left = left?;
        self.session = left.session;
        Ok(left)
    }

    /// The table as it is now.
    pub fn table(&self) -> Table<'_> {
        Table {
            times: &self.times,
            ids: &self.ids,
        }
    }

    /// The session as it is now: its count of needed ids falls with each commit.
    pub fn session(&self) -> Session {
        self.session
    }

    /// The ids that are still needed, rising.
    pub fn still_needed(&self) -> impl Iterator<Item = &[u8; ID_BYTES]> + '_ {
        crate::ends::ids(&self.needed).take(self.session.needed)
    }

    /// Whether no id is needed any more.
    pub fn is_complete(&self) -> bool {
        self.session.needed == 0
    }

    /// The times and the ids of the table.
    pub fn into_table(self) -> (Vec<u64>, Vec<u8>) {
        (self.times, self.ids)
    }

    /// Puts room for a batch behind the items, at most up to the most items: how many items there are. Where the memory cannot be had there is
    /// less room, and the call is refused by 17.
    fn grow(&mut self, batch: Table<'_>) -> usize {
        let items = self.times.len();
        let more = batch.times.len().min(MAX_ITEMS.saturating_sub(items));
        if reserve(&mut self.times, more) && reserve(&mut self.ids, ID_BYTES * more) {
            self.times.resize(items + more, 0);
            self.ids.resize(ID_BYTES * (items + more), 0);
        }
        items
    }

    /// Takes off the room behind the items.
    fn cut_to(&mut self, items: usize) {
        self.times.truncate(items);
        self.ids.truncate(ID_BYTES * items);
    }
}

impl Opener<'_> {
    /// A copy of the table, to take what the session found to be lacking. The opener stays as it is.
    ///
    /// Whoever has the table in vectors of his own need not copy it: [`Opener::into_parts`] and [`Fold::new`].
    ///
    /// # Errors
    /// Refusal 15 where the session is not done, and 17 where memory cannot be had.
    pub fn fold(&self) -> Result<Fold, Refusal> {
        Fold::of_opener(self)
    }
}

impl fmt::Debug for Fold {
    fn fmt(&self, f: &mut fmt::Formatter<'_>) -> fmt::Result {
        let mut shown = f.debug_struct("Fold");
        shown.field("items", &self.times.len());
        shown.field("session", &self.session).finish_non_exhaustive()
    }
}

/// Whether the memory for so many more can be had. More is taken than that, if it can be, so that many small batches do not each move the table.
fn reserve<T>(buffer: &mut Vec<T>, more: usize) -> bool {
    buffer.try_reserve(more).is_ok() || buffer.try_reserve_exact(more).is_ok()
}

/// A copy; none where the memory cannot be had.
fn copy<T: Copy>(from: &[T]) -> Option<Vec<T>> {
    let mut to = Vec::new();
    to.try_reserve_exact(from.len()).ok()?;
    to.extend_from_slice(from);
    Some(to)
}
