//! Folding in: once a session is done, the table takes the items that the other end hands over, a batch at a time.
use crate::{ffi, Refusal, Session, Table};

/// What a commit of a batch would do.
#[derive(Clone, Copy, Debug, PartialEq, Eq, Hash)]
pub struct Inquiry {
    /// How many items would enter the table.
    pub entering: usize,
    /// How many ids would stay on the needed list.
    pub staying: usize,
}

/// What a commit leaves.
#[derive(Clone, Copy, Debug, PartialEq, Eq)]
pub struct Committed {
    /// How many items the table has now.
    pub items: usize,
    /// The session, for the next call. Its count of needed ids is that of the shorter list; the rest is as before, the label
    /// of the table at the opening too.
    pub session: Session,
}

/// Tells what [`fold_commit`] would do with a batch, and changes nothing.
///
/// The table is the first `items` items of `times` and `ids`; these buffers may be longer. The needed list is that of the session, at the start
/// of `needed`. A batch is lent as a table is: sorted by time, then by id. An id that it has under two times is two items that enter, and one id
/// that leaves the list.
///
/// ```
/// use recon::{fold_inquire, Label, Refusal, Session, Table};
///
/// // Two items, in buffers that hold four; the ids 2, 3 and 4 are needed.
/// let (times, mut ids) = ([5, 7, 0, 0], [0; 4 * 32]);
/// ids[..64].copy_from_slice(&[[1; 32], [9; 32]].concat());
/// let needed = [[2; 32], [3; 32], [4; 32]].concat();
/// let session = Session { marked: 0, needed: 3, done: true, label: Label::default() }; // No label is compared here.
/// let batch = Table { times: &[5, 7], ids: &[[2; 32], [4; 32]].concat() };
///
/// let told = fold_inquire(&times, &ids, 2, session, &needed, batch)?;
/// assert_eq!((told.entering, told.staying), (2, 1));
/// let other = Table { times: &[6], ids: &[8; 32] };
/// assert_eq!(fold_inquire(&times, &ids, 2, session, &needed, other), Err(Refusal::NotDue));
/// # Ok::<(), Refusal>(())
/// ```
///
/// # Errors
/// Refusals 1 and 2 for the table and for the batch, 4 for the needed list, and 15 to 17. They are those of the commit, also where the buffers
/// cannot hold the merge.
pub fn fold_inquire(
    times: &[u64],
    ids: &[u8],
    items: usize,
    session: Session,
    needed: &[u8],
    batch: Table<'_>,
) -> Result<Inquiry, Refusal> {
    let answer = ffi::fold_inquire(times, ids, items, session, needed, batch);
    match Refusal::from_number(answer.refusal) {
        Some(refusal) => Err(refusal),
        None => Ok(Inquiry {
            entering: answer.entering,
            staying: answer.staying,
        }),
    }
}

/// Merges a batch into the table at the start of `times` and `ids`, and takes its ids off the needed list at the start of `needed`. All checks
/// are made afresh: nothing rests on an inquiry before it. [`fold_inquire`] has what is handed over.
///
/// Bytes behind the merge stay as they were, and so do needed bytes behind the shorter list. Several commits can follow one session, each
/// handed what the one before it left.
///
/// ```
/// use recon::{fold_commit, Label, Refusal, Session, Table};
///
/// let (mut times, mut ids) = ([5, 7, 0, 0], [0; 4 * 32]);
/// ids[..64].copy_from_slice(&[[1; 32], [9; 32]].concat());
/// let mut needed = [[2; 32], [3; 32], [4; 32]].concat();
/// let session = Session { marked: 0, needed: 3, done: true, label: Label::default() }; // No label is compared here.
/// let batch = Table { times: &[5, 7], ids: &[[2; 32], [4; 32]].concat() };
///
/// let left = fold_commit(&mut times, &mut ids, 2, session, &mut needed, batch)?;
/// assert_eq!((left.items, left.session.needed), (4, 1));
/// assert_eq!((times, ids[32..64] == [2; 32]), ([5, 5, 7, 7], true));
/// assert_eq!(needed[..32], [3; 32]);
/// let again = fold_commit(&mut times, &mut ids, left.items, left.session, &mut needed, batch);
/// assert_eq!(again, Err(Refusal::NotDue));
/// # Ok::<(), Refusal>(())
/// ```
///
/// # Errors
/// Refusals 1 and 2 for the table and for the batch, 4 for the needed list, and 15 to 17; then no byte has changed, and count and session are
/// still those handed over.
pub fn fold_commit(
    times: &mut [u64],
    ids: &mut [u8],
    items: usize,
    session: Session,
    needed: &mut [u8],
    batch: Table<'_>,
) -> Result<Committed, Refusal> {
    let answer = ffi::fold_commit(times, ids, items, session, needed, batch);
    match Refusal::from_number(answer.refusal) {
        Some(refusal) => Err(refusal),
        None => Ok(Committed {
            items: answer.items,
            session: answer.session.into(),
        }),
    }
}
