//! Sessions that were kept from before sessions had a label.
use crate::{ffi, sent, Refusal, Session, Table};

/// A session as it was before sessions had a label.
#[derive(Clone, Copy, Debug, PartialEq, Eq)]
pub struct UnlabelledSession {
    /// How many marks are 1.
    pub marked: usize,
    /// How many ids the needed list has.
    pub needed: usize,
    /// Whether all is reported.
    pub done: bool,
}

/// Gives its label to a session that was kept from before sessions had one: the session with the label of the table, and all else as it was. A
/// session that is done is converted like others.
///
/// Table, marks and needed list are those of the session. The table is that of its opening, also after a commit, which leaves another one; marks
/// and list are as the last call left them.
///
/// ```
/// use recon::{convert_session, take_reply, Cut, Label, Refusal, Session, Table, UnlabelledSession};
///
/// let table = Table { times: &[100, 200], ids: &[1; 64] };
/// let (mut marks, mut needed) = ([0, 1], [7; 32]);
/// let kept = UnlabelledSession { marked: 1, needed: 1, done: false };
/// let session = convert_session(table, kept, &marks, &needed)?;
/// let label = Label { sum: [0x0202_0202_0202_0202; 4], count: 2 };
/// assert_eq!(session, Session { marked: 1, needed: 1, done: false, label });
///
/// // The session is carried on; this reply says that nothing else differs.
/// let sent = take_reply(table, Cut::default(), b"a", session, &mut marks, &mut needed, &mut [])?;
/// assert!(sent.session.done);
/// # Ok::<(), Refusal>(())
/// ```
///
/// # Errors
/// Refusals 1, 2 and 4, judged as by [`take_reply`](crate::take_reply).
pub fn convert_session(
    table: Table<'_>,
    session: UnlabelledSession,
    marks: &[u8],
    needed: &[u8],
) -> Result<Session, Refusal> {
    sent(ffi::session_convert(table, session, marks, needed)).map(|sent| sent.session)
}
