//! The calls of a session with a byte limit.
use crate::{answered, ffi, sent, Cut, Refusal, Sent, Session, Table};

/// As [`open_session`](crate::open_session), with a query of at most `bytes` bytes.
///
/// A message that would be longer, of this call or of the two below, keeps the longest run of ranges from its start that fits together
/// with one last range, which has the fingerprint of the own items from there to infinity. An ids range that does not fit whole is cut after
/// the most ids that fit. `out` needs no more than `bytes` bytes, and no more than the message has.
///
/// ```
/// use recon::{open_session, open_session_within, Cut, Refusal, Table};
///
/// let times: Vec<u64> = (0..128).collect();
/// let table = Table { times: &times, ids: &[7; 32 * 128] };
/// let cut = Cut { parts: 2, limit: 128 };
/// let (mut marks, mut out) = ([0; 128], [0; 5000]);
/// // Version, infinity, mode and count, and 128 ids.
/// assert_eq!(open_session(table, cut, &mut marks, &[], &mut out)?.length, 6 + 32 * 128);
/// // Version, time 127, mode and count, and 127 ids; infinity, mode and fingerprint for the last.
/// let sent = open_session_within(table, cut, 4096, &mut marks, &[], &mut out)?;
/// assert_eq!(sent.length, 6 + 32 * 127 + 3 + 16);
/// assert_eq!(open_session_within(table, cut, 4095, &mut marks, &[], &mut out), Err(Refusal::ByteLimit));
/// # Ok::<(), Refusal>(())
/// ```
///
/// # Errors
/// Refusals 1 to 3, 14 for a limit below [`MIN_BYTE_LIMIT`](crate::MIN_BYTE_LIMIT), 4 and 12; then no byte has changed.
pub fn open_session_within(
    table: Table<'_>,
    cut: Cut,
    bytes: usize,
    marks: &mut [u8],
    needed: &[u8],
    out: &mut [u8],
) -> Result<Sent, Refusal> {
    sent(ffi::open_within(table, cut, bytes, marks, needed, out))
}

/// As [`answer_query`](crate::answer_query), with an answer of at most `bytes` bytes. [`open_session_within`] has what a limit does.
///
/// # Errors
/// Refusals 1 to 3, 14 for a limit below [`MIN_BYTE_LIMIT`](crate::MIN_BYTE_LIMIT), 6 to 10 and 12; then no byte has changed.
pub fn answer_query_within(
    table: Table<'_>,
    cut: Cut,
    bytes: usize,
    query: &[u8],
    out: &mut [u8],
) -> Result<usize, Refusal> {
    answered(ffi::answer_within(table, cut, bytes, query, out))
}

/// As [`take_reply`](crate::take_reply), with a next query of at most `bytes` bytes. [`open_session_within`] has what a limit does. Marks,
/// needed list and session become the same as without a limit.
///
/// ```
/// use recon::{answer_query_within, open_session_within, sha256, take_reply_within, Cut, Refusal, Table};
///
/// let times: Vec<u64> = (0..500).collect();
/// let ids: Vec<u8> = times.iter().flat_map(|time| sha256(&time.to_be_bytes())).collect();
/// let ours = Table { times: &times[..450], ids: &ids[..32 * 450] };
/// let theirs = Table { times: &times[50..], ids: &ids[32 * 50..] };
/// let (cut, limit) = (Cut { parts: 16, limit: 500 }, 4096);
///
/// // Such out buffers are enough for every message.
/// let (mut out, mut reply) = ([0; 4096], [0; 4096]);
/// let (mut marks, mut needed, mut rounds) = ([0; 450], [0; 32 * 500], 0);
/// let mut sent = open_session_within(ours, cut, limit, &mut marks, &needed, &mut out)?;
/// while !sent.session.done {
///     let length = answer_query_within(theirs, cut, limit, &out[..sent.length], &mut reply)?;
///     let reply = &reply[..length];
///     sent = take_reply_within(ours, cut, limit, reply, sent.session, &mut marks, &mut needed, &mut out)?;
///     rounds += 1;
/// }
/// assert_eq!((sent.session.marked, sent.session.needed), (50, 50));
/// assert!(rounds > 1); // Without a limit it is one.
/// # Ok::<(), Refusal>(())
/// ```
///
/// # Errors
/// Refusals 1 to 3, 14 for a limit below [`MIN_BYTE_LIMIT`](crate::MIN_BYTE_LIMIT), 4, 18 and 5 to 12, in this order; then no byte has changed,
/// and the session is still the one handed over.
#[allow(clippy::too_many_arguments)] // Those of `take_reply`, and the limit.
pub fn take_reply_within(
    table: Table<'_>,
    cut: Cut,
    bytes: usize,
    reply: &[u8],
    session: Session,
    marks: &mut [u8],
    needed: &mut [u8],
    out: &mut [u8],
) -> Result<Sent, Refusal> {
    sent(ffi::take_within(table, cut, bytes, reply, session, marks, needed, out))
}
