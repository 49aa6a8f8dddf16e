//! A judge of replies: whether a responder whose table is at hand may have given this reply to this query.
use crate::{ffi, Refusal, Table};

/// Whether a reply is one that a responder with this table may give to this query, however it cuts.
///
/// That is so exactly when both messages can be read and begin with 61 (hexadecimal); wherever the query skips, or has a fingerprint that is the
/// table's, the reply skips; inside any other fingerprint range of the query the reply skips nowhere, and has ids throughout or at least two ranges
/// that meet it; each fingerprint of the reply is the table's, and each list has just the table's ids of its range, in any order; and where the query
/// lists ids, the reply does. A message that cannot be read gives `false`, and not a refusal.
///
/// Every answer of [`answer_query`](crate::answer_query) to a query that begins with 61 is approved, for any cut. One that was cut short by a byte
/// limit may not be. What a session reports is true and complete with any mix of approved replies; how many queries it takes is then not
/// promised.
///
/// ```
/// use recon::{answer_query, judge_reply, open_session, Cut, Refusal, Table};
///
/// let (cut, our_ids, their_ids) = (Cut::default(), [1; 32], [[2; 32], [3; 32]].concat());
/// let ours = Table { times: &[100], ids: &our_ids };
/// let theirs = Table { times: &[100, 200], ids: &their_ids };
/// let (mut marks, mut query, mut reply) = ([0], [0; 100], [0; 100]);
/// let length = open_session(ours, cut, &mut marks, &[], &mut query)?.length;
/// let query = &query[..length];
/// let length = answer_query(theirs, cut, query, &mut reply)?;
/// assert!(judge_reply(theirs, query, &reply[..length])?);
///
/// reply[length - 1] ^= 1; // another id than the table's
/// assert!(!judge_reply(theirs, query, &reply[..length])?);
/// assert!(!judge_reply(theirs, query, b"a")?); // says that nothing differs
/// # Ok::<(), Refusal>(())
/// ```
///
/// # Errors
/// Refusals 1 and 2 for the table.
pub fn judge_reply(table: Table<'_>, query: &[u8], reply: &[u8]) -> Result<bool, Refusal> {
    let judgement = ffi::judge(table, query, reply);
    match Refusal::from_number(judgement.refusal) {
        Some(refusal) => Err(refusal),
        None => Ok(judgement.approved),
    }
}
