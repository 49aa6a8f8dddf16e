//! Range-based set reconciliation with the messages of the Negentropy Protocol V1: safe calls over the proved library.
//!
//! Two ends each hold a table of records, known by a time and an id of 32 bytes. They exchange messages until the end that opened the
//! session knows which ids it lacks and which the other end lacks. The answer "nothing is missing" can be acted on without a further check:
//! it is proved, save where two different ranges have the same fingerprint of 16 bytes, or an id has not the same time at both ends.
//!
//! # A session
//!
//! An [`Opener`] and a [`Responder`] own their buffers. Here both are in one program; otherwise each end has its own table alone, and the
//! bytes of queries and replies go over whatever connects the two.
//!
#![cfg_attr(feature = "alloc", doc = "```")]
#![cfg_attr(not(feature = "alloc"), doc = "```ignore")]
//! use recon::{sha256, Cut, Opener, Refusal, Responder, Table};
//!
//! let [a, b, c, d] = [sha256(b"a"), sha256(b"b"), sha256(b"c"), sha256(b"d")];
//! let (our_ids, their_ids) = ([a, b, c].concat(), [a, c, d].concat());
//! let ours = Table { times: &[100, 200, 300], ids: &our_ids };
//! let theirs = Table { times: &[100, 300, 400], ids: &their_ids };
//!
//! let mut opener = Opener::open(ours, Cut::default())?;
//! let mut responder = Responder::new(theirs, Cut::default());
//! while let Some(query) = opener.query() {
//!     let reply = responder.answer(query)?;
//!     opener.take(reply)?;
//! }
//! assert!(opener.is_done());
//! assert_eq!(opener.ours_only().collect::<Vec<_>>(), [(200, &b)]);
//! assert_eq!(opener.theirs_only().collect::<Vec<_>>(), [&d]);
//! # Ok::<(), Refusal>(())
//! ```
//!
//! # The plain calls
//!
//! The same in buffers of the caller: the opener's [`open_session`] writes a first query; the responder's [`answer_query`] answers each
//! query; the opener's [`take_reply`] takes each answer and writes the next query, until the session is done. Then the mark 1 stands on the
//! opener's own items that the other end lacks, and the needed list has the ids that the opener lacks.
//!
//! ```
//! use recon::{answer_query, open_session, sha256, take_reply, Cut, Refusal, Table};
//!
//! let [a, b, c, d] = [sha256(b"a"), sha256(b"b"), sha256(b"c"), sha256(b"d")];
//! let (our_ids, their_ids) = ([a, b, c].concat(), [a, c, d].concat());
//! let ours = Table { times: &[100, 200, 300], ids: &our_ids };
//! let theirs = Table { times: &[100, 300, 400], ids: &their_ids };
//! let cut = Cut::default();
//!
//! let (mut marks, mut needed, mut out, mut reply) = ([0; 3], [0; 10 * 32], [0; 1000], [0; 1000]);
//! let mut sent = open_session(ours, cut, &mut marks, &needed, &mut out)?;
//! while !sent.session.done {
//!     let length = answer_query(theirs, cut, &out[..sent.length], &mut reply)?;
//!     let reply = &reply[..length];
//!     sent = take_reply(ours, cut, reply, sent.session, &mut marks, &mut needed, &mut out)?;
//! }
//! assert_eq!(marks, [0, 1, 0]);
//! assert_eq!(needed[..32 * sent.session.needed], d);
//! # Ok::<(), Refusal>(())
//! ```
//!
//! # Trees of labels
//!
//! The label of some items is the sum of their ids and their number; a fingerprint is a hash of it. A tree keeps the labels of a table, of the
//! whole, its halves, their halves and so on, in a buffer of [`tree_bytes`]: [`build_tree`] makes it, [`append_to_tree`] adds an item above all
//! others, and [`label_of_run`] has the label of any items that stand in a row, without adding up each of them.
//!
//! ```
//! use recon::{append_to_tree, build_tree, label_of_run, tree_bytes, Refusal, Table};
//!
//! let ids = [[1; 32], [2; 32], [3; 32], [4; 32]].concat();
//! let three = Table { times: &[5, 5, 7], ids: &ids[..96] };
//! let mut tree = [0; tree_bytes(3)];
//! build_tree(three, &mut tree)?;
//! append_to_tree(three, 9, &ids[96..], &mut tree)?;
//! assert_eq!(label_of_run(&tree, 1..4)?.label.sum, [0x0909_0909_0909_0909; 4]);
//! # Ok::<(), Refusal>(())
//! ```
//!
//! # Byte limits
//!
//! Where messages must be short, either end can be given a byte limit, of at least [`MIN_BYTE_LIMIT`]: [`open_session_within`],
//! [`answer_query_within`] and [`take_reply_within`], or [`Opener::open_within`], [`Opener::set_byte_limit`] and
//! [`Responder::set_byte_limit`]. A message that would be longer keeps what fits of its ranges and ends with one fingerprint for all that
//! follows, so that the session takes more rounds. Its reports are as true and as complete. Calls with and without a limit, and with
//! different ones, may stand in one session in any mix.
//!
#![cfg_attr(feature = "alloc", doc = "```")]
#![cfg_attr(not(feature = "alloc"), doc = "```ignore")]
//! use recon::{sha256, Cut, Opener, Refusal, Responder, Table, MIN_BYTE_LIMIT};
//!
//! let times: Vec<u64> = (0..1000).collect();
//! let ids: Vec<u8> = times.iter().flat_map(|time| sha256(&time.to_be_bytes())).collect();
//! let ours = Table { times: &times[..900], ids: &ids[..32 * 900] };
//! let theirs = Table { times: &times[100..], ids: &ids[32 * 100..] };
//!
//! let mut opener = Opener::open_within(ours, Cut::default(), MIN_BYTE_LIMIT)?;
//! let mut responder = Responder::new(theirs, Cut::default());
//! responder.set_byte_limit(Some(MIN_BYTE_LIMIT));
//! while let Some(query) = opener.query() {
//!     let reply = responder.answer(query)?;
//!     assert!(query.len() <= 4096 && reply.len() <= 4096);
//!     opener.take(reply)?;
//! }
//! assert_eq!((opener.ours_only().count(), opener.theirs_only().count()), (100, 100));
//! # Ok::<(), Refusal>(())
//! ```
//!
//! # Folding in
//!
//! Once a session is done, the other end hands over the items that are needed, and the table takes them, a batch at a time: [`fold_inquire`]
//! tells what a batch would do, and [`fold_commit`] merges it into the table and takes its ids off the needed list. A [`Fold`] does so with
//! buffers that grow.
//!
#![cfg_attr(feature = "alloc", doc = "```")]
#![cfg_attr(not(feature = "alloc"), doc = "```ignore")]
//! use recon::{sha256, Cut, Opener, Refusal, Responder, Table};
//!
//! let [a, b, c] = [sha256(b"a"), sha256(b"b"), sha256(b"c")];
//! let (our_ids, their_ids) = ([a, b].concat(), [a, c].concat());
//! let ours = Table { times: &[100, 200], ids: &our_ids };
//! let theirs = Table { times: &[100, 300], ids: &their_ids };
//! let mut opener = Opener::open(ours, Cut::default())?;
//! let mut responder = Responder::new(theirs, Cut::default());
//! while let Some(query) = opener.query() {
//!     opener.take(responder.answer(query)?)?;
//! }
//!
//! let mut fold = opener.fold()?; // a copy of the table
//! let batch = Table { times: &[300], ids: &c };
//! let told = fold.inquire(batch)?;
//! assert_eq!((told.entering, told.staying), (1, 0));
//! fold.commit(batch)?;
//! assert_eq!(fold.table().times, [100, 200, 300]);
//! # Ok::<(), Refusal>(())
//! ```
//!
//! # A session and its table
//!
//! A session carries the label of the table at its opening, and a take with a table of another label is refused by 18: a record that was saved
//! while the session was open would have moved the marks to other items. [`Opener`] borrows its table, so that it cannot change. A label has no
//! times, and two tables can have one label: a table that was changed to the same label is not refused, and nothing is promised of it.
//!
//! ```
//! use recon::{answer_query, open_session, take_reply, Cut, Refusal, Table};
//!
//! let (cut, our_ids, their_ids) = (Cut::default(), [[1; 32], [2; 32]].concat(), [3; 32]);
//! let ours = Table { times: &[100, 200], ids: &our_ids };
//! let theirs = Table { times: &[300], ids: &their_ids };
//! let (mut marks, mut needed, mut out, mut reply) = ([0; 2], [0; 32], [0; 100], [0; 100]);
//! let sent = open_session(ours, cut, &mut marks, &needed, &mut out)?;
//! let length = answer_query(theirs, cut, &out[..sent.length], &mut reply)?;
//! let reply = &reply[..length];
//!
//! let other_ids = [[1; 32], [4; 32]].concat();
//! let other = Table { times: &[100, 200], ids: &other_ids };
//! let taken = take_reply(other, cut, reply, sent.session, &mut marks, &mut needed, &mut out);
//! assert_eq!(taken, Err(Refusal::OtherTable));
//! let sent = take_reply(ours, cut, reply, sent.session, &mut marks, &mut needed, &mut out)?;
//! assert_eq!((marks, needed, sent.session.done), ([1, 1], [3; 32], true));
//! # Ok::<(), Refusal>(())
//! ```
//!
//! A session that was kept from before sessions had a label gets one by [`convert_session`].
//!
//! # What all calls share
//!
//! No call panics or has a condition: whatever is wrong with what it is handed, it answers with a [`Refusal`], and then it has changed
//! nothing. After refusals 11, 12 and 17 make the buffer larger and the call again. Each plain call is proved equal to its definition. This crate
//! only passes slices on, and the types `Opener`, `Responder` and `Fold` keep the buffers.
//!
//! # Features
//!
//! - `std` (on by default): [`Refusal`] is an `std::error::Error`. Without it the crate needs `core` alone.
//! - `alloc` (with `std`): `Opener`, `Responder` and `Fold`.
//!
//! # Linking
//!
//! The library is `librecon.a`, as it is installed, or `libcapi.a`, as the repository builds it. It is looked for in the folder that the variable
//! `RECON_LIB_DIR` names, or else where the repository and the archive have it. It needs nothing but `memcpy` and `memset`.
#![no_std]
#![warn(missing_docs)]
// This page speaks of these types also where they are left out.
#![cfg_attr(not(feature = "alloc"), allow(rustdoc::broken_intra_doc_links))]

#[cfg(feature = "alloc")]
extern crate alloc;
#[cfg(feature = "std")]
extern crate std;

mod convert;
#[cfg(feature = "alloc")]
mod ends;
mod ffi;
mod fold;
#[cfg(feature = "alloc")]
mod folding;
mod judge;
mod refusal;
mod trees;
mod within;

pub use convert::{convert_session, UnlabelledSession};
#[cfg(feature = "alloc")]
pub use ends::{Opener, Responder};
pub use fold::{fold_commit, fold_inquire, Committed, Inquiry};
#[cfg(feature = "alloc")]
pub use folding::Fold;
pub use judge::judge_reply;
pub use refusal::Refusal;
pub use trees::{append_to_tree, build_tree, label_of_run, tree_bytes, Label, RunLabel};
pub use within::{answer_query_within, open_session_within, take_reply_within};

/// The version of this crate.
pub const VERSION: &str = env!("CARGO_PKG_VERSION");

/// The bytes of an id.
pub const ID_BYTES: usize = 32;

/// The bytes of a fingerprint.
pub const FINGERPRINT_BYTES: usize = 16;

/// The bytes of a label in a tree: 32 of the sum and 8 of the count, least significant first.
pub const LABEL_BYTES: usize = 40;

/// The most items that a table may have.
pub const MAX_ITEMS: usize = 1_048_576;

/// The fewest parts that a cut may have.
pub const MIN_PARTS: usize = 2;

/// The most parts that a cut may have.
pub const MAX_PARTS: usize = 64;

/// The largest list limit that a cut may have. The smallest is its parts.
pub const MAX_LIMIT: usize = 4096;

/// The smallest byte limit that a call may be given.
pub const MIN_BYTE_LIMIT: usize = 4096;

/// The bytes of the longest opening: version, bound and mode, and the count and the ids of a list of [`MAX_LIMIT`]. With so large an out
/// buffer no opening is refused by 12.
pub const MAX_OPENING_BYTES: usize = 1 + 2 + 1 + 2 + ID_BYTES * MAX_LIMIT;

/// A table: a time for each item, below 2^64 - 1, and 32 bytes of id for each, in the same order; strictly rising by time, then by id.
#[derive(Clone, Copy, Debug)]
pub struct Table<'a> {
    /// A time for each item.
    pub times: &'a [u64],
    /// The ids, one behind the other.
    pub ids: &'a [u8],
}

/// How a range is cut: into `parts`, if it holds more than `limit` items; otherwise its ids are listed. Where the items do not divide evenly,
/// the last parts hold one more; a session that was opened when the first parts did is carried on.
///
/// ```
/// use recon::{Cut, MAX_LIMIT, MAX_PARTS};
///
/// assert_eq!(Cut::default(), Cut { parts: 16, limit: 64 });
/// let largest = Cut { parts: MAX_PARTS, limit: MAX_LIMIT }; // fewer rounds, longer messages
/// ```
#[derive(Clone, Copy, Debug, PartialEq, Eq, Hash)]
pub struct Cut {
    /// [`MIN_PARTS`] to [`MAX_PARTS`].
    pub parts: usize,
    /// `parts` to [`MAX_LIMIT`].
    pub limit: usize,
}

impl Default for Cut {
    /// 16 parts, and lists of at most 64 ids.
    fn default() -> Cut {
        Cut { parts: 16, limit: 64 }
    }
}

/// The opener's session. It goes with the marks and the needed list as the last call left them, and with the table of its opening.
#[derive(Clone, Copy, Debug, PartialEq, Eq)]
pub struct Session {
    /// How many marks are 1.
    pub marked: usize,
    /// How many ids the needed list has.
    pub needed: usize,
    /// Whether all is reported.
    pub done: bool,
    /// That of the whole table at the opening. Takes and commits leave it as it is.
    pub label: Label,
}

/// What an opener's call leaves.
#[derive(Clone, Copy, Debug, PartialEq, Eq)]
pub struct Sent {
    /// The length of the query at the start of the out buffer; 0 if the session is done.
    pub length: usize,
    /// The session, for the next call.
    pub session: Session,
}

/// A bound of a range: above everything, or a time and the first bytes of an id, missing bytes counting as 00.
#[derive(Clone, Copy, Debug, PartialEq, Eq)]
pub enum Bound<'a> {
    /// Above every item.
    Infinity,
    /// Above every item of an earlier time, and those of the same time with an id below the prefix.
    At {
        /// Below 2^64 - 1.
        time: u64,
        /// At most 32 bytes.
        prefix: &'a [u8],
    },
}

/// Opens a session: writes the first query at the start of `out`, and sets `marks`, one byte for each item, to 0. The buffer `needed`, of
/// whole ids, is only looked at: the list in it is empty. [`MAX_OPENING_BYTES`] are room enough in `out`.
///
/// # Errors
/// Refusals 1 to 4 and 12; then no byte has changed.
pub fn open_session(
    table: Table<'_>,
    cut: Cut,
    marks: &mut [u8],
    needed: &[u8],
    out: &mut [u8],
) -> Result<Sent, Refusal> {
    sent(ffi::open(table, cut, marks, needed, out))
}

/// Writes the responder's answer to a query at the start of `out`; its length.
///
/// A query whose first byte is 60 to 6F (hexadecimal) but not 61 is of another protocol version: nothing more of it is read, and the
/// answer is the byte 61 alone. So an answer to 62 is the byte 61 and starts no session.
///
/// ```
/// use recon::{answer_query, Cut, Table};
///
/// let (none, mut out) = (Table { times: &[], ids: &[] }, [0; 1]);
/// assert_eq!(answer_query(none, Cut::default(), &[0x62, 0x80], &mut out), Ok(1));
/// assert_eq!(out, [0x61]);
/// ```
///
/// # Errors
/// Refusals 1 to 3, 6 to 10 and 12; then no byte has changed.
pub fn answer_query(table: Table<'_>, cut: Cut, query: &[u8], out: &mut [u8]) -> Result<usize, Refusal> {
    answered(ffi::answer(table, cut, query, out))
}

/// Takes a reply: sets the mark 1 on each own item that it shows the other end to lack, joins the ids that the opener lacks to the needed
/// list at the start of `needed`, and writes the next query at the start of `out`. Where that would say nothing, the session is done, and
/// nothing is written. The call keeps less than 512 KiB on the stack.
///
/// Give `needed` room for `session.needed + reply.len() / 32` ids. Then the call is not refused by 11, and need not count the new ids to
/// know it, which may take it many times as long as all else.
///
/// # Errors
/// Refusals 1 to 4, 18 and 5 to 12, in this order; then no byte has changed, and the session is still the one handed over. By 18 a take is refused
/// whose table has another label than that of the opening.
pub fn take_reply(
    table: Table<'_>,
    cut: Cut,
    reply: &[u8],
    session: Session,
    marks: &mut [u8],
    needed: &mut [u8],
    out: &mut [u8],
) -> Result<Sent, Refusal> {
    sent(ffi::take(table, cut, reply, session, marks, needed, out))
}

/// The fingerprint of the items at or above `lower` and below `upper`; that of no items, where `lower` is not below `upper`.
///
/// ```
/// use recon::{fingerprint, sha256, Bound, Refusal, Table};
///
/// let ids = [sha256(b"a"), sha256(b"b"), sha256(b"c")].concat();
/// let table = Table { times: &[5, 7, 9], ids: &ids };
/// let at = |time| Bound::At { time, prefix: &[] };
/// assert_eq!(fingerprint(table, at(6), at(9)), fingerprint(table, at(7), at(8)));
/// assert_ne!(fingerprint(table, at(6), at(9)), fingerprint(table, at(6), Bound::Infinity));
/// assert_eq!(fingerprint(table, at(u64::MAX), Bound::Infinity), Err(Refusal::BadBound));
/// ```
///
/// # Errors
/// Refusals 1, 2 and 9.
pub fn fingerprint(table: Table<'_>, lower: Bound<'_>, upper: Bound<'_>) -> Result<[u8; FINGERPRINT_BYTES], Refusal> {
    let mut bytes = [0; FINGERPRINT_BYTES];
    match Refusal::from_number(ffi::fingerprint(table, lower, upper, &mut bytes)) {
        Some(refusal) => Err(refusal),
        None => Ok(bytes),
    }
}

/// SHA-256 of a message.
///
/// ```
/// assert_eq!(recon::sha256(b"abc")[..4], [0xba, 0x78, 0x16, 0xbf]);
/// ```
pub fn sha256(message: &[u8]) -> [u8; 32] {
    ffi::sha256(message)
}

fn answered(answer: ffi::Answer) -> Result<usize, Refusal> {
    match Refusal::from_number(answer.refusal) {
        Some(refusal) => Err(refusal),
        None => Ok(answer.length),
    }
}

fn sent(answer: ffi::SessionAnswer) -> Result<Sent, Refusal> {
    match Refusal::from_number(answer.refusal) {
        Some(refusal) => Err(refusal),
        None => Ok(Sent {
            length: answer.length,
            session: answer.session.into(),
        }),
    }
}
