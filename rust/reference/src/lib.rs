//! Range-based set reconciliation with the bytes of the Negentropy Protocol V1.
//!
//! A plain reference, written from the specification and without dependencies. The files follow its headings: `bound`
//! and `table` (Tables and bounds), `label` and `sha256` (Fingerprints), `cursor` and `message` (Messages), `cutting`
//! (Cutting), `ends` (The two ends, A session knows its table), `tree` (Labels kept in a tree), `limit` (Byte limits),
//! `fold` (Folding in), `refusal` (In checking order).
//!
//! Ranges are cut by the rule of today, where the last parts are larger. `open_by`, `answer_by` and `take_by` cut by the
//! former rule, too, as an end does that began its session under it.
//!
//! Quotation marks in comments hold words of the specification. Every refusal is its number there, in `Err`.
//! A refused call has changed no lent byte.

#![forbid(unsafe_code)]
#![warn(missing_docs)]

mod bound;
mod cursor;
mod cutting;
mod ends;
mod fold;
mod label;
mod limit;
mod message;
mod refusal;
mod sha256;
mod table;
mod tree;

pub use bound::Bound;
pub use cutting::Odd;
pub use ends::{answer, answer_within, convert, fingerprint, open, open_within, take, take_within};
pub use ends::{answer_by, open_by, take_by};
pub use ends::{GivenBound, Sent, Session, UnlabelledSession};
pub use fold::{fold_commit, fold_inquire, Committed, Inquiry};
pub use label::Label;
pub use message::{read, spell, tidy, write, Payload, Range};
pub use sha256::sha256;
pub use table::MAX_ITEMS;
pub use tree::{tree_append, tree_build, tree_label, RunLabel};
