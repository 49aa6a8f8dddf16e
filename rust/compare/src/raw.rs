//! The C calls where they can say more than the safe crate: what stands beside a refusal, and a prefix at infinity.
//! Declared as in include/recon.h.
use crate::calls::{Call, FoldAnswer, FoldCall, FoldLent, GivenBound, Lent};
use crate::label::without_label;
use recon::{Committed, Inquiry, Label, RunLabel, Session, Table};

#[repr(C)]
#[derive(Clone, Copy)]
struct CLabel {
    sum: [u64; 4],
    count: u64,
}

#[repr(C)]
#[derive(Clone, Copy)]
struct CSession {
    marked: usize,
    needed: usize,
    done: bool,
    label: CLabel,
}

#[repr(C)]
struct CUnlabelledSession {
    marked: usize,
    needed: usize,
    done: bool,
}

#[repr(C)]
struct CAnswer {
    refusal: u64,
    length: usize,
}

#[repr(C)]
struct CSessionAnswer {
    refusal: u64,
    length: usize,
    session: CSession,
}

#[repr(C)]
struct CTreeAnswer {
    refusal: u64,
    label: CLabel,
    visited: u64,
}

#[repr(C)]
struct CInquiryAnswer {
    refusal: u64,
    entering: usize,
    staying: usize,
}

#[repr(C)]
struct CCommitAnswer {
    refusal: u64,
    items: usize,
    session: CSession,
}

impl From<Session> for CSession {
    fn from(session: Session) -> CSession {
        let Label { sum, count } = session.label;
        CSession {
            marked: session.marked,
            needed: session.needed,
            done: session.done,
            label: CLabel { sum, count },
        }
    }
}

impl From<CSession> for Session {
    fn from(session: CSession) -> Session {
        Session {
            marked: session.marked,
            needed: session.needed,
            done: session.done,
            label: session.label.into(),
        }
    }
}

impl From<CLabel> for Label {
    fn from(label: CLabel) -> Label {
        let CLabel { sum, count } = label;
        Label { sum, count }
    }
}

#[rustfmt::skip]
extern "C" {
    fn recon_open(
        times: *const u64, times_len: usize, ids: *const u8, ids_len: usize, parts: usize, limit: usize,
        marks: *mut u8, marks_len: usize, needed: *const u8, needed_len: usize, out: *mut u8, out_len: usize,
    ) -> CSessionAnswer;
    fn recon_answer(
        times: *const u64, times_len: usize, ids: *const u8, ids_len: usize, parts: usize, limit: usize,
        query: *const u8, query_len: usize, out: *mut u8, out_len: usize,
    ) -> CAnswer;
    fn recon_take(
        times: *const u64, times_len: usize, ids: *const u8, ids_len: usize, parts: usize, limit: usize,
        reply: *const u8, reply_len: usize, session: CSession, marks: *mut u8, marks_len: usize,
        needed: *mut u8, needed_len: usize, out: *mut u8, out_len: usize,
    ) -> CSessionAnswer;
    fn recon_open_within(
        times: *const u64, times_len: usize, ids: *const u8, ids_len: usize, parts: usize, limit: usize, bytes: usize,
        marks: *mut u8, marks_len: usize, needed: *const u8, needed_len: usize, out: *mut u8, out_len: usize,
    ) -> CSessionAnswer;
    fn recon_answer_within(
        times: *const u64, times_len: usize, ids: *const u8, ids_len: usize, parts: usize, limit: usize, bytes: usize,
        query: *const u8, query_len: usize, out: *mut u8, out_len: usize,
    ) -> CAnswer;
    fn recon_take_within(
        times: *const u64, times_len: usize, ids: *const u8, ids_len: usize, parts: usize, limit: usize, bytes: usize,
        reply: *const u8, reply_len: usize, session: CSession, marks: *mut u8, marks_len: usize,
        needed: *mut u8, needed_len: usize, out: *mut u8, out_len: usize,
    ) -> CSessionAnswer;
    fn recon_session_convert(
        times: *const u64, times_len: usize, ids: *const u8, ids_len: usize, session: CUnlabelledSession,
        marks: *const u8, marks_len: usize, needed: *const u8, needed_len: usize,
    ) -> CSessionAnswer;
    fn recon_fingerprint(
        times: *const u64, times_len: usize, ids: *const u8, ids_len: usize,
        lower_infinite: bool, lower_time: u64, lower_prefix: *const u8, lower_prefix_len: usize,
        upper_infinite: bool, upper_time: u64, upper_prefix: *const u8, upper_prefix_len: usize, out: *mut u8,
    ) -> u64;
    fn recon_tree_label(tree: *const u8, tree_len: usize, from: usize, to: usize) -> CTreeAnswer;
    fn recon_fold_inquire(
        times: *const u64, times_len: usize, ids: *const u8, ids_len: usize, items: usize, session: CSession,
        needed: *const u8, needed_len: usize, batch_times: *const u64, batch_times_len: usize,
        batch_ids: *const u8, batch_ids_len: usize,
    ) -> CInquiryAnswer;
    fn recon_fold_commit(
        times: *mut u64, times_len: usize, ids: *mut u8, ids_len: usize, items: usize, session: CSession,
        needed: *mut u8, needed_len: usize, batch_times: *const u64, batch_times_len: usize,
        batch_ids: *const u8, batch_ids_len: usize,
    ) -> CCommitAnswer;
}

/// What a C call answers with.
pub struct Told {
    pub refusal: u64,
    pub length: usize,
    pub session: Session,
}

impl From<CSessionAnswer> for Told {
    fn from(answer: CSessionAnswer) -> Told {
        Told {
            refusal: answer.refusal,
            length: answer.length,
            session: answer.session.into(),
        }
    }
}

impl Told {
    /// What an answer is told with: the session that was lent.
    fn of(answer: CAnswer, session: Session) -> Told {
        let CAnswer { refusal, length } = answer;
        Told {
            refusal,
            length,
            session,
        }
    }
}

/// Makes a C call. An answer has no session: the one that was lent is told.
pub fn run(call: Call, lent: &mut Lent<'_>) -> Told {
    let session = lent.session;
    match (call, lent.bytes) {
        (Call::Open, None) => open(lent).into(),
        (Call::Open, Some(bytes)) => open_within(lent, bytes).into(),
        (Call::Answer, None) => Told::of(answer(lent), session),
        (Call::Answer, Some(bytes)) => Told::of(answer_within(lent, bytes), session),
        (Call::Take, None) => take(lent, session.into()).into(),
        (Call::Take, Some(bytes)) => take_within(lent, bytes, session.into()).into(),
        (Call::Convert, _) => convert(lent).into(),
    }
}

// SAFETY of the calls below: every pointer comes from a slice with the length beside it, so it is not null and points
// to as many elements; the written slices are borrowed mutably, so they overlap no other. The calls ask for no more.

#[rustfmt::skip]
fn open(lent: &mut Lent<'_>) -> CSessionAnswer {
    let (Table { times, ids }, cut) = (lent.table, lent.cut);
    // SAFETY: see above.
    unsafe {
        recon_open(
            times.as_ptr(), times.len(), ids.as_ptr(), ids.len(), cut.parts, cut.limit,
            lent.marks.as_mut_ptr(), lent.marks.len(), lent.needed.as_ptr(), lent.needed.len(),
            lent.out.as_mut_ptr(), lent.out.len(),
        )
    }
}

#[rustfmt::skip]
fn answer(lent: &mut Lent<'_>) -> CAnswer {
    let (Table { times, ids }, cut) = (lent.table, lent.cut);
    // SAFETY: see above.
    unsafe {
        recon_answer(
            times.as_ptr(), times.len(), ids.as_ptr(), ids.len(), cut.parts, cut.limit,
            lent.message.as_ptr(), lent.message.len(), lent.out.as_mut_ptr(), lent.out.len(),
        )
    }
}

#[rustfmt::skip]
fn take(lent: &mut Lent<'_>, session: CSession) -> CSessionAnswer {
    let (Table { times, ids }, cut) = (lent.table, lent.cut);
    // SAFETY: see above.
    unsafe {
        recon_take(
            times.as_ptr(), times.len(), ids.as_ptr(), ids.len(), cut.parts, cut.limit,
            lent.message.as_ptr(), lent.message.len(), session, lent.marks.as_mut_ptr(), lent.marks.len(),
            lent.needed.as_mut_ptr(), lent.needed.len(), lent.out.as_mut_ptr(), lent.out.len(),
        )
    }
}

#[rustfmt::skip]
fn open_within(lent: &mut Lent<'_>, bytes: usize) -> CSessionAnswer {
    let (Table { times, ids }, cut) = (lent.table, lent.cut);
    // SAFETY: see above.
    unsafe {
        recon_open_within(
            times.as_ptr(), times.len(), ids.as_ptr(), ids.len(), cut.parts, cut.limit, bytes,
            lent.marks.as_mut_ptr(), lent.marks.len(), lent.needed.as_ptr(), lent.needed.len(),
            lent.out.as_mut_ptr(), lent.out.len(),
        )
    }
}

#[rustfmt::skip]
fn answer_within(lent: &mut Lent<'_>, bytes: usize) -> CAnswer {
    let (Table { times, ids }, cut) = (lent.table, lent.cut);
    // SAFETY: see above.
    unsafe {
        recon_answer_within(
            times.as_ptr(), times.len(), ids.as_ptr(), ids.len(), cut.parts, cut.limit, bytes,
            lent.message.as_ptr(), lent.message.len(), lent.out.as_mut_ptr(), lent.out.len(),
        )
    }
}

#[rustfmt::skip]
fn take_within(lent: &mut Lent<'_>, bytes: usize, session: CSession) -> CSessionAnswer {
    let (Table { times, ids }, cut) = (lent.table, lent.cut);
    // SAFETY: see above.
    unsafe {
        recon_take_within(
            times.as_ptr(), times.len(), ids.as_ptr(), ids.len(), cut.parts, cut.limit, bytes,
            lent.message.as_ptr(), lent.message.len(), session, lent.marks.as_mut_ptr(), lent.marks.len(),
            lent.needed.as_mut_ptr(), lent.needed.len(), lent.out.as_mut_ptr(), lent.out.len(),
        )
    }
}

#[rustfmt::skip]
fn convert(lent: &Lent<'_>) -> CSessionAnswer {
    let (Table { times, ids }, kept) = (lent.table, without_label(lent.session));
    let session = CUnlabelledSession { marked: kept.marked, needed: kept.needed, done: kept.done };
    // SAFETY: see above.
    unsafe {
        recon_session_convert(
            times.as_ptr(), times.len(), ids.as_ptr(), ids.len(), session,
            lent.marks.as_ptr(), lent.marks.len(), lent.needed.as_ptr(), lent.needed.len(),
        )
    }
}

/// The C fingerprint call: its refusal, or 0 and the fingerprint in `out`.
#[rustfmt::skip]
pub fn fingerprint(table: Table<'_>, lower: GivenBound<'_>, upper: GivenBound<'_>, out: &mut [u8; 16]) -> u64 {
    let Table { times, ids } = table;
    // SAFETY: see above; `out` has the 16 bytes that the call may write.
    unsafe {
        recon_fingerprint(
            times.as_ptr(), times.len(), ids.as_ptr(), ids.len(),
            lower.infinite, lower.time, lower.prefix.as_ptr(), lower.prefix.len(),
            upper.infinite, upper.time, upper.prefix.as_ptr(), upper.prefix.len(), out.as_mut_ptr(),
        )
    }
}

/// The C call for the label of a run: its refusal or 0, and what stands beside it.
pub fn tree_label(tree: &[u8], from: usize, to: usize) -> (u64, RunLabel) {
    // SAFETY: see above.
    let answer = unsafe { recon_tree_label(tree.as_ptr(), tree.len(), from, to) };
    let (label, visited) = (answer.label.into(), answer.visited);
    (answer.refusal, RunLabel { label, visited })
}

/// The C calls of folding in: the refusal or 0, and what stands beside it.
pub fn fold(call: FoldCall, lent: &mut FoldLent<'_>) -> (u64, FoldAnswer) {
    match call {
        FoldCall::Inquire => inquire(lent),
        FoldCall::Commit => commit(lent),
    }
}

#[rustfmt::skip]
fn inquire(lent: &FoldLent<'_>) -> (u64, FoldAnswer) {
    let Table { times, ids } = lent.batch;
    // SAFETY: see above.
    let answer = unsafe {
        recon_fold_inquire(
            lent.times.as_ptr(), lent.times.len(), lent.ids.as_ptr(), lent.ids.len(), lent.items, lent.session.into(),
            lent.needed.as_ptr(), lent.needed.len(), times.as_ptr(), times.len(), ids.as_ptr(), ids.len(),
        )
    };
    let CInquiryAnswer { refusal, entering, staying } = answer;
    (refusal, FoldAnswer::Inquired(Inquiry { entering, staying }))
}

#[rustfmt::skip]
fn commit(lent: &mut FoldLent<'_>) -> (u64, FoldAnswer) {
    let Table { times, ids } = lent.batch;
    // SAFETY: see above.
    let answer = unsafe {
        recon_fold_commit(
            lent.times.as_mut_ptr(), lent.times.len(), lent.ids.as_mut_ptr(), lent.ids.len(), lent.items,
            lent.session.into(), lent.needed.as_mut_ptr(), lent.needed.len(),
            times.as_ptr(), times.len(), ids.as_ptr(), ids.len(),
        )
    };
    let (items, session) = (answer.items, answer.session.into());
    (answer.refusal, FoldAnswer::Committed(Committed { items, session }))
}
