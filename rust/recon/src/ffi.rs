//! The calls of include/recon.h. Each is safe for every slice: a slice's pointer is not null and points to as many elements as its length
//! says, the borrows keep written slices apart from all others, and the calls themselves have no condition.
use crate::{Bound, Cut, Label, Session, Table, UnlabelledSession};

#[repr(C)]
#[derive(Clone, Copy)]
pub struct RawLabel {
    sum: [u64; 4],
    count: u64,
}

#[repr(C)]
#[derive(Clone, Copy)]
pub struct RawSession {
    marked: usize,
    needed: usize,
    done: bool,
    label: RawLabel,
}

#[repr(C)]
#[derive(Clone, Copy)]
pub struct RawUnlabelledSession {
    marked: usize,
    needed: usize,
    done: bool,
}

#[repr(C)]
pub struct Answer {
    pub refusal: u64,
    pub length: usize,
}

#[repr(C)]
pub struct SessionAnswer {
    pub refusal: u64,
    pub length: usize,
    pub session: RawSession,
}

#[repr(C)]
pub struct TreeAnswer {
    pub refusal: u64,
    pub label: RawLabel,
    pub visited: u64,
}

#[repr(C)]
pub struct InquiryAnswer {
    pub refusal: u64,
    pub entering: usize,
    pub staying: usize,
}

#[repr(C)]
pub struct CommitAnswer {
    pub refusal: u64,
    pub items: usize,
    pub session: RawSession,
}

#[repr(C)]
pub struct Judgement {
    pub refusal: u64,
    pub approved: bool,
}

impl From<RawSession> for Session {
    fn from(s: RawSession) -> Session {
        Session {
            marked: s.marked,
            needed: s.needed,
            done: s.done,
            label: s.label.into(),
        }
    }
}

impl From<Session> for RawSession {
    fn from(s: Session) -> RawSession {
        RawSession {
            marked: s.marked,
            needed: s.needed,
            done: s.done,
            label: s.label.into(),
        }
    }
}

impl From<UnlabelledSession> for RawUnlabelledSession {
    fn from(s: UnlabelledSession) -> RawUnlabelledSession {
        RawUnlabelledSession {
            marked: s.marked,
            needed: s.needed,
            done: s.done,
        }
    }
}

impl From<RawLabel> for Label {
    fn from(l: RawLabel) -> Label {
        Label {
            sum: l.sum,
            count: l.count,
        }
    }
}

impl From<Label> for RawLabel {
    fn from(l: Label) -> RawLabel {
        RawLabel {
            sum: l.sum,
            count: l.count,
        }
    }
}

#[rustfmt::skip]
extern "C" {
    fn recon_open(
        times: *const u64, times_len: usize, ids: *const u8, ids_len: usize, parts: usize, limit: usize,
        marks: *mut u8, marks_len: usize, needed: *const u8, needed_len: usize, out: *mut u8, out_len: usize,
    ) -> SessionAnswer;
    fn recon_answer(
        times: *const u64, times_len: usize, ids: *const u8, ids_len: usize, parts: usize, limit: usize,
        query: *const u8, query_len: usize, out: *mut u8, out_len: usize,
    ) -> Answer;
    fn recon_take(
        times: *const u64, times_len: usize, ids: *const u8, ids_len: usize, parts: usize, limit: usize,
        reply: *const u8, reply_len: usize, session: RawSession, marks: *mut u8, marks_len: usize,
        needed: *mut u8, needed_len: usize, out: *mut u8, out_len: usize,
    ) -> SessionAnswer;
    fn recon_open_within(
        times: *const u64, times_len: usize, ids: *const u8, ids_len: usize, parts: usize, limit: usize, bytes: usize,
        marks: *mut u8, marks_len: usize, needed: *const u8, needed_len: usize, out: *mut u8, out_len: usize,
    ) -> SessionAnswer;
    fn recon_answer_within(
        times: *const u64, times_len: usize, ids: *const u8, ids_len: usize, parts: usize, limit: usize, bytes: usize,
        query: *const u8, query_len: usize, out: *mut u8, out_len: usize,
    ) -> Answer;
    fn recon_take_within(
        times: *const u64, times_len: usize, ids: *const u8, ids_len: usize, parts: usize, limit: usize, bytes: usize,
        reply: *const u8, reply_len: usize, session: RawSession, marks: *mut u8, marks_len: usize,
        needed: *mut u8, needed_len: usize, out: *mut u8, out_len: usize,
    ) -> SessionAnswer;
    fn recon_session_convert(
        times: *const u64, times_len: usize, ids: *const u8, ids_len: usize, session: RawUnlabelledSession,
        marks: *const u8, marks_len: usize, needed: *const u8, needed_len: usize,
    ) -> SessionAnswer;
    fn recon_fingerprint(
        times: *const u64, times_len: usize, ids: *const u8, ids_len: usize,
        lower_infinite: bool, lower_time: u64, lower_prefix: *const u8, lower_prefix_len: usize,
        upper_infinite: bool, upper_time: u64, upper_prefix: *const u8, upper_prefix_len: usize, out: *mut u8,
    ) -> u64;
    fn recon_sha256(m: *const u8, m_len: usize, out: *mut u8);
    fn recon_tree_build(
        times: *const u64, times_len: usize, ids: *const u8, ids_len: usize, tree: *mut u8, tree_len: usize,
    ) -> u64;
    fn recon_tree_append(
        times: *const u64, times_len: usize, ids: *const u8, ids_len: usize,
        time: u64, id: *const u8, id_len: usize, tree: *mut u8, tree_len: usize,
    ) -> u64;
    fn recon_tree_label(tree: *const u8, tree_len: usize, from: usize, to: usize) -> TreeAnswer;
    fn recon_fold_inquire(
        times: *const u64, times_len: usize, ids: *const u8, ids_len: usize, items: usize, session: RawSession,
        needed: *const u8, needed_len: usize, batch_times: *const u64, batch_times_len: usize,
        batch_ids: *const u8, batch_ids_len: usize,
    ) -> InquiryAnswer;
    fn recon_fold_commit(
        times: *mut u64, times_len: usize, ids: *mut u8, ids_len: usize, items: usize, session: RawSession,
        needed: *mut u8, needed_len: usize, batch_times: *const u64, batch_times_len: usize,
        batch_ids: *const u8, batch_ids_len: usize,
    ) -> CommitAnswer;
    fn recon_judge(
        times: *const u64, times_len: usize, ids: *const u8, ids_len: usize, query: *const u8, query_len: usize,
        reply: *const u8, reply_len: usize,
    ) -> Judgement;
}

#[rustfmt::skip]
pub fn open(table: Table<'_>, cut: Cut, marks: &mut [u8], needed: &[u8], out: &mut [u8]) -> SessionAnswer {
    // SAFETY: see the head of this file.
    unsafe {
        recon_open(
            table.times.as_ptr(), table.times.len(), table.ids.as_ptr(), table.ids.len(), cut.parts, cut.limit,
            marks.as_mut_ptr(), marks.len(), needed.as_ptr(), needed.len(), out.as_mut_ptr(), out.len(),
        )
    }
}

#[rustfmt::skip]
pub fn answer(table: Table<'_>, cut: Cut, query: &[u8], out: &mut [u8]) -> Answer {
    // SAFETY: see the head of this file.
    unsafe {
        recon_answer(
            table.times.as_ptr(), table.times.len(), table.ids.as_ptr(), table.ids.len(), cut.parts, cut.limit,
            query.as_ptr(), query.len(), out.as_mut_ptr(), out.len(),
        )
    }
}

#[rustfmt::skip]
pub fn take(
    table: Table<'_>,
    cut: Cut,
    reply: &[u8],
    session: Session,
    marks: &mut [u8],
    needed: &mut [u8],
    out: &mut [u8],
) -> SessionAnswer {
    // SAFETY: see the head of this file.
    unsafe {
        recon_take(
            table.times.as_ptr(), table.times.len(), table.ids.as_ptr(), table.ids.len(), cut.parts, cut.limit,
            reply.as_ptr(), reply.len(), session.into(), marks.as_mut_ptr(), marks.len(),
            needed.as_mut_ptr(), needed.len(), out.as_mut_ptr(), out.len(),
        )
    }
}

#[rustfmt::skip]
pub fn open_within(
    table: Table<'_>,
    cut: Cut,
    bytes: usize,
    marks: &mut [u8],
    needed: &[u8],
    out: &mut [u8],
) -> SessionAnswer {
    // SAFETY: see the head of this file.
    unsafe {
        recon_open_within(
            table.times.as_ptr(), table.times.len(), table.ids.as_ptr(), table.ids.len(), cut.parts, cut.limit, bytes,
            marks.as_mut_ptr(), marks.len(), needed.as_ptr(), needed.len(), out.as_mut_ptr(), out.len(),
        )
    }
}

#[rustfmt::skip]
pub fn answer_within(table: Table<'_>, cut: Cut, bytes: usize, query: &[u8], out: &mut [u8]) -> Answer {
    // SAFETY: see the head of this file.
    unsafe {
        recon_answer_within(
            table.times.as_ptr(), table.times.len(), table.ids.as_ptr(), table.ids.len(), cut.parts, cut.limit, bytes,
            query.as_ptr(), query.len(), out.as_mut_ptr(), out.len(),
        )
    }
}

#[rustfmt::skip]
#[allow(clippy::too_many_arguments)] // As the C call has them.
pub fn take_within(
    table: Table<'_>,
    cut: Cut,
    bytes: usize,
    reply: &[u8],
    session: Session,
    marks: &mut [u8],
    needed: &mut [u8],
    out: &mut [u8],
) -> SessionAnswer {
    // SAFETY: see the head of this file.
    unsafe {
        recon_take_within(
            table.times.as_ptr(), table.times.len(), table.ids.as_ptr(), table.ids.len(), cut.parts, cut.limit, bytes,
            reply.as_ptr(), reply.len(), session.into(), marks.as_mut_ptr(), marks.len(),
            needed.as_mut_ptr(), needed.len(), out.as_mut_ptr(), out.len(),
        )
    }
}

#[rustfmt::skip]
pub fn session_convert(table: Table<'_>, session: UnlabelledSession, marks: &[u8], needed: &[u8]) -> SessionAnswer {
    // SAFETY: see the head of this file.
    unsafe {
        recon_session_convert(
            table.times.as_ptr(), table.times.len(), table.ids.as_ptr(), table.ids.len(), session.into(),
            marks.as_ptr(), marks.len(), needed.as_ptr(), needed.len(),
        )
    }
}

#[rustfmt::skip]
pub fn fingerprint(table: Table<'_>, lower: Bound<'_>, upper: Bound<'_>, out: &mut [u8; 16]) -> u64 {
    let (lower_infinite, lower_time, lower_prefix) = parts(lower);
    let (upper_infinite, upper_time, upper_prefix) = parts(upper);
    // SAFETY: see the head of this file.
    unsafe {
        recon_fingerprint(
            table.times.as_ptr(), table.times.len(), table.ids.as_ptr(), table.ids.len(),
            lower_infinite, lower_time, lower_prefix.as_ptr(), lower_prefix.len(),
            upper_infinite, upper_time, upper_prefix.as_ptr(), upper_prefix.len(), out.as_mut_ptr(),
        )
    }
}

fn parts(bound: Bound<'_>) -> (bool, u64, &[u8]) {
    match bound {
        Bound::Infinity => (true, 0, &[]),
        Bound::At { time, prefix } => (false, time, prefix),
    }
}

pub fn sha256(message: &[u8]) -> [u8; 32] {
    let mut digest = [0; 32];
    // SAFETY: see the head of this file.
    unsafe { recon_sha256(message.as_ptr(), message.len(), digest.as_mut_ptr()) };
    digest
}

#[rustfmt::skip]
pub fn tree_build(table: Table<'_>, tree: &mut [u8]) -> u64 {
    // SAFETY: see the head of this file.
    unsafe {
        recon_tree_build(
            table.times.as_ptr(), table.times.len(), table.ids.as_ptr(), table.ids.len(), tree.as_mut_ptr(), tree.len(),
        )
    }
}

#[rustfmt::skip]
pub fn tree_append(table: Table<'_>, time: u64, id: &[u8], tree: &mut [u8]) -> u64 {
    // SAFETY: see the head of this file.
    unsafe {
        recon_tree_append(
            table.times.as_ptr(), table.times.len(), table.ids.as_ptr(), table.ids.len(),
            time, id.as_ptr(), id.len(), tree.as_mut_ptr(), tree.len(),
        )
    }
}

pub fn tree_label(tree: &[u8], from: usize, to: usize) -> TreeAnswer {
    // SAFETY: see the head of this file.
    unsafe { recon_tree_label(tree.as_ptr(), tree.len(), from, to) }
}

#[rustfmt::skip]
pub fn fold_inquire(
    times: &[u64],
    ids: &[u8],
    items: usize,
    session: Session,
    needed: &[u8],
    batch: Table<'_>,
) -> InquiryAnswer {
    // SAFETY: see the head of this file.
    unsafe {
        recon_fold_inquire(
            times.as_ptr(), times.len(), ids.as_ptr(), ids.len(), items, session.into(), needed.as_ptr(), needed.len(),
            batch.times.as_ptr(), batch.times.len(), batch.ids.as_ptr(), batch.ids.len(),
        )
    }
}

#[rustfmt::skip]
pub fn fold_commit(
    times: &mut [u64],
    ids: &mut [u8],
    items: usize,
    session: Session,
    needed: &mut [u8],
    batch: Table<'_>,
) -> CommitAnswer {
    // SAFETY: see the head of this file.
    unsafe {
        recon_fold_commit(
            times.as_mut_ptr(), times.len(), ids.as_mut_ptr(), ids.len(), items, session.into(),
            needed.as_mut_ptr(), needed.len(),
            batch.times.as_ptr(), batch.times.len(), batch.ids.as_ptr(), batch.ids.len(),
        )
    }
}

#[rustfmt::skip]
pub fn judge(table: Table<'_>, query: &[u8], reply: &[u8]) -> Judgement {
    // SAFETY: see the head of this file.
    unsafe {
        recon_judge(
            table.times.as_ptr(), table.times.len(), table.ids.as_ptr(), table.ids.len(), query.as_ptr(), query.len(),
            reply.as_ptr(), reply.len(),
        )
    }
}
