//! The two implementations behind one interface: the library, and the independent reference.
use crate::label::{without_label, NO_SESSION};
use crate::raw;
use recon::{Bound, Committed, Cut, Inquiry, Label, Refusal, RunLabel, Sent, Session, Table};
use reference::Odd;

#[derive(Clone, Copy, Debug, PartialEq, Eq)]
pub enum Call {
    Open,
    Answer,
    Take,
    /// The conversion of a session: of all that is lent, of the table, the session without its label, the marks and the
    /// needed list.
    Convert,
}

impl Call {
    pub const ALL: [Call; 4] = [Call::Open, Call::Answer, Call::Take, Call::Convert];

    /// Those that write a message, which can be given a byte limit.
    pub const WRITING: [Call; 3] = [Call::Open, Call::Answer, Call::Take];

    pub fn name(self) -> &'static str {
        match self {
            Call::Open => "open",
            Call::Answer => "answer",
            Call::Take => "take",
            Call::Convert => "convert",
        }
    }

    /// The name of the call with a byte limit, which a conversion has not.
    pub fn limited_name(self) -> &'static str {
        match self {
            Call::Open => "open within",
            Call::Answer => "answer within",
            Call::Take => "take within",
            Call::Convert => "convert",
        }
    }

    /// Whether the specification lets the call refuse by this number, 14 only with a byte limit.
    pub fn can_refuse_by(self, number: u8) -> bool {
        match self {
            Call::Open => matches!(number, 1..=4 | 12 | 14),
            Call::Answer => matches!(number, 1..=3 | 6..=10 | 12 | 14),
            Call::Take => matches!(number, 1..=12 | 14 | 18),
            Call::Convert => matches!(number, 1 | 2 | 4),
        }
    }

    /// The session beside a refusal, of a call that was handed this one.
    pub fn beside_refusal(self, session: Session) -> Session {
        match self {
            Call::Open | Call::Convert => NO_SESSION,
            Call::Answer | Call::Take => session,
        }
    }
}

/// A call on a tree of labels.
#[derive(Clone, Copy, Debug, PartialEq, Eq)]
pub enum TreeCall {
    Build,
    Append,
    Run,
}

impl TreeCall {
    pub const ALL: [TreeCall; 3] = [TreeCall::Build, TreeCall::Append, TreeCall::Run];

    pub fn name(self) -> &'static str {
        match self {
            TreeCall::Build => "tree build",
            TreeCall::Append => "tree append",
            TreeCall::Run => "tree run",
        }
    }

    /// Whether the specification lets the call refuse by this number.
    pub fn can_refuse_by(self, number: u8) -> bool {
        match self {
            TreeCall::Build | TreeCall::Append => matches!(number, 1 | 2 | 13),
            TreeCall::Run => number == 13,
        }
    }
}

/// A call of folding in.
#[derive(Clone, Copy, Debug, PartialEq, Eq)]
pub enum FoldCall {
    Inquire,
    Commit,
}

impl FoldCall {
    pub const ALL: [FoldCall; 2] = [FoldCall::Inquire, FoldCall::Commit];

    pub fn name(self) -> &'static str {
        match self {
            FoldCall::Inquire => "fold inquire",
            FoldCall::Commit => "fold commit",
        }
    }

    /// Whether the specification lets the calls refuse by this number.
    pub fn can_refuse_by(number: u8) -> bool {
        matches!(number, 1 | 2 | 4 | 15..=17)
    }
}

/// All that a call is lent. An opening has no message and no session, an answer no marks and no needed buffer, and a
/// conversion no cut, no message and no out buffer, and no leave to write, which is checked.
pub struct Lent<'a> {
    pub table: Table<'a>,
    pub cut: Cut,
    /// Where the odd items of a cut go; the library has the rule of today alone.
    pub odd: Odd,
    /// The byte limit; none for the calls without one.
    pub bytes: Option<usize>,
    pub message: &'a [u8],
    pub session: Session,
    pub marks: &'a mut [u8],
    pub needed: &'a mut [u8],
    pub out: &'a mut [u8],
}

/// A refusal: its number, and the session that is handed back with it.
#[derive(Clone, Copy, Debug, PartialEq, Eq)]
pub struct Refused {
    pub number: u8,
    pub session: Session,
}

/// What a call answers. For an answer the session is the one that it was handed.
pub type Outcome = Result<Sent, Refused>;

/// A bound as it is handed to the fingerprint call; it may be unlawful in every way.
#[derive(Clone, Copy, Debug)]
pub struct GivenBound<'a> {
    pub infinite: bool,
    pub time: u64,
    pub prefix: &'a [u8],
}

impl GivenBound<'_> {
    /// The bounds of all items: time 0 without prefix, and infinity.
    pub const WHOLE: [GivenBound<'static>; 2] = [
        GivenBound {
            infinite: false,
            time: 0,
            prefix: &[],
        },
        GivenBound {
            infinite: true,
            time: 0,
            prefix: &[],
        },
    ];
}

/// An item as it is handed to an append; its id may have any number of bytes.
#[derive(Clone, Copy, Debug)]
pub struct GivenItem<'a> {
    pub time: u64,
    pub id: &'a [u8],
}

/// The label of a run, or the number of a refusal.
pub type RunOutcome = Result<RunLabel, u8>;

/// All that an inquiry or a commit is lent. An inquiry has no leave to write, which is checked.
pub struct FoldLent<'a> {
    pub times: &'a mut [u64],
    pub ids: &'a mut [u8],
    pub items: usize,
    pub session: Session,
    pub needed: &'a mut [u8],
    pub batch: Table<'a>,
}

impl FoldLent<'_> {
    /// What stands beside a refusal: nothing would enter or stay, or count and session as they were handed over.
    pub fn beside_refusal(&self, call: FoldCall) -> FoldAnswer {
        let (entering, staying, items, session) = (0, 0, self.items, self.session);
        match call {
            FoldCall::Inquire => FoldAnswer::Inquired(Inquiry { entering, staying }),
            FoldCall::Commit => FoldAnswer::Committed(Committed { items, session }),
        }
    }
}

/// What an inquiry or a commit answers beside the number of a refusal.
#[derive(Clone, Copy, Debug, PartialEq, Eq)]
pub enum FoldAnswer {
    Inquired(Inquiry),
    Committed(Committed),
}

/// A refusal of an inquiry or a commit.
#[derive(Clone, Copy, Debug, PartialEq, Eq)]
pub struct FoldRefused {
    pub number: u8,
    pub beside: FoldAnswer,
}

pub type FoldOutcome = Result<FoldAnswer, FoldRefused>;

pub trait Calls {
    fn name(&self) -> &'static str;
    fn run(&self, call: Call, lent: &mut Lent<'_>) -> Outcome;
    fn fingerprint(&self, table: Table<'_>, lower: GivenBound<'_>, upper: GivenBound<'_>) -> Result<[u8; 16], u8>;
    fn sha256(&self, message: &[u8]) -> [u8; 32];
    fn tree_build(&self, table: Table<'_>, tree: &mut [u8]) -> Result<(), u8>;
    /// The table is the one before the item.
    fn tree_append(&self, table: Table<'_>, item: GivenItem<'_>, tree: &mut [u8]) -> Result<(), u8>;
    fn tree_label(&self, tree: &[u8], from: usize, to: usize) -> RunOutcome;
    fn fold(&self, call: FoldCall, lent: &mut FoldLent<'_>) -> FoldOutcome;
}

/// The proved library, called by the safe crate.
pub struct Library;

impl Calls for Library {
    fn name(&self) -> &'static str {
        "library"
    }

    fn run(&self, call: Call, lent: &mut Lent<'_>) -> Outcome {
        assert_eq!(lent.odd, Odd::ToLast, "the library has no former rule");
        match safe_call(call, lent) {
            Ok(sent) if call != Call::Convert => Ok(sent),
            result => by_c_too(call, lent, result),
        }
    }

    fn fingerprint(&self, table: Table<'_>, lower: GivenBound<'_>, upper: GivenBound<'_>) -> Result<[u8; 16], u8> {
        const BEFORE: [u8; 16] = *b"bytes that stay.";
        let mut out = BEFORE;
        let number = raw::fingerprint(table, lower, upper, &mut out);
        let result = if number == 0 { Ok(out) } else { Err(small(number)) };
        assert!(
            number == 0 || out == BEFORE,
            "a refused fingerprint call leaves its out bytes"
        );
        // A prefix at infinity cannot be said in the safe crate.
        if let (Some(lower), Some(upper)) = (safe_bound(lower), safe_bound(upper)) {
            let safe = recon::fingerprint(table, lower, upper).map_err(|refusal| small(refusal.number()));
            assert_eq!(safe, result, "the safe call answers as the C call does");
        }
        result
    }

    fn sha256(&self, message: &[u8]) -> [u8; 32] {
        recon::sha256(message)
    }

    fn tree_build(&self, table: Table<'_>, tree: &mut [u8]) -> Result<(), u8> {
        recon::build_tree(table, tree).map_err(|refusal| small(refusal.number()))
    }

    fn tree_append(&self, table: Table<'_>, item: GivenItem<'_>, tree: &mut [u8]) -> Result<(), u8> {
        recon::append_to_tree(table, item.time, item.id, tree).map_err(|refusal| small(refusal.number()))
    }

    fn tree_label(&self, tree: &[u8], from: usize, to: usize) -> RunOutcome {
        let result = recon::label_of_run(tree, from..to).map_err(|refusal| small(refusal.number()));
        // The safe crate leaves out what the C call says beside a refusal, which is nothing.
        let told = (result.err().map_or(0, u64::from), result.unwrap_or_default());
        assert_eq!(
            raw::tree_label(tree, from, to),
            told,
            "the C call answers as the safe call does"
        );
        result
    }

    fn fold(&self, call: FoldCall, lent: &mut FoldLent<'_>) -> FoldOutcome {
        safe_fold(call, lent).map_err(|refusal| {
            // As with the calls of a session.
            let (number, beside) = raw::fold(call, lent);
            assert_eq!(number, refusal.number(), "the C call refuses as the safe call does");
            let number = small(number);
            FoldRefused { number, beside }
        })
    }
}

/// Makes the C call of a call that has changed nothing, which must answer the same: the safe crate leaves out what stands
/// beside a refusal, and the length of a conversion.
fn by_c_too(call: Call, lent: &mut Lent<'_>, result: Result<Sent, Refusal>) -> Outcome {
    let again = raw::run(call, lent);
    let number = result.err().map_or(0, Refusal::number);
    assert_eq!(again.refusal, number, "the C call refuses as the safe call does");
    assert_eq!(again.length, 0, "the length beside a refusal, or of a conversion");
    let session = again.session;
    match result {
        Ok(sent) => {
            assert_eq!(session, sent.session, "the C call answers as the safe call does");
            Ok(sent)
        }
        Err(_) => Err(Refused {
            number: small(number),
            session,
        }),
    }
}

fn safe_fold(call: FoldCall, lent: &mut FoldLent<'_>) -> Result<FoldAnswer, Refusal> {
    let FoldLent {
        items, session, batch, ..
    } = *lent;
    let (times, ids, needed) = (&mut *lent.times, &mut *lent.ids, &mut *lent.needed);
    match call {
        FoldCall::Inquire => recon::fold_inquire(times, ids, items, session, needed, batch).map(FoldAnswer::Inquired),
        FoldCall::Commit => recon::fold_commit(times, ids, items, session, needed, batch).map(FoldAnswer::Committed),
    }
}

fn safe_call(call: Call, lent: &mut Lent<'_>) -> Result<Sent, Refusal> {
    let Lent {
        table,
        cut,
        bytes,
        message,
        session,
        ..
    } = *lent;
    let (marks, needed, out) = (&mut *lent.marks, &mut *lent.needed, &mut *lent.out);
    let answered = |length| Sent { length, session };
    match (call, bytes) {
        (Call::Open, None) => recon::open_session(table, cut, marks, needed, out),
        (Call::Open, Some(bytes)) => recon::open_session_within(table, cut, bytes, marks, needed, out),
        (Call::Answer, None) => recon::answer_query(table, cut, message, out).map(answered),
        (Call::Answer, Some(bytes)) => recon::answer_query_within(table, cut, bytes, message, out).map(answered),
        (Call::Take, None) => recon::take_reply(table, cut, message, session, marks, needed, out),
        (Call::Take, Some(bytes)) => recon::take_reply_within(table, cut, bytes, message, session, marks, needed, out),
        (Call::Convert, _) => {
            let converted = recon::convert_session(table, without_label(session), marks, needed);
            converted.map(|session| Sent { length: 0, session })
        }
    }
}

/// A refusal's number as the reference has it. The specification has none that is larger.
fn small(number: u64) -> u8 {
    u8::try_from(number).expect("the number of a refusal")
}

fn safe_bound(bound: GivenBound<'_>) -> Option<Bound<'_>> {
    match (bound.infinite, bound.prefix) {
        (true, []) => Some(Bound::Infinity),
        (true, _) => None,
        (false, prefix) => Some(Bound::At {
            time: bound.time,
            prefix,
        }),
    }
}

/// The independent implementation.
pub struct Reference;

impl Calls for Reference {
    fn name(&self) -> &'static str {
        "reference"
    }

    fn run(&self, call: Call, lent: &mut Lent<'_>) -> Outcome {
        let Lent {
            table: Table { times, ids },
            cut: Cut { parts: b, limit: t },
            odd,
            bytes,
            message,
            session,
            ..
        } = *lent;
        let given = reference_session(session);
        let (marks, needed, out) = (&mut *lent.marks, &mut *lent.needed, &mut *lent.out);
        let result = match call {
            Call::Open => reference::open_by(odd, times, ids, b, t, bytes, marks, needed, out),
            Call::Answer => reference::answer_by(odd, times, ids, b, t, bytes, message, out)
                .map(|length| reference::Sent { length, session: given }),
            Call::Take => reference::take_by(odd, times, ids, b, t, bytes, message, given, marks, needed, out),
            Call::Convert => reference::convert(times, ids, given.unlabelled(), marks, needed)
                .map(|session| reference::Sent { length: 0, session }),
        };
        let session = call.beside_refusal(session);
        result.map(sent).map_err(|number| Refused { number, session })
    }

    fn fingerprint(&self, table: Table<'_>, lower: GivenBound<'_>, upper: GivenBound<'_>) -> Result<[u8; 16], u8> {
        reference::fingerprint(table.times, table.ids, &reference_bound(lower), &reference_bound(upper))
    }

    fn sha256(&self, message: &[u8]) -> [u8; 32] {
        reference::sha256(message)
    }

    fn tree_build(&self, table: Table<'_>, tree: &mut [u8]) -> Result<(), u8> {
        reference::tree_build(table.times, table.ids, tree)
    }

    fn tree_append(&self, table: Table<'_>, item: GivenItem<'_>, tree: &mut [u8]) -> Result<(), u8> {
        reference::tree_append(table.times, table.ids, item.time, item.id, tree)
    }

    fn tree_label(&self, tree: &[u8], from: usize, to: usize) -> RunOutcome {
        reference::tree_label(tree, from, to).map(run_label)
    }

    fn fold(&self, call: FoldCall, lent: &mut FoldLent<'_>) -> FoldOutcome {
        let beside = lent.beside_refusal(call);
        let FoldLent { items, batch, .. } = *lent;
        let given = reference_session(lent.session);
        let (times, ids, needed) = (&mut *lent.times, &mut *lent.ids, &mut *lent.needed);
        let answer = match call {
            FoldCall::Inquire => {
                reference::fold_inquire(times, ids, items, given, needed, batch.times, batch.ids).map(inquired)
            }
            FoldCall::Commit => {
                reference::fold_commit(times, ids, items, given, needed, batch.times, batch.ids).map(committed)
            }
        };
        answer.map_err(|number| FoldRefused { number, beside })
    }
}

fn inquired(told: reference::Inquiry) -> FoldAnswer {
    let reference::Inquiry { entering, staying } = told;
    FoldAnswer::Inquired(Inquiry { entering, staying })
}

fn committed(left: reference::Committed) -> FoldAnswer {
    let (items, session) = (left.items, safe_session(left.session));
    FoldAnswer::Committed(Committed { items, session })
}

fn reference_session(session: Session) -> reference::Session {
    let Label { sum, count } = session.label;
    reference::Session {
        marked: session.marked,
        needed: session.needed,
        done: session.done,
        label: reference::Label { sum, count },
    }
}

fn safe_session(session: reference::Session) -> Session {
    Session {
        marked: session.marked,
        needed: session.needed,
        done: session.done,
        label: safe_label(session.label),
    }
}

fn safe_label(label: reference::Label) -> Label {
    let reference::Label { sum, count } = label;
    Label { sum, count }
}

fn run_label(run: reference::RunLabel) -> RunLabel {
    RunLabel {
        label: safe_label(run.label),
        visited: run.visited,
    }
}

fn sent(sent: reference::Sent) -> Sent {
    Sent {
        length: sent.length,
        session: safe_session(sent.session),
    }
}

fn reference_bound(bound: GivenBound<'_>) -> reference::GivenBound {
    let GivenBound {
        infinite,
        time,
        prefix: given,
    } = bound;
    let mut prefix = [0; 32];
    let kept = given.len().min(32);
    prefix[..kept].copy_from_slice(&given[..kept]);
    reference::GivenBound {
        infinite,
        time,
        length: given.len(),
        prefix,
    }
}
