//! The responder's answer, the opener's session, and the fingerprint of a range ("The two ends").

use crate::bound::{Bound, Id};
use crate::cutting::{cutting, list, parts, whole, Cut, Odd};
use crate::label::Label;
use crate::limit::Limit;
use crate::message::{offers_other_version, read, write_version, Payload, Range};
use crate::refusal;
use crate::table::{to_id, Items, Table};
use std::iter::Peekable;

/// "The session carries its two counts, marks that are 1 and needed ids, and open or done", and "the label of the whole
/// table at opening".
#[derive(Clone, Copy, Debug, PartialEq, Eq)]
pub struct Session {
    /// The number of marks that are 1.
    pub marked: usize,
    /// The number of ids on the needed list.
    pub needed: usize,
    /// Done, otherwise open.
    pub done: bool,
    /// The label of the table at the opening.
    pub label: Label,
}

impl Session {
    /// The session as it would have been "kept from before".
    pub fn unlabelled(self) -> UnlabelledSession {
        let Session {
            marked, needed, done, ..
        } = self;
        UnlabelledSession { marked, needed, done }
    }
}

/// A session "kept from before", when it carried no label.
#[derive(Clone, Copy, Debug, PartialEq, Eq)]
pub struct UnlabelledSession {
    /// The number of marks that are 1.
    pub marked: usize,
    /// The number of ids on the needed list.
    pub needed: usize,
    /// Done, otherwise open.
    pub done: bool,
}

impl UnlabelledSession {
    fn labelled(self, label: Label) -> Session {
        let UnlabelledSession { marked, needed, done } = self;
        Session {
            marked,
            needed,
            done,
            label,
        }
    }
}

/// What an unrefused open or take gives back.
#[derive(Clone, Copy, Debug, PartialEq, Eq)]
pub struct Sent {
    /// The length of the query written, 0 if the session is done.
    pub length: usize,
    /// The session from now on.
    pub session: Session,
}

/// A bound as handed to `fingerprint`: `length` bytes of `prefix`. With `infinite` the time does not count.
#[derive(Clone, Copy, Debug, PartialEq, Eq)]
pub struct GivenBound {
    /// Infinity, otherwise the time and the prefix.
    pub infinite: bool,
    /// The time of a finite bound.
    pub time: u64,
    /// The prefix length; at infinity a length above 0 is refused.
    pub length: usize,
    /// The prefix bytes; those behind the length do not count.
    pub prefix: [u8; 32],
}

impl GivenBound {
    /// "A bound given to it meets 9 save for the order."
    fn judged(&self) -> Result<Bound, u8> {
        if self.length > 32 || (self.infinite && self.length > 0) {
            return Err(refusal::BOUND);
        }
        let bound = if self.infinite {
            Bound::Infinity
        } else {
            Bound::At {
                time: self.time,
                prefix: self.prefix[..self.length].to_vec(),
            }
        };
        bound.judge()?;
        Ok(bound)
    }
}

/// Answer: the reply to a query, and its length. Refuses by 1, 2, 3, 6 to 10 and 12. Of a query of another version it shall
/// "read nothing more", so that 7 to 10 don't meet it.
pub fn answer(times: &[u64], ids: &[u8], b: usize, t: usize, query: &[u8], out: &mut [u8]) -> Result<usize, u8> {
    answer_within(times, ids, b, t, None, query, out)
}

/// Answer with a byte limit, or none. With one it refuses by 14, too.
pub fn answer_within(
    times: &[u64],
    ids: &[u8],
    b: usize,
    t: usize,
    bytes: Option<usize>,
    query: &[u8],
    out: &mut [u8],
) -> Result<usize, u8> {
    answer_by(Odd::ToLast, times, ids, b, t, bytes, query, out)
}

/// Answer with a byte limit, or none, ranges cut by either rule.
#[allow(clippy::too_many_arguments)]
pub fn answer_by(
    odd: Odd,
    times: &[u64],
    ids: &[u8],
    b: usize,
    t: usize,
    bytes: Option<usize>,
    query: &[u8],
    out: &mut [u8],
) -> Result<usize, u8> {
    let table = Table::lent(times, ids)?; // 1, 2
    let cut = Cut::given(b, t, odd)?; // 3
    let limit = Limit::given(bytes)?; // 14
    if offers_other_version(query) {
        return write_version(out); // 12
    }
    let query = read(query)?; // 6 to 10
    let mut reply = Vec::new();
    let mut from = 0;
    for Range { upper, payload } in query {
        let items = from..table.place(&upper);
        from = items.end;
        match payload {
            // "Skip gives skip."
            Payload::Skip => reply.push(skip(upper)),
            Payload::Fingerprint(theirs) => reply.extend(compare(&table, cut, items, upper, theirs)),
            // "Ids give all of its own ids there."
            Payload::Ids(_) => reply.push(list(&table, items, upper)),
        }
    }
    limit.write(&table, reply, out) // 12
}

/// Both ends: "a fingerprint equal to its own gives skip. Another fingerprint gives the cutting of that range."
fn compare(table: &Table, cut: Cut, items: Items, upper: Bound, theirs: [u8; 16]) -> Vec<Range> {
    let parts = parts(table, cut, items);
    if whole(&parts).fingerprint() == theirs {
        vec![skip(upper)]
    } else {
        cutting(table, &parts, upper)
    }
}

fn skip(upper: Bound) -> Range {
    Range {
        upper,
        payload: Payload::Skip,
    }
}

/// Open: "cuts the whole range up to infinity as the first query". Refuses by 1, 2, 3, 4 and 12.
/// "Marks become 0, the needed list becomes empty, and the session is open"; "opening changes no needed byte".
pub fn open(
    times: &[u64],
    ids: &[u8],
    b: usize,
    t: usize,
    marks: &mut [u8],
    needed: &[u8],
    out: &mut [u8],
) -> Result<Sent, u8> {
    open_within(times, ids, b, t, None, marks, needed, out)
}

/// Open with a byte limit, or none. With one it refuses by 14, too.
#[allow(clippy::too_many_arguments)]
pub fn open_within(
    times: &[u64],
    ids: &[u8],
    b: usize,
    t: usize,
    bytes: Option<usize>,
    marks: &mut [u8],
    needed: &[u8],
    out: &mut [u8],
) -> Result<Sent, u8> {
    open_by(Odd::ToLast, times, ids, b, t, bytes, marks, needed, out)
}

/// Open with a byte limit, or none, the whole range cut by either rule.
#[allow(clippy::too_many_arguments)]
pub fn open_by(
    odd: Odd,
    times: &[u64],
    ids: &[u8],
    b: usize,
    t: usize,
    bytes: Option<usize>,
    marks: &mut [u8],
    needed: &[u8],
    out: &mut [u8],
) -> Result<Sent, u8> {
    let table = Table::lent(times, ids)?; // 1, 2
    let cut = Cut::given(b, t, odd)?; // 3
    let limit = Limit::given(bytes)?; // 14
    judge_buffers(&table, marks, needed)?; // 4
    let parts = parts(&table, cut, 0..table.count());
    let length = limit.write(&table, cutting(&table, &parts, Bound::Infinity), out)?; // 12
    marks.fill(0);
    let session = Session {
        marked: 0,
        needed: 0,
        done: false,
        label: Label::of_table(&table),
    };
    Ok(Sent { length, session })
}

/// Refusal 4, all calls: "the marks aren't n bytes, the needed buffer isn't a multiple of 32 bytes".
fn judge_buffers(table: &Table, marks: &[u8], needed: &[u8]) -> Result<(), u8> {
    if marks.len() != table.count() || needed.len() % 32 != 0 {
        return Err(refusal::REPORT);
    }
    Ok(())
}

/// Take: the opener is handed a reply. Refuses by 1 to 4, 18 and 5 to 12 in this order.
#[allow(clippy::too_many_arguments)]
pub fn take(
    times: &[u64],
    ids: &[u8],
    b: usize,
    t: usize,
    reply: &[u8],
    session: Session,
    marks: &mut [u8],
    needed: &mut [u8],
    out: &mut [u8],
) -> Result<Sent, u8> {
    take_within(times, ids, b, t, None, reply, session, marks, needed, out)
}

/// Take with a byte limit, or none. With one it refuses by 14, too.
#[allow(clippy::too_many_arguments)]
pub fn take_within(
    times: &[u64],
    ids: &[u8],
    b: usize,
    t: usize,
    bytes: Option<usize>,
    reply: &[u8],
    session: Session,
    marks: &mut [u8],
    needed: &mut [u8],
    out: &mut [u8],
) -> Result<Sent, u8> {
    take_by(Odd::ToLast, times, ids, b, t, bytes, reply, session, marks, needed, out)
}

/// Take with a byte limit, or none, ranges cut by either rule.
#[allow(clippy::too_many_arguments)]
pub fn take_by(
    odd: Odd,
    times: &[u64],
    ids: &[u8],
    b: usize,
    t: usize,
    bytes: Option<usize>,
    reply: &[u8],
    session: Session,
    marks: &mut [u8],
    needed: &mut [u8],
    out: &mut [u8],
) -> Result<Sent, u8> {
    let table = Table::lent(times, ids)?; // 1, 2
    let cut = Cut::given(b, t, odd)?; // 3
    let limit = Limit::given(bytes)?; // 14
    let mut report = Report::judged(&table, session.unlabelled(), marks, needed)?; // 4
    if Label::of_table(&table) != session.label {
        return Err(refusal::OTHER_TABLE);
    }
    if session.done {
        return Err(refusal::DONE);
    }
    let reply = read(reply)?; // 6 to 10
    let next = treat(&table, cut, reply, &mut report);
    report.order_needed();
    if report.needed.len() > needed.len() / 32 {
        return Err(refusal::NEEDED_ROOM);
    }
    // "If the next query would be skips only, the session is done and nothing is written; otherwise the query is
    // written." A byte limit comes after that.
    let done = next.iter().all(|range| range.payload == Payload::Skip);
    let length = if done { 0 } else { limit.write(&table, next, out)? }; // 12
    report.lay(marks, needed);
    let session = report.session(done).labelled(session.label);
    Ok(Sent { length, session })
}

/// The conversion, which gives their label to "sessions kept from before". It "does a take's checks 1, 2 and 4, done
/// sessions included", and no others. "All else in the session stays."
pub fn convert(
    times: &[u64],
    ids: &[u8],
    session: UnlabelledSession,
    marks: &[u8],
    needed: &[u8],
) -> Result<Session, u8> {
    let table = Table::lent(times, ids)?; // 1, 2
    Report::judged(&table, session, marks, needed)?; // 4
    Ok(session.labelled(Label::of_table(&table)))
}

/// The number of marks that are 1.
fn ones(marks: &[u8]) -> usize {
    marks.iter().filter(|&&mark| mark == 1).count()
}

/// The next query's ranges for a reply; the differences go into the report.
fn treat(table: &Table, cut: Cut, reply: Vec<Range>, report: &mut Report) -> Vec<Range> {
    let mut next = Vec::new();
    let mut from = 0;
    for Range { upper, payload } in reply {
        let items = from..table.place(&upper);
        from = items.end;
        match payload {
            // "Skip, or a fingerprint equal to its own, gives skip. Another fingerprint is cut."
            Payload::Skip => next.push(skip(upper)),
            Payload::Fingerprint(theirs) => next.extend(compare(table, cut, items, upper, theirs)),
            // Ids report the difference "and give skip".
            Payload::Ids(listed) => {
                report.add_difference(table, items, listed);
                next.push(skip(upper));
            }
        }
    }
    next
}

/// Marks and needed list that a take would leave. The lent buffers change only when nothing can refuse any more.
struct Report {
    marks: Vec<u8>,
    needed: Vec<Id>,
}

impl Report {
    /// The report so far. Refusal 4 as a take judges it, with "a mark is above 1, a count disagrees with the buffer, or
    /// the needed ids don't rise strictly". Bytes behind the list are not judged.
    fn judged(table: &Table, session: UnlabelledSession, marks: &[u8], needed: &[u8]) -> Result<Report, u8> {
        judge_buffers(table, marks, needed)?;
        if marks.iter().any(|&mark| mark > 1) || session.marked != ones(marks) || session.needed > needed.len() / 32 {
            return Err(refusal::REPORT);
        }
        let marks = marks.to_vec();
        let needed: Vec<Id> = needed[..32 * session.needed].chunks_exact(32).map(to_id).collect();
        if needed.windows(2).any(|pair| pair[0] >= pair[1]) {
            return Err(refusal::REPORT);
        }
        Ok(Report { marks, needed })
    }

    /// "Ids set the mark 1 on own items of that range whose id isn't listed, join to the needed list each listed id
    /// that no own item of the range has". "Marks set earlier remain."
    fn add_difference(&mut self, table: &Table, items: Items, mut listed: Vec<Id>) {
        // "Listed ids may stand in any order, and a repeat counts once."
        listed.sort();
        // Items rise by time first, so the own ids of a range must be sorted, too.
        let mut own: Vec<(Id, usize)> = table.ids(items.clone()).zip(items).collect();
        own.sort();
        let mut rest = listed.iter().peekable();
        for (id, index) in &own {
            if !stands_in(&mut rest, id) {
                self.marks[*index] = 1;
            }
        }
        let mut rest = own.iter().map(|(id, _)| id).peekable();
        for id in &listed {
            if !stands_in(&mut rest, id) {
                self.needed.push(*id);
            }
        }
    }

    /// "The needed list rises by id without repeats."
    fn order_needed(&mut self) {
        self.needed.sort();
        self.needed.dedup();
    }

    /// Lays marks and list into the lent buffers. "Needed bytes behind the list remain unchanged".
    fn lay(&self, marks: &mut [u8], needed: &mut [u8]) {
        marks.copy_from_slice(&self.marks);
        for (bytes, id) in needed.chunks_exact_mut(32).zip(&self.needed) {
            bytes.copy_from_slice(id);
        }
    }

    /// The session's "two counts, marks that are 1 and needed ids, and open or done".
    fn session(&self, done: bool) -> UnlabelledSession {
        UnlabelledSession {
            marked: ones(&self.marks),
            needed: self.needed.len(),
            done,
        }
    }
}

/// Whether an id stands in a rising list. Asked for rising ids, one walk through the list serves all of them.
fn stands_in<'a>(list: &mut Peekable<impl Iterator<Item = &'a Id>>, id: &Id) -> bool {
    while list.next_if(|next| *next < id).is_some() {}
    list.peek() == Some(&id)
}

/// The fingerprint of the range between two bounds. Refuses by 1, 2 and 9.
pub fn fingerprint(times: &[u64], ids: &[u8], lower: &GivenBound, upper: &GivenBound) -> Result<[u8; 16], u8> {
    let table = Table::lent(times, ids)?; // 1, 2
    let from = table.place(&lower.judged()?); // 9
    let to = table.place(&upper.judged()?); // 9
                                            // "A lower bound above the upper gives the empty range."
    Ok(Label::of_items(&table, from..to.max(from)).fingerprint())
}
