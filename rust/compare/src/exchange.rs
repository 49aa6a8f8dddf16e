//! A session between two tables, with every call compared and demand 3 checked after every take.
use crate::calls::Call;
use crate::compare::{Check, Counts};
use crate::demand::{Demand, Reports, Taken};
use crate::generate::OwnedTable;
use crate::input::{After, Input};
use crate::kinds::Case;
use crate::label::new_session;
use recon::{Cut, Sent, Session};
use reference::Odd;
use std::collections::BTreeMap;

/// A table with its cut.
#[derive(Clone, Copy)]
pub struct End<'a> {
    pub table: &'a OwnedTable,
    pub cut: Cut,
}

impl<'a> End<'a> {
    /// A call of this end, without message and buffers.
    pub fn input(self, call: Call) -> Input<'a> {
        Input::new(call, self.table.lent(), self.cut)
    }
}

/// Both ends, before a session.
pub struct Ends {
    pub tables: [OwnedTable; 2],
    pub cuts: [Cut; 2],
}

impl Ends {
    pub fn opener(&self) -> End<'_> {
        self.end(0)
    }

    pub fn responder(&self) -> End<'_> {
        self.end(1)
    }

    fn end(&self, number: usize) -> End<'_> {
        End {
            table: &self.tables[number],
            cut: self.cuts[number],
        }
    }
}

/// A message that was written.
#[derive(Clone)]
pub struct Message {
    bytes: Vec<u8>,
    /// No byte limit cut it short.
    whole: bool,
    /// What its call cut by: a call by the rule of today is one of the library.
    odd: Odd,
    /// It is one by the former rule where the rule of today makes another.
    former: bool,
}

/// Whether takes have a message by the former rule, and a call of the library after it.
#[derive(Clone, Copy, Default)]
struct Carried {
    former: bool,
    library: bool,
}

impl Carried {
    /// Notes a take of the reply to a query, by a rule.
    fn note(&mut self, query: &Message, reply: &Message, odd: Odd) {
        self.library |= query.former && reply.odd == Odd::ToLast;
        self.former |= query.former || reply.former;
        self.library |= self.former && odd == Odd::ToLast;
    }
}

/// The state of both ends in a session: what the opener holds, and the queries sent so far with their answers.
pub struct Exchange<'a> {
    pub opener: End<'a>,
    pub responder: End<'a>,
    /// The byte limits of the next take and of the next answer.
    pub limits: [Option<usize>; 2],
    /// What they cut by.
    pub rules: [Odd; 2],
    pub session: Session,
    pub marks: Vec<u8>,
    /// The needed list, without room behind it.
    pub list: Vec<u8>,
    queries: Vec<Message>,
    /// By query, byte limit and rule.
    answers: BTreeMap<(usize, Option<usize>, Odd), Message>,
    demand: Demand<'a>,
    /// A message that was taken or sent was cut short.
    short: bool,
    /// Of all takes, and of those in a row up to now.
    carried: Carried,
    carried_row: Carried,
}

impl<'a> Exchange<'a> {
    /// Opens a session, with any bytes in the buffers before.
    pub fn open(case: &mut Case<'_, '_>, ends: &'a Ends) -> Check<Exchange<'a>> {
        Exchange::open_within(case, ends, [None; 2])
    }

    /// The same with byte limits, the first of them that of the opening.
    pub fn open_within(case: &mut Case<'_, '_>, ends: &'a Ends, limits: [Option<usize>; 2]) -> Check<Exchange<'a>> {
        Exchange::open_by(case, ends, limits, [Odd::ToLast; 2])
    }

    /// The same by either rule, the first of them that of the opening.
    pub fn open_by(
        case: &mut Case<'_, '_>,
        ends: &'a Ends,
        limits: [Option<usize>; 2],
        rules: [Odd; 2],
    ) -> Check<Exchange<'a>> {
        let (opener, responder) = (ends.opener(), ends.responder());
        let marks = case.rng.bytes(opener.table.count());
        let whole_ids = 32 * case.rng.below(3);
        let needed = case.rng.bytes(whole_ids);
        let input = opener.input(Call::Open).by(rules[0]).within(limits[0]);
        let (after, sent, query) = with_room(case, &input.opened(&marks, &needed))?;
        if after.marks.iter().any(|&mark| mark != 0) || sent.session != new_session(opener.table.lent()) {
            return Err("the opening leaves marks or another session than a new one".to_string());
        }
        Ok(Exchange {
            opener,
            responder,
            limits,
            rules,
            session: sent.session,
            answers: BTreeMap::new(),
            marks: after.marks,
            list: Vec::new(),
            demand: Demand::new(opener.table, responder.table, opener.cut),
            short: !query.whole,
            queries: vec![query],
            carried: Carried::default(),
            carried_row: Carried::default(),
        })
    }

    /// How many queries were sent.
    pub fn sent(&self) -> usize {
        self.queries.len()
    }

    pub fn query(&self, number: usize) -> &[u8] {
        &self.queries[number].bytes
    }

    /// The responder's answer to a query sent.
    pub fn answer(&mut self, case: &mut Case<'_, '_>, query: usize) -> Check<Vec<u8>> {
        Ok(self.reply(case, query)?.bytes)
    }

    fn reply(&mut self, case: &mut Case<'_, '_>, query: usize) -> Check<Message> {
        let (limit, odd) = (self.limits[1], self.rules[1]);
        if let Some(answer) = self.answers.get(&(query, limit, odd)) {
            return Ok(answer.clone());
        }
        let input = self.responder.input(Call::Answer).by(odd).within(limit);
        let (_, _, answer) = with_room(case, &input.with_message(self.query(query)))?;
        self.answers.insert((query, limit, odd), answer.clone());
        Ok(answer)
    }

    /// A take of a reply in this state; its out buffer is empty, and the needed buffer has the list alone.
    pub fn take_input<'b>(&'b self, reply: &'b [u8]) -> Input<'b> {
        let input = self.opener.input(Call::Take).by(self.rules[0]).within(self.limits[0]);
        input
            .with_message(reply)
            .with_state(self.session, &self.marks, &self.list)
    }

    /// Takes the answer to a query sent, with room of any size that is enough, and checks what is owed then.
    pub fn take(&mut self, case: &mut Case<'_, '_>, query: usize) -> Check {
        let reply = self.reply(case, query)?;
        let (after, Sent { session, .. }, next) = with_room(case, &self.take_input(&reply.bytes))?;
        self.session = session;
        self.list = after.needed[..32 * session.needed].to_vec();
        self.marks.copy_from_slice(&after.marks);
        self.short |= !reply.whole || !next.whole;
        let taken = Taken {
            query: &self.queries[query].bytes,
            reply: &reply.bytes,
            last_sent: &self.queries[self.last_query()].bytes,
            whole: self.queries[query].whole && reply.whole,
        };
        let reports = Reports {
            marks: &self.marks,
            needed: &self.list,
            done: session.done,
        };
        let is_late = taken.query != taken.last_sent;
        let excused = self.demand.after_take(&taken, reports)?;
        let counts = &mut case.comparer.counts;
        counts.excused += excused as u64;
        self.count(counts, query, &reply, is_late);
        if !session.done {
            self.queries.push(next);
        }
        Ok(())
    }

    /// Counts a take of the reply to a query, and the session if it is done.
    fn count(&mut self, counts: &mut Counts, query: usize, reply: &Message, is_late: bool) {
        let (query, odd) = (&self.queries[query], self.rules[0]);
        counts.takes += 1;
        counts.late += u64::from(is_late);
        if is_late && query.former && odd == Odd::ToLast {
            counts.former_late[usize::from(reply.odd == Odd::ToLast)] += 1;
        }
        self.carried.note(query, reply, odd);
        if self.demand.is_in_row() {
            self.carried_row.note(query, reply, odd);
        } else {
            self.carried_row = Carried::default();
        }
        if self.session.done {
            let is_full = self.demand.row_is_full();
            counts.sessions += 1;
            counts.full_rows += u64::from(is_full);
            counts.short_sessions += u64::from(self.short);
            counts.carried += u64::from(self.carried.library);
            counts.carried_rows += u64::from(is_full && self.carried_row.library);
        }
    }

    pub fn last_query(&self) -> usize {
        self.queries.len() - 1
    }

    /// Takes answers until the session is done, at times late or repeated ones. Before each take and at the end something
    /// else is done.
    pub fn finish_late(
        &mut self,
        case: &mut Case<'_, '_>,
        between: &mut dyn FnMut(&mut Case<'_, '_>, &mut Exchange<'_>) -> Check,
    ) -> Check {
        between(case, self)?;
        while !self.session.done {
            let is_late = self.sent() < 20 && case.rng.chance(15);
            let query = if is_late {
                case.rng.below(self.sent())
            } else {
                self.last_query()
            };
            self.take(case, query)?;
            between(case, self)?;
        }
        Ok(())
    }

    /// Takes the answer to the query last sent until the session is done. That it ends, the check of rows sees to.
    pub fn finish(&mut self, case: &mut Case<'_, '_>) -> Check {
        while !self.session.done {
            self.take(case, self.last_query())?;
        }
        Ok(())
    }
}

/// Makes a lawful call with room that is exact or more, any bytes in it; and its message.
pub fn with_room(case: &mut Case<'_, '_>, input: &Input<'_>) -> Check<(After, Sent, Message)> {
    let (length, count) = case.room(input)?;
    let out_room = length + case.rng.pick(&[0, 0, 1, 50]);
    let out = case.rng.bytes(out_room);
    let mut needed = input.needed.to_vec();
    if input.call == Call::Take {
        let room = 32 * (count + case.rng.pick(&[0, 0, 1, 5]));
        needed.extend(case.rng.bytes(room.saturating_sub(input.needed.len())));
    }
    let after = case.comparer.call(&input.with_needed(&needed).with_out(&out))?;
    let message = Message {
        bytes: after.message().to_vec(),
        whole: case.check_short(input, after.message())?,
        odd: input.odd,
        former: case.is_former(input, after.message()),
    };
    match after.outcome {
        Ok(sent) => Ok((after, sent, message)),
        Err(refused) => Err(format!("a lawful call is refused by {}", refused.number)),
    }
}
