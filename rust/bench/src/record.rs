//! A session driven to done by the reference, with all that passed: what each measured call is handed and must give.

use crate::cases::{Table, Tables};
use crate::ends::{answer, open, take, Buffers, Terms, Way, UNSET};
use recon::{Sent, Session};

/// The opener's state before a take, or after the last one.
#[derive(PartialEq)]
pub struct State {
    pub session: Session,
    marks: Vec<u8>,
    needed: Vec<u8>,
}

impl State {
    fn of(session: Session, buffers: &Buffers) -> State {
        State {
            session,
            marks: buffers.marks.clone(),
            needed: buffers.needed[..32 * session.needed].to_vec(),
        }
    }

    /// Lays marks and needed ids into the buffers.
    fn lay(&self, buffers: &mut Buffers) {
        buffers.marks.copy_from_slice(&self.marks);
        buffers.needed[..self.needed.len()].copy_from_slice(&self.needed);
    }

    fn is_in(&self, session: Session, buffers: &Buffers) -> bool {
        self.session == session && self.marks == buffers.marks && buffers.needed.starts_with(&self.needed)
    }
}

/// A query, its reply, and the state before that is taken.
pub struct Round {
    pub query: Vec<u8>,
    pub reply: Vec<u8>,
    pub before: State,
}

pub struct Record {
    pub rounds: Vec<Round>,
    last: State,
}

impl Record {
    /// Drives the session, and checks what it reports.
    pub fn made(tables: &Tables, terms: Terms, buffers: &mut Buffers) -> Record {
        let opened = open(Way::Reference, &tables.opener, terms, buffers);
        Record::from(tables, terms, opened, buffers)
    }

    /// The same, but the first query is that of an opener without items, whose reply is one list of all ids.
    pub fn in_one_range(tables: &Tables, terms: Terms, buffers: &mut Buffers) -> Record {
        let opened = open(Way::Reference, &tables.opener, terms, buffers);
        let (none, mut other) = (Table::default(), Buffers::with_room(tables, 0));
        other.marks.clear();
        let asked = open(Way::Reference, &none, terms, &mut other);
        buffers.out[..asked.length].copy_from_slice(&other.out[..asked.length]);
        let length = asked.length;
        Record::from(tables, terms, Sent { length, ..opened }, buffers)
    }

    /// The session after this opening.
    fn from(tables: &Tables, terms: Terms, opened: Sent, buffers: &mut Buffers) -> Record {
        let mut rounds = Vec::new();
        let mut sent = opened;
        while !sent.session.done {
            let before = State::of(sent.session, buffers);
            let query = buffers.out[..sent.length].to_vec();
            let length = answer(Way::Reference, &tables.responder, terms, &query, &mut buffers.out);
            let reply = buffers.out[..length].to_vec();
            sent = take(Way::Reference, &tables.opener, terms, &reply, sent.session, buffers);
            rounds.push(Round { query, reply, before });
        }
        let last = State::of(sent.session, buffers);
        assert!(
            last.marks == tables.marks && last.needed == tables.needed,
            "the session reports another difference"
        );
        Record { rounds, last }
    }

    /// What the opening (after 0 rounds), or the take of the last of these rounds, gives: next query and state.
    fn after(&self, rounds: usize) -> (&[u8], &State) {
        match self.rounds.get(rounds) {
            Some(next) => (&next.query, &next.before),
            None => (&[], &self.last),
        }
    }

    /// Lays the state before that call into the buffers, and removes what earlier calls left where it must write.
    pub fn prepare(&self, rounds: usize, buffers: &mut Buffers) {
        let (query, state) = self.after(rounds);
        buffers.out[..query.len()].fill(UNSET);
        buffers.needed[..state.needed.len()].fill(UNSET);
        match rounds {
            0 => buffers.marks.fill(UNSET),
            _ => self.rounds[rounds - 1].before.lay(buffers),
        }
    }

    /// Ends the program if that call gave another result.
    pub fn compare(&self, way: Way, rounds: usize, sent: Sent, buffers: &Buffers) {
        let (query, state) = self.after(rounds);
        let same = state.is_in(sent.session, buffers) && query == &buffers.out[..sent.length];
        assert!(
            same,
            "the results differ: {}, state after {} rounds",
            way.name(),
            rounds
        );
    }
}
