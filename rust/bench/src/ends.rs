//! The calls of both implementations in one form. A refusal ends the program: no call of a session is refused here.

use crate::cases::{Table, Tables};
use recon::{Cut, Label, Sent, Session};

/// The cuts, each at both ends.
pub const CUTS: [Cut; 2] = [Cut { parts: 16, limit: 64 }, Cut { parts: 16, limit: 4096 }];

/// What both ends keep to: the cut and, if there is one, the byte limit.
#[derive(Clone, Copy)]
pub struct Terms {
    pub cut: Cut,
    pub bytes: Option<usize>,
}

impl From<Cut> for Terms {
    /// Without a byte limit.
    fn from(cut: Cut) -> Terms {
        Terms { cut, bytes: None }
    }
}

/// What does the work of a call, or the two limits that stand beside it.
#[derive(Clone, Copy, Debug, PartialEq, Eq)]
pub enum Way {
    Library,
    Reference,
    Reading,
    OpenSsl,
}

impl Way {
    pub fn name(self) -> &'static str {
        match self {
            Way::Library => "library",
            Way::Reference => "reference",
            Way::Reading => "reading",
            Way::OpenSsl => "openssl",
        }
    }
}

/// What stands in bytes that no call has written.
pub const UNSET: u8 = 0xa5;

/// What a call may write: the marks, the needed ids, and the message.
pub struct Buffers {
    pub marks: Vec<u8>,
    pub needed: Vec<u8>,
    pub out: Vec<u8>,
}

impl Buffers {
    /// Buffers that are large enough, each page written once.
    pub fn new(tables: &Tables) -> Buffers {
        Buffers::with_room(tables, tables.responder.count())
    }

    /// Buffers with room for so many needed ids.
    pub fn with_room(tables: &Tables, ids: usize) -> Buffers {
        let (ours, theirs) = (tables.opener.count(), tables.responder.count());
        // An id of 32 bytes for each item, and a share in the bound of a range.
        let room = 48 * ours.max(theirs) + 4096;
        Buffers {
            marks: vec![UNSET; ours],
            needed: vec![UNSET; 32 * ids],
            out: vec![UNSET; room],
        }
    }
}

fn done<T, R: std::fmt::Debug>(way: Way, result: Result<T, R>) -> T {
    match result {
        Ok(value) => value,
        Err(refusal) => panic!("the {} refuses a call: {:?}", way.name(), refusal),
    }
}

fn lent(table: &Table) -> recon::Table<'_> {
    recon::Table {
        times: &table.times,
        ids: &table.ids,
    }
}

fn common(sent: reference::Sent) -> Sent {
    let reference::Sent { length, session } = sent;
    let reference::Label { sum, count } = session.label;
    Sent {
        length,
        session: Session {
            marked: session.marked,
            needed: session.needed,
            done: session.done,
            label: Label { sum, count },
        },
    }
}

pub fn open(way: Way, table: &Table, terms: Terms, buffers: &mut Buffers) -> Sent {
    let Buffers { marks, needed, out } = buffers;
    let (own, Terms { cut, bytes }) = (lent(table), terms);
    match (way, bytes) {
        (Way::Library, None) => done(way, recon::open_session(own, cut, marks, needed, out)),
        (Way::Library, Some(bytes)) => done(way, recon::open_session_within(own, cut, bytes, marks, needed, out)),
        _ => {
            let (times, ids, Cut { parts, limit }) = (own.times, own.ids, cut);
            let sent = reference::open_within(times, ids, parts, limit, bytes, marks, needed, out);
            common(done(way, sent))
        }
    }
}

/// The length of the reply.
pub fn answer(way: Way, table: &Table, terms: Terms, query: &[u8], out: &mut [u8]) -> usize {
    let (own, Terms { cut, bytes }) = (lent(table), terms);
    match (way, bytes) {
        (Way::Library, None) => done(way, recon::answer_query(own, cut, query, out)),
        (Way::Library, Some(bytes)) => done(way, recon::answer_query_within(own, cut, bytes, query, out)),
        _ => {
            let (times, ids, Cut { parts, limit }) = (own.times, own.ids, cut);
            done(
                way,
                reference::answer_within(times, ids, parts, limit, bytes, query, out),
            )
        }
    }
}

pub fn take(way: Way, table: &Table, terms: Terms, reply: &[u8], session: Session, buffers: &mut Buffers) -> Sent {
    done(way, try_take(way, table, terms, reply, session, buffers))
}

/// As `take`, with the number of a refusal.
pub fn try_take(
    way: Way,
    table: &Table,
    terms: Terms,
    reply: &[u8],
    session: Session,
    buffers: &mut Buffers,
) -> Result<Sent, u64> {
    let Buffers { marks, needed, out } = buffers;
    let (own, Terms { cut, bytes }) = (lent(table), terms);
    let taken = match (way, bytes) {
        (Way::Library, None) => recon::take_reply(own, cut, reply, session, marks, needed, out),
        (Way::Library, Some(bytes)) => recon::take_reply_within(own, cut, bytes, reply, session, marks, needed, out),
        _ => {
            let (times, ids, Cut { parts, limit }) = (own.times, own.ids, cut);
            let session = plain(session);
            let taken = reference::take_within(times, ids, parts, limit, bytes, reply, session, marks, needed, out);
            return taken.map(common).map_err(u64::from);
        }
    };
    taken.map_err(|refusal| refusal.number())
}

/// The session as the reference has it.
fn plain(session: Session) -> reference::Session {
    let Label { sum, count } = session.label;
    reference::Session {
        marked: session.marked,
        needed: session.needed,
        done: session.done,
        label: reference::Label { sum, count },
    }
}
