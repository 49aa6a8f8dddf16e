//! The two ends of a session, with their buffers.
use crate::{answer_query, answer_query_within, open_session, open_session_within, take_reply, take_reply_within};
use crate::{Cut, Refusal, Session, Table, ID_BYTES, MAX_ITEMS};
use alloc::vec::Vec;
use core::fmt;

/// The end that opens a session. It alone learns what differs.
///
/// It owns the marks, the needed list and the query, and makes them larger as the session goes on; the table stays the caller's. The
/// [front page](crate) has a whole session.
///
/// Memory: a byte for each item; for queries an eighth of the table's own bytes, or up to twice the longest query; for the needed ids as
/// many bytes as they have, and up to those of the longest reply. Where there is a byte limit from the opening on, queries take no more
/// than that.
#[derive(Clone)]
pub struct Opener<'a> {
    table: Table<'a>,
    cut: Cut,
    byte_limit: Option<usize>,
    session: Session,
    marks: Vec<u8>,
    needed: Vec<u8>,
    out: Vec<u8>,
    length: usize,
}

impl<'a> Opener<'a> {
    /// Opens a session: [`query`](Opener::query) is then its first query.
    ///
    /// # Errors
    /// Refusals 1 to 3, and 12 where memory cannot be had.
    pub fn open(table: Table<'a>, cut: Cut) -> Result<Opener<'a>, Refusal> {
        Opener::opened(table, cut, None)
    }

    /// Opens a session whose first query has at most `byte_limit` bytes. The limit is that of the later queries, too, until
    /// [`set_byte_limit`](Opener::set_byte_limit) changes it.
    ///
    /// # Errors
    /// Refusals 1 to 3, 14 for a limit below [`MIN_BYTE_LIMIT`](crate::MIN_BYTE_LIMIT), and 12 where memory cannot be had.
    pub fn open_within(table: Table<'a>, cut: Cut, byte_limit: usize) -> Result<Opener<'a>, Refusal> {
        Opener::opened(table, cut, Some(byte_limit))
    }

    fn opened(table: Table<'a>, cut: Cut, byte_limit: Option<usize>) -> Result<Opener<'a>, Refusal> {
        let (mut marks, mut out) = (Vec::new(), Vec::new());
        // A longer table is refused by 1, whatever its marks are.
        if !grow(&mut marks, table.times.len().min(MAX_ITEMS)) {
            return Err(Refusal::NoRoom);
        }
        let sent = with_room(&mut out, table, byte_limit, |out| match byte_limit {
            None => open_session(table, cut, &mut marks, &[], out),
            Some(bytes) => open_session_within(table, cut, bytes, &mut marks, &[], out),
        })?;
        Ok(Opener {
            table,
            cut,
            byte_limit,
            session: sent.session,
            marks,
            needed: Vec::new(),
            out,
            length: sent.length,
        })
    }

    /// The query to hand to the other end; none once the session is done. Until the next reply is taken it stays the same.
    pub fn query(&self) -> Option<&[u8]> {
        if self.session.done {
            None
        } else {
            Some(&self.out[..self.length])
        }
    }

    /// Sets the byte limit of the queries that later takes write, or drops it. The query that was written last stays as it is.
    ///
    /// The limit is judged by the next take: one below [`MIN_BYTE_LIMIT`](crate::MIN_BYTE_LIMIT) is refused there by 14.
    pub fn set_byte_limit(&mut self, byte_limit: Option<usize>) {
        self.byte_limit = byte_limit;
    }

    /// Takes the other end's reply to a query. Replies may come late, repeated and in any order.
    ///
    /// # Errors
    /// Refusals 5 to 10, 14 for a byte limit that is too small, and 11 or 12 where memory cannot be had. Then nothing has changed: the query
    /// and the reports are as before, and another reply can be taken.
    pub fn take(&mut self, reply: &[u8]) -> Result<(), Refusal> {
        let (table, cut, byte_limit, session) = (self.table, self.cut, self.byte_limit, self.session);
        let (marks, needed) = (&mut self.marks, &mut self.needed);
        // With room for all the ids that the reply can list, the call need not count those that are new, which may take it many times as
        // long as all else. If the memory for that cannot be had, it does, and refuses by 11 if they are too many.
        grow(needed, ID_BYTES * (session.needed + reply.len() / ID_BYTES));
        let sent = with_room(&mut self.out, table, byte_limit, |out| match byte_limit {
            None => take_reply(table, cut, reply, session, marks, needed, out),
            Some(bytes) => take_reply_within(table, cut, bytes, reply, session, marks, needed, out),
        })?;
        self.session = sent.session;
        self.length = sent.length;
        Ok(())
    }

    /// How many records and ids are reported so far, and whether the session is done.
    pub fn session(&self) -> Session {
        self.session
    }

    /// The session, and the ids of the needed list, one behind the other. The table is not borrowed any more.
    pub fn into_parts(mut self) -> (Session, Vec<u8>) {
        self.needed.truncate(ID_BYTES * self.session.needed);
        (self.session, self.needed)
    }

    pub(crate) fn table(&self) -> Table<'_> {
        self.table
    }

    /// The ids of the needed list.
    pub(crate) fn needed(&self) -> &[u8] {
        &self.needed[..ID_BYTES * self.session.needed]
    }

    /// Whether the session is done: then all is reported.
    pub fn is_done(&self) -> bool {
        self.session.done
    }

    /// The records that only the opener has, times and ids, in table order. What is reported before the session is done is true already,
    /// but it need not be all.
    pub fn ours_only(&self) -> impl Iterator<Item = (u64, &[u8; ID_BYTES])> + '_ {
        let records = self.table.times.iter().copied().zip(ids(self.table.ids));
        let marked = records.zip(&self.marks).filter(|(_, &mark)| mark == 1);
        marked.map(|(record, _)| record)
    }

    /// The ids that only the other end has, rising; messages list ids without their times. What is reported before the session is done is
    /// true already, but it need not be all.
    pub fn theirs_only(&self) -> impl Iterator<Item = &[u8; ID_BYTES]> + '_ {
        ids(self.needed())
    }
}

impl fmt::Debug for Opener<'_> {
    fn fmt(&self, f: &mut fmt::Formatter<'_>) -> fmt::Result {
        let mut shown = f.debug_struct("Opener");
        shown.field("items", &self.marks.len()).field("cut", &self.cut);
        shown.field("byte_limit", &self.byte_limit);
        shown.field("session", &self.session).finish_non_exhaustive()
    }
}

/// The end that answers queries. It keeps nothing from one query to the next but the memory for its replies: an eighth of the table's own
/// bytes, or up to twice the longest reply. Where there is a byte limit from the first query on, it is no more than that.
#[derive(Clone)]
pub struct Responder<'a> {
    table: Table<'a>,
    cut: Cut,
    byte_limit: Option<usize>,
    out: Vec<u8>,
}

impl<'a> Responder<'a> {
    /// A responder. Its table and its cut are judged with every query; the cut may be another than the opener's.
    pub fn new(table: Table<'a>, cut: Cut) -> Responder<'a> {
        Responder {
            table,
            cut,
            byte_limit: None,
            out: Vec::new(),
        }
    }

    /// Sets the byte limit of later replies, or drops it. It may be another than the opener's, who need not have one.
    ///
    /// The limit is judged with every query: one below [`MIN_BYTE_LIMIT`](crate::MIN_BYTE_LIMIT) is refused there by 14.
    pub fn set_byte_limit(&mut self, byte_limit: Option<usize>) {
        self.byte_limit = byte_limit;
    }

    /// The reply to a query.
    ///
    /// A query whose first byte is 60 to 6F (hexadecimal) but not 61 is of another protocol version. The answer to 62 is the byte 61 and
    /// starts no session: send it on, and the other end may open one with 61.
    ///
    /// # Errors
    /// Refusals 1 to 3, 14 for a byte limit that is too small, 6 to 10, and 12 where memory cannot be had. The next query can be answered
    /// all the same.
    pub fn answer(&mut self, query: &[u8]) -> Result<&[u8], Refusal> {
        let (table, cut, byte_limit) = (self.table, self.cut, self.byte_limit);
        let length = with_room(&mut self.out, table, byte_limit, |out| match byte_limit {
            None => answer_query(table, cut, query, out),
            Some(bytes) => answer_query_within(table, cut, bytes, query, out),
        })?;
        Ok(&self.out[..length])
    }
}

impl fmt::Debug for Responder<'_> {
    fn fmt(&self, f: &mut fmt::Formatter<'_>) -> fmt::Result {
        let mut shown = f.debug_struct("Responder");
        let items = self.table.times.len();
        shown
            .field("items", &items)
            .field("cut", &self.cut)
            .field("byte_limit", &self.byte_limit)
            .finish_non_exhaustive()
    }
}

/// The ids in a byte string. A chunk has the bytes of an id, so none is left out.
pub(crate) fn ids(bytes: &[u8]) -> impl Iterator<Item = &[u8; ID_BYTES]> {
    bytes.chunks_exact(ID_BYTES).filter_map(|id| id.try_into().ok())
}

/// The least size of an out buffer. An opening by the default cut needs no more.
const LEAST_ROOM: usize = 4096;

/// The first size of an out buffer: an eighth of the table's bytes. Doubled three times it is as large as the table, and a message that
/// lists all ids is hardly larger; so few calls are refused, each of which reads the whole table.
fn first_room(table: Table<'_>) -> usize {
    let items = table.times.len().min(MAX_ITEMS);
    LEAST_ROOM.max(items * (8 + ID_BYTES) / 8)
}

/// Makes a call, and again with a larger buffer as long as it is refused by 12. A refused call changes nothing. So 12 is answered only
/// where memory cannot be had. A message with a byte limit needs no more room than that.
fn with_room<T>(
    out: &mut Vec<u8>,
    table: Table<'_>,
    byte_limit: Option<usize>,
    mut call: impl FnMut(&mut [u8]) -> Result<T, Refusal>,
) -> Result<T, Refusal> {
    let most = byte_limit.unwrap_or(usize::MAX);
    grow(out, first_room(table).min(most));
    loop {
        let next = LEAST_ROOM.max(2 * out.len()).min(most);
        match call(out) {
            Err(Refusal::NoRoom) if out.len() < next && grow(out, next) => {}
            answer => return answer,
        }
    }
}

/// Makes a buffer at least so large, and keeps its bytes. False, with the buffer as it was, where the memory cannot be had.
fn grow(buffer: &mut Vec<u8>, size: usize) -> bool {
    let more = size.saturating_sub(buffer.len());
    let had = buffer.try_reserve_exact(more).is_ok();
    if had {
        buffer.resize(buffer.len() + more, 0);
    }
    had
}
