//! What a call is handed and what it leaves, and the making of a call on copies of it.
use crate::calls::{Call, Calls, FoldLent, GivenBound, GivenItem, Lent, Outcome, RunOutcome};
use crate::fold::{FoldAfter, FoldInput};
use crate::guard::{Region, Side, ROOM};
use crate::label::{new_session, NO_SESSION};
use crate::tree::{TreeAfter, TreeInput};
use recon::{Cut, Session, Table};
use reference::Odd;

/// What a call is handed.
#[derive(Clone, Copy)]
pub struct Input<'a> {
    pub call: Call,
    pub table: Table<'a>,
    pub cut: Cut,
    pub odd: Odd,
    pub bytes: Option<usize>,
    pub message: &'a [u8],
    pub session: Session,
    pub marks: &'a [u8],
    pub needed: &'a [u8],
    pub out: &'a [u8],
}

/// What a call answers, and the lent buffers afterwards.
pub struct After {
    pub outcome: Outcome,
    pub marks: Vec<u8>,
    pub needed: Vec<u8>,
    pub out: Vec<u8>,
}

impl After {
    /// The number of the refusal, 0 for none.
    pub fn number(&self) -> u8 {
        self.outcome.map_or_else(|refused| refused.number, |_| 0)
    }

    /// The message that was written.
    pub fn message(&self) -> &[u8] {
        self.outcome.map_or(&[], |sent| &self.out[..sent.length])
    }
}

impl<'a> Input<'a> {
    /// A call by the rule of today about a table, without byte limit, message, session and buffers.
    pub fn new(call: Call, table: Table<'a>, cut: Cut) -> Input<'a> {
        Input {
            call,
            table,
            cut,
            odd: Odd::ToLast,
            bytes: None,
            message: &[],
            session: NO_SESSION,
            marks: &[],
            needed: &[],
            out: &[],
        }
    }

    /// The call by this rule.
    pub fn by(self, odd: Odd) -> Input<'a> {
        Input { odd, ..self }
    }

    /// The call with this byte limit, or none.
    pub fn within(self, bytes: Option<usize>) -> Input<'a> {
        Input { bytes, ..self }
    }

    pub fn with_message(self, message: &'a [u8]) -> Input<'a> {
        Input { message, ..self }
    }

    /// With the session that an opening of the table leaves, and any buffers.
    pub fn opened(self, marks: &'a [u8], needed: &'a [u8]) -> Input<'a> {
        self.with_state(new_session(self.table), marks, needed)
    }

    pub fn with_state(self, session: Session, marks: &'a [u8], needed: &'a [u8]) -> Input<'a> {
        Input {
            session,
            marks,
            needed,
            ..self
        }
    }

    /// The same for another call.
    pub fn of(self, call: Call) -> Input<'a> {
        Input { call, ..self }
    }

    pub fn with_table(self, table: Table<'a>) -> Input<'a> {
        Input { table, ..self }
    }

    pub fn with_needed(self, needed: &'a [u8]) -> Input<'a> {
        Input { needed, ..self }
    }

    pub fn with_out(self, out: &'a [u8]) -> Input<'a> {
        Input { out, ..self }
    }

    /// Out bytes that are enough for whatever a lawful call writes. A message of m bytes has at most m / 3 ranges, each
    /// of them at most 48 bytes and its payload; the parts and lists of all ranges together are at most as many as the
    /// items, each at most 60 bytes.
    pub fn most_room(&self) -> usize {
        1 + 60 * self.table.times.len() + 48 * (self.message.len() / 3 + 1)
    }

    /// Whether the call has a byte limit; a conversion has none.
    pub fn is_limited(&self) -> bool {
        self.bytes.is_some() && self.call != Call::Convert
    }

    /// The name of the call, with its limit or without.
    pub fn name(&self) -> &'static str {
        if self.is_limited() {
            self.call.limited_name()
        } else {
            self.call.name()
        }
    }

    fn lent(&self, marks: &'a mut [u8], needed: &'a mut [u8], out: &'a mut [u8]) -> Lent<'a> {
        Lent {
            table: self.table,
            cut: self.cut,
            odd: self.odd,
            bytes: self.bytes,
            message: self.message,
            session: self.session,
            marks,
            needed,
            out,
        }
    }

    /// Makes the call on copies of the written buffers.
    pub fn run(&self, calls: &dyn Calls) -> After {
        let (mut marks, mut needed, mut out) = (self.marks.to_vec(), self.needed.to_vec(), self.out.to_vec());
        let outcome = calls.run(self.call, &mut self.lent(&mut marks, &mut needed, &mut out));
        After {
            outcome,
            marks,
            needed,
            out,
        }
    }
}

/// Memory for all that a call is lent.
pub struct Regions {
    times: Region,
    ids: Region,
    message: Region,
    marks: Region,
    needed: Region,
    out: Region,
    batch_times: Region,
}

fn place_table<'a>(times: &'a mut Region, ids: &'a mut Region, table: Table<'_>, side: Side) -> Table<'a> {
    Table {
        times: times.place_times(table.times, side),
        ids: ids.place(table.ids, side),
    }
}

fn table_fits(table: Table<'_>) -> bool {
    8 * table.times.len() <= ROOM && table.ids.len() <= ROOM
}

impl Regions {
    pub fn new() -> Regions {
        Regions {
            times: Region::new(),
            ids: Region::new(),
            message: Region::new(),
            marks: Region::new(),
            needed: Region::new(),
            out: Region::new(),
            batch_times: Region::new(),
        }
    }

    /// Makes the call with every slice at one end of its region; none if one does not fit. The flag says whether the
    /// slices that were lent for reading are as before.
    pub fn run(&mut self, calls: &dyn Calls, input: &Input<'_>, side: Side) -> Option<(After, bool)> {
        let buffers = [input.message, input.marks, input.needed, input.out];
        if !table_fits(input.table) || buffers.iter().any(|buffer| buffer.len() > ROOM) {
            return None;
        }
        let placed = Input {
            table: place_table(&mut self.times, &mut self.ids, input.table, side),
            message: self.message.place(input.message, side),
            ..*input
        };
        let marks = self.marks.place(input.marks, side);
        let needed = self.needed.place(input.needed, side);
        let out = self.out.place(input.out, side);
        let outcome = calls.run(input.call, &mut placed.lent(marks, needed, out));
        let same_table = placed.table.times == input.table.times && placed.table.ids == input.table.ids;
        let after = After {
            outcome,
            marks: marks.to_vec(),
            needed: needed.to_vec(),
            out: out.to_vec(),
        };
        Some((after, same_table && placed.message == input.message))
    }

    /// The fingerprint call in the same way.
    pub fn fingerprint(
        &mut self,
        calls: &dyn Calls,
        table: Table<'_>,
        [lower, upper]: [GivenBound<'_>; 2],
        side: Side,
    ) -> Option<Result<[u8; 16], u8>> {
        if !table_fits(table) {
            return None;
        }
        let table = place_table(&mut self.times, &mut self.ids, table, side);
        let lower = GivenBound {
            prefix: self.message.place(lower.prefix, side),
            ..lower
        };
        let upper = GivenBound {
            prefix: self.needed.place(upper.prefix, side),
            ..upper
        };
        Some(calls.fingerprint(table, lower, upper))
    }

    /// A build or an append in the same way; the flag as well.
    pub fn tree(&mut self, calls: &dyn Calls, input: &TreeInput<'_>, side: Side) -> Option<(TreeAfter, bool)> {
        let id = input.item.map_or(&[][..], |item| item.id);
        if !table_fits(input.table) || id.len() > ROOM || input.tree.len() > ROOM {
            return None;
        }
        let table = place_table(&mut self.times, &mut self.ids, input.table, side);
        let placed_id = self.message.place(id, side);
        let tree = self.out.place(input.tree, side);
        let item = input.item.map(|item| GivenItem { id: placed_id, ..item });
        let outcome = TreeInput { table, item, ..*input }.make(calls, tree);
        let unchanged = table.times == input.table.times && table.ids == input.table.ids && placed_id == id;
        let tree = tree.to_vec();
        Some((TreeAfter { outcome, tree }, unchanged))
    }

    /// The label of a run in the same way; the flag as well.
    pub fn tree_label(
        &mut self,
        calls: &dyn Calls,
        tree: &[u8],
        (from, to): (usize, usize),
        side: Side,
    ) -> Option<(RunOutcome, bool)> {
        if tree.len() > ROOM {
            return None;
        }
        let placed = self.out.place(tree, side);
        let result = calls.tree_label(placed, from, to);
        Some((result, placed == tree))
    }

    /// An inquiry or a commit in the same way; the flag is that of the batch.
    pub fn fold(&mut self, calls: &dyn Calls, input: &FoldInput<'_>, side: Side) -> Option<(FoldAfter, bool)> {
        let table = Table {
            times: input.times,
            ids: input.ids,
        };
        if !table_fits(table) || !table_fits(input.batch) || input.needed.len() > ROOM {
            return None;
        }
        let batch = place_table(&mut self.batch_times, &mut self.message, input.batch, side);
        let mut lent = FoldLent {
            times: self.times.place_times(input.times, side),
            ids: self.ids.place(input.ids, side),
            items: input.items,
            session: input.session,
            needed: self.needed.place(input.needed, side),
            batch,
        };
        let outcome = calls.fold(input.call, &mut lent);
        let after = FoldAfter {
            outcome,
            times: lent.times.to_vec(),
            ids: lent.ids.to_vec(),
            needed: lent.needed.to_vec(),
        };
        let unchanged = batch.times == input.batch.times && batch.ids == input.batch.ids;
        Some((after, unchanged))
    }

    /// The digest in the same way.
    pub fn sha256(&mut self, calls: &dyn Calls, message: &[u8], side: Side) -> Option<[u8; 32]> {
        if message.len() > ROOM {
            return None;
        }
        Some(calls.sha256(self.message.place(message, side)))
    }
}
