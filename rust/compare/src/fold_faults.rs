//! The faults that an inquiry or a commit can be handed: each spoils a lawful input so that one check refuses it.
use crate::calls::{Call, FoldCall};
use crate::faults::{faults_of, AnyFault, Draft, Fault};
use crate::fold::{items_of, FoldInput};
use crate::generate::{id_from, Id, Item, OwnedTable};
use crate::input::Input;
use recon::{Cut, Session, Table, MAX_ITEMS};
use std::rc::Rc;

/// An input that owns what it is made of, to be spoiled.
#[derive(Clone)]
pub struct FoldDraft {
    pub times: Vec<u64>,
    pub ids: Vec<u8>,
    pub items: usize,
    pub session: Session,
    pub needed: Vec<u8>,
    /// The batch is its table; nothing else of it is handed over.
    batch: Draft,
}

/// A draft of which only the table is used.
fn table_draft(table: Table<'_>) -> Draft {
    Draft::of(&Input::new(Call::Open, table, Cut::default()))
}

impl FoldDraft {
    /// A table without room behind it, and a session that is done with this needed list.
    pub fn new(table: &OwnedTable, session: Session, needed: &[u8], batch: &OwnedTable) -> FoldDraft {
        FoldDraft {
            times: table.times.clone(),
            ids: table.ids.clone(),
            items: table.count(),
            session,
            needed: needed.to_vec(),
            batch: table_draft(batch.lent()),
        }
    }

    pub fn input(&self) -> FoldInput<'_> {
        FoldInput {
            call: FoldCall::Inquire,
            times: &self.times,
            ids: &self.ids,
            items: self.items,
            session: self.session,
            needed: &self.needed,
            batch: self.batch.table.lent(),
        }
    }

    pub fn batch(&self) -> &OwnedTable {
        &self.batch.table
    }

    pub fn set_batch(&mut self, batch: &OwnedTable) {
        self.batch = table_draft(batch.lent());
    }

    /// How many items the table has, as far as its buffers hold them.
    fn count(&self) -> usize {
        self.items.min(self.times.len()).min(self.ids.len() / 32)
    }

    /// Spoils the items of the table by a fault that leaves their number.
    fn spoil_items(&mut self, fault: &Fault) {
        let count = self.count();
        let mut draft = table_draft(Table {
            times: &self.times[..count],
            ids: &self.ids[..32 * count],
        });
        fault.spoil(&mut draft);
        self.times[..count].copy_from_slice(&draft.table.times);
        self.ids[..32 * count].copy_from_slice(&draft.table.ids);
    }

    /// The items that the merge has.
    fn merged(&self) -> usize {
        self.items.saturating_add(self.batch().count())
    }

    /// Whether the batch may be changed: one of too many items is refused as it is.
    fn is_small(&self) -> bool {
        self.batch().count() < 100_000
    }

    /// Puts an item into the batch at its place. Whatever was wrong with the batch remains so: an item comes between
    /// two others only if they rise.
    fn add_to_batch(&mut self, item: impl FnOnce(&FoldDraft) -> Item) {
        if self.is_small() {
            let item = item(self);
            let batch = Rc::make_mut(&mut self.batch.table);
            insert(&mut batch.times, &mut batch.ids, usize::MAX, item);
        }
    }

    /// Puts the batch's item at a place into the table, too, as far as there is one.
    fn add_to_table(&mut self, at: usize) {
        let batch = self.batch().lent();
        let item = items_of(batch.times, batch.ids).nth(at);
        if let Some(item) = item {
            let count = self.count();
            insert(&mut self.times, &mut self.ids, count, item);
            self.items = self.items.saturating_add(1);
        }
    }

    /// The first and the last time of the batch.
    fn batch_times(&self) -> [u64; 2] {
        let times = &self.batch().times;
        [times.first(), times.last()].map(|time| time.copied().unwrap_or(0))
    }
}

/// Puts an item before the first of so many that is not below it.
fn insert(times: &mut Vec<u64>, ids: &mut Vec<u8>, most: usize, item: Item) {
    let items: Vec<Item> = items_of(times, ids).take(most).collect();
    let at = items.partition_point(|other| *other < item);
    times.insert(at, item.0);
    ids.splice(32 * at..32 * at, item.1);
}

/// What a fault is in. Two faults of the same number and part may undo each other.
#[derive(Clone, Copy, Debug, PartialEq, Eq)]
enum Part {
    Table,
    Batch,
    Needed,
}

#[derive(Clone, Copy)]
enum Spoil {
    /// A fault of the table's items, or of the batch.
    Items(Fault),
    Batch(Fault),
    Edit(fn(&mut FoldDraft)),
}

#[derive(Clone, Copy)]
pub struct FoldFault {
    number: u8,
    name: &'static str,
    part: Part,
    spoil: Spoil,
}

impl AnyFault for FoldFault {
    type Draft = FoldDraft;

    fn number(&self) -> u8 {
        self.number
    }

    /// What it is in, and what is wrong there.
    fn name(&self) -> String {
        format!("{:?}, {}", self.part, self.name)
    }

    fn spoil(&self, draft: &mut FoldDraft) {
        match &self.spoil {
            Spoil::Items(fault) => draft.spoil_items(fault),
            Spoil::Batch(fault) if draft.is_small() => fault.spoil(&mut draft.batch),
            Spoil::Batch(_) => {}
            Spoil::Edit(edit) => edit(draft),
        }
    }

    /// They are checked in the order of their numbers.
    fn with(&self, other: &FoldFault) -> Option<u8> {
        if self.number == other.number && self.part == other.part {
            return None;
        }
        Some(self.number.min(other.number))
    }
}

/// All faults that the two calls judge.
pub fn fold_faults() -> Vec<FoldFault> {
    let of_tables = faults_of(Call::Open).into_iter().filter(|fault| fault.number <= 2);
    let mut faults = Vec::new();
    for fault in of_tables {
        let (number, name) = (fault.number, fault.name);
        let fault_in = |part, spoil| FoldFault {
            number,
            name,
            part,
            spoil,
        };
        faults.push(fault_in(Part::Batch, Spoil::Batch(fault)));
        // A table's buffers may have any lengths, so that it is short in other ways.
        if number == 2 {
            faults.push(fault_in(Part::Table, Spoil::Items(fault)));
        }
    }
    let lists = [size_faults(), needed_faults(), due_faults(), room_faults()];
    faults.extend(lists.into_iter().flatten());
    faults.push(edit(15, "a session that is not done", Part::Needed, |d| {
        d.session.done = false;
    }));
    faults
}

fn edit(number: u8, name: &'static str, part: Part, edit: fn(&mut FoldDraft)) -> FoldFault {
    FoldFault {
        number,
        name,
        part,
        spoil: Spoil::Edit(edit),
    }
}

/// 1 in the table.
fn size_faults() -> Vec<FoldFault> {
    let in_table = |name, spoil| edit(1, name, Part::Table, spoil);
    vec![
        in_table("one time too few", |d| d.times.truncate(d.items.saturating_sub(1))),
        in_table("one id byte too few", |d| {
            d.ids.truncate(d.items.saturating_mul(32).saturating_sub(1));
        }),
        in_table("one id too few", |d| {
            d.ids.truncate(d.items.saturating_sub(1).saturating_mul(32));
        }),
        in_table("no times", |d| d.times.clear()),
        in_table("no ids", |d| d.ids.clear()),
        in_table("one item more than times", |d| d.items = d.times.len() + 1),
        in_table("one item more than ids", |d| d.items = d.ids.len() / 32 + 1),
        in_table("one item more than a table may have", |d| d.items = MAX_ITEMS + 1),
        in_table("2^59 items", |d| d.items = 1 << 59),
        in_table("2^59 items and two", |d| d.items = (1 << 59) + 2),
        in_table("2^61 items", |d| d.items = 1 << 61),
        in_table("the most items of all", |d| d.items = usize::MAX),
    ]
}

/// Two ids of the needed list that stand one behind the other, if they are there.
fn two_needed(draft: &mut FoldDraft, at: usize) -> Option<(&mut [u8], &mut [u8])> {
    Some(draft.needed.get_mut(32 * at..32 * (at + 2))?.split_at_mut(32))
}

/// 4. The lawful lists have two ids at least.
fn needed_faults() -> Vec<FoldFault> {
    let in_list = |name, spoil| edit(4, name, Part::Needed, spoil);
    vec![
        in_list("one byte too few", |d| {
            d.needed.pop();
        }),
        in_list("one byte too many", |d| d.needed.push(0)),
        in_list("no buffer", |d| d.needed.clear()),
        in_list("one id more than the buffer holds", |d| {
            d.session.needed = d.needed.len() / 32 + 1;
        }),
        in_list("2^59 ids", |d| d.session.needed = 1 << 59),
        in_list("2^59 ids and one", |d| d.session.needed = (1 << 59) + 1),
        in_list("the most ids of all", |d| d.session.needed = usize::MAX),
        in_list("falling ids", |d| {
            if let Some((first, second)) = two_needed(d, 0) {
                first.swap_with_slice(second);
            }
        }),
        in_list("equal ids", |d| {
            if let Some((first, second)) = two_needed(d, 0) {
                second.copy_from_slice(first);
            }
        }),
        in_list("equal ids at the end", |d| {
            let last_but_one = d.session.needed.saturating_sub(2).min(d.needed.len());
            if let Some((first, second)) = two_needed(d, last_but_one) {
                second.copy_from_slice(first);
            }
        }),
    ]
}

/// An id that no list here has.
fn unknown(last: u8) -> Id {
    let mut id = id_from(&[0x5a; 31]);
    id[31] = last;
    id
}

/// 16.
fn due_faults() -> Vec<FoldFault> {
    let in_batch = |name, spoil| edit(16, name, Part::Batch, spoil);
    vec![
        in_batch("an id in front that is not needed", |d| {
            d.add_to_batch(|d| (d.batch_times()[0].saturating_sub(1), unknown(0)));
        }),
        in_batch("an id between that is not needed", |d| {
            d.add_to_batch(|d| (d.batch_times()[0], unknown(1)));
        }),
        in_batch("an id behind that is not needed", |d| {
            d.add_to_batch(|d| (d.batch_times()[1].saturating_add(1), unknown(2)));
        }),
        in_batch("a first item that the table has", |d| d.add_to_table(0)),
        in_batch("a second item that the table has", |d| d.add_to_table(1)),
        in_batch("an item of the table that is not needed", |d| {
            d.add_to_batch(|d| items_of(&d.times, &d.ids).next().unwrap_or((0, unknown(3))));
        }),
    ]
}

/// 17.
fn room_faults() -> Vec<FoldFault> {
    let in_table = |name, spoil| edit(17, name, Part::Table, spoil);
    vec![
        in_table("room for one time too few", |d| {
            d.times.truncate(d.merged().saturating_sub(1));
        }),
        in_table("one id byte of room too few", |d| {
            d.ids.truncate(d.merged().saturating_mul(32).saturating_sub(1));
        }),
        in_table("room for one id too few", |d| {
            d.ids.truncate(d.merged().saturating_sub(1).saturating_mul(32));
        }),
        in_table("no room for times", |d| d.times.truncate(d.items)),
        in_table("no room for ids", |d| d.ids.truncate(d.items.saturating_mul(32))),
    ]
}
