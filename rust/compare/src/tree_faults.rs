//! The faults that a build or an append can be handed: each spoils a lawful input so that one check refuses it.
use crate::calls::{Call, GivenItem, TreeCall};
use crate::faults::{faults_of, AnyFault, Draft, Fault};
use crate::generate::{id_from, OwnedTable};
use crate::input::Input;
use crate::tree::{places_over, TreeInput};
use recon::Cut;
use std::rc::Rc;

/// An input that owns what it is made of, to be spoiled.
#[derive(Clone)]
pub struct TreeDraft {
    call: TreeCall,
    /// The table; nothing else of it is handed over.
    draft: Draft,
    time: u64,
    id: Vec<u8>,
    tree: Vec<u8>,
}

impl TreeDraft {
    /// A build of the table, or an append of an item to it.
    pub fn new(call: TreeCall, table: &OwnedTable, item: (u64, &[u8]), tree: &[u8]) -> TreeDraft {
        let any_cut = Cut::default();
        TreeDraft {
            call,
            draft: Draft::of(&Input::new(Call::Open, table.lent(), any_cut)),
            time: item.0,
            id: item.1.to_vec(),
            tree: tree.to_vec(),
        }
    }

    pub fn input(&self) -> TreeInput<'_> {
        let (time, id) = (self.time, &self.id[..]);
        TreeInput {
            table: self.draft.table.lent(),
            item: Some(GivenItem { time, id }).filter(|_| self.call == TreeCall::Append),
            tree: &self.tree,
        }
    }

    /// The last item of the table, as far as it has one; the id as long as the one that is appended.
    fn last_item(&self) -> (u64, Vec<u8>) {
        let table = &self.draft.table;
        let mut id = table.ids[table.ids.len().saturating_sub(32)..].to_vec();
        id.resize(self.id.len(), 0);
        (table.times.last().copied().unwrap_or(0), id)
    }

    /// Puts items before the others, as many as there are free places; the tree has the right length still. Whatever
    /// was wrong with the table remains so.
    fn fill(&mut self) {
        let count = self.draft.table.count();
        let free = places_over(count) - count;
        // A table of too many items is refused as it is.
        if free < 100 {
            let table = Rc::make_mut(&mut self.draft.table);
            table.times.splice(0..0, vec![0; free]);
            let ids = (0..free).flat_map(|number| id_from(&[number as u8]));
            table.ids.splice(0..0, ids);
        }
    }
}

/// What a fault is in. Two faults of the same part may undo each other.
#[derive(Clone, Copy, PartialEq, Eq)]
enum Part {
    Table,
    Item,
    Tree,
}

#[derive(Clone, Copy)]
enum Spoil {
    Table(Fault),
    Edit(fn(&mut TreeDraft)),
}

#[derive(Clone, Copy)]
pub struct TreeFault {
    number: u8,
    name: &'static str,
    part: Part,
    spoil: Spoil,
}

impl AnyFault for TreeFault {
    type Draft = TreeDraft;

    fn number(&self) -> u8 {
        self.number
    }

    fn name(&self) -> String {
        self.name.to_string()
    }

    fn spoil(&self, draft: &mut TreeDraft) {
        match self.spoil {
            Spoil::Table(fault) => fault.spoil(&mut draft.draft),
            Spoil::Edit(edit) => edit(draft),
        }
    }

    /// 1 comes before 2, and 2 before 13.
    fn with(&self, other: &TreeFault) -> Option<u8> {
        if self.number == other.number && self.part == other.part {
            return None;
        }
        Some(self.number.min(other.number))
    }
}

/// The faults that a build or an append judges.
pub fn tree_faults_of(call: TreeCall) -> Vec<TreeFault> {
    let mut table = faults_of(Call::Open);
    table.retain(|fault| fault.number <= 2);
    let mut faults: Vec<TreeFault> = table
        .into_iter()
        .map(|fault| TreeFault {
            number: fault.number,
            name: fault.name,
            part: Part::Table,
            spoil: Spoil::Table(fault),
        })
        .collect();
    faults.extend(length_faults());
    if call == TreeCall::Append {
        faults.extend(item_faults());
        faults.push(in_tree("no free place", TreeDraft::fill));
    }
    faults
}

fn in_tree(name: &'static str, edit: fn(&mut TreeDraft)) -> TreeFault {
    TreeFault {
        number: 13,
        name,
        part: Part::Tree,
        spoil: Spoil::Edit(edit),
    }
}

fn in_item(number: u8, name: &'static str, edit: fn(&mut TreeDraft)) -> TreeFault {
    TreeFault {
        number,
        name,
        part: Part::Item,
        spoil: Spoil::Edit(edit),
    }
}

/// 13 by the length of the tree; the lawful ones have 3 or 5 to 7 or 9 items, and so 280, 600 or 1,240 bytes.
fn length_faults() -> Vec<TreeFault> {
    vec![
        in_tree("one tree byte too few", |d| {
            d.tree.pop();
        }),
        in_tree("one tree byte too many", |d| d.tree.push(0)),
        in_tree("no tree", |d| d.tree.clear()),
        in_tree("39 tree bytes", |d| d.tree.resize(39, 0)),
        in_tree("one label", |d| d.tree.resize(40, 0)),
        in_tree("two labels", |d| d.tree.resize(80, 0)),
        in_tree("four labels", |d| d.tree.resize(160, 0)),
        in_tree("five labels", |d| d.tree.resize(200, 0)),
        in_tree("half the places", |d| d.tree.truncate(d.tree.len() / 80 * 40)),
        in_tree("twice the places", |d| d.tree.resize(2 * d.tree.len() + 40, 0)),
    ]
}

/// 1 and 2 by the item of an append.
fn item_faults() -> Vec<TreeFault> {
    vec![
        in_item(1, "31 id bytes", |d| d.id.resize(31, 7)),
        in_item(1, "33 id bytes", |d| d.id.resize(33, 7)),
        in_item(1, "64 id bytes", |d| d.id.resize(64, 7)),
        in_item(1, "no id bytes", |d| d.id.clear()),
        in_item(2, "time 2^64 - 1", |d| d.time = u64::MAX),
        in_item(2, "an item equal to the last", |d| (d.time, d.id) = d.last_item()),
        in_item(2, "a lower id", |d| {
            (d.time, d.id) = d.last_item();
            if let Some(first) = d.id.first_mut() {
                *first = first.saturating_sub(1);
            }
        }),
        in_item(2, "a lower time", |d| {
            d.time = d.last_item().0.saturating_sub(1);
            d.id.fill(0xff);
        }),
    ]
}
