//! The ways in which a table can change between the calls of a session; marks go with their items.
use crate::faults::Draft;
use crate::generate::{Id, Item, OwnedTable, LAST_TIME};
use crate::label::{minus, plus};
use crate::rng::Rng;
use std::rc::Rc;

/// An item and its mark.
type Marked = (Item, u8);

/// A way. It makes no change where the items are too few for it.
pub struct Change {
    pub name: &'static str,
    /// The label stays the same: no take can see the change.
    pub same_label: bool,
    make: fn(&mut Rng, &mut Vec<Marked>) -> Option<()>,
}

impl Change {
    /// A draft with its table changed, and with the marks and their count that fit; none where that cannot be.
    pub fn of(&self, rng: &mut Rng, draft: &Draft) -> Option<Draft> {
        let marks = draft.marks.iter().copied();
        let mut items: Vec<Marked> = draft.table.items().into_iter().zip(marks).collect();
        (self.make)(rng, &mut items)?;
        items.sort_unstable();
        if items.windows(2).any(|pair| pair[0].0 == pair[1].0) {
            return None;
        }
        let mut changed = draft.clone();
        let only_items: Vec<Item> = items.iter().map(|marked| marked.0).collect();
        changed.table = Rc::new(OwnedTable::of(&only_items));
        changed.marks = items.iter().map(|marked| marked.1).collect();
        changed.session.marked = changed.marks.iter().filter(|&&mark| mark == 1).count();
        Some(changed)
    }
}

const fn other(name: &'static str, make: fn(&mut Rng, &mut Vec<Marked>) -> Option<()>) -> Change {
    Change {
        name,
        same_label: false,
        make,
    }
}

const fn same(name: &'static str, make: fn(&mut Rng, &mut Vec<Marked>) -> Option<()>) -> Change {
    Change {
        name,
        same_label: true,
        make,
    }
}

pub const CHANGES: [Change; 23] = [
    other("an item in front", |rng, items| {
        let time = items.first()?.0 .0.checked_sub(1)?;
        add(items, (time, rng.id()))
    }),
    other("an item in between", |rng, items| {
        let time = any(rng, items)?.0 .0;
        add(items, (time, rng.id()))
    }),
    other("an item behind", |rng, items| {
        let time = items.last().map_or(0, |last| last.0 .0.saturating_add(1));
        add(items, (time.min(LAST_TIME), rng.id()))
    }),
    // The sum stays.
    other("an item more, of zeros", |rng, items| {
        let time = rng.word() >> 1;
        add(items, (time, [0; 32]))
    }),
    other("an item parted into two", |rng, items| {
        let item = any(rng, items)?;
        let first = rng.id();
        item.0 .1 = minus(&item.0 .1, &first);
        let time = item.0 .0;
        add(items, (time, first))
    }),
    other("two items joined to one", |rng, items| {
        let [kept, gone] = two(rng, items)?;
        items[kept].0 .1 = plus(&items[kept].0 .1, &items[gone].0 .1);
        items.remove(gone);
        Some(())
    }),
    // The number of items goes down.
    other("the first item removed", |_, items| {
        items.first()?;
        items.remove(0);
        Some(())
    }),
    other("an item removed", |rng, items| {
        any(rng, items)?;
        items.remove(rng.below(items.len()));
        Some(())
    }),
    other("the last item removed", |_, items| items.pop().map(|_| ())),
    other("all items removed", |_, items| {
        items.first()?;
        items.clear();
        Some(())
    }),
    // The number of items stays.
    other("an id exchanged for another", |rng, items| {
        let id = rng.id();
        any(rng, items)?.0 .1 = id;
        Some(())
    }),
    other("an item exchanged for another", |rng, items| {
        let item = (rng.word() >> 1, rng.id());
        any(rng, items)?.0 = item;
        Some(())
    }),
    other("all items exchanged for others", |rng, items| {
        items.first()?;
        items.iter_mut().for_each(|item| item.0 = (rng.word() >> 1, rng.id()));
        Some(())
    }),
    other("a bit of an id turned", |rng, items| {
        let (at, bit) = (rng.below(32), rng.below(8));
        any(rng, items)?.0 .1[at] ^= 1 << bit;
        Some(())
    }),
    other("the first word of an id one more", |rng, items| one_more(rng, items, 0)),
    other("the second word of an id one more", |rng, items| {
        one_more(rng, items, 1)
    }),
    other("the third word of an id one more", |rng, items| one_more(rng, items, 2)),
    other("the last word of an id one more", |rng, items| one_more(rng, items, 3)),
    same("a time changed", |rng, items| {
        let time = rng.word() >> 1;
        any(rng, items)?.0 .0 = time;
        Some(())
    }),
    same("all times moved on", |_, items| {
        items
            .iter_mut()
            .for_each(|item| item.0 .0 = item.0 .0.saturating_add(1).min(LAST_TIME));
        Some(())
    }),
    same("two ids exchanged for each other", |rng, items| {
        let [first, second] = two(rng, items)?;
        let ids = [items[first].0 .1, items[second].0 .1];
        (items[first].0 .1, items[second].0 .1) = (ids[1], ids[0]);
        Some(())
    }),
    same("one id more by what another is less", |rng, items| {
        let ([first, second], by) = (two(rng, items)?, rng.id());
        items[first].0 .1 = plus(&items[first].0 .1, &by);
        items[second].0 .1 = minus(&items[second].0 .1, &by);
        Some(())
    }),
    same("changed and put back", |_, _| Some(())),
];

/// Any item.
fn any<'a>(rng: &mut Rng, items: &'a mut [Marked]) -> Option<&'a mut Marked> {
    let at = rng.below(items.len().max(1));
    items.get_mut(at)
}

/// The places of any two items.
fn two(rng: &mut Rng, items: &[Marked]) -> Option<[usize; 2]> {
    if items.len() < 2 {
        return None;
    }
    let first = rng.below(items.len());
    let second = (first + rng.between(1, items.len() - 1)) % items.len();
    Some([first, second])
}

fn add(items: &mut Vec<Marked>, item: Item) -> Option<()> {
    items.push((item, 0));
    Some(())
}

/// Adds 1 to a word of an id.
fn one_more(rng: &mut Rng, items: &mut [Marked], word: usize) -> Option<()> {
    let mut one: Id = [0; 32];
    one[8 * word] = 1;
    let id = &mut any(rng, items)?.0 .1;
    *id = plus(id, &one);
    Some(())
}
