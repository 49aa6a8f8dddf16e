//! A session to its end, and then the other end's items in several commits. That the table becomes the union of both is
//! checked on sets, without either implementation.
use crate::calls::Call;
use crate::compare::Check;
use crate::exchange::{End, Ends, Exchange};
use crate::faults::AnyFault;
use crate::fold::items_of;
use crate::fold_faults::{fold_faults, FoldDraft};
use crate::generate::{two_cuts, whole_ids, Id, Item, OwnedTable, Relation, TwoTables, RELATIONS, SHAPES};
use crate::kept::gives_back;
use crate::kinds::{expect_number, Case};
use recon::{Session, Table, MIN_BYTE_LIMIT};
use std::collections::BTreeSet;

/// What the opener holds after its session, and the items that the other end has yet to hand over.
struct Story<'a> {
    /// The table of the opening, and its marks.
    opener: End<'a>,
    marks: Vec<u8>,
    times: Vec<u64>,
    ids: Vec<u8>,
    items: usize,
    session: Session,
    needed: Vec<u8>,
    left: Vec<Item>,
}

pub fn without_limits(case: &mut Case<'_, '_>) -> Check {
    let most = case.rng.pick(&[4, 20, 60, if case.long { 800 } else { 150 }]);
    story(case, most, [None; 2])
}

/// With byte limits at either end or both.
pub fn within_limits(case: &mut Case<'_, '_>) -> Check {
    let least = Some(MIN_BYTE_LIMIT);
    let limits = case
        .rng
        .pick(&[[least, least], [least, None], [None, least], [Some(6_000), least]]);
    story(case, if case.long { 1_500 } else { 500 }, limits)
}

fn story(case: &mut Case<'_, '_>, most: usize, limits: [Option<usize>; 2]) -> Check {
    let rng = &mut case.rng;
    let (shape, relation) = (rng.pick(&SHAPES), rng.pick(&RELATIONS));
    let count = rng.between(most / 4, most);
    let tables = TwoTables::new(rng, shape, relation, count).tables();
    let cuts = two_cuts(rng, 50);
    let ends = Ends { tables, cuts };
    let union: BTreeSet<Item> = ends.tables.iter().flat_map(OwnedTable::items).collect();
    let before = case.comparer.counts.excused;
    let mut exchange = Exchange::open_within(case, &ends, limits)?;
    exchange.finish_late(case, &mut |_, _| Ok(()))?;
    let hidden = case.comparer.counts.excused > before;
    let mut story = Story::new(case, exchange, union.len());
    while !story.left.is_empty() {
        story.step(case)?;
    }
    story.last_calls(case)?;
    // An id under two times, or a colliding range, may hide items.
    if relation != Relation::TwoTimes && !hidden {
        story.check_union(&union)?;
        case.comparer.counts.unions += 1;
    }
    Ok(())
}

impl<'a> Story<'a> {
    /// The opener's table after its session, in buffers that hold so many items, exactly or with more room.
    fn new(case: &mut Case<'_, '_>, exchange: Exchange<'a>, most: usize) -> Story<'a> {
        let (ours, theirs, mut needed) = (exchange.opener.table, exchange.responder.table, exchange.list);
        let (mut times, mut ids) = (ours.times.clone(), ours.ids.clone());
        let (own, listed): (BTreeSet<Item>, BTreeSet<Id>) =
            (ours.items().into_iter().collect(), whole_ids(&needed).collect());
        // Where an id stands under two times, it may be needed though its item is in the table.
        let is_due = |item: &Item| listed.contains(&item.1) && !own.contains(item);
        let left: Vec<Item> = theirs.items().into_iter().filter(is_due).collect();
        let room = most - ours.count() + case.rng.pick(&[0, 0, 3]);
        times.extend((0..room).map(|_| case.rng.word()));
        ids.extend(case.rng.bytes(32 * room));
        let behind = 32 * case.rng.pick(&[0, 0, 2]);
        needed.extend(case.rng.bytes(behind));
        Story {
            opener: exchange.opener,
            marks: exchange.marks,
            times,
            ids,
            items: ours.count(),
            session: exchange.session,
            needed,
            left,
        }
    }

    fn draft(&self, batch: &[Item]) -> FoldDraft {
        let none = OwnedTable::default();
        let mut draft = FoldDraft::new(&none, self.session, &self.needed, &OwnedTable::of(batch));
        (draft.times, draft.ids, draft.items) = (self.times.clone(), self.ids.clone(), self.items);
        draft
    }

    /// One commit of some of the items that are left, or one that is refused.
    fn step(&mut self, case: &mut Case<'_, '_>) -> Check {
        let share = case.rng.pick(&[5, 30, 60, 100]);
        let batch: Vec<Item> = self.left.iter().copied().filter(|_| case.rng.chance(share)).collect();
        if case.rng.chance(30) {
            return self.refused(case, &batch);
        }
        let after = case.fold(&self.draft(&batch).input())?;
        expect_number(after.number(), 0)?;
        let committed = after.committed().ok_or("no commit")?;
        // An id that has left the list is not due under another time either.
        let gone: BTreeSet<Id> = batch.iter().map(|item| item.1).collect();
        self.left.retain(|item| !gone.contains(&item.1));
        (self.items, self.session) = (committed.items, committed.session);
        (self.times, self.ids, self.needed) = (after.times, after.ids, after.needed);
        case.comparer.counts.commits += 1;
        self.check_label(case)
    }

    /// The session keeps the label of its opening: with the table of then it is given back by its conversion and done for
    /// a take. With the table as it is now, unless that is the same, the marks do not fit; and if they did, it is another
    /// table.
    fn check_label(&self, case: &mut Case<'_, '_>) -> Check {
        let take = self.opener.input(Call::Take);
        let then = take.with_state(self.session, &self.marks, &self.needed);
        gives_back(case, &then)?;
        case.comparer.counts.given_back_later += 1;
        case.expect(&then, 5)?;
        let now = then.with_table(Table {
            times: &self.times[..self.items],
            ids: &self.ids[..32 * self.items],
        });
        let more = self.items - self.marks.len();
        let marks = [&self.marks[..], &vec![0; more]].concat();
        let fitting = now.with_state(self.session, &marks, &self.needed);
        let numbers = if more > 0 { (4, 18) } else { (5, 5) };
        case.expect(&now, numbers.0)?;
        case.expect(&fitting, numbers.1)?;
        case.expect(&fitting.of(Call::Convert), 0).map(|_| ())
    }

    /// A commit with up to two faults. One that is not refused after all is no commit of the list.
    fn refused(&self, case: &mut Case<'_, '_>, batch: &[Item]) -> Check {
        let mut draft = self.draft(batch);
        let faults = fold_faults();
        for _ in 0..case.rng.between(1, 2) {
            faults[case.rng.below(faults.len())].spoil(&mut draft);
        }
        case.fold(&draft.input()).map(|_| ())
    }

    /// An empty batch may always be committed, and none whose id is not needed.
    fn last_calls(&self, case: &mut Case<'_, '_>) -> Check {
        let item = (case.rng.word() % u64::MAX, case.rng.id());
        for (batch, number) in [(&[][..], 0), (&[item], 16)] {
            let after = case.fold(&self.draft(batch).input())?;
            expect_number(after.number(), number)?;
        }
        Ok(())
    }

    fn check_union(&self, union: &BTreeSet<Item>) -> Check {
        if self.session.needed > 0 {
            return Err(format!("{} ids are needed after all commits", self.session.needed));
        }
        let table = items_of(&self.times, &self.ids).take(self.items);
        if !table.eq(union.iter().copied()) {
            return Err("the table after all commits is not the union of both".to_string());
        }
        Ok(())
    }
}
