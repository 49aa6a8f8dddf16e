//! Sessions opened under the former rule and carried on under that of today. The reference alone makes the calls by the
//! former rule; all others are compared. Each end changes over by itself, at any time, or is of either rule at each call.
//! Answers of before come late and again, and queries of before are answered afresh.
use super::within::Choice;
use super::Case;
use crate::compare::Check;
use crate::exchange::{Ends, Exchange};
use crate::generate::{two_cuts, Item, OwnedTable, Relation, TwoTables, SHAPES};
use crate::rng::Rng;
use crate::schedule;
use recon::Cut;
use reference::Odd;

pub fn cases(long: bool) -> u64 {
    if long {
        6_000
    } else {
        3_000
    }
}

/// One of these cases has byte limits, and larger tables for them.
const LIMITED: u64 = 15;

pub fn run(case: &mut Case<'_, '_>) -> Check {
    let is_limited = case.index % LIMITED == 0;
    let rng = &mut case.rng;
    let cuts = two_cuts(rng, 90);
    let tables = tables(rng, cuts[0], is_limited);
    let ends = Ends { tables, cuts };
    let choice = if is_limited {
        Choice::new(rng)
    } else {
        Choice::Fixed([None; 2])
    };
    let changes = changes(rng);
    let (limits, rules) = (choice.limits(rng), changes.map(|change| change.rule(rng, 0)));
    // Where no answer comes late, the takes in a row may be as many as L allows.
    let late = rng.chance(50);
    let mut exchange = Exchange::open_by(case, &ends, limits, rules)?;
    schedule::run(case, &mut exchange, late, &mut |rng, exchange, query| {
        exchange.limits = choice.limits(rng);
        let now = exchange.sent();
        // An answer may have been made when its query came, and arrive now.
        let answered = rng.pick(&[query + 1, now]);
        exchange.rules = [changes[0].rule(rng, now), changes[1].rule(rng, answered)];
    })
}

/// When an end changes over.
#[derive(Clone, Copy)]
enum Change {
    /// Where so many queries have been sent.
    After(usize),
    /// At each call it is of either rule.
    Mixed,
}

impl Change {
    /// The rule of a call where so many queries have been sent.
    fn rule(self, rng: &mut Rng, sent: usize) -> Odd {
        let is_former = match self {
            Change::After(queries) => sent < queries,
            Change::Mixed => rng.chance(50),
        };
        if is_former {
            Odd::ToFirst
        } else {
            Odd::ToLast
        }
    }
}

/// Those of both ends: before the opening or right after it, later, or in any mix; at least one has a call by the former
/// rule. The first answer is made where one query has been sent.
fn changes(rng: &mut Rng) -> [Change; 2] {
    let later = [rng.between(2, 5), rng.between(2, 5)].map(Change::After);
    let [never, opening] = [0, 1].map(Change::After);
    if rng.chance(15) {
        return [never, rng.pick(&[later[1], Change::Mixed])];
    }
    [
        rng.pick(&[opening, opening, later[0], later[0], Change::Mixed]),
        rng.pick(&[never, later[1], later[1], Change::Mixed]),
    ]
}

/// Tables that differ in many places, or in one.
fn tables(rng: &mut Rng, cut: Cut, is_limited: bool) -> [OwnedTable; 2] {
    let count = size(rng, cut, if is_limited { 400 } else { 150 });
    if rng.chance(40) {
        return in_one_place(rng, count);
    }
    let shape = rng.pick(&SHAPES);
    let relation = rng.pick(&[
        Relation::TenPercent,
        Relation::Half,
        Relation::OursInside,
        Relation::Disjoint,
        Relation::TwoTimes,
    ]);
    let mut tables = TwoTables::new(rng, shape, relation, count);
    if rng.chance(20) {
        tables.add_collision(rng);
    }
    tables.tables()
}

/// All that the responder has more lies between two items of ours, or before or behind them all: it finds its bounds
/// there, and leaves ours to the opener's cuts alone, so that the takes are as many as L allows.
fn in_one_place(rng: &mut Rng, count: usize) -> [OwnedTable; 2] {
    let ours: Vec<Item> = (1..=count as u64).map(|number| (1_000 * number, rng.id())).collect();
    let any = rng.below(count + 1);
    let place = 1_000 * rng.pick(&[0, any, count]) as u64;
    let more = (0..rng.between(100, 400)).map(|_| (place + 1 + rng.below(900) as u64, rng.id()));
    let mut theirs: Vec<Item> = more.collect();
    theirs.extend(&ours);
    theirs.sort_unstable();
    [OwnedTable::of(&ours), OwnedTable::of(&theirs)]
}

/// A number of items at which L is as large as it can be here, or any.
fn size(rng: &mut Rng, cut: Cut, most: usize) -> usize {
    let mut reach = cut.limit;
    while reach * cut.parts <= most {
        reach *= cut.parts;
    }
    if rng.chance(60) && reach <= most {
        reach - rng.below(cut.parts + 1)
    } else {
        rng.between(20, most)
    }
}
