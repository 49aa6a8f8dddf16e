//! Whole sessions with takes in any order: late, repeated and reordered answers, and refused takes between them.
use super::Case;
use crate::compare::Check;
use crate::exchange::{Ends, Exchange};
use crate::generate::{two_cuts, Relation, TwoTables, RELATIONS, SHAPES};
use crate::schedule;

pub fn cases(_long: bool) -> u64 {
    30_000
}

pub fn run(case: &mut Case<'_, '_>) -> Check {
    let tables = tables(case).tables();
    let cuts = two_cuts(&mut case.rng, 80);
    let ends = Ends { tables, cuts };
    let mut exchange = Exchange::open(case, &ends)?;
    schedule::run(case, &mut exchange, true, &mut |_, _, _| {})
}

fn tables(case: &mut Case<'_, '_>) -> TwoTables {
    let rng = &mut case.rng;
    let shape = rng.pick(&SHAPES);
    // Tables that differ in many places need several replies, so that some of them can come late.
    let far = [
        Relation::TenPercent,
        Relation::Half,
        Relation::TheirsInside,
        Relation::OursInside,
    ];
    let relation = if rng.chance(60) {
        rng.pick(&far)
    } else {
        rng.pick(&RELATIONS)
    };
    let most = rng.pick(&[4, 20, 60, 60, if case.long { 1_000 } else { 150 }]);
    let count = rng.between(most / 4, most);
    let mut tables = TwoTables::new(rng, shape, relation, count);
    if rng.chance(30) {
        (0..rng.between(1, 3)).for_each(|_| tables.add_collision(rng));
    }
    tables
}
