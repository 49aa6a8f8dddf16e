//! Tables of all shapes and sizes, all cuts, and all ways in which two tables can differ: sessions in order.
use super::Case;
use crate::compare::Check;
use crate::exchange::{Ends, Exchange};
use crate::generate::{two_cuts, TwoTables, RELATIONS, SHAPES};
use crate::rng::Rng;
use recon::Cut;

/// Every shape with every relation, this often.
pub fn cases(long: bool) -> u64 {
    let rounds = if long { 120 } else { 80 };
    rounds * (SHAPES.len() * RELATIONS.len()) as u64
}

pub fn run(case: &mut Case<'_, '_>) -> Check {
    let number = case.index as usize;
    let shape = SHAPES[number % SHAPES.len()];
    let relation = RELATIONS[number / SHAPES.len() % RELATIONS.len()];
    let cuts = two_cuts(&mut case.rng, 0);
    let count = size(&mut case.rng, cuts[0], if case.long { 5_000 } else { 700 });
    let mut tables = TwoTables::new(&mut case.rng, shape, relation, count).tables();
    if case.rng.chance(50) {
        tables.reverse();
    }
    let ends = Ends { tables, cuts };
    Exchange::open(case, &ends)?.finish(case)
}

/// A size at which something changes for this cut, if it is at most so large; seldom one around the largest list limit,
/// more often where that is the cut's.
fn size(rng: &mut Rng, cut: Cut, most: usize) -> usize {
    let Cut { parts, limit } = cut;
    if rng.chance(if limit == 4_096 { 30 } else { 4 }) {
        return rng.pick(&[4_095, 4_096, 4_097]);
    }
    let near = rng.pick(&[2, limit, 2 * limit, 2 * parts, parts * limit]);
    let size = rng.pick(&[0, 1, near - 1, near, near + 1]);
    if size <= most {
        size
    } else {
        rng.below(most)
    }
}
