//! Room for the message and for the needed list: each size around what is needed, with and without a byte limit.
use super::Case;
use crate::calls::Call;
use crate::compare::Check;
use crate::exchange::{Ends, Exchange};
use crate::generate::{lawful_limit, two_cuts, TwoTables, RELATIONS, SHAPES};
use crate::input::Input;
use std::ops::RangeInclusive;

pub fn cases(long: bool) -> u64 {
    if long {
        6_000
    } else {
        3_000
    }
}

pub fn run(case: &mut Case<'_, '_>) -> Check {
    let (shape, relation) = (case.rng.pick(&SHAPES), case.rng.pick(&RELATIONS));
    let count = case.rng.below(if case.index % 8 == 0 { 200 } else { 9 });
    let tables = TwoTables::new(&mut case.rng, shape, relation, count).tables();
    let cuts = two_cuts(&mut case.rng, 75);
    let ends = Ends { tables, cuts };
    let marks = case.rng.bytes(ends.opener().table.count());
    let opening = ends.opener().input(Call::Open).within(lawful_limit(&mut case.rng));
    each_out_size(case, &opening.opened(&marks, &[]))?;
    let mut exchange = Exchange::open(case, &ends)?;
    while !exchange.session.done {
        let last = exchange.last_query();
        let answering = ends.responder().input(Call::Answer).within(lawful_limit(&mut case.rng));
        each_out_size(case, &answering.with_message(exchange.query(last)))?;
        let reply = exchange.answer(case, last)?;
        let limit = lawful_limit(&mut case.rng);
        each_needed_size(case, &exchange.take_input(&reply).within(limit))?;
        exchange.take(case, last)?;
    }
    Ok(())
}

/// All sizes from 0 to two more than the exact one; around it only, if that is large.
fn sizes(exact: usize, large: usize) -> RangeInclusive<usize> {
    let least = if exact <= large { 0 } else { exact - 1 };
    least..=exact + 2
}

/// Each out size: refused by 12 where the message is longer, and only there.
fn each_out_size(case: &mut Case<'_, '_>, input: &Input<'_>) -> Check {
    let (length, _) = case.room(input)?;
    for size in sizes(length, 150) {
        let out = case.rng.bytes(size);
        case.expect(&input.with_out(&out), if size < length { 12 } else { 0 })?;
    }
    Ok(())
}

/// Each size of the needed buffer: 4 where it is below the list, 11 where it is too small for what comes, whatever the
/// out buffer; where it is large enough, each out size.
fn each_needed_size(case: &mut Case<'_, '_>, input: &Input<'_>) -> Check {
    let (length, count) = case.room(input)?;
    for capacity in sizes(count, 20) {
        let mut needed = input.needed.to_vec();
        needed.truncate(32 * capacity);
        needed.extend(case.rng.bytes(32 * capacity - needed.len()));
        let input = input.with_needed(&needed);
        if capacity >= count {
            each_out_size(case, &input)?;
            continue;
        }
        let number = if capacity < input.session.needed { 4 } else { 11 };
        for size in [0, length.saturating_sub(1), length, length + 1] {
            let out = case.rng.bytes(size);
            case.expect(&input.with_out(&out), number)?;
        }
    }
    Ok(())
}
