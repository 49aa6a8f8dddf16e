//! Byte limits: long messages of every call with limits at and around their lengths, and whole sessions with limits at
//! either end or both, which change or are dropped from call to call.
use super::Case;
use crate::calls::Call;
use crate::compare::Check;
use crate::exchange::{with_room, End, Ends, Exchange};
use crate::generate::{long_message, two_cuts, OwnedTable, Relation, TwoTables, RELATIONS, SHAPES};
use crate::input::Input;
use crate::rng::Rng;
use crate::short::steps;
use recon::{Cut, MAX_LIMIT, MIN_BYTE_LIMIT};

type Part = fn(&mut Case<'_, '_>) -> Check;

const PARTS: [Part; 5] = [lists, queries, replies, damaged, sessions];

pub fn cases(long: bool) -> u64 {
    let times = if long { 1_000 } else { 200 };
    times * PARTS.len() as u64
}

pub fn run(case: &mut Case<'_, '_>) -> Check {
    PARTS[case.index as usize % PARTS.len()](case)
}

/// So many items at most, of any shape.
fn table(case: &mut Case<'_, '_>, most: usize) -> OwnedTable {
    let (shape, count) = (case.rng.pick(&SHAPES), case.rng.between(most / 4, most));
    let [table, _] = TwoTables::new(&mut case.rng, shape, Relation::Equal, count).tables();
    table
}

/// Openings and answers that list all items, around the number from which a count has two bytes as well.
fn lists(case: &mut Case<'_, '_>) -> Check {
    let most = if case.rng.chance(50) { 132 } else { 700 };
    let table = table(case, most);
    let parts = case.rng.between(2, 64);
    let limit = case.rng.between(table.count().max(parts), MAX_LIMIT);
    let end = End {
        table: &table,
        cut: Cut { parts, limit },
    };
    let marks = case.rng.bytes(table.count());
    each_limit(case, &end.input(Call::Open).opened(&marks, &[]))?;
    each_limit(case, &end.input(Call::Answer).with_message(&[0x61, 0, 0, 2, 0]))
}

/// Answers to queries of many ranges.
fn queries(case: &mut Case<'_, '_>) -> Check {
    let table = table(case, 500);
    let [cut, _] = two_cuts(&mut case.rng, 50);
    let query = long_message(&mut case.rng, &table);
    let end = End { table: &table, cut };
    each_limit(case, &end.input(Call::Answer).with_message(&query))
}

/// Takes of replies of many ranges.
fn replies(case: &mut Case<'_, '_>) -> Check {
    let table = table(case, 500);
    let [cut, _] = two_cuts(&mut case.rng, 50);
    let reply = long_message(&mut case.rng, &table);
    let end = End { table: &table, cut };
    let marks = vec![0; table.count()];
    let input = end.input(Call::Take).with_message(&reply);
    each_limit(case, &input.opened(&marks, &[]))
}

/// The same as queries and as replies, with some bytes changed.
fn damaged(case: &mut Case<'_, '_>) -> Check {
    let table = table(case, 300);
    let [cut, _] = two_cuts(&mut case.rng, 50);
    let end = End { table: &table, cut };
    let lawful = long_message(&mut case.rng, &table);
    let marks = vec![0; table.count()];
    for _ in 0..20 {
        let mut bytes = lawful.clone();
        for _ in 0..case.rng.between(1, 3) {
            let at = case.rng.below(bytes.len());
            bytes[at] = case.rng.byte();
        }
        let needed = case.rng.bytes(32 * (bytes.len() / 32));
        let out = case.rng.bytes(20_000);
        for call in [Call::Answer, Call::Take] {
            let limit = case.rng.between(MIN_BYTE_LIMIT, 2 * MIN_BYTE_LIMIT);
            let input = end.input(call).within(Some(limit)).with_message(&bytes);
            let input = input.opened(&marks, &needed).with_out(&out);
            let after = case.comparer.call(&input)?;
            if after.outcome.is_ok() {
                case.check_short(&input, after.message())?;
            }
        }
    }
    Ok(())
}

/// A lawful call with each of several limits, and without.
fn each_limit(case: &mut Case<'_, '_>, input: &Input<'_>) -> Check {
    with_room(case, &input.within(None))?;
    let whole = case.whole(input);
    for limit in limits(&mut case.rng, &whole) {
        exact_and_short_room(case, &input.within(Some(limit)))?;
    }
    Ok(())
}

/// The least limit, the largest, those at and around the length of the whole message and one at which a range more is
/// kept, and others up to twice the length.
fn limits(rng: &mut Rng, whole: &[u8]) -> Vec<usize> {
    let most = MIN_BYTE_LIMIT.max(2 * whole.len());
    let steps: Vec<usize> = steps(whole).filter(|&step| step > MIN_BYTE_LIMIT).collect();
    let step = if steps.is_empty() { most } else { rng.pick(&steps) };
    let mut limits = [whole.len(), step]
        .map(|at| [at.saturating_sub(1), at, at + 1])
        .concat();
    limits.extend([MIN_BYTE_LIMIT, usize::MAX]);
    limits.extend([most, most / 2].map(|most| rng.between(MIN_BYTE_LIMIT, MIN_BYTE_LIMIT.max(most))));
    limits.retain(|&limit| limit >= MIN_BYTE_LIMIT);
    limits.sort_unstable();
    limits.dedup();
    limits
}

/// With room for what is written, and with one byte less.
fn exact_and_short_room(case: &mut Case<'_, '_>, input: &Input<'_>) -> Check {
    let (_, sent, _) = with_room(case, input)?;
    if sent.length > 0 {
        let mut needed = input.needed.to_vec();
        if input.call == Call::Take {
            needed.resize(32 * sent.session.needed, 0xee);
        }
        let out = case.rng.bytes(sent.length - 1);
        case.expect(&input.with_needed(&needed).with_out(&out), 12)?;
    }
    Ok(())
}

/// How the limits of a session are chosen.
#[derive(Clone, Copy)]
pub enum Choice {
    /// The same for all calls of each end.
    Fixed([Option<usize>; 2]),
    /// Others for each take and each answer.
    Changing,
}

impl Choice {
    pub fn new(rng: &mut Rng) -> Choice {
        let limit = Some(rng.pick(&[MIN_BYTE_LIMIT, 5_000, 9_000]));
        let fixed = [[limit, limit], [limit, None], [None, limit]];
        if rng.chance(60) {
            Choice::Fixed(rng.pick(&fixed))
        } else {
            Choice::Changing
        }
    }

    pub fn limits(self, rng: &mut Rng) -> [Option<usize>; 2] {
        let mut any = || {
            let other = Some(rng.between(MIN_BYTE_LIMIT, 20_000));
            rng.pick(&[None, Some(MIN_BYTE_LIMIT), other, Some(usize::MAX)])
        };
        match self {
            Choice::Fixed(limits) => limits,
            Choice::Changing => [any(), any()],
        }
    }
}

/// Sessions in order, and with late and repeated answers, given under the same limit or another.
fn sessions(case: &mut Case<'_, '_>) -> Check {
    let tables = two_tables(case);
    let cuts = two_cuts(&mut case.rng, 50);
    let ends = Ends { tables, cuts };
    let choice = Choice::new(&mut case.rng);
    let limits = choice.limits(&mut case.rng);
    let mut exchange = Exchange::open_within(case, &ends, limits)?;
    let disorder = case.rng.pick(&[0, 0, 30]);
    let most = 100 + 2 * (ends.opener().table.count() + ends.responder().table.count());
    while !exchange.session.done {
        if exchange.sent() > most {
            return Err(format!("not done after {} queries", most));
        }
        exchange.limits = choice.limits(&mut case.rng);
        let is_late = exchange.sent() < 30 && case.rng.chance(disorder);
        let query = if is_late {
            case.rng.below(exchange.sent())
        } else {
            exchange.last_query()
        };
        exchange.take(case, query)?;
    }
    let reply = exchange.answer(case, 0)?;
    case.expect(&exchange.take_input(&reply), 5).map(|_| ())
}

/// Tables that differ in any way, more often in many places; at times large ones with nothing in common, for many
/// rounds.
fn two_tables(case: &mut Case<'_, '_>) -> [OwnedTable; 2] {
    let rng = &mut case.rng;
    let shape = rng.pick(&SHAPES);
    let (half, disjoint, inside) = (Relation::Half, Relation::Disjoint, Relation::OursInside);
    let any = rng.pick(&RELATIONS);
    let relation = rng.pick(&[Relation::TenPercent, half, disjoint, inside, any]);
    let is_large = relation == disjoint && rng.chance(if case.long { 50 } else { 5 });
    let count = if is_large { 3_000 } else { rng.between(150, 900) };
    let mut tables = TwoTables::new(rng, shape, relation, count);
    if rng.chance(30) {
        tables.add_collision(rng);
    }
    let mut tables = tables.tables();
    if rng.chance(50) {
        tables.reverse();
    }
    tables
}
