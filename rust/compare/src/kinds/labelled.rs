//! Sessions and their tables: tables that change between two takes in every way, with each fault of a take beside it;
//! conversions at every place of a session, after commits too, and sessions carried on from there; each fault of a
//! conversion, and each two of them at once; labels of tables of every size.
use super::refusals::{lawful, with_each};
use super::{expect_number, limits, Case, Group};
use crate::calls::Call;
use crate::changes::CHANGES;
use crate::compare::{same_bytes, Check};
use crate::exchange::{Ends, Exchange};
use crate::faults::{faults_of, place, AnyFault, Draft};
use crate::generate::{items, lawful_limit, two_cuts, Id, OwnedTable, TwoTables, RELATIONS, SHAPES};
use crate::input::Input;
use crate::kept::{at_place, gives_back, with_change};
use crate::label::new_session;
use crate::rng::Rng;
use crate::story;
use recon::{Cut, Session, MAX_ITEMS};
use reference::Odd;

const GROUPS: [Group; 7] = [
    Group {
        cases: |long| CHANGES.len() * if long { 24 } else { 8 },
        run: with_faults,
    },
    Group {
        cases: |long| if long { 8_000 } else { 3_000 },
        run: |case, _| sessions(case),
    },
    Group {
        cases: |long| if long { 3_000 } else { 1_000 },
        run: |case, _| converted(case),
    },
    Group {
        cases: |long| faults_of(Call::Convert).len() * if long { 8 } else { 4 },
        run: |case, number| with_each(case, Call::Convert, number % faults_of(Call::Convert).len()),
    },
    Group {
        cases: |long| SIZES * SHAPES.len() * if long { 4 } else { 1 },
        run: sizes,
    },
    Group {
        cases: |long| if long { 1_000 } else { 300 },
        run: |case, _| story::without_limits(case),
    },
    Group {
        cases: |_| 1,
        run: |case, _| largest(case),
    },
];

pub fn cases(long: bool) -> u64 {
    Group::cases(&GROUPS, long)
}

pub fn run(case: &mut Case<'_, '_>) -> Check {
    Group::run(&GROUPS, case)
}

/// Numbers of items from 0 on.
const SIZES: usize = 70;

const CUT: Cut = Cut { parts: 2, limit: 2 };

/// A session of a table with any marks and any needed ids: converted, opened anew, and with the table changed.
fn sizes(case: &mut Case<'_, '_>, number: usize) -> Check {
    let shape = SHAPES[number / SIZES % SHAPES.len()];
    let mut own = items(&mut case.rng, shape, number % SIZES);
    own.sort_unstable();
    let table = OwnedTable::of(&own);
    let (session, marks, needed) = any_state(&mut case.rng, &table);
    let state = Input::new(Call::Take, table.lent(), CUT).with_state(session, &marks, &needed);
    gives_back(case, &state)?;
    let out = case.rng.bytes(10_000);
    case.expect(&state.of(Call::Open).with_out(&out), 0)?;
    let take = Draft::of(&state.with_message(&[0x61]));
    case.expect(&take.input(), if session.done { 5 } else { 0 })?;
    CHANGES.iter().try_for_each(|change| with_change(case, &take, change))
}

fn any_state(rng: &mut Rng, table: &OwnedTable) -> (Session, Vec<u8>, Vec<u8>) {
    let marks: Vec<u8> = (0..table.count()).map(|_| rng.below(2) as u8).collect();
    let mut ids: Vec<Id> = (0..rng.below(4)).map(|_| rng.id()).collect();
    ids.sort_unstable();
    let session = Session {
        marked: marks.iter().filter(|&&mark| mark == 1).count(),
        needed: ids.len(),
        done: rng.chance(30),
        ..new_session(table.lent())
    };
    (session, marks, ids.concat())
}

/// A take with a changed table and each fault of a take beside it. 4 and what is before it come first, and 18 before all
/// others; where the marks do not fit any more, 4 before 18.
fn with_faults(case: &mut Case<'_, '_>, number: usize) -> Check {
    let change = &CHANGES[number % CHANGES.len()];
    let take = lawful(case, Call::Take)?;
    let changed = match change.of(&mut case.rng, &take) {
        // The faults need three items.
        Some(changed) if changed.table.count() > 2 => changed,
        _ => return Ok(()),
    };
    // Two conversions come first: the self-check finds its damages beyond the marks there.
    gives_back(case, &take.input())?;
    case.expect(&changed.input().of(Call::Convert), 0)?;
    let mut done = changed.clone();
    done.session.done = true;
    case.expect(&done.input(), if change.same_label { 5 } else { 18 })?;
    if change.same_label {
        return Ok(());
    }
    each_fault(case, &changed, 18).map_err(|text| format!("{}: {}", change.name, text))?;
    if changed.marks.len() == take.marks.len() {
        return Ok(());
    }
    let mut unfit = changed;
    (unfit.marks, unfit.session) = (take.marks, take.session);
    each_fault(case, &unfit, 4).map_err(|text| format!("{}, marks as before: {}", change.name, text))
}

/// A draft that is refused by a number, with each fault beside it. Two causes of one number may undo each other.
fn each_fault(case: &mut Case<'_, '_>, refused: &Draft, number: u8) -> Check {
    case.expect(&refused.input(), number)?;
    for fault in faults_of(Call::Take) {
        let mut draft = refused.clone();
        fault.spoil(&mut draft);
        let told = case.comparer.call(&draft.input())?.number();
        let first = if place(fault.number) < place(number) {
            fault.number
        } else {
            number
        };
        if fault.number != number {
            expect_number(told, first).map_err(|text| format!("{}: {}", fault.name, text))?;
        }
    }
    Ok(())
}

fn ends(rng: &mut Rng) -> Ends {
    let (shape, relation) = (rng.pick(&SHAPES), rng.pick(&RELATIONS));
    let most = rng.pick(&[4, 20, 60]);
    let count = rng.between(most / 4, most);
    let tables = TwoTables::new(rng, shape, relation, count).tables();
    let cuts = two_cuts(rng, 80);
    Ends { tables, cuts }
}

/// A whole session with late answers. At each of its places it is converted, and other tables are handed over; then the
/// table is put back.
fn sessions(case: &mut Case<'_, '_>) -> Check {
    let ends = ends(&mut case.rng);
    let limits = [lawful_limit(&mut case.rng), None];
    let mut exchange = Exchange::open_within(case, &ends, limits)?;
    exchange.finish_late(case, &mut at_place)?;
    let reply = exchange.answer(case, exchange.last_query())?;
    case.expect(&exchange.take_input(&reply), 5).map(|_| ())
}

/// A session to its end, and again with a conversion before each take: the same messages and reports. It may have been
/// opened under the former rule.
fn converted(case: &mut Case<'_, '_>) -> Check {
    let ends = ends(&mut case.rng);
    let former = case.rng.pick(&[0, 0, 1, 2, 3]);
    let first = carried(case, &ends, former, false)?;
    let second = carried(case, &ends, former, true)?;
    if (first.sent(), first.session) != (second.sent(), second.session) {
        return Err(format!("{:?} and, converted, {:?}", first.session, second.session));
    }
    for query in 0..first.sent() {
        same_bytes(first.query(query), second.query(query), || {
            format!("query {}, converted", query)
        })?;
    }
    same_bytes(&first.marks, &second.marks, || "marks, converted".to_string())?;
    same_bytes(&first.list, &second.list, || "needed lists, converted".to_string())?;
    case.comparer.counts.converted += 1;
    Ok(())
}

/// Runs a session whose first messages of both ends, so many of each, are by the former rule.
fn carried<'a>(case: &mut Case<'_, '_>, ends: &'a Ends, former: usize, converts: bool) -> Check<Exchange<'a>> {
    let rules = |sent: usize| [if sent < former { Odd::ToFirst } else { Odd::ToLast }; 2];
    let mut exchange = Exchange::open_by(case, ends, [None; 2], rules(0))?;
    while !exchange.session.done {
        if converts {
            exchange.session = gives_back(case, &exchange.take_input(&[]))?;
        }
        exchange.rules = rules(exchange.sent());
        exchange.take(case, exchange.last_query())?;
    }
    Ok(exchange)
}

/// The most items: converted, opened, and with a bit turned in any id and in the last one.
fn largest(case: &mut Case<'_, '_>) -> Check {
    let table = limits::table(case, MAX_ITEMS);
    let (session, marks, needed) = any_state(&mut case.rng, &table);
    let state = Input::new(Call::Take, table.lent(), CUT).with_state(session, &marks, &needed);
    gives_back(case, &state)?;
    let out = case.rng.bytes(200);
    case.expect(&state.of(Call::Open).with_out(&out), 0)?;
    let take = state.with_message(&[0x61]);
    case.expect(&take, if session.done { 5 } else { 0 })?;
    let any = 32 * case.rng.below(MAX_ITEMS) + case.rng.between(4, 31);
    for at in [any, 32 * MAX_ITEMS - 1] {
        let mut other = table.clone();
        other.ids[at] ^= 1;
        case.expect(&take.with_table(other.lent()), 18)?;
        case.expect(&take.with_table(other.lent()).of(Call::Convert), 0)?;
    }
    case.comparer.counts.other_table += 2;
    Ok(())
}
