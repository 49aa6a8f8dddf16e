//! A session as it is kept between two calls: what its conversion gives, and takes with tables that have changed.
use crate::calls::Call;
use crate::changes::{Change, CHANGES};
use crate::compare::Check;
use crate::exchange::Exchange;
use crate::faults::{faults_of, AnyFault, Draft};
use crate::generate::any_label;
use crate::input::Input;
use crate::kinds::{expect_number, Case};
use recon::Session;

/// What holds wherever a session stands, open or done.
pub fn at_place(case: &mut Case<'_, '_>, exchange: &mut Exchange<'_>) -> Check {
    let query = case.rng.below(exchange.sent());
    let mut reply = exchange.answer(case, query)?;
    if case.rng.chance(20) {
        reply.truncate(case.rng.below(reply.len()));
    }
    let state = exchange.take_input(&reply);
    gives_back(case, &state)?;
    damaged(case, &state)?;
    let (room, more) = (case.rng.pick(&[0, 4_000]), 32 * (reply.len() / 32));
    let out = case.rng.bytes(room);
    let needed = [state.needed, &case.rng.bytes(more)].concat();
    let take = Draft::of(&state.with_needed(&needed).with_out(&out));
    let change = &CHANGES[case.rng.below(CHANGES.len())];
    with_change(case, &take, change)
}

/// Calls with the table of a take changed in one way, unless it cannot be.
pub fn with_change(case: &mut Case<'_, '_>, take: &Draft, change: &Change) -> Check {
    match change.of(&mut case.rng, take) {
        None => Ok(()),
        Some(changed) => {
            with_other_table(case, take, change, &changed).map_err(|text| format!("{}: {}", change.name, text))
        }
    }
}

/// The conversion of a session that has lost its label, with any whole ids behind its list, gives the session back.
pub fn gives_back(case: &mut Case<'_, '_>, state: &Input<'_>) -> Check<Session> {
    let (label, behind) = (any_label(&mut case.rng), 32 * case.rng.below(3));
    let needed = [state.needed, &case.rng.bytes(behind)].concat();
    let lost = Session { label, ..state.session };
    let conversion = state.of(Call::Convert).with_state(lost, state.marks, &needed);
    let after = case.expect(&conversion, 0)?;
    match after.outcome {
        Ok(sent) if sent.session == state.session => {
            let counts = &mut case.comparer.counts;
            counts.given_back += 1;
            counts.given_back_done += u64::from(sent.session.done);
            Ok(sent.session)
        }
        outcome => Err(format!("{:?} is not given back: {:?}", state.session, outcome)),
    }
}

/// A conversion with one fault or two; what it is refused by, if at all, both implementations have to agree about.
fn damaged(case: &mut Case<'_, '_>, state: &Input<'_>) -> Check {
    let mut draft = Draft::of(&state.of(Call::Convert));
    let faults = faults_of(Call::Convert);
    for _ in 0..case.rng.between(1, 2) {
        faults[case.rng.below(faults.len())].spoil(&mut draft);
    }
    case.comparer.call(&draft.input()).map(|_| ())
}

/// Takes with a changed table: with marks that fit it, and with those that the session has. And the session converted
/// with the changed table, which the table of before does not fit any more.
fn with_other_table(case: &mut Case<'_, '_>, take: &Draft, change: &Change, changed: &Draft) -> Check {
    judge(case, change, changed)?;
    if changed.marks.len() != take.marks.len() {
        let mut unfit = changed.clone();
        (unfit.marks, unfit.session) = (take.marks.clone(), take.session);
        case.expect(&unfit.input(), 4)?;
        case.expect(&unfit.input().of(Call::Convert), 4)?;
        case.comparer.counts.unfit += 1;
    }
    let converted = case.expect(&changed.input().of(Call::Convert), 0)?;
    let label = converted.outcome.map_or(take.session.label, |sent| sent.session.label);
    let mut before = take.clone();
    before.session.label = label;
    judge(case, change, &before)
}

/// A take is refused by 18 just where the labels differ, whatever its session and its reply are.
fn judge(case: &mut Case<'_, '_>, change: &Change, take: &Draft) -> Check {
    let number = case.comparer.call(&take.input())?.number();
    let (counts, done) = (&mut case.comparer.counts, take.session.done);
    if !change.same_label {
        counts.other_table += 1;
        counts.other_table_done += u64::from(done);
        return expect_number(number, 18);
    }
    counts.same_label += 1;
    if done {
        return expect_number(number, 5);
    }
    match number {
        0 => Ok(()),
        // The reply 61 ends a session; others may be damaged, or have no room.
        6..=12 if take.message != [0x61] => Ok(()),
        _ => Err(format!("the label is the same, and both say {}", number)),
    }
}
