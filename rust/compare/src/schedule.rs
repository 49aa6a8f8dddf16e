//! Sessions with takes in any order: late, repeated and reordered answers, and refused takes between them.
use crate::calls::Call;
use crate::compare::Check;
use crate::exchange::Exchange;
use crate::faults::{faults_of, AnyFault, Draft};
use crate::kinds::Case;
use crate::rng::Rng;

/// Chooses byte limits and rules for a take of the answer to a query, and for that answer.
pub type Choose<'c> = dyn FnMut(&mut Rng, &mut Exchange<'_>, usize) + 'c;

/// Takes in any order, or all in order where none is to be late; then in order until the session is done; then takes
/// that are refused.
pub fn run(case: &mut Case<'_, '_>, exchange: &mut Exchange<'_>, late: bool, choose: &mut Choose<'_>) -> Check {
    for _ in 0..case.rng.below(24) {
        if exchange.session.done {
            break;
        }
        step(case, exchange, late, choose)?;
    }
    in_order(case, exchange, choose)?;
    after_done(case, exchange, choose)
}

/// One take of the schedule, or one or two that are refused.
fn step(case: &mut Case<'_, '_>, exchange: &mut Exchange<'_>, late: bool, choose: &mut Choose<'_>) -> Check {
    let last = exchange.last_query();
    let earlier = if late { case.rng.below(last.max(1)) } else { last };
    match case.rng.below(10) {
        0..=2 => take(case, exchange, choose, last),
        // Late, repeated or out of order.
        3..=6 => take(case, exchange, choose, earlier),
        7 => short_of_room(case, exchange, choose),
        _ => refused(case, exchange, choose),
    }
}

fn take(case: &mut Case<'_, '_>, exchange: &mut Exchange<'_>, choose: &mut Choose<'_>, query: usize) -> Check {
    choose(&mut case.rng, exchange, query);
    exchange.take(case, query)
}

/// Takes the answer to the query last sent until the session is done. The check of rows sees to an end, but for
/// messages that a byte limit cut short.
fn in_order(case: &mut Case<'_, '_>, exchange: &mut Exchange<'_>, choose: &mut Choose<'_>) -> Check {
    let most = 100 + 2 * (exchange.opener.table.count() + exchange.responder.table.count());
    while !exchange.session.done {
        if exchange.sent() > most {
            return Err(format!("not done after {} queries", most));
        }
        take(case, exchange, choose, exchange.last_query())?;
    }
    Ok(())
}

/// The answer to any query sent.
fn any_answer(case: &mut Case<'_, '_>, exchange: &mut Exchange<'_>, choose: &mut Choose<'_>) -> Check<Vec<u8>> {
    let query = case.rng.below(exchange.sent());
    choose(&mut case.rng, exchange, query);
    exchange.answer(case, query)
}

/// Takes whose buffers are one needed id or one out byte too small.
fn short_of_room(case: &mut Case<'_, '_>, exchange: &mut Exchange<'_>, choose: &mut Choose<'_>) -> Check {
    let reply = any_answer(case, exchange, choose)?;
    let input = exchange.take_input(&reply);
    let (length, count) = case.room(&input)?;
    let mut needed = exchange.list.clone();
    needed.resize(32 * count, 0xee);
    let out = case.rng.bytes(length);
    if count > exchange.session.needed {
        let short = &needed[..needed.len() - 32];
        case.expect(&input.with_needed(short).with_out(&out), 11)?;
    }
    if length > 0 {
        let short = &out[..length - 1];
        case.expect(&input.with_needed(&needed).with_out(short), 12)?;
    }
    Ok(())
}

/// A take with up to two faults and a damaged reply. One that is not refused after all is no take of the list.
fn refused(case: &mut Case<'_, '_>, exchange: &mut Exchange<'_>, choose: &mut Choose<'_>) -> Check {
    let reply = any_answer(case, exchange, choose)?;
    let out = case.rng.bytes(4_000);
    let needed = [&exchange.list[..], &case.rng.bytes(32 * (reply.len() / 32))].concat();
    let mut draft = Draft::of(&exchange.take_input(&reply).with_needed(&needed).with_out(&out));
    let faults = faults_of(Call::Take);
    for _ in 0..case.rng.below(3) {
        faults[case.rng.below(faults.len())].spoil(&mut draft);
    }
    for _ in 0..case.rng.below(4) {
        let at = case.rng.below(draft.message.len().max(1));
        let byte = case.rng.byte();
        draft.message.iter_mut().skip(at).take(1).for_each(|old| *old = byte);
    }
    case.comparer.call(&draft.input()).map(|_| ())
}

/// Every later take is refused.
fn after_done(case: &mut Case<'_, '_>, exchange: &mut Exchange<'_>, choose: &mut Choose<'_>) -> Check {
    let replies = [any_answer(case, exchange, choose)?, case.rng.bytes(20)];
    for reply in &replies {
        case.expect(&exchange.take_input(reply), 5)?;
    }
    Ok(())
}
