//! Each fault of each call that writes a message, and each two faults of a call at once, in both orders.
use super::Case;
use crate::calls::Call;
use crate::compare::Check;
use crate::exchange::End;
use crate::faults::{faults_of, with_first, Draft};
use crate::generate::{first_16, id_from, lawful_limit, OwnedTable};
use crate::label::{new_session, NO_SESSION};
use crate::rng::Rng;
use recon::{Cut, Session};
use reference::{Bound, Payload, Range};

/// How many faults the calls have together. A case is a first fault, alone and with each second one.
fn first_faults() -> usize {
    Call::WRITING.iter().map(|&call| faults_of(call).len()).sum()
}

/// Each first fault with several lawful inputs.
pub fn cases(long: bool) -> u64 {
    let inputs = if long { 8 } else { 4 };
    inputs * first_faults() as u64
}

pub fn run(case: &mut Case<'_, '_>) -> Check {
    let mut index = case.index as usize % first_faults();
    for call in Call::WRITING {
        let count = faults_of(call).len();
        if index < count {
            return with_each(case, call, index);
        }
        index -= count;
    }
    Err("there is no such case".to_string())
}

/// A lawful input of a call, and that input with the first fault of this number and then each other.
pub fn with_each(case: &mut Case<'_, '_>, call: Call, first: usize) -> Check {
    let lawful = lawful(case, call)?;
    case.expect(&lawful.input(), 0)?;
    with_first(&lawful, &faults_of(call), first, |draft| {
        Ok(case.comparer.call(&draft.input())?.number())
    })
}

/// A lawful input with exact room that every check looks at: items, marks of both kinds, a list with ids to come.
pub fn lawful(case: &mut Case<'_, '_>, call: Call) -> Check<Draft> {
    let rng = &mut case.rng;
    let count = rng.between(3, 9);
    let table = rising_table(rng, count);
    let parts = rng.between(2, 3);
    let limit = parts + rng.below(2);
    let end = End {
        table: &table,
        cut: Cut { parts, limit },
    };
    let (session, marks, mut needed) = state(rng, call, &table);
    let message = open_message(rng, &table);
    let bytes = lawful_limit(rng).filter(|_| call != Call::Convert);
    let input = end.input(call).within(bytes).with_state(session, &marks, &needed);
    let input = if call == Call::Open {
        input
    } else {
        input.with_message(&message)
    };
    let (length, ids) = case.room(&input)?;
    let out = case.rng.bytes(length);
    let mut draft = Draft::of(&input.with_out(&out));
    if call == Call::Take {
        needed.resize(32 * ids, 0xee);
        draft.needed = needed;
    }
    Ok(draft)
}

/// Session, marks and needed bytes for a call.
fn state(rng: &mut Rng, call: Call, table: &OwnedTable) -> (Session, Vec<u8>, Vec<u8>) {
    let count = table.count();
    match call {
        Call::Open => (NO_SESSION, rng.bytes(count), rng.bytes(64)),
        Call::Answer => (NO_SESSION, Vec::new(), Vec::new()),
        Call::Take | Call::Convert => {
            let mut marks: Vec<u8> = (0..count).map(|_| rng.below(2) as u8).collect();
            marks[..2].copy_from_slice(&[1, 0]);
            let marked = marks.iter().filter(|&&mark| mark == 1).count();
            let mut ids = [rng.id(), rng.id(), rng.id()];
            ids.sort_unstable();
            let needed = ids.len();
            let session = Session {
                marked,
                needed,
                // A conversion takes it as it is.
                done: call == Call::Convert && rng.chance(50),
                ..new_session(table.lent())
            };
            (session, marks, ids.concat())
        }
    }
}

/// Items of rising times and rising ids.
fn rising_table(rng: &mut Rng, count: usize) -> OwnedTable {
    let items: Vec<_> = (0..count)
        .map(|i| (10 * i as u64 + 5, id_from(&[i as u8 + 1, rng.byte(), 3])))
        .collect();
    OwnedTable::of(&items)
}

/// New ids below the second item, another fingerprint up to the last one; it ends at a finite bound without prefix.
fn open_message(rng: &mut Rng, table: &OwnedTable) -> Vec<u8> {
    let range = |at: usize, payload| {
        let (time, prefix) = (table.times[at], Vec::new());
        let upper = Bound::At { time, prefix };
        Range { upper, payload }
    };
    let ids = Payload::Ids(vec![rng.id(), rng.id()]);
    let fingerprint = Payload::Fingerprint(first_16(&rng.id()));
    reference::spell(&[range(1, ids), range(table.count() - 1, fingerprint)])
}
