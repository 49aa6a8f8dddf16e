//! Every first byte of a message, and no byte: what stands behind it, the room, and faults of kinds 1 to 3 and 14
//! before it, with and without a byte limit.
use super::Case;
use crate::calls::Call;
use crate::compare::{same_bytes, Check};
use crate::exchange::End;
use crate::faults::{faults_of, AnyFault, Draft, Fault};
use crate::generate::{from_text, id_from, lawful_limit, OwnedTable};
use recon::Cut;

/// The 256 first bytes, and the empty message.
pub fn cases(_long: bool) -> u64 {
    257
}

/// What stands behind the first byte: nothing; a lawful rest; a fault of 7, of 8, of 9 and of 10; anything.
const RESTS: [&str; 6] = ["", "00 00 02 00", "00 00 01", "80", "01 00", "00 00 03"];

pub fn run(case: &mut Case<'_, '_>) -> Check {
    let first = u8::try_from(case.index).ok();
    let mut rests: Vec<Vec<u8>> = RESTS.iter().map(|text| from_text(text)).collect();
    rests.push(case.rng.bytes(40));
    for rest in rests {
        let message = first.map_or(Vec::new(), |first| [&[first], &rest[..]].concat());
        for call in [Call::Answer, Call::Take] {
            each_room(case, call, &message)?;
        }
    }
    Ok(())
}

/// The number of a lawful call but for its message and its room; none where it goes by the rest of the message.
fn number(call: Call, message: &[u8], room: usize) -> Option<u8> {
    match message.first() {
        Some(0x61) => None,
        Some(0x60..=0x6f) if call == Call::Answer => Some(if room == 0 { 12 } else { 0 }),
        _ => Some(6),
    }
}

/// With no room, the room of one byte, and more; without a fault, and with each of kinds 1 to 3 and 14.
fn each_room(case: &mut Case<'_, '_>, call: Call, message: &[u8]) -> Check {
    let table = OwnedTable::of(&[(5, id_from(&[1])), (5, id_from(&[2])), (7, id_from(&[3]))]);
    let cut = Cut { parts: 2, limit: 2 };
    for room in [0, 1, 60] {
        let out = case.rng.bytes(room);
        let end = End { table: &table, cut };
        let bytes = lawful_limit(&mut case.rng);
        let lawful = end.input(call).within(bytes).with_message(message).with_out(&out);
        let draft = Draft::of(&lawful.opened(&[0, 0, 0], &[]));
        judged(case, &draft, number(call, message, room))?;
        for fault in faults_of(call)
            .iter()
            .filter(|fault| matches!(fault.number, 1..=3 | 14))
        {
            with_fault(case, &draft, fault)?;
        }
    }
    Ok(())
}

/// What is written is the byte 61, if the message offers another version.
fn judged(case: &mut Case<'_, '_>, draft: &Draft, number: Option<u8>) -> Check {
    let input = draft.input();
    match number {
        None => case.comparer.call(&input).map(|_| ()),
        Some(0) => {
            let after = case.expect(&input, 0)?;
            same_bytes(after.message(), &[0x61], || {
                "the answer to another version and 61".to_string()
            })
        }
        Some(number) => case.expect(&input, number).map(|_| ()),
    }
}

fn with_fault(case: &mut Case<'_, '_>, draft: &Draft, fault: &Fault) -> Check {
    let mut draft = draft.clone();
    fault.spoil(&mut draft);
    case.expect(&draft.input(), fault.number)
        .map(|_| ())
        .map_err(|text| format!("{}: {}", fault.name, text))
}
