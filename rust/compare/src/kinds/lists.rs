//! Replies with more ids than the library sorts at once (11,008): repeats in one list and across ranges, ids of own
//! items, ids on the needed list already, rising, falling and mixed orders, own items fewer and more than are sorted at
//! once, and ids that differ only behind their first three or eight bytes.
use super::Case;
use crate::calls::Call;
use crate::compare::Check;
use crate::exchange::End;
use crate::generate::{whole_ids, Id, OwnedTable};
use crate::label::new_session;
use crate::rng::Rng;
use recon::{Cut, Session};
use reference::{spell, Bound, Payload, Range};

const SORTED_AT_ONCE: usize = 11_008;
const CUT: Cut = Cut { parts: 2, limit: 2 };

pub fn cases(long: bool) -> u64 {
    if long {
        200
    } else {
        20
    }
}

pub fn run(case: &mut Case<'_, '_>) -> Check {
    let around = case.rng.pick(&[1, 2, 3]) * SORTED_AT_ONCE;
    let count = around + case.rng.below(5) - 2;
    let alike = case.rng.pick(&[0, 0, 3, 8]);
    let own = own_table(&mut case.rng, alike);
    let fresh: Vec<Id> = (0..count).map(|_| some_id(&mut case.rng, alike)).collect();
    let needed = some_sorted(&mut case.rng, &fresh, count / 10);
    let reply = spell(&ranges(&mut case.rng, &own, &fresh));
    let input = End { table: &own, cut: CUT }.input(Call::Take).with_message(&reply);
    let marks = vec![0; own.count()];
    let session = Session {
        needed: needed.len(),
        ..new_session(own.lent())
    };
    let list = needed.concat();
    let (length, ids) = case.room(&input.with_state(session, &marks, &list))?;
    let out = case.rng.bytes(length);
    for (capacity, number) in [(ids - 1, 11), (ids, 0)] {
        let mut buffer = list.clone();
        buffer.extend(case.rng.bytes(32 * capacity - list.len()));
        case.expect(&input.with_state(session, &marks, &buffer).with_out(&out), number)?;
    }
    Ok(())
}

/// A random id; the first bytes of all of them are alike.
fn some_id(rng: &mut Rng, alike: usize) -> Id {
    let mut id = rng.id();
    id[..alike].fill(7);
    id
}

/// Two items for each time.
fn own_table(rng: &mut Rng, alike: usize) -> OwnedTable {
    let count = rng.pick(&[600, 12_000]);
    let mut items: Vec<(u64, Id)> = (0..count).map(|number| (number / 2, some_id(rng, alike))).collect();
    items.sort_unstable();
    OwnedTable {
        times: items.iter().map(|&(time, _)| time).collect(),
        ids: items.iter().flat_map(|&(_, id)| id).collect(),
    }
}

fn some_sorted(rng: &mut Rng, from: &[Id], count: usize) -> Vec<Id> {
    let mut ids: Vec<Id> = (0..count).map(|_| rng.pick(from)).collect();
    ids.sort_unstable();
    ids.dedup();
    ids
}

/// Three ranges that list all of these ids, some of them again, and own ids, of their own range and of others.
fn ranges(rng: &mut Rng, own: &OwnedTable, fresh: &[Id]) -> Vec<Range> {
    let own_ids: Vec<Id> = whole_ids(&own.ids).collect();
    let mut listed = fresh.to_vec();
    listed.extend((0..2_000).map(|_| rng.pick(fresh)));
    listed.extend((0..400).map(|_| rng.pick(&own_ids)));
    match rng.below(3) {
        0 => listed.sort_unstable(),
        1 => listed.sort_unstable_by(|a, b| b.cmp(a)),
        _ => rng.shuffle(&mut listed),
    }
    let uppers = [100, 200].map(|time| Bound::At { time, prefix: vec![] });
    let third = listed.len() / 3;
    let lists = [&listed[..third], &listed[third..2 * third], &listed[2 * third..]];
    let range = |(upper, list): (Bound, &[Id])| Range {
        upper,
        payload: Payload::Ids(list.to_vec()),
    };
    uppers
        .into_iter()
        .chain([Bound::Infinity])
        .zip(lists)
        .map(range)
        .collect()
}
