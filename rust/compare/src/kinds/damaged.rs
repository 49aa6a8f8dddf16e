//! Messages of real sessions with damage, and messages of every form, lawful or not; each as a query and as a reply.
use super::Case;
use crate::calls::Call;
use crate::compare::Check;
use crate::exchange::{Ends, Exchange};
use crate::generate::{lawful_limit, message, two_cuts, whole_ids, Id, TwoTables, RELATIONS, SHAPES};
use std::collections::BTreeSet;

type Damage = fn(&mut Case<'_, '_>, &Scene<'_>) -> Check;

const DAMAGES: [Damage; 7] = [
    replaced,
    shortened,
    inserted,
    deleted,
    random_ranges,
    random_bytes,
    spliced,
];

/// A session under way: what a message is handed to, and the messages that it has seen.
struct Scene<'a> {
    exchange: Exchange<'a>,
    messages: Vec<Vec<u8>>,
}

pub fn cases(long: bool) -> u64 {
    let scenes = if long { 1_000 } else { 400 };
    scenes * DAMAGES.len() as u64
}

pub fn run(case: &mut Case<'_, '_>) -> Check {
    let (shape, relation) = (case.rng.pick(&SHAPES), case.rng.pick(&RELATIONS));
    let count = case.rng.below(14);
    let tables = TwoTables::new(&mut case.rng, shape, relation, count).tables();
    let cuts = two_cuts(&mut case.rng, 90);
    let ends = Ends { tables, cuts };
    let scene = scene(case, &ends)?;
    DAMAGES[case.index as usize % DAMAGES.len()](case, &scene)
}

/// Up to two takes in order, short of the last one.
fn scene<'a>(case: &mut Case<'_, '_>, ends: &'a Ends) -> Check<Scene<'a>> {
    let mut exchange = Exchange::open(case, ends)?;
    let mut messages = Vec::new();
    let takes = case.rng.below(3);
    loop {
        let last = exchange.last_query();
        let reply = exchange.answer(case, last)?;
        let (length, _) = case.room(&exchange.take_input(&reply))?;
        messages.extend([exchange.query(last).to_vec(), reply]);
        if last == takes || length == 0 {
            return Ok(Scene { exchange, messages });
        }
        exchange.take(case, last)?;
    }
}

/// The message as a reply and as a query, mostly with enough room; the number that the query gives.
fn both_ways(case: &mut Case<'_, '_>, scene: &Scene<'_>, bytes: &[u8]) -> Check<u8> {
    let exchange = &scene.exchange;
    let items = exchange.opener.table.count().max(exchange.responder.table.count());
    let enough = 1 + 60 * items + 48 * (bytes.len() / 3 + 1);
    let is_short = case.rng.chance(10);
    let room = if is_short { case.rng.below(enough) } else { enough };
    let more = if is_short { case.rng.below(3) } else { bytes.len() / 32 };
    let out = case.rng.bytes(room);
    let needed = [&exchange.list[..], &case.rng.bytes(32 * more)].concat();
    let limits = [lawful_limit(&mut case.rng), lawful_limit(&mut case.rng)];
    let take = exchange.take_input(bytes).within(limits[0]);
    case.comparer.call(&take.with_needed(&needed).with_out(&out))?;
    let answer = exchange.responder.input(Call::Answer).within(limits[1]);
    let after = case.comparer.call(&answer.with_message(bytes).with_out(&out))?;
    Ok(after.number())
}

/// At most 300 rising places of a message, the start and the end among them.
fn places(case: &mut Case<'_, '_>, length: usize) -> BTreeSet<usize> {
    if length <= 300 {
        return (0..length).collect();
    }
    let middle = (0..100).map(|_| case.rng.below(length));
    (0..100).chain(middle).chain(length - 100..length).collect()
}

fn pick_message(case: &mut Case<'_, '_>, scene: &Scene<'_>) -> Vec<u8> {
    scene.messages[case.rng.below(scene.messages.len())].clone()
}

/// Each byte replaced by several values.
fn replaced(case: &mut Case<'_, '_>, scene: &Scene<'_>) -> Check {
    let lawful = pick_message(case, scene);
    for at in places(case, lawful.len()) {
        let old = lawful[at];
        let random = case.rng.byte();
        for new in [
            0x00,
            0x01,
            0x02,
            0x20,
            0x7f,
            0x80,
            0x81,
            0xff,
            old ^ 1,
            old ^ 0x80,
            random,
        ] {
            let mut bytes = lawful.clone();
            bytes[at] = new;
            both_ways(case, scene, &bytes)?;
        }
    }
    Ok(())
}

/// Each truncation of a lawful or damaged message. A fault other than 7 stays in whatever is longer.
fn shortened(case: &mut Case<'_, '_>, scene: &Scene<'_>) -> Check {
    let mut bytes = pick_message(case, scene);
    if case.rng.chance(60) {
        let at = case.rng.below(bytes.len());
        bytes[at] = case.rng.byte();
    }
    let mut fault = None;
    for length in places(case, bytes.len() + 1) {
        let number = both_ways(case, scene, &bytes[..length])?;
        if fault.map_or(false, |fault| fault != number) {
            return Err(format!("{} bytes give {}, and fewer {:?}", length, number, fault));
        }
        fault = Some(number).filter(|number| matches!(number, 8..=10));
    }
    Ok(())
}

/// A byte more at each place.
fn inserted(case: &mut Case<'_, '_>, scene: &Scene<'_>) -> Check {
    let lawful = pick_message(case, scene);
    for at in places(case, lawful.len() + 1) {
        let random = case.rng.byte();
        for new in [0x00, 0x01, 0x80, 0xff, random] {
            let mut bytes = lawful.clone();
            bytes.insert(at, new);
            both_ways(case, scene, &bytes)?;
        }
    }
    Ok(())
}

/// One or more bytes less at each place.
fn deleted(case: &mut Case<'_, '_>, scene: &Scene<'_>) -> Check {
    let lawful = pick_message(case, scene);
    for at in places(case, lawful.len()) {
        for count in [1, 2, 16, 32] {
            let mut bytes = lawful.clone();
            bytes.drain(at..(at + count).min(lawful.len()));
            both_ways(case, scene, &bytes)?;
        }
    }
    Ok(())
}

/// Messages that no end would write, then with a bit turned.
fn random_ranges(case: &mut Case<'_, '_>, scene: &Scene<'_>) -> Check {
    let (ours, theirs) = (scene.exchange.opener.table, scene.exchange.responder.table);
    let others: Vec<Id> = whole_ids(&theirs.ids).chain(whole_ids(&scene.exchange.list)).collect();
    for _ in 0..150 {
        let table = if case.rng.chance(60) { ours } else { theirs };
        let mut bytes = message(&mut case.rng, table, &others);
        both_ways(case, scene, &bytes)?;
        let at = case.rng.below(bytes.len());
        bytes[at] ^= 1 << case.rng.below(8);
        both_ways(case, scene, &bytes)?;
    }
    Ok(())
}

/// Random bytes behind 61, small ones more often.
fn random_bytes(case: &mut Case<'_, '_>, scene: &Scene<'_>) -> Check {
    for _ in 0..400 {
        let length = case.rng.below(60);
        let mut bytes = case.rng.bytes(length);
        let small = case.rng.pick(&[0, 50, 90]);
        for byte in &mut bytes {
            if case.rng.chance(small) {
                *byte = case.rng.pick(&[0, 0, 1, 2, 3, 0x80, 0x81]);
            }
        }
        bytes.insert(0, 0x61);
        both_ways(case, scene, &bytes)?;
    }
    Ok(())
}

/// The start of one message and the end of another.
fn spliced(case: &mut Case<'_, '_>, scene: &Scene<'_>) -> Check {
    for _ in 0..300 {
        let (first, second) = (pick_message(case, scene), pick_message(case, scene));
        let (end, start) = (case.rng.below(first.len() + 1), case.rng.below(second.len()));
        both_ways(case, scene, &[&first[..end], &second[start..]].concat())?;
    }
    Ok(())
}
