//! The fingerprint call: bounds of every lawful and unlawful form, and spoiled tables.
use super::{expect_number, Case};
use crate::calls::{Call, GivenBound};
use crate::compare::{same_bytes, Check};
use crate::faults::{faults_of, AnyFault, Draft};
use crate::generate::{from_text, items, Item, OwnedTable, LAST_TIME, SHAPES};
use crate::input::Input;
use crate::rng::Rng;
use recon::Cut;

pub fn cases(long: bool) -> u64 {
    if long {
        10_000
    } else {
        5_000
    }
}

/// A bound and the bytes of its prefix.
struct OwnedBound {
    infinite: bool,
    time: u64,
    prefix: Vec<u8>,
}

impl OwnedBound {
    fn given(&self) -> GivenBound<'_> {
        GivenBound {
            infinite: self.infinite,
            time: self.time,
            prefix: &self.prefix,
        }
    }

    fn is_lawful(&self) -> bool {
        if self.infinite {
            self.prefix.is_empty()
        } else {
            self.time <= LAST_TIME && self.prefix.len() <= 32
        }
    }

    /// What a lawful bound compares as; infinity is above all.
    fn place(&self) -> (bool, u64, Vec<u8>) {
        if self.infinite {
            return (true, 0, Vec::new());
        }
        let mut id = self.prefix.clone();
        id.resize(32, 0);
        (false, self.time, id)
    }
}

pub fn run(case: &mut Case<'_, '_>) -> Check {
    let shape = case.rng.pick(&SHAPES);
    let most = case.rng.pick(&[1, 3, 10, 150]);
    let count = case.rng.below(most);
    let mut items = items(&mut case.rng, shape, count);
    items.sort_unstable();
    let table = OwnedTable::of(&items);
    for _ in 0..60 {
        let (lower, upper) = (bound(&mut case.rng, &items), bound(&mut case.rng, &items));
        between(case, &table, &lower, &upper)?;
        between(case, &table, &lower, &lower)?;
        spoiled(case, &table, &lower, &upper)?;
    }
    Ok(())
}

/// 9 where a bound is unlawful, and only there; the fingerprint of none where the lower bound is not below the upper.
fn between(case: &mut Case<'_, '_>, table: &OwnedTable, lower: &OwnedBound, upper: &OwnedBound) -> Check {
    let told = case
        .comparer
        .fingerprint(table.lent(), [lower.given(), upper.given()])?;
    let is_lawful = lower.is_lawful() && upper.is_lawful();
    match told {
        Ok(told) if is_lawful && lower.place() >= upper.place() => {
            let none = from_text("7f9c9e31ac8256ca2f258583df262dbc");
            same_bytes(&told, &none, || "the fingerprint of an empty range".to_string())
        }
        told => expect_number(told.err().unwrap_or(0), if is_lawful { 0 } else { 9 }),
    }
}

/// A table with a fault: 1 and 2 come before 9, as an opening with this table has them.
fn spoiled(case: &mut Case<'_, '_>, table: &OwnedTable, lower: &OwnedBound, upper: &OwnedBound) -> Check {
    let mut faults = faults_of(Call::Open);
    faults.retain(|fault| fault.number <= 2);
    let cut = Cut { parts: 2, limit: 2 };
    let mut draft = Draft::of(&Input::new(Call::Open, table.lent(), cut));
    faults[case.rng.below(faults.len())].spoil(&mut draft);
    let told = case
        .comparer
        .fingerprint(draft.input().table, [lower.given(), upper.given()])?;
    match case.comparer.call(&draft.input())?.number() {
        number @ (1 | 2) => expect_number(told.err().unwrap_or(0), number),
        // A table of few items may be lawful still.
        _ => Ok(()),
    }
}

/// Infinity, or a bound at, right beside or far from an item; one in seven is unlawful.
fn bound(rng: &mut Rng, items: &[Item]) -> OwnedBound {
    let is_lawful = rng.chance(86);
    let infinite = rng.chance(20);
    let (time, mut prefix) = if infinite {
        // The time of infinity does not count.
        (rng.pick(&[0, 7, LAST_TIME, u64::MAX]), Vec::new())
    } else {
        finite(rng, items)
    };
    if !is_lawful && (infinite || rng.chance(50)) {
        // The last byte of a length, or the last two, may be lawful.
        let length = if infinite {
            rng.pick(&[1, 32, 33, 256, 65_536])
        } else {
            rng.pick(&[33, 40, 256, 288, 65_536])
        };
        prefix.resize(length, 7);
    }
    let keeps_time = is_lawful || (prefix.len() > 32 && rng.chance(80));
    let time = if keeps_time { time } else { u64::MAX };
    OwnedBound { infinite, time, prefix }
}

/// A time and a prefix of at most 32 bytes.
fn finite(rng: &mut Rng, items: &[Item]) -> (u64, Vec<u8>) {
    let (time, id) = if items.is_empty() || rng.chance(20) {
        (rng.pick(&[0, 1, 250, LAST_TIME]), rng.id())
    } else {
        items[rng.below(items.len())]
    };
    let any = rng.between(0, 32);
    let mut prefix = id[..rng.pick(&[0, 1, 32, any, any])].to_vec();
    if let Some(last) = prefix.last_mut() {
        *last = last.wrapping_add(rng.pick(&[0, 0, 1, 255]));
    }
    (time, prefix)
}
