//! Sessions with byte limits at both ends.

use crate::cases::{different, Order, Tables};
use crate::clock::Clock;
use crate::ends::{Terms, Way};
use crate::layout::{aligned, duration, grouped, quotient, row};
use crate::measure::{measure_session, Effort, FULL};
use crate::results::{Call, Measured};
use recon::Cut;
use std::time::Instant;

const ITEMS: usize = 20_000;
const DIFFERENT: [usize; 4] = [0, 1, 100, 1_000];
const LIMITS: [Option<usize>; 3] = [None, Some(16_384), Some(4_096)];
const CUT: Cut = Cut { parts: 16, limit: 64 };

/// A session has up to some hundreds of calls, so each has few turns.
const TURNS: usize = 10;
const EFFORT: Effort = Effort {
    most_turns: TURNS,
    ..FULL
};

/// The time of all calls of a session at both ends.
fn total(measured: &Measured, way: Way) -> Option<f64> {
    let calls = [Call::Open, Call::Answer, Call::Take];
    calls.into_iter().map(|call| measured.total(call, way)).sum()
}

fn cells(measured: &Measured, different: usize, bytes: Option<usize>) -> Vec<String> {
    let (sent, got) = (measured.queries.iter().sum(), measured.replies.iter().sum());
    let times = [Way::Library, Way::Reference].map(|way| total(measured, way));
    let calls = 1 + 2 * measured.queries.len();
    let time = |seconds: Option<f64>| seconds.map_or_else(String::new, duration);
    vec![
        grouped(different),
        bytes.map_or("none".to_string(), grouped),
        grouped(measured.queries.len()),
        grouped(sent),
        grouped(got),
        time(times[0]),
        time(times[1]),
        quotient(times[0], times[1]),
        time(times[0].map(|seconds| seconds / calls as f64)),
        String::new(),
    ]
}

/// Measures all, and gives the table.
pub fn measure_all(clock: &Clock) -> String {
    let mut rows = vec![
        row("|||bytes to|bytes to|all calls|all calls||a call|"),
        row("different|limit|rounds|responder|opener|library|reference|ratio|library|"),
    ];
    for count in DIFFERENT {
        let tables = Tables::made(&different(ITEMS, count), Order::Random, ITEMS as u64);
        for bytes in LIMITS {
            let start = Instant::now();
            let ways = |_| vec![Way::Library, Way::Reference];
            let terms = Terms { cut: CUT, bytes };
            let none = Measured::none("byte limits", ITEMS);
            let measured = measure_session(clock, &EFFORT, terms, &tables, ways, none);
            rows.push(cells(&measured, count, bytes));
            let took = start.elapsed().as_secs_f64();
            eprintln!("{}: {took:.1} s", rows[rows.len() - 1].join(" ").trim_end());
        }
    }
    format!(
        "# Sessions with byte limits\n\n\
         Each table has {} items; of each, so many are not in the other one, at random places. The cut is {} parts and lists of\n\
         {} at both ends, and so is the limit. all calls: the opening, answers and takes of the session, each the least processor\n\
         time of {TURNS} turns. a call: the library's mean.\n\n{}",
        grouped(ITEMS),
        CUT.parts,
        CUT.limit,
        aligned(0, &rows)
    )
}
