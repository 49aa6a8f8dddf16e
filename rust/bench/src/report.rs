//! The text: the opening beside its limits, the sessions, and the growth.

use crate::cases::CASES;
use crate::ends::Way;
use crate::growth::{growth, FACTOR, SHORTEST};
use crate::layout::{aligned, duration, grouped, quotient, row};
use crate::limits::openssl_version;
use crate::measure::{Effort, FEWEST_TURNS, LONG};
use crate::results::{Call, Measured};
use recon::Cut;

pub fn text(effort: &Effort, all: &[(Cut, Vec<Measured>)], listed: &str) -> String {
    let mut parts = vec![head(effort, &openssl_version()), listed.to_string()];
    for (Cut { parts: b, limit }, all) in all {
        parts.push(format!("# Sessions with b = {b}, t = {limit}\n"));
        parts.extend([
            openings(effort, all),
            sessions(effort, all),
            growth_table(all),
            faster(all),
        ]);
    }
    parts.join("\n")
}

/// What stands where calls were predicted to take too long.
pub fn not_run(effort: &Effort) -> String {
    format!("not run (over {} s predicted)", effort.budget)
}

fn head(effort: &Effort, openssl: &str) -> String {
    let Effort {
        seconds,
        most_turns,
        budget,
        ..
    } = effort;
    format!(
        "\
Whole sessions by the proved library and by the plain Rust reference, in one run and on the same inputs.

- The same cut at both ends. In the sessions each table has n items, or none where it is said to be empty.
- \"100 different\": of each table, 100 items are not in the other one, at random places.
  Ids are random; times rise, about half of them being that of the item before.
- Each call of a session is timed by itself, on recorded messages. A time is the least processor time of
  {FEWEST_TURNS} to {most_turns} turns, as many as take {seconds} s together, or of one turn if it takes over {LONG} s.
  In a turn both implementations run, each turn beginning with another one, and their results are compared.
  Reading the clock is not counted; the allocations that the reference makes are.
- answers, takes: the sum over all calls of the session. ratio: library / reference.
- read once: the sum of the 64-bit words of the opener's times and ids, in the same turns as its opening.
- OpenSSL: {openssl}, SHA-256 of 42 bytes for each fingerprint of the opening, with all instructions of the processor.
- Calls of a kind are not run if the slowest is predicted to take over {budget} s: its time at the next smaller n,
  times the square of the growth of n, or times the growth of that time in the step before, if this is more.
"
    )
}

/// The time of all calls of a kind. A note beside it says why they were not run.
fn time(measured: &Measured, call: Call, way: Way) -> String {
    let none = if call == Call::Limit { "-" } else { "not run" };
    measured.total(call, way).map_or(none.to_string(), duration)
}

/// Times of library and reference, and their ratio.
pub fn pair(measured: &Measured, call: Call) -> Vec<String> {
    let ratio = quotient(measured.total(call, Way::Library), measured.total(call, Way::Reference));
    vec![
        time(measured, call, Way::Library),
        time(measured, call, Way::Reference),
        ratio,
    ]
}

/// A note on each of these calls that was not run.
fn notes(effort: &Effort, measured: &Measured, calls: &[Call]) -> String {
    let mut notes = Vec::new();
    for &call in calls {
        for way in [Way::Library, Way::Reference] {
            if measured.total(call, way).is_none() {
                notes.push(format!("{} {}: {}", way.name(), call.name(), not_run(effort)));
            }
        }
    }
    notes.join(", ")
}

/// A line between the rows of two cases.
fn gap(rows: &mut Vec<Vec<String>>, all: &[Measured], place: usize) {
    if place > 0 && all[place - 1].case != all[place].case {
        rows.push(Vec::new());
    }
}

fn openings(effort: &Effort, all: &[Measured]) -> String {
    let mut rows = vec![
        row("||open|open||memory|library /|reference /|OpenSSL|"),
        row("case|n|library|reference|ratio|read once|read once|read once|SHA-256|"),
    ];
    for (place, measured) in all.iter().enumerate() {
        gap(&mut rows, all, place);
        let read = measured.total(Call::Limit, Way::Reading);
        let mut cells = vec![measured.case.to_string(), grouped(measured.n)];
        cells.extend(pair(measured, Call::Open));
        cells.push(time(measured, Call::Limit, Way::Reading));
        for way in [Way::Library, Way::Reference] {
            cells.push(quotient(measured.total(Call::Open, way), read));
        }
        cells.push(time(measured, Call::Limit, Way::OpenSsl));
        cells.push(notes(effort, measured, &[Call::Open]));
        rows.push(cells);
    }
    format!("Opening, and its limits\n\n{}", aligned(1, &rows))
}

fn sessions(effort: &Effort, all: &[Measured]) -> String {
    let mut rows = vec![
        row("|||bytes to|bytes to|answers|answers||takes|takes||"),
        row("case|n|rounds|responder|opener|library|reference|ratio|library|reference|ratio|"),
    ];
    for (place, measured) in all.iter().enumerate() {
        gap(&mut rows, all, place);
        let (sent, got) = (measured.queries.iter().sum(), measured.replies.iter().sum());
        let mut cells = vec![measured.case.to_string(), grouped(measured.n)];
        cells.extend([grouped(measured.queries.len()), grouped(sent), grouped(got)]);
        cells.extend(pair(measured, Call::Answer));
        cells.extend(pair(measured, Call::Take));
        cells.push(notes(effort, measured, &[Call::Answer, Call::Take]));
        rows.push(cells);
    }
    format!("Answers and takes of a whole session\n\n{}", aligned(1, &rows))
}

fn growth_table(all: &[Measured]) -> String {
    let mut rows = vec![row("case|call|")];
    for case in &CASES {
        for steps in growth(all, case.name) {
            let mut cells = [case.name, steps.call.name(), steps.way.name()]
                .map(str::to_string)
                .to_vec();
            for step in &steps.steps {
                cells.push(match step.exponent() {
                    None => "- ".to_string(),
                    Some(exponent) if step.counts() => format!("{exponent:.2} "),
                    Some(exponent) => format!("({exponent:.2})"),
                });
            }
            cells.push(String::new());
            rows.push(cells);
        }
    }
    if let Some(steps) = growth(all, CASES[0].name).first() {
        rows[0].extend(steps.steps.iter().map(|step| format!("to {}", grouped(step.to))));
        rows[0].push(String::new());
    }
    format!(
        "Growth from the next smaller n: log of the growth of the time / log of the growth of n\n\
         (in brackets if the smaller time is below {})\n\n{}",
        duration(SHORTEST),
        aligned(3, &rows)
    )
}

fn faster(all: &[Measured]) -> String {
    let mut lines = Vec::new();
    for case in &CASES {
        for steps in growth(all, case.name) {
            if let Some(step) = steps.too_fast() {
                let name = format!("{}, {}, {}", case.name, steps.call.name(), steps.way.name());
                let (from, to) = (grouped(step.from), grouped(step.to));
                let (growth, expected) = (step.growth().unwrap_or(0.0), step.n_log_n());
                lines.push(format!(
                    "- {name}: {growth:.1} times from {from} to {to}; n log n: {expected:.1} times\n"
                ));
            }
        }
    }
    if lines.is_empty() {
        lines.push("- none\n".to_string());
    }
    format!(
        "Grows faster than n log n\n\n\
         Rule: over the last two steps of n that were measured, the time grows more than {FACTOR} times as much as\n\
         n log n. Two steps, since the cut into 16 parts makes sessions alike at n and 16 n, not at n and 4 n;\n\
         one, if there is no more. The time before them must be at least {}. Reading is judged too: if it is\n\
         listed, the table no longer fits a cache.\n\n{}",
        duration(SHORTEST),
        lines.concat()
    )
}
