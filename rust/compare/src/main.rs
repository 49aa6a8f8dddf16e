//! Compares the proved library with an independent implementation: every answer, and every byte of every lent buffer.
//!
//! ```text
//! compare                        all kinds of cases, with the default seed
//! compare --seed N               the same with another seed
//! compare --long [--minutes M]   more and larger cases, one seed after another, for M minutes (20)
//! compare [--long] --case KIND:SEED:INDEX   one case again, with its inputs in full
//! compare --self-check           damages one side or both on purpose, and asks that each damage is found
//! ```
//! Exits with 0 if nothing differs, with 1 at the first difference, and with 2 if the arguments are wrong.
mod calls;
mod carried_trials;
mod changes;
mod compare;
mod damage;
mod demand;
mod exchange;
mod faults;
mod fold;
mod fold_faults;
mod fold_made;
mod fold_trials;
mod generate;
mod guard;
mod input;
mod kept;
mod kinds;
mod label;
mod label_trials;
mod raw;
mod rng;
mod run;
mod schedule;
mod self_check;
mod short;
mod show;
mod story;
mod tree;
mod tree_faults;
mod tree_trials;
mod trials;
mod within_trials;

use kinds::{kind_named, Label};
use std::process::exit;
use std::time::Duration;

const DEFAULT_SEED: u64 = 20_261_116;
const DEFAULT_MINUTES: u64 = 20;

enum Task {
    All,
    Case(String),
    SelfCheck,
    /// The self-check's own process: one of the guard damages.
    Guard(String),
}

struct Arguments {
    task: Task,
    seed: u64,
    long: bool,
    minutes: Option<u64>,
}

impl Arguments {
    /// How long the run may take: the long run is bounded in any case.
    fn time(&self) -> Option<Duration> {
        let minutes = match self.minutes {
            None if self.long => Some(DEFAULT_MINUTES),
            minutes => minutes,
        };
        minutes.map(|minutes| Duration::from_secs(minutes.saturating_mul(60)))
    }
}

fn main() {
    let arguments = parse(std::env::args().skip(1)).unwrap_or_else(|text| {
        eprintln!(
            "{}\nuse: compare [--seed N] [--long] [--minutes M] [--case KIND:SEED:INDEX] [--self-check]",
            text
        );
        exit(2)
    });
    guard::watch();
    let passed = match &arguments.task {
        Task::All => run::all(arguments.seed, arguments.long, arguments.time()),
        Task::Case(text) => match label(text, arguments.long) {
            Some(label) => run::one(&label),
            None => {
                eprintln!("there is no case {}", text);
                exit(2)
            }
        },
        Task::SelfCheck => self_check::all(arguments.seed),
        Task::Guard(name) => self_check::guard_damage(name, arguments.seed),
    };
    exit(if passed { 0 } else { 1 })
}

fn parse(mut words: impl Iterator<Item = String>) -> Result<Arguments, String> {
    let mut arguments = Arguments {
        task: Task::All,
        seed: DEFAULT_SEED,
        long: false,
        minutes: None,
    };
    while let Some(word) = words.next() {
        let mut value = || words.next().ok_or(format!("{} needs a value", word));
        let number = |text: String| text.parse().map_err(|_| format!("{} is no number", text));
        match word.as_str() {
            "--seed" => arguments.seed = number(value()?)?,
            "--minutes" => arguments.minutes = Some(number(value()?)?),
            "--long" => arguments.long = true,
            "--case" => arguments.task = Task::Case(value()?),
            "--self-check" => arguments.task = Task::SelfCheck,
            "--guard-damage" => arguments.task = Task::Guard(value()?),
            _ => return Err(format!("{} is unknown", word)),
        }
    }
    Ok(arguments)
}

/// The case of a text KIND:SEED:INDEX, if there is one.
fn label(text: &str, long: bool) -> Option<Label> {
    let mut words = text.split(':');
    let kind = kind_named(words.next()?)?;
    let seed = words.next()?.parse().ok()?;
    let index = words.next()?.parse().ok()?;
    if words.next().is_some() || index >= (kind.cases)(long) {
        return None;
    }
    Some(Label::new(kind, seed, index, long))
}
