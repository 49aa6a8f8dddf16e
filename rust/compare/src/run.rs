//! Runs the cases of all kinds, or one of them, on the library and the reference, and prints what was compared.
use crate::calls::{Call, FoldCall, Library, Reference, TreeCall};
use crate::compare::{Comparer, Counts};
use crate::kinds::{Kind, Label, KINDS};
use std::time::{Duration, Instant};

/// Runs all kinds; the long run goes on with one seed after another until the time is over. Whether nothing differs.
pub fn all(first_seed: u64, long: bool, time: Option<Duration>) -> bool {
    let start = Instant::now();
    let is_over = || time.map_or(false, |time| start.elapsed() >= time);
    let mut totals = Counts::default();
    let mut seed = first_seed;
    loop {
        println!("seed {}{}", seed, if long { ", long run" } else { "" });
        for kind in &KINDS {
            match run_kind(kind, seed, long, &is_over) {
                Some(counts) => totals.add(&counts),
                None => return false,
            }
        }
        if !long || is_over() {
            break;
        }
        seed = seed.wrapping_add(1);
    }
    print_totals(&totals);
    let whole = seed != first_seed || !is_over();
    if whole && !all_came_up(&totals) {
        return false;
    }
    let (cases, calls, guarded) = (totals.cases, totals.calls, totals.guarded);
    let time = format!(
        "{} s{}",
        start.elapsed().as_secs(),
        if is_over() { ", stopped by time" } else { "" }
    );
    println!(
        "{} cases, {} calls compared, {} beside inaccessible pages; no difference; {}",
        cases, calls, guarded, time
    );
    true
}

/// The cases of one kind; none if one of them differs.
fn run_kind(kind: &'static Kind, seed: u64, long: bool, is_over: &dyn Fn() -> bool) -> Option<Counts> {
    let since = Instant::now();
    let mut comparer = Comparer::new(&Library, &Reference);
    for index in 0..(kind.cases)(long) {
        if is_over() {
            break;
        }
        let label = Label::new(kind, seed, index, long);
        if let Err(text) = label.run(&mut comparer) {
            print_difference(&label, &text);
            return None;
        }
    }
    let Counts { cases, calls, .. } = comparer.counts;
    println!(
        "{:<13}{:>6} cases, {:>8} calls compared; {:.1} s",
        kind.name,
        cases,
        calls,
        since.elapsed().as_secs_f64()
    );
    Some(comparer.counts)
}

fn print_difference(label: &Label, text: &str) {
    println!(
        "DIFFERENCE in kind {}, seed {}: {}\nrun again: {}",
        label.kind.name,
        label.seed,
        text,
        label.command()
    );
}

/// A call, the numbers that it can refuse by, and how often it gave each number, 0 for no refusal.
struct Numbers<'a> {
    name: &'static str,
    refusals: Vec<u8>,
    counts: &'a [u64],
}

impl<'a> Numbers<'a> {
    fn new(name: &'static str, counts: &'a [u64], can_refuse_by: impl Fn(u8) -> bool) -> Numbers<'a> {
        Numbers {
            name,
            refusals: (1..=u8::MAX).filter(|&number| can_refuse_by(number)).collect(),
            counts,
        }
    }

    fn print(&self) {
        let refusals = self.refusals.iter();
        let counts: Vec<String> = refusals
            .map(|&number| format!("{}: {}", number, self.counts[usize::from(number)]))
            .collect();
        let (name, accepted) = (self.name, self.counts[0]);
        println!(
            "{:<14}not refused: {}; refused by {}",
            name,
            accepted,
            counts.join(", ")
        );
    }

    /// Whether every number that the call can give has come up and no other.
    fn came_up(&self) -> bool {
        (1..self.counts.len() as u8).all(|number| {
            let seen = self.counts[usize::from(number)] > 0;
            let is_right = seen == self.refusals.contains(&number);
            if !is_right {
                println!("FAILED: {} gave refusal {}: {}", self.name, number, seen);
            }
            is_right
        })
    }
}

/// Those of all calls whose numbers are counted.
fn numbers(totals: &Counts) -> Vec<Numbers<'_>> {
    let calls = Call::ALL.iter().map(|&call| {
        let counts = &totals.numbers[call as usize];
        Numbers::new(call.name(), counts, |number| number != 14 && call.can_refuse_by(number))
    });
    let limited_calls = Call::WRITING.iter().map(|&call| {
        let counts = &totals.limited_numbers[call as usize];
        Numbers::new(call.limited_name(), counts, |number| call.can_refuse_by(number))
    });
    let tree_calls = TreeCall::ALL.iter().map(|&call| {
        let counts = &totals.tree_numbers[call as usize];
        Numbers::new(call.name(), counts, |number| call.can_refuse_by(number))
    });
    let fold_calls = FoldCall::ALL.iter().map(|&call| {
        let counts = &totals.fold_numbers[call as usize];
        Numbers::new(call.name(), counts, FoldCall::can_refuse_by)
    });
    let calls = calls.chain(limited_calls).chain(tree_calls);
    calls.chain(fold_calls).collect()
}

/// How often each call gave each number, and what sessions, trees and commits came to.
fn print_totals(totals: &Counts) {
    numbers(totals).iter().for_each(Numbers::print);
    println!(
        "{} sessions done by {} takes, {} of them late or repeated; {} ended with the last reply that L allows; \
         {} differences unreported, all in colliding ranges",
        totals.sessions, totals.takes, totals.late, totals.full_rows, totals.excused
    );
    println!(
        "{} messages cut short by a byte limit, {} of them inside a list; {} sessions with such messages done",
        totals.short, totals.short_lists, totals.short_sessions
    );
    let [by_former_rule, by_library] = totals.former_late;
    println!(
        "{} messages by the former rule that are others today; {} sessions with such messages and calls of the library \
         after them done, {} of them with the last reply that L allows; {} late replies to such queries taken by the \
         library, {} of them its own",
        totals.former,
        totals.carried,
        totals.carried_rows,
        by_former_rule + by_library,
        by_library
    );
    println!(
        "{} takes with a table of another label, {} of them of sessions that were done, and {} with a changed table of the \
         same label; {} whose marks did not fit the changed table",
        totals.other_table, totals.other_table_done, totals.same_label, totals.unfit
    );
    println!(
        "{} sessions given back by their conversion, {} of them done, {} after commits; {} sessions the same with \
         conversions as without",
        totals.given_back, totals.given_back_done, totals.given_back_later, totals.converted
    );
    println!(
        "{} runs of trees with the label summed item by item; {} appends with the tree built afresh",
        totals.summed, totals.rebuilt
    );
    println!(
        "{} commits after sessions, which made {} tables the union of both",
        totals.commits, totals.unions
    );
}

/// Whether every number that a call can give has come up and no other, and all that sessions, trees and commits are to
/// show.
fn all_came_up(totals: &Counts) -> bool {
    if !numbers(totals).iter().all(Numbers::came_up) {
        return false;
    }
    let shown = [
        totals.sessions,
        totals.late,
        totals.full_rows,
        totals.excused,
        totals.guarded,
        totals.summed,
        totals.rebuilt,
        totals.short,
        totals.short_lists,
        totals.short_sessions,
        totals.former,
        totals.carried,
        totals.carried_rows,
        totals.former_late[0],
        totals.former_late[1],
        totals.other_table,
        totals.other_table_done,
        totals.same_label,
        totals.unfit,
        totals.given_back,
        totals.given_back_done,
        totals.given_back_later,
        totals.converted,
        totals.commits,
        totals.unions,
    ];
    if shown.contains(&0) {
        println!("FAILED: something never came up that sessions, trees and commits are meant to show");
        return false;
    }
    true
}

/// Runs one case again and prints its inputs. Whether nothing differs.
pub fn one(label: &Label) -> bool {
    let mut comparer = Comparer::new(&Library, &Reference);
    comparer.show = true;
    match label.run(&mut comparer) {
        Ok(()) => println!("{} calls compared, no difference", comparer.counts.calls),
        Err(text) => {
            print_difference(label, &text);
            return false;
        }
    }
    true
}
