//! Whether the tests can fail: damages one or both sides on purpose, and asks that each damage is found.
use crate::calls::{Calls, Library};
use crate::compare::Comparer;
use crate::damage::{Damage, Damaged};
use crate::kinds::{kind_named, Label};
use crate::trials::{both_sided, one_sided, Beyond, Trial, BEYOND};
use std::process::Command;

/// Whether each damage was found.
pub fn all(seed: u64) -> bool {
    // A panic in a damaged call is a finding like others, and is not printed.
    std::panic::set_hook(Box::new(|_| {}));
    let mut missed = 0;
    let (one_sided, both_sided) = (one_sided(), both_sided());
    println!("the library against the damaged reference:");
    for trial in &one_sided {
        missed += u32::from(!found(trial, &Library, &Damaged(trial.damage), seed));
    }
    println!("the damaged reference on both sides:");
    for trial in &both_sided {
        missed += u32::from(!found(trial, &Damaged(trial.damage), &Damaged(trial.damage), seed));
    }
    println!("the damaged reference in a process of its own:");
    for beyond in &BEYOND {
        missed += u32::from(!guard_found(beyond, seed));
    }
    let damages = one_sided.len() + both_sided.len() + BEYOND.len();
    println!("{} damages, {} not found", damages, missed);
    missed == 0
}

/// Whether the kind of a trial has a case that finds its damage and says so in the right words.
fn found(trial: &Trial, first: &dyn Calls, second: &dyn Calls, seed: u64) -> bool {
    let kind = kind_named(trial.kind).expect("trials name kinds");
    let mut comparer = Comparer::new(first, second);
    for index in 0..(kind.cases)(false) {
        let told = Label::new(kind, seed, index, false).run(&mut comparer);
        if matches!(told, Err(text) if text.contains(trial.words)) {
            println!(
                "  found by {} {} (\"{}\"): {}",
                kind.name, index, trial.words, trial.name
            );
            return true;
        }
    }
    println!("  NOT FOUND by {} (\"{}\"): {}", kind.name, trial.words, trial.name);
    false
}

/// Whether a process that touches memory beyond a slice ends with 1 and the command that runs the case again.
fn guard_found(beyond: &Beyond, seed: u64) -> bool {
    let program = std::env::current_exe().expect("the program has a path");
    let output = Command::new(program)
        .args(["--guard-damage", beyond.name, "--seed", &seed.to_string()])
        .output();
    let output = output.expect("the program runs");
    let text = String::from_utf8_lossy(&output.stdout).into_owned();
    let found = output.status.code() == Some(1) && text.contains("run again: ") && text.contains(" --case ");
    let verdict = if found { "found" } else { "NOT FOUND" };
    println!(
        "  {}: a byte {} is read: {}",
        verdict,
        beyond.name,
        text.trim_end().replace('\n', "; ")
    );
    found
}

/// The process of its own: it must not come back from its first case.
pub fn guard_damage(name: &str, seed: u64) -> bool {
    let beyond = BEYOND
        .iter()
        .find(|beyond| beyond.name == name)
        .expect("a known damage");
    let damaged = Damaged(Damage::Beyond(beyond.side));
    let mut comparer = Comparer::new(&damaged, &Library);
    let kind = kind_named(beyond.kind).expect("a kind");
    Label::new(kind, seed, 0, false).run(&mut comparer).is_ok()
}
