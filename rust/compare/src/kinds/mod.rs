//! The kinds of cases, a file for each.
mod carried;
mod damaged;
mod digests;
mod examples;
mod fingerprints;
mod fold;
mod labelled;
mod limits;
mod lists;
mod merges;
mod needed;
mod refusals;
mod room;
mod sessions;
mod tables;
mod trees;
mod versions;
mod within;

use crate::calls::FoldCall;
use crate::compare::{Check, Comparer};
use crate::fold::{agree, FoldAfter, FoldInput};
use crate::guard;
use crate::input::{After, Input};
use crate::rng::Rng;
use crate::short::{self, Kept};
use crate::tree::{TreeAfter, TreeInput};
use reference::Odd;
use std::panic::{catch_unwind, AssertUnwindSafe};

/// One case: all that it does is fixed by its kind, its seed, its index and whether it is of the long run.
pub struct Case<'a, 'b> {
    pub comparer: &'a mut Comparer<'b>,
    pub rng: Rng,
    pub index: u64,
    pub long: bool,
}

impl Case<'_, '_> {
    /// Makes a call with both implementations; its number has to be this one, 0 for no refusal.
    pub fn expect(&mut self, input: &Input<'_>, number: u8) -> Check<After> {
        let after = self.comparer.call(input)?;
        expect_number(after.number(), number)?;
        Ok(after)
    }

    /// The same for a build or an append.
    pub fn expect_tree(&mut self, input: &TreeInput<'_>, number: u8) -> Check<TreeAfter> {
        let after = self.comparer.tree(input)?;
        expect_number(after.number(), number)?;
        Ok(after)
    }

    /// An inquiry and a commit of the same input, which have to agree; what the commit leaves.
    pub fn fold(&mut self, input: &FoldInput<'_>) -> Check<FoldAfter> {
        let inquiry = self.comparer.fold(&input.of(FoldCall::Inquire))?;
        let commit = self.comparer.fold(&input.of(FoldCall::Commit))?;
        agree(input, &inquiry, &commit)?;
        Ok(commit)
    }

    /// The same; their number has to be this one, and the merge that of the specification.
    pub fn expect_fold(&mut self, input: &FoldInput<'_>, number: u8) -> Check<FoldAfter> {
        let after = self.fold(input)?;
        expect_number(after.number(), number)?;
        input.check_merge(&after)?;
        Ok(after)
    }

    /// What a lawful call needs: out bytes, and ids of the needed buffer.
    pub fn room(&self, input: &Input<'_>) -> Check<(usize, usize)> {
        match self.comparer.with_all_room(input).outcome {
            Ok(sent) => Ok((sent.length, sent.session.needed)),
            Err(_) => Err(format!("{}: the reference refuses a lawful call", input.name())),
        }
    }

    /// The message of a lawful call as it is without a byte limit.
    pub fn whole(&self, input: &Input<'_>) -> Vec<u8> {
        self.comparer.with_all_room(&input.within(None)).message().to_vec()
    }

    /// Whether a message is whole; where its limit cut it short, it has to be as the specification says.
    pub fn check_short(&mut self, input: &Input<'_>, message: &[u8]) -> Check<bool> {
        let limit = match input.bytes {
            None => return Ok(true),
            Some(limit) => limit,
        };
        let kept = short::check(input.table, limit, &self.whole(input), message)
            .map_err(|text| format!("{}: {}", input.name(), text))?;
        self.comparer.counts.short += u64::from(kept != Kept::Whole);
        self.comparer.counts.short_lists += u64::from(kept == Kept::PartOfList);
        Ok(kept == Kept::Whole)
    }

    /// Whether a message is one by the former rule where the rule of today makes another.
    pub fn is_former(&mut self, input: &Input<'_>, message: &[u8]) -> bool {
        if input.odd == Odd::ToLast {
            return false;
        }
        let is_former = self.comparer.with_all_room(&input.by(Odd::ToLast)).message() != message;
        self.comparer.counts.former += u64::from(is_former);
        is_former
    }
}

pub fn expect_number(told: u8, expected: u8) -> Check {
    if told != expected {
        return Err(format!("{} expected, both say {}", expected, told));
    }
    Ok(())
}

/// Cases of one sort: how many there are, and what one does, by its number.
struct Group {
    cases: fn(long: bool) -> usize,
    run: fn(&mut Case<'_, '_>, usize) -> Check,
}

impl Group {
    fn cases(groups: &[Group], long: bool) -> u64 {
        groups.iter().map(|group| (group.cases)(long) as u64).sum()
    }

    /// Runs the case, which is of one of these groups.
    fn run(groups: &[Group], case: &mut Case<'_, '_>) -> Check {
        let mut index = case.index as usize;
        for group in groups {
            let count = (group.cases)(case.long);
            if index < count {
                return (group.run)(case, index);
            }
            index -= count;
        }
        Err("there is no such case".to_string())
    }
}

pub struct Kind {
    pub name: &'static str,
    /// How many cases a run has.
    pub cases: fn(long: bool) -> u64,
    run: fn(&mut Case<'_, '_>) -> Check,
}

macro_rules! kind {
    ($name:ident) => {
        Kind {
            name: stringify!($name),
            cases: $name::cases,
            run: $name::run,
        }
    };
}

pub static KINDS: [Kind; 18] = [
    kind!(examples),
    kind!(refusals),
    kind!(versions),
    kind!(damaged),
    kind!(tables),
    kind!(sessions),
    kind!(room),
    kind!(within),
    kind!(carried),
    kind!(labelled),
    kind!(fingerprints),
    kind!(limits),
    kind!(lists),
    kind!(digests),
    kind!(trees),
    kind!(fold),
    kind!(merges),
    kind!(needed),
];

pub fn kind_named(name: &str) -> Option<&'static Kind> {
    KINDS.iter().find(|kind| kind.name == name)
}

/// What names a case.
pub struct Label {
    pub kind: &'static Kind,
    pub seed: u64,
    index: u64,
    long: bool,
}

impl Label {
    pub fn new(kind: &'static Kind, seed: u64, index: u64, long: bool) -> Label {
        Label {
            kind,
            seed,
            index,
            long,
        }
    }

    /// The command that runs the case again.
    pub fn command(&self) -> String {
        let program = std::env::args().next().unwrap_or_else(|| "compare".to_string());
        let long = if self.long { "--long " } else { "" };
        format!(
            "{} {}--case {}:{}:{}",
            program, long, self.kind.name, self.seed, self.index
        )
    }

    /// Runs the case. A panic is a difference too, and a touched guard page ends the program with the command.
    pub fn run(&self, comparer: &mut Comparer<'_>) -> Check {
        guard::set_text(&format!(
            "DIFFERENCE in kind {}, seed {}: a call touches memory beyond what it was lent\nrun again: {}\n",
            self.kind.name,
            self.seed,
            self.command()
        ));
        comparer.start_case(self.index);
        let rng = Rng::of_case(self.seed, self.kind.name, self.index);
        let mut case = Case {
            comparer,
            rng,
            index: self.index,
            long: self.long,
        };
        catch_unwind(AssertUnwindSafe(|| (self.kind.run)(&mut case))).unwrap_or_else(|panic| {
            let text = panic
                .downcast_ref::<String>()
                .map(String::as_str)
                .or_else(|| panic.downcast_ref().copied());
            Err(format!("a panic: {}", text.unwrap_or("without text")))
        })
    }
}
