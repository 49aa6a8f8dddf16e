//! Compares one call of two implementations: the answers, and every byte of all that was lent.
use crate::calls::{Call, Calls, GivenBound, Reference, Refused, RunOutcome, TreeCall};
use crate::fold::{self, FoldAfter, FoldInput};
use crate::guard::Side;
use crate::input::{After, Input, Regions};
use crate::label::{label_of, NO_SESSION};
use crate::show;
use crate::tree::{check_run, TreeAfter, TreeInput};
use recon::{Sent, Session, Table};
use reference::Odd;
use std::fmt::Debug;

/// A check: what it gives, or what differs.
pub type Check<T = ()> = Result<T, String>;

/// How often each of some calls gave each number, 0 for no refusal.
pub type Tally<const CALLS: usize> = [[u64; 19]; CALLS];

/// What was compared.
#[derive(Clone, Default)]
pub struct Counts {
    pub cases: u64,
    /// Calls compared, those of fingerprints, digests, trees and folding in included.
    pub calls: u64,
    /// Those of them with every slice beside an inaccessible page.
    pub guarded: u64,
    /// Of the calls of a session without a byte limit.
    pub numbers: Tally<4>,
    /// Of those with a byte limit.
    pub limited_numbers: Tally<3>,
    /// Of the calls on trees.
    pub tree_numbers: Tally<3>,
    /// Of inquiries and commits.
    pub fold_numbers: Tally<2>,
    /// Messages that a byte limit cut short.
    pub short: u64,
    /// Those of them that have a part of a list.
    pub short_lists: u64,
    /// Sessions with such messages that came to their end.
    pub short_sessions: u64,
    /// Runs of trees from builds and appends whose label is that of the items.
    pub summed: u64,
    /// Appends that left the tree that a build leaves.
    pub rebuilt: u64,
    /// Sessions that came to their end.
    pub sessions: u64,
    /// Takes of them that were not refused.
    pub takes: u64,
    /// Those of them that were not handed the answer to the query last sent.
    pub late: u64,
    /// Sessions that ended with the last reply that the bound allows.
    pub full_rows: u64,
    /// Differences that stayed unreported, each inside a compared range with equal fingerprints.
    pub excused: u64,
    /// Messages by the former rule where the rule of today makes others.
    pub former: u64,
    /// Sessions with such messages and calls of the library after them that came to their end.
    pub carried: u64,
    /// Those of them that ended with the last reply that the bound allows, both in the takes in a row.
    pub carried_rows: u64,
    /// Late or repeated replies to such queries that the library took: made by the former rule, and by the library.
    pub former_late: [u64; 2],
    /// Takes with a table of another label than the session's, and those of them whose session was done.
    pub other_table: u64,
    pub other_table_done: u64,
    /// Takes with a changed table that has the label of the session.
    pub same_label: u64,
    /// Takes whose marks did not fit the changed table.
    pub unfit: u64,
    /// Conversions that gave a session back; those of them whose session was done, and those after commits.
    pub given_back: u64,
    pub given_back_done: u64,
    pub given_back_later: u64,
    /// Sessions that sent and reported the same with conversions as without.
    pub converted: u64,
    /// Commits after sessions, as long as ids were needed.
    pub commits: u64,
    /// Tables that became the union of both by these.
    pub unions: u64,
}

impl Counts {
    pub fn add(&mut self, other: &Counts) {
        self.cases += other.cases;
        self.calls += other.calls;
        self.guarded += other.guarded;
        self.sessions += other.sessions;
        self.takes += other.takes;
        self.late += other.late;
        self.full_rows += other.full_rows;
        self.excused += other.excused;
        self.former += other.former;
        self.carried += other.carried;
        self.carried_rows += other.carried_rows;
        let late = self.former_late.iter_mut().zip(other.former_late);
        late.for_each(|(sum, count)| *sum += count);
        self.summed += other.summed;
        self.rebuilt += other.rebuilt;
        self.short += other.short;
        self.short_lists += other.short_lists;
        self.short_sessions += other.short_sessions;
        self.other_table += other.other_table;
        self.other_table_done += other.other_table_done;
        self.same_label += other.same_label;
        self.unfit += other.unfit;
        self.given_back += other.given_back;
        self.given_back_done += other.given_back_done;
        self.given_back_later += other.given_back_later;
        self.converted += other.converted;
        self.commits += other.commits;
        self.unions += other.unions;
        add_tally(&mut self.numbers, &other.numbers);
        add_tally(&mut self.limited_numbers, &other.limited_numbers);
        add_tally(&mut self.tree_numbers, &other.tree_numbers);
        add_tally(&mut self.fold_numbers, &other.fold_numbers);
    }
}

fn add_tally<const CALLS: usize>(sums: &mut Tally<CALLS>, counts: &Tally<CALLS>) {
    let pairs = sums.iter_mut().flatten().zip(counts.iter().flatten());
    pairs.for_each(|(sum, count)| *sum += count);
}

/// The two implementations, and memory for the slices that are lent to the first.
pub struct Comparer<'a> {
    first: &'a dyn Calls,
    second: &'a dyn Calls,
    regions: Regions,
    turn: u64,
    /// Prints each input before the call.
    pub show: bool,
    pub counts: Counts,
}

impl<'a> Comparer<'a> {
    pub fn new(first: &'a dyn Calls, second: &'a dyn Calls) -> Comparer<'a> {
        Comparer {
            first,
            second,
            regions: Regions::new(),
            turn: 0,
            show: false,
            counts: Counts::default(),
        }
    }

    /// Starts a case: what follows no longer depends on the cases before it.
    pub fn start_case(&mut self, index: u64) {
        self.turn = index;
        self.counts.cases += 1;
    }

    /// Counts a call. Slices touch the two ends of their regions by turns.
    fn next_side(&mut self) -> Side {
        self.turn += 1;
        self.counts.calls += 1;
        if self.turn % 2 == 0 {
            Side::Start
        } else {
            Side::End
        }
    }

    /// Makes a call with both implementations; what each gives. The first makes it with every slice beside an
    /// inaccessible page, unless one does not fit.
    fn both<T>(
        &mut self,
        text: impl FnOnce() -> String,
        guarded: impl FnOnce(&mut Regions, &dyn Calls, Side) -> Option<T>,
        plain: impl Fn(&dyn Calls) -> T,
    ) -> (T, T) {
        if self.show {
            print!("{}", text());
        }
        let side = self.next_side();
        let guarded = guarded(&mut self.regions, self.first, side);
        self.counts.guarded += u64::from(guarded.is_some());
        (guarded.unwrap_or_else(|| plain(self.first)), plain(self.second))
    }

    fn show_outcomes(&self, first: impl Debug, second: impl Debug) {
        if self.show {
            println!("  {}: {:?}", self.first.name(), first);
            println!("  {}: {:?}", self.second.name(), second);
        }
    }

    /// Makes a call with both implementations; what both answer. One by the former rule is made by the second alone.
    pub fn call(&mut self, input: &Input<'_>) -> Check<After> {
        if input.odd == Odd::ToFirst {
            return self.former(input);
        }
        let ((first, unchanged), (second, _)) = self.both(
            || show::input(input),
            |regions, calls, side| regions.run(calls, input, side),
            |calls| (input.run(calls), true),
        );
        self.show_outcomes(first.outcome, second.outcome);
        let names = format!("{} and {}", self.first.name(), self.second.name());
        compare_after(&first, &second, &names)
            .and_then(|()| check_lent(input, &first, unchanged))
            .map_err(|text| format!("{}: {}", input.name(), text))?;
        let (call, number) = (input.call as usize, usize::from(first.number()));
        if input.is_limited() {
            self.counts.limited_numbers[call][number] += 1;
        } else {
            self.counts.numbers[call][number] += 1;
        }
        Ok(first)
    }

    /// Makes a call by the former rule, which the library does not have: nothing is compared, and nothing counted.
    fn former(&self, input: &Input<'_>) -> Check<After> {
        if self.show {
            print!("{}", show::input(input));
        }
        let after = input.run(self.second);
        check_lent(input, &after, true).map_err(|text| format!("{}: {}", input.name(), text))?;
        Ok(after)
    }

    /// What a call leaves when there is room for all. Asked of the reference alone.
    pub fn with_all_room(&self, input: &Input<'_>) -> After {
        let out = vec![0; input.most_room()];
        let mut needed = input.needed.to_vec();
        needed.resize(needed.len() + input.message.len() / 32 * 32, 0);
        input.with_needed(&needed).with_out(&out).run(&Reference)
    }

    /// The fingerprint call with both implementations.
    pub fn fingerprint(&mut self, table: Table<'_>, bounds: [GivenBound<'_>; 2]) -> Check<Result<[u8; 16], u8>> {
        let [lower, upper] = bounds;
        let (first, second) = self.both(
            || show::fingerprint(table, lower, upper),
            |regions, calls, side| regions.fingerprint(calls, table, bounds, side),
            |calls| calls.fingerprint(table, lower, upper),
        );
        if first != second {
            let names = (self.first.name(), self.second.name());
            return Err(format!("fingerprint: {:?} tell {:?} and {:?}", names, first, second));
        }
        Ok(first)
    }

    /// SHA-256 with both implementations.
    pub fn sha256(&mut self, message: &[u8]) -> Check<[u8; 32]> {
        let (first, second) = self.both(
            || format!("sha256 of {} bytes {}\n", message.len(), show::hex(message)),
            |regions, calls, side| regions.sha256(calls, message, side),
            |calls| calls.sha256(message),
        );
        same_bytes(&first, &second, || format!("digests of {} bytes", message.len()))?;
        Ok(first)
    }

    /// A build or an append with both implementations; what both answer.
    pub fn tree(&mut self, input: &TreeInput<'_>) -> Check<TreeAfter> {
        let ((first, unchanged), (second, _)) = self.both(
            || show::tree(input),
            |regions, calls, side| regions.tree(calls, input, side),
            |calls| (input.run(calls), true),
        );
        self.show_outcomes(first.outcome, second.outcome);
        let names = format!("{} and {}", self.first.name(), self.second.name());
        compare_trees(&first, &second, &names)
            .and_then(|()| check_read(unchanged))
            .and_then(|()| input.check_refused(&first))
            .map_err(|text| format!("{}: {}", input.call().name(), text))?;
        self.counts.tree_numbers[input.call() as usize][usize::from(first.number())] += 1;
        Ok(first)
    }

    /// The label of a run with both implementations.
    pub fn tree_label(&mut self, tree: &[u8], from: usize, to: usize) -> Check<RunOutcome> {
        let ((first, unchanged), (second, _)) = self.both(
            || show::tree_run(tree, from, to),
            |regions, calls, side| regions.tree_label(calls, tree, (from, to), side),
            |calls| (calls.tree_label(tree, from, to), true),
        );
        let told = |text| format!("{} from {} to {}: {}", TreeCall::Run.name(), from, to, text);
        if first != second {
            let names = (self.first.name(), self.second.name());
            return Err(told(format!("{:?} tell {:?} and {:?}", names, first, second)));
        }
        check_read(unchanged)
            .and_then(|()| first.map_or(Ok(()), |run| check_run(tree, from, to, run)))
            .map_err(told)?;
        self.counts.tree_numbers[TreeCall::Run as usize][usize::from(first.err().unwrap_or(0))] += 1;
        Ok(first)
    }

    /// An inquiry or a commit with both implementations; what both answer.
    pub fn fold(&mut self, input: &FoldInput<'_>) -> Check<FoldAfter> {
        let ((first, unchanged), (second, _)) = self.both(
            || show::fold(input),
            |regions, calls, side| regions.fold(calls, input, side),
            |calls| (input.run(calls), true),
        );
        self.show_outcomes(first.outcome, second.outcome);
        let names = format!("{} and {}", self.first.name(), self.second.name());
        fold::compare(&first, &second, &names)
            .and_then(|()| check_read(unchanged))
            .and_then(|()| input.check(&first))
            .map_err(|text| format!("{}: {}", input.call.name(), text))?;
        self.counts.fold_numbers[input.call as usize][usize::from(first.number())] += 1;
        Ok(first)
    }
}

fn compare_trees(first: &TreeAfter, second: &TreeAfter, names: &str) -> Check {
    if first.outcome != second.outcome {
        let outcomes = (first.outcome, second.outcome);
        return Err(format!("{} answer {:?} and {:?}", names, outcomes.0, outcomes.1));
    }
    same_bytes(&first.tree, &second.tree, || format!("{}: tree bytes", names))
}

fn compare_after(first: &After, second: &After, names: &str) -> Check {
    if first.outcome != second.outcome {
        let outcomes = (first.outcome, second.outcome);
        return Err(format!("{} answer {:?} and {:?}", names, outcomes.0, outcomes.1));
    }
    same_bytes(&first.marks, &second.marks, || format!("{}: marks", names))?;
    same_bytes(&first.needed, &second.needed, || format!("{}: needed bytes", names))?;
    same_bytes(&first.out, &second.out, || format!("{}: out bytes", names))
}

fn check_read(unchanged: bool) -> Check {
    if !unchanged {
        return Err("a slice lent for reading has changed".to_string());
    }
    Ok(())
}

/// What holds of the lent bytes after every call, whichever implementation made it.
fn check_lent(input: &Input<'_>, after: &After, unchanged: bool) -> Check {
    check_read(unchanged)?;
    match after.outcome {
        Ok(sent) => check_sent(input, after, sent),
        Err(refused) => check_refused(input, after, refused),
    }
}

/// A refused call leaves all as it was. A take is refused by 18 just where the labels differ, unless by an earlier check.
fn check_refused(input: &Input<'_>, after: &After, refused: Refused) -> Check {
    check_unchanged(input, after, &format!("refused by {}", refused.number))?;
    let beside = input.call.beside_refusal(input.session);
    if refused.session != beside {
        return Err(format!(
            "{:?} stands beside the refusal, and not {:?}",
            refused.session, beside
        ));
    }
    let is_passed = matches!(refused.number, 5..=12);
    if input.call != Call::Take || !is_passed && refused.number != 18 {
        return Ok(());
    }
    let labels = (label_of(input.table), input.session.label);
    if is_passed != (labels.0 == labels.1) {
        return Err(format!(
            "refused by {}, and the labels are {:?}",
            refused.number, labels
        ));
    }
    Ok(())
}

fn check_unchanged(input: &Input<'_>, after: &After, call: &str) -> Check {
    let what = |buffer| move || format!("{}: {} before and afterwards", call, buffer);
    same_bytes(input.marks, &after.marks, what("marks"))?;
    same_bytes(input.needed, &after.needed, what("needed bytes"))?;
    same_bytes(input.out, &after.out, what("out bytes"))
}

/// Openings and conversions put the label of the table into the session, and a take leaves it there.
fn check_session(input: &Input<'_>, sent: Sent) -> Check {
    let label = label_of(input.table);
    let (before, session) = match input.call {
        Call::Answer => return Ok(()),
        Call::Open => (label, NO_SESSION),
        Call::Convert => (label, input.session),
        Call::Take => (input.session.label, sent.session),
    };
    let expected = Session { label, ..session };
    if before != label || sent.session != expected {
        return Err(format!(
            "the label of the table: {:?} expected, both say {:?}",
            expected, sent.session
        ));
    }
    Ok(())
}

/// Bytes behind the message and the list stay, and the session counts the marks. A conversion writes nothing.
fn check_sent(input: &Input<'_>, after: &After, sent: Sent) -> Check {
    check_session(input, sent)?;
    if input.call == Call::Convert {
        check_unchanged(input, after, "a conversion")?;
    }
    let listed = if input.call == Call::Take {
        32 * sent.session.needed
    } else {
        0
    };
    if sent.length > input.out.len() || listed > input.needed.len() {
        return Err(format!("{:?} is more than the buffers hold", sent));
    }
    if input.is_limited() && input.bytes.map_or(false, |bytes| sent.length > bytes) {
        return Err(format!("{} bytes are more than the limit", sent.length));
    }
    let what = |buffer| move || format!("{} behind what was written", buffer);
    same_bytes(&input.out[sent.length..], &after.out[sent.length..], what("out bytes"))?;
    same_bytes(&input.needed[listed..], &after.needed[listed..], what("needed bytes"))?;
    let ones = after.marks.iter().filter(|&&mark| mark == 1).count();
    if input.call != Call::Answer && sent.session.marked != ones {
        let marked = sent.session.marked;
        return Err(format!("{} marks are 1, and the session says {}", ones, marked));
    }
    Ok(())
}

/// Whether two byte strings are the same; if not, the first byte that differs.
pub fn same_bytes(first: &[u8], second: &[u8], what: impl FnOnce() -> String) -> Check {
    if first == second {
        return Ok(());
    }
    match first.iter().zip(second).position(|(a, b)| a != b) {
        None => Err(format!("{} have {} and {} bytes", what(), first.len(), second.len())),
        Some(at) => {
            let (a, b) = (first[at], second[at]);
            Err(format!("{} differ at {}: {:02x} and {:02x}", what(), at, a, b))
        }
    }
}
