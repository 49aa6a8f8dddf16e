//! Inquiries and commits of batches, against plain Rust.

use crate::cases::{Counts, Order, Tables};
use crate::clock::Clock;
use crate::ends::UNSET;
use crate::layout::{aligned, duration, grouped, quotient, row};
use crate::measure::{alternate, Effort};
use crate::plain_fold;
use crate::results::Time;
use recon::{Committed, Inquiry, Label, Session, Table, ID_BYTES, MAX_ITEMS};
use std::time::Instant;

const BATCHES: [usize; 4] = [1, 1_000, 32_768, 524_288];
const NEEDED: [usize; 2] = [524_288, 1_048_576];

/// A table with room for the batch, a needed list and a batch; and what a commit leaves.
struct Case {
    times: Vec<u64>,
    ids: Vec<u8>,
    items: usize,
    session: Session,
    needed: Vec<u8>,
    batch_times: Vec<u64>,
    batch_ids: Vec<u8>,
    left: Left,
}

#[derive(Clone, PartialEq)]
struct Left {
    times: Vec<u64>,
    ids: Vec<u8>,
    needed: Vec<u8>,
}

impl Case {
    /// The most items in all. The other end has as many items as ids are needed, at random places among ours, and the batch is each of so many
    /// of them.
    fn new(batch: usize, needed: usize) -> Case {
        let items = MAX_ITEMS - batch;
        let counts = Counts {
            both: 0,
            ours: items,
            theirs: needed,
        };
        let tables = Tables::made(&counts, Order::Random, (batch + needed) as u64);
        let chosen: Vec<usize> = (0..batch).map(|number| number * needed / batch).collect();
        let theirs = &tables.responder;
        let batch_ids = chosen.iter().flat_map(|&at| id(&theirs.ids, at)).copied().collect();
        let (mut times, mut ids) = (tables.opener.times, tables.opener.ids);
        times.resize(MAX_ITEMS, u64::from(UNSET));
        ids.resize(ID_BYTES * MAX_ITEMS, UNSET);
        let mut case = Case {
            items,
            session: Session {
                marked: items,
                needed,
                done: true,
                label: Label::default(),
            },
            batch_times: chosen.iter().map(|&at| theirs.times[at]).collect(),
            batch_ids,
            left: Left {
                times: times.clone(),
                ids: ids.clone(),
                needed: tables.needed.clone(),
            },
            times,
            ids,
            needed: tables.needed,
        };
        case.merge();
        case
    }

    fn batch(&self) -> Table<'_> {
        Table {
            times: &self.batch_times,
            ids: &self.batch_ids,
        }
    }

    /// What a commit leaves, by sorting; bytes behind the list stay.
    fn merge(&mut self) {
        let own = self.times.iter().zip(self.ids.chunks_exact(ID_BYTES)).take(self.items);
        let batch = self.batch_times.iter().zip(self.batch_ids.chunks_exact(ID_BYTES));
        let mut items: Vec<(&u64, &[u8])> = own.chain(batch).collect();
        items.sort();
        let mut leaving: Vec<&[u8]> = self.batch_ids.chunks_exact(ID_BYTES).collect();
        leaving.sort();
        let staying = self.needed.chunks_exact(ID_BYTES);
        let staying = staying.filter(|id| leaving.binary_search(id).is_err());
        self.left.times = items.iter().map(|item| *item.0).collect();
        self.left.ids = items.iter().flat_map(|item| item.1).copied().collect();
        for (bytes, id) in self.left.needed.chunks_exact_mut(ID_BYTES).zip(staying) {
            bytes.copy_from_slice(id);
        }
    }

    fn told(&self) -> Inquiry {
        let entering = self.batch_times.len();
        let staying = self.session.needed - entering;
        Inquiry { entering, staying }
    }

    fn committed(&self) -> Committed {
        let Inquiry { entering, staying } = self.told();
        Committed {
            items: self.items + entering,
            session: Session {
                needed: staying,
                ..self.session
            },
        }
    }
}

fn id(ids: &[u8], at: usize) -> &[u8] {
    &ids[ID_BYTES * at..ID_BYTES * (at + 1)]
}

/// Whose call it is.
#[derive(Clone, Copy)]
enum Way {
    Library,
    Plain,
}

const WAYS: [Way; 2] = [Way::Library, Way::Plain];

/// The least seconds of an inquiry, by library and plain Rust.
fn inquiries(clock: &Clock, effort: &Effort, case: &Case) -> Vec<Time> {
    let Case {
        times,
        ids,
        items,
        session,
        needed,
        ..
    } = case;
    alternate(effort, &WAYS, |way| {
        let (seconds, told) = clock.time(|| match way {
            Way::Library => recon::fold_inquire(times, ids, *items, *session, needed, case.batch()).map_err(number),
            Way::Plain => plain_fold::inquire(times, ids, *items, *session, needed, case.batch()),
        });
        assert!(told == Ok(case.told()), "the results differ: an inquiry");
        seconds
    })
}

/// The same of a commit.
fn commits(clock: &Clock, effort: &Effort, case: &Case) -> Vec<Time> {
    let (items, session) = (case.items, case.session);
    let mut left = case.left.clone();
    alternate(effort, &WAYS, |way| {
        left.times.copy_from_slice(&case.times);
        left.ids.copy_from_slice(&case.ids);
        left.needed.copy_from_slice(&case.needed);
        let Left { times, ids, needed } = &mut left;
        let (seconds, told) = clock.time(|| match way {
            Way::Library => recon::fold_commit(times, ids, items, session, needed, case.batch()).map_err(number),
            Way::Plain => plain_fold::commit(times, ids, items, session, needed, case.batch()),
        });
        assert!(
            told == Ok(case.committed()) && left == case.left,
            "the results differ: a commit"
        );
        seconds
    })
}

fn number(refusal: recon::Refusal) -> u64 {
    refusal.number()
}

/// Measures all, and gives the table.
pub fn measure_all(clock: &Clock, effort: &Effort) -> String {
    let mut rows = vec![
        row("||inquiry|inquiry||commit|commit||"),
        row("batch|needed|library|plain Rust|ratio|library|plain Rust|ratio|"),
    ];
    for needed in NEEDED {
        for batch in BATCHES {
            let start = Instant::now();
            let case = Case::new(batch, needed);
            let mut cells = vec![grouped(batch), grouped(needed)];
            for times in [inquiries(clock, effort, &case), commits(clock, effort, &case)] {
                let [library, plain] = [times[0].seconds, times[1].seconds];
                cells.extend([duration(library), duration(plain), quotient(Some(library), Some(plain))]);
            }
            cells.push(String::new());
            let took = start.elapsed().as_secs_f64();
            eprintln!("{}: {took:.1} s", cells.join(" ").trim_end());
            rows.push(cells);
        }
    }
    format!(
        "# Folding in\n\n\
         A table and a batch of {} items together, the batch at random places among the table's items, and so many needed ids. Each\n\
         time is the least processor time of up to {} turns; answers and bytes are compared in each turn.\n\n{}",
        grouped(MAX_ITEMS),
        effort.most_turns,
        aligned(0, &rows)
    )
}
