//! Takes of replies that list many ids: some of a session, some one list of all ids.

use crate::cases::Order::{self, Falling, Random, Rising};
use crate::cases::{Counts, Tables};
use crate::clock::Clock;
use crate::ends::{try_take, Buffers, Way};
use crate::layout::{aligned, duration, grouped, quotient, row};
use crate::measure::{alternate, Effort, Run};
use crate::record::Record;
use crate::results::{Call, Series};
use recon::Cut;
use std::time::Instant;

use Room::{Ample, Exact, Short};
use Shape::{OneRange, Session};

/// Where the ids stand.
#[derive(Clone, Copy, PartialEq)]
enum Shape {
    /// In the ranges of a session.
    Session,
    /// In one range, as for an opener without items.
    OneRange,
}

/// The room for needed ids.
#[derive(Clone, Copy, PartialEq)]
enum Room {
    /// For all ids of the responder.
    Ample,
    /// For just those that will be needed.
    Exact,
    /// For one less: the take is refused.
    Short,
}

struct List {
    counts: Counts,
    limit: usize,
    shape: Shape,
    order: Order,
    room: Room,
}

/// The most items that a table may have.
const MOST: usize = 1_048_576;

const fn list(both: usize, ours: usize, theirs: usize, limit: usize, shape: Shape, order: Order, room: Room) -> List {
    let counts = Counts { both, ours, theirs };
    List {
        counts,
        limit,
        shape,
        order,
        room,
    }
}

const LISTS: [List; 24] = [
    list(65_536, MOST - 65_536, 0, 4096, Session, Random, Ample),
    list(65_536, MOST - 65_536, 0, 4096, Session, Rising, Ample),
    list(65_536, MOST - 65_536, 0, 4096, Session, Falling, Ample),
    list(0, 65_536, MOST, 64, Session, Random, Ample),
    list(0, 65_536, MOST, 64, Session, Rising, Ample),
    list(0, 65_536, MOST, 64, Session, Falling, Ample),
    list(0, 65_536, MOST, 4096, Session, Random, Ample),
    list(2048, 2048, MOST - 2048, 64, OneRange, Random, Ample),
    list(2048, 2048, MOST - 2048, 64, OneRange, Rising, Ample),
    list(2048, 2048, MOST - 2048, 64, OneRange, Falling, Ample),
    list(2048, MOST - 2048, 2048, 64, OneRange, Random, Ample),
    list(2048, MOST - 2048, 2048, 64, OneRange, Rising, Ample),
    list(2048, MOST - 2048, 2048, 64, OneRange, Falling, Ample),
    list(32_768, 32_768, 32_768, 64, OneRange, Random, Ample),
    list(32_768, 32_768, 32_768, 64, OneRange, Rising, Ample),
    list(32_768, 32_768, 32_768, 64, OneRange, Falling, Ample),
    list(MOST / 2, MOST / 2, MOST / 2, 64, OneRange, Random, Ample),
    list(2048, 2048, MOST - 2048, 64, OneRange, Random, Exact),
    list(2048, 2048, MOST - 2048, 64, OneRange, Rising, Exact),
    list(2048, 2048, MOST - 2048, 64, OneRange, Falling, Exact),
    list(2048, 2048, MOST - 2048, 64, OneRange, Random, Short),
    list(2048, 2048, MOST - 2048, 64, OneRange, Rising, Short),
    list(2048, 2048, MOST - 2048, 64, OneRange, Falling, Short),
    list(65_536, 65_536, 65_536, 64, OneRange, Random, Short),
];

impl List {
    /// How many items both tables have together.
    fn total(&self) -> usize {
        2 * self.counts.both + self.counts.ours + self.counts.theirs
    }

    /// The time of all takes, by library and reference.
    fn measured(&self, clock: &Clock, effort: &Effort) -> [f64; 2] {
        let tables = Tables::made(&self.counts, self.order, 7);
        let cut = Cut {
            parts: 16,
            limit: self.limit,
        };
        let mut buffers = Buffers::new(&tables);
        let record = match self.shape {
            Session => Record::made(&tables, cut.into(), &mut buffers),
            OneRange => Record::in_one_range(&tables, cut.into(), &mut buffers),
        };
        if self.room != Ample {
            buffers = Buffers::with_room(&tables, self.counts.theirs);
        }
        let mut run = Run::new(clock, effort, &tables, cut.into(), &record, buffers);
        let ways = [Way::Library, Way::Reference];
        if self.room == Short {
            return refused(&mut run, &ways);
        }
        let all = run.rounds(Call::Take, &ways);
        let sum = |series: &Series| series.times.iter().map(|time| time.seconds).sum();
        [sum(&all[0]), sum(&all[1])]
    }

    fn cells(&self, times: [f64; 2]) -> Vec<String> {
        let Counts { both, ours, theirs } = self.counts;
        let shape = match self.shape {
            Session => "session",
            OneRange => "one range",
        };
        let order = match self.order {
            Random => "random",
            Rising => "rising",
            Falling => "falling",
        };
        let room = match self.room {
            Ample => "ample",
            Exact => "exact",
            Short => "one short: refused",
        };
        vec![
            shape.to_string(),
            order.to_string(),
            room.to_string(),
            grouped(self.limit),
            grouped(both + ours),
            grouped(both + theirs),
            grouped(both),
            duration(times[0]),
            duration(times[1]),
            quotient(Some(times[0]), Some(times[1])),
            String::new(),
        ]
    }
}

/// The take of the only reply, with room for one needed id less than there are.
fn refused(run: &mut Run, ways: &[Way]) -> [f64; 2] {
    run.buffers.needed.truncate(run.tables.needed.len() - 32);
    let (round, terms) = (&run.record.rounds[0], run.terms);
    let times = alternate(run.effort, ways, |way| {
        run.buffers.marks.fill(0);
        let (table, buffers) = (&run.tables.opener, &mut run.buffers);
        let (seconds, result) = run
            .clock
            .time(|| try_take(way, table, terms, &round.reply, round.before.session, buffers));
        assert_eq!(result.err(), Some(11), "the results differ: {}, refusal", way.name());
        seconds
    });
    [times[0].seconds, times[1].seconds]
}

/// Measures all, and gives the table.
pub fn measure_all(clock: &Clock, effort: &Effort) -> String {
    let mut rows = vec![
        row("|||||||takes|takes||"),
        row("ids|order|room for needed|t|opener|responder|both|library|reference|ratio|"),
    ];
    for list in LISTS.iter().filter(|list| list.total() <= effort.listed) {
        let start = Instant::now();
        rows.push(list.cells(list.measured(clock, effort)));
        let took = start.elapsed().as_secs_f64();
        eprintln!("{}: {took:.1} s", rows[rows.len() - 1].join(" ").trim_end());
    }
    format!(
        "# Takes of replies that list many ids\n\n\
         session: all takes of a session. one range: the reply lists all ids of the responder in one range, as it answers an\n\
         opener without items. Room for needed ids: for all ids of the responder, for just those that are needed, or for one\n\
         less, so that the take is refused by 11.\n\n{}",
        aligned(3, &rows)
    )
}
