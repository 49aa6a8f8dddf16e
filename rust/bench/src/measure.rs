//! Measures the calls of one case at one n.

use crate::cases::{Case, Tables};
use crate::clock::Clock;
use crate::ends::{answer, open, take, Buffers, Terms, Way, UNSET};
use crate::limits::{fingerprints, hash, read_once, MESSAGE};
use crate::record::{Record, Round};
use crate::results::{Call, Measured, Series, Time};
use recon::Cut;

/// How much is measured.
pub struct Effort {
    pub sizes: &'static [usize],
    /// The seconds that the turns of one call should take together.
    pub seconds: f64,
    pub most_turns: usize,
    /// A call that is predicted to take more seconds is not run.
    pub budget: f64,
    /// Of the replies with many ids, those of tables with more items together are not taken.
    pub listed: usize,
}

pub const FULL: Effort = Effort {
    sizes: &[1_000, 4_096, 16_384, 65_536, 262_144, 1_048_576],
    seconds: 0.5,
    most_turns: 40,
    budget: 20.0,
    listed: usize::MAX,
};
pub const QUICK: Effort = Effort {
    sizes: &[1_000, 4_096, 16_384],
    seconds: 0.05,
    most_turns: 5,
    budget: 5.0,
    listed: 200_000,
};

/// The fewest turns, unless one takes longer than `LONG` seconds: then there is one turn.
pub const FEWEST_TURNS: usize = 3;
pub const LONG: f64 = 3.0;

impl Effort {
    /// How many turns there are, if the first takes so many seconds.
    fn turns(&self, first: f64) -> usize {
        if first > LONG {
            return 1;
        }
        ((self.seconds / first.max(1e-9)) as usize)
            .max(FEWEST_TURNS)
            .min(self.most_turns)
    }

    /// Whether the calls of a kind are run. The slowest is predicted from the next smaller n: its time there, times the
    /// square of the growth of n, or times the growth of that time in the step before, if this is more.
    fn allows(&self, smaller: &[Measured], n: usize, call: Call, way: Way) -> bool {
        let (last, before) = match smaller.split_last() {
            Some((last, rest)) => (last, rest.last()),
            None => return true,
        };
        let seconds = match last.slowest(call, way) {
            Some(seconds) => seconds,
            None => return false,
        };
        let square = (n as f64 / last.n as f64).powi(2);
        let seen = before
            .and_then(|before| before.slowest(call, way))
            .map_or(0.0, |before| seconds / before.max(1e-9));
        seconds * square.max(seen) <= self.budget
    }
}

/// Measures a case, `smaller` being what was measured of it at smaller n.
pub fn measure(clock: &Clock, effort: &Effort, case: &Case, cut: Cut, n: usize, smaller: &[Measured]) -> Measured {
    let ways = |call| {
        let both = [Way::Library, Way::Reference];
        both.into_iter()
            .filter(|&way| effort.allows(smaller, n, call, way))
            .collect::<Vec<_>>()
    };
    let measured = Measured::none(case.name, n);
    let calls = [Call::Open, Call::Answer, Call::Take];
    // The reference drives the session.
    if !calls.iter().all(|&call| ways(call).contains(&Way::Reference)) {
        return measured;
    }
    measure_session(clock, effort, cut.into(), &case.tables(n), ways, measured)
}

/// Measures the calls of a session over these tables.
pub fn measure_session(
    clock: &Clock,
    effort: &Effort,
    terms: Terms,
    tables: &Tables,
    ways: impl Fn(Call) -> Vec<Way>,
    mut measured: Measured,
) -> Measured {
    let mut buffers = Buffers::new(tables);
    let record = Record::made(tables, terms, &mut buffers);
    measured.queries = record.rounds.iter().map(|round| round.query.len()).collect();
    measured.replies = record.rounds.iter().map(|round| round.reply.len()).collect();
    let mut run = Run::new(clock, effort, tables, terms, &record, buffers);
    measured.series.extend(run.opening(&ways(Call::Open)));
    for call in [Call::Answer, Call::Take] {
        measured.series.extend(run.rounds(call, &ways(call)));
    }
    measured
}

pub struct Run<'a> {
    pub clock: &'a Clock,
    pub effort: &'a Effort,
    pub tables: &'a Tables,
    pub terms: Terms,
    pub record: &'a Record,
    pub buffers: Buffers,
}

impl<'a> Run<'a> {
    pub fn new(
        clock: &'a Clock,
        effort: &'a Effort,
        tables: &'a Tables,
        terms: Terms,
        record: &'a Record,
        buffers: Buffers,
    ) -> Self {
        Run {
            clock,
            effort,
            tables,
            terms,
            record,
            buffers,
        }
    }
}

impl Run<'_> {
    /// The opening and, in the same turns, its limits.
    fn opening(&mut self, ways: &[Way]) -> Vec<Series> {
        let table = &self.tables.opener;
        let (count, digest, sum) = (
            fingerprints(table, self.terms.cut),
            reference::sha256(&MESSAGE),
            read_once(table),
        );
        // An opening that has no fingerprint has no limit that could be measured.
        let limits = if count > 0 {
            vec![Way::Reading, Way::OpenSsl]
        } else {
            Vec::new()
        };
        let times = alternate(self.effort, &[ways, &limits].concat(), |way| match way {
            Way::Reading => {
                let (seconds, result) = self.clock.time(|| read_once(table));
                assert!(result == sum, "the results differ: reading");
                seconds
            }
            Way::OpenSsl => {
                let (seconds, result) = self.clock.time(|| hash(count));
                assert!(result == digest, "the results differ: OpenSSL");
                seconds
            }
            Way::Library | Way::Reference => {
                self.record.prepare(0, &mut self.buffers);
                let (seconds, sent) = self.clock.time(|| open(way, table, self.terms, &mut self.buffers));
                self.record.compare(way, 0, sent, &self.buffers);
                seconds
            }
        });
        let times = times.into_iter().map(|time| vec![time]).collect::<Vec<_>>();
        let mut all = series(Call::Open, ways, &times[..ways.len()]);
        all.extend(series(Call::Limit, &limits, &times[ways.len()..]));
        all
    }

    /// All answers or all takes, round by round.
    pub fn rounds(&mut self, call: Call, ways: &[Way]) -> Vec<Series> {
        let mut times = vec![Vec::new(); ways.len()];
        for round in 0..self.record.rounds.len() {
            let of_round = alternate(self.effort, ways, |way| match call {
                Call::Answer => self.answer(way, round),
                _ => self.take(way, round),
            });
            for (times, time) in times.iter_mut().zip(of_round) {
                times.push(time);
            }
        }
        series(call, ways, &times)
    }

    fn answer(&mut self, way: Way, round: usize) -> f64 {
        let Round { query, reply, .. } = &self.record.rounds[round];
        let out = &mut self.buffers.out;
        out[..reply.len()].fill(UNSET);
        let (seconds, length) = self
            .clock
            .time(|| answer(way, &self.tables.responder, self.terms, query, out));
        let same = *reply == out[..length];
        assert!(same, "the results differ: {}, answer {}", way.name(), round + 1);
        seconds
    }

    fn take(&mut self, way: Way, round: usize) -> f64 {
        let Round { reply, before, .. } = &self.record.rounds[round];
        self.record.prepare(round + 1, &mut self.buffers);
        let (table, buffers) = (&self.tables.opener, &mut self.buffers);
        let (seconds, sent) = self
            .clock
            .time(|| take(way, table, self.terms, reply, before.session, buffers));
        self.record.compare(way, round + 1, sent, &self.buffers);
        seconds
    }
}

/// The series of these ways.
fn series(call: Call, ways: &[Way], times: &[Vec<Time>]) -> Vec<Series> {
    ways.iter()
        .zip(times)
        .map(|(&way, times)| Series {
            call,
            way,
            times: times.clone(),
        })
        .collect()
}

/// Runs each way in turn, each turn beginning with another one, and gives the least time of each.
pub fn alternate<W: Copy>(effort: &Effort, ways: &[W], mut run: impl FnMut(W) -> f64) -> Vec<Time> {
    let mut least = vec![f64::INFINITY; ways.len()];
    let (mut turn, mut turns) = (0, 1);
    while turn < turns {
        for place in 0..ways.len() {
            let which = (turn + place) % ways.len();
            least[which] = run(ways[which]).min(least[which]);
        }
        if turn == 0 {
            turns = effort.turns(least.iter().sum());
        }
        turn += 1;
    }
    least.into_iter().map(|seconds| Time { seconds, turns }).collect()
}
