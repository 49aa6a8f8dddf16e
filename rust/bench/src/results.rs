//! What was measured.

use crate::ends::Way;

/// A call of a session. The limits stand beside the opening, and are measured with it.
#[derive(Clone, Copy, Debug, PartialEq, Eq)]
pub enum Call {
    Open,
    Limit,
    Answer,
    Take,
}

impl Call {
    pub fn name(self) -> &'static str {
        match self {
            Call::Open => "open",
            Call::Limit => "limit",
            Call::Answer => "answer",
            Call::Take => "take",
        }
    }
}

/// The least time of a call in seconds, and of how many turns.
#[derive(Clone, Copy)]
pub struct Time {
    pub seconds: f64,
    pub turns: usize,
}

/// The times of all calls of a kind in a session by one implementation, in their order.
pub struct Series {
    pub call: Call,
    pub way: Way,
    pub times: Vec<Time>,
}

/// A case at one n. What was not run has no series.
pub struct Measured {
    pub case: &'static str,
    pub n: usize,
    /// The lengths of the queries and of the replies, one for each round; none if the session was not run.
    pub queries: Vec<usize>,
    pub replies: Vec<usize>,
    pub series: Vec<Series>,
}

impl Measured {
    /// A case of which nothing is measured yet.
    pub fn none(case: &'static str, n: usize) -> Measured {
        Measured {
            case,
            n,
            queries: Vec::new(),
            replies: Vec::new(),
            series: Vec::new(),
        }
    }

    pub fn times(&self, call: Call, way: Way) -> Option<&[Time]> {
        let series = self
            .series
            .iter()
            .find(|series| series.call == call && series.way == way)?;
        Some(&series.times)
    }

    /// The time of all calls of a kind in the session.
    pub fn total(&self, call: Call, way: Way) -> Option<f64> {
        Some(self.times(call, way)?.iter().map(|time| time.seconds).sum())
    }

    /// The time of the slowest call of a kind.
    pub fn slowest(&self, call: Call, way: Way) -> Option<f64> {
        Some(
            self.times(call, way)?
                .iter()
                .fold(0.0, |slowest, time| time.seconds.max(slowest)),
        )
    }
}
