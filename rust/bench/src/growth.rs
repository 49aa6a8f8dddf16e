//! How times grow with n.

use crate::ends::Way;
use crate::results::{Call, Measured};

/// How much more than n log n a time may grow in a step.
pub const FACTOR: f64 = 1.3;

/// A step counts if its smaller time is at least so many seconds.
pub const SHORTEST: f64 = 50e-6;

/// Over how many sizes growth is judged: a factor of 16 in n, as the cut into 16 parts makes sessions alike then.
const SIZES: usize = 2;

/// From one n to a larger one, with the times at both.
pub struct Step {
    pub from: usize,
    pub to: usize,
    times: Option<(f64, f64)>,
}

/// The steps of one kind of call in one case: from each n to the next, and the long ones, by which growth is judged.
pub struct Steps {
    pub call: Call,
    pub way: Way,
    pub steps: Vec<Step>,
    long: Vec<Step>,
}

impl Step {
    /// Whether both times are there, and the smaller is long enough.
    pub fn counts(&self) -> bool {
        matches!(self.times, Some((before, after)) if before.min(after) >= SHORTEST)
    }

    pub fn growth(&self) -> Option<f64> {
        match self.times {
            Some((before, after)) if before > 0.0 && after > 0.0 => Some(after / before),
            _ => None,
        }
    }

    pub fn exponent(&self) -> Option<f64> {
        Some(self.growth()?.ln() / (self.to as f64 / self.from as f64).ln())
    }

    /// How much n log n grows.
    pub fn n_log_n(&self) -> f64 {
        let size = |n: usize| n as f64 * (n as f64).ln();
        size(self.to) / size(self.from)
    }
}

impl Steps {
    /// The last long step that counts, or else the last one, if the time grows faster there than n log n.
    pub fn too_fast(&self) -> Option<&Step> {
        let last = self.steps.iter().chain(&self.long).rev().find(|step| step.counts())?;
        if last.growth()? > FACTOR * last.n_log_n() {
            Some(last)
        } else {
            None
        }
    }
}

/// The steps of a case, for each call and implementation, and for the reading of the table.
pub fn growth(all: &[Measured], case: &str) -> Vec<Steps> {
    let of_case = all.iter().filter(|measured| measured.case == case).collect::<Vec<_>>();
    let over = |sizes, call, way| {
        let step = |(before, after): (&&Measured, &&Measured)| Step {
            from: before.n,
            to: after.n,
            times: before
                .total(call, way)
                .and_then(|time| Some((time, after.total(call, way)?))),
        };
        of_case.iter().zip(of_case.iter().skip(sizes)).map(step).collect()
    };
    let kinds = [
        (Call::Limit, Way::Reading),
        (Call::Open, Way::Library),
        (Call::Open, Way::Reference),
        (Call::Answer, Way::Library),
        (Call::Answer, Way::Reference),
        (Call::Take, Way::Library),
        (Call::Take, Way::Reference),
    ];
    let steps = |(call, way)| Steps {
        call,
        way,
        steps: over(1, call, way),
        long: over(SIZES, call, way),
    };
    let measured = |&(call, way): &(Call, Way)| of_case.iter().any(|measured| measured.total(call, way).is_some());
    kinds.into_iter().filter(measured).map(steps).collect()
}
