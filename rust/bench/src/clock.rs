//! The processor time of a call.

#[repr(C)]
struct Timespec {
    seconds: i64,
    nanoseconds: i64,
}

extern "C" {
    fn clock_gettime(clock: i32, time: *mut Timespec) -> i32;
}

const PROCESS_CPU_TIME: i32 = 2;

/// The processor time of this process in nanoseconds.
fn now() -> u64 {
    let mut time = Timespec {
        seconds: 0,
        nanoseconds: 0,
    };
    // SAFETY: the layout is that of struct timespec on 64-bit Linux.
    let status = unsafe { clock_gettime(PROCESS_CPU_TIME, &mut time) };
    assert_eq!(status, 0, "there is no clock of processor time");
    time.seconds as u64 * 1_000_000_000 + time.nanoseconds as u64
}

/// The clock, with the nanoseconds that reading it takes.
pub struct Clock {
    cost: u64,
}

impl Clock {
    pub fn new() -> Clock {
        let between = |_| {
            let start = now();
            now() - start
        };
        Clock {
            cost: (0..1000).map(between).min().unwrap_or(0),
        }
    }

    /// The seconds that a call takes, without the reading of the clock, and its result.
    pub fn time<T>(&self, call: impl FnOnce() -> T) -> (f64, T) {
        let start = now();
        let result = call();
        let took = now() - start;
        (1e-9 * took.saturating_sub(self.cost) as f64, result)
    }
}
