//! Every measurement as a line of comma-separated values.

use crate::ends::Way;
use crate::measure::Effort;
use crate::report::not_run;
use crate::results::{Call, Measured, Time};
use recon::Cut;

const HEAD: &str = "limit,case,n,call,implementation,round,calls,bytes_in,bytes_out,seconds,turns,status\n";

/// For each cut, case, n, call and implementation a line with the total (round `all`), then one for each round.
pub fn lines(effort: &Effort, all: &[(Cut, Vec<Measured>)]) -> String {
    let mut text = HEAD.to_string();
    for (limit, measured) in all
        .iter()
        .flat_map(|(cut, all)| all.iter().map(move |one| (cut.limit, one)))
    {
        for (call, ways) in [
            (Call::Limit, [Way::Reading, Way::OpenSsl]),
            (Call::Open, [Way::Library, Way::Reference]),
            (Call::Answer, [Way::Library, Way::Reference]),
            (Call::Take, [Way::Library, Way::Reference]),
        ] {
            for way in ways {
                let start = format!(
                    "{},{},{},{},{}",
                    limit,
                    measured.case,
                    measured.n,
                    call.name(),
                    way.name()
                );
                match measured.times(call, way) {
                    // An opening without fingerprints has no limits.
                    None if call == Call::Limit => (),
                    None => text += &format!("{},all,,,,,,{}\n", start, not_run(effort)),
                    Some(times) => text += &of_series(&start, times, &bytes(measured, call)),
                }
            }
        }
    }
    text
}

/// For each call the bytes of the message that it takes and of the one that it gives.
fn bytes(measured: &Measured, call: Call) -> Vec<(usize, usize)> {
    let (queries, replies) = (&measured.queries, &measured.replies);
    let next = queries.iter().skip(1).copied().chain([0]);
    match call {
        Call::Limit => vec![(0, 0)],
        Call::Open => vec![(0, queries[0])],
        Call::Answer => queries.iter().copied().zip(replies.iter().copied()).collect(),
        Call::Take => replies.iter().copied().zip(next).collect(),
    }
}

fn of_series(start: &str, times: &[Time], bytes: &[(usize, usize)]) -> String {
    let seconds: f64 = times.iter().map(|time| time.seconds).sum();
    let turns = times.iter().map(|time| time.turns).min().unwrap_or(0);
    let (taken, given) = bytes.iter().fold((0, 0), |sum, pair| (sum.0 + pair.0, sum.1 + pair.1));
    let mut text = format!(
        "{},all,{},{},{},{:.9},{},measured\n",
        start,
        times.len(),
        taken,
        given,
        seconds,
        turns
    );
    for (round, (time, (taken, given))) in times.iter().zip(bytes).enumerate() {
        text += &format!(
            "{},{},1,{},{},{:.9},{},measured\n",
            start,
            round + 1,
            taken,
            given,
            time.seconds,
            time.turns
        );
    }
    text
}
