//! Times of whole sessions by the proved library and by the plain reference, on equal tables in one run:
//! `bench [--quick] [--lists | --within | --fold] [--csv FILE]`, with `--lists` only the takes of replies with many ids, with `--within` only sessions
//! with byte limits, and with `--fold` only inquiries and commits; the others leave the last two out. The tables of times go to standard output.

mod cases;
mod clock;
mod csv;
mod ends;
mod fold;
mod growth;
mod layout;
mod limits;
mod lists;
mod measure;
mod plain_fold;
mod record;
mod report;
mod results;
mod within;

use cases::CASES;
use clock::Clock;
use ends::CUTS;
use measure::{measure, Effort, FULL, QUICK};
use recon::Cut;
use results::Measured;
use std::{env, fs, process, time::Instant};

struct Options {
    effort: Effort,
    csv: Option<String>,
    /// Only the takes of replies with many ids.
    lists: bool,
    /// Only sessions with byte limits.
    within: bool,
    /// Only inquiries and commits.
    fold: bool,
}

fn options(mut arguments: impl Iterator<Item = String>) -> Option<Options> {
    let mut options = Options {
        effort: FULL,
        csv: None,
        lists: false,
        within: false,
        fold: false,
    };
    while let Some(argument) = arguments.next() {
        match argument.as_str() {
            "--quick" => options.effort = QUICK,
            "--csv" => options.csv = Some(arguments.next()?),
            "--lists" => options.lists = true,
            "--within" => options.within = true,
            "--fold" => options.fold = true,
            _ => return None,
        }
    }
    Some(options)
}

/// Measures each case with this cut, from the smallest n to the largest.
fn measure_all(clock: &Clock, effort: &Effort, cut: Cut) -> Vec<Measured> {
    let mut all = Vec::new();
    for case in &CASES {
        let first = all.len();
        for &n in effort.sizes {
            let start = Instant::now();
            let measured = measure(clock, effort, case, cut, n, &all[first..]);
            all.push(measured);
            eprintln!(
                "t = {}, {}, {} items: {:.1} s",
                cut.limit,
                case.name,
                layout::grouped(n),
                start.elapsed().as_secs_f64()
            );
        }
    }
    all
}

fn main() {
    let options = options(env::args().skip(1)).unwrap_or_else(|| {
        eprintln!("bench [--quick] [--lists | --within | --fold] [--csv FILE]");
        process::exit(2)
    });
    let Options { effort, csv, lists, .. } = options;
    let clock = Clock::new();
    if options.within {
        print!("{}", within::measure_all(&clock));
        return;
    }
    if options.fold {
        print!("{}", fold::measure_all(&clock, &effort));
        return;
    }
    let listed = lists::measure_all(&clock, &effort);
    if lists {
        print!("{listed}");
        return;
    }
    let all = CUTS.map(|cut| (cut, measure_all(&clock, &effort, cut)));
    print!("{}", report::text(&effort, &all, &listed));
    if let Some(file) = csv {
        fs::write(&file, csv::lines(&effort, &all)).unwrap_or_else(|error| {
            eprintln!("{file}: {error}");
            process::exit(1)
        });
    }
}
