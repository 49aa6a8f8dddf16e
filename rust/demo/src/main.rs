//! `reconcile OURS THEIRS` tells which records each of two files lacks, by a session between an opener that holds the
//! first and a responder that holds the second, and with `--fold` merges records into the first. `reconcile --help` has
//! the file format and the options.
mod exchange;
mod failure;
mod merged;
mod options;
mod progress;
mod records;
mod report;
mod source;

use exchange::{exchange, Exchanged};
use failure::{Failure, Status};
use options::{Command, Options, Request, HELP, VERSION};
use progress::{stderr_is_terminal, Progress};
use recon::{Fold, Inquiry, Opener, Refusal, Responder, MAX_ITEMS};
use records::Records;
use report::{Difference, Report};
use source::Source;
use std::env;
use std::io::{self, BufWriter, Write};
use std::path::Path;
use std::process::ExitCode;

fn main() -> ExitCode {
    let status = run().unwrap_or_else(|failure| {
        failure.tell();
        Status::Trouble
    });
    ExitCode::from(status as u8)
}

fn run() -> Result<Status, Failure> {
    match options::parse(env::args_os().skip(1)).map_err(Failure::Usage)? {
        Command::Help => print(|out| out.write_all(HELP.as_bytes()))?,
        Command::Version => print(|out| out.write_all(VERSION.as_bytes()))?,
        Command::Reconcile(request) => return reconcile(&request),
    }
    Ok(Status::Same)
}

/// Reads the files, runs a session between the first two, and reports what it found and what folding in would do. Then
/// the merged records are written, if they are to be: nothing is done that was not shown.
fn reconcile(request: &Request) -> Result<Status, Failure> {
    let options = &request.options;
    let mut progress = Progress::new(io::stderr(), stderr_is_terminal() && !options.quiet);
    progress.show("reading records");
    let Files { ours, theirs, batch } = Files::read(request)?;
    progress.show("opening");
    let (opener, exchanged) = session(&ours, &theirs, options, &mut progress).map_err(Failure::Refused)?;
    let difference = Difference {
        ours_only: opener.ours_only().map(|(time, id)| (time, &id[..])).collect(),
        theirs_only: opener.theirs_only().map(|id| &id[..]).collect(),
    };
    let mut folding = match &batch {
        None => None,
        Some((source, batch)) => {
            let begun = Folding::begin(&opener, source, batch);
            Some(begun.map_err(|refusal| why_refused(refusal, request, &ours, &difference, (source, batch)))?)
        }
    };
    progress.clear();
    let told = folding.as_ref().map(|folding| (folding.source, folding.told));
    let status = report(request, &difference, exchanged, told)?;
    match (&mut folding, &options.output) {
        (Some(folding), Some(output)) => folding.finish(output).map(|()| status),
        _ => Ok(status),
    }
}

/// The records of all files, and where a batch comes from.
struct Files<'a> {
    ours: Records,
    theirs: Records,
    batch: Option<(&'a Source, Records)>,
}

impl<'a> Files<'a> {
    /// Reads all files. An id under two times, of which the promise of a session does not speak, is seen here alone.
    fn read(request: &'a Request) -> Result<Files<'a>, Failure> {
        let (ours, theirs) = (read(&request.ours)?, read(&request.theirs)?);
        let batch = match &request.options.fold {
            None => None,
            Some(source) => Some((source, read(source)?)),
        };
        check_times((&request.ours, &ours), (&request.theirs, &theirs))?;
        if let Some((source, batch)) = &batch {
            check_times((&request.ours, &ours), (source, batch))?;
            check_times((&request.theirs, &theirs), (source, batch))?;
        }
        Ok(Files { ours, theirs, batch })
    }
}

/// Whether each id that two files have has one time.
fn check_times(first: (&Source, &Records), second: (&Source, &Records)) -> Result<(), Failure> {
    match records::two_times(first.1, second.1) {
        None => Ok(()),
        Some(lines) => Err(Failure::TwoTimes {
            ours: first.0.clone(),
            theirs: second.0.clone(),
            lines,
        }),
    }
}

/// A batch that can be folded in.
struct Folding<'a> {
    source: &'a Source,
    batch: &'a Records,
    fold: Fold,
    told: Inquiry,
}

impl<'a> Folding<'a> {
    /// Asks what folding in the batch would do.
    fn begin(opener: &Opener<'_>, source: &'a Source, batch: &'a Records) -> Result<Folding<'a>, Refusal> {
        let mut fold = opener.fold()?;
        let told = fold.inquire(batch.table())?;
        Ok(Folding {
            source,
            batch,
            fold,
            told,
        })
    }

    /// Folds the batch in, and writes the merged records.
    fn finish(&mut self, output: &Path) -> Result<(), Failure> {
        self.fold.commit(self.batch.table()).map_err(Failure::Refused)?;
        merged::write(output, self.fold.table()).map_err(|error| Failure::Written(output.to_path_buf(), error))
    }
}

/// Why a batch cannot be folded in, with the line of the first record at fault if there is one.
fn why_refused(
    refusal: Refusal,
    request: &Request,
    ours: &Records,
    difference: &Difference<'_>,
    (source, batch): (&Source, &Records),
) -> Failure {
    let together = ours.len() + batch.len();
    let (ours_from, batch_from) = (request.ours.clone(), source.clone());
    match (refusal, records::not_due(ours, &difference.theirs_only, batch)) {
        (Refusal::NotDue, Some(record)) => Failure::NotDue {
            ours: ours_from,
            batch: batch_from,
            record,
        },
        (Refusal::TableFull, _) if together > MAX_ITEMS => Failure::TooMany {
            ours: ours_from,
            batch: batch_from,
        },
        _ => Failure::Refused(refusal),
    }
}

fn read(source: &Source) -> Result<Records, Failure> {
    let records = source.open().map_err(records::BadFile::System).and_then(records::read);
    records.map_err(|fault| Failure::File(source.clone(), fault))
}

/// Runs a session to its end: the opener afterwards, and what went over.
fn session<'a>(
    ours: &'a Records,
    theirs: &'a Records,
    options: &Options,
    progress: &mut Progress<impl Write>,
) -> Result<(Opener<'a>, Exchanged), Refusal> {
    let (table, cut) = (ours.table(), options.cut);
    let mut responder = Responder::new(theirs.table(), cut);
    responder.set_byte_limit(options.bytes);
    let mut opener = match options.bytes {
        None => Opener::open(table, cut)?,
        Some(bytes) => Opener::open_within(table, cut, bytes)?,
    };
    let exchanged = exchange(&mut opener, &mut responder, |exchanged, opener| {
        progress.show(&describe(exchanged, opener));
    })?;
    Ok((opener, exchanged))
}

fn describe(exchanged: &Exchanged, opener: &Opener<'_>) -> String {
    let bytes = exchanged.queries.bytes + exchanged.replies.bytes;
    let session = opener.session();
    let reported = session.marked + session.needed;
    format!(
        "round {}: {bytes} bytes exchanged, {reported} records reported",
        exchanged.queries.messages
    )
}

/// Writes the report, unless none is wanted. A reader that closes it early has seen that something is missing, but that
/// nothing is missing counts only if it was told, and so does what folding in would do if it is to be done.
fn report(
    request: &Request,
    difference: &Difference<'_>,
    exchanged: Exchanged,
    told: Option<(&Source, Inquiry)>,
) -> Result<Status, Failure> {
    let options = &request.options;
    let status = if difference.is_empty() {
        Status::Same
    } else {
        Status::Differ
    };
    if options.quiet {
        return Ok(status);
    }
    let report = Report {
        ours: &request.ours,
        theirs: &request.theirs,
        difference,
        stats: Some(exchanged).filter(|_| options.stats),
        fold: told,
    };
    let printed = print(|out| report.write(options.format, out, &mut io::stderr()));
    match (printed, &options.output) {
        (Err(failure), Some(output)) if failure.is_closed_pipe() => Err(Failure::NotShown(output.clone())),
        (Err(failure), None) if failure.is_closed_pipe() && status == Status::Differ => Ok(status),
        (printed, _) => printed.map(|()| status),
    }
}

/// Writes to standard output; println! would panic where it cannot be written.
fn print(text: impl FnOnce(&mut BufWriter<io::StdoutLock<'_>>) -> io::Result<()>) -> Result<(), Failure> {
    let mut out = BufWriter::new(io::stdout().lock());
    text(&mut out).and_then(|()| out.flush()).map_err(Failure::Output)
}
