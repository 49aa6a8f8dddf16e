//! How the program ends: its exit status, and why it could not do its work.
use crate::options::USAGE;
use crate::records::{BadFile, NotDue, TwoTimes};
use crate::source::Source;
use recon::{Refusal, MAX_ITEMS};
use std::fmt;
use std::io::{self, ErrorKind, Write};
use std::path::PathBuf;

/// The exit status, as diff has it.
#[derive(Clone, Copy, Debug, PartialEq, Eq)]
pub enum Status {
    /// Nothing is missing at either end, and that is told.
    Same = 0,
    /// Something is missing.
    Differ = 1,
    /// It is not known whether something is missing, or it could not be told.
    Trouble = 2,
}

/// Why the program could not do its work.
#[derive(Debug)]
pub enum Failure {
    Usage(String),
    File(Source, BadFile),
    TwoTimes {
        ours: Source,
        theirs: Source,
        lines: TwoTimes,
    },
    /// A record of a batch that cannot be folded in.
    NotDue {
        ours: Source,
        batch: Source,
        record: NotDue,
    },
    /// With a batch there would be too many records.
    TooMany {
        ours: Source,
        batch: Source,
    },
    Refused(Refusal),
    Output(io::Error),
    /// A file that was to be written, and stays as it was.
    Written(PathBuf, io::Error),
    /// A file that was to be written once the report is, and the report was not.
    NotShown(PathBuf),
}

impl Failure {
    /// Says on standard error what failed, except that the output's reader closed it early: it wants no more. eprintln!
    /// would panic where standard error cannot be written.
    pub fn tell(&self) {
        if !self.is_closed_pipe() {
            let _ = writeln!(io::stderr(), "{self}");
        }
    }

    /// Whether the output's reader closed it early.
    pub fn is_closed_pipe(&self) -> bool {
        matches!(self, Failure::Output(error) if error.kind() == ErrorKind::BrokenPipe)
    }
}

impl fmt::Display for Failure {
    fn fmt(&self, f: &mut fmt::Formatter<'_>) -> fmt::Result {
        match self {
            Failure::Usage(text) => write!(f, "reconcile: {text}\n{USAGE}"),
            Failure::File(source, BadFile::System(error)) => write!(f, "{source}: {error}"),
            Failure::File(source, BadFile::Line { number, fault }) => write!(f, "{source}:{number}: {fault}"),
            Failure::TwoTimes { ours, theirs, lines } => write!(
                f,
                "{theirs}:{}: the id stands in {ours}:{} with another time",
                lines.theirs, lines.ours
            ),
            Failure::NotDue { ours, batch, record } => match record.ours {
                Some(line) => write!(f, "{batch}:{}: the record stands in {ours}:{line} already", record.line),
                None => write!(f, "{batch}:{}: the id is not needed", record.line),
            },
            Failure::TooMany { ours, batch } => {
                write!(f, "{batch}: with it {ours} would have more than {MAX_ITEMS} records")
            }
            Failure::Refused(refusal) => write!(f, "reconcile: {refusal}"),
            Failure::Output(error) => write!(f, "reconcile: standard output: {error}"),
            Failure::Written(file, error) => write!(f, "{}: {error}", file.display()),
            Failure::NotShown(file) => {
                write!(f, "{}: not written, because the report could not be", file.display())
            }
        }
    }
}

#[cfg(test)]
mod tests {
    use super::*;

    #[test]
    fn a_refusal_is_told_by_its_message() {
        for &refusal in Refusal::ALL {
            assert_eq!(Failure::Refused(refusal).to_string(), format!("reconcile: {refusal}"));
        }
    }

    #[test]
    fn two_times_are_told_with_both_lines() {
        let failure = Failure::TwoTimes {
            ours: Source::File("ours.txt".into()),
            theirs: Source::StandardInput,
            lines: TwoTimes { theirs: 12, ours: 7 },
        };
        assert_eq!(
            failure.to_string(),
            "standard input:12: the id stands in ours.txt:7 with another time"
        );
    }

    #[test]
    fn records_that_are_not_due_are_told_with_their_lines() {
        let told = |ours| {
            let failure = Failure::NotDue {
                ours: Source::File("ours.txt".into()),
                batch: Source::File("batch.txt".into()),
                record: NotDue { line: 3, ours },
            };
            failure.to_string()
        };
        assert_eq!(told(None), "batch.txt:3: the id is not needed");
        assert_eq!(told(Some(7)), "batch.txt:3: the record stands in ours.txt:7 already");
    }

    #[test]
    fn only_a_closed_pipe_is_not_told() {
        let output = |kind: ErrorKind| Failure::Output(kind.into());
        assert!(output(ErrorKind::BrokenPipe).is_closed_pipe());
        assert!(!output(ErrorKind::WriteZero).is_closed_pipe());
        let file = Failure::File(Source::StandardInput, BadFile::System(ErrorKind::BrokenPipe.into()));
        assert!(!file.is_closed_pipe());
    }
}
