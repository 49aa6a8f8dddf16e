//! Where records come from: a file, or standard input.
use std::ffi::OsString;
use std::fmt;
use std::fs::File;
use std::io::{self, BufRead, BufReader};
use std::path::PathBuf;

#[derive(Clone, Debug, PartialEq, Eq)]
pub enum Source {
    StandardInput,
    File(PathBuf),
}

impl Source {
    /// The source that an argument names; `-` is standard input.
    pub fn named(argument: OsString) -> Source {
        if argument == "-" {
            Source::StandardInput
        } else {
            Source::File(PathBuf::from(argument))
        }
    }

    pub fn open(&self) -> io::Result<Box<dyn BufRead>> {
        Ok(match self {
            Source::StandardInput => Box::new(io::stdin().lock()),
            Source::File(path) => Box::new(BufReader::new(File::open(path)?)),
        })
    }
}

/// The name by which messages and the report speak of it.
impl fmt::Display for Source {
    fn fmt(&self, f: &mut fmt::Formatter<'_>) -> fmt::Result {
        match self {
            Source::StandardInput => write!(f, "standard input"),
            Source::File(path) => write!(f, "{}", path.display()),
        }
    }
}

#[cfg(test)]
mod tests {
    use super::*;

    #[test]
    fn only_a_dash_is_standard_input() {
        assert_eq!(Source::named("-".into()), Source::StandardInput);
        for name in ["./-", "--", "-x", "", "stdin"] {
            assert_eq!(Source::named(name.into()), Source::File(PathBuf::from(name)));
        }
        assert_eq!(Source::StandardInput.to_string(), "standard input");
        assert_eq!(Source::named("./-".into()).to_string(), "./-");
    }
}
