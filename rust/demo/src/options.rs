//! The command line.
use crate::report::Format;
use crate::source::Source;
use recon::{Cut, MAX_LIMIT, MAX_PARTS, MIN_BYTE_LIMIT, MIN_PARTS};
use std::ffi::{OsStr, OsString};
use std::os::unix::ffi::OsStrExt;
use std::path::PathBuf;

pub const USAGE: &str = "usage: reconcile [OPTION..] OURS THEIRS
       reconcile --help";

pub const VERSION: &str = concat!("reconcile ", env!("CARGO_PKG_VERSION"), "\n");

pub const HELP: &str = "usage: reconcile [OPTION..] OURS THEIRS

Tells which records each of two files lacks. The end that holds OURS opens a
session, the end that holds THEIRS answers, and nothing passes between them but
messages of the Negentropy Protocol V1. One of the files may be -, for standard
input.

  -q, --quiet     print nothing but errors: the exit status tells
  --stats         also print the rounds, and the messages and bytes each way
  --format F      text (the default), tsv or json
  --parts B       how many parts a differing range is cut into, 2 to 64
                  (default 16)
  --limit T       how many records a range may have to be listed instead,
                  B to 4096 (default 64)
  --bytes N       how many bytes a message of either end may have, at least 4096
                  (default: as many as it needs); it may take more rounds
  --fold BATCH    also tell what folding in the records of BATCH would do: how
                  many would enter OURS, and how many ids would stay needed
  --output FILE   with --fold: then write OURS with these records to FILE
  -h, --help      print this text
  -V, --version   print the version
  --              what follows is not an option

Options may stand before and behind the files, and with = before their values,
as in --parts=8. If an option is given twice, the last one counts.

A record file has one record in each line: its time (decimal, at most 2^64 - 2),
one space, and its id (64 hex digits). Empty lines, lines that begin with # and
a byte-order mark at the start are skipped. The records may stand in any order,
at most 1048576 of them. None may stand twice in a file, and an id must have the
same time wherever it stands, in all files.

text  a line for each record that one of the files lacks, with --stats the
      rounds, messages and bytes, and a last line that says how many there are:
        ours only    TIME ID
        theirs only  - ID
tsv   a line with the names of the fields, side, time and id, and a line for
      each record, with tabs between the fields; with --stats a line for each
      count on standard error: its name, a tab and the number
json  an object with the lists ours_only and theirs_only of objects with time
      and id, one record to a line; with --stats also the object stats
With --fold text has another last line; tsv has the counts entering and staying
on standard error, and json the object fold with both.

BATCH is a record file too. Each of its records must be one that OURS lacks and
whose id the session has found; otherwise nothing is printed, and the error
names the first line that is not. FILE gets its records sorted by time and id,
after all else is printed. It is replaced as a whole or stays as it was, and may
be OURS.

Messages list ids without their times, so the end that holds OURS does not know
the times of records that only THEIRS has: - stands for them, in JSON null.
Ranges with equal fingerprints (16 bytes of SHA-256) are taken to hold the same
ids.

The exit status is 0 if nothing is missing in either file, 1 if something is,
and 2 in trouble: an argument, a file or the output was at fault, or a call was
refused. A reader that closes the output early, as head does, is not an error:
the status is 1 if something is missing. If nothing is, it is 2, without a
message, because the output did not say so. With --fold the status is that of
OURS and THEIRS as they were read. FILE is written if it is 0 or 1, and not if
it is 2; so with --output a reader that closes the output early is an error.
";

/// What the command line asks for.
#[derive(Debug, PartialEq, Eq)]
pub enum Command {
    Help,
    Version,
    Reconcile(Request),
}

#[derive(Clone, Debug, PartialEq, Eq)]
pub struct Request {
    pub ours: Source,
    pub theirs: Source,
    pub options: Options,
}

#[derive(Clone, Debug, Default, PartialEq, Eq)]
pub struct Options {
    pub cut: Cut,
    /// The byte limit of both ends.
    pub bytes: Option<usize>,
    pub format: Format,
    pub stats: bool,
    pub quiet: bool,
    /// The records to be folded in.
    pub fold: Option<Source>,
    /// Where the merged records go.
    pub output: Option<PathBuf>,
}

/// Reads the arguments behind the program's name; an error says what is wrong with them.
pub fn parse(mut arguments: impl Iterator<Item = OsString>) -> Result<Command, String> {
    let mut options = Options::default();
    let mut sources = Vec::new();
    while let Some(argument) = arguments.next() {
        let text = argument.to_string_lossy().into_owned();
        if text == "--" {
            sources.extend(arguments.by_ref().map(Source::named));
        } else if text.starts_with('-') && text != "-" {
            if let Some(command) = options.read(Given::new(&argument, &text, &mut arguments))? {
                return Ok(command);
            }
        } else {
            sources.push(Source::named(argument));
        }
    }
    options.check()?;
    let [ours, theirs] =
        <[Source; 2]>::try_from(sources).map_err(|sources| format!("two files are needed, not {}", sources.len()))?;
    let sources = [Some(&ours), Some(&theirs), options.fold.as_ref()];
    let from_input = sources.iter().filter(|source| **source == Some(&Source::StandardInput));
    if from_input.count() > 1 {
        return Err("only one of the files can be - (standard input)".to_string());
    }
    Ok(Command::Reconcile(Request { ours, theirs, options }))
}

impl Options {
    /// Reads one option. Those that ask for something else than to reconcile are answered at once.
    fn read(&mut self, given: Given<'_, impl Iterator<Item = OsString>>) -> Result<Option<Command>, String> {
        match given.name {
            "-h" | "--help" => return given.flag().map(|()| Some(Command::Help)),
            "-V" | "--version" => return given.flag().map(|()| Some(Command::Version)),
            "-q" | "--quiet" => {
                given.flag()?;
                self.quiet = true;
            }
            "--stats" => {
                given.flag()?;
                self.stats = true;
            }
            "--format" => self.format = given.format()?,
            "--parts" => self.cut.parts = given.number()?,
            "--limit" => self.cut.limit = given.number()?,
            "--bytes" => self.bytes = Some(given.number()?),
            "--fold" => self.fold = Some(Source::named(given.file()?)),
            "--output" => self.output = Some(given.file()?.into()),
            name => return Err(format!("unknown option {name:?}")),
        }
        Ok(None)
    }

    /// The limits are those of the library's calls. They are checked here too, before a file is read, so that an option
    /// out of its limits is told like other wrong options.
    fn check(&self) -> Result<(), String> {
        let Cut { parts, limit } = self.cut;
        if !(MIN_PARTS..=MAX_PARTS).contains(&parts) {
            return Err(format!("--parts must be {MIN_PARTS} to {MAX_PARTS}, not {parts}"));
        }
        if !(parts..=MAX_LIMIT).contains(&limit) {
            return Err(format!(
                "--limit must be {parts} (the parts) to {MAX_LIMIT}, not {limit}"
            ));
        }
        match self.bytes {
            Some(bytes) if bytes < MIN_BYTE_LIMIT => {
                return Err(format!("--bytes must be at least {MIN_BYTE_LIMIT}, not {bytes}"));
            }
            _ => {}
        }
        match &self.output {
            Some(_) if self.fold.is_none() => Err("--output needs --fold".to_string()),
            Some(file) if file == OsStr::new("-") => Err("--output needs a file, not standard output".to_string()),
            _ => Ok(()),
        }
    }
}

/// An option as it is given: its name, the value joined to it by `=`, and the arguments behind it.
struct Given<'a, I> {
    argument: &'a OsStr,
    name: &'a str,
    joined: Option<&'a str>,
    rest: &'a mut I,
}

impl<'a, I: Iterator<Item = OsString>> Given<'a, I> {
    /// An argument, and its text.
    fn new(argument: &'a OsStr, text: &'a str, rest: &'a mut I) -> Given<'a, I> {
        let (name, joined) = match text.split_once('=') {
            Some((name, value)) if name.starts_with("--") => (name, Some(value)),
            _ => (text, None),
        };
        Given {
            argument,
            name,
            joined,
            rest,
        }
    }

    /// Refuses a value joined to an option that has none.
    fn flag(self) -> Result<(), String> {
        match self.joined {
            None => Ok(()),
            Some(_) => Err(format!("{} takes no value", self.name)),
        }
    }

    /// The value, joined or the next argument; `wanted` is what it must be.
    fn value(self, wanted: &str) -> Result<String, String> {
        let next = match self.joined {
            Some(value) => Some(value.to_string()),
            None => self.rest.next().map(|value| value.to_string_lossy().into_owned()),
        };
        next.ok_or(format!("{} needs {wanted}", self.name))
    }

    fn number(self) -> Result<usize, String> {
        let name = self.name;
        let value = self.value("a number")?;
        let digits = Some(&value).filter(|text| text.bytes().all(|byte| byte.is_ascii_digit()));
        digits
            .and_then(|digits| digits.parse().ok())
            .ok_or(format!("{name} needs a number, not {value:?}"))
    }

    /// The name of a file as it is given, whatever its bytes are.
    fn file(self) -> Result<OsString, String> {
        let mut parts = self.argument.as_bytes().splitn(2, |&byte| byte == b'=');
        let value = match self.joined {
            Some(_) => parts.nth(1).map(|name| OsStr::from_bytes(name).to_os_string()),
            None => self.rest.next(),
        };
        value
            .filter(|name| !name.is_empty())
            .ok_or(format!("{} needs a file", self.name))
    }

    fn format(self) -> Result<Format, String> {
        let name = self.name;
        let value = self.value(Format::NAMES)?;
        Format::named(&value).ok_or(format!("{name} needs {}, not {value:?}", Format::NAMES))
    }
}

#[cfg(test)]
mod tests {
    use super::*;

    fn parsed(text: &str) -> Result<Command, String> {
        parse(text.split_whitespace().map(OsString::from))
    }

    /// The options of a command line whose files are `a` and `b`.
    fn options(text: &str) -> Options {
        match parsed(text) {
            Ok(Command::Reconcile(request)) if (&request.ours, &request.theirs) == (&file("a"), &file("b")) => {
                request.options
            }
            other => panic!("{other:?}"),
        }
    }

    fn cut(text: &str) -> Cut {
        options(text).cut
    }

    fn file(name: &str) -> Source {
        Source::File(name.into())
    }

    #[test]
    fn options_stand_anywhere() {
        assert_eq!(cut("a b"), Cut { parts: 16, limit: 64 });
        assert_eq!(cut("--parts 2 a --limit 4096 b"), Cut { parts: 2, limit: 4096 });
        assert_eq!(cut("a b --limit 64 --parts 64"), Cut { parts: 64, limit: 64 });
        assert_eq!(options("a b"), Options::default());
        let all = Options {
            bytes: Some(4096),
            format: Format::Json,
            stats: true,
            quiet: true,
            fold: Some(file("c")),
            output: Some("d".into()),
            ..Options::default()
        };
        let text = "--quiet --output d --stats a --fold c --format json --bytes 4096 b";
        assert_eq!(options(text), all);
        assert_eq!(
            options("a b -q --format=json --bytes=4096 --stats --fold=c --output=d"),
            all
        );
    }

    #[test]
    fn names_of_files_are_taken_as_they_are() {
        let odd = OsStr::from_bytes(b"\xff=\xfe");
        for joined in [false, true] {
            let given = |name: &str| {
                let mut option = OsString::from(name);
                option.push("=");
                option.push(odd);
                let separate = vec![OsString::from(name), odd.to_os_string()];
                if joined {
                    vec![option]
                } else {
                    separate
                }
            };
            let files = ["a", "b"].map(OsString::from);
            let arguments = given("--fold").into_iter().chain(given("--output")).chain(files);
            match parse(arguments) {
                Ok(Command::Reconcile(Request { options, .. })) => {
                    assert_eq!(options.fold, Some(Source::File(odd.into())));
                    assert_eq!(options.output, Some(odd.into()));
                }
                other => panic!("{other:?}"),
            }
        }
    }

    #[test]
    fn a_value_is_joined_or_follows() {
        assert_eq!(cut("--parts=8 --limit=9 a b"), cut("--parts 8 --limit 9 a b"));
        for (name, format) in [("text", Format::Text), ("tsv", Format::Tsv), ("json", Format::Json)] {
            assert_eq!(options(&format!("a b --format={name}")).format, format);
            assert_eq!(options(&format!("a b --format {name}")).format, format);
        }
    }

    #[test]
    fn the_last_of_an_option_counts() {
        assert_eq!(
            cut("--parts 1 --parts=8 a b --limit 9 --limit 10"),
            Cut { parts: 8, limit: 10 }
        );
        assert_eq!(options("--format json a b --format tsv").format, Format::Tsv);
        assert_eq!(options("--bytes 1 a b --bytes 5000").bytes, Some(5000));
        assert_eq!(options("--fold - a b --fold c").fold, Some(file("c")));
        assert_eq!(options("-q -q --quiet a b"), options("-q a b"));
    }

    #[test]
    fn help_and_version_are_answered_where_they_are_met() {
        for text in ["-h", "--help", "a --help --parts", "--help --version"] {
            assert_eq!(parsed(text), Ok(Command::Help), "{text}");
        }
        for text in ["-V", "--version", "a b c -V", "--version --help"] {
            assert_eq!(parsed(text), Ok(Command::Version), "{text}");
        }
        assert_eq!(VERSION, "reconcile 0.1.0\n");
    }

    #[test]
    fn two_dashes_end_the_options() {
        let request = |ours, theirs| {
            Ok(Command::Reconcile(Request {
                ours: file(ours),
                theirs: file(theirs),
                options: Options::default(),
            }))
        };
        assert_eq!(parsed("-- a b"), request("a", "b"));
        assert_eq!(parsed("-- --help -q"), request("--help", "-q"));
        assert_eq!(parsed("a -- --"), request("a", "--"));
    }

    #[test]
    fn one_file_may_be_standard_input() {
        assert_eq!(options("a b --fold -").fold, Some(Source::StandardInput));
        for text in ["- a", "a -", "-- a -", "- a --fold b"] {
            match parsed(text) {
                Ok(Command::Reconcile(Request { ours, theirs, .. })) => {
                    assert!(
                        (ours == Source::StandardInput) != (theirs == Source::StandardInput),
                        "{text}"
                    );
                }
                other => panic!("{text}: {other:?}"),
            }
        }
    }

    #[test]
    fn wrong_options_are_told() {
        for (text, message) in [
            ("", "two files are needed, not 0"),
            ("a", "two files are needed, not 1"),
            ("a b c", "two files are needed, not 3"),
            ("a -- b c", "two files are needed, not 3"),
            ("- -", "only one of the files can be - (standard input)"),
            ("- a --fold -", "only one of the files can be - (standard input)"),
            ("a - --fold=-", "only one of the files can be - (standard input)"),
            ("a b --fold", "--fold needs a file"),
            ("a b --fold=", "--fold needs a file"),
            ("a b --output", "--output needs a file"),
            ("a b --output c", "--output needs --fold"),
            ("a b --fold c --output=-", "--output needs a file, not standard output"),
            ("a --fold b c d", "two files are needed, not 3"),
            ("a b --part 2", "unknown option \"--part\""),
            ("a b --part=2", "unknown option \"--part\""),
            ("a b -qq", "unknown option \"-qq\""),
            ("a b -q=1", "unknown option \"-q=1\""),
            ("a b --quiet=1", "--quiet takes no value"),
            ("--help=x", "--help takes no value"),
            ("a b --parts", "--parts needs a number"),
            ("--limit a b", "--limit needs a number, not \"a\""),
            ("a b --limit=", "--limit needs a number, not \"\""),
            ("a b --parts -2", "--parts needs a number, not \"-2\""),
            ("a b --parts=8=8", "--parts needs a number, not \"8=8\""),
            ("a b --parts x --parts 2", "--parts needs a number, not \"x\""),
            (
                "a b --parts 99999999999999999999",
                "--parts needs a number, not \"99999999999999999999\"",
            ),
            ("a b --parts 1", "--parts must be 2 to 64, not 1"),
            ("a b --parts 65 --limit 65", "--parts must be 2 to 64, not 65"),
            ("a b --limit 15", "--limit must be 16 (the parts) to 4096, not 15"),
            ("a b --limit 4097", "--limit must be 16 (the parts) to 4096, not 4097"),
            ("a b --bytes", "--bytes needs a number"),
            ("a b --bytes x", "--bytes needs a number, not \"x\""),
            ("a b --bytes 0", "--bytes must be at least 4096, not 0"),
            ("a b --bytes 4095", "--bytes must be at least 4096, not 4095"),
            ("a b --format", "--format needs text, tsv or json"),
            ("a b --format xml", "--format needs text, tsv or json, not \"xml\""),
            ("a b --format=JSON", "--format needs text, tsv or json, not \"JSON\""),
        ] {
            assert_eq!(parsed(text), Err(message.to_string()), "{text}");
        }
    }

    #[test]
    fn help_fits_a_terminal() {
        for line in HELP.lines().chain(USAGE.lines()) {
            assert!(line.len() <= 80 && line.is_ascii() && line.trim_end() == line, "{line}");
        }
    }
}
