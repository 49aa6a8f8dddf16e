//! What is written to standard output.
use crate::exchange::{Exchanged, Traffic};
use crate::source::Source;
use recon::Inquiry;
use std::io::{self, Write};

/// How the report is written.
#[derive(Clone, Copy, Debug, Default, PartialEq, Eq)]
pub enum Format {
    #[default]
    Text,
    Tsv,
    Json,
}

impl Format {
    /// The names, as messages list them.
    pub const NAMES: &'static str = "text, tsv or json";

    pub fn named(name: &str) -> Option<Format> {
        match name {
            "text" => Some(Format::Text),
            "tsv" => Some(Format::Tsv),
            "json" => Some(Format::Json),
            _ => None,
        }
    }
}

/// What an opener found: the records that only it has, in table order, and the ids that it lacks, rising. Messages list
/// ids without their times, so it does not know those of the ids that it lacks.
#[derive(Clone, Debug, Default, PartialEq, Eq)]
pub struct Difference<'a> {
    pub ours_only: Vec<(u64, &'a [u8])>,
    pub theirs_only: Vec<&'a [u8]>,
}

impl Difference<'_> {
    pub fn is_empty(&self) -> bool {
        self.ours_only.is_empty() && self.theirs_only.is_empty()
    }
}

/// All that a report can tell.
pub struct Report<'a> {
    pub ours: &'a Source,
    pub theirs: &'a Source,
    pub difference: &'a Difference<'a>,
    /// What went over, if that is to be told.
    pub stats: Option<Exchanged>,
    /// A batch, and what folding it in would do.
    pub fold: Option<(&'a Source, Inquiry)>,
}

impl Report<'_> {
    /// Writes the report to `out`, except that the counts of a table, which has no place for them, go to `aside`.
    pub fn write(&self, format: Format, out: &mut impl Write, aside: &mut impl Write) -> io::Result<()> {
        match format {
            Format::Text => self.write_text(out),
            Format::Json => self.write_json(out),
            Format::Tsv => {
                self.write_tsv(out)?;
                out.flush()?;
                self.write_tsv_stats(aside)
            }
        }
    }

    /// A line for each record, then what went over, and the outcome.
    fn write_text(&self, out: &mut impl Write) -> io::Result<()> {
        for (time, id) in &self.difference.ours_only {
            writeln!(out, "ours only    {time} {}", hex(id))?;
        }
        for id in &self.difference.theirs_only {
            writeln!(out, "theirs only  - {}", hex(id))?;
        }
        if let Some(exchanged) = &self.stats {
            writeln!(out, "rounds:         {}", exchanged.replies.messages)?;
            writeln!(out, "ours to theirs: {}", traffic(exchanged.queries))?;
            writeln!(out, "theirs to ours: {}", traffic(exchanged.replies))?;
        }
        self.write_outcome(out)?;
        match self.fold {
            Some((batch, told)) => self.write_fold(out, batch, told),
            None => Ok(()),
        }
    }

    fn write_outcome(&self, out: &mut impl Write) -> io::Result<()> {
        if self.difference.is_empty() {
            return writeln!(out, "nothing is missing at either end");
        }
        let ours_only = count(self.difference.ours_only.len(), "record");
        let theirs_only = self.difference.theirs_only.len();
        writeln!(
            out,
            "{ours_only} only in {}, {theirs_only} only in {}",
            self.ours, self.theirs
        )
    }

    fn write_fold(&self, out: &mut impl Write, batch: &Source, told: Inquiry) -> io::Result<()> {
        let (entering, staying) = (count(told.entering, "record"), count(told.staying, "id"));
        writeln!(
            out,
            "{entering} of {batch} would enter {}, {staying} would stay needed",
            self.ours
        )
    }

    /// A line with the names of the fields, and one for each record.
    fn write_tsv(&self, out: &mut impl Write) -> io::Result<()> {
        writeln!(out, "side\ttime\tid")?;
        for (time, id) in &self.difference.ours_only {
            writeln!(out, "ours\t{time}\t{}", hex(id))?;
        }
        for id in &self.difference.theirs_only {
            writeln!(out, "theirs\t-\t{}", hex(id))?;
        }
        Ok(())
    }

    fn write_tsv_stats(&self, out: &mut impl Write) -> io::Result<()> {
        let folded = self.fold.iter().flat_map(|(_, told)| fold_counts(told));
        for (name, number) in self.stats.iter().flat_map(counts).chain(folded) {
            writeln!(out, "{name}\t{number}")?;
        }
        Ok(())
    }

    /// An object, with each record in a line of its own.
    fn write_json(&self, out: &mut impl Write) -> io::Result<()> {
        writeln!(out, "{{")?;
        let ours_only = self.difference.ours_only.iter();
        write_list(out, "ours_only", ours_only.map(|(time, id)| (time.to_string(), *id)))?;
        writeln!(out, ",")?;
        let theirs_only = self.difference.theirs_only.iter();
        write_list(out, "theirs_only", theirs_only.map(|id| ("null".to_string(), *id)))?;
        if let Some(exchanged) = &self.stats {
            write_object(out, "stats", &counts(exchanged))?;
        }
        if let Some((_, told)) = &self.fold {
            write_object(out, "fold", &fold_counts(told))?;
        }
        writeln!(out, "\n}}")
    }
}

/// A list of records in JSON, under its name.
fn write_list<'a>(
    out: &mut impl Write,
    name: &str,
    records: impl Iterator<Item = (String, &'a [u8])>,
) -> io::Result<()> {
    write!(out, "\"{name}\": [")?;
    let mut before = "\n";
    let mut after = "";
    for (time, id) in records {
        write!(out, "{before}{{\"time\": {time}, \"id\": \"{}\"}}", hex(id))?;
        before = ",\n";
        after = "\n";
    }
    write!(out, "{after}]")
}

/// An object of numbers in JSON, under its name, behind what came before it.
fn write_object(out: &mut impl Write, name: &str, counts: &[(&str, usize)]) -> io::Result<()> {
    let fields: Vec<String> = counts
        .iter()
        .map(|(name, number)| format!("\"{name}\": {number}"))
        .collect();
    write!(out, ",\n\"{name}\": {{{}}}", fields.join(", "))
}

/// What folding in would do, each number under its name.
fn fold_counts(told: &Inquiry) -> [(&'static str, usize); 2] {
    [("entering", told.entering), ("staying", told.staying)]
}

/// What went over, each number under its name.
fn counts(exchanged: &Exchanged) -> [(&'static str, usize); 5] {
    [
        ("rounds", exchanged.replies.messages),
        ("ours_to_theirs_messages", exchanged.queries.messages),
        ("ours_to_theirs_bytes", exchanged.queries.bytes),
        ("theirs_to_ours_messages", exchanged.replies.messages),
        ("theirs_to_ours_bytes", exchanged.replies.bytes),
    ]
}

fn traffic(traffic: Traffic) -> String {
    format!(
        "{}, {}",
        count(traffic.messages, "message"),
        count(traffic.bytes, "byte")
    )
}

/// A number of things, as in "1 record" and "2 records".
fn count(number: usize, thing: &str) -> String {
    format!("{number} {thing}{}", if number == 1 { "" } else { "s" })
}

pub fn hex(id: &[u8]) -> String {
    let digits = b"0123456789abcdef";
    id.iter()
        .flat_map(|byte| [byte >> 4, byte & 15])
        .map(|digit| char::from(digits[usize::from(digit)]))
        .collect()
}

#[cfg(test)]
mod tests {
    use super::*;

    const EXCHANGED: Exchanged = Exchanged {
        queries: Traffic { messages: 2, bytes: 70 },
        replies: Traffic { messages: 2, bytes: 1 },
    };

    /// What is written for a difference, to the output and aside.
    fn written(format: Format, difference: &Difference<'_>, stats: bool) -> (String, String) {
        written_with(format, difference, stats, None)
    }

    /// The same with so many records of the file `c` that would enter, and ids that would stay.
    fn written_with(
        format: Format,
        difference: &Difference<'_>,
        stats: bool,
        fold: Option<(usize, usize)>,
    ) -> (String, String) {
        let (ours, theirs, batch) = (
            Source::StandardInput,
            Source::File("b".into()),
            Source::File("c".into()),
        );
        let report = Report {
            ours: &ours,
            theirs: &theirs,
            difference,
            stats: Some(EXCHANGED).filter(|_| stats),
            fold: fold.map(|(entering, staying)| (&batch, Inquiry { entering, staying })),
        };
        let (mut out, mut aside) = (Vec::new(), Vec::new());
        report.write(format, &mut out, &mut aside).unwrap();
        (String::from_utf8(out).unwrap(), String::from_utf8(aside).unwrap())
    }

    fn some() -> Difference<'static> {
        Difference {
            ours_only: vec![(0, &[0x0a, 0xff]), (u64::MAX - 1, &[0x10])],
            theirs_only: vec![&[0x5e]],
        }
    }

    #[test]
    fn text_has_a_line_for_each_record_and_the_outcome() {
        let lines = "ours only    0 0aff\nours only    18446744073709551614 10\ntheirs only  - 5e\n";
        let stats = "rounds:         2\nours to theirs: 2 messages, 70 bytes\ntheirs to ours: 2 messages, 1 byte\n";
        let outcome = "2 records only in standard input, 1 only in b\n";
        let none = "nothing is missing at either end\n";
        let empty = Difference::default();
        for (difference, with_stats, out) in [
            (&some(), false, [lines, "", outcome].concat()),
            (&some(), true, [lines, stats, outcome].concat()),
            (&empty, false, none.to_string()),
            (&empty, true, [stats, none].concat()),
        ] {
            assert_eq!(written(Format::Text, difference, with_stats), (out, String::new()));
        }
    }

    #[test]
    fn a_table_keeps_the_counts_aside() {
        let table = "side\ttime\tid\nours\t0\t0aff\nours\t18446744073709551614\t10\ntheirs\t-\t5e\n".to_string();
        let stats = "rounds\t2\nours_to_theirs_messages\t2\nours_to_theirs_bytes\t70\ntheirs_to_ours_messages\t2\n\
                     theirs_to_ours_bytes\t1\n";
        assert_eq!(written(Format::Tsv, &some(), false), (table.clone(), String::new()));
        assert_eq!(written(Format::Tsv, &some(), true), (table, stats.to_string()));
        let header = "side\ttime\tid\n".to_string();
        assert_eq!(written(Format::Tsv, &Difference::default(), false).0, header);
    }

    #[test]
    fn json_is_one_object() {
        let lists = "{\n\"ours_only\": [\n{\"time\": 0, \"id\": \"0aff\"},\n\
                     {\"time\": 18446744073709551614, \"id\": \"10\"}\n],\n\
                     \"theirs_only\": [\n{\"time\": null, \"id\": \"5e\"}\n]";
        let stats = "\"stats\": {\"rounds\": 2, \"ours_to_theirs_messages\": 2, \"ours_to_theirs_bytes\": 70, \
                     \"theirs_to_ours_messages\": 2, \"theirs_to_ours_bytes\": 1}";
        let empty = "{\n\"ours_only\": [],\n\"theirs_only\": []";
        assert_eq!(written(Format::Json, &some(), false).0, format!("{lists}\n}}\n"));
        assert_eq!(
            written(Format::Json, &some(), true).0,
            format!("{lists},\n{stats}\n}}\n")
        );
        assert_eq!(
            written(Format::Json, &Difference::default(), false).0,
            format!("{empty}\n}}\n")
        );
        assert_eq!(written(Format::Json, &some(), true).1, "");
    }

    #[test]
    fn what_folding_in_would_do_comes_last() {
        for stats in [false, true] {
            let (plain, _) = written(Format::Text, &some(), stats);
            for (counts, line) in [
                (
                    (1, 0),
                    "1 record of c would enter standard input, 0 ids would stay needed\n",
                ),
                (
                    (0, 1),
                    "0 records of c would enter standard input, 1 id would stay needed\n",
                ),
            ] {
                let (out, aside) = written_with(Format::Text, &some(), stats, Some(counts));
                assert_eq!((out, aside.as_str()), (format!("{plain}{line}"), ""));
            }
            let (table, aside) = written(Format::Tsv, &some(), stats);
            let counts = format!("{aside}entering\t1\nstaying\t2\n");
            assert_eq!(written_with(Format::Tsv, &some(), stats, Some((1, 2))), (table, counts));
            let (object, _) = written(Format::Json, &some(), stats);
            let with_fold = object.replace("\n}\n", ",\n\"fold\": {\"entering\": 1, \"staying\": 2}\n}\n");
            assert_eq!(
                written_with(Format::Json, &some(), stats, Some((1, 2))),
                (with_fold, String::new())
            );
        }
    }

    #[test]
    fn every_listed_format_is_known() {
        for name in Format::NAMES.replace(" or ", ", ").split(", ") {
            assert!(Format::named(name).is_some(), "{name}");
        }
        assert_eq!(Format::named("xml"), None);
    }
}
