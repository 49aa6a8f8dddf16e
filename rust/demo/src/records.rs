//! Record files: a record in each line, `TIME ID`. The records of a file become a table, sorted by time and then by id.
use recon::{Table, ID_BYTES, MAX_ITEMS};
use std::cmp::Ordering;
use std::collections::hash_map::{Entry, HashMap};
use std::fmt;
use std::io::{self, BufRead, ErrorKind, Read};

type Id = [u8; ID_BYTES];

/// The largest time that a record can have. In messages the next one stands for infinity.
const LAST_TIME: u64 = u64::MAX - 1;

/// No record needs a longer line. Longer ones are refused, so that a file without line ends does not fill the memory.
const LONGEST_LINE: usize = 1000;

/// The bytes that some editors put at the start of a text, to say that it is UTF-8.
const BYTE_ORDER_MARK: &[u8] = b"\xef\xbb\xbf";

/// The records of one end, in table order, each with the line that it stands in.
#[derive(Debug, Default, PartialEq, Eq)]
pub struct Records {
    times: Vec<u64>,
    ids: Vec<u8>,
    lines: Vec<usize>,
}

impl Records {
    /// Sorts records, each with its line, by time and then by id.
    fn of_lines(mut records: Vec<(u64, Id, usize)>) -> Records {
        records.sort_unstable();
        Records {
            times: records.iter().map(|(time, ..)| *time).collect(),
            ids: records.iter().flat_map(|(_, id, _)| *id).collect(),
            lines: records.iter().map(|(.., line)| *line).collect(),
        }
    }

    /// Sorts records by time and then by id. They stand in lines in the order given.
    #[cfg(test)]
    fn sorted(records: Vec<(u64, Id)>) -> Records {
        let numbered = records.iter().zip(1..).map(|(&(time, id), line)| (time, id, line));
        Records::of_lines(numbered.collect())
    }

    pub fn len(&self) -> usize {
        self.times.len()
    }

    pub fn table(&self) -> Table<'_> {
        Table {
            times: &self.times,
            ids: &self.ids,
        }
    }

    pub fn iter(&self) -> impl Iterator<Item = (u64, &[u8])> {
        self.times.iter().copied().zip(self.ids.chunks_exact(ID_BYTES))
    }

    /// The line of a record that stands here as it is.
    fn line_of(&self, record: (u64, &[u8])) -> Option<usize> {
        let (mut low, mut high) = (0, self.len());
        while low < high {
            let middle = (low + high) / 2;
            let id = &self.ids[ID_BYTES * middle..ID_BYTES * (middle + 1)];
            match (self.times[middle], id).cmp(&record) {
                Ordering::Less => low = middle + 1,
                Ordering::Greater => high = middle,
                Ordering::Equal => return Some(self.lines[middle]),
            }
        }
        None
    }

    /// The ids, with their lines, of the records that `others` has not as they are, time and id.
    fn without<'a>(&'a self, others: &'a Records) -> impl Iterator<Item = (&'a [u8], usize)> {
        let mut others = others.iter().peekable();
        let lines = self.lines.iter().copied();
        self.iter().zip(lines).filter_map(move |(record, line)| {
            while others.next_if(|other| *other < record).is_some() {}
            (others.peek() != Some(&record)).then_some((record.1, line))
        })
    }
}

/// The lines of two files that have one id under two times.
#[derive(Clone, Copy, Debug, PartialEq, Eq, PartialOrd, Ord)]
pub struct TwoTimes {
    pub theirs: usize,
    pub ours: usize,
}

/// Finds the first line of `theirs` whose id has another time in `ours`. Such a record is not in the other file as it
/// is, so where the files are nearly the same few are looked up.
pub fn two_times(ours: &Records, theirs: &Records) -> Option<TwoTimes> {
    let our_lines: HashMap<&[u8], usize> = ours.without(theirs).collect();
    let both = theirs.without(ours).filter_map(|(id, line)| {
        let ours = *our_lines.get(id)?;
        Some(TwoTimes { theirs: line, ours })
    });
    both.min()
}

/// A record of a batch that cannot be folded in.
#[derive(Clone, Copy, Debug, PartialEq, Eq)]
pub struct NotDue {
    pub line: usize,
    /// The line of the same record in the table.
    pub ours: Option<usize>,
}

/// Finds the first line of a batch whose record stands in `ours` already, or whose id is not one of those needed, which
/// rise.
pub fn not_due(ours: &Records, needed: &[&[u8]], batch: &Records) -> Option<NotDue> {
    let records = batch.iter().zip(batch.lines.iter().copied());
    let not_due = records.filter_map(|((time, id), line)| {
        let ours = ours.line_of((time, id));
        let is_due = ours.is_none() && needed.binary_search(&id).is_ok();
        (!is_due).then_some(NotDue { line, ours })
    });
    not_due.min_by_key(|record| record.line)
}

/// Why a record file cannot be used.
#[derive(Debug)]
pub enum BadFile {
    System(io::Error),
    Line { number: usize, fault: Fault },
}

/// What is wrong with a line.
#[derive(Clone, Copy, Debug, PartialEq, Eq)]
pub enum Fault {
    Utf16,
    TooLong,
    NotTwoFields,
    TimeNotNumber,
    TimeTooLarge,
    BadId,
    Twice { first: usize },
    OtherTime { first: usize },
    TooMany,
}

impl fmt::Display for Fault {
    fn fmt(&self, f: &mut fmt::Formatter<'_>) -> fmt::Result {
        match self {
            Fault::Utf16 => write!(f, "the text is UTF-16; a record file is ASCII or UTF-8"),
            Fault::TooLong => write!(f, "the line is longer than {LONGEST_LINE} bytes"),
            Fault::NotTwoFields => write!(f, "not a time and an id with one space between them"),
            Fault::TimeNotNumber => write!(f, "the time is not a decimal number"),
            Fault::TimeTooLarge => write!(f, "the time is above {LAST_TIME} (2^64 - 2)"),
            Fault::BadId => write!(f, "the id is not 64 hex digits"),
            Fault::Twice { first } => write!(f, "the record stands in line {first} already"),
            Fault::OtherTime { first } => write!(f, "the id stands in line {first} already, with another time"),
            Fault::TooMany => write!(f, "more than {MAX_ITEMS} records"),
        }
    }
}

/// Reads the lines of a record file up to the first that is at fault.
pub fn read(reader: impl BufRead) -> Result<Records, BadFile> {
    let mut reader = skip_mark(reader)?;
    let mut seen = HashMap::new();
    let mut line = Vec::new();
    let mut number = 0;
    while next_line(&mut reader, &mut line).map_err(BadFile::System)? {
        number += 1;
        let added = match parse_line(&line) {
            Ok(Some((time, id))) => add(&mut seen, time, id, number),
            Ok(None) => Ok(()),
            Err(fault) => Err(fault),
        };
        added.map_err(|fault| BadFile::Line { number, fault })?;
    }
    let records = seen.into_iter().map(|(id, (time, line))| (time, id, line));
    Ok(Records::of_lines(records.collect()))
}

/// Skips a byte-order mark at the start of a file. That of UTF-16 is refused: in its lines nothing else would be right.
fn skip_mark(mut reader: impl BufRead) -> Result<impl BufRead, BadFile> {
    let mut start = Vec::new();
    let length = BYTE_ORDER_MARK.len() as u64;
    let read = reader.by_ref().take(length).read_to_end(&mut start);
    read.map_err(BadFile::System)?;
    if start.starts_with(b"\xff\xfe") || start.starts_with(b"\xfe\xff") {
        return Err(BadFile::Line {
            number: 1,
            fault: Fault::Utf16,
        });
    }
    if start == BYTE_ORDER_MARK {
        start.clear();
    }
    Ok(io::Cursor::new(start).chain(reader))
}

/// Adds a record to those seen so far, which are known by id, with their time and line.
fn add(seen: &mut HashMap<Id, (u64, usize)>, time: u64, id: Id, number: usize) -> Result<(), Fault> {
    let full = seen.len() == MAX_ITEMS;
    match seen.entry(id) {
        Entry::Occupied(entry) => {
            let (first_time, first) = *entry.get();
            Err(if first_time == time {
                Fault::Twice { first }
            } else {
                Fault::OtherTime { first }
            })
        }
        Entry::Vacant(_) if full => Err(Fault::TooMany),
        Entry::Vacant(entry) => {
            entry.insert((time, number));
            Ok(())
        }
    }
}

/// Reads the next line, without its line feed, into `line`; false at the end of the file. Of a line that is too long,
/// only as many bytes are kept as show that it is, and the rest is read only if it is a comment's.
fn next_line(reader: &mut impl BufRead, line: &mut Vec<u8>) -> io::Result<bool> {
    line.clear();
    loop {
        let part = match reader.fill_buf() {
            Err(error) if error.kind() == ErrorKind::Interrupted => continue,
            part => part?,
        };
        if part.is_empty() {
            return Ok(!line.is_empty());
        }
        let line_feed = part.iter().position(|&byte| byte == b'\n');
        let length = line_feed.unwrap_or(part.len());
        let kept = length.min(LONGEST_LINE + 1 - line.len());
        line.extend_from_slice(&part[..kept]);
        reader.consume(length + usize::from(line_feed.is_some()));
        if line_feed.is_some() || is_too_long(line) {
            return Ok(true);
        }
    }
}

/// The record of a line; none if the line is to be skipped.
fn parse_line(line: &[u8]) -> Result<Option<(u64, Id)>, Fault> {
    if is_too_long(line) {
        return Err(Fault::TooLong);
    }
    let line = line.strip_suffix(b"\r").unwrap_or(line);
    if line.is_empty() || is_comment(line) {
        return Ok(None);
    }
    let fields: Vec<&[u8]> = line.split(|&byte| byte == b' ').collect();
    match fields[..] {
        [time, id] if !time.is_empty() && !id.is_empty() => Ok(Some((parse_time(time)?, parse_id(id)?))),
        _ => Err(Fault::NotTwoFields),
    }
}

fn is_comment(line: &[u8]) -> bool {
    line.starts_with(b"#")
}

fn is_too_long(line: &[u8]) -> bool {
    line.len() > LONGEST_LINE && !is_comment(line)
}

fn parse_time(field: &[u8]) -> Result<u64, Fault> {
    if !field.iter().all(u8::is_ascii_digit) {
        return Err(Fault::TimeNotNumber);
    }
    let number = std::str::from_utf8(field).ok().and_then(|digits| digits.parse().ok());
    number.filter(|&time| time <= LAST_TIME).ok_or(Fault::TimeTooLarge)
}

fn parse_id(field: &[u8]) -> Result<Id, Fault> {
    if field.len() != 2 * ID_BYTES {
        return Err(Fault::BadId);
    }
    let mut id = [0; ID_BYTES];
    for (byte, digits) in id.iter_mut().zip(field.chunks_exact(2)) {
        *byte = 16 * hex_digit(digits[0])? + hex_digit(digits[1])?;
    }
    Ok(id)
}

fn hex_digit(digit: u8) -> Result<u8, Fault> {
    match digit {
        b'0'..=b'9' => Ok(digit - b'0'),
        b'a'..=b'f' => Ok(digit - b'a' + 10),
        b'A'..=b'F' => Ok(digit - b'A' + 10),
        _ => Err(Fault::BadId),
    }
}

#[cfg(test)]
mod tests {
    use super::*;
    use std::io::BufReader;

    const A: &str = "00000000000000000000000000000000000000000000000000000000000000aA";
    const B: &str = "ff00000000000000000000000000000000000000000000000000000000000000";

    fn id(first: u8, last: u8) -> Id {
        let mut id = [0; ID_BYTES];
        id[0] = first;
        id[ID_BYTES - 1] = last;
        id
    }

    /// The line and the fault that a text is refused for.
    fn fault(text: impl AsRef<[u8]>) -> (usize, Fault) {
        match read(text.as_ref()) {
            Err(BadFile::Line { number, fault }) => (number, fault),
            other => panic!("{other:?}"),
        }
    }

    #[test]
    fn records_are_sorted_by_time_and_then_by_id() {
        let text = format!(
            "# {A}\n7 {B}\n\n18446744073709551614 {}\r\n007 {A}",
            B.replace("ff", "FE")
        );
        let sorted = [(7, id(0, 0xaa)), (7, id(0xff, 0)), (LAST_TIME, id(0xfe, 0))];
        let records = read(text.as_bytes()).unwrap();
        assert!(records.iter().eq(sorted.iter().map(|(time, id)| (*time, &id[..]))));
        assert_eq!((records.len(), records.table().ids.len()), (3, 96));
    }

    #[test]
    fn files_without_records_are_empty() {
        for text in ["", "\n", "\r\n\n", "#", "# a\n\n#b"] {
            assert_eq!(read(text.as_bytes()).unwrap(), Records::default());
        }
    }

    #[test]
    fn a_line_is_two_fields() {
        for text in [
            "7",
            "7 ",
            " 7",
            " ",
            "7\t1",
            "7  1",
            " 7 1",
            "7 1 ",
            "7 1 2",
            " # a comment starts the line",
        ] {
            assert_eq!(fault(format!("\n{text}\n")), (2, Fault::NotTwoFields), "{text:?}");
        }
    }

    #[test]
    fn a_time_is_a_decimal_number_below_the_last() {
        for time in ["-1", "+1", "0x1", "1.0", "1e3", "a", "\u{661}"] {
            assert_eq!(fault(format!("{time} {A}")), (1, Fault::TimeNotNumber), "{time}");
        }
        for time in [
            "18446744073709551615",
            "18446744073709551616",
            "99999999999999999999999",
        ] {
            assert_eq!(fault(format!("{time} {A}")), (1, Fault::TimeTooLarge), "{time}");
        }
    }

    #[test]
    fn an_id_is_64_hex_digits() {
        for id in [
            &A[1..],
            &format!("{A}0"),
            &A.replace('A', "g"),
            &A.replace('A', "\u{e9}"),
            "x",
        ] {
            assert_eq!(fault(format!("1 {B}\n2 {id}")), (2, Fault::BadId), "{id}");
        }
    }

    #[test]
    fn bytes_that_are_no_text_are_told_by_line() {
        assert_eq!(fault(b"#\xff\n\xff\xfe"), (2, Fault::NotTwoFields));
        assert_eq!(fault(b"\n\n\xff \xfe"), (3, Fault::TimeNotNumber));
        assert_eq!(fault([b"1 ".as_slice(), &[0x80; 64]].concat()), (1, Fault::BadId));
        assert_eq!(fault([0; 64]), (1, Fault::NotTwoFields));
    }

    #[test]
    fn an_id_stands_once() {
        let lower = A.to_lowercase();
        assert_eq!(
            fault(format!("1 {A}\n2 {B}\n#\n01 {lower}\nx")),
            (4, Fault::Twice { first: 1 })
        );
        assert_eq!(
            fault(format!("#\n1 {A}\n2 {A}\n1 {A}")),
            (3, Fault::OtherTime { first: 2 })
        );
    }

    #[test]
    fn long_lines_are_refused_unless_comments() {
        let comment = "#".repeat(100_000);
        let zeros = "0".repeat(LONGEST_LINE - 65);
        let text = format!("{comment}\n{zeros} {A}\n{comment}");
        assert_eq!(read(text.as_bytes()).unwrap().len(), 1);
        assert_eq!(fault(format!("{comment}\n0{zeros} {A}\n")), (2, Fault::TooLong));
        assert_eq!(fault(format!("{zeros} {A}\r0")), (1, Fault::TooLong));
    }

    #[test]
    fn long_lines_are_not_kept() {
        for text in ["#".repeat(100_000), "1".repeat(100_000)] {
            let mut line = Vec::new();
            assert!(next_line(&mut text.as_bytes(), &mut line).unwrap());
            assert_eq!(line.len(), LONGEST_LINE + 1);
        }
    }

    #[test]
    fn lines_are_whole_over_every_read_size() {
        let text = format!("# two records\n1 {A}\n2 {B}\n");
        for size in 1..text.len() {
            assert_eq!(read(BufReader::with_capacity(size, text.as_bytes())).unwrap().len(), 2);
        }
    }

    #[test]
    fn a_byte_order_mark_is_skipped_at_the_start_alone() {
        let plain = format!("1 {A}\n2 {B}\n");
        let marked = format!("\u{feff}{plain}");
        for size in 1..marked.len() {
            let records = read(BufReader::with_capacity(size, marked.as_bytes())).unwrap();
            assert_eq!(records, read(plain.as_bytes()).unwrap());
        }
        assert_eq!(read("\u{feff}".as_bytes()).unwrap(), Records::default());
        let comment = "#".repeat(2 * LONGEST_LINE);
        assert_eq!(read(format!("\u{feff}{comment}\n{plain}").as_bytes()).unwrap().len(), 2);
        assert_eq!(fault(format!("\u{feff}{marked}")), (1, Fault::TimeNotNumber));
        assert_eq!(fault(format!("{plain}\u{feff}3 {A}")), (3, Fault::TimeNotNumber));
        assert_eq!(fault(&marked.as_bytes()[1..]), (1, Fault::TimeNotNumber));
    }

    #[test]
    fn utf16_is_told() {
        let text = format!("\u{feff}1 {A}\n");
        let little: Vec<u8> = text.encode_utf16().flat_map(u16::to_le_bytes).collect();
        let big: Vec<u8> = text.encode_utf16().flat_map(u16::to_be_bytes).collect();
        assert_eq!(fault(little), (1, Fault::Utf16));
        assert_eq!(fault(big), (1, Fault::Utf16));
    }

    fn checked(ours: &str, theirs: &str) -> Option<(usize, usize)> {
        let (ours, theirs) = (read(ours.as_bytes()).unwrap(), read(theirs.as_bytes()).unwrap());
        two_times(&ours, &theirs).map(|lines| (lines.ours, lines.theirs))
    }

    #[test]
    fn an_id_has_one_time_in_both_files() {
        let ours = format!("# ours\n1 {A}\n2 {B}\n");
        assert_eq!(checked(&ours, &ours), None);
        assert_eq!(checked(&ours, ""), None);
        assert_eq!(checked("", &ours), None);
        assert_eq!(checked(&ours, &format!("2 {B}\n01 {}", A.to_lowercase())), None);
        assert_eq!(checked(&ours, &format!("2 {A}")), Some((2, 1)));
        assert_eq!(checked(&ours, &format!("1 {A}\n\n3 {B}")), Some((3, 3)));
        // Of several, the first line of the second file counts, whatever the order of times and ids.
        assert_eq!(checked(&ours, &format!("9 {B}\n0 {A}")), Some((3, 1)));
        assert_eq!(checked(&ours, &format!("\n9 {A}\n0 {B}")), Some((2, 2)));
    }

    /// Compares the search with one record by record, on files of few ids and times, so that many are the same.
    #[test]
    fn two_times_are_found_wherever_they_are() {
        let mut state = 1_u64;
        let mut below = |bound: u64| {
            state = state.wrapping_mul(6_364_136_223_846_793_005).wrapping_add(1);
            (state >> 33) % bound
        };
        let mut found = 0;
        for _ in 0..2000 {
            let mut some = || {
                let mut ids: Vec<u8> = (0..12).filter(|_| below(3) > 0).collect();
                ids.sort_by_key(|_| below(100));
                let records = ids
                    .iter()
                    .map(|&last| (u64::from(last / 4) + below(20) / 19, id(0, last)));
                records.collect::<Vec<_>>()
            };
            let (ours, theirs) = (some(), some());
            let line_in_ours = |&(time, id): &(u64, Id)| ours.iter().position(|&(t, i)| i == id && t != time);
            let expected = theirs.iter().enumerate().find_map(|(place, record)| {
                let ours = line_in_ours(record)? + 1;
                Some(TwoTimes {
                    theirs: place + 1,
                    ours,
                })
            });
            found += usize::from(expected.is_some());
            assert_eq!(
                two_times(&Records::sorted(ours.clone()), &Records::sorted(theirs.clone())),
                expected
            );
        }
        assert!((500..1500).contains(&found), "{found}");
    }

    /// Of several, the first line of the batch counts, whatever the order of times and ids.
    #[test]
    fn records_that_are_not_due_are_told_by_line() {
        let c = B.replace("ff", "fe");
        let ours = read(format!("# ours\n5 {A}\n6 {B}\n").as_bytes()).unwrap();
        let ids = [id(0, 0xaa), id(0xfe, 0)];
        let needed: Vec<&[u8]> = ids.iter().map(|id| &id[..]).collect();
        let told = |batch: &str| {
            let batch = read(batch.as_bytes()).unwrap();
            not_due(&ours, &needed, &batch).map(|record| (record.line, record.ours))
        };
        assert_eq!(told(""), None);
        assert_eq!(told(&format!("9 {c}\n4 {A}")), None);
        // In the table as it is, though its id is needed.
        assert_eq!(told(&format!("9 {c}\n5 {A}")), Some((2, Some(2))));
        assert_eq!(told(&format!("9 {c}\n\n7 {B}")), Some((3, None)));
        assert_eq!(told(&format!("6 {B}\n5 {A}")), Some((1, Some(3))));
    }

    #[test]
    fn there_are_not_too_many_records() {
        let mut seen = HashMap::new();
        for number in 1..=MAX_ITEMS {
            let mut id = [0; ID_BYTES];
            id[..8].copy_from_slice(&number.to_ne_bytes());
            add(&mut seen, 5, id, number).unwrap();
        }
        assert_eq!(add(&mut seen, 5, id(0, 1), MAX_ITEMS + 1), Err(Fault::TooMany));
        assert_eq!(seen.len(), MAX_ITEMS);
    }
}
