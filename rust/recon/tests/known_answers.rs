//! Known answers, written by hand: the message of an opening, and the fingerprint between two bounds. E4, E5, E6 and E10 are
//! examples of the specification; the fingerprints are sha256sum's, of sums made by hand.
use recon::{answer_query, fingerprint, open_session, take_reply, Bound, Cut, Label, Refusal, Session, Table};

/// Bytes, or the number of a refusal.
type Answer = Result<Vec<u8>, u64>;

/// The items of a table, lawful or not.
#[derive(Clone)]
struct Items {
    times: Vec<u64>,
    ids: Vec<u8>,
}

impl Items {
    fn table(&self) -> Table<'_> {
        let Items { times, ids } = self;
        Table { times, ids }
    }

    /// The session that an opening leaves, the sum of its label added up byte by byte.
    fn opened(&self) -> Session {
        let mut bytes = [0; 32];
        for id in self.ids.chunks_exact(32) {
            let mut carry = 0;
            for (byte, own) in bytes.iter_mut().zip(id) {
                carry += u16::from(*byte) + u16::from(*own);
                *byte = carry as u8;
                carry >>= 8;
            }
        }
        let word = |at: usize| u64::from_le_bytes(bytes[8 * at..8 * at + 8].try_into().unwrap());
        let label = Label {
            sum: [word(0), word(1), word(2), word(3)],
            count: self.times.len() as u64,
        };
        let (marked, needed, done) = (0, 0, false);
        Session {
            marked,
            needed,
            done,
            label,
        }
    }
}

struct Row {
    name: &'static str,
    items: Items,
    cut: Cut,
    bounds: [Bound<'static>; 2],
    message: Answer,
    fingerprint: Answer,
}

const INFINITY: Bound<'static> = Bound::Infinity;
const START: Bound<'static> = at(0, &[]);
const WHOLE: [Bound<'static>; 2] = [START, INFINITY];
const LAST_TIME: u64 = u64::MAX - 1;

const fn at(time: u64, prefix: &'static [u8]) -> Bound<'static> {
    Bound::At { time, prefix }
}

/// Bytes from hex digits and spaces.
fn bytes(text: &str) -> Vec<u8> {
    let digits = text.chars().filter(|&c| c != ' ').map(|c| c.to_digit(16));
    let digits: Vec<u8> = digits.map(|digit| digit.expect("a hex digit") as u8).collect();
    digits.chunks(2).map(|pair| 16 * pair[0] + pair[1]).collect()
}

fn hex(text: &str) -> Answer {
    Ok(bytes(text))
}

/// Items of these times, and of ids that start with these bytes and are zero behind them.
fn items(times: &[u64], ids: &str) -> Items {
    let padded = |word| {
        let mut id = bytes(word);
        id.resize(32, 0);
        id
    };
    Items {
        times: times.to_vec(),
        ids: ids.split_whitespace().flat_map(padded).collect(),
    }
}

/// Items with so many id bytes, all of them zero.
fn zeros(times: &[u64], id_bytes: usize) -> Items {
    Items {
        times: times.to_vec(),
        ids: vec![0; id_bytes],
    }
}

fn row(
    name: &'static str,
    items: &Items,
    (parts, limit): (usize, usize),
    bounds: [Bound<'static>; 2],
    message: Answer,
    fingerprint: Answer,
) -> Row {
    let (items, cut) = (items.clone(), Cut { parts, limit });
    Row {
        name,
        items,
        cut,
        bounds,
        message,
        fingerprint,
    }
}

/// The fingerprint of no items, of the id 01 alone, and of 02 and 03. These two are the parts of E4 and E5.
const NONE: &str = "7f9c9e31ac8256ca2f258583df262dbc";
const ONE: &str = "2e255099d6d6bee307c8e7075acc78f9";
const OTHERS: &str = "d27c48779563ae9b8f7bfc1ba05462c8";

/// That of the ids 01 and 02, and of 03 alone.
const FIRST_TWO: &str = "055ec405febfad804c1c5638d7369361";
const THIRD: &str = "7e839d7aa6d079f68e2589f6c668a00f";

fn e4() -> Items {
    items(&[5, 5, 7], "01 02 03")
}

/// The message of E4 and of E5, 40 bytes.
fn e4_message() -> Answer {
    hex(&format!("61 06 01 02 01 {ONE} 00 00 01 {OTHERS}"))
}

#[rustfmt::skip]
fn examples() -> Vec<Row> {
    let e5 = items(&[5, 5, 5], "01 02 03");
    let e6 = items(&[10, 20, 20, 20, 40, 40, 50], "01 050607 050608 07 04 09 0A");
    let (a, b) = ("5bccb53c7a96f679e573d40dd19fb532", "e9e2ade1f13eaa94e31b25a9d7108dc4");
    let c = "3d1176a39f155ad43791fdf9f98ffff5";
    let e6_message = || hex(&format!("61 15 03 050608 01 {a} 15 00 01 {b} 00 00 01 {c}"));
    let (e4_bound, e6_bound) = (at(5, &[2]), at(20, &[5, 6, 8]));
    let e10 = items(&[1, 2], &format!("{} 01", "FF".repeat(32)));
    let e10_message = hex(&format!("61 00 00 02 02 {} 01{}", "FF".repeat(32), "00".repeat(31)));
    vec![
        row("no items", &items(&[], ""), (2, 2), WHOLE, hex("61 00 00 02 00"), hex(NONE)),
        row("E4, all items", &e4(), (2, 2), WHOLE, e4_message(), hex("2ba62c87dd9caf05616735c078ff06f1")),
        row("E4, first part", &e4(), (2, 2), [START, e4_bound], e4_message(), hex(ONE)),
        row("E4, second part", &e4(), (2, 2), [e4_bound, INFINITY], e4_message(), hex(OTHERS)),
        row("E5, first part", &e5, (2, 2), [START, e4_bound], e4_message(), hex(ONE)),
        row("E5, second part", &e5, (2, 2), [e4_bound, INFINITY], e4_message(), hex(OTHERS)),
        row("E6, first part", &e6, (3, 3), [START, e6_bound], e6_message(), hex(a)),
        row("E6, second part", &e6, (3, 3), [e6_bound, at(40, &[])], e6_message(), hex(b)),
        row("E6, third part", &e6, (3, 3), [at(40, &[]), INFINITY], e6_message(), hex(c)),
        row("E10, a sum of 0", &e10, (2, 2), WHOLE, e10_message, hex("58cc2f44d3a27866874701fbad573da9")),
    ]
}

/// E4 with other bounds, and as one list.
#[rustfmt::skip]
fn other_bounds() -> Vec<Row> {
    let list = bytes(&format!("61 00 00 02 03 01{0} 02{0} 03{0}", "00".repeat(31)));
    let second_item = at(5, &[2]);
    let e4_row = |name, bounds, fingerprint| row(name, &e4(), (2, 2), bounds, e4_message(), hex(fingerprint));
    vec![
        row("one list; the first item", &e4(), (2, 3), [START, second_item], Ok(list), hex(ONE)),
        e4_row("below time 7", [START, at(7, &[])], FIRST_TWO),
        e4_row("from time 7 on", [at(7, &[]), INFINITY], THIRD),
        e4_row("the second item alone", [second_item, at(7, &[])], "3d35f2a4f394a3b1d39c567506bc9b2b"),
        e4_row("below all items", [START, at(5, &[])], NONE),
        e4_row("above all items", [at(7, &[4]), INFINITY], NONE),
        e4_row("lower above upper", [at(7, &[]), at(5, &[])], NONE),
        e4_row("infinity above upper", [INFINITY, START], NONE),
        e4_row("infinity twice", [INFINITY, INFINITY], NONE),
        e4_row("one bound in two spellings", [at(5, &[1]), at(5, &[1, 0])], NONE),
    ]
}

/// FF, and another last byte.
const fn high(last: u8) -> [u8; 32] {
    let mut id = [0xff; 32];
    id[31] = last;
    id
}

const HIGH_2: [u8; 32] = high(2);
const HIGH_4: [u8; 32] = high(4);

/// The longest time code and the longest prefixes.
#[rustfmt::skip]
fn longest_bounds() -> Vec<Row> {
    let ff = "FF".repeat(31);
    let ids: Vec<String> = (0..7).map(|last| format!("{ff}0{last}")).collect();
    let long = items(&[LAST_TIME; 7], &ids.join(" "));
    let (a, b) = ("3db8aac218d4896c303b2d12667dcfa9", "89f109741ef1bff87497b77bf7aa164d");
    let c = "f36dbb4ba3380139d64c49fd81ef55f6";
    let latest = format!("81 {} 7F", "FF".repeat(8));
    let message = || hex(&format!("61 {latest} 20 {ff}02 01 {a} 01 20 {ff}04 01 {b} 00 00 01 {c}"));
    let (third_item, fifth_item) = (at(LAST_TIME, &HIGH_2), at(LAST_TIME, &HIGH_4));
    vec![
        row("longest bounds, first part", &long, (3, 3), [START, third_item], message(), hex(a)),
        row("longest bounds, second part", &long, (3, 3), [third_item, fifth_item], message(), hex(b)),
        row("longest bounds, third part", &long, (3, 3), [fifth_item, INFINITY], message(), hex(c)),
    ]
}

/// Counts of two bytes; ids whose order is not that of their numbers; time 0 and id 0.
#[rustfmt::skip]
fn counts_and_sums() -> Vec<Row> {
    let times: Vec<u64> = (1..=128).collect();
    let many = items(&times, &"01 ".repeat(128));
    let half = "a39d7143d852c96b0ec500a83f14755f";
    let halves = hex(&format!("61 42 00 01 {half} 00 00 01 {half}"));
    let all = Ok([&bytes("61 00 00 02 8100"), &many.ids[..]].concat());
    let turned = items(&[5, 5], &format!("{}01 01", "00".repeat(31)));
    let both = || hex(&format!("61 00 00 02 02 {0}01 01{0}", "00".repeat(31)));
    let zero = hex(&format!("61 00 00 02 01 {}", "00".repeat(32)));
    vec![
        row("128 items, two parts", &many, (2, 2), WHOLE, halves, hex("3944998044ff9b2b2605d36488956979")),
        row("128 items, one list; 127 items", &many, (2, 128), [START, at(128, &[])],
            all, hex("28d0aa97d15831aa3505fa435ae13e27")),
        row("first byte lowest in the sum", &turned, (2, 2), WHOLE, both(), hex("c0ffde0cabc7b23f3aed01c9026a6096")),
        row("first byte highest in the order", &turned, (2, 2), [at(5, &[1]), INFINITY], both(), hex(ONE)),
        row("time 0 and id 0", &zeros(&[0], 32), (2, 2), WHOLE, zero, hex("1fd4247443c9440cb3c48c2885193719")),
    ]
}

/// 1, 2, 3 and 9, at their limits and in their order; and the largest lawful cut and bounds.
#[rustfmt::skip]
fn refusals() -> Vec<Row> {
    let too_late = at(u64::MAX, &[]);
    let too_long = at(0, &[0; 33]);
    let none = items(&[], "");
    vec![
        row("an id byte too few; bad cut and bound", &zeros(&[5, 5], 63), (1, 1), [START, too_late], Err(1), Err(1)),
        row("an id byte too many", &zeros(&[5, 5], 65), (2, 2), WHOLE, Err(1), Err(1)),
        row("an id without a time", &zeros(&[], 32), (2, 2), WHOLE, Err(1), Err(1)),
        row("equal items; bad cut and bound", &zeros(&[5, 5], 64), (1, 1), [START, too_late], Err(2), Err(2)),
        row("falling ids", &items(&[5, 5], "02 01"), (2, 2), WHOLE, Err(2), Err(2)),
        row("falling times", &items(&[5, 4], "01 02"), (2, 2), WHOLE, Err(2), Err(2)),
        row("the time 2^64 - 1", &items(&[u64::MAX], "01"), (2, 2), WHOLE, Err(2), Err(2)),
        row("the time 2^64 - 1 twice", &items(&[u64::MAX; 2], "01 02"), (2, 2), WHOLE, Err(2), Err(2)),
        row("1 part; upper time 2^64 - 1", &none, (1, 2), [START, too_late], Err(3), Err(9)),
        row("65 parts; lower time 2^64 - 1", &none, (65, 100), [at(u64::MAX, &[1]), START], Err(3), Err(9)),
        row("limit below the parts; lower prefix of 33 bytes", &none, (2, 1), [too_long, INFINITY], Err(3), Err(9)),
        row("limit 4,097; upper prefix of 33 bytes", &none, (64, 4_097), [INFINITY, too_long], Err(3), Err(9)),
        row("largest cut and bounds", &none, (64, 4_096), [at(0, &[0xff; 32]), at(LAST_TIME, &[0xff; 32])],
            hex("61 00 00 02 00"), hex(NONE)),
    ]
}

fn rows() -> Vec<Row> {
    let lists = [
        examples(),
        other_bounds(),
        longest_bounds(),
        counts_and_sums(),
        refusals(),
    ];
    lists.into_iter().flatten().collect()
}

const OLD: u8 = 0xa5;

/// The message of an opening with this room. A refused one changes nothing; another sets the marks to 0.
fn opened(row: &Row, room: usize) -> Answer {
    let (mut marks, mut out) = (vec![OLD; row.items.times.len()], vec![OLD; room]);
    let result = open_session(row.items.table(), row.cut, &mut marks, &[], &mut out);
    let mark = if result.is_ok() { 0 } else { OLD };
    assert!(marks.iter().all(|&m| m == mark), "{}: marks", row.name);
    match result {
        Ok(sent) => {
            assert_eq!(sent.session, row.items.opened(), "{}", row.name);
            out.truncate(sent.length);
            Ok(out)
        }
        Err(refusal) => {
            assert!(out.iter().all(|&byte| byte == OLD), "{}: out bytes", row.name);
            Err(refusal.number())
        }
    }
}

#[test]
fn messages_of_openings() {
    for row in rows() {
        match &row.message {
            Ok(message) => {
                assert_eq!(opened(&row, message.len()), row.message, "{}", row.name);
                assert_eq!(opened(&row, message.len() - 1), Err(12), "{}", row.name);
            }
            Err(_) => assert_eq!(opened(&row, 100), row.message, "{}", row.name),
        }
    }
}

#[test]
fn fingerprints_between_bounds() {
    for row in rows() {
        let [lower, upper] = row.bounds;
        let answer = fingerprint(row.items.table(), lower, upper).map(|bytes| bytes.to_vec());
        assert_eq!(answer.map_err(Refusal::number), row.fingerprint, "{}", row.name);
    }
}

/// E4's items were cut into the first two and the third by the former rule. Its query is answered, and the answer ends the
/// session that it opened: the other end lacks the second item.
#[test]
fn a_session_of_the_former_rule_is_carried_on() {
    let (ours, theirs) = (e4(), items(&[5, 7], "01 03"));
    let cut = Cut { parts: 2, limit: 2 };
    let query = bytes(&format!("61 08 00 01 {FIRST_TWO} 00 00 01 {THIRD}"));
    let (mut reply, mut marks) = ([OLD; 38], [0; 3]);
    assert_eq!(answer_query(ours.table(), cut, &query, &mut reply), Ok(1));
    assert_eq!(answer_query(theirs.table(), cut, &query, &mut reply), Ok(37));
    assert_eq!(reply[..37], bytes(&format!("61 08 00 02 01 01{}", "00".repeat(31))));
    let opened = ours.opened();
    let sent = take_reply(ours.table(), cut, &reply[..37], opened, &mut marks, &mut [], &mut []).unwrap();
    assert_eq!((sent.length, sent.session.done, marks), (0, true, [0, 1, 0]));
}
