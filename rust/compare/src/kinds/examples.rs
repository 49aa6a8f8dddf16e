//! The worked examples of the specification by number, and others that show how it is read.
use super::{expect_number, Case};
use crate::calls::{Call, GivenBound, GivenItem};
use crate::compare::{same_bytes, Check};
use crate::exchange::{End, Ends, Exchange};
use crate::fold_faults::FoldDraft;
use crate::generate::{from_text, id_from, Item, OwnedTable};
use crate::input::After;
use crate::label::{without_label, NO_SESSION};
use crate::tree::TreeInput;
use recon::{Cut, Session, UnlabelledSession};

type Example = fn(&mut Case<'_, '_>) -> Check;

const EXAMPLES: [(&str, Example); 21] = [
    ("E1, varints", varints),
    ("E3, the empty table", empty_table),
    ("E4, different times", |case| opening(case, [5, 5, 7])),
    ("E5, equal times", |case| opening(case, [5, 5, 5])),
    ("E6, seven items in three parts", seven_in_three),
    ("E10, fingerprints", fingerprints),
    ("E11, an item that they lack", one_item),
    ("E12, another version", other_version),
    ("E14, the tree over two ids", two_ids),
    ("E15, k by the number of items", tree_lengths),
    ("E16, labels visited", labels_visited),
    ("a tree not from a build", other_tree),
    ("an own id under another range", other_range),
    ("an id under two times", two_times),
    ("skips in answers", skips),
    ("replies that say little", short_replies),
    ("128 ids and byte limits", byte_limits),
    ("an opening by the former rule, carried on", carried_on),
    ("E21, a batch of two items", batch_of_two),
    ("E22, batches with an id under two times", batches_under_two_times),
    ("E23, refused batches", refused_batches),
];

/// Messages and the number that reading them gives, 0 for none: examples of the specification, or what they are about.
const MESSAGES: [(&str, &str, u8); 80] = [
    ("E2", "61 80", 8),
    ("E2", "61 82 80*8 00", 8),
    ("E3", "61 00 00 02 00", 0),
    ("E7", "61 06 00 00 01 00 00", 9),
    ("E8", "61 00 01 07 00", 9),
    ("E8", "61 00 00 03", 10),
    ("E9", "61 00 00 01 07*15", 7),
    ("E9", "61 00 00 01 07*16", 0),
    ("missing bytes are 00", "61 06 00 00 01 01 00", 9),
    ("missing bytes are 00", "61 06 02 05 00 00 01 01 05", 9),
    ("missing bytes are 00", "61 01 01 00", 9),
    ("missing bytes are 00", "61 01 02 00 01 00", 0),
    ("varints", "61 81", 7),
    ("varints", "61 82 80*8", 7),
    ("varints", "61 82 80*8 80", 8),
    ("varints", "61 81 80*8 80", 7),
    ("varints", "61 81 80*9 00", 8),
    ("varints", "61 FF*9", 7),
    ("varints", "61 FF*10", 8),
    ("varints", "61 81 FF*8 FF", 7),
    ("varints", "61 81 FF*8 FF 00", 8),
    ("varints", "61 81 80 00 00 00", 0),
    ("time codes", "61 06 00 00 81 FF*8 7F", 9),
    ("time codes", "61 06 00 00 81 FF*8 7A 00 00", 0),
    ("time codes", "61 06 00 00 81 FF*8 7B", 9),
    ("time codes", "61 81 FF*8 7F 00 00", 0),
    ("time codes", "61 81 FF*8 7F 00 00 02", 9),
    ("time codes", "61 81 FF*8 7F 00 00 01 20 FF*32 00", 0),
    ("after infinity", "61 00 00 00", 0),
    ("after infinity", "61 00 00 00 01", 9),
    ("after infinity", "61 00 00 00 81", 7),
    ("after infinity", "61 00 00 00 80", 8),
    ("after infinity", "61 00 00 00 00", 7),
    ("after infinity", "61 00 00 00 00 00", 9),
    ("after infinity", "61 00 00 00 00 01", 9),
    ("after infinity", "61 00 00 00 00 80", 8),
    ("after infinity", "61 00 00 00 00 81", 7),
    ("prefix at infinity", "61 00 01", 9),
    ("prefix lengths", "61 06 21", 9),
    ("prefix lengths", "61 06 20", 7),
    ("prefix lengths", "61 06 20 00*32 00", 0),
    ("prefix lengths", "61 06 A1", 7),
    ("prefix lengths", "61 06 A1 00", 9),
    ("bound before mode", "61 06 00 00 01", 7),
    ("bound before mode", "61 06 00 00 01 00", 9),
    ("bound before mode", "61 06 00 00 01 01", 7),
    ("bound before mode", "61 06 00 00 01 01 01 00", 0),
    ("bound before mode", "61 01 00 80", 9),
    ("bound before mode", "61 01 00 03", 9),
    ("first lower bound", "61 01 00", 9),
    ("first lower bound", "61 01 01 01 00", 0),
    ("first lower bound", "61 02 00 00", 0),
    ("modes", "61 00 00 81", 7),
    ("modes", "61 00 00 81 00", 10),
    ("modes", "61 00 00 80", 8),
    ("modes", "61 00 00 FF*10", 8),
    ("modes", "61 00 00 FF*9", 7),
    ("modes", "61 00 00 FF*8 7F", 10),
    ("counts", "61 00 00 02 81 FF*8 7F", 7),
    ("counts", "61 00 00 02 88 80*7 00", 7),
    ("counts", "61 00 00 02 88 80*8 00", 8),
    ("counts", "61 00 00 02 01 07*31", 7),
    ("counts", "61 00 00 02 01 07*32", 0),
    ("counts", "61 00 00 02", 7),
    ("forms never written", "61", 0),
    ("forms never written", "61 06 00 00 02 00 00 02 00 00", 0),
    ("forms never written", "61 06 03 01 00 00 00", 0),
    ("forms never written", "61 00 00 02 03 09*32 07*32 09*32", 0),
    ("E13", "", 6),
    ("E13", "5F", 6),
    ("E13", "70", 6),
    ("version", "5F 80", 6),
    ("version", "00 61", 6),
    ("version", "E1", 6),
    ("bytes behind a fault", "61 06 00 02 00 80", 8),
    ("bytes behind a fault", "61 06 00 02 00 80 61 00", 8),
    ("neighbouring skips", "61 06 00 00 03 00 00 03 00 02 00", 0),
    ("final skips", "61 0A 00 02 00 02 00 00 02 00 00", 0),
    ("id of another range", "61 07 00 02 00 00 00 02 01 01 00*31", 0),
    ("showmsg", "61 08 01 03 00 00 00 02 00", 0),
];

pub fn cases(_long: bool) -> u64 {
    (EXAMPLES.len() + MESSAGES.len()) as u64
}

pub fn run(case: &mut Case<'_, '_>) -> Check {
    let index = case.index as usize;
    if let Some((name, example)) = EXAMPLES.get(index) {
        return example(case).map_err(|text| format!("{}: {}", name, text));
    }
    let (name, text, number) = MESSAGES[index - EXAMPLES.len()];
    message(case, &from_text(text), number).map_err(|what| format!("{}, {}: {}", name, text, what))
}

/// A message as a query and as a reply, for several tables; a fault other than 7 stays whatever follows it.
fn message(case: &mut Case<'_, '_>, bytes: &[u8], number: u8) -> Check {
    let three = table(&[(5, &[1]), (5, &[2]), (7, &[3])]);
    for table in [OwnedTable::default(), table(&[(5, &[1])]), three] {
        both_ways(case, &table, bytes, number)?;
        if matches!(number, 6 | 8..=10) && !bytes.is_empty() {
            let longer = [bytes, &case.rng.bytes(40)].concat();
            both_ways(case, &table, &longer, number)?;
        }
    }
    Ok(())
}

fn both_ways(case: &mut Case<'_, '_>, table: &OwnedTable, bytes: &[u8], number: u8) -> Check {
    let (marks, needed, out) = (vec![0; table.count()], case.rng.bytes(128), case.rng.bytes(400));
    for call in [Call::Answer, Call::Take] {
        let input = end(table, 2, 2).input(call).with_message(bytes).with_out(&out);
        case.expect(&input.opened(&marks, &needed), number)?;
    }
    Ok(())
}

/// The table of times and the first bytes of ids, the other bytes 00.
fn table(items: &[(u64, &[u8])]) -> OwnedTable {
    let items: Vec<Item> = items.iter().map(|(time, start)| (*time, id_from(start))).collect();
    OwnedTable::of(&items)
}

fn end(table: &OwnedTable, parts: usize, limit: usize) -> End<'_> {
    let cut = Cut { parts, limit };
    End { table, cut }
}

fn opened(case: &mut Case<'_, '_>, opener: End<'_>) -> Check<After> {
    let marks = case.rng.bytes(opener.table.count());
    let out = case.rng.bytes(20_000);
    let input = opener.input(Call::Open).with_out(&out);
    case.expect(&input.opened(&marks, &[]), 0)
}

/// A take after the opening, with parts and limit 2 and room for four needed ids.
fn taken(case: &mut Case<'_, '_>, table: &OwnedTable, reply: &str) -> Check<After> {
    let reply = from_text(reply);
    let (marks, needed, out) = (vec![0; table.count()], case.rng.bytes(128), case.rng.bytes(400));
    let input = end(table, 2, 2).input(Call::Take).with_message(&reply).with_out(&out);
    case.expect(&input.opened(&marks, &needed), 0)
}

fn same(first: &[u8], second: &[u8], what: &str) -> Check {
    same_bytes(first, second, || what.to_string())
}

fn written(after: &After, text: &str) -> Check {
    same(after.message(), &from_text(text), "the message and the expected one")
}

fn session(after: &After, marked: usize, needed: usize, done: bool) -> Check {
    let expected = UnlabelledSession { marked, needed, done };
    match after.outcome {
        Ok(sent) if without_label(sent.session) == expected => Ok(()),
        outcome => Err(format!("{:?} expected, both say {:?}", expected, outcome)),
    }
}

/// The largest values that one to ten bytes hold.
const LARGEST: [(u64, &str); 10] = [
    (127, "7F"),
    (16_383, "FF 7F"),
    (2_097_151, "FF*2 7F"),
    (268_435_455, "FF*3 7F"),
    (34_359_738_367, "FF*4 7F"),
    (4_398_046_511_103, "FF*5 7F"),
    (562_949_953_421_311, "FF*6 7F"),
    (72_057_594_037_927_935, "FF*7 7F"),
    (9_223_372_036_854_775_807, "FF*8 7F"),
    (18_446_744_073_709_551_615, "81 FF*8 7F"),
];

/// Values as the time code of a bound and as the count of a list.
fn varints(case: &mut Case<'_, '_>) -> Check {
    time_code(case, 300, "82 2C")?;
    for (zeros, (value, bytes)) in LARGEST.into_iter().enumerate() {
        time_code(case, value, bytes)?;
        if let Some(next) = value.checked_add(1) {
            time_code(case, next, &format!("81 80*{} 00", zeros))?;
        }
    }
    for (count, bytes) in [(0, "00"), (127, "7F"), (128, "81 00"), (300, "82 2C")] {
        let items: Vec<Item> = (0..count).map(|i| (9, id_from(&[(i >> 8) as u8, i as u8]))).collect();
        let list = OwnedTable::of(&items);
        let opened = opened(case, end(&list, 2, 300))?;
        let expected = [from_text(&format!("61 00 00 02 {}", bytes)), list.ids.clone()].concat();
        same(opened.message(), &expected, "messages with a list")?;
    }
    Ok(())
}

/// An opening whose first bound has this time code: the second part begins with the second item.
fn time_code(case: &mut Case<'_, '_>, value: u64, bytes: &str) -> Check {
    let three = table(&[(0, &[1]), (value - 1, &[2]), (value - 1, &[3])]);
    let opener = end(&three, 2, 2);
    let opened = opened(case, opener)?;
    let start = from_text(&format!("61 {} 00 01", bytes));
    same(&opened.message()[..start.len()], &start, "messages with a time code")?;
    exact_room(case, opener, opened.message().len())
}

/// An opening with exact room, and with one byte less.
fn exact_room(case: &mut Case<'_, '_>, opener: End<'_>, length: usize) -> Check {
    let (marks, out) = (case.rng.bytes(opener.table.count()), case.rng.bytes(length));
    let input = opener.input(Call::Open).opened(&marks, &[]);
    case.expect(&input.with_out(&out), 0)?;
    case.expect(&input.with_out(&out[1..]), 12)?;
    Ok(())
}

fn empty_table(case: &mut Case<'_, '_>) -> Check {
    let none = OwnedTable::default();
    let bytes = "61 00 00 02 00";
    written(&opened(case, end(&none, 2, 2))?, bytes)?;
    answered(case, bytes, bytes)?;
    let taken = taken(case, &none, bytes)?;
    written(&taken, "")?;
    session(&taken, 0, 0, true)
}

/// An answer of an empty responder, with exact room and one byte less.
fn answered(case: &mut Case<'_, '_>, query: &str, expected: &str) -> Check {
    let none = OwnedTable::default();
    let query = from_text(query);
    let out = case.rng.bytes(from_text(expected).len());
    let input = end(&none, 2, 2).input(Call::Answer).with_message(&query);
    written(&case.expect(&input.with_out(&out), 0)?, expected)?;
    case.expect(&input.with_out(&out[1..]), 12)?;
    Ok(())
}

/// The fingerprints of the ids 01 alone, and of 02 and 03.
const FIRST: &str = "2e255099d6d6bee307c8e7075acc78f9";
const OTHERS: &str = "d27c48779563ae9b8f7bfc1ba05462c8";

/// Ids 01, 02 and 03 under these times: parts of one item and of two, in just 40 bytes.
fn opening(case: &mut Case<'_, '_>, times: [u64; 3]) -> Check {
    let three = table(&[(times[0], &[1]), (times[1], &[2]), (times[2], &[3])]);
    let opener = end(&three, 2, 2);
    let message = format!("61 06 01 02 01 {} 00 00 01 {}", FIRST, OTHERS);
    written(&opened(case, opener)?, &message)?;
    exact_room(case, opener, 40)
}

/// The parts are told by their bounds.
fn seven_in_three(case: &mut Case<'_, '_>) -> Check {
    let items: Vec<Item> = (0..7).map(|i| (i + 1, id_from(&[9 - i as u8]))).collect();
    let opened = opened(case, end(&OwnedTable::of(&items), 3, 3))?;
    let message = opened.message();
    if message.len() != 1 + 3 * 19 {
        return Err(format!("{} bytes", message.len()));
    }
    // The second part begins with the third item and the third one with the fifth: times 3 and 5.
    let starts = [&message[1..4], &message[20..23], &message[39..42]].concat();
    same(&starts, &from_text("04 00 01 03 00 01 00 00 01"), "bounds of the parts")
}

/// No item; and the ids FF (32 times) and 01 then zeros, whose sum is 0.
fn fingerprints(case: &mut Case<'_, '_>) -> Check {
    let two = OwnedTable::of(&[(3, id_from(&[1])), (4, [0xff; 32])]);
    let expected = [
        (OwnedTable::default(), "7f9c9e31ac8256ca2f258583df262dbc"),
        (two, "58cc2f44d3a27866874701fbad573da9"),
    ];
    for (table, text) in expected {
        let told = case.comparer.fingerprint(table.lent(), GivenBound::WHOLE)?;
        let told = told.map_err(|number| format!("refused by {}", number))?;
        same(&told, &from_text(text), "fingerprints")?;
    }
    Ok(())
}

fn one_item(case: &mut Case<'_, '_>) -> Check {
    let taken = taken(case, &table(&[(5, &[1])]), "61 00 00 02 00")?;
    same(&taken.marks, &[1], "marks")?;
    session(&taken, 1, 0, true)
}

/// The responder answers it with the byte 61; a take refuses it.
fn other_version(case: &mut Case<'_, '_>) -> Check {
    answered(case, "62 80", "61")?;
    let (message, out) = (from_text("62 80"), case.rng.bytes(400));
    let none = OwnedTable::default();
    let input = end(&none, 2, 2).input(Call::Take).with_message(&message).with_out(&out);
    case.expect(&input.opened(&[], &[]), 6)?;
    Ok(())
}

fn two_ids(case: &mut Case<'_, '_>) -> Check {
    let two = OwnedTable::of(&[(3, [0xff; 32]), (4, id_from(&[1]))]);
    let (table, item, tree) = (two.lent(), None, &case.rng.bytes(120)[..]);
    let after = case.expect_tree(&TreeInput { table, item, tree }, 0)?;
    let labels = "00*32 02 00*7 FF*32 01 00*7 01 00*31 01 00*7";
    same(&after.tree, &from_text(labels), "the tree and the expected one")
}

/// k is told by the one length that a build does not refuse.
fn tree_lengths(case: &mut Case<'_, '_>) -> Check {
    let items: Vec<Item> = (1..10).map(|i| (i, id_from(&[i as u8]))).collect();
    for (count, k) in [(0, 0), (1, 0), (2, 1), (3, 2), (4, 2), (5, 3), (8, 3), (9, 4)] {
        let own = OwnedTable::of(&items[..count]);
        for (other, length) in [40, 120, 280, 600, 1_240, 2_520].into_iter().enumerate() {
            let (table, item, tree) = (own.lent(), None, &case.rng.bytes(length)[..]);
            case.expect_tree(&TreeInput { table, item, tree }, if other == k { 0 } else { 13 })?;
        }
    }
    Ok(())
}

fn labels_visited(case: &mut Case<'_, '_>) -> Check {
    let tree = case.rng.bytes(600);
    let runs = [(0, 8), (0, 5), (1, 7), (3, 4), (8, 9), (5, 2), (3, 3), (0, usize::MAX)];
    for ((from, to), visited) in runs.into_iter().zip([1, 7, 11, 7, 1, 1, 1, 1]) {
        let told = case.comparer.tree_label(&tree, from, to)?;
        match told {
            Ok(run) if run.visited == visited => {}
            told => return Err(format!("{} labels visited expected, both say {:?}", visited, told)),
        }
    }
    Ok(())
}

/// All bytes FF: counts are added modulo 2^64, and an append makes the labels above it afresh.
fn other_tree(case: &mut Case<'_, '_>) -> Check {
    let tree = [0xff; 280];
    let told = case.comparer.tree_label(&tree, 1, 3)?;
    if !matches!(told, Ok(run) if run.label.count == u64::MAX - 1 && run.label.sum[0] == u64::MAX - 1) {
        return Err(format!("2^64 - 2 twice expected, both say {:?}", told));
    }
    let own = table(&[(5, &[1]), (5, &[2]), (7, &[3])]);
    let (time, id) = (8, &id_from(&[4])[..]);
    let item = Some(GivenItem { time, id });
    let (table, tree) = (own.lent(), &tree[..]);
    let after = case.expect_tree(&TreeInput { table, item, tree }, 0)?;
    let labels = "02 00*31 FF*8 FF*40 03 00*39 FF*120 04 00*31 01 00*7";
    same(&after.tree, &from_text(labels), "the tree and the expected one")
}

/// The item is marked, as its range does not list its id, and the id is needed, as its range has no such item.
fn other_range(case: &mut Case<'_, '_>) -> Check {
    let reply = "61 07 00 02 00 00 00 02 01 01 00*31";
    let taken = taken(case, &table(&[(5, &[1])]), reply)?;
    same(&taken.needed[..32], &id_from(&[1]), "the needed id and 01")?;
    session(&taken, 1, 1, true)
}

/// The id AA is reported both ways, as its items differ.
fn two_times(case: &mut Case<'_, '_>) -> Check {
    let ours = table(&[(5, &[0xaa]), (6, &[1]), (8, &[2])]);
    let theirs = table(&[(6, &[1]), (8, &[2]), (9, &[0xaa])]);
    let cut = Cut { parts: 2, limit: 2 };
    let ends = Ends {
        tables: [ours, theirs],
        cuts: [cut, cut],
    };
    let mut exchange = Exchange::open(case, &ends)?;
    exchange.finish(case)?;
    same(&exchange.marks, &[1, 0, 0], "marks")?;
    same(&exchange.list, &id_from(&[0xaa]), "the needed list and AA")
}

/// Skips are merged, a last one is not written, and an answer of skips alone is 61.
fn skips(case: &mut Case<'_, '_>) -> Check {
    let answers = [
        ("61 06 00 00 03 00 00 03 00 02 00", "61 08 00 00 03 00 02 00"),
        ("61 0A 00 02 00 02 00 00 02 00 00", "61 0A 00 02 00"),
        ("61 06 00 00 03 00 00", "61"),
        ("61", "61"),
        ("61 00 00 01 7f9c9e31ac8256ca2f258583df262dbc", "61"),
        ("61 00 00 01 7f9c9e31ac8256ca2f258583df262dbd", "61 00 00 02 00"),
    ];
    answers
        .iter()
        .try_for_each(|(query, answer)| answered(case, query, answer))
}

/// Replies of skips alone, replies that stop early, and one with a fingerprint.
fn short_replies(case: &mut Case<'_, '_>) -> Check {
    let two = table(&[(5, &[1]), (7, &[3])]);
    for (reply, marked) in [("61", 0), ("61 06 00 00", 0), ("61 00 00 00", 0), ("61 07 00 02 00", 1)] {
        session(&taken(case, &two, reply)?, marked, 0, true)?;
    }
    let other = taken(case, &two, "61 07 00 01 07*16")?;
    written(&other, "61 07 00 02 01 01 00*31")?;
    session(&other, 0, 0, false)
}

/// The list of 128 ids takes 4,102 bytes. With a limit below that 127 are kept, and the last item has a fingerprint.
fn byte_limits(case: &mut Case<'_, '_>) -> Check {
    let items: Vec<Item> = (0..128).map(|number| (5, id_from(&[1, number]))).collect();
    let own = OwnedTable::of(&items);
    let whole = [&from_text("61 00 00 02 81 00")[..], &own.ids].concat();
    let start = from_text("61 06 02 01 7F 02 7F");
    let last = from_text("00 00 01 1c734a0cf18826cc4f0ba647995da3d5");
    let short = [&start[..], &own.ids[..32 * 127], &last].concat();
    let (out, marks, message) = (case.rng.bytes(5_000), vec![0; 128], from_text("61 00 00 01 AA*16"));
    for (limit, number, expected) in [
        (usize::MAX, 0, &whole[..]),
        (4_103, 0, &whole),
        (4_102, 0, &whole),
        (4_101, 0, &short),
        (4_096, 0, &short),
        (4_095, 14, &[]),
        (0, 14, &[]),
    ] {
        for call in Call::WRITING {
            let input = end(&own, 2, 128).input(call).within(Some(limit)).with_message(&message);
            let after = case.expect(&input.opened(&marks, &[]).with_out(&out), number)?;
            same(after.message(), expected, "the message and the expected one")?;
        }
    }
    Ok(())
}

/// Five items of times 100 to 500: the former rule cut them before the fourth, into three and two. The three are cut into
/// one and two, by the other end that is handed this query, and by the opener that is handed a reply with a bound at 47.
fn carried_on(case: &mut Case<'_, '_>) -> Check {
    let five = table(&[(100, &[1]), (200, &[2]), (300, &[3]), (400, &[4]), (500, &[5])]);
    let query = from_text("61 83 11 00 01 AA*16 00 00 01 BB*16");
    let out = case.rng.bytes(400);
    let input = end(&five, 2, 2).input(Call::Answer).with_message(&query).with_out(&out);
    let parts = format!("00 01 {} 81 49 00 01 {}", FIRST, OTHERS);
    let answer = format!("61 81 49 {} 00 00 02 02 04 00*31 05 00*31", parts);
    written(&case.expect(&input, 0)?, &answer)?;
    let taken = taken(case, &five, "61 30 00 01 AA*16 82 62 00 01 BB*16")?;
    written(&taken, &format!("61 30 00 02 00 81 1A {}", parts))?;
    session(&taken, 0, 0, false)
}

/// A batch for the table of (5, 01) and (7, 03) in buffers for so many items, with 02, 03 and 04 needed.
fn batch(items: &[(u64, u8)], room: usize) -> FoldDraft {
    let own = table(&[(5, &[1]), (7, &[3])]);
    let batch: Vec<Item> = items.iter().map(|(time, first)| (*time, id_from(&[*first]))).collect();
    let session = Session {
        marked: 7,
        needed: 3,
        done: true,
        ..NO_SESSION
    };
    let mut draft = FoldDraft::new(&own, session, &ids(&[2, 3, 4]), &OwnedTable::of(&batch));
    draft.times.resize(room, 1_000);
    draft.ids.resize(32 * room, 0xcc);
    draft
}

fn ids(first: &[u8]) -> Vec<u8> {
    first.iter().flat_map(|first| id_from(&[*first])).collect()
}

/// What both calls leave of a batch: these times and ids, and these needed bytes, of which so many ids are the list.
fn folded(case: &mut Case<'_, '_>, draft: &FoldDraft, table: (&[u64], &[u8]), needed: (&[u8], usize)) -> Check {
    let after = case.fold(&draft.input())?;
    expect_number(after.number(), 0)?;
    if after.times != table.0 {
        return Err(format!("times {:?} expected, both say {:?}", table.0, after.times));
    }
    same(&after.ids, &ids(table.1), "the ids and the expected ones")?;
    same(&after.needed, &ids(needed.0), "the needed bytes and the expected ones")?;
    match after.committed() {
        Some(left) if (left.items, left.session.needed) == (table.0.len(), needed.1) => Ok(()),
        left => Err(format!("{} ids expected, both say {:?}", needed.1, left)),
    }
}

fn batch_of_two(case: &mut Case<'_, '_>) -> Check {
    let draft = batch(&[(5, 2), (7, 4)], 4);
    folded(case, &draft, (&[5, 5, 7, 7], &[1, 2, 3, 4]), (&[3, 3, 4], 1))
}

/// Under two times in the batch, and in the table under another time.
fn batches_under_two_times(case: &mut Case<'_, '_>) -> Check {
    let twice = batch(&[(6, 2), (8, 2)], 4);
    folded(case, &twice, (&[5, 6, 7, 8], &[1, 2, 3, 2]), (&[3, 4, 4], 2))?;
    let other_time = batch(&[(9, 3)], 3);
    folded(case, &other_time, (&[5, 7, 9], &[1, 3, 3]), (&[2, 4, 4], 2))
}

fn refused_batches(case: &mut Case<'_, '_>) -> Check {
    let mut not_done = batch(&[(5, 2), (7, 4)], 4);
    not_done.session.done = false;
    case.expect_fold(&not_done.input(), 15)?;
    case.expect_fold(&batch(&[(6, 5)], 4).input(), 16)?;
    case.expect_fold(&batch(&[(7, 3)], 4).input(), 16)?;
    case.expect_fold(&batch(&[(5, 2), (7, 4)], 3).input(), 17)?;
    let mut odd = batch(&[(5, 2), (7, 4)], 4);
    odd.needed.pop();
    case.expect_fold(&odd.input(), 4).map(|_| ())
}
