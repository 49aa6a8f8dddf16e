//! Reading and refusals 6 to 10, from the specification's examples and further ones.

use crate::support::{bytes, range};
use reference::{read, spell, Payload, Range};

const OK: u8 = 0;

/// Message and refusal number, `OK` if it is read.
const MESSAGES: &[(&str, u8)] = &[
    // E2, E7, E8, E9.
    ("61 80", 8),
    ("61 82 80*8 00", 8),
    ("61 06 00 00 01 00 00", 9),
    ("61 00 01 07 00", 9),
    ("61 00 00 03", 10),
    ("61 00 00 01 AA*15", 7),
    ("61 00 00 01 AA*16", OK),
    // Missing prefix bytes count as 00.
    ("61 06 00 00 01 01 00", 9),
    ("61 06 02 05 00 00 01 01 05", 9),
    ("61 01 01 00", 9),
    ("61 01 02 00 01 00", OK),
    // Varints.
    ("61 81", 7),
    ("61 81 80", 7),
    ("61 81 80 00 00 00", OK),
    ("61 82 80*8", 7),
    ("61 82 80*8 80", 8),
    ("61 81 80*8 80", 7),
    ("61 81 80*9 00", 8),
    ("61 FF*9", 7),
    ("61 FF*10", 8),
    ("61 81 FF*8 FF", 7),
    ("61 81 FF*8 FF 00", 8),
    // The time code is judged before the length is read.
    ("61 06 00 00 81 FF*8 7F", 9),
    ("61 06 00 00 81 FF*8 7A", 7),
    ("61 06 00 00 81 FF*8 7A 00 00", OK),
    ("61 06 00 00 81 FF*8 7B", 9),
    ("61 81 FF*8 7F 00 00", OK),
    // After infinity.
    ("61 00 00 00", OK),
    ("61 00 00 00 01", 9),
    ("61 00 00 00 81", 7),
    ("61 00 00 00 80", 8),
    ("61 00 00 00 00", 7),
    ("61 00 00 00 00 00", 9),
    ("61 00 00 00 00 01", 9),
    ("61 00 00 00 00 80", 8),
    ("61 00 00 00 00 81", 7),
    // A prefix at infinity is judged with the length.
    ("61 00 01", 9),
    // The length is judged before the prefix is read.
    ("61 06 21", 9),
    ("61 06 20", 7),
    ("61 06 A1", 7),
    ("61 06 A1 00", 9),
    // The bound is compared after the prefix and before the mode.
    ("61 06 00 00 01", 7),
    ("61 06 00 00 01 00", 9),
    ("61 06 00 00 01 01", 7),
    ("61 01 00 80", 9),
    ("61 01 00 03", 9),
    // The first lower bound is (0, none).
    ("61 01 00", 9),
    ("61 01 01 01 00", OK),
    ("61 02 00 00", OK),
    // The mode is a whole varint.
    ("61 00 00 81", 7),
    ("61 00 00 81 00", 10),
    ("61 00 00 80", 8),
    ("61 00 00 FF*10", 8),
    ("61 00 00 FF*9", 7),
    // The ids count has no limit of its own.
    ("61 00 00 02 81 FF*8 7F", 7),
    ("61 00 00 02 88 80*7 00", 7),
    ("61 00 00 02 88 80*7 00 AA*64", 7),
    ("61 00 00 02 88 80*8 00", 8),
    ("61 00 00 02 00", OK),
    ("61 00 00 02 01 AA*31", 7),
    ("61 00 00 02 01 AA*32", OK),
    ("61 00 00 02 02 AA*63", 7),
    // What the writer never writes.
    ("61", OK),
    ("61 06 00 00 02 00 00", OK),
    ("61 06 03 05 00 00 00", OK),
    ("61 00 00 02 03 02*32 01*32 02*32", OK),
    // Refusal 6 is about the first byte only.
    ("", 6),
    ("62", 6),
    ("60 80", 6),
    ("80", 6),
    ("00 61", 6),
];

#[test]
fn messages_are_read_or_refused() {
    for (text, number) in MESSAGES {
        let outcome = read(&bytes(text)).err().unwrap_or(OK);
        assert_eq!(outcome, *number, "{text}");
    }
}

/// What is read spells the same bytes again.
#[test]
fn read_messages_spell_the_same_bytes() {
    let mut count = 0;
    for (text, _) in MESSAGES.iter().filter(|message| message.1 == OK) {
        let message = bytes(text);
        assert_eq!(spell(&read(&message).unwrap()), message, "{text}");
        count += 1;
    }
    assert!(count > 10);
}

/// "7 is the only number that more bytes can cure". A fault stays behind any further bytes, and what stands
/// before it is read or is 7.
#[test]
fn faults_stay() {
    for (text, number) in MESSAGES.iter().filter(|message| message.1 > 7) {
        let message = bytes(text);
        let first = (0..=message.len())
            .find(|&i| read(&message[..i]) == Err(*number))
            .unwrap();
        for i in 1..first {
            assert!(matches!(read(&message[..i]), Ok(_) | Err(7)), "{text}, {i} bytes");
        }
        for more in ["00", "80", "FF*40", "61 00 00 02 00"] {
            for i in first..=message.len() {
                let mut longer = message[..i].to_vec();
                longer.extend(bytes(more));
                assert_eq!(read(&longer), Err(*number), "{text}, {i} bytes and {more}");
            }
        }
    }
}

/// The spelled length is kept, and time codes count from the bound before.
#[test]
fn one_meaning() {
    let read = |text| read(&bytes(text)).unwrap();
    assert_eq!(read("61 06 02 05 00 00"), [range(5, &[5, 0], Payload::Skip)]);
    let two = [
        range(5, &[], Payload::Skip),
        range(7, &[], Payload::Ids(vec![[0xaa; 32]; 2])),
    ];
    assert_eq!(read("61 06 00 00 03 00 02 02 AA*64"), two);
    let within = [
        range(5, &[1], Payload::Skip),
        range(5, &[2], Payload::Fingerprint([0xbb; 16])),
    ];
    assert_eq!(read("61 06 01 01 00 01 01 02 01 BB*16"), within);
    let highest = [range(u64::MAX - 1, &[], Payload::Skip)];
    assert_eq!(read("61 81 FF*8 7F 00 00"), highest);
    assert_eq!(read("61"), Vec::<Range>::new());
}
