//! The writer, tidied ranges and spelled bytes.

use crate::support::{bytes, id, last, range, Lent};
use reference::{spell, tidy, write, Payload, Range};
use Payload::{Fingerprint, Ids, Skip};

fn written(ranges: Vec<Range>) -> Result<Vec<u8>, u8> {
    let mut out = [0xcc; 300];
    let length = write(ranges, &mut out)?;
    assert!(out[length..].iter().all(|&byte| byte == 0xcc));
    Ok(out[..length].to_vec())
}

/// Skips merge, and the next time code counts from the merged skip's last bound.
#[test]
fn skips_merge() {
    let ranges = vec![range(5, &[], Skip), range(7, &[], Skip), range(9, &[], Ids(vec![]))];
    let merged = vec![range(7, &[], Skip), range(9, &[], Ids(vec![]))];
    assert_eq!(tidy(ranges.clone()), merged);
    assert_eq!(written(ranges.clone()).unwrap(), bytes("61 08 00 00 03 00 02 00"));
    assert_eq!(spell(&ranges), bytes("61 06 00 00 03 00 00 03 00 02 00"));
}

/// A final skip isn't written, after merging, whether or not it reaches infinity.
#[test]
fn final_skips_are_left_off() {
    let ids = range(9, &[], Ids(vec![]));
    let expected = bytes("61 0A 00 02 00");
    for tail in [
        vec![],
        vec![range(10, &[], Skip)],
        vec![range(10, &[], Skip), range(11, &[], Skip)],
        vec![range(10, &[], Skip), last(Skip)],
        vec![last(Skip)],
    ] {
        let ranges = [vec![ids.clone()], tail].concat();
        assert_eq!(tidy(ranges.clone()), std::slice::from_ref(&ids));
        assert_eq!(written(ranges).unwrap(), expected);
    }
    assert_eq!(tidy(vec![range(5, &[], Skip), last(Skip)]), []);
    assert_eq!(written(vec![range(5, &[], Skip), last(Skip)]).unwrap(), [0x61]);
    // Skips apart from each other stay apart.
    let apart = vec![
        range(5, &[], Skip),
        range(6, &[], Fingerprint([1; 16])),
        range(7, &[], Skip),
        last(Ids(vec![])),
    ];
    assert_eq!(tidy(apart.clone()), apart);
}

/// Bounds are judged by 9 whole, over the whole list and before room.
#[test]
fn writer_judges_bounds() {
    let bad = [
        vec![range(0, &[], Ids(vec![]))],
        vec![range(5, &[], Skip), range(5, &[0], Ids(vec![]))],
        vec![range(5, &[], Skip), range(4, &[], Skip)],
        vec![range(u64::MAX, &[], Ids(vec![]))],
        vec![range(5, &[1; 33], Ids(vec![]))],
        vec![last(Skip), last(Skip)],
        vec![last(Ids(vec![])), range(5, &[], Skip)],
    ];
    for ranges in bad {
        assert_eq!(written(ranges.clone()), Err(9), "{ranges:?}");
        assert_eq!(write(ranges.clone(), &mut []), Err(9), "{ranges:?}");
    }
    assert!(written(vec![range(5, &[1; 32], Ids(vec![]))]).is_ok());
}

/// A buffer of exactly the message's length is enough; with one byte less nothing is written.
#[test]
fn room_is_exact() {
    let ranges = vec![range(5, &[3], Ids(vec![id(1)])), last(Fingerprint([7; 16]))];
    let length = spell(&ranges).len();
    let mut out = vec![0xcc; length];
    assert_eq!(write(ranges.clone(), &mut out[..length - 1]), Err(12));
    assert_eq!(out, vec![0xcc; length]);
    assert_eq!(write(ranges.clone(), &mut out), Ok(length));
    assert_eq!(out, spell(&ranges));
}

/// An answer of skips only is the byte 61, and needs one byte of room.
#[test]
fn answers_of_skips_only() {
    let table = Lent::new(&[(5, id(1))]);
    for query in ["61", "61 00 00 00", "61 03 00 00 09 00 00"] {
        let query = bytes(query);
        assert_eq!(table.answer(2, 2, &query), Ok(vec![0x61]));
        assert_eq!(
            reference::answer(&table.times, &table.ids, 2, 2, &query, &mut []),
            Err(12)
        );
    }
}
