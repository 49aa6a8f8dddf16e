//! The safe calls on worked examples of the specification.
use recon::{answer_query, fingerprint, open_session, sha256, take_reply, Bound, Cut, Label, Refusal, Session, Table};

const CUT: Cut = Cut { parts: 2, limit: 2 };

/// Ids that start with the bytes given and are zero behind them.
fn ids(first: &[u8]) -> Vec<u8> {
    first.iter().flat_map(|&b| std::iter::once(b).chain([0; 31])).collect()
}

#[test]
fn a_session_of_two_tables() {
    let (our_ids, their_ids) = (ids(&[1, 2, 3]), ids(&[1, 3, 4]));
    let ours = Table {
        times: &[5, 5, 7],
        ids: &our_ids,
    };
    let theirs = Table {
        times: &[5, 7, 9],
        ids: &their_ids,
    };
    let (mut marks, mut needed, mut out, mut reply) = ([9; 3], [9; 64], [0; 256], [0; 256]);
    let mut sent = open_session(ours, CUT, &mut marks, &needed, &mut out).unwrap();
    let mut messages = 0;
    while !sent.session.done {
        let length = answer_query(theirs, CUT, &out[..sent.length], &mut reply).unwrap();
        sent = take_reply(
            ours,
            CUT,
            &reply[..length],
            sent.session,
            &mut marks,
            &mut needed,
            &mut out,
        )
        .unwrap();
        messages += 1;
    }
    assert_eq!(marks, [0, 1, 0]);
    assert_eq!(needed[..32], ids(&[4])[..]);
    assert_eq!(needed[32..], [9; 32]);
    // 01, 02 and 03.
    let label = Label {
        sum: [6, 0, 0, 0],
        count: 3,
    };
    assert_eq!(
        sent.session,
        Session {
            marked: 1,
            needed: 1,
            done: true,
            label
        }
    );
    assert!(messages <= 2);
}

#[test]
fn a_refused_call_changes_nothing() {
    let own = ids(&[1, 2, 3]);
    let table = Table {
        times: &[5, 5, 7],
        ids: &own,
    };
    let (mut marks, mut out) = ([9; 3], [9; 39]);
    assert_eq!(
        open_session(table, CUT, &mut marks, &[], &mut out),
        Err(Refusal::NoRoom)
    );
    assert_eq!((marks, out), ([9; 3], [9; 39]));
    assert_eq!(
        answer_query(table, Cut { parts: 1, limit: 2 }, &[], &mut out),
        Err(Refusal::CutLimits)
    );
    assert_eq!(answer_query(table, CUT, &[], &mut out), Err(Refusal::WrongVersion));
    assert_eq!(answer_query(table, CUT, &[0x62], &mut []), Err(Refusal::NoRoom));
    assert_eq!(out, [9; 39]);
}

#[test]
fn fingerprints_of_ranges() {
    let own = ids(&[1, 2, 3]);
    let table = Table {
        times: &[5, 5, 7],
        ids: &own,
    };
    let at = |time, prefix| Bound::At { time, prefix };
    let mut hashed = vec![3];
    hashed.extend([0; 31]);
    hashed.push(2);
    let expected: [u8; 16] = sha256(&hashed)[..16].try_into().unwrap();
    assert_eq!(fingerprint(table, at(0, &[]), at(7, &[])), Ok(expected));
    assert_eq!(
        fingerprint(table, at(7, &[]), at(7, &[])),
        fingerprint(table, Bound::Infinity, at(0, &[]))
    );
    assert_eq!(
        fingerprint(table, at(0, &[0; 33]), Bound::Infinity),
        Err(Refusal::BadBound)
    );
    assert_eq!(
        fingerprint(table, at(u64::MAX, &[]), Bound::Infinity),
        Err(Refusal::BadBound)
    );
}
