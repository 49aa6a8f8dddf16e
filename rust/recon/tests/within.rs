//! The calls with a byte limit: known answers, written by hand, their refusals in order, and the room that they need.
use recon::{answer_query_within, open_session_within, take_reply_within, Cut, Label, Refusal, Sent, Session, Table};

/// The ids 01 00, 01 01 .. 01 7F, then zeros, all of time 5.
fn ids() -> Vec<u8> {
    (0..128).flat_map(id).collect()
}

fn id(number: u8) -> [u8; 32] {
    let mut id = [0; 32];
    id[..2].copy_from_slice(&[1, number]);
    id
}

const TIMES: [u64; 128] = [5; 128];

/// All 128 ids in one list: 4,102 bytes.
fn whole() -> Vec<u8> {
    [&[0x61, 0, 0, 2, 0x81, 0][..], &ids()].concat()
}

/// The first 127 ids up to the bound of time 5 and prefix 01 7F, and the fingerprint of the last: 4,090 bytes. The fingerprint is
/// sha256sum's, of that id and the count 01.
fn short() -> Vec<u8> {
    let fingerprint = 0x1c734a0c_f18826cc_4f0ba647_995da3d5_u128.to_be_bytes();
    let bound = [0x61, 6, 2, 1, 0x7f, 2, 0x7f];
    [&bound[..], &ids()[..32 * 127], &[0, 0, 1], &fingerprint].concat()
}

/// The sum of the ids is 128 × 1 + 256 × (0 + 1 + .. + 127).
const OPEN: Session = Session {
    marked: 0,
    needed: 0,
    done: false,
    label: Label {
        sum: [2_080_896, 0, 0, 0],
        count: 128,
    },
};

/// What a call is handed. A fault makes it be refused.
#[derive(Clone, PartialEq, Debug)]
struct Given {
    times: Vec<u64>,
    ids: Vec<u8>,
    cut: Cut,
    bytes: usize,
    message: Vec<u8>,
    session: Session,
    marks: Vec<u8>,
    needed: Vec<u8>,
    out: Vec<u8>,
}

impl Given {
    /// The 128 items, a message whose answer and whose next query list all of them, and an out buffer of this size.
    fn new(bytes: usize, room: usize) -> Given {
        Given {
            times: TIMES.to_vec(),
            ids: ids(),
            cut: Cut { parts: 2, limit: 128 },
            bytes,
            message: [&[0x61, 0, 0, 1][..], &[0xaa; 16]].concat(),
            session: OPEN,
            marks: vec![0; 128],
            needed: Vec::new(),
            out: vec![0xcc; room],
        }
    }

    fn table(&self) -> Table<'_> {
        Table {
            times: &self.times,
            ids: &self.ids,
        }
    }
}

/// A call, on all that it is given.
type Call = fn(&mut Given) -> Result<usize, Refusal>;

const CALLS: [Call; 3] = [open, answer, take];

/// The length of the message; a call that is not done has changed no more than that.
fn length(sent: Sent) -> usize {
    assert_eq!(sent.session, OPEN);
    sent.length
}

fn open(given: &mut Given) -> Result<usize, Refusal> {
    let Given { times, ids, .. } = given;
    let table = Table { times, ids };
    let (marks, needed, out) = (&mut given.marks, &given.needed, &mut given.out);
    open_session_within(table, given.cut, given.bytes, marks, needed, out).map(length)
}

fn answer(given: &mut Given) -> Result<usize, Refusal> {
    let mut out = given.out.clone();
    let answer = answer_query_within(given.table(), given.cut, given.bytes, &given.message, &mut out);
    given.out = out;
    answer
}

fn take(given: &mut Given) -> Result<usize, Refusal> {
    let Given { times, ids, .. } = given;
    let (table, session) = (Table { times, ids }, given.session);
    let (marks, needed, out) = (&mut given.marks, &mut given.needed, &mut given.out);
    take_reply_within(
        table,
        given.cut,
        given.bytes,
        &given.message,
        session,
        marks,
        needed,
        out,
    )
    .map(length)
}

#[test]
fn messages_of_128_ids() {
    assert_eq!((whole().len(), short().len()), (4102, 4090));
    for call in CALLS {
        for (bytes, message) in [
            (usize::MAX, whole()),
            (4103, whole()),
            (4102, whole()),
            (4101, short()),
            (4096, short()),
        ] {
            // Room for just the message, and with more than that; what is behind it stays.
            for more in [0, 7] {
                let mut given = Given::new(bytes, message.len() + more);
                let before = given.clone();
                assert_eq!(call(&mut given), Ok(message.len()));
                let out = [&message[..], &vec![0xcc; more]].concat();
                assert_eq!(given, Given { out, ..before });
            }
            // A byte less, and none.
            for room in [message.len() - 1, 0] {
                let mut given = Given::new(bytes, room);
                let before = given.clone();
                assert_eq!(call(&mut given), Err(Refusal::NoRoom));
                assert_eq!(given, before);
            }
        }
    }
}

type Fault = fn(&mut Given);

/// In the order of the checks, with those that an opening and an answer leave to others.
const FAULTS: [(Refusal, bool, bool, Fault); 13] = [
    (Refusal::TableSize, true, true, |given| given.ids.truncate(1)),
    (Refusal::TableOrder, true, true, |given| given.times[127] = 4),
    (Refusal::CutLimits, true, true, |given| given.cut.parts = 1),
    (Refusal::ByteLimit, true, true, |given| given.bytes = 4095),
    (Refusal::WrongState, true, false, |given| given.marks.truncate(127)),
    (Refusal::OtherTable, false, false, |given| {
        given.session.label.count += 1
    }),
    (Refusal::SessionDone, false, false, |given| given.session.done = true),
    (Refusal::WrongVersion, false, true, |given| given.message.clear()),
    (Refusal::Truncated, false, true, |given| given.message.truncate(5)),
    (Refusal::BadVarint, false, true, |given| given.message[1] = 0x80),
    (Refusal::BadBound, false, true, |given| given.message[2] = 1),
    (Refusal::BadMode, false, true, |given| given.message[3] = 3),
    (Refusal::NoRoom, true, true, |given| given.out.clear()),
];

/// A limit that is too small with each other fault: 14 comes after 1 to 3 and before all others, and nothing has changed.
#[test]
fn a_limit_is_judged_right_after_the_cut() {
    let judged = FAULTS.iter().position(|fault| fault.0 == Refusal::ByteLimit).unwrap();
    for bytes in [0, 1, 4095] {
        for (place, (refusal, of_open, of_answer, fault)) in FAULTS.iter().enumerate() {
            for (call, is_judged) in CALLS.into_iter().zip([*of_open, *of_answer, true]) {
                let mut given = Given::new(4096, 5000);
                fault(&mut given);
                let alone = call(&mut given.clone()).err();
                assert_eq!(alone, Some(*refusal).filter(|_| is_judged));
                given.bytes = bytes;
                let before = given.clone();
                let expected = if place < judged { *refusal } else { Refusal::ByteLimit };
                assert_eq!(call(&mut given), Err(expected), "{bytes}, {refusal:?}");
                assert_eq!(given, before);
            }
        }
    }
}

/// Also with a limit the answer to another version is the byte 61.
#[test]
fn another_version() {
    for (bytes, message) in [(4096, Ok(1)), (4095, Err(Refusal::ByteLimit))] {
        let mut given = Given::new(bytes, 1);
        given.message = vec![0x62, 0x80];
        assert_eq!(answer(&mut given), message);
        assert_eq!(given.out, [if message.is_ok() { 0x61 } else { 0xcc }]);
    }
}

/// The reply lists none of the 128 ids: all are marked, and nothing is written, whatever the limit and the room.
#[test]
fn a_session_that_is_done() {
    let Given { times, ids, cut, .. } = Given::new(4096, 0);
    let table = Table {
        times: &times,
        ids: &ids,
    };
    let mut marks = [0; 128];
    let sent = take_reply_within(
        table,
        cut,
        4096,
        &[0x61, 0, 0, 2, 0],
        OPEN,
        &mut marks,
        &mut [],
        &mut [],
    );
    let session = Session {
        marked: 128,
        done: true,
        ..OPEN
    };
    assert_eq!(sent, Ok(Sent { length: 0, session }));
    assert_eq!(marks, [1; 128]);
}
