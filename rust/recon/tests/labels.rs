//! A session and its table: labels written by hand, takes with other tables, and the conversion of sessions that have no label.
use recon::{convert_session, fold_commit, open_session, take_reply};
use recon::{Cut, Label, Refusal, Session, Table, UnlabelledSession};

const CUT: Cut = Cut { parts: 2, limit: 2 };

/// The id that starts with this byte and is zero behind it.
fn id(first: u8) -> [u8; 32] {
    let mut id = [0; 32];
    id[0] = first;
    id
}

fn label(sum: [u64; 4], count: u64) -> Label {
    Label { sum, count }
}

/// What a take or a conversion is handed.
#[derive(Clone, PartialEq, Debug)]
struct Given {
    times: Vec<u64>,
    ids: Vec<u8>,
    session: Session,
    marks: Vec<u8>,
    needed: Vec<u8>,
}

impl Given {
    /// The table (5, 01), (6, 02), (7, 03), with the second item marked and 08 and 09 needed, in a buffer for three ids.
    fn good() -> Given {
        Given {
            times: vec![5, 6, 7],
            ids: [id(1), id(2), id(3)].concat(),
            session: Session {
                marked: 1,
                needed: 2,
                done: false,
                label: label([6, 0, 0, 0], 3),
            },
            marks: vec![0, 1, 0],
            needed: [id(8), id(9), id(0)].concat(),
        }
    }

    /// Takes the reply 61, which ends the session. A refused take changes nothing, and one of this reply no more than that.
    fn take(&mut self) -> Result<Session, Refusal> {
        let before = self.clone();
        let Given { times, ids, .. } = &before;
        let (marks, needed) = (&mut self.marks, &mut self.needed);
        let taken = take_reply(Table { times, ids }, CUT, &[0x61], self.session, marks, needed, &mut []);
        assert_eq!(*self, before);
        taken.map(|sent| sent.session)
    }

    fn convert(&self) -> Result<Session, Refusal> {
        let Given { times, ids, .. } = self;
        let Session {
            marked, needed, done, ..
        } = self.session;
        let kept = UnlabelledSession { marked, needed, done };
        convert_session(Table { times, ids }, kept, &self.marks, &self.needed)
    }
}

/// Ids, the sum in words and the count. Words carry into the next, and the last one drops its carry.
#[test]
fn labels_of_openings() {
    let high = |byte: usize, value: u8| {
        let mut id = [0; 32];
        id[byte] = value;
        id
    };
    let rows: [(Vec<[u8; 32]>, Label); 6] = [
        (vec![], Label::default()),
        (vec![id(1), id(2), id(3)], label([6, 0, 0, 0], 3)),
        (vec![id(1), [0xff; 32]], label([0; 4], 2)),
        (vec![high(31, 0x80), high(7, 0x80)], label([1 << 63, 0, 0, 1 << 63], 2)),
        (vec![high(7, 0x80), high(7, 0x81)], label([1 << 56, 1, 0, 0], 2)),
        (
            vec![high(15, 0xff), high(23, 1), high(31, 3)],
            label([0, 0xff << 56, 1 << 56, 3 << 56], 3),
        ),
    ];
    for (ids, label) in rows {
        let times: Vec<u64> = (0..ids.len() as u64).collect();
        let (ids, mut marks, mut out) = (ids.concat(), vec![9; ids.len()], [0; 1000]);
        let table = Table {
            times: &times,
            ids: &ids,
        };
        let sent = open_session(table, CUT, &mut marks, &[], &mut out).unwrap();
        assert_eq!(sent.session.label, label);
    }
}

type Change = fn(&mut Given);

/// Tables of another label, and sessions with a wrong one.
const OTHERS: [Change; 9] = [
    |given| given.ids[95] ^= 1,
    |given| given.ids[32] ^= 4,
    |given| {
        given.times.push(8);
        given.ids.extend(id(0));
        given.marks.push(0);
    },
    |given| {
        given.times.pop();
        given.ids.truncate(64);
        given.marks.pop();
    },
    |given| given.session.label.sum[0] += 1,
    |given| given.session.label.sum[1] += 1,
    |given| given.session.label.sum[2] += 1,
    |given| given.session.label.sum[3] += 1,
    |given| given.session.label.count += 1,
];

#[test]
fn another_table_is_refused() {
    for change in OTHERS {
        for done in [false, true] {
            let mut given = Given::good();
            given.session.done = done;
            change(&mut given);
            assert_eq!(given.take(), Err(Refusal::OtherTable));
            // 4 comes before it.
            given.marks[0] = 2;
            assert_eq!(given.take(), Err(Refusal::WrongState));
        }
    }
    let mut done = Given::good();
    done.session.done = true;
    assert_eq!(done.take(), Err(Refusal::SessionDone));
}

/// Another time, ids that have changed places, and other ids with the same sum: nothing is promised of these.
#[test]
fn the_same_label_is_not_refused() {
    let same: [Change; 4] = [
        |_| {},
        |given| given.times[2] = 9,
        |given| given.ids = [id(3), id(2), id(1)].concat(),
        |given| given.ids = [id(0), id(2), id(4)].concat(),
    ];
    for change in same {
        let mut given = Given::good();
        change(&mut given);
        let done = Session {
            done: true,
            ..given.session
        };
        assert_eq!(given.take(), Ok(done));
    }
}

#[test]
fn a_conversion_gives_the_label() {
    for done in [false, true] {
        let mut given = Given::good();
        given.session.done = done;
        assert_eq!(given.convert(), Ok(given.session));
    }
    let none = Given {
        times: vec![],
        ids: vec![],
        session: Session {
            marked: 0,
            needed: 0,
            done: false,
            label: Label::default(),
        },
        marks: vec![],
        needed: vec![],
    };
    assert_eq!(none.convert(), Ok(none.session));
}

/// In the order of the checks.
const FAULTS: [(Refusal, Change); 14] = [
    (Refusal::TableSize, |given| given.ids.truncate(95)),
    (Refusal::TableSize, |given| given.times.clear()),
    (Refusal::TableOrder, |given| given.times[2] = 5),
    (Refusal::TableOrder, |given| given.times[2] = u64::MAX),
    (Refusal::WrongState, |given| given.marks.truncate(2)),
    (Refusal::WrongState, |given| given.marks.push(0)),
    (Refusal::WrongState, |given| given.marks[2] = 2),
    (Refusal::WrongState, |given| given.needed.truncate(95)),
    (Refusal::WrongState, |given| given.needed.truncate(32)),
    (Refusal::WrongState, |given| given.session.marked = 2),
    (Refusal::WrongState, |given| given.session.marked = 0),
    (Refusal::WrongState, |given| given.session.needed = 1 << 59),
    (Refusal::WrongState, |given| given.session.needed = 3),
    (Refusal::WrongState, |given| given.needed[32] = 8),
];

#[test]
fn refused_conversions() {
    for (place, (refusal, fault)) in FAULTS.iter().enumerate() {
        for (later, second) in &FAULTS[place..] {
            for done in [false, true] {
                let mut given = Given::good();
                given.session.done = done;
                if later != refusal {
                    second(&mut given);
                }
                fault(&mut given);
                assert_eq!(given.convert(), Err(*refusal), "{refusal:?} and {later:?}");
            }
        }
    }
}

/// A commit keeps the label of the opening. After it a take with the table as it is now is refused, and a conversion is handed the
/// table of the opening.
#[test]
fn after_a_commit() {
    let mut given = Given::good();
    given.session.done = true;
    let (mut times, mut ids) = (vec![5, 6, 7, 0], [&given.ids[..], &id(0)].concat());
    let batch = Table {
        times: &[4],
        ids: &id(8),
    };
    let left = fold_commit(&mut times, &mut ids, 3, given.session, &mut given.needed, batch).unwrap();
    let opened = given.session;
    given.session = left.session;
    assert_eq!(given.session, Session { needed: 1, ..opened });
    assert_eq!(given.convert(), Ok(given.session));
    (given.times, given.ids) = (times, ids);
    assert_eq!(given.take(), Err(Refusal::WrongState));
    assert_eq!(given.convert(), Err(Refusal::WrongState));
    given.marks.insert(0, 0);
    assert_eq!(given.take(), Err(Refusal::OtherTable));
    assert_eq!(
        given.convert().map(|session| session.label),
        Ok(label([14, 0, 0, 0], 4))
    );
}
