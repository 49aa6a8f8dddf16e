//! A session and its table: what the label of the opening sees, and the conversion of sessions that have none.

use crate::sessions::Opener;
use crate::support::{id, joined, Lent, Random, Seed};
use reference::{fold_commit, Label, Session, UnlabelledSession};

type Item = (u64, [u8; 32]);

const THREE: [Item; 3] = [(5, id(1)), (6, id(2)), (7, id(3))];

/// A take of the reply 61 and its number, 0 for none. It would end the session, as far as it is not refused.
fn taken(items: &[Item], session: Session, marks: &[u8]) -> u8 {
    let Lent { times, ids } = Lent::new(items);
    let mut after = marks.to_vec();
    let told = reference::take(&times, &ids, 2, 2, &[0x61], session, &mut after, &mut [], &mut []);
    assert_eq!(after, marks);
    match told {
        Ok(sent) => {
            assert_eq!((sent.length, sent.session), (0, Session { done: true, ..session }));
            0
        }
        Err(number) => number,
    }
}

fn opened(items: &[Item]) -> Session {
    Opener::open(Lent::new(items), 2, 2).0.session
}

/// The sum is that of the ids, the count is beside it, and no items have the empty label.
#[test]
fn openings() {
    assert_eq!(opened(&[]).label, Label::EMPTY);
    let three = Label {
        sum: [6, 0, 0, 0],
        count: 3,
    };
    assert_eq!(opened(&THREE).label, three);
    // E10: the sum is zero.
    let wrapped = Label { sum: [0; 4], count: 2 };
    assert_eq!(opened(&[(5, id(1)), (6, [0xff; 32])]).label, wrapped);
}

/// With the marks as they were, where the number of items has changed, it is 4; with as many marks as items, 18.
#[test]
fn items_added_and_removed() {
    let session = opened(&THREE);
    let more = [THREE[0], THREE[1], THREE[2], (8, id(4))];
    assert_eq!(taken(&more, session, &[0; 3]), 4);
    assert_eq!(taken(&more, session, &[0; 4]), 18);
    assert_eq!(taken(&THREE[..2], session, &[0; 3]), 4);
    assert_eq!(taken(&THREE[..2], session, &[0; 2]), 18);
    // An id of zeros leaves the sum as it was.
    let same_sum = [(4, id(0)), THREE[0], THREE[1], THREE[2]];
    assert_eq!(taken(&same_sum, session, &[0; 4]), 18);
    assert_eq!(taken(&THREE, opened(&same_sum), &[0; 3]), 18);
    assert_eq!(taken(&[], opened(&[(4, id(0))]), &[]), 18);
    assert_eq!(taken(&THREE, session, &[0; 3]), 0);
}

/// Every byte of an id counts.
#[test]
fn ids_exchanged_for_others() {
    let session = opened(&THREE);
    for byte in 0..32 {
        let mut other = THREE;
        other[1].1[byte] ^= 1;
        assert_eq!(taken(&other, session, &[0; 3]), 18);
    }
}

/// Other times, ids that have changed places, and other ids with the same sum.
#[test]
fn tables_changed_to_the_same_label() {
    let session = opened(&THREE);
    for same in [
        [(5, id(1)), (6, id(2)), (8, id(3))],
        [(5, id(3)), (6, id(2)), (7, id(1))],
        [(5, id(0)), (6, id(2)), (7, id(4))],
    ] {
        assert_eq!(taken(&same, session, &[0; 3]), 0);
    }
}

/// A label by which one word or the count is another.
#[test]
fn wrong_labels() {
    let session = opened(&THREE);
    let wrong: [fn(&mut Label); 6] = [
        |label| label.sum[0] -= 1,
        |label| label.sum[1] = 1,
        |label| label.sum[2] = u64::MAX,
        |label| label.sum[3] = 1 << 63,
        |label| label.count -= 1,
        |label| *label = Label::EMPTY,
    ];
    for change in wrong {
        for done in [false, true] {
            let mut other = Session { done, ..session };
            change(&mut other.label);
            assert_eq!(taken(&THREE, other, &[0; 3]), 18);
        }
    }
    let done = Session { done: true, ..session };
    assert_eq!(taken(&THREE, done, &[0; 3]), 5);
}

/// What a conversion is handed.
#[derive(Clone)]
struct Kept {
    table: Lent,
    session: UnlabelledSession,
    marks: Vec<u8>,
    needed: Vec<u8>,
}

impl Kept {
    fn good(done: bool) -> Kept {
        Kept {
            table: Lent::new(&THREE),
            session: UnlabelledSession {
                marked: 1,
                needed: 2,
                done,
            },
            marks: vec![0, 1, 0],
            needed: [id(7), id(9), id(8)].concat(),
        }
    }

    fn convert(&self) -> Result<Session, u8> {
        let Lent { times, ids } = &self.table;
        reference::convert(times, ids, self.session, &self.marks, &self.needed)
    }
}

#[test]
fn conversions() {
    for done in [false, true] {
        let expected = Lent::new(&THREE).session(1, 2, done);
        assert_eq!(Kept::good(done).convert(), Ok(expected));
    }
}

type Fault = fn(&mut Kept);

const FAULTS: &[(u8, Fault)] = &[
    (1, |kept| kept.table.ids.truncate(95)),
    (1, |kept| kept.table.ids.push(0)),
    (1, |kept| kept.table.times.clear()),
    (2, |kept| kept.table.times[0] = 7),
    (2, |kept| kept.table.times[2] = u64::MAX),
    (2, |kept| {
        kept.table.times.fill(5);
        kept.table.ids[32] = 1;
    }),
    (4, |kept| kept.marks.push(0)),
    (4, |kept| kept.marks.truncate(2)),
    (4, |kept| kept.needed.push(0)),
    (4, |kept| kept.marks[2] = 2),
    (4, |kept| kept.session.marked = 0),
    (4, |kept| kept.session.marked = 2),
    (4, |kept| kept.session.needed = 4),
    (4, |kept| kept.session.needed = 1 << 59),
    (4, |kept| kept.session.needed = 3),
    (4, |kept| kept.needed[32] = 7),
];

/// Of two faults the one that is checked first counts, of sessions that are done too.
#[test]
fn refused_conversions() {
    for done in [false, true] {
        for (i, (first, put_first)) in FAULTS.iter().enumerate() {
            for (second, put_second) in &FAULTS[i..] {
                let mut kept = Kept::good(done);
                if first != second {
                    put_second(&mut kept);
                }
                put_first(&mut kept);
                assert_eq!(kept.convert().err(), Some(*first), "{first} and {second}");
            }
        }
    }
}

/// So many items of random times and ids.
fn items(random: &mut Random, count: usize) -> Vec<Item> {
    let mut items: Vec<Item> = (0..count)
        .map(|_| {
            let mut id = [0; 32];
            random.fill(&mut id);
            (random.next() >> 40, id)
        })
        .collect();
    items.sort_unstable();
    items
}

/// The conversion of a session without its label, with any whole ids behind the list, gives it back.
fn gives_back(random: &mut Random, opener: &Opener, session: Session, list: &[u8]) {
    let Lent { times, ids } = &opener.table;
    let behind = 32 * random.below(3);
    let needed = joined(&[list, &random.bytes(behind)]);
    let told = reference::convert(times, ids, session.unlabelled(), &opener.marks, &needed);
    assert_eq!(told, Ok(session));
    assert_eq!(session.label, opener.table.label());
}

/// The table of these items.
fn table(parts: [&[Item]; 2]) -> Lent {
    let mut items = parts.concat();
    items.sort_unstable();
    Lent::new(&items)
}

/// At every place of a session, and after commits of all that it found.
#[test]
fn conversions_in_sessions() {
    for seed in 0..200 {
        let (_seed, mut random) = (Seed(seed), Random(seed));
        let counts = [random.below(40), random.below(40), 5];
        let [own, shared, new] = counts.map(|count| items(&mut random, count));
        let theirs = table([&shared, &new]);
        let (mut opener, mut query) = Opener::open(table([&own, &shared]), 2, 2);
        while !opener.session.done {
            gives_back(&mut random, &opener, opener.session, &opener.needed.concat());
            let reply = theirs.answer(2, 2, &query).unwrap();
            query = opener.take(&reply, opener.needed.len() + 50, 10_000).unwrap();
        }
        gives_back(&mut random, &opener, opener.session, &opener.needed.concat());
        after_commits(&mut random, &opener, &new);
    }
}

/// The items come one by one; the session keeps the label of the opening, which the table has no more.
fn after_commits(random: &mut Random, opener: &Opener, new: &[Item]) {
    let Lent { mut times, mut ids } = opener.table.clone();
    let (mut session, mut needed, mut marks) = (opener.session, opener.needed.concat(), opener.marks.clone());
    for (time, id) in new {
        let count = times.len();
        times.push(0);
        ids.extend([0; 32]);
        let left = fold_commit(&mut times, &mut ids, count, session, &mut needed, &[*time], id).unwrap();
        session = left.session;
        gives_back(random, opener, session, &needed);
        let convert = |marks: &[u8]| reference::convert(&times, &ids, session.unlabelled(), marks, &needed);
        assert_eq!(convert(&marks), Err(4));
        marks.push(0);
        assert_ne!(convert(&marks).unwrap().label, session.label);
        let (marks, needed) = (&mut marks.clone(), &mut needed.clone());
        let told = reference::take(&times, &ids, 2, 2, &[0x61], session, marks, needed, &mut []);
        assert_eq!(told, Err(18));
    }
    assert_eq!(session.needed, 0);
}
