//! Sessions between an opener and a responder that own their buffers.
#![cfg(feature = "alloc")]
use recon::{sha256, Cut, Opener, Refusal, Responder, Session, Table, MAX_ITEMS, MIN_BYTE_LIMIT};
use std::collections::BTreeSet;

type Id = [u8; 32];
type Record = (u64, Id);

/// A record's number settles its time and its id; three records in a row have the same time.
fn record(number: u64) -> Record {
    (number / 3, sha256(&number.to_be_bytes()))
}

/// The records of one end, in table order.
struct Records {
    times: Vec<u64>,
    ids: Vec<u8>,
}

impl Records {
    fn new(numbers: impl IntoIterator<Item = u64>) -> Records {
        let sorted: BTreeSet<Record> = numbers.into_iter().map(record).collect();
        Records {
            times: sorted.iter().map(|(time, _)| *time).collect(),
            ids: sorted.iter().flat_map(|(_, id)| *id).collect(),
        }
    }

    fn table(&self) -> Table<'_> {
        let Records { times, ids } = self;
        Table { times, ids }
    }

    fn set(&self) -> BTreeSet<Record> {
        let ids = self.ids.chunks_exact(32).map(|id| id.try_into().unwrap());
        self.times.iter().copied().zip(ids).collect()
    }
}

const CUTS: [Cut; 4] = [
    Cut { parts: 2, limit: 2 },
    Cut { parts: 16, limit: 64 },
    Cut { parts: 64, limit: 64 },
    Cut { parts: 3, limit: 4096 },
];

/// All that an opener says: its query, its counts and its reports.
type Said = (Option<Vec<u8>>, Session, Vec<Record>, Vec<Id>);

fn said(opener: &Opener<'_>) -> Said {
    let ours_only: Vec<Record> = opener.ours_only().map(|(time, id)| (time, *id)).collect();
    let theirs_only: Vec<Id> = opener.theirs_only().copied().collect();
    let session = opener.session();
    assert_eq!((session.marked, session.needed), (ours_only.len(), theirs_only.len()));
    assert_eq!(
        (opener.is_done(), opener.query().is_none()),
        (session.done, session.done)
    );
    assert!(theirs_only.windows(2).all(|pair| pair[0] < pair[1]));
    (opener.query().map(<[u8]>::to_vec), session, ours_only, theirs_only)
}

/// The records that only ours have, and the ids that only theirs have.
fn difference(ours: &Records, theirs: &Records) -> (Vec<Record>, Vec<Id>) {
    let (our_set, their_set) = (ours.set(), theirs.set());
    let ours_only = our_set.difference(&their_set).copied().collect();
    let needed: BTreeSet<Id> = their_set.difference(&our_set).map(|(_, id)| *id).collect();
    (ours_only, needed.into_iter().collect())
}

/// The queries and the replies of a session.
#[derive(Debug, Default, PartialEq, Eq)]
struct Messages {
    queries: Vec<Vec<u8>>,
    replies: Vec<Vec<u8>>,
}

impl Messages {
    fn longest_query(&self) -> usize {
        self.queries.iter().map(Vec::len).max().unwrap()
    }

    fn longest_reply(&self) -> usize {
        self.replies.iter().map(Vec::len).max().unwrap()
    }
}

/// Runs a session and compares what it reports with the difference of the two sets: true at every time, and complete at the end.
fn check(ours: &Records, theirs: &Records, cuts: [Cut; 2]) -> Messages {
    check_within(ours, theirs, cuts, |_| [None; 2])
}

/// The same with the byte limits that the two ends have in each round. No message is longer.
fn check_within(
    ours: &Records,
    theirs: &Records,
    [cut, their_cut]: [Cut; 2],
    limits: impl Fn(usize) -> [Option<usize>; 2],
) -> Messages {
    let (ours_only, theirs_only) = difference(ours, theirs);
    let mut limit = limits(0)[0];
    let mut opener = match limit {
        None => Opener::open(ours.table(), cut).unwrap(),
        Some(bytes) => Opener::open_within(ours.table(), cut, bytes).unwrap(),
    };
    let mut responder = Responder::new(theirs.table(), their_cut);
    let mut messages = Messages::default();
    while let Some(query) = opener.query() {
        assert!(limit.map_or(true, |bytes| query.len() <= bytes));
        messages.queries.push(query.to_vec());
        let [next_limit, their_limit] = limits(messages.queries.len());
        responder.set_byte_limit(their_limit);
        let reply = responder.answer(query).unwrap();
        assert!(their_limit.map_or(true, |bytes| reply.len() <= bytes));
        messages.replies.push(reply.to_vec());
        limit = next_limit;
        opener.set_byte_limit(limit);
        opener.take(reply).unwrap();
        let (_, _, marked, needed) = said(&opener);
        assert!(marked.iter().all(|record| ours_only.binary_search(record).is_ok()));
        assert!(needed.iter().all(|id| theirs_only.binary_search(id).is_ok()));
    }
    let (query, session, marked, needed) = said(&opener);
    assert_eq!((query, session.done), (None, true));
    assert!(marked == ours_only && needed == theirs_only);
    messages
}

#[test]
fn empty_ends_exchange_one_short_round() {
    let none = Records::new([]);
    for cut in CUTS {
        let message = vec![vec![0x61, 0, 0, 2, 0]];
        let (queries, replies) = (message.clone(), message);
        assert_eq!(check(&none, &none, [cut; 2]), Messages { queries, replies });
    }
}

#[test]
fn whatever_differs_is_reported() {
    for cut in CUTS {
        for size in [1, 2, 3, 17, 65, 1000, 3000] {
            let few = Records::new((0..size).filter(|number| number % 71 != 5));
            for theirs in [
                Records::new(0..size),
                Records::new((0..size).filter(|number| number % 71 != 5)),
                Records::new((0..size).filter(|number| number % 97 != 11)),
                Records::new(size..2 * size),
                Records::new([]),
            ] {
                check(&few, &theirs, [cut; 2]);
                check(&theirs, &few, [cut, CUTS[1]]);
            }
        }
    }
}

/// Limits at either end or at both, and limits that change and are dropped from round to round.
#[test]
fn whatever_differs_is_reported_within_byte_limits() {
    let ours = Records::new((0..3000).filter(|number| number % 7 != 5));
    let theirs = Records::new((0..3000).filter(|number| number % 5 != 1));
    for cut in CUTS {
        let rounds = |limits: fn(usize) -> [Option<usize>; 2]| {
            let messages = check_within(&ours, &theirs, [cut; 2], limits);
            (
                messages.queries.len(),
                messages.longest_query(),
                messages.longest_reply(),
            )
        };
        let (without, query, reply) = rounds(|_| [None; 2]);
        assert!(reply > MIN_BYTE_LIMIT);
        assert!(rounds(|_| [Some(4096), None]).0 >= without);
        assert!(rounds(|_| [None, Some(4096)]).0 > without);
        assert!(rounds(|_| [Some(4096); 2]).0 > without);
        rounds(|round| [None, Some(4096 + 100 * round)]);
        rounds(|round| [Some(4096), None].map(|limit| limit.filter(|_| round % 2 == 0)));
        assert_eq!(rounds(|_| [Some(usize::MAX); 2]), (without, query, reply));
    }
}

/// A limit that is too small is refused where it is used, and changes nothing; another one can be set then.
#[test]
fn a_byte_limit_is_judged_by_the_calls() {
    let (ours, theirs) = (Records::new(0..1000), Records::new(500..1500));
    for bytes in [0, 1, MIN_BYTE_LIMIT - 1] {
        let opened = Opener::open_within(ours.table(), CUTS[1], bytes);
        assert_eq!(opened.err(), Some(Refusal::ByteLimit));
        let mut opener = Opener::open_within(ours.table(), CUTS[1], MIN_BYTE_LIMIT).unwrap();
        let mut responder = Responder::new(theirs.table(), CUTS[1]);
        responder.set_byte_limit(Some(bytes));
        assert_eq!(responder.answer(opener.query().unwrap()), Err(Refusal::ByteLimit));
        responder.set_byte_limit(None);
        let reply = responder.answer(opener.query().unwrap()).unwrap();
        let before = said(&opener);
        opener.set_byte_limit(Some(bytes));
        assert_eq!(opener.take(reply), Err(Refusal::ByteLimit));
        assert!(said(&opener) == before);
        opener.set_byte_limit(None);
        assert_eq!(opener.take(reply), Ok(()));
    }
}

/// No buffer of a table of up to 800 items is larger at first.
const FIRST_ROOM: usize = 4096;

#[test]
fn buffers_grow_as_far_as_needed() {
    let (none, some) = (Records::new([]), Records::new(0..800));
    // The first query, and then the first reply, lists all.
    let lists = CUTS[3];
    assert!(check(&some, &none, [lists; 2]).longest_query() > 6 * FIRST_ROOM);
    assert!(check(&none, &some, [lists; 2]).longest_reply() > 6 * FIRST_ROOM);
    // Here it is the second query, and so many are needed, too.
    let even = Records::new((0..1600).step_by(2));
    let odd = Records::new((1..1600).step_by(2));
    let queries = check(&even, &odd, [CUTS[1], CUTS[0]]).queries;
    assert!(queries[0].len() < FIRST_ROOM && queries[1].len() > 6 * FIRST_ROOM);
    // Several replies list ids that are needed, and each list joins those before it.
    let replies = check(&Records::new(0..100), &Records::new(0..3000), [CUTS[0]; 2]).replies;
    assert!(replies.iter().filter(|reply| reply.len() > FIRST_ROOM).count() > 2);
}

/// Replies that are refused whatever was asked, with the refusal.
#[rustfmt::skip]
fn refused_replies() -> Vec<(Vec<u8>, Refusal)> {
    let long = [&[0x61][..], &[0x80; 100_000]].concat();
    let rows: [(&[u8], Refusal); 11] = [
        (&[], Refusal::WrongVersion),
        (&[0x5f], Refusal::WrongVersion),
        (&[0x61, 0], Refusal::Truncated),
        (&[0x61, 0, 0, 2, 1], Refusal::Truncated),
        (&[0x61, 0x80, 0], Refusal::BadVarint),
        (&long, Refusal::BadVarint),
        (&[0x61, 0, 1], Refusal::BadBound),
        (&[0x61, 2, 33], Refusal::BadBound),
        (&[0x61, 6, 0, 0, 1, 0, 0], Refusal::BadBound),
        (&[0x61, 0, 0, 3], Refusal::BadMode),
        (&[0x61, 0, 0, 2, 0xff, 0xff, 0xff, 0x7f], Refusal::Truncated),
    ];
    rows.iter().map(|(reply, refusal)| (reply.to_vec(), *refusal)).collect()
}

#[test]
fn a_refused_take_leaves_all_as_it_was() {
    let ours = Records::new((0..1000).filter(|number| number % 10 != 3));
    let theirs = Records::new((0..1000).filter(|number| number % 7 != 1));
    let mut opener = Opener::open(ours.table(), CUTS[0]).unwrap();
    let mut responder = Responder::new(theirs.table(), CUTS[0]);
    while let Some(query) = opener.query() {
        let reply = responder.answer(query).unwrap();
        let before = said(&opener);
        for (refused, refusal) in refused_replies() {
            assert_eq!(opener.take(&refused), Err(refusal), "{refused:02x?}");
            assert!(said(&opener) == before, "{refused:02x?}");
        }
        opener.take(reply).unwrap();
    }
    let (_, session, ours_only, theirs_only) = said(&opener);
    assert!((ours_only, theirs_only) == difference(&ours, &theirs) && session.done);
}

#[test]
fn nothing_is_taken_once_the_session_is_done() {
    let (ours, theirs) = (Records::new(0..10), Records::new(5..15));
    let mut opener = Opener::open(ours.table(), CUTS[1]).unwrap();
    let mut responder = Responder::new(theirs.table(), CUTS[1]);
    let reply = responder.answer(opener.query().unwrap()).unwrap();
    opener.take(reply).unwrap();
    let before = said(&opener);
    assert!(opener.is_done());
    for reply in [reply, &[0x61], &[]] {
        assert_eq!(opener.take(reply), Err(Refusal::SessionDone));
        assert!(said(&opener) == before);
    }
}

#[test]
fn replies_may_come_late_and_repeated() {
    let ours = Records::new((0..2000).filter(|number| number % 10 != 3));
    let theirs = Records::new((0..2000).filter(|number| number % 7 != 1));
    let messages = check(&ours, &theirs, [CUTS[0]; 2]);
    let mut opener = Opener::open(ours.table(), CUTS[0]).unwrap();
    let mut responder = Responder::new(theirs.table(), CUTS[0]);
    for reply in messages
        .replies
        .iter()
        .take(4)
        .flat_map(|reply| [reply, reply, &messages.replies[0]])
    {
        opener.take(reply).unwrap();
        said(&opener);
    }
    while let Some(query) = opener.query() {
        opener.take(responder.answer(query).unwrap()).unwrap();
    }
    let (_, _, ours_only, theirs_only) = said(&opener);
    assert!((ours_only, theirs_only) == difference(&ours, &theirs));
}

/// A generator of numbers (xorshift).
struct Numbers(u64);

impl Numbers {
    fn below(&mut self, limit: usize) -> usize {
        self.0 ^= self.0 << 13;
        self.0 ^= self.0 >> 7;
        self.0 ^= self.0 << 17;
        (self.0 % limit as u64) as usize
    }
}

#[test]
fn damaged_replies_are_taken_or_change_nothing() {
    let ours = Records::new((0..300).filter(|number| number % 10 != 3));
    let theirs = Records::new((0..300).filter(|number| number % 7 != 1));
    let replies = check(&ours, &theirs, [CUTS[0]; 2]).replies;
    let mut numbers = Numbers(0x2545_f491_4f6c_dd1d);
    let (mut taken, mut refused) = (0, 0);
    for turn in 0..300 {
        let mut opener = Opener::open(ours.table(), CUTS[turn % 4]).unwrap();
        for reply in &replies {
            let mut damaged = reply.clone();
            for _ in 0..=numbers.below(3) {
                let place = numbers.below(damaged.len());
                damaged[place] ^= 1 << numbers.below(8);
            }
            damaged.truncate(damaged.len() - numbers.below(2));
            let before = said(&opener);
            match opener.take(&damaged) {
                Ok(()) => taken += 1,
                Err(_) => {
                    refused += 1;
                    assert!(said(&opener) == before);
                }
            }
            said(&opener);
        }
    }
    assert!(taken > 100 && refused > 100, "{taken} taken, {refused} refused");
}

#[test]
fn an_opening_is_refused_for_its_table_and_cut() {
    let refusal = |times: &[u64], ids: &[u8], cut| Opener::open(Table { times, ids }, cut).err();
    assert_eq!(refusal(&[1], &[0; 31], CUTS[1]), Some(Refusal::TableSize));
    assert_eq!(refusal(&vec![0; MAX_ITEMS + 1], &[], CUTS[1]), Some(Refusal::TableSize));
    assert_eq!(refusal(&[2, 1], &[0; 64], CUTS[1]), Some(Refusal::TableOrder));
    let wrong = Cut {
        parts: usize::MAX,
        limit: usize::MAX,
    };
    assert_eq!(refusal(&[1], &[0; 32], wrong), Some(Refusal::CutLimits));
    assert_eq!(refusal(&[1], &[0; 32], CUTS[1]), None);
}

/// The answer to 62 is the byte 61 and starts no session: an opener refuses 62, and its session goes on as before.
#[test]
fn another_version_is_answered_with_61() {
    let (ours, theirs) = (Records::new(0..100), Records::new(1..101));
    let mut opener = Opener::open(ours.table(), CUTS[1]).unwrap();
    let mut responder = Responder::new(theirs.table(), CUTS[1]);
    while let Some(query) = opener.query() {
        for other in [&[0x60][..], &[0x62], &[0x62, 0x80], &[0x6f, 0, 0, 3]] {
            assert_eq!(responder.answer(other), Ok(&[0x61][..]));
            assert_eq!(opener.clone().take(other), Err(Refusal::WrongVersion));
        }
        let reply = responder.answer(query).unwrap();
        opener.take(reply).unwrap();
    }
    assert_eq!(opener.session().marked, 1);
    assert_eq!(opener.session().needed, 1);
}

#[test]
fn a_refused_query_is_no_hindrance() {
    let records = Records::new(0..100);
    let opener = Opener::open(records.table(), CUTS[1]).unwrap();
    let mut responder = Responder::new(records.table(), CUTS[1]);
    for (query, refusal) in refused_replies() {
        assert_eq!(responder.answer(&query), Err(refusal));
        assert_eq!(responder.answer(opener.query().unwrap()), Ok(&[0x61][..]));
    }
    let mut wrong = Responder::new(records.table(), Cut { parts: 1, limit: 1 });
    assert_eq!(wrong.answer(opener.query().unwrap()), Err(Refusal::CutLimits));
    let short = Table {
        times: &records.times,
        ids: &[],
    };
    let mut wrong = Responder::new(short, CUTS[1]);
    assert_eq!(wrong.answer(opener.query().unwrap()), Err(Refusal::TableSize));
}

#[test]
fn debug_output_is_short() {
    let records = Records::new(0..5000);
    let opener = Opener::open(records.table(), CUTS[1]).unwrap();
    let text = format!("{opener:?}");
    let start = "Opener { items: 5000, cut: Cut { parts: 16, limit: 64 }, byte_limit: None, session: Session {";
    assert!(text.starts_with(start));
    assert!(text.len() < 300);
    let mut responder = Responder::new(records.table(), CUTS[1]);
    responder.set_byte_limit(Some(4096));
    assert_eq!(
        format!("{responder:?}"),
        "Responder { items: 5000, cut: Cut { parts: 16, limit: 64 }, byte_limit: Some(4096), .. }"
    );
}
