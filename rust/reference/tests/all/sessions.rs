//! Whole sessions of two ends: demand 3.

use crate::support::{given, id, Lent, Random, Seed};
use reference::{read, Bound, Odd, Payload, Session};
use std::cmp::Ordering;
use std::collections::BTreeSet;

type Id = [u8; 32];
type Item = (u64, Id);

/// An opener with what it hands on from call to call. The buffers are new at each call.
#[derive(Clone)]
pub struct Opener {
    pub table: Lent,
    pub b: usize,
    pub t: usize,
    /// The byte limit of the next take.
    pub bytes: Option<usize>,
    /// What the next take cuts by.
    pub odd: Odd,
    pub session: Session,
    pub marks: Vec<u8>,
    pub needed: Vec<Id>,
}

impl Opener {
    /// An opening that isn't refused, and its query.
    pub fn open(table: Lent, b: usize, t: usize) -> (Opener, Vec<u8>) {
        Opener::open_within(table, b, t, None)
    }

    /// The same with a byte limit, or none.
    pub fn open_within(table: Lent, b: usize, t: usize, bytes: Option<usize>) -> (Opener, Vec<u8>) {
        Opener::open_by(Odd::ToLast, table, b, t, bytes)
    }

    /// The same by either rule.
    pub fn open_by(odd: Odd, table: Lent, b: usize, t: usize, bytes: Option<usize>) -> (Opener, Vec<u8>) {
        let mut marks = vec![0xbb; table.times.len()];
        let mut out = vec![0xcc; 100_000];
        let Lent { times, ids } = &table;
        let sent = reference::open_by(odd, times, ids, b, t, bytes, &mut marks, &[0xdd; 64], &mut out).unwrap();
        assert_eq!(sent.session, table.session(0, 0, false));
        assert!(marks.iter().all(|&mark| mark == 0));
        assert!(out[sent.length..].iter().all(|&byte| byte == 0xcc));
        out.truncate(sent.length);
        (
            Opener {
                table,
                b,
                t,
                bytes,
                odd,
                session: sent.session,
                marks,
                needed: vec![],
            },
            out,
        )
    }

    /// A take with room for so many ids and out bytes. Gives the query, empty if done.
    pub fn take(&mut self, reply: &[u8], ids_room: usize, out_room: usize) -> Result<Vec<u8>, u8> {
        let mut marks = self.marks.clone();
        let mut needed = vec![0xdd; 32 * ids_room];
        needed[..32 * self.needed.len()].copy_from_slice(&self.needed.concat());
        let before = needed.clone();
        let mut out = vec![0xcc; out_room];
        let Lent { times, ids } = &self.table;
        let Opener {
            b,
            t,
            bytes,
            odd,
            session,
            ..
        } = *self;
        match reference::take_by(
            odd,
            times,
            ids,
            b,
            t,
            bytes,
            reply,
            session,
            &mut marks,
            &mut needed,
            &mut out,
        ) {
            Err(number) => {
                assert!(
                    marks == self.marks && needed == before,
                    "a refused take changed the report"
                );
                assert_eq!(out, vec![0xcc; out_room]);
                Err(number)
            }
            Ok(sent) => {
                self.adopt(sent.session, marks, &needed, &before);
                assert_eq!(sent.session.done, sent.length == 0);
                assert!(out[sent.length..].iter().all(|&byte| byte == 0xcc));
                out.truncate(sent.length);
                Ok(out)
            }
        }
    }

    /// Takes over what an unrefused take left, after a look at the counts and the bytes behind the list.
    fn adopt(&mut self, session: Session, marks: Vec<u8>, needed: &[u8], before: &[u8]) {
        assert_eq!(session.marked, marks.iter().filter(|&&mark| mark == 1).count());
        assert!(marks.iter().all(|&mark| mark <= 1));
        let end = 32 * session.needed;
        assert_eq!(needed[end..], before[end..]);
        let list: Vec<Id> = needed[..end].chunks(32).map(|id| id.try_into().unwrap()).collect();
        assert!(list.windows(2).all(|pair| pair[0] < pair[1]));
        assert!(self.needed.iter().all(|id| list.contains(id)));
        assert!(self.marks.iter().zip(&marks).all(|(old, new)| old <= new));
        *self = Opener {
            session,
            marks,
            needed: list,
            ..self.clone()
        };
    }
}

/// The items of both ends.
struct Ends {
    ours: Vec<Item>,
    theirs: Vec<Item>,
    their_b: usize,
    their_t: usize,
}

fn ids(items: &[Item]) -> BTreeSet<Id> {
    items.iter().map(|item| item.1).collect()
}

impl Ends {
    fn answer(&self, odd: Odd, bytes: Option<usize>, query: &[u8]) -> Vec<u8> {
        Lent::new(&self.theirs)
            .answer_by(odd, self.their_b, self.their_t, bytes, query)
            .unwrap()
    }

    /// "After every take, each id reported as theirs only or ours only is so."
    fn check_truth(&self, opener: &Opener) {
        let (ours, theirs) = (ids(&self.ours), ids(&self.theirs));
        assert!(opener.needed.iter().all(|id| theirs.contains(id) && !ours.contains(id)));
        let mut marked = self.ours.iter().zip(&opener.marks).filter(|(_, &mark)| mark == 1);
        assert!(marked.all(|(item, _)| !theirs.contains(&item.1)));
    }

    /// "Whenever the session says done, every id that only one end has is reported", save the excused.
    fn check_complete(&self, opener: &Opener, excused: &BTreeSet<Id>) {
        let (ours, theirs) = (ids(&self.ours), ids(&self.theirs));
        for id in theirs.difference(&ours).filter(|id| !excused.contains(*id)) {
            assert!(opener.needed.contains(id), "not needed: {id:?}");
        }
        for ((_, id), &mark) in self.ours.iter().zip(&opener.marks) {
            assert!(
                theirs.contains(id) || excused.contains(id) || mark == 1,
                "not marked: {id:?}"
            );
        }
    }

    /// The ids in the ranges of a message that have a fingerprint, different items and equal fingerprints.
    fn colliding(&self, message: &[u8]) -> BTreeSet<Id> {
        let mut colliding = BTreeSet::new();
        let mut lower = Bound::At {
            time: 0,
            prefix: vec![],
        };
        for range in read(message).unwrap() {
            let ours = between(&self.ours, &lower, &range.upper);
            let theirs = between(&self.theirs, &lower, &range.upper);
            if matches!(range.payload, Payload::Fingerprint(_)) && ours != theirs {
                let (from, to) = (given(&lower), given(&range.upper));
                let own = Lent::new(&self.ours).fingerprint(&from, &to);
                if own == Lent::new(&self.theirs).fingerprint(&from, &to) {
                    colliding.extend(ours.iter().chain(&theirs).map(|item| item.1));
                }
            }
            lower = range.upper;
        }
        colliding
    }
}

/// The items at or above the lower bound and below the upper.
fn between(items: &[Item], lower: &Bound, upper: &Bound) -> Vec<Item> {
    let bound = |item: &Item| Bound::At {
        time: item.0,
        prefix: item.1.to_vec(),
    };
    let inside =
        |item: &&Item| bound(item).compare(lower) != Ordering::Less && bound(item).compare(upper) == Ordering::Less;
    items.iter().filter(inside).copied().collect()
}

/// "L is the smallest whole number with t × b^L at least n".
fn rounds(n: usize, b: usize, t: usize) -> usize {
    let (mut l, mut reach) = (0, t);
    while reach < n {
        reach *= b;
        l += 1;
    }
    l
}

/// A query that the opener sent.
#[derive(Clone)]
struct Query {
    bytes: Vec<u8>,
    /// No limit cut it short.
    whole: bool,
}

/// A list of takes after one opening.
struct Takes {
    ends: Ends,
    opener: Opener,
    sent: Vec<Query>,
    /// The byte limits of the calls, of both ends; each call has one of them at random.
    limits: Vec<Option<usize>>,
    /// What the calls cut by; each by one of them at random.
    rules: Vec<Odd>,
    random: Random,
    /// Unrefused takes in a row, each handed the answer to the query last sent, both whole.
    row: usize,
    excused: BTreeSet<Id>,
    unrefused: usize,
    /// Queries and answers that were cut short.
    short: [usize; 2],
    /// Queries and answers that the other rule would not have made.
    by_rule: [usize; 2],
    refused: [usize; 13],
}

impl Takes {
    fn new(ends: Ends, b: usize, t: usize) -> Takes {
        Takes::within(ends, b, t, vec![None])
    }

    fn within(ends: Ends, b: usize, t: usize, limits: Vec<Option<usize>>) -> Takes {
        Takes::by(ends, b, t, limits, vec![Odd::ToLast])
    }

    fn by(ends: Ends, b: usize, t: usize, limits: Vec<Option<usize>>, rules: Vec<Odd>) -> Takes {
        let mut random = Random(0);
        let bytes = limits[random.below(limits.len())];
        let odd = rules[random.below(rules.len())];
        let (opener, query) = Opener::open_by(odd, Lent::new(&ends.ours), b, t, bytes);
        let whole = query == Opener::open_by(odd, Lent::new(&ends.ours), b, t, None).1;
        assert!(bytes.map_or(true, |limit| query.len() <= limit));
        Takes {
            ends,
            opener,
            sent: vec![Query { bytes: query, whole }],
            limits,
            rules,
            random,
            row: 0,
            excused: BTreeSet::new(),
            unrefused: 0,
            short: [usize::from(!whole), 0],
            by_rule: [0; 2],
            refused: [0; 13],
        }
    }

    fn limit_by_chance(&mut self) -> Option<usize> {
        self.limits[self.random.below(self.limits.len())]
    }

    fn rule_by_chance(&mut self) -> Odd {
        self.rules[self.random.below(self.rules.len())]
    }

    /// An answer, and whether it is whole.
    fn answer(&mut self, query: &[u8]) -> (Vec<u8>, bool) {
        let (limit, odd) = (self.limit_by_chance(), self.rule_by_chance());
        let answer = self.ends.answer(odd, limit, query);
        assert!(limit.map_or(true, |limit| answer.len() <= limit));
        let whole = answer == self.ends.answer(odd, None, query);
        self.short[1] += usize::from(!whole);
        self.by_rule[1] += usize::from(answer != self.ends.answer(other(odd), limit, query));
        (answer, whole)
    }

    /// What a take by this rule and with this limit leaves, and its query.
    fn taken(&self, answer: &[u8], odd: Odd, bytes: Option<usize>) -> (Opener, Vec<u8>) {
        let mut opener = Opener {
            odd,
            bytes,
            ..self.opener.clone()
        };
        let query = opener.take(answer, self.ends.theirs.len(), 100_000).unwrap();
        assert!(bytes.map_or(true, |limit| query.len() <= limit));
        (opener, query)
    }

    /// The next query of an unrefused take, empty if done, and whether it is whole.
    fn next(&mut self, answer: &[u8]) -> Query {
        let (limit, odd) = (self.limit_by_chance(), self.rule_by_chance());
        let (opener, bytes) = self.taken(answer, odd, limit);
        let (without, expected) = self.taken(answer, odd, None);
        let (by_other, otherwise) = self.taken(answer, other(odd), limit);
        // A limit and the rule change the message alone.
        let reported = |opener: &Opener| (opener.session, opener.marks.clone(), opener.needed.clone());
        assert!(reported(&opener) == reported(&without) && reported(&opener) == reported(&by_other));
        let whole = bytes == expected;
        self.short[0] += usize::from(!whole);
        self.by_rule[0] += usize::from(bytes != otherwise);
        self.opener = opener;
        Query { bytes, whole }
    }

    /// An unrefused take of the answer to a query sent before.
    fn take(&mut self, query: usize) {
        let query = self.sent[query].clone();
        let (answer, whole) = self.answer(&query.bytes);
        let is_last = self.sent.last().map_or(false, |last| last.bytes == query.bytes);
        let next = self.next(&answer);
        self.excused.extend(self.ends.colliding(&query.bytes));
        self.excused.extend(self.ends.colliding(&answer));
        self.unrefused += 1;
        self.row = if is_last && whole && query.whole {
            self.row + 1
        } else {
            0
        };
        self.ends.check_truth(&self.opener);
        if self.opener.session.done {
            self.ends.check_complete(&self.opener, &self.excused);
        } else {
            self.sent.push(next);
        }
        assert!(
            self.opener.session.done || self.row < self.limit(),
            "{} takes in a row",
            self.row
        );
    }

    /// L + 1.
    fn limit(&self) -> usize {
        rounds(self.ends.ours.len(), self.opener.b, self.opener.t) + 1
    }

    /// A take that is refused; if the inputs chosen don't make it so, none.
    fn refused(&mut self, random: &mut Random) {
        let query = &self.sent[random.below(self.sent.len())].bytes;
        let mut answer = self.ends.answer(Odd::ToLast, None, query);
        let mut ids_room = self.ends.theirs.len();
        let mut out_room = 100_000;
        let mut copy = self.opener.clone();
        match random.below(4) {
            0 => answer.push(0x80),
            1 => {
                let length = 1 + random.below(40);
                answer = random.bytes(length);
                answer[0] = 0x61;
                if read(&answer).is_ok() {
                    return;
                }
            }
            2 => match copy.take(&answer, ids_room, out_room).unwrap().len() {
                0 => return,
                length => out_room = random.below(length),
            },
            _ => {
                copy.take(&answer, ids_room, out_room).unwrap();
                if copy.needed.len() == self.opener.needed.len() {
                    return;
                }
                ids_room = copy.needed.len() - 1;
            }
        }
        let number = self.opener.take(&answer, ids_room, out_room).unwrap_err();
        self.refused[number as usize] += 1;
        self.ends.check_truth(&self.opener);
    }

    /// Late, repeated and refused takes at random, then those of the query last sent until done.
    fn run(&mut self, random: &mut Random) {
        for _ in 0..random.below(20) {
            if self.opener.session.done {
                break;
            }
            match random.below(5) {
                0 => self.refused(random),
                1 | 2 => self.take(random.below(self.sent.len())),
                _ => self.take(self.sent.len() - 1),
            }
        }
        while !self.opener.session.done {
            self.take(self.sent.len() - 1);
        }
        assert_eq!(self.opener.take(&[0x61], self.ends.theirs.len(), 0), Err(5));
        self.ends.check_complete(&self.opener, &self.excused);
    }
}

fn other(odd: Odd) -> Odd {
    match odd {
        Odd::ToFirst => Odd::ToLast,
        Odd::ToLast => Odd::ToFirst,
    }
}

/// Two tables in which no id stands under two times. Small ids make equal sums of different ids likely.
fn random_ends(random: &mut Random, small_ids: bool) -> Ends {
    let most = if small_ids { 16 } else { 80 };
    ends_of(random, most, small_ids)
}

/// The same with fewer than so many ids in both together.
fn ends_of(random: &mut Random, most: usize, small_ids: bool) -> Ends {
    let size = random.below(most);
    let times = 1 + random.below(if small_ids { 2 } else { 6 });
    let mut pool: Vec<Item> = Vec::new();
    for _ in 0..size {
        let time = if random.one_in(20) {
            u64::MAX - 1
        } else {
            random.below(times) as u64
        };
        let mut item = (time, id(random.below(12) as u8));
        if !small_ids {
            // Many ids share their first bytes.
            let same = [0, 0, 1, 7, 31][random.below(5)];
            random.fill(&mut item.1[same..]);
        }
        if pool.iter().all(|other| other.1 != item.1) {
            pool.push(item);
        }
    }
    pool.sort_unstable();
    let only_one = 1 + random.below(if small_ids { 2 } else { 10 });
    let mut ends = Ends {
        ours: vec![],
        theirs: vec![],
        their_b: 2 + random.below(3),
        their_t: 0,
    };
    ends.their_t = ends.their_b + random.below(4);
    for item in pool {
        let side = if random.one_in(only_one) { random.below(2) } else { 2 };
        if side != 1 {
            ends.ours.push(item);
        }
        if side != 0 {
            ends.theirs.push(item);
        }
    }
    ends
}

#[test]
fn random_sessions() {
    let mut refused = [0; 13];
    let mut longest = 0;
    for seed in 0..1500 {
        let _seed = Seed(seed);
        let mut random = Random(seed);
        let ends = random_ends(&mut random, false);
        let b = 2 + random.below(3);
        let t = b + random.below(4);
        let mut session = Takes::new(ends, b, t);
        session.run(&mut random);
        assert!(session.excused.is_empty());
        longest = longest.max(session.unrefused);
        refused
            .iter_mut()
            .zip(session.refused)
            .for_each(|(sum, count)| *sum += count);
    }
    assert!(longest > 6, "{longest}");
    assert!(
        [7, 8, 9, 10, 11, 12].iter().all(|&number| refused[number] > 0),
        "{refused:?}"
    );
}

/// Small ids: with colliding ranges excused the report is complete, and some ranges do collide.
#[test]
fn random_sessions_with_collisions() {
    let mut collided = 0;
    for seed in 0..3000 {
        let _seed = Seed(seed);
        let mut random = Random(seed);
        let ends = random_ends(&mut random, true);
        let mut session = Takes::new(ends, 2, 2);
        session.run(&mut random);
        collided += usize::from(!session.excused.is_empty());
    }
    assert!(collided > 10, "{collided}");
}

/// Tables whose messages are cut short, with limits at one end, at both, and at some calls.
#[test]
fn random_sessions_within_limits() {
    let limits = [
        vec![Some(4_096)],
        vec![Some(4_096), None],
        vec![Some(4_096), Some(5_000), Some(30_000), Some(usize::MAX), None],
    ];
    let mut short = [0; 2];
    for seed in 0..60 {
        let _seed = Seed(seed);
        let mut random = Random(seed);
        let ends = ends_of(&mut random, 1_200, false);
        let b = 2 + random.below(8);
        let t = b + random.below(300);
        let mut session = Takes::within(ends, b, t, limits[seed as usize % limits.len()].clone());
        session.run(&mut random);
        assert!(session.excused.is_empty());
        assert!(session.unrefused < 1_000);
        short
            .iter_mut()
            .zip(session.short)
            .for_each(|(sum, count)| *sum += count);
    }
    assert!(short.iter().all(|&count| count > 60), "{short:?}");
}

/// Each call of either end cuts by either rule, in any mix, with limits and without.
#[test]
fn random_sessions_of_either_rule() {
    let (first, last) = (Odd::ToFirst, Odd::ToLast);
    let rules = [vec![first], vec![first, last], vec![first, last, last, last]];
    let mut by_rule = [0; 2];
    let mut full_rows = 0;
    for seed in 0..1200 {
        let _seed = Seed(seed);
        let mut random = Random(seed);
        let limited = seed % 40 == 0;
        let mut ends = ends_of(&mut random, if limited { 1_200 } else { 120 }, false);
        if seed % 2 == 0 {
            // Where the other end has many more items, it lists few, and takes go on as long as they can.
            ends.ours.retain(|_| random.one_in(4));
        }
        let b = 2 + random.below(3);
        let t = b + random.below(2);
        let limits = if limited { vec![Some(4_096), None] } else { vec![None] };
        let mut session = Takes::by(ends, b, t, limits, rules[seed as usize % rules.len()].clone());
        session.random = Random(seed);
        session.run(&mut random);
        assert!(session.excused.is_empty());
        full_rows += usize::from(session.row == session.limit() && session.row > 2);
        by_rule
            .iter_mut()
            .zip(session.by_rule)
            .for_each(|(sum, count)| *sum += count);
    }
    assert!(by_rule.iter().all(|&count| count > 500), "{by_rule:?}");
    assert!(full_rows > 10, "{full_rows}");
}

/// Ids 1 and 4 against 2 and 3 have equal sums and counts: done at once, nothing reported. They are the second part.
#[test]
fn colliding_ranges_hide() {
    let ours = vec![(4, id(9)), (5, id(1)), (5, id(4))];
    let theirs = vec![(4, id(9)), (5, id(2)), (5, id(3))];
    let mut session = Takes::new(
        Ends {
            ours,
            theirs,
            their_b: 2,
            their_t: 2,
        },
        2,
        2,
    );
    session.take(0);
    assert_eq!(session.opener.session, session.opener.table.session(0, 0, true));
    assert_eq!(session.excused, [id(1), id(2), id(3), id(4)].into_iter().collect());
}

/// Five items with b = t = 2 can need three takes: the larger part is the last one, and has to differ.
#[test]
fn d1_three_takes() {
    assert_eq!(
        [0, 1, 2, 3, 4, 5, 8, 9].map(|n| rounds(n, 2, 2)),
        [0, 0, 0, 1, 1, 2, 2, 3]
    );
    let ours: Vec<Item> = (1..6).map(|i| (100 * i, id(i as u8))).collect();
    let above = (501..590).map(|time| (time, id((time - 400) as u8)));
    let theirs = ours.iter().copied().chain(above).collect();
    let mut session = Takes::new(
        Ends {
            ours,
            theirs,
            their_b: 2,
            their_t: 2,
        },
        2,
        2,
    );
    for takes in 1..4 {
        session.take(takes - 1);
        assert_eq!(session.opener.session.done, takes == 3);
    }
    assert_eq!(session.opener.session, session.opener.table.session(0, 89, true));
}
