//! The calls of folding in: known answers, written by hand, and their refusals in order.
use recon::{fold_commit, fold_inquire, Committed, Inquiry, Label, Refusal, Session, Table};

/// The id that starts with this byte and is zero behind it.
fn id(first: u8) -> [u8; 32] {
    let mut id = [0; 32];
    id[0] = first;
    id
}

fn ids(first: &[u8]) -> Vec<u8> {
    first.iter().flat_map(|&first| id(first)).collect()
}

/// A session that is done. Neither call compares its label, and a commit keeps it.
fn done(marked: usize, needed: usize) -> Session {
    Session {
        marked,
        needed,
        done: true,
        label: Label {
            sum: [1, 2, 3, 4],
            count: 5,
        },
    }
}

/// What both calls are handed. A fault makes them be refused.
#[derive(Clone, PartialEq, Debug)]
struct Given {
    times: Vec<u64>,
    ids: Vec<u8>,
    items: usize,
    session: Session,
    needed: Vec<u8>,
    batch_times: Vec<u64>,
    batch_ids: Vec<u8>,
}

impl Given {
    /// The table (5, 01), (7, 03) in buffers for four items, with 02, 03 and 04 needed, and this batch.
    fn new(batch_times: &[u64], batch_ids: &[u8]) -> Given {
        Given {
            times: vec![5, 7, 1000, 2000],
            ids: [ids(&[1, 3]), vec![0xcc; 64]].concat(),
            items: 2,
            session: done(9, 3),
            needed: ids(&[2, 3, 4]),
            batch_times: batch_times.to_vec(),
            batch_ids: ids(batch_ids),
        }
    }

    fn good() -> Given {
        Given::new(&[5, 7], &[2, 4])
    }

    fn inquire(&self) -> Result<Inquiry, Refusal> {
        let batch = Table {
            times: &self.batch_times,
            ids: &self.batch_ids,
        };
        fold_inquire(&self.times, &self.ids, self.items, self.session, &self.needed, batch)
    }

    fn commit(&mut self) -> Result<Committed, Refusal> {
        let batch = Table {
            times: &self.batch_times,
            ids: &self.batch_ids,
        };
        let (times, ids, needed) = (&mut self.times, &mut self.ids, &mut self.needed);
        fold_commit(times, ids, self.items, self.session, needed, batch)
    }

    /// Both calls are refused by this, and nothing has changed.
    fn refused_by(&mut self, refusal: Refusal) {
        let before = self.clone();
        assert_eq!(self.inquire(), Err(refusal));
        assert_eq!(self.commit(), Err(refusal));
        assert_eq!(*self, before);
    }

    /// Both calls agree that so many items enter and so many ids stay; then these are the times, the ids and the needed bytes.
    fn leaves(&mut self, entering: usize, staying: usize, times: &[u64], ids: &[u8], needed: &[u8]) {
        let before = self.clone();
        assert_eq!(self.inquire(), Ok(Inquiry { entering, staying }));
        assert_eq!(*self, before);
        let (items, session) = (before.items + entering, before.session);
        let session = Session {
            needed: staying,
            ..session
        };
        assert_eq!(self.commit(), Ok(Committed { items, session }));
        let (times, ids, needed) = (times.to_vec(), ids.to_vec(), needed.to_vec());
        assert_eq!(
            *self,
            Given {
                times,
                ids,
                needed,
                ..before
            }
        );
    }
}

#[test]
fn a_batch_between_and_behind() {
    Given::good().leaves(2, 1, &[5, 5, 7, 7], &ids(&[1, 2, 3, 4]), &ids(&[3, 3, 4]));
}

/// Bytes behind the merge and behind the list stay, and the buffers may be of any length.
#[test]
fn what_is_behind_stays() {
    let mut given = Given::new(&[6], &[2]);
    given.times.push(3000);
    given.ids.extend([0xdd; 31]);
    given.needed.extend([0xee; 32]);
    let left = [ids(&[1, 2, 3]), vec![0xcc; 32], vec![0xdd; 31]].concat();
    let needed = [ids(&[3, 4, 4]), vec![0xee; 32]].concat();
    given.leaves(1, 2, &[5, 6, 7, 2000, 3000], &left, &needed);
}

#[test]
fn a_batch_in_front_of_all() {
    let left = [ids(&[4, 1, 3]), vec![0xcc; 32]].concat();
    Given::new(&[0], &[4]).leaves(1, 2, &[0, 5, 7, 2000], &left, &ids(&[2, 3, 4]));
}

/// An id that the batch has under two times is two items and one id.
#[test]
fn an_id_under_two_times() {
    Given::new(&[6, 8], &[2, 2]).leaves(2, 2, &[5, 6, 7, 8], &ids(&[1, 2, 3, 2]), &ids(&[3, 4, 4]));
}

/// An id that the table has under another time may enter.
#[test]
fn an_id_of_the_table_under_another_time() {
    let left = [ids(&[1, 3, 3]), vec![0xcc; 32]].concat();
    Given::new(&[9], &[3]).leaves(1, 2, &[5, 7, 9, 2000], &left, &ids(&[2, 4, 4]));
}

#[test]
fn an_empty_batch_into_full_buffers() {
    let mut given = Given::new(&[], &[]);
    given.times.truncate(2);
    given.ids.truncate(64);
    let before = given.clone();
    given.leaves(0, 3, &before.times, &before.ids, &before.needed);
}

#[test]
fn empty_slices() {
    let none = Table { times: &[], ids: &[] };
    let session = done(0, 0);
    let told = fold_inquire(&[], &[], 0, session, &[], none);
    assert_eq!(told.map(|told| (told.entering, told.staying)), Ok((0, 0)));
    let left = fold_commit(&mut [], &mut [], 0, session, &mut [], none);
    assert_eq!(left, Ok(Committed { items: 0, session }));
}

/// The commits of one session: each is handed what the one before it left.
#[test]
fn commits_one_after_another() {
    let mut given = Given::new(&[7], &[4]);
    let left = given.commit().unwrap();
    (given.items, given.session) = (left.items, left.session);
    // The same batch is not due any more.
    given.refused_by(Refusal::NotDue);
    (given.batch_times, given.batch_ids) = (vec![5], ids(&[2]));
    let needed = [ids(&[3]), ids(&[3]), ids(&[4])].concat();
    given.leaves(1, 1, &[5, 5, 7, 7], &ids(&[1, 2, 3, 4]), &needed);
}

/// Room for times and for ids is tested each by itself: too short for the table is 1, and for the merge 17.
#[test]
fn room_for_the_merge() {
    for times in 0..6 {
        for bytes in 0..6 * 32 {
            let mut given = Given::good();
            given.times.resize(times, 9000);
            given.ids.resize(bytes, 0xcc);
            if times < 2 || bytes < 64 {
                given.refused_by(Refusal::TableSize);
            } else if times < 4 || bytes < 128 {
                given.refused_by(Refusal::TableFull);
            } else {
                assert!(given.inquire().is_ok() && given.commit().is_ok());
            }
        }
    }
}

type Fault = fn(&mut Given);

/// In the order of the checks. A fault leaves those before it as they are.
const FAULTS: [(Refusal, Fault); 21] = [
    (Refusal::TableSize, |given| given.times.truncate(1)),
    (Refusal::TableSize, |given| given.ids.truncate(63)),
    (Refusal::TableSize, |given| given.items = usize::MAX),
    (Refusal::TableSize, |given| given.items = 1 << 59),
    (Refusal::TableSize, |given| given.batch_ids.truncate(63)),
    (Refusal::TableSize, |given| given.batch_ids.push(0)),
    (Refusal::TableSize, |given| given.batch_ids.extend([9; 32])),
    (Refusal::TableSize, |given| given.batch_times.push(9)),
    (Refusal::TableOrder, |given| given.times[0] = 8),
    (Refusal::TableOrder, |given| given.times[1] = u64::MAX),
    (Refusal::TableOrder, |given| given.batch_times[0] = 8),
    (Refusal::TableOrder, |given| given.batch_times[1] = u64::MAX),
    (Refusal::WrongState, |given| given.needed.truncate(95)),
    (Refusal::WrongState, |given| given.session.needed = 4),
    (Refusal::WrongState, |given| given.session.needed = 1 << 59),
    (Refusal::WrongState, |given| given.needed[32] = 2),
    (Refusal::SessionOpen, |given| given.session.done = false),
    (Refusal::NotDue, |given| given.batch_ids[63] = 1),
    (Refusal::NotDue, |given| given.batch_ids[32] = 3),
    (Refusal::TableFull, |given| given.times.truncate(3)),
    (Refusal::TableFull, |given| given.ids.truncate(127)),
];

/// Each fault, and each two of them: that which is checked first counts, of table or batch.
#[test]
fn refusals_in_order() {
    for (place, (refusal, fault)) in FAULTS.iter().enumerate() {
        let mut alone = Given::good();
        fault(&mut alone);
        alone.refused_by(*refusal);
        for (later, second) in FAULTS[place..].iter().filter(|(later, _)| later != refusal) {
            // The later fault is put in first, so that the earlier one stands whole.
            let mut both = Given::good();
            second(&mut both);
            fault(&mut both);
            println!("{refusal:?} and {later:?}");
            both.refused_by(*refusal);
        }
    }
}

/// 17 comes where the merge exceeds the most items, and not before.
#[test]
fn the_most_items() {
    let most = recon::MAX_ITEMS;
    let mut times: Vec<u64> = (0..=most as u64).collect();
    let mut all = vec![7; 32 * times.len()];
    let session = done(0, 2);
    let mut needed = ids(&[8, 9]);
    let one = most as u64;
    let (batch_times, batch_ids) = ([one, one], ids(&[8, 9]));
    let batch = |count: usize| Table {
        times: &batch_times[..count],
        ids: &batch_ids[..32 * count],
    };
    let told = fold_inquire(&times, &all, most - 1, session, &needed, batch(1));
    assert_eq!(told.map(|told| told.staying), Ok(1));
    let refused = fold_inquire(&times, &all, most - 1, session, &needed, batch(2));
    assert_eq!(refused, Err(Refusal::TableFull));
    let refused = fold_inquire(&times, &all, most + 1, session, &needed, batch(0));
    assert_eq!(refused, Err(Refusal::TableSize));
    let left = fold_commit(&mut times, &mut all, most - 1, session, &mut needed, batch(1)).unwrap();
    assert_eq!((left.items, times[most - 1], times[most]), (most, one, one));
    assert_eq!(all[32 * (most - 1)..], [ids(&[8]), vec![7; 32]].concat());
    let refused = fold_commit(&mut times, &mut all, most, left.session, &mut needed, batch(2));
    assert_eq!(refused, Err(Refusal::NotDue));
    let last = Table {
        times: &[one],
        ids: &batch_ids[32..],
    };
    let refused = fold_commit(&mut times, &mut all, most, left.session, &mut needed, last);
    assert_eq!(refused, Err(Refusal::TableFull));
}
