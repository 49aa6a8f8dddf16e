//! Tables that take batches after their sessions, with their own buffers.
#![cfg(feature = "alloc")]
use recon::{sha256, Committed, Cut, Fold, Inquiry, Label, Opener, Refusal, Responder, Session, Table, MAX_ITEMS};
use std::collections::BTreeSet;

type Id = [u8; 32];
type Record = (u64, Id);

/// A record's number settles its time and its id; three records in a row have the same time.
fn record(number: u64) -> Record {
    (number / 3, sha256(&number.to_be_bytes()))
}

fn records(numbers: impl IntoIterator<Item = u64>) -> BTreeSet<Record> {
    numbers.into_iter().map(record).collect()
}

/// Records as they are lent.
#[derive(Clone)]
struct Lent {
    times: Vec<u64>,
    ids: Vec<u8>,
}

impl Lent {
    fn new(records: &BTreeSet<Record>) -> Lent {
        Lent {
            times: records.iter().map(|(time, _)| *time).collect(),
            ids: records.iter().flat_map(|(_, id)| *id).collect(),
        }
    }

    fn table(&self) -> Table<'_> {
        let Lent { times, ids } = self;
        Table { times, ids }
    }
}

fn set(table: Table<'_>) -> BTreeSet<Record> {
    let ids = table.ids.chunks_exact(32).map(|id| id.try_into().unwrap());
    table.times.iter().copied().zip(ids).collect()
}

/// An opener whose session is done.
fn finished<'a>(ours: &'a Lent, theirs: &Lent, limit: Option<usize>) -> Opener<'a> {
    let mut responder = Responder::new(theirs.table(), Cut::default());
    let mut opener = match limit {
        None => Opener::open(ours.table(), Cut::default()).unwrap(),
        Some(bytes) => Opener::open_within(ours.table(), Cut::default(), bytes).unwrap(),
    };
    responder.set_byte_limit(limit);
    while let Some(query) = opener.query() {
        opener.take(responder.answer(query).unwrap()).unwrap();
    }
    opener
}

/// All that a fold says.
type Said = (BTreeSet<Record>, Session, Vec<Id>);

fn said(fold: &Fold) -> Said {
    let (table, session) = (set(fold.table()), fold.session());
    assert_eq!(table.len(), fold.table().times.len());
    let needed: Vec<Id> = fold.still_needed().copied().collect();
    assert!(needed.windows(2).all(|pair| pair[0] < pair[1]));
    assert_eq!(
        (needed.len(), fold.is_complete()),
        (session.needed, session.needed == 0)
    );
    (table, session, needed)
}

/// Asks and commits; both agree.
fn commit(fold: &mut Fold, batch: &BTreeSet<Record>) {
    let lent = Lent::new(batch);
    let before = said(fold);
    let Inquiry { entering, staying } = fold.inquire(lent.table()).unwrap();
    assert!(said(fold) == before);
    assert_eq!(entering, batch.len());
    let Committed { items, session } = fold.commit(lent.table()).unwrap();
    let after = said(fold);
    assert_eq!((items, session), (after.0.len(), after.1));
    assert_eq!((items, session.needed), (before.0.len() + entering, staying));
    assert_eq!((session.marked, session.done), (before.1.marked, true));
}

/// Every batch of every so many records.
#[test]
fn tables_become_the_union() {
    let ours = records((0..2000).filter(|number| number % 7 != 1));
    let theirs = records((0..2000).filter(|number| number % 5 != 2));
    let union: BTreeSet<Record> = ours.union(&theirs).copied().collect();
    let lacking: Vec<Record> = theirs.difference(&ours).copied().collect();
    let (our_table, their_table) = (Lent::new(&ours), Lent::new(&theirs));
    for (limit, parts) in [(None, 1), (None, 2), (Some(4096), 7), (None, 300)] {
        let opener = finished(&our_table, &their_table, limit);
        let mut fold = opener.fold().unwrap();
        assert_eq!(said(&fold).1, opener.session());
        assert!(fold.still_needed().eq(opener.theirs_only()));
        for part in (0..parts).rev() {
            assert!(!fold.is_complete());
            let batch = lacking.iter().skip(part).step_by(parts).copied().collect();
            commit(&mut fold, &batch);
        }
        assert!(fold.is_complete() && set(fold.table()) == union);
        let again = Opener::open(fold.table(), Cut::default()).map(|opener| opener.session().done);
        assert_eq!(again, Ok(false));
        let (times, ids) = fold.into_table();
        let merged = Lent { times, ids };
        assert_eq!(finished(&merged, &their_table, None).session().needed, 0);
    }
}

/// The table is moved into the fold and out of it.
#[test]
fn a_table_need_not_be_copied() {
    let (ours, theirs) = (Lent::new(&records(0..500)), Lent::new(&records(400..900)));
    let (session, needed) = finished(&ours, &theirs, None).into_parts();
    assert_eq!((session.marked, session.needed, needed.len()), (400, 400, 400 * 32));
    let (times, ids) = (ours.times, ours.ids);
    let place = (times.as_ptr(), ids.as_ptr());
    let mut fold = Fold::new(times, ids, session, needed).unwrap();
    assert_eq!((fold.table().times.as_ptr(), fold.table().ids.as_ptr()), place);
    commit(&mut fold, &records(500..900));
    let (times, ids) = fold.into_table();
    assert!(
        set(Table {
            times: &times,
            ids: &ids
        }) == records(0..900)
    );
}

/// Batches that are refused leave all as it was, and others can be committed then.
#[test]
fn a_refused_batch_changes_nothing() {
    let (ours, theirs) = (Lent::new(&records(0..100)), Lent::new(&records(50..150)));
    let mut fold = finished(&ours, &theirs, None).fold().unwrap();
    commit(&mut fold, &records(100..120));
    let before = said(&fold);
    let due = Lent::new(&records(120..124));
    let short = Table {
        times: &due.times,
        ids: &due.ids[1..],
    };
    let falling = Table {
        times: &[9, 8],
        ids: &due.ids[..64],
    };
    let (ours, entered, unknown) = (records([7]), records([100]), records([120, 1000]));
    let batches = [ours, entered, unknown].map(|batch| Lent::new(&batch));
    let mut refused = vec![(short, Refusal::TableSize), (falling, Refusal::TableOrder)];
    refused.extend(batches.iter().map(|batch| (batch.table(), Refusal::NotDue)));
    for (batch, refusal) in refused {
        assert_eq!(fold.inquire(batch), Err(refusal));
        assert_eq!(fold.commit(batch), Err(refusal));
        assert!(said(&fold) == before);
    }
    commit(&mut fold, &records(120..150));
    assert!(fold.is_complete());
}

#[test]
fn an_empty_batch_is_committed() {
    let none = Lent::new(&records([]));
    let mut fold = finished(&none, &none, None).fold().unwrap();
    commit(&mut fold, &records([]));
    let mut fold = finished(&none, &Lent::new(&records(0..3)), None).fold().unwrap();
    commit(&mut fold, &records([]));
    assert_eq!(said(&fold).2.len(), 3);
    commit(&mut fold, &records(0..3));
}

/// A session that is done. Its label is not compared.
fn done(needed: usize) -> Session {
    Session {
        marked: 0,
        needed,
        done: true,
        label: Label::default(),
    }
}

/// What the table, the session and the list are refused for, before any batch.
#[test]
fn a_fold_is_judged_when_it_is_made() {
    let refusal = |times: &[u64], ids: &[u8], session, needed: &[u8]| {
        Fold::new(times.to_vec(), ids.to_vec(), session, needed.to_vec()).err()
    };
    let open = Session { done: false, ..done(0) };
    assert_eq!(refusal(&[1], &[0; 32], done(1), &[7; 32]), None);
    assert_eq!(refusal(&[1], &[0; 32], done(0), &[7; 64]), None);
    for bytes in [0, 31, 33, 63, 64, 96] {
        assert_eq!(refusal(&[1], &vec![0; bytes], done(0), &[]), Some(Refusal::TableSize));
    }
    let many = MAX_ITEMS + 1;
    let too_many = refusal(&vec![0; many], &vec![0; 32 * many], done(0), &[]);
    assert_eq!(too_many, Some(Refusal::TableSize));
    assert_eq!(refusal(&[2, 1], &[0; 64], done(0), &[]), Some(Refusal::TableOrder));
    assert_eq!(refusal(&[1], &[0; 32], done(0), &[7; 33]), Some(Refusal::WrongState));
    assert_eq!(refusal(&[1], &[0; 32], done(2), &[7; 64]), Some(Refusal::WrongState));
    assert_eq!(refusal(&[1], &[0; 32], done(2), &[7; 32]), Some(Refusal::WrongState));
    assert_eq!(refusal(&[1], &[0; 32], open, &[]), Some(Refusal::SessionOpen));
}

#[test]
fn a_session_that_is_not_done_folds_nothing() {
    let (ours, theirs) = (Lent::new(&records(0..10)), Lent::new(&records(5..15)));
    let mut opener = Opener::open(ours.table(), Cut::default()).unwrap();
    assert_eq!(opener.fold().err(), Some(Refusal::SessionOpen));
    let mut responder = Responder::new(theirs.table(), Cut::default());
    let reply = responder.answer(opener.query().unwrap()).unwrap();
    opener.take(reply).unwrap();
    assert!(opener.fold().is_ok());
    assert_eq!(opener.ours_only().count(), 5);
}

/// 17 comes only where the merge exceeds the most items.
#[test]
fn a_table_grows_up_to_the_most_items() {
    let times: Vec<u64> = (0..MAX_ITEMS as u64 - 2).collect();
    let ids = vec![7; 32 * times.len()];
    let needed: Vec<u8> = (0..5).flat_map(|first| [first; 32]).collect();
    let mut fold = Fold::new(times, ids, done(5), needed.clone()).unwrap();
    let batch_times = [9; 5];
    let batch = |range: std::ops::Range<usize>| Table {
        times: &batch_times[range.clone()],
        ids: &needed[32 * range.start..32 * range.end],
    };
    for count in [3, 4, 5] {
        assert_eq!(fold.inquire(batch(0..count)), Err(Refusal::TableFull));
        assert_eq!(fold.commit(batch(0..count)), Err(Refusal::TableFull));
    }
    assert_eq!(fold.commit(batch(1..3)).map(|left| left.items), Ok(MAX_ITEMS));
    assert_eq!(fold.commit(batch(0..1)), Err(Refusal::TableFull));
    assert_eq!(fold.commit(batch(0..0)).map(|left| left.items), Ok(MAX_ITEMS));
    assert_eq!(fold.table().times[9..13], [9, 9, 9, 10]);
    assert_eq!(fold.still_needed().count(), 3);
}

#[test]
fn debug_output_is_short() {
    let (ours, theirs) = (Lent::new(&records(0..5000)), Lent::new(&records(1..5001)));
    let fold = finished(&ours, &theirs, None).fold().unwrap();
    let session = fold.session();
    assert_eq!(
        format!("{fold:?}"),
        format!("Fold {{ items: 5000, session: {session:?}, .. }}")
    );
    assert!(format!("{session:?}").len() < 200);
}
