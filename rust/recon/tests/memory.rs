//! What the two ends do where memory cannot be had, and how much of it they take.
#![cfg(feature = "alloc")]
use recon::{sha256, Cut, Fold, Label, Opener, Refusal, Responder, Session, Table};
use std::alloc::{GlobalAlloc, Layout, System};
use std::cell::Cell;

/// The system's allocator, which has no piece of memory above a size to give, and notes the largest that was asked for.
struct Limited;

thread_local! {
    static LARGEST: Cell<usize> = const { Cell::new(usize::MAX) };
    static ASKED: Cell<usize> = const { Cell::new(0) };
}

// SAFETY: what is handed out is the system allocator's, and goes back to it; null says that there is no memory.
unsafe impl GlobalAlloc for Limited {
    unsafe fn alloc(&self, layout: Layout) -> *mut u8 {
        ASKED.with(|asked| asked.set(asked.get().max(layout.size())));
        if layout.size() > LARGEST.with(Cell::get) {
            return std::ptr::null_mut();
        }
        System.alloc(layout)
    }

    unsafe fn dealloc(&self, memory: *mut u8, layout: Layout) {
        System.dealloc(memory, layout);
    }
}

#[global_allocator]
static ALLOCATOR: Limited = Limited;

/// Calls with no piece of memory above a size.
fn with_largest<T>(size: usize, call: impl FnOnce() -> T) -> T {
    LARGEST.with(|largest| largest.set(size));
    let result = call();
    LARGEST.with(|largest| largest.set(usize::MAX));
    result
}

/// The largest piece of memory that a call asks for.
fn largest_asked<T>(call: impl FnOnce() -> T) -> usize {
    ASKED.with(|asked| asked.set(0));
    call();
    ASKED.with(Cell::get)
}

/// Records, with the hash of each time as its id.
struct Records {
    times: Vec<u64>,
    ids: Vec<u8>,
}

impl Records {
    fn new(count: u64) -> Records {
        Records {
            times: (0..count).collect(),
            ids: (0..count).flat_map(|time| sha256(&time.to_be_bytes())).collect(),
        }
    }

    fn table(&self) -> Table<'_> {
        let Records { times, ids } = self;
        Table { times, ids }
    }
}

const NONE: Table<'static> = Table { times: &[], ids: &[] };

/// A cut that lists 1,000 ids, a buffer that holds them, and one that is too small.
const LISTS: Cut = Cut { parts: 16, limit: 4096 };
const ENOUGH: usize = 100_000;
const TOO_SMALL: usize = 20_000;

#[test]
fn an_opening_needs_marks_and_room() {
    let many = Records::new(1000);
    for size in [0, 999, 1000, TOO_SMALL] {
        let refused = with_largest(size, || Opener::open(many.table(), LISTS).err());
        assert_eq!(refused, Some(Refusal::NoRoom));
    }
    assert!(with_largest(ENOUGH, || Opener::open(many.table(), LISTS)).is_ok());
}

/// A session of an opener without records.
fn session(needed: usize, done: bool) -> Session {
    Session {
        marked: 0,
        needed,
        done,
        label: Label::default(),
    }
}

#[test]
fn an_answer_needs_room() {
    let many = Records::new(1000);
    let opener = Opener::open(NONE, LISTS).unwrap();
    let query = opener.query().unwrap();
    let mut responder = Responder::new(many.table(), LISTS);
    for size in [0, 5000, TOO_SMALL] {
        let refused = with_largest(size, || responder.answer(query).err());
        assert_eq!(refused, Some(Refusal::NoRoom));
    }
    assert_eq!(responder.answer(query).map(<[u8]>::len), Ok(6 + 32 * 1000));
}

#[test]
fn a_take_without_memory_for_the_ids_changes_nothing() {
    let many = Records::new(1000);
    let mut opener = Opener::open(NONE, LISTS).unwrap();
    let query = opener.query().unwrap().to_vec();
    let mut responder = Responder::new(many.table(), LISTS);
    let reply = responder.answer(&query).unwrap();
    let refused = with_largest(TOO_SMALL, || opener.take(reply));
    assert_eq!(refused, Err(Refusal::NeededFull));
    assert_eq!(opener.session(), session(0, false));
    assert_eq!((opener.query(), opener.theirs_only().count()), (Some(&query[..]), 0));
    assert_eq!(opener.take(reply), Ok(()));
    assert_eq!((opener.query(), opener.theirs_only().count()), (None, 1000));
}

#[test]
fn a_take_without_memory_for_the_query_changes_nothing() {
    let many = Records::new(1000);
    let mut opener = Opener::open(many.table(), Cut::default()).unwrap();
    let query = opener.query().unwrap().to_vec();
    // Fingerprints that no range has, one for every three records, so that all ids are listed next.
    let ranges = (1..=333).flat_map(|_| [&[4, 0, 1][..], &[0xa5; 16]].concat());
    let reply: Vec<u8> = [0x61].into_iter().chain(ranges).collect();
    assert_eq!(with_largest(TOO_SMALL, || opener.take(&reply)), Err(Refusal::NoRoom));
    assert_eq!((opener.query(), opener.is_done()), (Some(&query[..]), false));
    assert_eq!(opener.take(&reply), Ok(()));
    assert!(opener.query().unwrap().len() > 32 * 990);
}

#[test]
fn an_end_takes_memory_as_its_table_does() {
    let whole_round = |table: Table<'_>| {
        let mut opener = Opener::open(table, Cut::default()).unwrap();
        let mut responder = Responder::new(table, Cut::default());
        opener.take(responder.answer(opener.query().unwrap()).unwrap())
    };
    assert_eq!(largest_asked(|| whole_round(NONE)), 4096);
    let many = Records::new(100_000);
    assert_eq!(largest_asked(|| whole_round(many.table())), 100_000 * (8 + 32) / 8);
}

/// With a byte limit the buffers for messages have no more than that, also where they grow up to it.
#[test]
fn a_message_takes_no_more_memory_than_its_limit() {
    let many = Records::new(100_000);
    for (limit, most) in [(4096, 4096), (7 * ENOUGH, 7 * ENOUGH)] {
        let mut responder = Responder::new(many.table(), Cut::default());
        responder.set_byte_limit(Some(limit));
        let asked = largest_asked(|| responder.answer(&[0x61, 0, 0, 2, 0]).map(<[u8]>::len));
        assert_eq!(asked, most);
    }
    let some = Records::new(1000);
    assert_eq!(largest_asked(|| Opener::open_within(some.table(), LISTS, 4096)), 4096);
    let opened = with_largest(4096, || Opener::open_within(some.table(), LISTS, 4096));
    assert!(opened.is_ok());
}

/// An empty table, whose session needs the ids of these records.
fn needing(records: &Records) -> Fold {
    let mut needed: Vec<&[u8]> = records.ids.chunks_exact(32).collect();
    needed.sort_unstable();
    let done = session(needed.len(), true);
    Fold::new(Vec::new(), Vec::new(), done, needed.concat()).unwrap()
}

#[test]
fn a_batch_without_memory_changes_nothing() {
    let many = Records::new(1000);
    let mut fold = needing(&many);
    for size in [0, 5000, TOO_SMALL] {
        let refused = with_largest(size, || (fold.inquire(many.table()), fold.commit(many.table())));
        assert_eq!(refused, (Err(Refusal::TableFull), Err(Refusal::TableFull)));
        assert_eq!((fold.table().times.len(), fold.still_needed().count()), (0, 1000));
    }
    // The inquiry has had the memory for the commit.
    assert!(fold.inquire(many.table()).is_ok());
    let left = with_largest(0, || fold.commit(many.table()));
    assert_eq!(left.map(|left| left.items), Ok(1000));
}

/// More room than needed is taken only where it can be had.
#[test]
fn room_ahead_is_not_needed() {
    let many = Records::new(1000);
    let mut fold = needing(&many);
    let part = |from: usize, to: usize| Table {
        times: &many.times[from..to],
        ids: &many.ids[32 * from..32 * to],
    };
    fold.commit(part(0, 900)).unwrap();
    let left = with_largest(32 * 910, || fold.commit(part(900, 910)));
    assert_eq!(left.map(|left| left.items), Ok(910));
    let asked = largest_asked(|| fold.commit(part(910, 911)));
    assert!(asked > 32 * 1500, "{asked}");
    assert_eq!(largest_asked(|| fold.commit(part(911, 1000))), 0);
}

#[test]
fn a_copy_of_the_table_needs_memory() {
    let many = Records::new(1000);
    let mut opener = Opener::open(NONE, LISTS).unwrap();
    let mut responder = Responder::new(many.table(), LISTS);
    opener.take(responder.answer(opener.query().unwrap()).unwrap()).unwrap();
    assert_eq!(
        with_largest(TOO_SMALL, || opener.fold().err()),
        Some(Refusal::TableFull)
    );
    assert_eq!(opener.fold().map(|fold| fold.still_needed().count()).ok(), Some(1000));
}
