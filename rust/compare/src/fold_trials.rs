//! The damages of the self-check in inquiries and commits.
use crate::calls::{FoldAnswer, FoldCall, FoldLent, FoldRefused};
use crate::damage::Damage;
use crate::fold_made::FoldMade;
use crate::generate::Item;
use crate::trials::{flip, trial, Trial};
use recon::{Committed, Table, MAX_ITEMS};

const NO_BATCH: Table<'static> = Table { times: &[], ids: &[] };

/// Damages of one side, that comparing has to find.
pub fn one_sided() -> Vec<Trial> {
    let renumbered = [(1, 2), (2, 1), (4, 5), (15, 5), (16, 15), (17, 11)].map(|(number, other)| {
        let name = format!("refusal {} of an inquiry or a commit is told as {}", number, other);
        trial("fold", "answer Err", name, Damage::Renumber(number, other))
    });
    let lists = [
        wrong_answers(),
        wrong_tables(),
        wrong_lists(),
        wrong_refusals(),
        wrong_orders(),
        wrong_counts(),
        wrong_dues(),
        wrong_room(),
        largest(),
    ];
    lists.into_iter().flatten().chain(renumbered).collect()
}

#[rustfmt::skip]
fn wrong_answers() -> Vec<Trial> {
    let (kind, words) = ("fold", "answer Ok");
    vec![
        trial(kind, words, "an inquiry tells an item too many", Damage::Inquired(|_, told| told.entering += 1)),
        trial(kind, words, "an inquiry tells an id too many that stays", one_more_stays()),
        trial(kind, words, "an inquiry has an id under two times leave twice", Damage::Inquired(|made, told| {
            told.staying = told.staying.saturating_sub(made.repeated_ids());
        })),
        trial(kind, words, "an inquiry has an id under two times enter once", Damage::Inquired(|made, told| {
            told.entering -= made.repeated_ids();
        })),
        trial(kind, words, "a commit tells the items before it",
            Damage::Committed(|made, left| left.items = made.lent.items)),
        trial(kind, words, "a commit tells the needed ids before it",
            Damage::Committed(|made, left| left.session.needed = made.lent.session.needed)),
        trial(kind, words, "a commit tells no marks", Damage::Committed(|_, left| left.session.marked = 0)),
        trial(kind, words, "a commit leaves a session that is not done",
            Damage::Committed(|_, left| left.session.done = false)),
    ]
}

fn one_more_stays() -> Damage {
    Damage::Inquired(|_, told| told.staying += 1)
}

#[rustfmt::skip]
fn wrong_tables() -> Vec<Trial> {
    let (kind, times, ids) = ("fold", "times differ", "ids differ");
    vec![
        trial(kind, ids, "a commit swaps the last two ids", swaps_ids()),
        trial(kind, ids, "a commit changes the last id", changes_last_id()),
        trial(kind, times, "a commit leaves the last time as it was", Damage::Committed(|made, left| {
            let last = left.items.saturating_sub(1);
            made.lent.times[last..left.items].copy_from_slice(&made.times[last..left.items]);
        })),
        trial(kind, ids, "a commit puts the batch behind items of the same time", Damage::Committed(by_time_alone)),
        trial(kind, ids, "a commit puts the batch behind the table", Damage::Committed(|made, _| {
            let items: Vec<Item> = made.both().collect();
            made.lay(&items);
        })),
        trial(kind, times, "a commit changes a time behind the merge", Damage::Committed(|made, left| {
            made.lent.times[left.items..].iter_mut().take(1).for_each(|time| *time ^= 1);
        })),
        trial(kind, ids, "a commit changes an id byte behind the merge", changes_behind()),
    ]
}

fn swaps_ids() -> Damage {
    Damage::Committed(|made, left| {
        if left.items > 1 {
            made.lent.ids[32 * (left.items - 2)..32 * left.items].rotate_left(32);
        }
    })
}

fn changes_last_id() -> Damage {
    Damage::Committed(|made, left| flip(made.lent.ids, (32 * left.items).wrapping_sub(1)))
}

fn by_time_alone(made: &mut FoldMade<'_, '_>, _: &mut Committed) {
    let mut items: Vec<Item> = made.both().collect();
    items.sort_by_key(|item| item.0);
    made.lay(&items);
}

fn changes_behind() -> Damage {
    Damage::Committed(|made, left| flip(made.lent.ids, 32 * left.items))
}

#[rustfmt::skip]
fn wrong_lists() -> Vec<Trial> {
    let (kind, words) = ("fold", "needed bytes differ");
    vec![
        trial(kind, words, "a commit clears needed bytes behind the list", clears_behind()),
        trial(kind, words, "a commit changes a needed byte behind the list", Damage::Committed(|made, left| {
            flip(made.lent.needed, 32 * left.session.needed);
        })),
        trial(kind, words, "a commit leaves the needed bytes as they were", leaves_list()),
        trial(kind, words, "a commit swaps the first two needed ids", Damage::Committed(|made, left| {
            if left.session.needed > 1 {
                made.lent.needed[..64].rotate_left(32);
            }
        })),
        trial("merges", words, "a commit changes the needed id number 131,073", Damage::Committed(|made, left| {
            if left.session.needed > 131_072 {
                flip(made.lent.needed, 32 * 131_072);
            }
        })),
        trial("needed", words, "a commit changes the needed id number 1,048,577", Damage::Committed(|made, _| {
            if made.lent.session.needed > 1_048_576 {
                flip(made.lent.needed, 32 * 1_048_576);
            }
        })),
    ]
}

fn clears_behind() -> Damage {
    Damage::Committed(|made, left| {
        let (from, to) = (left.session.needed, made.lent.session.needed);
        made.lent.needed[32 * from..32 * to].fill(0);
    })
}

fn leaves_list() -> Damage {
    Damage::Committed(|made, _| made.lent.needed.copy_from_slice(&made.needed))
}

#[rustfmt::skip]
fn wrong_refusals() -> Vec<Trial> {
    let (kind, number) = ("fold", "answer Err");
    vec![
        trial(kind, "times differ", "a refused commit changes a time", Damage::Fold(|made| {
            if made.outcome.is_err() {
                made.lent.times.iter_mut().take(1).for_each(|time| *time ^= 1);
            }
        })),
        trial(kind, "ids differ", "a refused commit changes an id byte", Damage::Fold(|made| {
            if made.outcome.is_err() {
                flip(made.lent.ids, 0);
            }
        })),
        trial(kind, "needed bytes differ", "a refused commit changes a needed byte", refused_writes()),
        trial(kind, "needed bytes differ", "an inquiry takes the ids off the list", inquiry_writes()),
        trial(kind, number, "a refused inquiry tells what would enter", Damage::Fold(|made| {
            if let Err(FoldRefused { beside: FoldAnswer::Inquired(told), .. }) = &mut made.outcome {
                told.entering = 1;
            }
        })),
        trial(kind, number, "a refused commit tells no items", Damage::Fold(|made| {
            if let Err(FoldRefused { beside: FoldAnswer::Committed(left), .. }) = &mut made.outcome {
                left.items = 0;
            }
        })),
        trial(kind, number, "a refused commit tells another session", Damage::Fold(|made| {
            if let Err(FoldRefused { beside: FoldAnswer::Committed(left), .. }) = &mut made.outcome {
                left.session.needed = 0;
            }
        })),
    ]
}

fn refused_writes() -> Damage {
    Damage::Fold(|made| {
        if made.outcome.is_err() {
            flip(made.lent.needed, 0);
        }
    })
}

fn inquiry_writes() -> Damage {
    Damage::Inquired(|made, told| {
        if told.staying < made.lent.session.needed {
            flip(made.lent.needed, 0);
        }
    })
}

#[rustfmt::skip]
fn wrong_orders() -> Vec<Trial> {
    let (kind, words) = ("fold", "answer Err");
    vec![
        trial(kind, words, "2 of the table is checked before 1 of the batch", table_order_first()),
        trial(kind, words, "2 of the batch is checked before 1 of the table", Damage::Fold(|made| {
            if made.is_refused_by(1) && made.number_with(|lent| lent.items = 0) == 2 {
                made.refuse(2);
            }
        })),
        trial(kind, words, "4 is checked before 2", Damage::Fold(|made| {
            if made.is_refused_by(2) && made.number_with(no_tables) == 4 {
                made.refuse(4);
            }
        })),
        trial(kind, words, "15 is checked before 4", Damage::Fold(|made| {
            if made.is_refused_by(4) && !made.lent.session.done {
                made.refuse(15);
            }
        })),
        trial(kind, words, "16 is checked before 15", due_before_done()),
        trial(kind, words, "17 is checked before 16", room_before_due()),
    ]
}

fn no_tables(lent: &mut FoldLent<'_>) {
    lent.items = 0;
    lent.batch = NO_BATCH;
}

fn table_order_first() -> Damage {
    Damage::Fold(|made| {
        if made.is_refused_by(1) && made.number_with(|lent| lent.batch = NO_BATCH) == 2 {
            made.refuse(2);
        }
    })
}

fn due_before_done() -> Damage {
    Damage::Fold(|made| {
        if made.is_refused_by(15) && made.number_with(|lent| lent.session.done = true) == 16 {
            made.refuse(16);
        }
    })
}

fn room_before_due() -> Damage {
    Damage::Fold(|made| {
        let merged = made.merged();
        if made.is_refused_by(16) && (made.lent.times.len() < merged || made.lent.ids.len() / 32 < merged) {
            made.refuse(17);
        }
    })
}

/// Counts that pass 2^64 - 1 as bytes.
const BELOW_2_59: usize = (1 << 59) - 1;

#[rustfmt::skip]
fn wrong_counts() -> Vec<Trial> {
    let (kind, words) = ("fold", "answer Err");
    vec![
        trial(kind, words, "items are counted modulo 2^59", Damage::FoldLent(|lent| lent.items &= BELOW_2_59)),
        trial(kind, words, "needed ids are counted modulo 2^59",
            Damage::FoldLent(|lent| lent.session.needed &= BELOW_2_59)),
        trial(kind, words, "more needed ids than the buffer holds are accepted", Damage::FoldLent(|lent| {
            lent.session.needed = lent.session.needed.min(lent.needed.len() / 32);
        })),
        trial(kind, "answer Ok", "bytes behind the list are judged", Damage::FoldLent(|lent| {
            if lent.needed.len() % 32 == 0 && lent.session.needed <= lent.needed.len() / 32 {
                lent.session.needed = lent.needed.len() / 32;
            }
        })),
        trial(kind, "answer Ok", "the count of marks is judged", Damage::Fold(|made| {
            if made.outcome.is_ok() && made.lent.session.marked == usize::MAX {
                made.refuse(4);
            }
        })),
        trial(kind, words, "a session that is not done is accepted",
            Damage::FoldLent(|lent| lent.session.done = true)),
    ]
}

#[rustfmt::skip]
fn wrong_dues() -> Vec<Trial> {
    let kind = "fold";
    vec![
        trial(kind, "answer Err", "an item that the table has is accepted", accepts_own_item()),
        trial(kind, "answer Err", "an id that is not needed is accepted", Damage::Fold(|made| {
            if made.is_refused_by(16) && !made.lists_all() {
                made.accept();
            }
        })),
        trial(kind, "answer Ok", "an id that the table has under another time is refused", refuses_other_time()),
        trial(kind, "answer Ok", "an id under two times in the batch is refused", Damage::Fold(|made| {
            if made.outcome.is_ok() && made.repeated_ids() > 0 {
                made.refuse(16);
            }
        })),
        trial(kind, "answer Ok", "an empty batch is refused", Damage::Fold(|made| {
            if made.outcome.is_ok() && made.lent.batch.times.is_empty() {
                made.refuse(16);
            }
        })),
    ]
}

fn accepts_own_item() -> Damage {
    Damage::Fold(|made| {
        if made.is_refused_by(16) && made.lists_all() {
            made.accept();
        }
    })
}

fn refuses_other_time() -> Damage {
    Damage::Fold(|made| {
        if made.outcome.is_ok() && made.table_has_id() {
            made.refuse(16);
        }
    })
}

#[rustfmt::skip]
fn wrong_room() -> Vec<Trial> {
    let kind = "fold";
    vec![
        trial(kind, "answer Ok", "exact room is refused", refuses_exact_room()),
        trial(kind, "answer Ok", "longer buffers are refused by 1", Damage::Fold(|made| {
            if made.outcome.is_ok() && made.lent.times.len() > made.merged() {
                made.refuse(1);
            }
        })),
        trial(kind, "answer Ok", "unequal buffers are refused by 1", Damage::Fold(|made| {
            if made.outcome.is_ok() && made.lent.ids.len() != 32 * made.lent.times.len() {
                made.refuse(1);
            }
        })),
        trial(kind, "answer Ok", "an empty batch in full buffers is refused", Damage::Fold(|made| {
            if made.outcome.is_ok() && made.lent.times.len() == made.lent.items && made.lent.items > 0 {
                made.refuse(17);
            }
        })),
        trial(kind, "answer Err", "room for times is not judged", Damage::Fold(|made| {
            if made.is_refused_by(17) && made.lent.ids.len() / 32 >= made.merged() {
                made.accept();
            }
        })),
        trial(kind, "answer Err", "room for ids is not judged", Damage::Fold(|made| {
            if made.is_refused_by(17) && made.lent.times.len() >= made.merged() {
                made.accept();
            }
        })),
        trial(kind, "answer Err", "an inquiry does not judge room", inquires_without_room()),
    ]
}

fn refuses_exact_room() -> Damage {
    Damage::Fold(|made| {
        let merged = made.merged();
        if made.outcome.is_ok() && (made.lent.times.len() == merged || made.lent.ids.len() / 32 == merged) {
            made.refuse(17);
        }
    })
}

fn inquires_without_room() -> Damage {
    Damage::Fold(|made| {
        if made.is_refused_by(17) && made.call == FoldCall::Inquire {
            made.accept();
        }
    })
}

/// At the most items of a table.
#[rustfmt::skip]
fn largest() -> Vec<Trial> {
    let kind = "merges";
    vec![
        trial(kind, "answer Ok", "a merge of the most items is refused", Damage::Fold(|made| {
            if made.outcome.is_ok() && made.merged() == MAX_ITEMS {
                made.refuse(17);
            }
        })),
        trial(kind, "answer Err", "a merge of one item too many is accepted", accepts_one_more()),
        trial(kind, "answer Err", "a table of one item too many is refused by 17", Damage::Fold(|made| {
            if made.is_refused_by(1) && made.lent.items == MAX_ITEMS + 1 {
                made.refuse(17);
            }
        })),
        trial(kind, "answer Err", "a batch of one item too many is refused by 17", Damage::Fold(|made| {
            if made.is_refused_by(1) && made.lent.batch.times.len() == MAX_ITEMS + 1 {
                made.refuse(17);
            }
        })),
    ]
}

fn accepts_one_more() -> Damage {
    Damage::Fold(|made| {
        if made.is_refused_by(17) && made.merged() == MAX_ITEMS + 1 {
            made.accept();
        }
    })
}

/// Damages of both sides alike, that the checks on the results themselves have to find.
#[rustfmt::skip]
pub fn both_sided() -> Vec<Trial> {
    let (kind, both, behind) = ("fold", "both say", "behind what was written");
    vec![
        trial("examples", both, "an id that the table has under another time is refused", refuses_other_time()),
        trial("examples", "the needed bytes and the expected ones", "a commit leaves the needed bytes as they were",
            leaves_list()),
        trial(kind, "do not agree", "an inquiry tells an id too many that stays", one_more_stays()),
        trial(kind, "do not agree", "an inquiry does not judge room", inquires_without_room()),
        trial(kind, "the union of table and batch", "a commit swaps the last two ids", swaps_ids()),
        trial(kind, "the union of both", "a commit changes the last id", changes_last_id()),
        trial(kind, "the one without the batch", "a commit leaves the needed bytes as they were", leaves_list()),
        trial(kind, behind, "a commit clears needed bytes behind the list", clears_behind()),
        trial(kind, behind, "a commit changes an id byte behind the merge", changes_behind()),
        trial(kind, "before and afterwards", "a refused commit changes a needed byte", refused_writes()),
        trial(kind, "an inquiry: needed bytes", "an inquiry takes the ids off the list", inquiry_writes()),
        trial(kind, both, "2 of the table is checked before 1 of the batch", table_order_first()),
        trial(kind, both, "16 is checked before 15", due_before_done()),
        trial(kind, both, "17 is checked before 16", room_before_due()),
        trial(kind, both, "exact room is refused", refuses_exact_room()),
        trial(kind, both, "an item that the table has is accepted", accepts_own_item()),
        trial("merges", both, "a merge of one item too many is accepted", accepts_one_more()),
    ]
}
