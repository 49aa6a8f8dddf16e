//! The damages of the self-check in what sessions and calls do with labels.
use crate::calls::{Call, Calls, FoldAnswer, FoldCall, FoldRefused, Outcome, Reference};
use crate::damage::{Damage, Made};
use crate::fold_made::FoldMade;
use crate::generate::whole_ids;
use crate::label::label_of;
use crate::trials::{flip, is_refused_by, trial, Trial};
use recon::{Label, Sent, Session, Table};

/// Damages of one side, that comparing has to find.
pub fn one_sided() -> Vec<Trial> {
    let lists = [
        wrong_labels(),
        wrong_comparisons(),
        wrong_orders(),
        wrong_conversions(),
        wrong_judgements(),
        wrong_refusals(),
        wrong_commits(),
    ];
    lists.into_iter().flatten().collect()
}

fn open(spoil: fn(&mut Made<'_, '_>, &mut Sent)) -> Damage {
    Damage::Sent(Call::Open, spoil)
}

fn take(spoil: fn(&mut Made<'_, '_>, &mut Sent)) -> Damage {
    Damage::Sent(Call::Take, spoil)
}

fn convert(spoil: fn(&mut Made<'_, '_>, &mut Sent)) -> Damage {
    Damage::Sent(Call::Convert, spoil)
}

#[rustfmt::skip]
fn wrong_labels() -> Vec<Trial> {
    let (kind, words) = ("labelled", "answer Ok");
    vec![
        trial(kind, words, "an opening leaves the empty label", opens_without()),
        trial(kind, words, "an opening leaves the label of all items but the last", open(|made, sent| {
            let Table { times, ids } = made.lent.table;
            let count = times.len().saturating_sub(1);
            sent.session.label = label_of(Table { times: &times[..count], ids: &ids[..32 * count] });
        })),
        trial(kind, words, "an opening leaves a label without its count", open(|_, sent| sent.session.label.count = 0)),
        trial(kind, words, "the words of a sum do not carry", open(|made, sent| {
            sent.session.label.sum = [0, 1, 2, 3].map(|at| word_alone(made.lent.table, at));
        })),
        trial(kind, words, "an opening has the times in its label", open(|made, sent| {
            let times = made.lent.table.times.iter();
            let sum = &mut sent.session.label.sum[0];
            *sum = times.fold(*sum, |sum, &time| sum.wrapping_add(time));
        })),
        trial(kind, words, "a take leaves the empty label", take(|_, sent| sent.session.label = Label::default())),
    ]
}

fn opens_without() -> Damage {
    open(|_, sent| sent.session.label = Label::default())
}

/// A word of the ids added up without the carry of the one before.
fn word_alone(table: Table<'_>, at: usize) -> u64 {
    let words = whole_ids(table.ids).map(|mut id| {
        id[..8 * at].fill(0);
        label_of(Table { times: &[], ids: &id }).sum[at]
    });
    words.fold(0, u64::wrapping_add)
}

/// Makes a take anew that is refused by 18 though the labels are alike, by a comparison that sees less.
fn compare_less(made: &mut Made<'_, '_>, outcome: &mut Outcome, alike: fn(Label, Label) -> bool) {
    if !is_refused_by(outcome, 18) {
        return;
    }
    let (own, handed) = (label_of(made.lent.table), made.lent.session.label);
    if alike(own, handed) {
        *outcome = with_label(made, own);
        match outcome {
            Ok(sent) => sent.session.label = handed,
            Err(refused) => refused.session.label = handed,
        }
    }
}

/// What a take does with another label in its session, which it leaves there.
fn with_label(made: &mut Made<'_, '_>, label: Label) -> Outcome {
    made.undo();
    let handed = made.lent.session.label;
    made.lent.session.label = label;
    let outcome = Reference.run(made.call, made.lent);
    made.lent.session.label = handed;
    outcome
}

#[rustfmt::skip]
fn wrong_comparisons() -> Vec<Trial> {
    let (kind, words) = ("labelled", "answer Err");
    vec![
        trial(kind, words, "no label is compared", compares_nothing()),
        trial(kind, words, "the count is not compared", compares_no_count()),
        trial(kind, words, "the sum is not compared", Damage::Any(|made, outcome| {
            compare_less(made, outcome, |own, handed| own.count == handed.count);
        })),
        trial(kind, words, "only the first word and the count are compared", Damage::Any(|made, outcome| {
            compare_less(made, outcome, |own, handed| own.sum[0] == handed.sum[0] && own.count == handed.count);
        })),
        trial(kind, words, "the first word is not compared", Damage::Any(|made, outcome| {
            compare_less(made, outcome, |own, handed| alike_but(own, handed, 0));
        })),
        trial(kind, words, "the second word is not compared", Damage::Any(|made, outcome| {
            compare_less(made, outcome, |own, handed| alike_but(own, handed, 1));
        })),
        trial(kind, words, "the third word is not compared", Damage::Any(|made, outcome| {
            compare_less(made, outcome, |own, handed| alike_but(own, handed, 2));
        })),
        trial(kind, words, "the last word is not compared", Damage::Any(|made, outcome| {
            compare_less(made, outcome, |own, handed| alike_but(own, handed, 3));
        })),
        trial("refusals", words, "the count is compared modulo 2^32", Damage::Any(|made, outcome| {
            compare_less(made, outcome, |own, handed| own.sum == handed.sum && own.count as u32 == handed.count as u32);
        })),
        trial(kind, words, "a take puts the label of its table into the session", Damage::Any(|made, outcome| {
            if is_refused_by(outcome, 18) {
                *outcome = with_label(made, label_of(made.lent.table));
            }
        })),
    ]
}

fn compares_nothing() -> Damage {
    Damage::Any(|made, outcome| compare_less(made, outcome, |_, _| true))
}

fn compares_no_count() -> Damage {
    Damage::Any(|made, outcome| compare_less(made, outcome, |own, handed| own.sum == handed.sum))
}

/// Whether two labels are the same but for a word.
fn alike_but(mut own: Label, handed: Label, at: usize) -> bool {
    own.sum[at] = handed.sum[at];
    own == handed
}

/// Whether the table that a take is handed has another label than its session.
fn has_other_table(made: &Made<'_, '_>) -> bool {
    made.call == Call::Take && label_of(made.lent.table) != made.lent.session.label
}

/// 18 before a check that comes before it.
fn too_early(made: &mut Made<'_, '_>, outcome: &mut Outcome, number: u8) {
    if is_refused_by(outcome, number) && has_other_table(made) {
        made.refuse(outcome, 18);
    }
}

/// 18 after checks that come after it.
fn too_late(made: &mut Made<'_, '_>, outcome: &mut Outcome, before: fn(u8) -> bool) {
    if is_refused_by(outcome, 18) {
        let own = label_of(made.lent.table);
        match with_label(made, own) {
            Err(refused) if before(refused.number) => made.refuse(outcome, refused.number),
            _ => made.refuse(outcome, 18),
        }
    }
}

#[rustfmt::skip]
fn wrong_orders() -> Vec<Trial> {
    let (kind, words) = ("labelled", "answer Err");
    vec![
        trial(kind, words, "18 is checked before 3", Damage::Any(|made, outcome| too_early(made, outcome, 3))),
        trial(kind, words, "18 is checked before 14", Damage::Any(|made, outcome| too_early(made, outcome, 14))),
        trial(kind, words, "18 is checked before 4", before_state()),
        trial(kind, words, "18 is checked after 5", after_done()),
        trial(kind, words, "18 is checked after 6", Damage::Any(|made, outcome| {
            too_late(made, outcome, |number| number == 6);
        })),
        trial(kind, words, "18 is checked after the reply is read", Damage::Any(|made, outcome| {
            too_late(made, outcome, |number| matches!(number, 7..=10));
        })),
        trial(kind, words, "18 is checked after 11", Damage::Any(|made, outcome| {
            too_late(made, outcome, |number| number == 11);
        })),
        trial(kind, words, "18 is checked after 12", Damage::Any(|made, outcome| {
            too_late(made, outcome, |number| number == 12);
        })),
    ]
}

fn before_state() -> Damage {
    Damage::Any(|made, outcome| too_early(made, outcome, 4))
}

fn after_done() -> Damage {
    Damage::Any(|made, outcome| too_late(made, outcome, |number| number == 5))
}

#[rustfmt::skip]
fn wrong_conversions() -> Vec<Trial> {
    let (kind, words) = ("labelled", "answer Ok");
    vec![
        trial(kind, words, "a conversion leaves the empty label", converts_to_nothing()),
        trial(kind, words, "a conversion leaves a label without its count",
            convert(|_, sent| sent.session.label.count = 0)),
        trial(kind, words, "a conversion leaves a label without its sum",
            convert(|_, sent| sent.session.label.sum = [0; 4])),
        trial(kind, words, "a conversion opens the session again", convert(|_, sent| sent.session.done = false)),
        trial(kind, words, "a conversion drops the count of marks", convert(|_, sent| sent.session.marked = 0)),
        trial(kind, words, "a conversion drops the count of needed ids", convert(|_, sent| sent.session.needed = 0)),
        trial(kind, words, "a conversion tells a length", convert(|_, sent| sent.length = 1)),
        trial(kind, "marks differ", "a conversion clears the marks", convert(|made, _| made.lent.marks.fill(0))),
        trial(kind, "needed bytes differ", "a conversion changes a needed byte", converts_needed()),
        trial(kind, words, "a conversion refuses sessions that are done", refuses_done()),
        trial(kind, words, "a conversion refuses sessions that are not done", Damage::Any(|made, outcome| {
            if made.call == Call::Convert && !made.lent.session.done && outcome.is_ok() {
                made.refuse(outcome, 15);
            }
        })),
        trial(kind, words, "a conversion compares with the empty label", Damage::Any(|made, outcome| {
            if made.call == Call::Convert && outcome.is_ok() && label_of(made.lent.table) != Label::default() {
                made.refuse(outcome, 18);
            }
        })),
        trial(kind, words, "a conversion judges a cut that it is not handed", Damage::Any(|made, outcome| {
            if made.call == Call::Convert && outcome.is_ok() {
                made.refuse(outcome, 3);
            }
        })),
    ]
}

fn converts_to_nothing() -> Damage {
    convert(|_, sent| sent.session.label = Label::default())
}

fn converts_needed() -> Damage {
    convert(|made, _| flip(made.lent.needed, 0))
}

fn refuses_done() -> Damage {
    Damage::Any(|made, outcome| {
        if made.call == Call::Convert && made.lent.session.done && outcome.is_ok() {
            made.refuse(outcome, 5);
        }
    })
}

/// Accepts a conversion after all that is refused by 4, if it would not be with something else lent.
fn accept_if(made: &mut Made<'_, '_>, outcome: &mut Outcome, change: fn(&mut Made<'_, '_>)) {
    if made.call == Call::Convert && is_refused_by(outcome, 4) {
        let session = made.lent.session;
        change(made);
        let other = Reference.run(Call::Convert, made.lent);
        made.undo();
        made.lent.session = session;
        if let Ok(sent) = other {
            let label = sent.session.label;
            *outcome = Ok(Sent {
                length: 0,
                session: Session { label, ..session },
            });
        }
    }
}

#[rustfmt::skip]
fn wrong_judgements() -> Vec<Trial> {
    let (kind, words) = ("labelled", "answer Err");
    vec![
        trial(kind, words, "a conversion takes marks above 1", Damage::Any(|made, outcome| {
            accept_if(made, outcome, |made| made.lent.marks.iter_mut().for_each(|mark| *mark = (*mark).min(1)));
        })),
        trial(kind, words, "a conversion does not count the marks", Damage::Any(|made, outcome| {
            accept_if(made, outcome, |made| {
                made.lent.session.marked = made.lent.marks.iter().filter(|&&mark| mark == 1).count();
            });
        })),
        trial(kind, words, "a conversion takes more needed ids than the buffer holds", Damage::Any(|made, outcome| {
            accept_if(made, outcome, |made| {
                made.lent.session.needed = made.lent.session.needed.min(made.lent.needed.len() / 32);
            });
        })),
        trial(kind, words, "a conversion takes needed ids that do not rise", Damage::Any(|made, outcome| {
            accept_if(made, outcome, |made| {
                let mut ids: Vec<[u8; 32]> = whole_ids(made.lent.needed).collect();
                ids.sort_unstable();
                // Equal ones become others.
                ids.iter_mut().zip(0..).for_each(|(id, number)| id[0] = number);
                made.lent.needed.chunks_exact_mut(32).zip(ids).for_each(|(place, id)| place.copy_from_slice(&id));
            });
        })),
        trial(kind, "answer Ok", "a conversion judges ids behind the list", Damage::Any(|made, outcome| {
            let ids: Vec<[u8; 32]> = whole_ids(made.lent.needed).collect();
            let rise = ids.windows(2).all(|pair| pair[0] < pair[1]);
            if made.call == Call::Convert && outcome.is_ok() && !rise {
                made.refuse(outcome, 4);
            }
        })),
        trial(kind, words, "a conversion checks 4 before 2", Damage::Any(|made, outcome| {
            let fits = made.lent.marks.len() == made.lent.table.times.len();
            if made.call == Call::Convert && is_refused_by(outcome, 2) && !fits {
                made.refuse(outcome, 4);
            }
        })),
        trial(kind, words, "a conversion checks 4 before 1", Damage::Any(|made, outcome| {
            if made.call == Call::Convert && is_refused_by(outcome, 1) && made.lent.needed.len() % 32 > 0 {
                made.refuse(outcome, 4);
            }
        })),
    ]
}

#[rustfmt::skip]
fn wrong_refusals() -> Vec<Trial> {
    let (kind, words) = ("labelled", "answer Err");
    vec![
        trial(kind, words, "a refused conversion answers the session handed over", answers_handed()),
        trial(kind, words, "a refused conversion answers a session that is done", Damage::Refused(|made, refused| {
            refused.session.done |= made.call == Call::Convert;
        })),
        trial(kind, words, "a refused conversion answers the label of its table", Damage::Refused(|made, refused| {
            if made.call == Call::Convert {
                refused.session.label = label_of(made.lent.table);
            }
        })),
        trial("refusals", words, "a refused opening answers the label of its table", Damage::Refused(|made, refused| {
            if made.call == Call::Open {
                refused.session.label = label_of(made.lent.table);
            }
        })),
        trial(kind, words, "a refused take answers the label of its table", takes_label()),
        trial(kind, "needed bytes differ", "a refused conversion changes a needed byte", Damage::Refused(|made, _| {
            if made.call == Call::Convert {
                flip(made.lent.needed, 0);
            }
        })),
    ]
}

fn answers_handed() -> Damage {
    Damage::Refused(|made, refused| {
        if made.call == Call::Convert {
            refused.session = made.lent.session;
        }
    })
}

fn takes_label() -> Damage {
    Damage::Refused(|made, refused| {
        if made.call == Call::Take {
            refused.session.label = label_of(made.lent.table);
        }
    })
}

#[rustfmt::skip]
fn wrong_commits() -> Vec<Trial> {
    let kind = "fold";
    vec![
        trial(kind, "answer Ok", "a commit puts the label of the merged table into the session", commits_label()),
        trial(kind, "answer Ok", "a commit leaves the empty label",
            Damage::Committed(|_, left| left.session.label = Label::default())),
        trial(kind, "answer Ok", "an inquiry compares the label", Damage::Fold(|made| {
            refuse_other_table(made, FoldCall::Inquire);
        })),
        trial(kind, "answer Ok", "a commit compares the label", Damage::Fold(|made| {
            refuse_other_table(made, FoldCall::Commit);
        })),
        trial(kind, "answer Err", "a refused commit answers the empty label", Damage::Fold(|made| {
            if let Err(FoldRefused { beside: FoldAnswer::Committed(left), .. }) = &mut made.outcome {
                left.session.label = Label::default();
            }
        })),
    ]
}

fn commits_label() -> Damage {
    Damage::Committed(|made, left| {
        left.session.label = label_of(Table {
            times: &made.lent.times[..left.items],
            ids: &made.lent.ids[..32 * left.items],
        });
    })
}

/// Refuses by 18 a table that has not the label of the session.
fn refuse_other_table(made: &mut FoldMade<'_, '_>, call: FoldCall) {
    if made.call == call && made.outcome.is_ok() {
        let items = made.lent.items;
        let table = Table {
            times: &made.times[..items],
            ids: &made.ids[..32 * items],
        };
        if label_of(table) != made.lent.session.label {
            made.refuse(18);
        }
    }
}

/// Damages of both sides alike, that the checks on the results themselves have to find.
#[rustfmt::skip]
pub fn both_sided() -> Vec<Trial> {
    let (kind, both, label) = ("labelled", "both say", "the label of the table");
    vec![
        trial("tables", label, "an opening leaves the empty label", opens_without()),
        trial(kind, label, "no label is compared", compares_nothing()),
        trial(kind, label, "the count is not compared", compares_no_count()),
        trial("sessions", label, "a take leaves the empty label",
            take(|_, sent| sent.session.label = Label::default())),
        trial(kind, both, "18 is checked before 4", before_state()),
        trial(kind, "and the labels are", "18 is checked after 5", after_done()),
        trial(kind, label, "a conversion leaves the empty label", converts_to_nothing()),
        trial(kind, label, "a conversion opens the session again", convert(|_, sent| sent.session.done = false)),
        trial(kind, "a conversion: needed bytes", "a conversion changes a needed byte", converts_needed()),
        trial(kind, both, "a conversion refuses sessions that are done", refuses_done()),
        trial(kind, "stands beside", "a refused conversion answers the session handed over", answers_handed()),
        trial("refusals", "stands beside", "a refused take answers the label of its table", takes_label()),
        trial("fold", both, "a commit puts the label of the merged table into the session", commits_label()),
        trial("fold", "is not given back", "a commit puts the label of the merged table into the session", commits_label()),
    ]
}
