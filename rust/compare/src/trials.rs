//! The damages of the self-check, each with the kind of cases that has to find it.
use crate::calls::{Call, Outcome};
use crate::carried_trials;
use crate::damage::{Damage, Made};
use crate::fold_trials;
use crate::guard::Side;
use crate::label_trials;
use crate::tree_trials;
use crate::within_trials;
use recon::{Cut, Sent, Table, MAX_ITEMS};

/// A damage, the kind of cases that has to find it, and words of what that kind has to say.
pub struct Trial {
    pub kind: &'static str,
    pub words: &'static str,
    pub name: String,
    pub damage: Damage,
}

pub fn trial(kind: &'static str, words: &'static str, name: impl Into<String>, damage: Damage) -> Trial {
    let name = name.into();
    Trial {
        kind,
        words,
        name,
        damage,
    }
}

type SpoilSent = fn(&mut Made<'_, '_>, &mut Sent);

fn open(spoil: SpoilSent) -> Damage {
    Damage::Sent(Call::Open, spoil)
}

fn answer(spoil: SpoilSent) -> Damage {
    Damage::Sent(Call::Answer, spoil)
}

fn take(spoil: SpoilSent) -> Damage {
    Damage::Sent(Call::Take, spoil)
}

/// Turns a bit of a byte, if there is one at this place.
pub fn flip(bytes: &mut [u8], at: usize) {
    if let Some(byte) = bytes.get_mut(at) {
        *byte ^= 1;
    }
}

/// Damages of one side, that comparing has to find.
pub fn one_sided() -> Vec<Trial> {
    let renumbered = (1..=12).chain([14, 18]).map(|number| {
        let other = if number < 12 { number + 1 } else { 11 };
        let name = format!("refusal {} is told as {}", number, other);
        trial("refusals", "answer Err", name, Damage::Renumber(number, other))
    });
    let lists = [
        wrong_results(),
        wrong_state(),
        wrong_messages(),
        wrong_refusals(),
        wrong_versions(),
        wrong_room(),
        wrong_hashes(),
        tree_trials::one_sided(),
        within_trials::one_sided(),
        carried_trials::one_sided(),
        label_trials::one_sided(),
        fold_trials::one_sided(),
    ];
    lists.into_iter().flatten().chain(renumbered).collect()
}

#[rustfmt::skip]
fn wrong_results() -> Vec<Trial> {
    let words = "answer Ok";
    vec![
        trial("sessions", words, "take counts a mark too many", take(|_, sent| sent.session.marked += 1)),
        trial("sessions", words, "take counts a needed id too many", take(|_, sent| sent.session.needed += 1)),
        trial("sessions", words, "take turns the done flag", take(|_, sent| sent.session.done ^= true)),
        trial("sessions", words, "take tells a length too large", take(|_, sent| sent.length += 1)),
        trial("tables", words, "answer tells a length too small", answer(|_, sent| sent.length -= 1)),
        trial("tables", words, "open leaves a session that is done", open(|_, sent| sent.session.done = true)),
        trial("examples", words, "open tells a length too large", open(|_, sent| sent.length += 1)),
    ]
}

#[rustfmt::skip]
fn wrong_state() -> Vec<Trial> {
    let (marks, needed) = ("marks differ", "needed bytes differ");
    vec![
        trial("sessions", marks, "take flips a mark", take(|made, _| flip(made.lent.marks, 0))),
        trial("sessions", marks, "take clears the marks set earlier", take(clear_marks)),
        trial("sessions", needed, "take swaps two needed ids", take(swap_needed)),
        trial("sessions", needed, "take changes the last needed id", take(change_needed)),
        trial("lists", needed, "take changes the needed id number 16,385", take(change_far_needed)),
        trial("sessions", needed, "take changes a needed byte behind the list",
            take(|made, sent| flip(made.lent.needed, 32 * sent.session.needed))),
        trial("tables", marks, "open leaves the last mark", open(leave_mark)),
        trial("tables", needed, "open changes a needed byte", open(|made, _| flip(made.lent.needed, 0))),
    ]
}

fn clear_marks(made: &mut Made<'_, '_>, _: &mut Sent) {
    let marks = made.lent.marks.iter_mut().zip(&made.marks);
    marks.filter(|(_, &before)| before == 1).for_each(|(mark, _)| *mark = 0);
}

fn swap_needed(made: &mut Made<'_, '_>, sent: &mut Sent) {
    if sent.session.needed > 1 {
        made.lent.needed[..64].rotate_left(32);
    }
}

fn change_needed(made: &mut Made<'_, '_>, sent: &mut Sent) {
    if sent.session.needed > 0 {
        flip(made.lent.needed, 32 * sent.session.needed - 1);
    }
}

fn change_far_needed(made: &mut Made<'_, '_>, sent: &mut Sent) {
    if sent.session.needed > 16_384 {
        flip(made.lent.needed, 32 * 16_384);
    }
}

fn leave_mark(made: &mut Made<'_, '_>, _: &mut Sent) {
    if let (Some(mark), Some(before)) = (made.lent.marks.last_mut(), made.marks.last()) {
        *mark = *before;
    }
}

fn wrong_messages() -> Vec<Trial> {
    let words = "out bytes differ";
    let last: SpoilSent = |made, sent| flip(made.lent.out, sent.length.wrapping_sub(1));
    vec![
        trial("sessions", words, "take changes the last byte of the query", take(last)),
        trial(
            "tables",
            words,
            "answer changes the last byte of the answer",
            answer(last),
        ),
        trial("tables", words, "open changes the last byte of the query", open(last)),
        trial(
            "tables",
            words,
            "open changes the query of one item more than the largest list limit",
            open(change_above_limit),
        ),
        trial(
            "sessions",
            words,
            "take changes an out byte behind it",
            take(change_behind),
        ),
        trial(
            "damaged",
            words,
            "answer changes an out byte behind it",
            answer(change_behind),
        ),
        trial("room", words, "open changes an out byte behind it", open(change_behind)),
    ]
}

fn change_above_limit(made: &mut Made<'_, '_>, _: &mut Sent) {
    if made.lent.cut.limit == 4_096 && made.lent.table.times.len() == 4_097 {
        flip(made.lent.out, 0);
    }
}

fn change_behind(made: &mut Made<'_, '_>, sent: &mut Sent) {
    flip(made.lent.out, sent.length);
}

#[rustfmt::skip]
fn wrong_refusals() -> Vec<Trial> {
    let number = "answer Err";
    vec![
        trial("refusals", "out bytes differ", "a refused call changes an out byte", refused_changes_out()),
        trial("refusals", "marks differ", "a refused call changes a mark",
            Damage::Refused(|made, _| flip(made.lent.marks, 0))),
        trial("refusals", "needed bytes differ", "a refused call changes a needed byte",
            Damage::Refused(|made, _| flip(made.lent.needed, 0))),
        trial("refusals", number, "a refused call leaves another session",
            Damage::Refused(|_, refused| refused.session.needed ^= 1)),
        trial("refusals", number, "a refused opening leaves a session that is done",
            Damage::Refused(|made, refused| refused.session.done |= made.call == Call::Open)),
        trial("damaged", number, "a message that ends early is refused by 8", Damage::Renumber(7, 8)),
        trial("sessions", number, "a session that is done is refused by 6", Damage::Renumber(5, 6)),
        trial("refusals", number, "equal items behind the first two are accepted", Damage::Any(|made, outcome| {
            if is_refused_by(outcome, 2) && has_equal_items(made.lent.table, 1) {
                made.accept(outcome);
            }
        })),
        trial("refusals", number, "limit 63 for 64 parts is accepted", Damage::Any(|made, outcome| {
            if is_refused_by(outcome, 3) && made.lent.cut == (Cut { parts: 64, limit: 63 }) {
                made.accept(outcome);
            }
        })),
    ]
}

#[rustfmt::skip]
fn wrong_versions() -> Vec<Trial> {
    vec![
        trial("versions", "answer Ok", "another version is refused by 6", refuses_version()),
        trial("versions", "answer Ok", "a query is read behind 62", Damage::Any(|made, outcome| {
            if outcome.is_ok() && made.lent.message.starts_with(&[0x62, 0x80]) {
                made.refuse(outcome, 8);
            }
        })),
        trial("versions", "answer Err", "5F is answered", Damage::Any(|made, outcome| {
            if made.lent.message.starts_with(&[0x5f]) && is_refused_by(outcome, 6) {
                made.accept(outcome);
            }
        })),
        trial("versions", "answer Err", "the answer to another version needs no room", Damage::Any(|made, outcome| {
            if made.lent.message.starts_with(&[0x62]) && is_refused_by(outcome, 12) {
                made.accept(outcome);
            }
        })),
    ]
}

pub fn is_refused_by(outcome: &Outcome, number: u8) -> bool {
    matches!(outcome, Err(refused) if refused.number == number)
}

/// Whether two neighbours are equal, from this item on.
fn has_equal_items(table: Table<'_>, from: usize) -> bool {
    let items = || table.times.iter().zip(table.ids.chunks(32)).skip(from);
    items().zip(items().skip(1)).any(|(first, second)| first == second)
}

fn refused_changes_out() -> Damage {
    Damage::Refused(|made, _| flip(made.lent.out, 0))
}

fn refuses_version() -> Damage {
    Damage::Any(|made, outcome| {
        if outcome.is_ok() && made.lent.message.starts_with(&[0x62]) {
            made.refuse(outcome, 6);
        }
    })
}

#[rustfmt::skip]
fn wrong_room() -> Vec<Trial> {
    vec![
        trial("room", "answer Ok", "exact out room is refused", refuses_exact_room()),
        trial("room", "answer Ok", "exact needed room is refused", Damage::Any(|made, outcome| {
            let exact = made.needed.len() / 32;
            if matches!(outcome, Ok(sent) if made.call == Call::Take && sent.session.needed == exact) {
                made.refuse(outcome, 11);
            }
        })),
        trial("room", "answer Ok", "a take that is done without out room is refused", Damage::Any(|made, outcome| {
            if matches!(outcome, Ok(sent) if sent.session.done && made.out.is_empty()) {
                made.refuse(outcome, 12);
            }
        })),
        trial("limits", "answer Ok", "the largest table is refused", Damage::Any(|made, outcome| {
            if made.lent.table.times.len() == MAX_ITEMS {
                made.refuse(outcome, 1);
            }
        })),
        trial("limits", "answer Err", "an item too many is accepted", accepts_one_more()),
    ]
}

fn refuses_exact_room() -> Damage {
    Damage::Any(|made, outcome| {
        if matches!(outcome, Ok(sent) if sent.length == made.out.len()) {
            made.refuse(outcome, 12);
        }
    })
}

fn accepts_one_more() -> Damage {
    Damage::Any(|made, outcome| {
        if made.lent.table.times.len() == MAX_ITEMS + 1 {
            made.accept(outcome);
        }
    })
}

#[rustfmt::skip]
fn wrong_hashes() -> Vec<Trial> {
    vec![
        trial("fingerprints", "tell Ok", "a fingerprint has a wrong bit", wrong_fingerprint()),
        trial("fingerprints", "tell Err(9)", "a prefix at infinity passes", Damage::Fingerprint(|lower, _, result| {
            if lower.infinite && *result == Err(9) {
                *result = Ok([0; 16]);
            }
        })),
        trial("fingerprints", "tell Err(9)", "a prefix is judged by the last byte of its length",
            Damage::Fingerprint(|lower, _, result| {
                if matches!(lower.prefix.len(), 256 | 288) && *result == Err(9) {
                    *result = Ok([0; 16]);
                }
            })),
        trial("fingerprints", "tell Err(2)", "a bound is judged too early", Damage::Fingerprint(|_, upper, result| {
            if upper.prefix.len() > 32 && *result == Err(2) {
                *result = Err(9);
            }
        })),
        trial("digests", "digests of 56 bytes", "a digest has a wrong bit where padding adds a block",
            Damage::Digest(|message, digest| digest[31] ^= u8::from(message.len() % 64 == 56))),
    ]
}

fn wrong_fingerprint() -> Damage {
    Damage::Fingerprint(|_, _, result| {
        if let Ok(bytes) = result {
            bytes[15] ^= 0x80;
        }
    })
}

/// Damages of both sides alike, that the checks on the results themselves have to find.
#[rustfmt::skip]
pub fn both_sided() -> Vec<Trial> {
    let both = "both say";
    let mut trials = wrong_reports();
    trials.extend(tree_trials::both_sided());
    trials.extend(within_trials::both_sided());
    trials.extend(carried_trials::both_sided());
    trials.extend(label_trials::both_sided());
    trials.extend(fold_trials::both_sided());
    trials.extend([
        trial("examples", "differ at 0", "open writes another version", open(|made, _| flip(made.lent.out, 0))),
        trial("examples", both, "a bad bound is refused by 10", Damage::Renumber(9, 10)),
        trial("refusals", both, "a bad mode is refused by 9", Damage::Renumber(10, 9)),
        trial("refusals", "before and afterwards", "a refused call changes an out byte", refused_changes_out()),
        trial("versions", both, "another version is refused by 6", refuses_version()),
        trial("room", both, "exact out room is refused", refuses_exact_room()),
        trial("tables", "the session says", "take counts a mark too many", take(|_, sent| sent.session.marked += 1)),
        trial("tables", "behind what was written", "answer changes an out byte behind it", answer(change_behind)),
        trial("limits", both, "an item too many is accepted", accepts_one_more()),
        trial("fingerprints", "an empty range", "a fingerprint has a wrong bit", wrong_fingerprint()),
        trial("digests", "the digest of", "a digest has a wrong bit", Damage::Digest(|_, digest| digest[0] ^= 1)),
    ]);
    trials
}

/// Reports that are not true or not complete, and sessions that do not end.
fn wrong_reports() -> Vec<Trial> {
    let (untold, kind) = ("is not reported", "sessions");
    vec![
        trial(kind, untold, "take says done without looking", take(say_done)),
        trial(kind, untold, "take drops the last needed id", take(drop_needed)),
        trial(kind, untold, "only the first reports are kept", take(keep_first)),
        trial(kind, untold, "an answer is always 61", answer(say_nothing)),
        trial(kind, "they have it too", "take marks an item too many", take(mark_more)),
        trial(
            kind,
            "not only theirs",
            "take changes the last needed id",
            take(change_needed),
        ),
        trial(kind, "takes in a row", "take is never done", take(never_say_done)),
    ]
}

pub fn say_done(made: &mut Made<'_, '_>, sent: &mut Sent) {
    made.lent.out.copy_from_slice(&made.out);
    sent.length = 0;
    sent.session.done = true;
}

pub fn never_say_done(made: &mut Made<'_, '_>, sent: &mut Sent) {
    if sent.session.done && !made.out.is_empty() {
        made.lent.out[0] = 0x61;
        sent.length = 1;
        sent.session.done = false;
    }
}

pub fn say_nothing(made: &mut Made<'_, '_>, sent: &mut Sent) {
    made.lent.out[1..].copy_from_slice(&made.out[1..]);
    sent.length = 1;
}

pub fn mark_more(made: &mut Made<'_, '_>, sent: &mut Sent) {
    if let Some(mark) = made.lent.marks.iter_mut().find(|mark| **mark == 0) {
        *mark = 1;
        sent.session.marked += 1;
    }
}

fn drop_needed(made: &mut Made<'_, '_>, sent: &mut Sent) {
    if sent.session.needed > made.lent.session.needed {
        sent.session.needed -= 1;
        let behind = 32 * sent.session.needed;
        made.lent.needed[behind..].copy_from_slice(&made.needed[behind..]);
    }
}

fn keep_first(made: &mut Made<'_, '_>, sent: &mut Sent) {
    let before = made.lent.session;
    if before.marked + before.needed > 0 {
        drop_reports(made, sent);
    }
}

/// Puts back marks and needed list.
pub fn drop_reports(made: &mut Made<'_, '_>, sent: &mut Sent) {
    let before = made.lent.session;
    made.lent.marks.copy_from_slice(&made.marks);
    made.lent.needed.copy_from_slice(&made.needed);
    (sent.session.marked, sent.session.needed) = (before.marked, before.needed);
}

/// A damage that touches memory beyond a buffer, in the first case of a kind.
pub struct Beyond {
    pub name: &'static str,
    pub kind: &'static str,
    pub side: Side,
}

const fn beyond(name: &'static str, kind: &'static str, side: Side) -> Beyond {
    Beyond { name, kind, side }
}

pub const BEYOND: [Beyond; 8] = [
    beyond("behind the out buffer", "tables", Side::End),
    beyond("before the out buffer", "tables", Side::Start),
    beyond("behind the tree", "trees", Side::End),
    beyond("before the tree", "trees", Side::Start),
    beyond("behind the needed buffer", "fold", Side::End),
    beyond("before the needed buffer", "fold", Side::Start),
    beyond("behind the marks", "labelled", Side::End),
    beyond("before the marks", "labelled", Side::Start),
];
