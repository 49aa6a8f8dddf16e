//! The faults that a call can be handed: each spoils a lawful input so that one check refuses it. And the walk over two
//! faults at once, which is the same for all calls.
use crate::calls::Call;
use crate::compare::Check;
use crate::generate::{from_text, OwnedTable};
use crate::input::Input;
use crate::kinds::expect_number;
use recon::{Cut, Label, Session, MAX_ITEMS};
use reference::Odd;
use std::mem::swap;
use std::rc::Rc;

/// A fault of any call.
pub trait AnyFault {
    type Draft: Clone;

    /// The number of the refusal.
    fn number(&self) -> u8;

    /// What a failure calls it.
    fn name(&self) -> String;

    fn spoil(&self, draft: &mut Self::Draft);

    /// The number that this fault and then another give, as far as it can be said.
    fn with(&self, other: &Self) -> Option<u8>;
}

/// Makes the call of a lawful draft with the first fault, alone and then with each other one. It tells its number,
/// which has to be that of the faults, as far as it can be said.
pub fn with_first<F: AnyFault>(
    lawful: &F::Draft,
    faults: &[F],
    first: usize,
    mut call: impl FnMut(&F::Draft) -> Check<u8>,
) -> Check {
    let one = &faults[first];
    for (second, other) in faults.iter().enumerate() {
        let mut draft = lawful.clone();
        one.spoil(&mut draft);
        let expected = if first == second {
            Some(one.number())
        } else {
            other.spoil(&mut draft);
            one.with(other)
        };
        call(&draft)
            .and_then(|told| expected.map_or(Ok(()), |expected| expect_number(told, expected)))
            .map_err(|text| format!("{}; {}: {}", one.name(), other.name(), text))?;
    }
    Ok(())
}

/// An input that owns what it is made of, to be spoiled.
#[derive(Clone)]
pub struct Draft {
    pub call: Call,
    pub table: Rc<OwnedTable>,
    pub cut: Cut,
    pub odd: Odd,
    pub bytes: Option<usize>,
    pub message: Vec<u8>,
    pub session: Session,
    pub marks: Vec<u8>,
    pub needed: Vec<u8>,
    pub out: Vec<u8>,
}

thread_local! {
    /// A table of one item too many; its items do not rise, which is checked only afterwards.
    static TOO_LARGE: Rc<OwnedTable> = Rc::new(OwnedTable {
        times: vec![7; MAX_ITEMS + 1],
        ids: vec![0; 32 * (MAX_ITEMS + 1)],
    });
}

impl Draft {
    pub fn of(input: &Input<'_>) -> Draft {
        let (times, ids) = (input.table.times.to_vec(), input.table.ids.to_vec());
        Draft {
            call: input.call,
            table: Rc::new(OwnedTable { times, ids }),
            cut: input.cut,
            odd: input.odd,
            bytes: input.bytes,
            message: input.message.to_vec(),
            session: input.session,
            marks: input.marks.to_vec(),
            needed: input.needed.to_vec(),
            out: input.out.to_vec(),
        }
    }

    pub fn input(&self) -> Input<'_> {
        Input::new(self.call, self.table.lent(), self.cut)
            .by(self.odd)
            .within(self.bytes)
            .with_message(&self.message)
            .with_state(self.session, &self.marks, &self.needed)
            .with_out(&self.out)
    }

    fn edit(&mut self) -> &mut OwnedTable {
        Rc::make_mut(&mut self.table)
    }
}

#[derive(Clone, Copy)]
enum Spoil {
    Edit(fn(&mut Draft)),
    /// Bytes behind the message, whose last bound is finite, above 0 and without prefix.
    Append(&'static str),
}

#[derive(Clone, Copy)]
pub struct Fault {
    pub number: u8,
    pub name: &'static str,
    spoil: Spoil,
    /// Of 4, what an opening does not judge; of 6, what an answer does not.
    take_only: bool,
}

/// The place of a number among the checks: 14 comes right after 3, and 18 right after 4.
pub fn place(number: u8) -> (u8, bool) {
    match number {
        14 => (3, true),
        18 => (4, true),
        number => (number, false),
    }
}

impl Fault {
    /// A conversion judges what a take does.
    fn applies_to(&self, call: Call) -> bool {
        let is_judged = matches!(call, Call::Take | Call::Convert) || !self.take_only;
        call.can_refuse_by(self.number) && is_judged
    }

    fn goes_by_reading(&self) -> bool {
        matches!(self.number, 7..=10)
    }
}

impl AnyFault for Fault {
    type Draft = Draft;

    fn number(&self) -> u8 {
        self.number
    }

    fn name(&self) -> String {
        self.name.to_string()
    }

    fn spoil(&self, draft: &mut Draft) {
        match self.spoil {
            Spoil::Edit(edit) => edit(draft),
            Spoil::Append(text) => draft.message.extend(from_text(text)),
        }
    }

    /// Said without reading: two faults of the same number may undo each other, and bytes behind a message that ends
    /// too early may complete it.
    fn with(&self, other: &Fault) -> Option<u8> {
        if self.goes_by_reading() && other.goes_by_reading() {
            // The first fault met counts.
            Some(self.number).filter(|&number| number != 7)
        } else if self.number == other.number {
            None
        } else if place(self.number) < place(other.number) {
            Some(self.number)
        } else {
            Some(other.number)
        }
    }
}

fn edit(number: u8, name: &'static str, spoil: fn(&mut Draft)) -> Fault {
    Fault {
        number,
        name,
        spoil: Spoil::Edit(spoil),
        take_only: false,
    }
}

/// A fault that only a take judges.
fn of_take(number: u8, name: &'static str, spoil: fn(&mut Draft)) -> Fault {
    Fault {
        take_only: true,
        ..edit(number, name, spoil)
    }
}

/// A fault of marks, needed list or session that only a take judges.
fn state(name: &'static str, spoil: fn(&mut Draft)) -> Fault {
    of_take(4, name, spoil)
}

fn append(number: u8, text: &'static str) -> Fault {
    Fault {
        number,
        name: text,
        spoil: Spoil::Append(text),
        take_only: false,
    }
}

/// The faults that a call judges.
pub fn faults_of(call: Call) -> Vec<Fault> {
    let lists = [
        size_faults(),
        order_faults(),
        cut_faults(),
        byte_limit_faults(),
        buffer_faults(),
        session_faults(),
        label_faults(),
        message_faults(),
        room_faults(),
    ];
    let all = lists.concat();
    all.into_iter().filter(|fault| fault.applies_to(call)).collect()
}

fn shorten(bytes: &mut Vec<u8>, count: usize) {
    bytes.truncate(bytes.len().saturating_sub(count));
}

/// Sets an element, if there is one at this place.
fn set<T>(list: &mut [T], at: usize, value: T) {
    if let Some(old) = list.get_mut(at) {
        *old = value;
    }
}

/// Hands over two ids that stand one behind the other, if they are there.
fn two_ids(ids: &mut [u8], at: usize) -> Option<(&mut [u8], &mut [u8])> {
    Some(ids.get_mut(32 * at..32 * (at + 2))?.split_at_mut(32))
}

/// Swaps an item with the next one, if both are there.
fn swap_items(table: &mut OwnedTable, at: usize) {
    if at + 1 < table.times.len() {
        table.times.swap(at, at + 1);
    }
    if let Some((first, second)) = two_ids(&mut table.ids, at) {
        first.swap_with_slice(second);
    }
}

/// Makes the next item equal to an item, if both are there.
fn repeat_item(table: &mut OwnedTable, at: usize) {
    if at + 1 < table.times.len() {
        table.times[at + 1] = table.times[at];
    }
    if let Some((first, second)) = two_ids(&mut table.ids, at) {
        second.copy_from_slice(first);
    }
}

/// 1.
fn size_faults() -> Vec<Fault> {
    vec![
        edit(1, "one id byte too few", |d| shorten(&mut d.edit().ids, 1)),
        edit(1, "one id byte too many", |d| d.edit().ids.push(0)),
        edit(1, "one id too few", |d| shorten(&mut d.edit().ids, 32)),
        edit(1, "one id too many", |d| d.edit().ids.extend([0xff; 32])),
        edit(1, "no ids", |d| d.edit().ids.clear()),
        edit(1, "no times", |d| d.edit().times.clear()),
        edit(1, "one item too many", |d| d.table = TOO_LARGE.with(Rc::clone)),
    ]
}

/// 2.
fn order_faults() -> Vec<Fault> {
    vec![
        edit(2, "equal items", |d| repeat_item(d.edit(), 0)),
        edit(2, "equal items in the middle", |d| {
            let middle = d.table.count() / 2;
            repeat_item(d.edit(), middle);
        }),
        edit(2, "equal items at the end", |d| {
            let last_but_one = d.table.count().saturating_sub(2);
            repeat_item(d.edit(), last_but_one);
        }),
        edit(2, "falling items", |d| swap_items(d.edit(), 0)),
        edit(2, "falling items at the end", |d| {
            let last_but_one = d.table.count().saturating_sub(2);
            swap_items(d.edit(), last_but_one);
        }),
        edit(2, "falling times over rising ids", |d| {
            if let [first, .., last] = &mut d.edit().times[..] {
                swap(first, last);
            }
        }),
        edit(2, "equal times over falling ids", |d| {
            let table = d.edit();
            if let [first, second, ..] = &mut table.times[..] {
                *second = *first;
            }
            if let Some((first, second)) = two_ids(&mut table.ids, 0) {
                first.fill(0xff);
                second.fill(0);
            }
        }),
        edit(2, "first time 2^64 - 1", |d| set(&mut d.edit().times, 0, u64::MAX)),
        edit(2, "last time 2^64 - 1", |d| {
            let last = d.table.count().saturating_sub(1);
            set(&mut d.edit().times, last, u64::MAX);
        }),
        edit(2, "all times 2^64 - 1", |d| d.edit().times.fill(u64::MAX)),
    ]
}

/// 3.
fn cut_faults() -> Vec<Fault> {
    vec![
        edit(3, "no parts", |d| d.cut.parts = 0),
        edit(3, "one part", |d| d.cut.parts = 1),
        edit(3, "65 parts", |d| d.cut = Cut { parts: 65, limit: 65 }),
        edit(3, "the most parts of all", |d| d.cut.parts = usize::MAX),
        edit(3, "a limit below the parts", |d| d.cut = Cut { parts: 3, limit: 2 }),
        edit(3, "limit 63 for 64 parts", |d| d.cut = Cut { parts: 64, limit: 63 }),
        edit(3, "no limit", |d| d.cut.limit = 0),
        edit(3, "limit 4097", |d| d.cut.limit = 4_097),
        edit(3, "the largest limit of all", |d| d.cut.limit = usize::MAX),
    ]
}

/// 14. A call without a limit is made with one.
fn byte_limit_faults() -> Vec<Fault> {
    vec![
        edit(14, "byte limit 0", |d| d.bytes = Some(0)),
        edit(14, "byte limit 1", |d| d.bytes = Some(1)),
        edit(14, "byte limit 4095", |d| d.bytes = Some(4_095)),
    ]
}

/// 4 in marks and needed buffer.
fn buffer_faults() -> Vec<Fault> {
    vec![
        edit(4, "one mark too few", |d| shorten(&mut d.marks, 1)),
        edit(4, "one mark too many", |d| d.marks.push(0)),
        edit(4, "no marks", |d| d.marks.clear()),
        edit(4, "one needed byte too few", |d| shorten(&mut d.needed, 1)),
        edit(4, "one needed byte too many", |d| d.needed.push(0)),
        state("a mark 2", |d| set(&mut d.marks, 0, 2)),
        state("a last mark 255", |d| {
            let last = d.marks.len().saturating_sub(1);
            set(&mut d.marks, last, 255);
        }),
        state("no needed buffer", |d| d.needed.clear()),
        state("falling needed ids", |d| {
            if let Some((first, second)) = two_ids(&mut d.needed, 0) {
                first.swap_with_slice(second);
            }
        }),
        state("equal needed ids", |d| {
            if let Some((first, second)) = two_ids(&mut d.needed, 0) {
                second.copy_from_slice(first);
            }
        }),
    ]
}

/// 4 in the counts of the session, and 5.
fn session_faults() -> Vec<Fault> {
    vec![
        state("one mark more", |d| {
            d.session.marked = d.session.marked.wrapping_add(1);
        }),
        state("one mark less", |d| {
            d.session.marked = d.session.marked.wrapping_sub(1);
        }),
        state("2^59 marks", |d| d.session.marked = 1 << 59),
        state("one needed id more than the buffer holds", |d| {
            d.session.needed = d.needed.len() / 32 + 1;
        }),
        state("2^59 needed ids", |d| d.session.needed = 1 << 59),
        state("2^59 needed ids and one", |d| d.session.needed = (1 << 59) + 1),
        state("the most needed ids of all", |d| d.session.needed = usize::MAX),
        edit(5, "a session that is done", |d| d.session.done = true),
    ]
}

/// 18. Each word of the sum, and the count.
fn label_faults() -> Vec<Fault> {
    vec![
        edit(18, "the first word of the sum one more", |d| change_word(d, 0, 1)),
        edit(18, "the second word of the sum one more", |d| change_word(d, 1, 1)),
        edit(18, "the third word of the sum one more", |d| change_word(d, 2, 1)),
        edit(18, "the last word of the sum one more", |d| change_word(d, 3, 1)),
        edit(18, "the last word of the sum 2^63 more", |d| change_word(d, 3, 1 << 63)),
        edit(18, "the count one more", |d| {
            let count = &mut d.session.label.count;
            *count = count.wrapping_add(1);
        }),
        edit(18, "the count one less", |d| {
            let count = &mut d.session.label.count;
            *count = count.wrapping_sub(1);
        }),
        edit(18, "the count 2^32 more", |d| d.session.label.count ^= 1 << 32),
        edit(18, "the empty label", |d| d.session.label = Label::default()),
        edit(18, "the sum of no items", |d| d.session.label.sum = [0; 4]),
        edit(18, "the words of the sum the other way round", |d| {
            // A sum that reads the same both ways is another one then.
            d.session.label.sum.reverse();
            change_word(d, 0, 1);
        }),
    ]
}

fn change_word(draft: &mut Draft, at: usize, by: u64) {
    let word = &mut draft.session.label.sum[at];
    *word = word.wrapping_add(by);
}

/// 6, and the faults that go by reading.
fn message_faults() -> Vec<Fault> {
    let mut faults = vec![
        edit(6, "no message", |d| d.message.clear()),
        edit(6, "first byte 5F", |d| set(&mut d.message, 0, 0x5f)),
        of_take(6, "first byte 60", |d| set(&mut d.message, 0, 0x60)),
        of_take(6, "first byte 62", |d| set(&mut d.message, 0, 0x62)),
        of_take(6, "first byte 6F", |d| set(&mut d.message, 0, 0x6f)),
        edit(6, "first byte 70", |d| set(&mut d.message, 0, 0x70)),
        edit(6, "first byte E1", |d| set(&mut d.message, 0, 0xe1)),
    ];
    faults.extend(READING_FAULTS.iter().map(|&(number, text)| append(number, text)));
    faults
}

const READING_FAULTS: [(u8, &str); 35] = [
    // The message ends inside a range.
    (7, "81"),
    (7, "81 FF*9"),
    (7, "02"),
    (7, "02 81"),
    (7, "02 01"),
    (7, "02 20 07*31"),
    (7, "02 00"),
    (7, "02 00 81"),
    (7, "02 00 01 07*15"),
    (7, "02 00 02"),
    (7, "02 00 02 81"),
    (7, "02 00 02 01 07*31"),
    (7, "02 00 02 88 80*7 00"),
    (7, "02 00 02 81 FF*8 7F"),
    // A varint starts with 80 or passes 2^64 - 1.
    (8, "80"),
    (8, "82 80*8 00"),
    (8, "FF*10"),
    (8, "02 80"),
    (8, "02 82 80*8 80"),
    (8, "02 00 80"),
    (8, "02 00 FF*10"),
    (8, "02 00 02 80"),
    (8, "02 00 02 88 80*8 00"),
    // A bound has a time or a prefix that it cannot have, or is not above its lower bound.
    (9, "81 FF*8 7F"),
    (9, "02 21"),
    (9, "02 A1 00"),
    (9, "02 81 FF*8 7F"),
    (9, "00 01"),
    (9, "01 00"),
    (9, "01 02 00 00"),
    (9, "00 00 00 01"),
    (9, "00 00 00 00 00"),
    // A mode is above 2.
    (10, "02 00 03"),
    (10, "00 00 81 00"),
    (10, "02 00 81 FF*8 7F"),
];

/// 11 and 12.
fn room_faults() -> Vec<Fault> {
    vec![
        edit(11, "room for one needed id too few", |d| shorten(&mut d.needed, 32)),
        edit(11, "room for the needed list alone", |d| {
            // A buffer that is not a multiple of 32 bytes stays so.
            let odd = d.needed.len() % 32;
            let list = d.session.needed.saturating_mul(32);
            d.needed.truncate(list.saturating_add(odd));
        }),
        edit(12, "one out byte too few", |d| shorten(&mut d.out, 1)),
        edit(12, "no out bytes", |d| d.out.clear()),
    ]
}
