//! Labels, added up without either implementation, and sessions with and without theirs.
use crate::generate::Id;
use recon::{Label, Session, Table, UnlabelledSession};

/// The label of all items of a table, lawful or not. Each word of the ids is added up by itself, and the carries at last.
pub fn label_of(table: Table<'_>) -> Label {
    let mut totals = [0; 4];
    for word in table.ids.chunks_exact(32).flat_map(|id| id.chunks_exact(8).enumerate()) {
        let (at, bytes) = word;
        totals[at] += u128::from(u64::from_le_bytes(bytes.try_into().expect("eight bytes")));
    }
    let mut carry = 0;
    let sum = totals.map(|total: u128| {
        let total = total + carry;
        carry = total >> 64;
        total as u64
    });
    let count = table.times.len() as u64;
    Label { sum, count }
}

/// The sum of two ids modulo 2^256.
pub fn plus(id: &Id, by: &Id) -> Id {
    let mut sum = Sum::default();
    sum.add(id, 0);
    sum.add(by, 0);
    sum.bytes
}

/// The difference of two ids modulo 2^256.
pub fn minus(id: &Id, by: &Id) -> Id {
    let mut one = [0; 32];
    one[0] = 1;
    plus(id, &plus(&by.map(|byte| !byte), &one))
}

/// The session that an opening of a table leaves.
pub fn new_session(table: Table<'_>) -> Session {
    Session {
        label: label_of(table),
        ..NO_SESSION
    }
}

/// The session beside a refused opening or conversion: nothing is reported, it is not done, and its label is empty.
pub const NO_SESSION: Session = Session {
    marked: 0,
    needed: 0,
    done: false,
    label: Label { sum: [0; 4], count: 0 },
};

/// A session as it was before it had a label.
pub fn without_label(session: Session) -> UnlabelledSession {
    let Session {
        marked, needed, done, ..
    } = session;
    UnlabelledSession { marked, needed, done }
}

/// A label, whose sum is added up byte by byte.
#[derive(Clone, Default)]
pub struct Sum {
    bytes: Id,
    count: u64,
}

impl Sum {
    /// The label that has these bytes in a tree.
    pub fn of_stored(bytes: &[u8]) -> Sum {
        let mut sum = Sum::default();
        let (id, count) = bytes.split_at(32);
        let count = count.iter().rev().fold(0, |count, &byte| count << 8 | u64::from(byte));
        sum.add(id, count);
        sum
    }

    /// The bytes that it has in a tree.
    pub fn stored(&self) -> Vec<u8> {
        [&self.bytes[..], &self.count.to_le_bytes()].concat()
    }

    /// Adds 32 bytes of sum, least significant first, and a count.
    pub fn add(&mut self, bytes: &[u8], count: u64) {
        let mut carry = 0;
        for (own, byte) in self.bytes.iter_mut().zip(bytes) {
            let total = u16::from(*own) + u16::from(*byte) + carry;
            *own = total as u8;
            carry = total >> 8;
        }
        self.count = self.count.wrapping_add(count);
    }

    pub fn add_sum(&mut self, other: &Sum) {
        self.add(&other.bytes, other.count);
    }

    pub fn label(&self) -> Label {
        let word = |i: usize| {
            (0..8)
                .rev()
                .fold(0, |word, byte| word << 8 | u64::from(self.bytes[8 * i + byte]))
        };
        Label {
            sum: [word(0), word(1), word(2), word(3)],
            count: self.count,
        }
    }
}
