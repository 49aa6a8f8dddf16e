//! Labels and fingerprints ("Fingerprints").

use crate::bound::Id;
use crate::cursor::push_varint;
use crate::sha256::sha256;
use crate::table::{Items, Table};

/// "The label of a range is the pair (sum of its ids modulo 2^256, number of items)".
#[derive(Clone, Copy, Debug, PartialEq, Eq)]
pub struct Label {
    /// Four words of 64 bits, least significant first.
    pub sum: [u64; 4],
    /// The number of items.
    pub count: u64,
}

impl Label {
    /// "The empty label is zero and zero".
    pub const EMPTY: Label = Label { sum: [0; 4], count: 0 };

    /// The label of one id, "read as a 256-bit number, least significant byte first".
    pub fn of_id(id: &Id) -> Label {
        let mut sum = [0; 4];
        for (word, bytes) in sum.iter_mut().zip(id.chunks_exact(8)) {
            let mut eight = [0; 8];
            eight.copy_from_slice(bytes);
            *word = u64::from_le_bytes(eight);
        }
        Label { sum, count: 1 }
    }

    /// Adds sums modulo 2^256, and counts modulo 2^64. Only "a tree not from build and appends" has counts that wrap.
    pub fn plus(self, other: Label) -> Label {
        let mut sum = [0; 4];
        let mut carry = 0;
        for (i, word) in sum.iter_mut().enumerate() {
            let total = u128::from(self.sum[i]) + u128::from(other.sum[i]) + carry;
            *word = total as u64;
            carry = total >> 64;
        }
        Label {
            sum,
            count: self.count.wrapping_add(other.count),
        }
    }

    /// "The label of the whole table".
    pub fn of_table(table: &Table) -> Label {
        Label::of_items(table, 0..table.count())
    }

    /// The label of some items of the table.
    pub fn of_items(table: &Table, items: Items) -> Label {
        table
            .ids(items)
            .fold(Label::EMPTY, |label, id| label.plus(Label::of_id(&id)))
    }

    /// The 40 bytes in a tree: "sum then count, least significant byte first".
    pub fn bytes(self) -> [u8; 40] {
        let mut bytes = [0; 40];
        let [a, b, c, d] = self.sum;
        for (place, word) in bytes.chunks_exact_mut(8).zip([a, b, c, d, self.count]) {
            place.copy_from_slice(&word.to_le_bytes());
        }
        bytes
    }

    /// The label that has these 40 bytes in a tree.
    pub fn of_bytes(bytes: &[u8]) -> Label {
        let word = |i: usize| (0..8).fold(0, |word, byte| word | u64::from(bytes[8 * i + byte]) << (8 * byte));
        Label {
            sum: [word(0), word(1), word(2), word(3)],
            count: word(4),
        }
    }

    /// "The sum (32 bytes, least significant first) followed by the count as a varint".
    fn hash_input(self) -> Vec<u8> {
        let mut input = Vec::with_capacity(42);
        for word in self.sum {
            input.extend_from_slice(&word.to_le_bytes());
        }
        push_varint(&mut input, self.count);
        input
    }

    /// "The first 16 bytes of SHA-256 over" the hash input.
    pub fn fingerprint(self) -> [u8; 16] {
        let mut fingerprint = [0; 16];
        fingerprint.copy_from_slice(&sha256(&self.hash_input())[..16]);
        fingerprint
    }
}

#[cfg(test)]
mod tests {
    use super::*;

    fn id(first: u8) -> Id {
        let mut id = [0; 32];
        id[0] = first;
        id
    }

    #[test]
    fn e10_sum_wraps_to_zero_and_the_count_is_hashed() {
        let label = Label::of_id(&[0xff; 32]).plus(Label::of_id(&id(1)));
        assert_eq!(label, Label { sum: [0; 4], count: 2 });
        let mut input = vec![0; 32];
        input.push(2);
        assert_eq!(label.hash_input(), input);
    }

    #[test]
    fn count_is_hashed_as_varint() {
        let label = Label {
            sum: [1, 0, 0, 2],
            count: 128,
        };
        let mut input = vec![0; 32];
        input[0] = 1;
        input[24] = 2;
        input.extend_from_slice(&[0x81, 0x00]);
        assert_eq!(label.hash_input(), input);
    }

    #[test]
    fn first_byte_is_lowest_in_the_sum() {
        // The id 00..00 01 is 2^248, the id 01 00..00 is 1.
        let mut last = [0; 32];
        last[31] = 1;
        assert_eq!(Label::of_id(&last).sum, [0, 0, 0, 1 << 56]);
        assert_eq!(Label::of_id(&id(1)).sum, [1, 0, 0, 0]);
        assert!(last < id(1));
    }

    #[test]
    fn bytes_of_a_label() {
        let label = Label {
            sum: [0x0807_0605_0403_0201, 1, 2, 0xff << 56],
            count: 0x0102,
        };
        let mut bytes = vec![1, 2, 3, 4, 5, 6, 7, 8, 1];
        bytes.resize(16, 0);
        bytes.push(2);
        bytes.resize(31, 0);
        bytes.extend([0xff, 0x02, 0x01, 0, 0, 0, 0, 0, 0]);
        assert_eq!(label.bytes()[..], bytes[..]);
        assert_eq!(Label::of_bytes(&bytes), label);
        assert_eq!(Label::of_bytes(&[0xff; 40]).count, u64::MAX);
    }

    #[test]
    fn counts_wrap() {
        let most = Label {
            count: u64::MAX,
            ..Label::EMPTY
        };
        assert_eq!(most.plus(Label::of_id(&id(0))), Label::EMPTY);
    }

    #[test]
    fn carry_runs_through_all_words() {
        let mut low = [0xff; 32];
        low[31] = 0;
        assert_eq!(Label::of_id(&low).plus(Label::of_id(&id(1))).sum, [0, 0, 0, 1 << 56]);
    }
}
