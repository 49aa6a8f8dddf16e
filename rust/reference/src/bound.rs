//! Items, bounds and their order ("Tables and bounds").

use crate::refusal;
use std::cmp::Ordering;

/// An id. Arrays compare "byte by byte from the first".
pub type Id = [u8; 32];

/// An item, its id 32 bytes of the table. Tuples compare "by time, then by id".
pub type Item<'a> = (u64, &'a [u8]);

/// The largest time of an item or a finite bound, 2^64 − 2.
pub const MAX_TIME: u64 = u64::MAX - 1;

/// A bound: "infinity, above everything, or a time and a prefix of 0 to 32 bytes".
///
/// `==` compares spellings. The order of bounds is `compare`, where (5, none) and (5, 00) are equal.
#[derive(Clone, Debug, PartialEq, Eq)]
pub enum Bound {
    /// Above every item and every other bound.
    Infinity,
    /// A time and the first bytes of an id.
    At {
        /// 0 to 2^64 − 2.
        time: u64,
        /// 0 to 32 bytes.
        prefix: Vec<u8>,
    },
}

impl Bound {
    /// The first lower bound: "at first it is time 0 without prefix".
    pub(crate) fn start() -> Bound {
        Bound::At {
            time: 0,
            prefix: Vec::new(),
        }
    }

    /// The item a finite bound compares as: "missing id bytes count as 00". None is infinity.
    /// The prefix is 32 bytes at most.
    pub(crate) fn item(&self) -> Option<(u64, Id)> {
        match self {
            Bound::Infinity => None,
            Bound::At { time, prefix } => {
                let mut id = [0; 32];
                id[..prefix.len()].copy_from_slice(prefix);
                Some((*time, id))
            }
        }
    }

    /// The order of bounds: infinity above everything, finite bounds as items do.
    /// Both prefixes are 32 bytes at most.
    pub fn compare(&self, other: &Bound) -> Ordering {
        match (self.item(), other.item()) {
            (None, None) => Ordering::Equal,
            (None, Some(_)) => Ordering::Greater,
            (Some(_), None) => Ordering::Less,
            (Some(own), Some(others)) => own.cmp(&others),
        }
    }

    /// Refusal 9 save for the order: "a finite time above 2^64−2", "a prefix length above 32".
    /// Infinity has no prefix in this form.
    pub(crate) fn judge(&self) -> Result<(), u8> {
        match self {
            Bound::At { time, prefix } if *time > MAX_TIME || prefix.len() > 32 => Err(refusal::BOUND),
            _ => Ok(()),
        }
    }

    /// "The shortest bound between two neighbours p < q".
    pub(crate) fn shortest(p: Item, q: Item) -> Bound {
        let prefix = if p.0 != q.0 {
            Vec::new()
        } else {
            // k is "the number of leading bytes that both ids share"; it is below 32, as p < q.
            let k = p.1.iter().zip(q.1).take_while(|(a, b)| a == b).count();
            q.1[..k + 1].to_vec()
        };
        Bound::At { time: q.0, prefix }
    }
}

#[cfg(test)]
mod tests {
    use super::*;

    fn id(start: &[u8]) -> Id {
        let mut id = [0; 32];
        id[..start.len()].copy_from_slice(start);
        id
    }

    fn at(time: u64, prefix: &[u8]) -> Bound {
        Bound::At {
            time,
            prefix: prefix.to_vec(),
        }
    }

    #[test]
    fn missing_bytes_count_as_00() {
        assert_eq!(at(5, &[]).compare(&at(5, &[0])), Ordering::Equal);
        assert_eq!(at(5, &[0, 0]).compare(&at(5, &[0])), Ordering::Equal);
        assert_ne!(at(5, &[]), at(5, &[0]));
        assert_eq!(at(5, &[0, 1]).compare(&at(5, &[0])), Ordering::Greater);
        assert_eq!(at(5, &[0xff; 32]).compare(&at(6, &[])), Ordering::Less);
        assert_eq!(at(MAX_TIME, &[0xff; 32]).compare(&Bound::Infinity), Ordering::Less);
        assert_eq!(Bound::Infinity.compare(&at(MAX_TIME, &[0xff; 32])), Ordering::Greater);
        assert_eq!(Bound::Infinity.compare(&Bound::Infinity), Ordering::Equal);
    }

    #[test]
    fn shortest_bounds() {
        // Different times: no prefix, even if the ids would separate.
        assert_eq!(Bound::shortest((5, &id(&[1])), (7, &id(&[2]))), at(7, &[]));
        assert_eq!(Bound::shortest((5, &id(&[1])), (5, &id(&[2]))), at(5, &[2]));
        assert_eq!(
            Bound::shortest((5, &id(&[1])), (5, &id(&[1, 0, 9, 9]))),
            at(5, &[1, 0, 9])
        );
        // The longest one: 31 shared bytes.
        let last = |byte| {
            let mut id = [7; 32];
            id[31] = byte;
            id
        };
        assert_eq!(Bound::shortest((5, &last(1)), (5, &last(2))), at(5, &last(2)));
    }
}
