//! The lent table ("Tables and bounds").

use crate::bound::{Bound, Id, Item, MAX_TIME};
use crate::refusal;

/// The most items a table may have.
pub const MAX_ITEMS: usize = 1_048_576;

/// Own items that stand in a row, by their indices.
pub type Items = std::ops::Range<usize>;

/// "A list of times and a byte string of ids in the same order, strictly rising".
pub struct Table<'a> {
    times: &'a [u64],
    ids: &'a [u8],
}

impl<'a> Table<'a> {
    /// Refusals 1 and 2. Refusal 1 is judged over the whole table first.
    pub fn lent(times: &'a [u64], ids: &'a [u8]) -> Result<Table<'a>, u8> {
        let table = Table::sized(times, ids)?;
        table.judge_order()?;
        Ok(table)
    }

    /// Refusal 1.
    pub fn sized(times: &'a [u64], ids: &'a [u8]) -> Result<Table<'a>, u8> {
        if times.len() > MAX_ITEMS || ids.len() != 32 * times.len() {
            return Err(refusal::TABLE_SIZE);
        }
        Ok(Table { times, ids })
    }

    /// Refusal 2.
    pub fn judge_order(&self) -> Result<(), u8> {
        let rising = (1..self.count()).all(|i| self.item(i - 1) < self.item(i));
        if !rising || self.times.iter().any(|&time| time > MAX_TIME) {
            return Err(refusal::TABLE_ORDER);
        }
        Ok(())
    }

    /// n, the "item count".
    pub fn count(&self) -> usize {
        self.times.len()
    }

    /// The item at an index.
    pub fn item(&self, index: usize) -> Item<'a> {
        (self.times[index], &self.ids[32 * index..32 * index + 32])
    }

    /// The ids of some items, in table order.
    pub fn ids(&self, items: Items) -> impl Iterator<Item = Id> + 'a {
        self.ids[32 * items.start..32 * items.end].chunks_exact(32).map(to_id)
    }

    /// The index of the first item at or above the bound, n if there is none.
    /// So "the range from x to y" has the items from the place of x up to the place of y.
    pub fn place(&self, bound: &Bound) -> usize {
        let (time, id) = match bound.item() {
            None => return self.count(),
            Some(item) => item,
        };
        let (mut low, mut high) = (0, self.count());
        while low < high {
            let middle = low + (high - low) / 2;
            if self.item(middle) < (time, &id[..]) {
                low = middle + 1;
            } else {
                high = middle;
            }
        }
        low
    }
}

/// Copies 32 bytes.
pub fn to_id(bytes: &[u8]) -> Id {
    let mut id = [0; 32];
    id.copy_from_slice(bytes);
    id
}
