//! Cutting a range ("Cutting").

use crate::bound::Bound;
use crate::label::Label;
use crate::message::{Payload, Range};
use crate::refusal;
use crate::table::{Items, Table};

/// Where the items go that are left over "when a range doesn't divide evenly": "its parts tie for the odd items".
#[derive(Clone, Copy, Debug, PartialEq, Eq, PartialOrd, Ord)]
pub enum Odd {
    /// The former rule: "the first (c mod b) parts" hold one more.
    ToFirst,
    /// "From now on the last (c mod b) parts hold one more."
    ToLast,
}

/// "A cut is b (parts, 2 to 64) and t (list limit, b to 4,096)." The rule goes with it.
#[derive(Clone, Copy)]
pub struct Cut {
    b: usize,
    t: usize,
    odd: Odd,
}

impl Cut {
    /// Refusal 3.
    pub fn given(b: usize, t: usize, odd: Odd) -> Result<Cut, u8> {
        if (2..=64).contains(&b) && (b..=4096).contains(&t) {
            Ok(Cut { b, t, odd })
        } else {
            Err(refusal::CUT)
        }
    }
}

/// A part of a range with its label.
pub struct Part {
    items: Items,
    label: Label,
}

/// The parts of a range's own items: the range whole if they are "at most t", otherwise b parts.
pub fn parts(table: &Table, cut: Cut, items: Items) -> Vec<Part> {
    let count = items.len();
    let sizes = if count <= cut.t {
        vec![count]
    } else {
        part_sizes(count, cut.b, cut.odd)
    };
    let mut from = items.start;
    let mut parts = Vec::with_capacity(sizes.len());
    for size in sizes {
        let items = from..from + size;
        from = items.end;
        let label = Label::of_items(table, items.clone());
        parts.push(Part { items, label });
    }
    parts
}

/// Of the parts (c mod b) "hold floor(c / b) + 1 items, the others floor(c / b)".
fn part_sizes(c: usize, b: usize, odd: Odd) -> Vec<usize> {
    let is_larger = |part: usize| match odd {
        Odd::ToFirst => part < c % b,
        Odd::ToLast => part >= b - c % b,
    };
    (0..b)
        .map(|part| if is_larger(part) { c / b + 1 } else { c / b })
        .collect()
}

/// The label of the whole range. The parts hold each of its items once, so no id is summed again.
pub fn whole(parts: &[Part]) -> Label {
    parts.iter().fold(Label::EMPTY, |label, part| label.plus(part.label))
}

/// The ranges that a range with these parts becomes. As b is at least 2, one part means at most t items.
pub fn cutting(table: &Table, parts: &[Part], upper: Bound) -> Vec<Range> {
    if let [all] = parts {
        return vec![list(table, all.items.clone(), upper)];
    }
    let inner = parts[1..].iter().map(|next| {
        // "Inner bounds are the shortest bounds between neighbours". No part is empty, as t is at least b.
        let first = next.items.start;
        Bound::shortest(table.item(first - 1), table.item(first))
    });
    // "The last upper bound is the range's own."
    let uppers = inner.chain(std::iter::once(upper));
    let fingerprints = parts.iter().map(|part| Payload::Fingerprint(part.label.fingerprint()));
    uppers
        .zip(fingerprints)
        .map(|(upper, payload)| Range { upper, payload })
        .collect()
}

/// "One ids range with them in table order".
pub fn list(table: &Table, items: Items, upper: Bound) -> Range {
    Range {
        upper,
        payload: Payload::Ids(table.ids(items).collect()),
    }
}

#[cfg(test)]
mod tests {
    use super::*;

    /// E6 and others: by the rule of today, and by the former one.
    #[test]
    fn e6_part_sizes() {
        let rows: [(usize, &[usize], &[usize]); 4] = [
            (7, &[2, 2, 3], &[3, 2, 2]),
            (6, &[2, 2, 2], &[2, 2, 2]),
            (8, &[2, 3, 3], &[3, 3, 2]),
            (3, &[1, 2], &[2, 1]),
        ];
        for (count, last, first) in rows {
            assert_eq!(part_sizes(count, last.len(), Odd::ToLast), last);
            assert_eq!(part_sizes(count, first.len(), Odd::ToFirst), first);
        }
    }

    /// By either rule no part has more than ceil(c / b) items, which the bound on takes in a row rests on.
    #[test]
    fn largest_parts() {
        for (c, b) in (2..=64).flat_map(|b| (b + 1..300).map(move |c| (c, b))) {
            for odd in [Odd::ToFirst, Odd::ToLast] {
                let sizes = part_sizes(c, b, odd);
                assert_eq!((sizes.len(), sizes.iter().sum()), (b, c));
                assert_eq!(sizes.iter().max(), Some(&((c + b - 1) / b)), "{c} items, {b} parts");
                assert_eq!(sizes.iter().min(), Some(&(c / b)), "{c} items, {b} parts");
            }
        }
    }

    #[test]
    fn cut_limits() {
        for (b, t) in [(2, 2), (2, 4096), (64, 64), (64, 4096)] {
            assert!(Cut::given(b, t, Odd::ToLast).is_ok(), "{} {}", b, t);
        }
        for (b, t) in [
            (0, 0),
            (1, 2),
            (2, 1),
            (65, 65),
            (64, 63),
            (2, 4097),
            (usize::MAX, usize::MAX),
        ] {
            assert_eq!(Cut::given(b, t, Odd::ToLast).err(), Some(3), "{} {}", b, t);
        }
    }
}
