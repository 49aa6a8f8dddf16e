//! The cases: two tables of random ids, made from a fixed seed, and what a session over them must report.

/// A table as its owner lends it.
#[derive(Default)]
pub struct Table {
    pub times: Vec<u64>,
    pub ids: Vec<u8>,
}

impl Table {
    pub fn count(&self) -> usize {
        self.times.len()
    }

    fn push(&mut self, item: &Item) {
        self.times.push(item.0);
        self.ids.extend_from_slice(&item.1);
    }
}

/// The tables of both ends, and what a session must report: the marks on the opener's items and the needed ids.
pub struct Tables {
    pub opener: Table,
    pub responder: Table,
    pub marks: Vec<u8>,
    pub needed: Vec<u8>,
}

/// How many items both ends have, how many only the opener has, and how many only the responder has.
pub struct Counts {
    pub both: usize,
    pub ours: usize,
    pub theirs: usize,
}

/// The order of the ids in the tables, beside that of the times.
#[derive(Clone, Copy)]
pub enum Order {
    Random,
    Rising,
    Falling,
}

/// A case by name, with its counts for n items in a table that is not empty.
pub struct Case {
    pub name: &'static str,
    counts: fn(usize) -> Counts,
}

pub const CASES: [Case; 7] = [
    Case {
        name: "equal tables",
        counts: |n| different(n, 0),
    },
    Case {
        name: "1 different",
        counts: |n| different(n, 1),
    },
    Case {
        name: "100 different",
        counts: |n| different(n, 100),
    },
    Case {
        name: "10 % different",
        counts: |n| different(n, n / 10),
    },
    Case {
        name: "all different",
        counts: |n| different(n, n),
    },
    Case {
        name: "opener empty",
        counts: |n| Counts {
            both: 0,
            ours: 0,
            theirs: n,
        },
    },
    Case {
        name: "responder empty",
        counts: |n| Counts {
            both: 0,
            ours: n,
            theirs: 0,
        },
    },
];

/// Two tables of n items, in each of which the other end lacks so many.
pub fn different(n: usize, count: usize) -> Counts {
    Counts {
        both: n - count,
        ours: count,
        theirs: count,
    }
}

type Item = (u64, [u8; 32]);

#[derive(Clone, Copy)]
enum Owner {
    Both,
    Opener,
    Responder,
}

impl Case {
    /// The tables for this n: always the same.
    pub fn tables(&self, n: usize) -> Tables {
        Tables::made(&(self.counts)(n), Order::Random, n as u64)
    }
}

impl Tables {
    /// Tables with so many items: always the same for one seed.
    pub fn made(counts: &Counts, order: Order, seed: u64) -> Tables {
        let mut random = Random(seed);
        let owners = owners(counts, &mut random);
        let mut tables = Tables {
            opener: Table::default(),
            responder: Table::default(),
            marks: Vec::new(),
            needed: Vec::new(),
        };
        let mut needed = Vec::new();
        for (item, owner) in items(owners.len(), order, &mut random).iter().zip(owners) {
            if !matches!(owner, Owner::Responder) {
                tables.opener.push(item);
                tables.marks.push(matches!(owner, Owner::Opener) as u8);
            }
            if !matches!(owner, Owner::Opener) {
                tables.responder.push(item);
            }
            if matches!(owner, Owner::Responder) {
                needed.push(item.1);
            }
        }
        needed.sort_unstable();
        tables.needed = needed.concat();
        tables
    }
}

/// An owner for each item, in random order.
fn owners(counts: &Counts, random: &mut Random) -> Vec<Owner> {
    let mut owners = vec![Owner::Both; counts.both];
    owners.resize(owners.len() + counts.ours, Owner::Opener);
    owners.resize(owners.len() + counts.theirs, Owner::Responder);
    for last in (1..owners.len()).rev() {
        owners.swap(last, random.below(last as u64 + 1) as usize);
    }
    owners
}

/// Items in table order. Half of the times are those of the item before, the others 1 to 1,000 above it; where ids fall, all are
/// above it.
fn items(count: usize, order: Order, random: &mut Random) -> Vec<Item> {
    let mut time = 1_700_000_000;
    let mut times = Vec::with_capacity(count);
    let mut ids = Vec::with_capacity(count);
    for _ in 0..count {
        if matches!(order, Order::Falling) || random.below(2) == 0 {
            time += 1 + random.below(1000);
        }
        times.push(time);
        ids.push(random.id());
    }
    match order {
        Order::Random => (),
        Order::Rising => ids.sort_unstable(),
        Order::Falling => ids.sort_unstable_by(|a, b| b.cmp(a)),
    }
    let mut items = times.into_iter().zip(ids).collect::<Vec<Item>>();
    items.sort_unstable();
    items
}

/// The generator SplitMix64.
struct Random(u64);

impl Random {
    fn next(&mut self) -> u64 {
        self.0 = self.0.wrapping_add(0x9e37_79b9_7f4a_7c15);
        let mut word = self.0;
        word = (word ^ (word >> 30)).wrapping_mul(0xbf58_476d_1ce4_e5b9);
        word = (word ^ (word >> 27)).wrapping_mul(0x94d0_49bb_1331_11eb);
        word ^ (word >> 31)
    }

    fn below(&mut self, limit: u64) -> u64 {
        self.next() % limit
    }

    fn id(&mut self) -> [u8; 32] {
        let mut id = [0; 32];
        for bytes in id.chunks_exact_mut(8) {
            bytes.copy_from_slice(&self.next().to_le_bytes());
        }
        id
    }
}
