//! Hex, tables and random numbers for the tests.

use reference::{Bound, GivenBound, Label, Odd, Payload, Range, Session};

/// Bytes from hex words; `80*8` is a word so many times over.
pub fn bytes(text: &str) -> Vec<u8> {
    let mut bytes = Vec::new();
    for word in text.split_whitespace() {
        let (digits, times) = match word.split_once('*') {
            Some((digits, times)) => (digits, times.parse().unwrap()),
            None => (word, 1),
        };
        assert_eq!(digits.len() % 2, 0, "{word}");
        for _ in 0..times {
            let pairs = (0..digits.len()).step_by(2);
            bytes.extend(pairs.map(|i| u8::from_str_radix(&digits[i..i + 2], 16).unwrap()));
        }
    }
    bytes
}

/// The given byte and 31 bytes 00.
pub const fn id(first: u8) -> [u8; 32] {
    let mut id = [0; 32];
    id[0] = first;
    id
}

/// Messages put together from parts.
pub fn joined(parts: &[&[u8]]) -> Vec<u8> {
    parts.concat()
}

/// A table in the form it is lent in.
#[derive(Clone, Debug, Default)]
pub struct Lent {
    pub times: Vec<u64>,
    pub ids: Vec<u8>,
}

impl Lent {
    /// The items in the order given.
    pub fn new(items: &[(u64, [u8; 32])]) -> Lent {
        Lent {
            times: items.iter().map(|item| item.0).collect(),
            ids: items.iter().flat_map(|item| item.1).collect(),
        }
    }

    /// The label, its sum added up byte by byte.
    pub fn label(&self) -> Label {
        let mut sum = [0; 32];
        for id in self.ids.chunks_exact(32) {
            let mut carry = 0;
            for (byte, own) in sum.iter_mut().zip(id) {
                carry += u16::from(*byte) + u16::from(*own);
                *byte = carry as u8;
                carry >>= 8;
            }
        }
        let word = |at: usize| u64::from_le_bytes(sum[8 * at..8 * at + 8].try_into().unwrap());
        Label {
            sum: [word(0), word(1), word(2), word(3)],
            count: self.times.len() as u64,
        }
    }

    /// The session with these counts that was opened with this table.
    pub fn session(&self, marked: usize, needed: usize, done: bool) -> Session {
        Session {
            marked,
            needed,
            done,
            label: self.label(),
        }
    }

    pub fn answer(&self, b: usize, t: usize, query: &[u8]) -> Result<Vec<u8>, u8> {
        self.answer_within(b, t, None, query)
    }

    pub fn answer_within(&self, b: usize, t: usize, bytes: Option<usize>, query: &[u8]) -> Result<Vec<u8>, u8> {
        self.answered(query, |times, ids, out| {
            reference::answer_within(times, ids, b, t, bytes, query, out)
        })
    }

    /// The same by either rule.
    pub fn answer_by(&self, odd: Odd, b: usize, t: usize, bytes: Option<usize>, query: &[u8]) -> Result<Vec<u8>, u8> {
        self.answered(query, |times, ids, out| {
            reference::answer_by(odd, times, ids, b, t, bytes, query, out)
        })
    }

    /// What a call writes that answers a query about this table.
    fn answered(
        &self,
        query: &[u8],
        answer: impl Fn(&[u64], &[u8], &mut [u8]) -> Result<usize, u8>,
    ) -> Result<Vec<u8>, u8> {
        let mut out = vec![0xcc; 64 * (self.times.len() + query.len() + 4)];
        let length = answer(&self.times, &self.ids, &mut out)?;
        assert!(out[length..].iter().all(|&byte| byte == 0xcc));
        out.truncate(length);
        Ok(out)
    }

    pub fn fingerprint(&self, lower: &GivenBound, upper: &GivenBound) -> Result<[u8; 16], u8> {
        reference::fingerprint(&self.times, &self.ids, lower, upper)
    }
}

/// A finite bound as handed over.
pub fn at(time: u64, prefix: &[u8]) -> GivenBound {
    // Bytes behind the length must not count.
    let mut given = GivenBound {
        infinite: false,
        time,
        length: prefix.len(),
        prefix: [0xee; 32],
    };
    given.prefix[..prefix.len()].copy_from_slice(prefix);
    given
}

/// Infinity as handed over.
pub const INFINITY: GivenBound = GivenBound {
    infinite: true,
    time: 77,
    length: 0,
    prefix: [0xee; 32],
};

/// A message's bound as handed over.
pub fn given(bound: &Bound) -> GivenBound {
    match bound {
        Bound::Infinity => INFINITY,
        Bound::At { time, prefix } => at(*time, prefix),
    }
}

/// A range up to a finite bound.
pub fn range(time: u64, prefix: &[u8], payload: Payload) -> Range {
    Range {
        upper: Bound::At {
            time,
            prefix: prefix.to_vec(),
        },
        payload,
    }
}

/// A range up to infinity.
pub fn last(payload: Payload) -> Range {
    Range {
        upper: Bound::Infinity,
        payload,
    }
}

/// A small random generator (splitmix64).
pub struct Random(pub u64);

impl Random {
    pub fn next(&mut self) -> u64 {
        self.0 = self.0.wrapping_add(0x9e37_79b9_7f4a_7c15);
        let mut word = self.0;
        word = (word ^ (word >> 30)).wrapping_mul(0xbf58_476d_1ce4_e5b9);
        word = (word ^ (word >> 27)).wrapping_mul(0x94d0_49bb_1331_11eb);
        word ^ (word >> 31)
    }

    /// 0 to limit − 1.
    pub fn below(&mut self, limit: usize) -> usize {
        (self.next() % limit as u64) as usize
    }

    /// True with a chance of one in so many.
    pub fn one_in(&mut self, count: usize) -> bool {
        self.below(count) == 0
    }

    pub fn fill(&mut self, bytes: &mut [u8]) {
        bytes.iter_mut().for_each(|byte| *byte = self.next() as u8);
    }

    pub fn bytes(&mut self, count: usize) -> Vec<u8> {
        let mut bytes = vec![0; count];
        self.fill(&mut bytes);
        bytes
    }
}

/// Names the seed of a random case if the test fails in it.
pub struct Seed(pub u64);

impl Drop for Seed {
    fn drop(&mut self) {
        if std::thread::panicking() {
            eprintln!("failed with seed {}", self.0);
        }
    }
}
