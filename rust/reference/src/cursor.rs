//! Varints and the cursor of the reader ("Messages").

use crate::refusal;

/// "Base 128, most significant digit first, as few digits as possible, bit 7 set on every byte but the last".
pub fn push_varint(out: &mut Vec<u8>, value: u64) {
    // 64 bits are ten digits; the first stands at bit 63.
    let mut shift = 63;
    while shift > 0 && value >> shift == 0 {
        shift -= 7;
    }
    while shift > 0 {
        out.push(0x80 | (value >> shift & 0x7f) as u8);
        shift -= 7;
    }
    out.push((value & 0x7f) as u8);
}

/// "A cursor that each read takes and gives back moved".
#[derive(Clone, Copy)]
pub struct Cursor<'a> {
    message: &'a [u8],
    at: usize,
}

impl<'a> Cursor<'a> {
    /// A cursor behind the first `at` bytes of the message.
    pub fn new(message: &'a [u8], at: usize) -> Cursor<'a> {
        Cursor { message, at }
    }

    /// The number of bytes not yet read.
    pub fn left(self) -> usize {
        self.message.len() - self.at
    }

    /// Reads so many bytes (7).
    pub fn bytes(self, count: usize) -> Result<(&'a [u8], Cursor<'a>), u8> {
        if count > self.left() {
            return Err(refusal::ENDS_EARLY);
        }
        let end = self.at + count;
        Ok((&self.message[self.at..end], Cursor { at: end, ..self }))
    }

    /// Reads a varint byte by byte (7, 8): "failing at its first byte if that is 80, else at the byte that takes
    /// the value read so far past 2^64−1".
    pub fn varint(self) -> Result<(u64, Cursor<'a>), u8> {
        let mut value: u64 = 0;
        for (i, &byte) in self.message[self.at..].iter().enumerate() {
            // 128 × value + digit passes 2^64 − 1 exactly when value is 2^57 or more.
            if (i == 0 && byte == 0x80) || value >= 1 << 57 {
                return Err(refusal::VARINT);
            }
            value = value << 7 | u64::from(byte & 0x7f);
            if byte < 0x80 {
                return Ok((
                    value,
                    Cursor {
                        at: self.at + i + 1,
                        ..self
                    },
                ));
            }
        }
        Err(refusal::ENDS_EARLY)
    }
}

#[cfg(test)]
mod tests {
    use super::*;

    /// E1 and its neighbours, written and read.
    #[test]
    fn e1_varints() {
        let mut largest = vec![0x81];
        largest.extend_from_slice(&[0xff; 8]);
        largest.push(0x7f);
        let table: [(u64, &[u8]); 8] = [
            (0, &[0x00]),
            (1, &[0x01]),
            (127, &[0x7f]),
            (128, &[0x81, 0x00]),
            (300, &[0x82, 0x2c]),
            (16_383, &[0xff, 0x7f]),
            (16_384, &[0x81, 0x80, 0x00]),
            (u64::MAX, &largest),
        ];
        for (value, bytes) in table {
            let mut written = Vec::new();
            push_varint(&mut written, value);
            assert_eq!(written, bytes, "{}", value);
            let (read, cursor) = Cursor::new(bytes, 0).varint().unwrap();
            assert_eq!((read, cursor.left()), (value, 0));
        }
    }

    /// Every power of two and its neighbours: read back, and no shorter or longer than the digits need.
    #[test]
    fn varints_at_powers_of_two() {
        for bit in 0..64 {
            for value in [(1 << bit) - 1, 1 << bit, (1u64 << bit) + 1] {
                let mut written = vec![0xaa];
                push_varint(&mut written, value);
                let bits = (64 - value.leading_zeros()).max(1) as usize;
                assert_eq!(written.len() - 1, (bits + 6) / 7, "{}", value);
                let (read, cursor) = Cursor::new(&written, 1).varint().unwrap();
                assert_eq!((read, cursor.left()), (value, 0));
            }
        }
    }
}
