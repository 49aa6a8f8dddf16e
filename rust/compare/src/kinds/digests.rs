//! SHA-256: every length up to 300 and some larger ones, and the example messages of FIPS 180-4.
use super::Case;
use crate::compare::{same_bytes, Check};
use crate::generate::from_text;

const LONGER: [usize; 12] = [
    511, 512, 513, 1_000, 4_095, 4_096, 4_097, 65_535, 65_536, 65_537, 524_288, 1_000_003,
];

pub fn cases(_long: bool) -> u64 {
    (301 + LONGER.len() + 1) as u64
}

pub fn run(case: &mut Case<'_, '_>) -> Check {
    let index = case.index as usize;
    if index == 301 + LONGER.len() {
        return known(case);
    }
    let length = if index <= 300 { index } else { LONGER[index - 301] };
    let messages = [
        case.rng.bytes(length),
        case.rng.bytes(length),
        vec![0; length],
        vec![0xff; length],
    ];
    messages
        .iter()
        .try_for_each(|message| case.comparer.sha256(message).map(|_| ()))
}

fn known(case: &mut Case<'_, '_>) -> Check {
    let two_blocks = "abcdbcdecdefdefgefghfghighijhijkijkljklmklmnlmnomnopnopq";
    let vectors = [
        (
            "".to_string(),
            "e3b0c44298fc1c149afbf4c8996fb92427ae41e4649b934ca495991b7852b855",
        ),
        (
            "abc".to_string(),
            "ba7816bf8f01cfea414140de5dae2223b00361a396177a9cb410ff61f20015ad",
        ),
        (
            two_blocks.to_string(),
            "248d6a61d20638b8e5c026930c3e6039a33ce45964ff2167f6ecedd419db06c1",
        ),
        (
            "a".repeat(1_000_000),
            "cdc76e5c9914fb9281a1c7e284d73e67f1809a48a497200e046d39ccc7112cd0",
        ),
    ];
    for (message, digest) in vectors {
        let told = case.comparer.sha256(message.as_bytes())?;
        same_bytes(&told, &from_text(digest), || {
            format!("the digest of {} bytes", message.len())
        })?;
    }
    Ok(())
}
