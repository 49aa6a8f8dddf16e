//! SHA-256 vectors and fingerprints.

use crate::support::{at, bytes, id, Lent, INFINITY};
use reference::{fingerprint, sha256};

#[test]
fn sha256_vectors() {
    let million = vec![b'a'; 1_000_000];
    let two_blocks = b"abcdbcdecdefdefgefghfghighijhijkijkljklmklmnlmnomnopnopq";
    let table: [(&[u8], &str); 4] = [
        (b"", "e3b0c44298fc1c149afbf4c8996fb92427ae41e4649b934ca495991b7852b855"),
        (
            b"abc",
            "ba7816bf8f01cfea414140de5dae2223b00361a396177a9cb410ff61f20015ad",
        ),
        (
            two_blocks,
            "248d6a61d20638b8e5c026930c3e6039a33ce45964ff2167f6ecedd419db06c1",
        ),
        (
            &million,
            "cdc76e5c9914fb9281a1c7e284d73e67f1809a48a497200e046d39ccc7112cd0",
        ),
    ];
    for (message, digest) in table {
        assert_eq!(sha256(message).to_vec(), bytes(digest), "{} bytes", message.len());
    }
}

/// Lengths around the block border: 55 bytes need one block, 56 and 64 need two.
#[test]
fn sha256_at_block_borders() {
    let table = [
        (55, "9f4390f8d30c2dd92ec9f095b65e2b9ae9b0a925a5258e241c9f1e910f734318"),
        (56, "b35439a4ac6f0948b6d6f9e3c6af0f5f590ce20f1bde7090ef7970686ec6738a"),
        (63, "7d3e74a05d7db15bce4ad9ec0658ea98e3f06eeecf16b4c6fff2da457ddc2f34"),
        (64, "ffe054fe7ae0cb6dc65c3af9b61d5209f439851db43d0ba5997337df154668eb"),
        (65, "635361c48bb9eab14198e76ea8ab7f1a41685d6ad62aa9146d301d4f17eb0ae0"),
    ];
    for (length, digest) in table {
        assert_eq!(sha256(&vec![b'a'; length]).to_vec(), bytes(digest), "{length} bytes");
    }
}

/// The empty range, and E10.
#[test]
fn fingerprint_values() {
    let empty = bytes("7f9c9e31ac8256ca2f258583df262dbc");
    let start = at(0, &[]);
    assert_eq!(Lent::default().fingerprint(&start, &INFINITY).unwrap().to_vec(), empty);
    assert_eq!(sha256(&[0; 33])[..16].to_vec(), empty);

    let table = Lent::new(&[(5, id(1)), (5, [0xff; 32])]);
    let e10 = bytes("58cc2f44d3a27866874701fbad573da9");
    assert_eq!(table.fingerprint(&start, &INFINITY).unwrap().to_vec(), e10);
    let mut input = vec![0; 32];
    input.push(2);
    assert_eq!(sha256(&input)[..16].to_vec(), e10);
}

/// A count of 128 is hashed as 81 00.
#[test]
fn count_as_varint() {
    let items: Vec<_> = (0..128).map(|time| (time, id(1))).collect();
    let mut input = vec![0; 34];
    input[0] = 128;
    input[32] = 0x81;
    let own = Lent::new(&items).fingerprint(&at(0, &[]), &INFINITY).unwrap();
    assert_eq!(own, sha256(&input)[..16]);
}

/// The id 00..00 01 sorts first, yet its one bit is the highest byte of the sum.
#[test]
fn order_and_sum() {
    let mut high = [0; 32];
    high[31] = 1;
    let table = Lent::new(&[(5, high), (5, id(1))]);
    let mut input = vec![0; 33];
    input[0] = 1;
    input[31] = 1;
    input[32] = 2;
    assert_eq!(table.fingerprint(&at(0, &[]), &INFINITY).unwrap(), sha256(&input)[..16]);
    let swapped = Lent::new(&[(5, id(1)), (5, high)]);
    assert_eq!(swapped.fingerprint(&at(0, &[]), &INFINITY), Err(2));
}

/// The lower bound belongs to the range, the upper doesn't.
#[test]
fn ranges_are_half_open() {
    let all = Lent::new(&[(5, id(1)), (5, id(2)), (7, id(3))]);
    let one = |item| Lent::new(&[item]).fingerprint(&at(0, &[]), &INFINITY).unwrap();
    let between = |lower, upper| all.fingerprint(&lower, &upper).unwrap();
    assert_eq!(between(at(5, &[2]), at(7, &[])), one((5, id(2))));
    assert_eq!(between(at(5, &[1]), at(5, &[2])), one((5, id(1))));
    assert_eq!(between(at(5, &[]), at(5, &[1, 1])), one((5, id(1))));
    assert_eq!(between(at(7, &[3, 0]), INFINITY), one((7, id(3))));
}

/// Bounds meet 9 save for the order, also where the range is empty anyway; 1 and 2 come first.
#[test]
fn given_bounds() {
    let table = Lent::new(&[(5, id(1)), (5, id(2))]);
    let empty = Lent::default().fingerprint(&at(0, &[]), &INFINITY);
    let good = at(5, &[]);
    let mut too_long = at(9, &[]);
    too_long.length = 33;
    let mut absurd = at(9, &[]);
    absurd.length = usize::MAX;
    let mut prefix_at_infinity = INFINITY;
    prefix_at_infinity.length = 1;
    for bad in [at(u64::MAX, &[]), too_long, absurd, prefix_at_infinity] {
        assert_eq!(table.fingerprint(&bad, &good), Err(9));
        assert_eq!(table.fingerprint(&good, &bad), Err(9));
        assert_eq!(table.fingerprint(&INFINITY, &bad), Err(9));
        assert_eq!(fingerprint(&[u64::MAX], &[0; 32], &bad, &good), Err(2));
        assert_eq!(fingerprint(&[u64::MAX], &[0; 31], &bad, &good), Err(1));
    }
    assert_eq!(table.fingerprint(&INFINITY, &good), empty);
    assert_eq!(table.fingerprint(&INFINITY, &INFINITY), empty);
    assert_eq!(table.fingerprint(&good, &good), empty);
    assert_eq!(table.fingerprint(&at(6, &[]), &good), empty);
    assert_ne!(table.fingerprint(&good, &at(6, &[])), empty);
    // The time at infinity does not count.
    let mut odd = INFINITY;
    odd.time = u64::MAX;
    assert_eq!(table.fingerprint(&good, &odd), table.fingerprint(&good, &INFINITY));
    assert!(table.fingerprint(&at(u64::MAX - 1, &[0xff; 32]), &INFINITY) == empty);
}
