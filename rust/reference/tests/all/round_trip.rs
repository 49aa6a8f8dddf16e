//! Random lists of ranges, spelled and read again.

use crate::support::{Random, Seed};
use reference::{read, spell, tidy, Bound, Payload, Range};
use std::cmp::Ordering;

fn payload(random: &mut Random) -> Payload {
    match random.below(3) {
        0 => Payload::Skip,
        1 => {
            let mut fingerprint = [0; 16];
            random.fill(&mut fingerprint);
            Payload::Fingerprint(fingerprint)
        }
        _ => {
            let mut ids = vec![[0; 32]; random.below(4) * random.below(60)];
            ids.iter_mut().for_each(|id| random.fill(id));
            Payload::Ids(ids)
        }
    }
}

/// A bound that is not below the given time.
fn bound(random: &mut Random, time: u64) -> Bound {
    let step = match random.below(4) {
        0 => 0,
        1 => random.next() % 300,
        2 => random.next() >> random.below(64),
        _ => u64::MAX - 1,
    };
    let mut prefix = match random.below(3) {
        0 => vec![],
        1 => random.bytes(32),
        _ => vec![0; random.below(33)],
    };
    let length = random.below(prefix.len() + 1);
    prefix.truncate(length);
    Bound::At {
        time: time.saturating_add(step).min(u64::MAX - 1),
        prefix,
    }
}

/// Ranges with rising bounds, many of them at the same time.
fn ranges(random: &mut Random) -> Vec<Range> {
    let mut ranges: Vec<Range> = Vec::new();
    let mut lower = Bound::At {
        time: 0,
        prefix: vec![],
    };
    for _ in 0..random.below(12) {
        let time = match lower {
            Bound::At { time, .. } => time,
            Bound::Infinity => break,
        };
        let upper = if random.one_in(10) {
            Bound::Infinity
        } else {
            bound(random, time)
        };
        if upper.compare(&lower) == Ordering::Greater {
            lower = upper.clone();
            ranges.push(Range {
                upper,
                payload: payload(random),
            });
        }
    }
    ranges
}

#[test]
fn spelled_ranges_read_back() {
    let (mut most, mut infinite) = (0, 0);
    for seed in 0..4000 {
        let _seed = Seed(seed);
        let ranges = ranges(&mut Random(seed));
        let message = spell(&ranges);
        assert_eq!(read(&message).as_ref(), Ok(&ranges));
        most = most.max(ranges.len());
        infinite += ranges.iter().filter(|range| range.upper == Bound::Infinity).count();
    }
    assert!(most > 6 && infinite > 100);
}

/// Every message cut short is read or refused by 7.
#[test]
fn shortened_messages() {
    for seed in 0..200 {
        let _seed = Seed(seed);
        let message = spell(&ranges(&mut Random(seed)));
        for length in 1..message.len() {
            assert!(matches!(read(&message[..length]), Ok(_) | Err(7)));
        }
    }
}

/// Changed messages: refused by 6 to 10, or what is read spells the same bytes, so each has one meaning.
#[test]
fn changed_messages_have_one_meaning() {
    let mut outcomes = [0; 11];
    for seed in 0..20_000 {
        let _seed = Seed(seed);
        let mut random = Random(seed);
        let mut message = spell(&ranges(&mut random));
        for _ in 0..1 + random.below(3) {
            let place = random.below(message.len().min(80));
            message[place] = [random.next() as u8, 0x80, 0x00, 0xff, 0x01][random.below(5)];
        }
        match read(&message) {
            Ok(ranges) => {
                assert_eq!(spell(&ranges), message);
                outcomes[0] += 1;
            }
            Err(number) => outcomes[number as usize] += 1,
        }
    }
    assert!(outcomes[1..6].iter().all(|&count| count == 0), "{outcomes:?}");
    assert!(
        outcomes[0] > 100 && outcomes[6..].iter().all(|&count| count > 100),
        "{outcomes:?}"
    );
}

/// Tidied ranges: no neighbouring skips, no final skip, the rest as it was, and tidying again changes nothing.
#[test]
fn tidied_ranges() {
    let keep = |ranges: &[Range]| -> Vec<Range> {
        ranges
            .iter()
            .filter(|range| range.payload != Payload::Skip)
            .cloned()
            .collect()
    };
    for seed in 0..4000 {
        let _seed = Seed(seed);
        let ranges = ranges(&mut Random(seed));
        let tidied = tidy(ranges.clone());
        let skip = |range: &Range| range.payload == Payload::Skip;
        assert!(!tidied.windows(2).any(|pair| skip(&pair[0]) && skip(&pair[1])));
        assert!(!tidied.last().map_or(false, skip));
        assert_eq!(keep(&tidied), keep(&ranges));
        assert_eq!(tidy(tidied.clone()), tidied);
        // The lower bound of each remaining range is as before.
        let lowers = |ranges: &[Range]| -> Vec<Option<Bound>> {
            let kept = (0..ranges.len()).filter(|&i| !skip(&ranges[i]));
            kept.map(|i| i.checked_sub(1).map(|i| ranges[i].upper.clone()))
                .collect()
        };
        assert_eq!(lowers(&tidied), lowers(&ranges));
        assert_eq!(read(&spell(&tidied)), Ok(tidied));
    }
}
