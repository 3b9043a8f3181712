//! Both versions of the attempt snapshot: as bytes, and in journals from before version 2 and of today; and the counts that go into one.

mod common;

use std::fs;
use std::path::Path;

use common::{configuration, crc32c, fresh_path, WORKER};
use ironbus_delivery_state::{
    decode_attempt_snapshot, encode_attempt_snapshot, encode_attempt_snapshot_v2, Configuration,
    Consumer, Journal, NewJournal, Offset, Refusal, BLOCK, MAX_PAIRS,
};

/// Pairs from their numbers.
fn pairs(numbers: &[(u64, u32)]) -> Vec<(Offset, u32)> {
    let pair = |&(offset, attempt)| (Offset::new(offset), attempt);
    numbers.iter().map(pair).collect()
}

/// Bytes with their check behind them.
fn sealed(mut bytes: Vec<u8>) -> Vec<u8> {
    bytes.extend(crc32c(&bytes).to_le_bytes());
    bytes
}

/// Version 1, from SPEC.md.
fn version_1(numbers: &[(u64, u32)]) -> Vec<u8> {
    let mut bytes = vec![1, numbers.len() as u8, 0, 0, 0];
    for (offset, attempt) in numbers {
        bytes.extend(offset.to_le_bytes());
        bytes.extend(attempt.to_le_bytes());
    }
    sealed(bytes)
}

/// Version 2, from SPEC.md.
fn version_2(numbers: &[(u64, u32)]) -> Vec<u8> {
    let mut bytes = vec![2, numbers.len() as u8, 0, 0, 0];
    bytes.extend(numbers.iter().flat_map(|(offset, _)| offset.to_le_bytes()));
    bytes.extend(
        numbers
            .iter()
            .flat_map(|(_, attempt)| attempt.to_le_bytes()),
    );
    sealed(bytes)
}

#[test]
fn both_versions_are_written_and_read() {
    let number = |i: u32| (u64::from(i) * 0x0001_0203_0405_0607, u32::MAX - i);
    let numbers: Vec<(u64, u32)> = (0..=MAX_PAIRS as u32).map(number).collect();
    for n in 0..=MAX_PAIRS {
        let (pairs, numbers) = (pairs(&numbers[..n]), &numbers[..n]);
        let (one, two) = (version_1(numbers), version_2(numbers));
        assert_eq!(encode_attempt_snapshot(&pairs), Ok(one.clone()));
        assert_eq!(encode_attempt_snapshot_v2(&pairs), Ok(two.clone()));
        assert_eq!(decode_attempt_snapshot(&one), Ok(pairs.clone()));
        assert_eq!(decode_attempt_snapshot(&two), Ok(pairs));
    }
    let many = pairs(&numbers);
    assert_eq!(encode_attempt_snapshot(&many), Err(Refusal::TooManyPairs));
    assert_eq!(
        encode_attempt_snapshot_v2(&many),
        Err(Refusal::TooManyPairs)
    );
    for bytes in [version_1(&numbers), version_2(&numbers)] {
        assert_eq!(decode_attempt_snapshot(&bytes), Err(Refusal::TooManyPairs));
    }
}

#[test]
fn other_snapshots_are_refused() {
    let numbers = [(4, 1), (9, 2)];
    for good in [version_1(&numbers), version_2(&numbers)] {
        let body = good[..29].to_vec();
        let changed = |at: usize, value: u8| {
            let mut body = body.clone();
            body[at] = value;
            decode_attempt_snapshot(&sealed(body)).map(|pairs| pairs.len())
        };
        for version in [0, 3, 255] {
            let refusal = Refusal::AttemptUnsupportedVersion {
                version: version.into(),
            };
            assert_eq!(changed(0, version), Err(refusal));
        }
        let refusal = Refusal::CountMismatch {
            declared: 3,
            actual: 2,
        };
        assert_eq!(changed(1, 3), Err(refusal));
        let refused = |bytes: &[u8]| decode_attempt_snapshot(bytes).unwrap_err();
        assert_eq!(refused(&good[..8]), Refusal::AttemptTruncated);
        assert_eq!(refused(&good[..32]), Refusal::AttemptBadLength { len: 32 });
        assert_eq!(
            refused(&[&body[..], &[0; 4]].concat()),
            Refusal::AttemptBadCrc
        );
    }
    let falling = [(9, 1), (4, 2)];
    for bytes in [version_1(&falling), version_2(&falling)] {
        let refusal = Refusal::NotSorted {
            offset: 4,
            prev_offset: 9,
        };
        assert_eq!(decode_attempt_snapshot(&bytes), Err(refusal));
    }
}

// ## Journals

/// A journal that a server from before version 2 wrote, the power failing in its last checkpoint: offset 2 is settled, and 0 and 3
/// were handed out once. It is the one that `inspect` is shown on.
const BEFORE: &[u8] = include_bytes!("../../../crates/inspect/data/worn.journal");

fn restart(path: &Path, configuration: &Configuration) -> Consumer {
    Consumer::restart(configuration, Journal::open(path).unwrap()).unwrap()
}

/// The attempt snapshot of so many pairs in a group of one body, behind a cursor snapshot of so many ranges.
fn snapshot_in(bytes: &[u8], body: usize, ranges: usize, pairs: usize) -> &[u8] {
    let from = BLOCK * body + 8 + 13 + 16 * ranges;
    &bytes[from..from + 9 + 12 * pairs]
}

/// Puts another there, behind a cursor snapshot of no range; the block's check is right.
fn put_snapshot(bytes: &mut [u8], body: usize, snapshot: &[u8]) {
    let block = &mut bytes[BLOCK * body..BLOCK * (body + 1)];
    block[21..21 + snapshot.len()].copy_from_slice(snapshot);
    let check = crc32c(&block[..508]).to_le_bytes();
    block[508..].copy_from_slice(&check);
}

/// Settled offsets and counts of a consumer, by offset.
fn found(consumer: &Consumer, offsets: u64) -> Vec<(bool, u32)> {
    let look = |offset| {
        let offset = Offset::new(offset);
        (
            consumer.is_settled(WORKER, offset).unwrap(),
            consumer.count_of(WORKER, offset).unwrap(),
        )
    };
    (0..offsets).map(look).collect()
}

#[test]
fn a_journal_from_before_version_2_restarts() {
    let path = fresh_path("before");
    let configuration = configuration(5, 100, 30, 300);
    assert_eq!(
        snapshot_in(BEFORE, 3, 1, 2),
        version_1(&[(0, 1), (3, 1)]),
        "the sample has version 1"
    );
    fs::write(&path, BEFORE).unwrap();
    let right = [(false, 1), (false, 0), (true, 0), (false, 1), (false, 0)];
    let consumer = restart(&path, &configuration);
    assert_eq!(found(&consumer, 5), right);
    // A restart writes nothing; the next checkpoint has version 2, behind the old groups.
    assert_eq!(fs::read(&path).unwrap(), BEFORE);
    drop(consumer.checkpoint(WORKER).unwrap());
    let bytes = fs::read(&path).unwrap();
    assert_eq!(bytes[..4 * BLOCK], BEFORE[..4 * BLOCK]);
    assert_eq!(snapshot_in(&bytes, 5, 1, 2), version_2(&[(0, 1), (3, 1)]));
    let consumer = restart(&path, &configuration);
    assert_eq!(found(&consumer, 5), right);
    // The counts go on: the second hand-out of offset 3.
    let mut consumer = consumer.checkpoint(WORKER).unwrap();
    let _ = consumer.claim(WORKER, Offset::new(3), 0).unwrap();
    assert_eq!(consumer.count_of(WORKER, Offset::new(3)).unwrap(), 2);
}

#[test]
fn what_a_restart_finds_is_the_same_in_either_version() {
    let path = fresh_path("either");
    let configuration = configuration(5, 100, 30, 300);
    let journal = NewJournal::create_side_by_side(&path, 18).unwrap();
    let mut consumer = Consumer::start(&configuration, journal)
        .unwrap()
        .checkpoint(WORKER)
        .unwrap();
    let bytes = fs::read(&path).unwrap();
    assert_eq!(snapshot_in(&bytes, 1, 0, 0), version_2(&[]));
    for (offset, now) in [(1, 0), (4, 0), (6, 0), (4, 30)] {
        let _ = consumer.claim(WORKER, Offset::new(offset), now).unwrap();
    }
    let counts = consumer.all_attempt_counts(WORKER).unwrap();
    drop(consumer.checkpoint(WORKER).unwrap());
    let mut bytes = fs::read(&path).unwrap();
    let numbers = [(1, 1), (4, 2), (6, 1)];
    assert_eq!(snapshot_in(&bytes, 3, 0, 3), version_2(&numbers));
    // What a clinic on IronBus's own server is sent.
    assert_eq!(counts, pairs(&numbers));
    assert_eq!(encode_attempt_snapshot(&counts), Ok(version_1(&numbers)));
    let consumer = restart(&path, &configuration);
    assert_eq!(consumer.all_attempt_counts(WORKER).unwrap(), counts);
    let right = found(&consumer, 8);
    assert_eq!(right[4], (false, 2));
    drop(consumer);
    // The same in version 1.
    let old = version_1(&numbers);
    put_snapshot(&mut bytes, 3, &old);
    fs::write(&path, &bytes).unwrap();
    let consumer = restart(&path, &configuration);
    assert_eq!(found(&consumer, 8), right);
    drop(consumer);
    // A version that there is none of is refused, and the file stays.
    let other = sealed([&[3][..], &old[1..old.len() - 4]].concat());
    put_snapshot(&mut bytes, 3, &other);
    fs::write(&path, &bytes).unwrap();
    let journal = Journal::open(&path).unwrap();
    let error = Consumer::restart(&configuration, journal).unwrap_err();
    assert_eq!(
        error.refusal(),
        Refusal::AttemptUnsupportedVersion { version: 3 }
    );
    assert_eq!(error.into_journal().bytes(), bytes);
}

#[test]
fn a_claim_near_the_end_of_the_clock_is_counted() {
    let path = fresh_path("last-clock");
    let journal = NewJournal::create(&path, 18).unwrap();
    let mut consumer = Consumer::start(&configuration(5, 100, 30, 300), journal)
        .unwrap()
        .checkpoint(WORKER)
        .unwrap();
    let now = u64::MAX - 1;
    let _ = consumer.claim(WORKER, Offset::new(4), now).unwrap();
    // The lease runs out at the last clock, and not before.
    let lease = consumer.lease_of(WORKER, Offset::new(4)).unwrap().unwrap();
    assert_eq!(lease.deadline, u64::MAX);
    let mut list = [Offset::ZERO; MAX_PAIRS];
    assert_eq!(consumer.waiting(WORKER, now, &mut list), Ok(0));
    assert_eq!(
        consumer.all_attempt_counts(WORKER).unwrap(),
        pairs(&[(4, 1)])
    );
}
