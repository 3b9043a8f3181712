//! Every refusal that a server can meet, by its number: 1 to 40 but for three. No restart meets 6 and 12, since a header that counts a
//! cursor snapshot so short or so long isn't sound, and the crate reads none apart from a journal. Nothing meets 30 any longer.

mod common;

use std::collections::BTreeSet;
use std::io;

use common::{configuration, crc32c, WORKER};
use ironbus_delivery_state::{
    decode_attempt_snapshot, encode_attempt_snapshot, encode_attempt_snapshot_v2, Configuration,
    Consumer, DeliveryConfig, Hours, Journal, NewJournal, Offset, Refusal, Rights, Storage,
    Stretch, WorkerId, BLOCK,
};

/// Blocks in memory.
struct Memory(Vec<u8>);

impl Storage for Memory {
    fn read(&mut self) -> io::Result<Vec<u8>> {
        Ok(self.0.clone())
    }

    fn write_block(&mut self, block: usize, bytes: &[u8; BLOCK]) -> io::Result<()> {
        self.0[BLOCK * block..BLOCK * (block + 1)].copy_from_slice(bytes);
        Ok(())
    }
}

fn settings() -> Configuration {
    let mut settings = configuration(9, 999, 10, 25);
    settings.settings.rights[1] = Rights::all();
    settings
}

fn start(configuration: &Configuration, blocks: usize) -> Result<Consumer<Memory>, Refusal> {
    let journal = NewJournal::on(Memory(vec![0; BLOCK * blocks])).unwrap();
    Consumer::start(configuration, journal).map_err(|error| error.refusal())
}

/// A consumer that has made its first checkpoint.
fn begun(configuration: &Configuration) -> Consumer<Memory> {
    let consumer = start(configuration, 18).unwrap();
    consumer.checkpoint(WORKER).unwrap()
}

fn restart(bytes: Vec<u8>) -> Result<Consumer<Memory>, Refusal> {
    let journal = Journal::on(Memory(bytes)).unwrap();
    Consumer::restart(&settings(), journal).map_err(|error| error.refusal())
}

// ## Journals, as docs/SPEC.md has them

fn sealed(mut bytes: Vec<u8>) -> Vec<u8> {
    let check = crc32c(&bytes);
    bytes.extend(check.to_le_bytes());
    bytes
}

/// A cursor snapshot of a version, committed 5 and these ranges.
fn cursor(version: u8, ranges: &[[u64; 2]]) -> Vec<u8> {
    let numbers = [5].into_iter().chain(ranges.as_flattened().iter().copied());
    sealed(
        [version]
            .into_iter()
            .chain(numbers.flat_map(u64::to_le_bytes))
            .collect(),
    )
}

/// An attempt snapshot of version 1 that declares so many pairs.
fn attempts(version: u8, declared: u32, offsets: &[u64]) -> Vec<u8> {
    let pairs = offsets.iter().flat_map(|offset| {
        let attempt = 1u32.to_le_bytes();
        offset.to_le_bytes().into_iter().chain(attempt)
    });
    sealed(
        [version]
            .into_iter()
            .chain(declared.to_le_bytes())
            .chain(pairs)
            .collect(),
    )
}

fn block(bytes: Vec<u8>) -> Vec<u8> {
    let mut bytes = bytes;
    bytes.resize(BLOCK - 4, 0);
    sealed(bytes)
}

/// A journal of 18 blocks with one group, which has a number, a ceiling and these snapshots, in one body.
fn journal(number: u32, ceiling: u64, cursor: &[u8], attempts: &[u8]) -> Vec<u8> {
    let length = |snapshot: &[u8]| u16::try_from(snapshot.len()).unwrap().to_le_bytes();
    let payload = [cursor, attempts].concat();
    let used = length(&payload);
    let mut header = vec![1, 1, 0, 0];
    header.extend(number.to_le_bytes());
    header.extend(ceiling.to_le_bytes());
    header.extend(length(cursor));
    header.extend(length(attempts));
    let mut body = vec![2, 1];
    body.extend(used);
    body.extend(number.to_le_bytes());
    body.extend(payload);
    let mut bytes = [block(header), block(body)].concat();
    bytes.resize(18 * BLOCK, 0);
    bytes
}

/// What a restart says of a group with these snapshots.
fn of_snapshots(cursor: &[u8], attempts: &[u8]) -> Refusal {
    restart(journal(1, 4096, cursor, attempts)).unwrap_err()
}

// ## The refusals

fn of_configurations() -> Vec<Refusal> {
    let with = |delivery: DeliveryConfig| {
        let mut configuration = settings();
        configuration.settings.delivery = delivery;
        start(&configuration, 18).unwrap_err()
    };
    let hours = |hours: Hours| {
        let mut configuration = settings();
        configuration.settings.hours = hours;
        start(&configuration, 18).unwrap_err()
    };
    vec![
        with(DeliveryConfig::new(0, false, &[])),
        with(DeliveryConfig::new(3, false, &[1; 17])),
        with(DeliveryConfig::default().with_attempts_flush_redeliveries(0)),
        start(&settings(), 17).unwrap_err(),
        hours(Hours::from_masks([1 << 48; 7], 0)),
        hours(Hours::week()),
    ]
}

fn of_journals() -> Vec<Refusal> {
    let (right, none) = (cursor(1, &[]), attempts(1, 0, &[]));
    assert!(restart(journal(1, 4096, &right, &none)).is_ok());
    let flipped = |bytes: &[u8]| {
        let mut bytes = bytes.to_vec();
        *bytes.last_mut().unwrap() ^= 1;
        bytes
    };
    let mut worn = journal(1, 4096, &right, &none);
    worn[BLOCK + 9] ^= 1;
    vec![
        restart(vec![0; 20 * BLOCK - 1]).unwrap_err(),
        restart(worn).unwrap_err(),
        of_snapshots(&[right.clone(), vec![0]].concat(), &none),
        of_snapshots(&cursor(2, &[]), &none),
        of_snapshots(&flipped(&right), &none),
        of_snapshots(&cursor(1, &[[7, 7]]), &none),
        of_snapshots(&cursor(1, &[[5, 7]]), &none),
        of_snapshots(&right, &attempts(3, 0, &[])),
        of_snapshots(&right, &[none.clone(), vec![0]].concat()),
        of_snapshots(&right, &attempts(1, 2, &[8])),
        of_snapshots(&right, &flipped(&none)),
        of_snapshots(&right, &attempts(1, 2, &[8, 8])),
    ]
}

#[test]
fn the_values_of_journals() {
    let met: Vec<(u64, [u64; 2])> = of_journals()
        .iter()
        .map(|r| (r.number(), r.values()))
        .collect();
    let right = [
        (4, [0, 0]),
        (5, [1, 0]),
        (7, [14, 0]),
        (8, [2, 0]),
        (9, [0, 0]),
        (10, [7, 7]),
        (11, [5, 5]),
        (14, [3, 0]),
        (15, [10, 0]),
        (16, [2, 1]),
        (17, [0, 0]),
        (18, [8, 8]),
    ];
    assert_eq!(met, right);
}

fn of_sent_snapshots() -> Vec<Refusal> {
    let pairs: Vec<(Offset, u32)> = (0..129).map(|offset| (Offset::new(offset), 1)).collect();
    let numbers: Vec<u64> = (0..129).collect();
    let read = |bytes: &[u8]| decode_attempt_snapshot(bytes).unwrap_err();
    vec![
        read(&[1; 8]),
        read(&attempts(3, 0, &[])),
        read(&attempts(1, 129, &numbers)),
        encode_attempt_snapshot(&pairs).unwrap_err(),
        encode_attempt_snapshot_v2(&pairs).unwrap_err(),
    ]
}

fn of_claims() -> Vec<Refusal> {
    let mut consumer = begun(&settings());
    let mut claim = |offset, now| consumer.claim(WORKER, Offset::new(offset), now);
    let token = claim(0, 0).unwrap().token();
    let mut met = vec![claim(u64::MAX, 0).unwrap_err(), claim(0, 9).unwrap_err()];
    for offset in 1..64 {
        let _ = claim(offset, 0).unwrap();
    }
    met.push(claim(64, 0).unwrap_err());
    consumer.ack(WORKER, token).unwrap();
    met.push(consumer.claim(WORKER, Offset::ZERO, 0).unwrap_err());
    let mut fresh = start(&settings(), 18).unwrap();
    met.push(fresh.claim(WORKER, Offset::ZERO, 0).unwrap_err());
    // Tuesday has its first half hour alone, and clock 0 is Monday midnight.
    let mut configuration = settings();
    configuration.settings.hours = Hours::from_masks([0, 1, 0, 0, 0, 0, 0], 0);
    let closed = begun(&configuration).claim(WORKER, Offset::ZERO, 0);
    let opening = 48 * Hours::HALF_HOUR;
    assert_eq!(closed, Err(Refusal::Closed { opening }));
    met.push(closed.unwrap_err());
    // The last ceiling of all: no generation is left.
    let (cursor, attempts) = (cursor(1, &[]), attempts(1, 0, &[]));
    let mut last = restart(journal(1, u64::MAX, &cursor, &attempts)).unwrap();
    met.push(last.claim(WORKER, Offset::new(9), 0).unwrap_err());
    met
}

fn of_tokens() -> Vec<Refusal> {
    let mut consumer = begun(&settings());
    let token = consumer.claim(WORKER, Offset::ZERO, 0).unwrap().token();
    let mut met = vec![
        consumer.progress(WORKER, token, 25).unwrap_err(),
        consumer.ack(WorkerId::new(1), token).unwrap_err(),
        consumer.ack(WorkerId::new(2), token).unwrap_err(),
        consumer.ack(WorkerId::new(8), token).unwrap_err(),
    ];
    consumer.ack(WORKER, token).unwrap();
    met.push(consumer.ack(WORKER, token).unwrap_err());
    for range in 0..128 {
        let offset = Offset::new(2 + 2 * range);
        let token = consumer.claim(WORKER, offset, 0).unwrap().token();
        consumer.ack(WORKER, token).unwrap();
    }
    let token = consumer.claim(WORKER, Offset::new(999), 0).unwrap().token();
    met.push(consumer.ack(WORKER, token).unwrap_err());
    // A commit over what is held is answered.
    assert_eq!(consumer.commit(WORKER, Offset::new(1000)), Ok(true));
    met
}

fn of_questions() -> Vec<Refusal> {
    let mut consumer = begun(&settings());
    let _ = consumer.claim(WORKER, Offset::ZERO, 0).unwrap();
    let [one, two] = [1, 2].map(Offset::new);
    vec![
        consumer.waiting(WORKER, 10, &mut []).unwrap_err(),
        consumer
            .open_between(WORKER, two, one, &mut [Stretch::default()])
            .unwrap_err(),
        consumer.plan(WORKER, &[one], &mut []).unwrap_err(),
        consumer
            .plan(WORKER, &[one, two, one], &mut [0; 3])
            .unwrap_err(),
    ]
}

fn of_checkpoints() -> Vec<Refusal> {
    let (cursor, attempts) = (cursor(1, &[]), attempts(1, 0, &[]));
    let last = restart(journal(u32::MAX, 4096, &cursor, &attempts)).unwrap();
    let error = last.begin(WORKER).unwrap_err();
    let full = error.refusal();
    // It goes on, and is given back by each.
    let error = error.into_consumer().begin(WorkerId::new(9)).unwrap_err();
    let unknown = error.refusal();
    let error = error.into_consumer().begin(WorkerId::new(2)).unwrap_err();
    vec![full, unknown, error.refusal()]
}

#[test]
fn every_refusal_that_a_server_can_meet() {
    let met: BTreeSet<u64> = [
        of_configurations(),
        of_journals(),
        of_sent_snapshots(),
        of_claims(),
        of_tokens(),
        of_questions(),
        of_checkpoints(),
    ]
    .concat()
    .iter()
    .map(|refusal| refusal.number())
    .collect();
    let all: BTreeSet<u64> = (1..=40).filter(|n| ![6, 12, 30].contains(n)).collect();
    assert_eq!(met, all);
}

// A cursor snapshot of 12 bytes or of 129 ranges, an attempt snapshot of 8 bytes: the header isn't sound, and nothing is in the journal.
#[test]
fn no_restart_meets_the_lengths_that_no_header_has() {
    let (right, none) = (cursor(1, &[]), attempts(1, 0, &[]));
    for (cursor, attempts) in [(&right[..12], &none[..]), (&right[..], &none[..8])] {
        let consumer = restart(journal(1, 4096, cursor, attempts)).unwrap();
        assert_eq!(consumer.ceiling().get(), 0);
    }
    let mut long = journal(1, 4096, &right, &none);
    let length = u16::try_from(13 + 16 * 129).unwrap();
    long[16..18].copy_from_slice(&length.to_le_bytes());
    let header = block(long[..BLOCK - 4].to_vec());
    long[..BLOCK].copy_from_slice(&header);
    assert_eq!(restart(long).unwrap().ceiling().get(), 0);
}
