//! Every call on a thread whose stack has no more than `STACK` bytes. `NINOTSKEV_STACK` tries another number.

mod common;

use std::fs;
use std::hint::black_box;
use std::thread;

use common::{configuration, fresh_path, WORKER};
use ironbus_delivery_state::{
    check_library, decode_attempt_snapshot, encode_attempt_snapshot, encode_attempt_snapshot_v2,
    Consumer, Generation, Journal, NewJournal, Offset, Step, Stretch, MAX_PAIRS, MAX_STRETCHES,
    STACK,
};

/// Every call that changes something, on the fullest state: 64 leases, 64 counts, 128 ranges, a checkpoint of 9 blocks that goes to
/// the other half.
fn calls() -> Consumer {
    let path = fresh_path("stack");
    let settings = configuration(9, 999, 10, 25);
    check_library().unwrap();
    let consumer = Consumer::start(&settings, NewJournal::create(&path, 18).unwrap()).unwrap();
    let mut consumer = consumer.checkpoint(WORKER).unwrap();
    for offset in 1000..1064 {
        let _ = consumer.claim(WORKER, Offset::new(offset), 0).unwrap();
    }
    drop(consumer.checkpoint(WORKER).unwrap());
    let consumer = Consumer::restart(&settings, Journal::open(&path).unwrap()).unwrap();
    let mut consumer = consumer.checkpoint(WORKER).unwrap();
    for offset in (0..256).step_by(2) {
        let token = consumer.claim(WORKER, Offset::new(offset + 2), 0).unwrap();
        consumer.ack(WORKER, token.token()).unwrap();
    }
    for offset in 2000..2064 {
        let token = consumer.claim(WORKER, Offset::new(offset), 0).unwrap();
        consumer.progress(WORKER, token.token(), 1).unwrap();
        consumer.nack(WORKER, token.token(), 1, Some(0)).unwrap();
    }
    let journal = consumer.checkpoint(WORKER).unwrap().into_journal();
    let consumer = Consumer::restart_at_least(&settings, journal, Generation::new(1)).unwrap();
    let mut writing = consumer.begin(WORKER).unwrap();
    assert_eq!(writing.writes_left(), 9 + 9);
    let mut consumer = loop {
        match writing.step().unwrap() {
            Step::Wrote { writing: next, .. } => writing = next,
            Step::Finished { consumer, .. } => break consumer,
        }
    };
    let token = consumer.claim(WORKER, Offset::new(2000), 9).unwrap();
    consumer.term(WORKER, token.token()).unwrap_err();
    consumer.commit(WORKER, Offset::new(4)).unwrap();
    consumer.term(WORKER, token.token()).unwrap();
    fs::remove_file(&path).unwrap();
    consumer
}

/// Every question.
fn questions(consumer: &Consumer) {
    let offset = Offset::new(2001);
    let mut waiting = [Offset::ZERO; 128];
    assert_eq!(consumer.waiting(WORKER, 99, &mut waiting), Ok(127));
    let mut stretches = [Stretch::default(); MAX_STRETCHES];
    let end = Offset::new(u64::MAX);
    let n = consumer.open_between(WORKER, Offset::ZERO, end, &mut stretches);
    assert_eq!(n, Ok(128));
    let list = consumer.open_stretches(WORKER, Offset::ZERO, end).unwrap();
    assert_eq!(list.len(), 128);
    let mut settled = [0; 128];
    consumer.plan(WORKER, &[offset; 128], &mut settled).unwrap();
    black_box((
        consumer.committed(WORKER),
        consumer.nearest_open(WORKER, offset),
    ))
    .0
    .unwrap();
    black_box((
        consumer.is_settled(WORKER, offset),
        consumer.count_of(WORKER, offset),
    ))
    .0
    .unwrap();
    black_box((
        consumer.lease_of(WORKER, offset),
        consumer.view(WORKER, offset, 9),
    ))
    .0
    .unwrap();
    black_box((consumer.in_flight(WORKER), consumer.is_due(WORKER)))
        .0
        .unwrap();
    black_box((consumer.blocks_left(WORKER), consumer.checkpoint_due()))
        .0
        .unwrap();
    let counts = consumer.all_attempt_counts(WORKER).unwrap();
    assert!(counts.len() > 100 && counts.len() <= MAX_PAIRS);
    for bytes in [
        encode_attempt_snapshot(&counts),
        encode_attempt_snapshot_v2(&counts),
    ] {
        assert_eq!(decode_attempt_snapshot(&bytes.unwrap()).unwrap(), counts);
    }
}

#[test]
fn every_call_runs_on_a_small_stack() {
    let size = std::env::var("NINOTSKEV_STACK").map_or(STACK, |size| size.parse().unwrap());
    let thread = thread::Builder::new().stack_size(size);
    let ran = thread.spawn(|| questions(&calls())).unwrap();
    ran.join().unwrap();
}
