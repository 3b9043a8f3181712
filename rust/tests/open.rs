//! The stretches that are still open between two numbers, and the nearest open offset: with no range, with one and with all 128.

mod common;

use common::{configuration, fresh_path, Random, WORKER};
use ironbus_delivery_state::{
    Consumer, NewJournal, Offset, Refusal, Stretch, WorkerId, MAX_STRETCHES,
};

const LAST: u64 = u64::MAX;

/// A consumer with one checkpoint, on a journal of a name.
fn start(name: &str) -> Consumer {
    let journal = NewJournal::create(fresh_path(name), 18).unwrap();
    let consumer = Consumer::start(&configuration(5, 9, 100, 1000), journal).unwrap();
    consumer.checkpoint(WORKER).unwrap()
}

fn settle(consumer: &mut Consumer, offset: u64) {
    let token = consumer
        .claim(WORKER, Offset::new(offset), 0)
        .unwrap()
        .token();
    consumer.ack(WORKER, token).unwrap();
}

/// The stretches as pairs of numbers, from a list of just as many places; one place fewer is refused and changes nothing.
fn open(consumer: &Consumer, a: u64, b: u64) -> Vec<(u64, u64)> {
    let (a, b) = (Offset::new(a), Offset::new(b));
    let all = consumer.open_stretches(WORKER, a, b).unwrap();
    let untouched = Stretch::new(7, 7);
    let mut list = vec![untouched; all.len()];
    assert_eq!(
        consumer.open_between(WORKER, a, b, &mut list),
        Ok(all.len())
    );
    assert_eq!(list, all);
    let mut longer = vec![untouched; all.len() + 2];
    assert_eq!(
        consumer.open_between(WORKER, a, b, &mut longer),
        Ok(all.len())
    );
    assert_eq!(
        (&longer[..all.len()], &longer[all.len()..]),
        (&all[..], &[untouched; 2][..])
    );
    if !all.is_empty() {
        let mut short = vec![untouched; all.len() - 1];
        assert_eq!(
            consumer.open_between(WORKER, a, b, &mut short),
            Err(Refusal::OutTooShort)
        );
        assert!(short.iter().all(|place| *place == untouched));
    }
    all.iter().map(|s| (s.start.get(), s.end.get())).collect()
}

fn nearest(consumer: &Consumer, offset: u64) -> u64 {
    consumer
        .nearest_open(WORKER, Offset::new(offset))
        .unwrap()
        .get()
}

#[test]
fn nothing_settled() {
    let consumer = start("open-none");
    assert_eq!(open(&consumer, 0, 0), []);
    assert_eq!(open(&consumer, 5, 9), [(5, 9)]);
    assert_eq!(open(&consumer, 0, LAST), [(0, LAST)]);
    assert_eq!(open(&consumer, LAST, LAST), []);
    assert_eq!(nearest(&consumer, 0), 0);
    assert_eq!(nearest(&consumer, LAST), LAST);
}

#[test]
fn one_range() {
    let mut consumer = start("open-one");
    consumer.commit(WORKER, Offset::new(5)).unwrap();
    settle(&mut consumer, 8);
    settle(&mut consumer, 9);
    for (a, b, right) in [
        (0, 5, &[][..]),
        (0, 6, &[(5, 6)]),
        (4, 8, &[(5, 8)]),
        (0, 20, &[(5, 8), (10, 20)]),
        (7, 9, &[(7, 8)]),
        (8, 10, &[]),
        (8, 11, &[(10, 11)]),
        (9, 9, &[]),
        (9, 12, &[(10, 12)]),
        (10, 11, &[(10, 11)]),
        (12, LAST, &[(12, LAST)]),
    ] {
        assert_eq!(open(&consumer, a, b), right, "[{a}, {b})");
    }
    for (offset, right) in [(0, 5), (4, 5), (5, 5), (7, 7), (8, 10), (9, 10), (10, 10)] {
        assert_eq!(nearest(&consumer, offset), right, "from {offset}");
    }
}

#[test]
fn all_ranges() {
    let mut consumer = start("open-all");
    for k in 0..128 {
        settle(&mut consumer, 2 * k + 1);
    }
    let mut all: Vec<(u64, u64)> = (0..128).map(|k| (2 * k, 2 * k + 1)).collect();
    assert_eq!(open(&consumer, 0, 256), all);
    all.push((256, LAST));
    assert_eq!(all.len(), MAX_STRETCHES);
    assert_eq!(open(&consumer, 0, LAST), all);
    assert_eq!(open(&consumer, 1, 255), all[1..128]);
    assert_eq!(nearest(&consumer, 255), 256);
}

#[test]
fn refusals_come_in_order() {
    let mut consumer = start("open-refused");
    let reversed = |consumer: &Consumer, worker| {
        let mut list = [Stretch::new(7, 7); 1];
        let answer = consumer.open_between(worker, Offset::new(2), Offset::new(1), &mut list);
        assert_eq!(list, [Stretch::new(7, 7)]);
        answer
    };
    assert_eq!(
        reversed(&mut consumer, WorkerId::new(8)),
        Err(Refusal::UnknownWorker)
    );
    assert_eq!(
        reversed(&mut consumer, WorkerId::new(1)),
        Err(Refusal::NotPermitted)
    );
    assert_eq!(
        reversed(&mut consumer, WORKER),
        Err(Refusal::BoundsReversed)
    );
    assert_eq!(
        consumer.open_between(WORKER, Offset::new(2), Offset::new(1), &mut []),
        Err(Refusal::BoundsReversed)
    );
    assert_eq!(
        consumer.open_between(WORKER, Offset::new(1), Offset::new(2), &mut []),
        Err(Refusal::OutTooShort)
    );
    assert_eq!(
        consumer.nearest_open(WorkerId::new(8), Offset::ZERO),
        Err(Refusal::UnknownWorker)
    );
}

/// Against the test of each offset by itself.
#[test]
fn as_each_offset_by_itself() {
    let mut random = Random(23);
    for round in 0..20 {
        let mut consumer = start(&format!("open-random-{round}"));
        for _ in 0..random.below(60) {
            let offset = random.below(100);
            if !consumer.is_settled(WORKER, Offset::new(offset)).unwrap() {
                settle(&mut consumer, offset);
            }
        }
        for _ in 0..40 {
            let (x, y) = (random.below(110), random.below(110));
            let (a, b) = (x.min(y), x.max(y));
            let mut is_open = |o: &u64| !consumer.is_settled(WORKER, Offset::new(*o)).unwrap();
            let right: Vec<u64> = (a..b).filter(&mut is_open).collect();
            let first = (a..).find(is_open).unwrap();
            let stretches = open(&consumer, a, b);
            let listed: Vec<u64> = stretches.iter().flat_map(|(s, e)| *s..*e).collect();
            assert_eq!(listed, right);
            assert!(stretches.windows(2).all(|two| two[0].1 < two[1].0));
            assert_eq!(nearest(&consumer, a), first);
        }
    }
}
