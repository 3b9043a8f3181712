//! A whole plan in one walk: the answers of single questions, the looks counted as SPEC.md counts them, and what is refused.

mod common;

use common::{configuration, fresh_path};
use ironbus_delivery_state::{Consumer, NewJournal, Offset, Refusal, WorkerId};

const WORKER: WorkerId = WorkerId::new(0);
const MAX: u64 = u64::MAX;

/// A consumer on a journal of a name, with these offsets settled one by one.
fn settled(name: &str, up_to: u64, acked: &[u64]) -> Consumer {
    let journal = NewJournal::create(fresh_path(name), 18).unwrap();
    let consumer = Consumer::start(&configuration(5, 9, 100, 1000), journal).unwrap();
    let mut consumer = consumer.checkpoint(WORKER).unwrap();
    consumer.commit(WORKER, Offset::new(up_to)).unwrap();
    for offset in acked {
        let claimed = consumer.claim(WORKER, Offset::new(*offset), 0).unwrap();
        consumer.ack(WORKER, claimed.token()).unwrap();
    }
    consumer
}

fn offsets(numbers: &[u64]) -> Vec<Offset> {
    numbers.iter().copied().map(Offset::new).collect()
}

/// The looks and the answers.
fn plan(consumer: &Consumer, numbers: &[u64]) -> (u64, Vec<u8>) {
    let mut out = vec![7; numbers.len()];
    let looks = consumer.plan(WORKER, &offsets(numbers), &mut out).unwrap();
    (looks, out)
}

#[test]
fn looks_are_counted_as_the_walk_makes_them() {
    // committed 5, ranges [8, 10) and [12, 13)
    let consumer = settled("plan-looks.journal", 5, &[8, 9, 12]);
    for (numbers, looks, answers) in [
        (&[][..], 0, &[][..]),
        // comparing with committed is no look
        (&[0, 4], 0, &[1, 1]),
        (&[5], 1, &[0]),
        // an equal offset is compared again
        (&[9, 9], 2, &[1, 1]),
        // at the end itself the walk steps on, which is a look of its own
        (&[10], 2, &[0]),
        (&[4, 7, 8, 9, 10, 11, 12, 13], 8, &[1, 0, 1, 1, 0, 0, 1, 0]),
        // with no range left there are no more looks
        (&[13, 14, MAX], 2, &[0, 0, 0]),
        (&[MAX], 2, &[0]),
    ] {
        assert_eq!(
            plan(&consumer, numbers),
            (looks, answers.to_vec()),
            "{numbers:?}"
        );
    }
}

#[test]
fn refusals_come_in_order_and_write_nothing() {
    let consumer = settled("plan-refused.journal", 5, &[8]);
    for (worker, numbers, room, refusal) in [
        // 38 before 36, 36 before 37, and never 20
        (8, &[9, 8][..], 3, Refusal::UnknownWorker),
        (0, &[9, 8], 3, Refusal::UnequalLengths),
        (0, &[9, 8], 1, Refusal::UnequalLengths),
        (0, &[], 1, Refusal::UnequalLengths),
        (0, &[9, 8], 2, Refusal::Falling { place: 1 }),
        (0, &[1, 1, 2, 1, 0], 5, Refusal::Falling { place: 3 }),
        (0, &[0, MAX, MAX, 0], 4, Refusal::Falling { place: 3 }),
    ] {
        let mut out = vec![7; room];
        let answer = consumer.plan(WorkerId::new(worker), &offsets(numbers), &mut out);
        assert_eq!(answer, Err(refusal), "{numbers:?} into {room}");
        assert_eq!(out, vec![7; room]);
    }
}

#[test]
fn a_plan_answers_what_single_questions_do() {
    let acked: Vec<u64> = (1..=40).map(|i| 10 + 3 * i).collect();
    let consumer = settled("plan-single.journal", 10, &acked);
    for first in 0..30 {
        let numbers: Vec<u64> = (0..100).map(|i| first + i * 7 / 5).collect();
        let (looks, answers) = plan(&consumer, &numbers);
        assert!(looks <= 100 + 40, "{looks}");
        for (number, answer) in numbers.iter().zip(answers) {
            let single = consumer.is_settled(WORKER, Offset::new(*number)).unwrap();
            assert_eq!(answer, u8::from(single), "{number}");
        }
    }
}
