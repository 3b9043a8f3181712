//! Opening hours: every half hour of a week and its boundaries against a search half hour by half hour, hours that are refused, what a
//! claim meets first, and where a nack's deadline goes.

mod common;

use common::{configuration, fresh_path, Random, WORKER};
use ironbus_delivery_state::{
    Configuration, Consumer, HandOut, Hours, LeaseToken, NewJournal, Offset, Refusal, Weekday,
};

const HALF: u64 = Hours::HALF_HOUR;
const WEEK: u64 = Hours::WEEK;

/// When it is open next from a clock on, half hour by half hour: `None` where it is open at the clock itself.
fn searched(days: [u64; 7], shift: u64, now: u64) -> Option<u64> {
    let half = u128::from(HALF);
    let here = (u128::from(now) + u128::from(shift)) / half;
    for x in here..=here + 336 {
        let day = days[usize::try_from(x / 48 % 7).unwrap()];
        if day >> (x % 48) & 1 == 1 {
            let begins = (x * half).saturating_sub(u128::from(shift));
            return (x > here).then(|| u64::try_from(begins).unwrap_or(u64::MAX));
        }
    }
    panic!("nothing is open in {days:?}");
}

fn with_hours(days: [u64; 7], shift: u64) -> Configuration {
    let mut configuration = configuration(2, 1, 10, 25);
    configuration.settings.hours = Hours::from_masks(days, shift);
    configuration
}

/// A fresh consumer, which hands nothing out before its first checkpoint: an open claim is 26, and nothing changes.
fn consumer(name: &str, days: [u64; 7], shift: u64) -> Consumer {
    let journal = NewJournal::create(fresh_path(name), 18).unwrap();
    Consumer::start(&with_hours(days, shift), journal).unwrap_or_else(|error| panic!("{error}"))
}

fn compare(consumer: &mut Consumer, days: [u64; 7], shift: u64, now: u64) {
    let expected = match searched(days, shift, now) {
        Some(opening) => Refusal::Closed { opening },
        None => Refusal::CheckpointDue,
    };
    let answer = consumer.claim(WORKER, Offset::ZERO, now).unwrap_err();
    assert_eq!(
        answer, expected,
        "days {days:?}, shift {shift}, clock {now}"
    );
}

/// Both sides of every half hour of two weeks, from a clock on; where they lie beyond the largest number, none.
fn boundaries(from: u64, shift: u64) -> impl Iterator<Item = u64> {
    let first = u128::from(from) + u128::from(shift);
    let half = u128::from(HALF);
    let first = first.div_ceil(half) * half - u128::from(shift);
    (0..=2 * 336).flat_map(move |n| {
        let at = first + n * half;
        [at.wrapping_sub(1), at, at + 1, at + half / 2]
            .into_iter()
            .filter_map(|at| u64::try_from(at).ok())
    })
}

fn everywhere(name: &str, days: [u64; 7], shift: u64) {
    let mut consumer = consumer(name, days, shift);
    let near_the_end = u64::MAX - WEEK - HALF;
    for from in [0, 5 * WEEK + 7, near_the_end] {
        for now in boundaries(from, shift) {
            compare(&mut consumer, days, shift, now);
        }
    }
    for now in [0, 1, u64::MAX - 1, u64::MAX] {
        compare(&mut consumer, days, shift, now);
    }
}

#[test]
fn every_half_hour_of_a_week() {
    let weekdays = 0b11_1111_1111_0000_0000_0000_0000;
    let days = [weekdays, weekdays, 0, weekdays, 1 << 47, 1, 0];
    for (i, shift) in [0, 1, HALF, 3 * 48 * HALF, WEEK - 1]
        .into_iter()
        .enumerate()
    {
        everywhere(&format!("hours-week-{i}"), days, shift);
    }
}

/// The search goes up to the same weekday a week on, its earlier half hours included.
#[test]
fn one_open_half_hour_only() {
    for (i, (day, half)) in [(0, 0), (0, 47), (3, 20), (6, 0), (6, 47)]
        .into_iter()
        .enumerate()
    {
        let mut days = [0; 7];
        days[day] = 1u64 << half;
        for shift in [0, 17, WEEK - 1] {
            everywhere(&format!("hours-one-{i}-{shift}"), days, shift);
        }
    }
}

#[test]
fn random_hours_and_clocks() {
    let mut random = Random(20_261_117);
    for i in 0..200 {
        let mut days = [0; 7];
        for day in &mut days {
            *day = random.next() & random.next() & random.next() & ((1 << 48) - 1);
        }
        days[random.below(7) as usize] |= 1 << random.below(48);
        let shift = random.below(WEEK);
        let mut consumer = consumer(&format!("hours-random-{}", i % 2), days, shift);
        for _ in 0..200 {
            let now = match random.below(3) {
                0 => random.next(),
                1 => random.below(3 * WEEK),
                _ => u64::MAX - random.below(2 * WEEK),
            };
            compare(&mut consumer, days, shift, now);
        }
    }
}

#[test]
fn hours_that_are_refused() {
    let refused = |name: &str, configuration: &Configuration| {
        let journal = NewJournal::create(fresh_path(name), 18).unwrap();
        Consumer::start(configuration, journal)
            .err()
            .map(|error| error.refusal())
    };
    let bits = [0, 0, 0, 0, 0, 0, 1 << 48];
    assert_eq!(
        refused("hours-33-bits", &with_hours(bits, 0)),
        Some(Refusal::BadHours)
    );
    assert_eq!(
        refused("hours-33-shift", &with_hours([1; 7], WEEK)),
        Some(Refusal::BadHours)
    );
    assert_eq!(
        refused("hours-33-both", &with_hours([0; 7], WEEK)),
        Some(Refusal::BadHours)
    );
    assert_eq!(
        refused("hours-34", &with_hours([0; 7], WEEK - 1)),
        Some(Refusal::NeverOpen)
    );
    assert_eq!(
        refused(
            "hours-ok",
            &with_hours([0, 0, 0, 0, 0, 0, 1 << 47], WEEK - 1)
        ),
        None
    );
    let mut threshold = with_hours([0; 7], WEEK);
    threshold.settings.delivery = threshold
        .settings
        .delivery
        .with_attempts_flush_redeliveries(0);
    assert_eq!(refused("hours-3", &threshold), Some(Refusal::ZeroThreshold));
}

/// A restart is handed the hours again, and refuses them as a start does.
#[test]
fn a_restart_tests_the_hours() {
    let path = fresh_path("hours-restart");
    let journal = NewJournal::create(&path, 18).unwrap();
    let consumer = Consumer::start(&with_hours([1; 7], 0), journal)
        .map_err(|error| error.refusal())
        .unwrap();
    let journal = consumer.checkpoint(WORKER).unwrap().into_journal();
    let error = Consumer::restart(&with_hours([0; 7], 0), journal).unwrap_err();
    assert_eq!(error.refusal(), Refusal::NeverOpen);
    let mut consumer = Consumer::restart(&with_hours([2; 7], 0), error.into_journal()).unwrap();
    assert_eq!(
        consumer.claim(WORKER, Offset::ZERO, 0),
        Err(Refusal::Closed { opening: HALF })
    );
}

/// 21 and 22 before 35, 35 before 23 and 26; Ack, Progress and the waiting list don't look at the hours.
#[test]
fn what_a_claim_meets_first() {
    let days = [1, 0, 0, 0, 0, 0, 0];
    let mut consumer = consumer("hours-order", days, 0).checkpoint(WORKER).unwrap();
    let held = claim(&mut consumer, 3, 0);
    let settled = claim(&mut consumer, 4, HALF - 5);
    consumer.ack(WORKER, settled).unwrap();
    let closed = Err(Refusal::Closed { opening: WEEK });
    assert_eq!(
        consumer.claim(WORKER, Offset::new(u64::MAX), HALF),
        Err(Refusal::LastOffset)
    );
    assert_eq!(
        consumer.claim(WORKER, Offset::new(4), HALF),
        Err(Refusal::Settled)
    );
    assert_eq!(consumer.claim(WORKER, Offset::new(3), HALF), closed);
    assert_eq!(consumer.progress(WORKER, held, 5), Ok(15));
    assert_eq!(
        consumer.claim(WORKER, Offset::new(3), 14),
        Err(Refusal::InFlight)
    );
    let mut waiting = [Offset::ZERO; 4];
    assert_eq!(consumer.waiting(WORKER, HALF, &mut waiting), Ok(1));
    consumer.ack(WORKER, held).unwrap();
}

/// A nack's deadline that falls outside moves to the next opening, and one that falls inside stays.
#[test]
fn where_a_nack_goes() {
    let days = [1, 0, 0, 0, 0, 0, 0];
    let mut consumer = consumer("hours-nack", days, 0).checkpoint(WORKER).unwrap();
    let token = claim(&mut consumer, 0, 0);
    assert_eq!(
        consumer.nack(WORKER, token, HALF - 6, Some(5)),
        Ok(HALF - 1)
    );
    let token = claim(&mut consumer, 1, 0);
    assert_eq!(consumer.nack(WORKER, token, HALF - 6, Some(6)), Ok(WEEK));
    // the hard cap is 25: the delay is capped first, and the deadline moved then
    let token = claim(&mut consumer, 2, 0);
    assert_eq!(consumer.nack(WORKER, token, 0, Some(u64::MAX)), Ok(25));
    let token = claim(&mut consumer, 3, 0);
    assert_eq!(
        consumer.nack(WORKER, token, HALF - 1, Some(u64::MAX)),
        Ok(WEEK)
    );
    // from a clock outside the hours, and near the end of all clocks
    let token = claim(&mut consumer, 4, 0);
    assert_eq!(
        consumer.nack(WORKER, token, WEEK + HALF, None),
        Ok(2 * WEEK)
    );
    let token = claim(&mut consumer, 5, 0);
    assert_eq!(searched(days, 0, u64::MAX), Some(u64::MAX));
    assert_eq!(
        consumer.nack(WORKER, token, u64::MAX - 3, Some(20)),
        Ok(u64::MAX)
    );
    assert_eq!(
        consumer.claim(WORKER, Offset::new(5), u64::MAX),
        Err(Refusal::Closed { opening: u64::MAX })
    );
}

#[test]
fn hours_that_people_can_read() {
    let mut hours = Hours::week();
    for day in &Weekday::ALL[..5] {
        hours = hours.open(*day, (8, 0)..(17, 30)).unwrap();
    }
    let hours = hours.clock_zero(Weekday::Thursday, (0, 0)).unwrap();
    let mut configuration = configuration(2, 1, 10, 25);
    configuration.settings.hours = hours;
    let journal = NewJournal::create(fresh_path("hours-readable"), 18).unwrap();
    let consumer = Consumer::start(&configuration, journal)
        .map_err(|error| error.refusal())
        .unwrap();
    let mut consumer = consumer.checkpoint(WORKER).unwrap();
    // 1970-01-01 was a Thursday: closed at midnight and open from 8 on
    assert_eq!(
        consumer.claim(WORKER, Offset::ZERO, 0),
        Err(Refusal::Closed { opening: 16 * HALF })
    );
    claim(&mut consumer, 0, 16 * HALF);
    // on Friday evening the next opening is Monday's
    let evening = (48 + 35) * HALF;
    let monday = (4 * 48 + 16) * HALF;
    assert_eq!(
        consumer.claim(WORKER, Offset::new(1), evening),
        Err(Refusal::Closed { opening: monday })
    );
}

fn claim(consumer: &mut Consumer, offset: u64, now: u64) -> LeaseToken {
    match consumer.claim(WORKER, Offset::new(offset), now) {
        Ok(HandOut::Deliver { token, .. } | HandOut::DeadLetter { token, .. }) => token,
        Err(refusal) => panic!("{refusal}"),
    }
}
