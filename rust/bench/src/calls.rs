//! The calls one by one, on a consumer that is called again and again.

use std::hint::black_box;
use std::time::Instant;

use delivery_bench::{Nowhere, Side, Token};
use ironbus_delivery_state::{LeaseConfig, Offset, MAX_BLOCKS};

use crate::{lines, per_call, Ours, Theirs};

/// How many calls are timed at a time, about.
const CALLS: u64 = 1000;

/// How often that is done in a round: so many claims or nacks are within the 4,096 generations of a checkpoint.
const TIMES: u32 = 4;

const ROUNDS: u32 = 100;

/// What is held besides has offsets from here on, above those of the timed calls. Where leases are kept sorted by offset, each
/// claim and each ack then moves all of them.
const HELD: u64 = 1 << 40;

/// How many consumers begin their checkpoints one after the other, so that reading the clock counts for little.
const BEGUN: u64 = 8;

fn start<S: Side<Storage = Nowhere>>() -> S {
    S::start(Nowhere { blocks: MAX_BLOCKS })
}

/// Claims so many offsets.
fn hold(side: &mut impl Side, first: u64, leases: u64) -> Vec<Token> {
    (first..first + leases)
        .map(|offset| side.claim(offset, 0))
        .collect()
}

/// A claim and an ack of the next offset, with so many leases and so many carried counts held above it.
fn claim_and_ack<S: Side<Storage = Nowhere>>(leases: u64, carried: u64) -> [f64; 1] {
    let mut side = start::<S>().carrying(HELD..HELD + carried);
    hold(&mut side, HELD + carried, leases);
    let held = (leases as usize, carried as usize);
    let (time, next) = claims_from(&mut side, 0, held);
    assert_eq!(side.committed(), next);
    [time]
}

/// The same with so many leases held below it, as where the oldest take long: each ack is then ahead of committed.
fn claim_and_ack_above<S: Side<Storage = Nowhere>>(leases: u64) -> [f64; 1] {
    let mut side = start::<S>();
    hold(&mut side, 0, leases);
    let (time, _) = claims_from(&mut side, leases, (leases as usize, 0));
    assert_eq!(side.committed(), 0);
    [time]
}

/// The time of a claim and an ack of the next offset from one on, with what is held besides; and the offset behind the last.
fn claims_from(side: &mut impl Side, first: u64, held: (usize, usize)) -> (f64, u64) {
    assert_eq!(side.held(), held);
    let mut next = first;
    let time = per_call(CALLS, TIMES, || {
        for offset in next..next + CALLS {
            let token = side.claim(offset, offset);
            side.ack(token);
        }
        next += CALLS;
    });
    assert_eq!(side.held(), held);
    (time, next)
}

/// A nack of each of so many leases in turn. The lease has a new generation after it, which the next one is made under.
fn nack<S: Side<Storage = Nowhere>>(leases: u64) -> [f64; 1] {
    let mut side = start::<S>();
    let mut tokens = hold(&mut side, 0, leases);
    let mut next = tokens.last().unwrap().generation + 1;
    let mut now = 1;
    let time = per_call(CALLS, TIMES, || {
        for _ in 0..CALLS / leases {
            for token in &mut tokens {
                assert_eq!(side.nack(*token, now), now);
                token.generation = next;
                next += 1;
            }
            now += 1;
        }
    });
    for token in tokens {
        assert_eq!(side.deliveries(token), Some(1));
    }
    [time]
}

/// A progress of each of so many leases in turn.
fn progress<S: Side<Storage = Nowhere>>(leases: u64) -> [f64; 1] {
    let mut side = start::<S>();
    let tokens = hold(&mut side, 0, leases);
    let visibility = LeaseConfig::default().visibility_nanos;
    let mut now = 1;
    let time = per_call(CALLS, TIMES, || {
        for _ in 0..CALLS / leases {
            for token in &tokens {
                assert_eq!(side.progress(*token, now), now + visibility);
            }
            now += 1;
        }
    });
    [time]
}

/// Commits that each settle one offset more, with so many leases above them.
fn commit<S: Side<Storage = Nowhere>>(leases: u64) -> [f64; 1] {
    let mut side = start::<S>();
    hold(&mut side, HELD, leases);
    let mut next = 0;
    let time = per_call(CALLS, TIMES, || {
        for up_to in next + 1..=next + CALLS {
            assert!(side.commit(up_to));
        }
        next += CALLS;
    });
    let held = (leases as usize, 0);
    assert_eq!((side.committed(), side.held()), (next, held));
    [time]
}

/// Whether an offset is settled, of all from 0 to beyond the last of so many ranges of one offset each.
fn is_settled<S: Side<Storage = Nowhere>>(ranges: u64) -> [f64; 1] {
    let mut side = start::<S>();
    for range in 1..=ranges {
        let token = side.claim(2 * range, 0);
        side.ack(token);
    }
    let offsets = 2 * ranges + 2;
    let turns = CALLS.div_ceil(offsets);
    let mut settled = 0;
    let time = per_call(turns * offsets, TIMES, || {
        for _ in 0..turns {
            for offset in 0..offsets {
                settled += u64::from(side.is_settled(black_box(offset)));
            }
        }
    });
    assert_eq!(settled, u64::from(TIMES) * turns * ranges);
    [time]
}

/// How many offsets a plan has.
const PLANNED: u64 = 100;

/// A plan of 100 offsets over so many ranges of one offset each, by one call and by a question for each offset.
fn plan<S: Side<Storage = Nowhere>>(ranges: u64) -> [f64; 2] {
    let mut side = start::<S>();
    for range in 1..=ranges {
        let token = side.claim(2 * range, 0);
        side.ack(token);
    }
    let offsets: Vec<Offset> = (0..PLANNED)
        .map(|i| Offset::new(1 + i * (2 * ranges + 1) / PLANNED))
        .collect();
    let mut at_once = [7; PLANNED as usize];
    let mut one_by_one = [7; PLANNED as usize];
    let turns = CALLS / PLANNED;
    let whole = per_call(turns, TIMES, || {
        for _ in 0..turns {
            side.plan(black_box(&offsets), &mut at_once);
        }
    });
    let single = per_call(turns, TIMES, || {
        for _ in 0..turns {
            for (offset, byte) in black_box(&offsets).iter().zip(&mut one_by_one) {
                *byte = u8::from(side.is_settled(offset.get()));
            }
        }
    });
    assert_eq!(at_once, one_by_one);
    [whole, single]
}

/// The count of each of so many leases in turn: `lease_of` here, `deliveries` in the original.
fn deliveries<S: Side<Storage = Nowhere>>(leases: u64) -> [f64; 1] {
    let mut side = start::<S>();
    let tokens = hold(&mut side, 0, leases);
    let time = per_call(CALLS, TIMES, || {
        for _ in 0..CALLS / leases {
            for token in &tokens {
                assert_eq!(side.deliveries(black_box(*token)), Some(1));
            }
        }
    });
    [time]
}

/// The waiting list of 64 leases that have all run out, claimed at these clocks.
fn waiting<S: Side<Storage = Nowhere>>(clock: fn(u64) -> u64) -> [f64; 1] {
    let mut side = start::<S>();
    for offset in 0..64 {
        side.claim(offset, clock(offset));
    }
    let time = per_call(CALLS, TIMES, || {
        for _ in 0..CALLS {
            assert_eq!(side.waiting(black_box(u64::MAX)), 64);
        }
    });
    [time]
}

/// A begin, and a step, of consumers with so many leases, until the first half of their journals is full.
fn begin_and_step<S: Side<Storage = Nowhere>>(leases: u64) -> [f64; 2] {
    let mut sides: Vec<S> = (0..BEGUN).map(|_| start()).collect();
    for side in &mut sides {
        hold(side, 0, leases);
    }
    let mut begun = Vec::with_capacity(sides.len());
    let blocks = blocks_of(leases);
    let (mut begin, mut step) = (f64::INFINITY, f64::INFINITY);
    for _ in 0..(MAX_BLOCKS as u64 / 2 - blocks_of(0)) / blocks {
        let start = Instant::now();
        begun.extend(sides.drain(..).map(S::begin));
        begin = begin.min(start.elapsed().as_secs_f64());
        let mut steps = 0;
        let start = Instant::now();
        for writing in begun.drain(..) {
            let (side, made) = S::finish(writing);
            sides.push(side);
            steps += made;
        }
        step = step.min(start.elapsed().as_secs_f64());
        assert_eq!(steps, BEGUN * blocks);
    }
    let each = 1e9 / BEGUN as f64;
    [begin * each, step * each / blocks as f64]
}

/// A restart from a journal of 128 blocks with so many groups in its first half, the last of which has so many ranges and counts.
/// Where a side has no journal there is no time.
fn restart<S: Side<Storage = Nowhere>>(groups: u64, ranges: u64, counts: u64) -> Option<f64> {
    let mut side = start::<S>();
    for range in 0..ranges {
        let token = side.claim(HELD + 2 * range, 0);
        side.ack(token);
    }
    hold(&mut side, 0, counts);
    for _ in 1..groups {
        side = side.checkpoint();
    }
    let mut side = Some(side);
    let time = per_call(CALLS / 10, TIMES, || {
        for _ in 0..CALLS / 10 {
            side = side.take().and_then(S::restart);
        }
    });
    side.map(|mut side| {
        assert_eq!(side.held(), (0, counts as usize));
        time
    })
}

/// How many blocks a checkpoint takes that stores so many counts and no range: a header, and bodies of 500 bytes.
fn blocks_of(counts: u64) -> u64 {
    1 + (13 + 9 + 12 * counts).div_ceil(500)
}

fn claims_and_acks() {
    // a count that is carried takes one of 128 places, and the offset that is claimed another
    for (leases, carried) in [(0, 0), (8, 0), (63, 0), (0, 127), (63, 64)] {
        let name = format!("claim + ack, {leases} leases and {carried} carried counts above");
        lines(
            [&name],
            ROUNDS,
            || claim_and_ack::<Theirs>(leases, carried),
            || claim_and_ack::<Ours>(leases, carried),
        );
    }
    for leases in [8, 63] {
        lines(
            [&format!("claim + ack, {leases} leases below")],
            ROUNDS,
            || claim_and_ack_above::<Theirs>(leases),
            || claim_and_ack_above::<Ours>(leases),
        );
    }
}

fn under_a_token() {
    for leases in [1, 50] {
        lines(
            [&format!("nack, {leases} in flight")],
            ROUNDS,
            || nack::<Theirs>(leases),
            || nack::<Ours>(leases),
        );
    }
    for leases in [1, 50] {
        lines(
            [&format!("progress, {leases} in flight")],
            ROUNDS,
            || progress::<Theirs>(leases),
            || progress::<Ours>(leases),
        );
    }
}

fn commits() {
    for leases in [0, 50] {
        lines(
            [&format!("commit, {leases} in flight above it")],
            ROUNDS,
            || commit::<Theirs>(leases),
            || commit::<Ours>(leases),
        );
    }
}

fn questions() {
    for ranges in [0, 50] {
        lines(
            [&format!("is_settled, {ranges} ranges ahead")],
            ROUNDS,
            || is_settled::<Theirs>(ranges),
            || is_settled::<Ours>(ranges),
        );
    }
    for ranges in [0, 16, 128] {
        let names = [
            &*format!("plan of {PLANNED} offsets, {ranges} ranges ahead"),
            &*format!("{PLANNED} times is_settled, {ranges} ranges ahead"),
        ];
        lines(
            names,
            ROUNDS,
            || plan::<Theirs>(ranges),
            || plan::<Ours>(ranges),
        );
    }
    for leases in [1, 50] {
        lines(
            [&format!("lease_of, {leases} in flight")],
            ROUNDS,
            || deliveries::<Theirs>(leases),
            || deliveries::<Ours>(leases),
        );
    }
}

fn waiting_lists() {
    let clocks: [(&str, fn(u64) -> u64); 3] = [
        ("rising", |offset| offset),
        ("falling", |offset| 63 - offset),
        ("equal", |_| 0),
    ];
    for (deadlines, clock) in clocks {
        lines(
            [&format!(
                "waiting, 64 leases run out, deadlines {deadlines}"
            )],
            ROUNDS,
            || waiting::<Theirs>(clock),
            || waiting::<Ours>(clock),
        );
    }
}

fn checkpoints() {
    for leases in [1, 50] {
        let blocks = blocks_of(leases);
        let names = [
            &*format!("begin, {leases} in flight"),
            &*format!("step, {leases} in flight, the mean of {blocks}"),
        ];
        lines(
            names,
            ROUNDS / 10,
            || begin_and_step::<Theirs>(leases),
            || begin_and_step::<Ours>(leases),
        );
    }
}

// The original has no journal: these lines have one side.
fn restarts() {
    for (groups, ranges, counts) in [(1, 0, 0), (32, 0, 1), (9, 128, 64)] {
        let least = (0..ROUNDS / 10)
            .filter_map(|_| restart::<Ours>(groups, ranges, counts))
            .fold(f64::INFINITY, f64::min);
        println!(
            "| restart, 128 blocks: {groups} groups, {ranges} ranges and {counts} counts in the last | – | {least:.1} | – |"
        );
    }
}

pub fn table() {
    claims_and_acks();
    under_a_token();
    commits();
    questions();
    waiting_lists();
    checkpoints();
    restarts();
}
