//! SPEC.md, "Nack": a nack puts off the next delivery by the hard cap at most.
use super::{play, scripts};
use crate::line::{read, Call, Start};
use crate::program::Program;
use std::collections::BTreeMap;

/// Delays and backoffs below, at and above a cap of 25.
#[test]
fn delays_up_to_the_cap() {
    play(
        "start 9 0 9 10 25 9216 24 25 26 => started
        checkpoint => 1,0
        claim 0 100 => deliver 0 0 1
        nack 0 0 100 => requeued 124
        nack 0 1 100 24 => requeued 124
        nack 0 2 100 25 => requeued 125
        nack 0 3 100 26 => requeued 125
        nack 0 4 100 18446744073709551615 => requeued 125
        nack 0 5 100 0 => requeued 100
        claim 0 100 => deliver 0 7 2
        nack 0 7 100 => requeued 125
        claim 0 124 => refused 23
        claim 0 125 => deliver 0 9 3
        nack 0 9 125 => requeued 150
        nack 0 10 18446744073709551590 99 => requeued 18446744073709551615
        nack 0 11 18446744073709551589 99 => requeued 18446744073709551614
        nack 0 12 18446744073709551591 99 => requeued 18446744073709551615
        nack 0 13 0 99 => requeued 25
        state => state committed 0 ranges none leases 0:14:125:25:3 carried none next 15 ceiling 4096 counter 2 group 2 block 2 half 0",
    );
}

/// The cap counts from the nack's clock, not from the attempt's start; a cap of 0 leaves no delay, one of MAX any.
#[test]
fn the_least_and_the_largest_cap() {
    play(
        "start 9 0 9 10 0 9216 7 => started
        checkpoint => 1,0
        claim 0 100 => deliver 0 0 1
        nack 0 0 400 => requeued 400
        nack 0 1 400 7 => requeued 400
        start 9 0 9 10 18446744073709551615 9216 7 => started
        checkpoint => 1,0
        claim 0 100 => deliver 0 0 1
        nack 0 0 400 => requeued 407
        nack 0 1 400 18446744073709551214 => requeued 18446744073709551614
        nack 0 2 400 18446744073709551615 => requeued 18446744073709551615",
    );
}

/// The delay that a nack asks for, worked out apart: its own, or the entry of the backoffs for the attempt, or the last one.
fn asked(start: &Start, attempt: u64, delay: Option<u64>) -> u64 {
    let entry = start.backoffs.len().min(attempt.max(1) as usize);
    let backoff = if entry == 0 { 0 } else { start.backoffs[entry - 1] };
    delay.unwrap_or(backoff)
}

/// How the delay lies to the cap, and whether the sum passes the last clock.
fn kind(asked: u64, cap: u64, now: u64) -> (&'static str, bool) {
    let to_cap = match asked.cmp(&cap) {
        std::cmp::Ordering::Less => "below",
        std::cmp::Ordering::Equal => "at",
        std::cmp::Ordering::Greater => "above",
    };
    (to_cap, now.checked_add(asked.min(cap)).is_none())
}

/// The scripts that `oracle/run compare` uses have nacks of every kind, and each gets its deadline.
#[test]
fn scripts_have_nacks() {
    let mut met = BTreeMap::new();
    for lines in scripts() {
        let mut program = Program::default();
        let mut started = None;
        for line in lines {
            let table = program.consumer().map(|consumer| consumer.table());
            let answer = program.answer(line).unwrap_or_default();
            match (read(line), answer.strip_prefix("requeued ")) {
                (Some(Call::Start(start)), _) if answer == "started" => started = Some(start),
                (Some(Call::Nack(offset, _, now, delay)), Some(deadline)) => {
                    let (start, table) = (started.as_ref().unwrap(), table.unwrap());
                    let lease = table.leases.iter().find(|lease| lease.offset == offset).unwrap();
                    let asked = asked(start, lease.deliveries, delay);
                    let sum = now.saturating_add(asked.min(start.cap));
                    let hours = program.consumer().unwrap().handed().hours;
                    let right = hours.map_or(sum, |hours| hours.opening(sum));
                    assert_eq!(deadline, right.to_string());
                    *met.entry((delay.is_some(), kind(asked, start.cap, now))).or_insert(0) += 1;
                }
                _ => (),
            }
        }
    }
    for explicit in [false, true] {
        for to_cap in ["below", "at", "above"] {
            assert!(met.get(&(explicit, (to_cap, false))) >= Some(&30), "{met:?}");
            assert!(met.get(&(explicit, (to_cap, true))) >= Some(&10), "{met:?}");
        }
    }
}
