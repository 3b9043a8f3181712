//! SPEC.md, "Waiting list": the order of the waiting list.
use super::{holding, play, scripts, Met};
use crate::line::{read, Call};
use crate::program::Program;
use lists::state::Table;

/// Leases by deadline, those with equal deadlines by offset; one whose deadline hasn't come isn't there.
#[test]
fn leases_by_deadline() {
    play(
        "start 9 0 9 10 25 9216 => started
        checkpoint => 1,0
        claim 5 3 => deliver 5 0 1
        claim 7 1 => deliver 7 1 1
        claim 2 3 => deliver 2 2 1
        claim 9 0 => deliver 9 3 1
        claim 1 4 => deliver 1 4 1
        waiting 9 => waiting
        waiting 10 => waiting 9
        waiting 11 => waiting 9 7
        waiting 12 => waiting 9 7
        waiting 13 => waiting 9 7 2 5
        waiting 18446744073709551615 => waiting 9 7 2 5 1
        nack 9 3 13 => requeued 13
        nack 1 4 0 => requeued 0
        waiting 0 => waiting 1
        waiting 13 => waiting 1 7 2 5 9
        progress 2 2 10 => extended 20
        waiting 13 => waiting 1 7 5 9
        waiting 20 => waiting 1 7 5 9 2",
    );
}

/// Carried offsets come first, by offset, even beside a deadline of 0.
#[test]
fn carried_offsets_first() {
    play(
        "start 9 0 9 10 25 9216 => started
        checkpoint => 1,0
        claim 8 0 => deliver 8 0 1
        claim 3 5 => deliver 3 1 1
        claim 6 2 => deliver 6 2 1
        checkpoint => 3,2
        restart => restarted
        waiting 0 => waiting 3 6 8
        checkpoint => 5,4
        claim 4 0 => deliver 4 4099 1
        claim 6 1 => deliver 6 4100 2
        nack 4 4099 0 => requeued 0
        waiting 0 => waiting 3 8 4
        waiting 11 => waiting 3 8 4 6
        commit 4 => committed
        waiting 11 => waiting 8 4 6",
    );
}

/// Where an offset has to stand: carried ones by offset, then leases by deadline and offset. Nothing where it doesn't belong there.
fn place(table: &Table, offset: u64, now: u64) -> Option<(bool, u64, u64)> {
    if table.carried.iter().any(|&(carried, _)| carried == offset) {
        return Some((false, 0, offset));
    }
    let lease = table.leases.iter().find(|lease| lease.offset == offset)?;
    (lease.deadline <= now).then_some((true, lease.deadline, offset))
}

/// What a list shows of its order.
fn kinds(places: &[(bool, u64, u64)], now: u64) -> Vec<&'static str> {
    let pairs = || places.windows(2).map(|pair| (pair[0], pair[1]));
    let leases = || pairs().filter(|(a, b)| a.0 && b.0);
    let turn = || pairs().filter(|(a, b)| !a.0 && b.0);
    holding([
        ("two carried", pairs().any(|(a, b)| !a.0 && !b.0)),
        ("carried before a lower lease", turn().any(|(a, b)| a.2 > b.2)),
        ("carried before deadline 0", turn().any(|(_, b)| b.1 == 0)),
        ("a later deadline below", leases().any(|(a, b)| a.1 < b.1 && a.2 > b.2)),
        ("equal deadlines", leases().any(|(a, b)| a.1 == b.1)),
        (
            "the clock's own deadline",
            places.iter().any(|place| place.0 && place.1 == now),
        ),
        ("more than 64", places.len() > 64),
    ])
}

/// The scripts that `oracle/run compare` uses have lists of every kind, each of the right offsets and in order.
#[test]
fn scripts_have_waiting_lists() {
    let mut met = Met::default();
    for lines in scripts() {
        let mut program = Program::default();
        for line in lines {
            let answer = program.answer(line).unwrap_or_default();
            let (Some(Call::Waiting(now)), Some(list)) = (read(line), answer.strip_prefix("waiting")) else {
                continue;
            };
            let table = program.consumer().unwrap().table();
            let offsets = list.split(' ').skip(1).map(|word| word.parse().unwrap());
            let places: Vec<_> = offsets.map(|offset| place(&table, offset, now).unwrap()).collect();
            assert!(places.windows(2).all(|pair| pair[0] < pair[1]), "{answer}");
            let come = table.leases.iter().filter(|lease| lease.deadline <= now).count();
            assert_eq!(places.len(), come + table.carried.len());
            met.add(kinds(&places, now));
        }
    }
    met.want(&[
        ("two carried", 100),
        ("carried before a lower lease", 100),
        ("carried before deadline 0", 20),
        ("a later deadline below", 100),
        ("equal deadlines", 100),
        ("the clock's own deadline", 100),
        ("more than 64", 10),
    ]);
}
