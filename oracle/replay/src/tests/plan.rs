//! SPEC.md, "Plan": a whole plan in one walk.
use super::{holding, play, scripts, Met};
use crate::consumer::Consumer;
use crate::line::{read, Call};
use crate::plan::falls;
use crate::program::Program;

/// Ranges 3-5 and 8-9 above a committed 2: looks and answers, 36 before 37, and 38 and 39 before both.
#[test]
fn plans() {
    play(
        "plan 0 => not now
        rights 1 63 => rights
        start 9 0 9 10 25 9216 => started
        plan 0 => plan 0 none
        plan 2 0 7 => plan 0 0,0
        checkpoint => 1,0
        commit 2 => committed
        claim 3 0 => deliver 3 0 1
        ack 3 0 => settled
        claim 4 0 => deliver 4 1 1
        ack 4 1 => settled
        claim 8 0 => deliver 8 2 1
        ack 8 2 => settled
        claim 6 0 => deliver 6 3 1
        plan 0 => plan 0 none
        plan 2 0 1 => plan 0 1,1
        plan 1 2 => plan 1 0
        plan 1 3 => plan 1 1
        plan 1 4 => plan 1 1
        plan 1 5 => plan 2 0
        plan 1 7 => plan 2 0
        plan 1 8 => plan 2 1
        plan 1 9 => plan 2 0
        plan 2 9 9 => plan 2 0,0
        plan 2 18446744073709551615 18446744073709551615 => plan 2 0,0
        plan 2 4 4 => plan 2 1,1
        plan 3 5 5 6 => plan 4 0,0,0
        plan 5 1 2 3 4 8 => plan 5 1,0,1,1,1
        plan 7 0 4 5 6 8 9 10 => plan 6 1,1,0,0,1,0,0
        plan 0 1 => refused 36
        plan 1 => refused 36
        plan 3 1 2 => refused 36
        plan 256 1 2 => refused 36
        plan 257 1 2 => bad line
        plan 1 2 1 => refused 36
        plan 2 2 1 => refused 37 1
        plan 4 1 2 2 1 => refused 37 3
        plan 4 3 4 2 1 => refused 37 2
        worker 1 => worker 1
        plan 1 2 1 => refused 39
        worker 8 => worker 8
        plan 1 2 1 => refused 38
        worker 0 => worker 0
        begin => begun 2
        plan 0 => not now",
    );
}

/// What a plan that is refused meets.
fn refused_kinds(room: usize, offsets: &[u64], answer: &str) -> Vec<&'static str> {
    let place = answer.strip_prefix("refused 37 ");
    holding([
        ("36, a place too few", room + 1 == offsets.len()),
        ("36, a place too many", room == offsets.len() + 1),
        ("36 and falling", room != offsets.len() && falls(offsets).is_some()),
        ("37", place == Some("1")),
        ("37 further on", place.is_some_and(|place| place != "1")),
    ])
}

/// What one that is answered meets, with so many looks.
fn kinds(consumer: &Consumer, offsets: &[u64], looks: usize) -> Vec<&'static str> {
    let ranges = consumer.cursor.ahead_ranges();
    assert!(looks <= offsets.len() + ranges.len());
    let walked = || offsets.iter().filter(|&&offset| offset >= consumer.cursor.committed().get());
    let past = |&offset: &u64| ranges.last().is_some_and(|last| offset >= last.1);
    let inside = |offset: u64| ranges.iter().any(|range| range.0 <= offset && offset < range.1);
    let twice = |pair: &[u64]| pair[0] == pair[1] && inside(pair[0]);
    holding([
        ("empty", offsets.is_empty()),
        ("empty beside ranges", offsets.is_empty() && !ranges.is_empty()),
        ("below committed alone", !offsets.is_empty() && walked().count() == 0),
        ("no ranges", walked().count() > 0 && ranges.is_empty()),
        (
            "the most looks",
            ranges.len() > 1 && looks + 1 == offsets.len() + ranges.len(),
        ),
        ("past the last range", walked().any(past)),
        ("the last offset", offsets.contains(&u64::MAX)),
        ("at a start", ranges.iter().any(|range| offsets.contains(&range.0))),
        ("at an end", ranges.iter().any(|range| offsets.contains(&range.1))),
        ("128 offsets", offsets.len() == 128),
        ("100 looks by few", looks >= 100 && offsets.len() < 10),
        ("one range twice", offsets.windows(2).any(twice)),
    ])
}

/// The scripts that `oracle/run compare` uses have plans of every kind.
#[test]
fn scripts_have_plans() {
    let mut met = Met::default();
    for lines in scripts() {
        let mut program = Program::default();
        for line in lines {
            let answer = program.answer(line).unwrap_or_default();
            let (Some(Call::Plan(room, offsets)), Some(consumer)) = (read(line), program.consumer()) else {
                continue;
            };
            let words: Vec<&str> = answer.split(' ').collect();
            match words[..] {
                ["plan", looks, _] => met.add(kinds(consumer, &offsets, looks.parse().unwrap())),
                ["refused", "36" | "37", ..] => met.add(refused_kinds(room, &offsets, &answer)),
                _ => (),
            }
        }
    }
    met.want(&[
        ("36, a place too few", 20),
        ("36, a place too many", 20),
        ("36 and falling", 20),
        ("37", 20),
        ("37 further on", 50),
        ("empty", 50),
        ("empty beside ranges", 20),
        ("below committed alone", 20),
        ("no ranges", 50),
        ("the most looks", 5),
        ("past the last range", 100),
        ("the last offset", 50),
        ("at a start", 100),
        ("at an end", 100),
        ("128 offsets", 20),
        ("100 looks by few", 5),
        ("one range twice", 50),
    ]);
}
