//! Demand 3's bound for a recipe and the bound for the batch, on every list of the made scripts.
use super::{holding, moving_scripts, scripts, Met};
use crate::bounds::{Bounds, List};
use crate::line::{read, Call};
use crate::program::Program;
use std::collections::BTreeSet;

/// What comes to pass in a list, besides its deliveries.
fn events(program: &Program, call: &Call, answer: &str) -> Option<&'static str> {
    let consumer = program.consumer()?;
    match call {
        Call::Claim(..) if consumer.handed().hours.is_some() => Some("hours"),
        Call::Claim(offset, _) if consumer.holder(*offset) > Some(0) => Some("workers"),
        Call::Step(_) if answer.starts_with("done") && consumer.half.number == 1 => Some("the second half"),
        Call::Commit(_) if answer == "committed" => Some("commits"),
        _ => None,
    }
}

/// What a list came to.
fn reached(list: &List) -> Vec<&'static str> {
    let restarts = list.restarts > 0;
    let several = list.deliveries.len() >= 2;
    let most = list.deliveries.values().max();
    let full = |(&offset, &deliveries): (&u64, &u128)| deliveries == list.moved_bound(offset);
    holding([
        ("no restart", !restarts),
        ("restarts", restarts),
        ("the batch's bound", restarts && several && list.repeats == list.batch_bound()),
        ("the recipe's bound", restarts && most == Some(&list.recipe_bound())),
        ("the moved bound", restarts && list.deliveries.iter().any(full)),
    ])
}

/// What the lists of these scripts reach, all of which keep the bounds.
fn kept(scripts: &[Vec<Vec<u8>>], fresh: &Program) -> Met {
    let mut met = Met::default();
    let mut add = |list: Option<List>, events: &mut BTreeSet<&'static str>| {
        let events = std::mem::take(events);
        if let Some(list) = list {
            met.add(reached(&list));
            met.add(events);
        }
    };
    for lines in scripts {
        let mut program = fresh.clone();
        let mut bounds = Bounds::default();
        let mut seen = BTreeSet::new();
        for line in lines {
            let before = bounds.list.clone();
            let answer = program.answer(line).unwrap_or_default();
            assert_eq!(bounds.see(line, &answer), Ok(()));
            let Some(call) = read(line) else { continue };
            if ["started", "imported"].contains(&&answer[..]) || before.is_some() && bounds.list.is_none() {
                add(before, &mut seen);
            }
            seen.extend(events(&program, &call, &answer));
        }
        add(bounds.list, &mut seen);
    }
    met
}

/// The scripts that `oracle/run compare` uses keep both bounds, and reach them often, with all requests in.
#[test]
fn scripts_keep_the_bounds() {
    kept(scripts(), &Program::default()).want(&[
        ("no restart", 100),
        ("restarts", 500),
        ("the batch's bound", 15),
        ("the recipe's bound", 15),
        ("hours", 100),
        ("workers", 100),
        ("the second half", 100),
        ("commits", 200),
    ]);
}

/// Those that move in and out keep and reach them too, where an offset has fewer deliveries left by the count that it came with.
#[test]
fn moving_scripts_keep_the_bounds() {
    kept(moving_scripts(), &Program::moving()).want(&[
        ("no restart", 100),
        ("restarts", 500),
        ("the batch's bound", 15),
        ("the moved bound", 15),
        ("hours", 100),
        ("workers", 100),
        ("the second half", 100),
        ("commits", 200),
    ]);
}
