//! The Rust of README.md, as it stands there: it compiles, and does what is said beside it.

mod common;

use std::error::Error;
use std::fs;

use ironbus_delivery_state::*;

// Each block of README.md stands here in one piece.
#[test]
fn the_readme_runs() -> Result<(), Box<dyn Error>> {
    let folder = common::fresh_path("readme");
    let _ = fs::remove_dir_all(&folder);
    fs::create_dir(&folder)?;
    std::env::set_current_dir(&folder)?;
    let (now, up_to, offset) = (0, Offset::new(5), Offset::new(7));

    use ironbus_delivery_state::{Configuration, Consumer, HandOut, NewJournal, Offset, WorkerId};

    let journal = NewJournal::create("recipes.journal", 128)?;
    let consumer = Consumer::start(&Configuration::default(), journal)?;
    let worker = WorkerId::new(0);
    let mut consumer = consumer.checkpoint(worker)?;
    match consumer.claim(worker, Offset::new(0), now)? {
        HandOut::Deliver { token, .. } => consumer.ack(worker, token)?,
        HandOut::DeadLetter { token, .. } => consumer.term(worker, token)?,
    }
    let consumer = consumer.checkpoint(worker)?;

    let seen = consumer.ceiling();
    drop(consumer);
    assert_eq!(seen, Generation::new(4097));

    let mut configuration = Configuration::default();
    configuration.settings.rights[3] =
        Rights::CLAIM | Rights::SETTLE | Rights::NACK | Rights::EXTEND;

    let journal = Journal::open("recipes.journal")?;
    let consumer = Consumer::restart_at_least(&configuration, journal, seen)?;
    assert!(consumer.is_settled(worker, Offset::ZERO)?);

    let mut consumer = consumer.checkpoint(worker)?;
    let temporary = WorkerId::new(3);
    let held = consumer.claim(temporary, Offset::new(2), now)?.token();
    let _ = consumer.claim(worker, offset, now)?;
    let refused = consumer.commit(temporary, up_to);
    assert_eq!(refused, Err(Refusal::NotPermitted));

    let closed = consumer.commit(worker, up_to)?;
    assert!(closed);
    assert_eq!(consumer.ack(temporary, held), Err(Refusal::Fenced));

    let view = consumer.view(worker, offset, now)?;
    assert_eq!(view, View::bare(Standing::Held));

    let up_to = Offset::new(9);
    let mut list = [Stretch::default(); MAX_STRETCHES];
    let n = consumer.open_between(worker, Offset::ZERO, up_to, &mut list)?;
    let next = consumer.nearest_open(worker, offset)?;
    assert_eq!(list[..n], [Stretch::new(5, 9)]);
    assert_eq!(next, offset);

    let offsets = [4, 5, 7].map(Offset::new);
    let mut settled = vec![0; offsets.len()];
    let looks = consumer.plan(worker, &offsets, &mut settled)?;
    assert_eq!((settled, looks), (vec![1, 0, 0], 0));

    let counts = consumer.all_attempt_counts(worker)?;
    let bytes = encode_attempt_snapshot(&counts)?;
    let pairs = decode_attempt_snapshot(&bytes)?;
    assert_eq!(pairs, [(offset, 1)]);

    let mut hours = Hours::week();
    for day in &Weekday::ALL[..5] {
        hours = hours
            .open(*day, (8, 0)..(12, 0))?
            .open(*day, (13, 0)..(17, 30))?;
    }
    configuration.settings.hours = hours.clock_zero(Weekday::Thursday, (0, 0))?;
    let consumer = Consumer::restart(&configuration, consumer.into_journal())?;
    let mut consumer = consumer.checkpoint(worker)?;
    let closed = consumer.claim(worker, offset, now);
    let opening = 16 * Hours::HALF_HOUR;
    assert_eq!(closed, Err(Refusal::Closed { opening }));
    Ok(())
}

/// A text without comments, blanks and what layout adds.
fn plain(text: &str) -> String {
    let lines = text.lines();
    let code = lines.map(|line| line.split("//").next().unwrap_or_default());
    let words: Vec<&str> = code.flat_map(str::split_whitespace).collect();
    words.concat().replace(",)", ")")
}

#[test]
fn the_readme_is_what_runs() {
    let here = plain(include_str!("readme.rs"));
    let text = include_str!("../README.md");
    let blocks = text.split("```rust\n").skip(1);
    let blocks: Vec<&str> = blocks.filter_map(|rest| rest.split("```").next()).collect();
    assert_eq!(blocks.len(), 10);
    for block in blocks {
        assert!(here.contains(&plain(block)), "{block}");
    }
}
