//! States of the original, moved in and out: made by its own functions, written by its own encoders, imported, called on both sides, and
//! exported (SPEC.md, "Import", "Export"). An export's bytes are the original's, of the same state after the same calls.
use crate::compare::run_both;
use crate::imports::line;
use crate::make::Maker;
use crate::program::Program;
use crate::scenes::checkpoint;
use ironbus::cursor::AckCursor;
use ironbus::lease::{Claim, LeaseConfig, LeaseTable};
use ironbus::types::Offset;
use lists::codecs::{attempt_snapshot, attempt_snapshot_v2};

/// How many states a script has.
const STATES: u64 = 250;

/// How many ranges or counts a state has: none, few, any number, as many as there can be.
fn many(maker: &mut Maker) -> u64 {
    let (few, any) = (maker.random.below(6), maker.random.below(129));
    maker.random.pick(&[0, few, few, any, any, 128])
}

/// A cursor that was resumed: narrow and wide ranges, also up to the last offset.
fn resumed(maker: &mut Maker) -> AckCursor {
    let committed = maker.random.pick(&[0, 0, 5, 1 << 40, u64::MAX - 700, u64::MAX]);
    let widths: &[u64] = if committed > 1 << 40 {
        &[1, 2]
    } else {
        &[1, 1, 2, 1_000_000_000, 1 << 50]
    };
    let ranges = if committed == u64::MAX { 0 } else { many(maker) };
    let mut at = committed;
    let mut ahead = Vec::new();
    for _ in 0..ranges {
        let start = at + 1 + maker.random.below(3);
        at = start + maker.random.pick(widths);
        ahead.push((start, at));
    }
    AckCursor::resume_with_ahead(Offset::new(committed), ahead).expect("rising ranges")
}

/// A cursor that was called: acks in any order, and commits.
fn acked(maker: &mut Maker) -> AckCursor {
    let mut cursor = AckCursor::new();
    for _ in 0..maker.random.below(250) {
        cursor.ack(Offset::new(maker.random.below(250)));
    }
    if maker.random.below(3) == 0 {
        cursor.commit_up_to(Offset::new(maker.random.below(100)));
    }
    cursor
}

/// An offset at or near what a cursor has, settled or not.
fn near(maker: &mut Maker, cursor: &AckCursor) -> u64 {
    let mut places = vec![0, cursor.committed().get(), cursor.committed().get()];
    places.extend(cursor.ahead_ranges().iter().flat_map(|&(start, end)| [start, end]));
    let place = maker.random.pick(&places);
    place
        .saturating_sub(maker.random.below(3))
        .saturating_add(maker.random.below(4))
}

/// Any counts, in their order: of settled offsets, of the last one, zeros.
fn any_counts(maker: &mut Maker, cursor: &AckCursor) -> Vec<(u64, u32)> {
    let mut offset = near(maker, cursor);
    let mut pairs = Vec::new();
    for _ in 0..many(maker) {
        pairs.push((offset, maker.random.pick(&[0u32, 1, 1, 2, 3, 7, u32::MAX])));
        let apart = maker.random.pick(&[1, 1, 2, 1_000_000_000]);
        match offset.checked_add(apart) {
            Some(next) => offset = next,
            None => break,
        }
    }
    pairs
}

/// The counts of a lease table that was called: jobs claimed, nacked and claimed again, and counts from before.
fn claimed(maker: &mut Maker, cursor: &AckCursor) -> Vec<(u64, u32)> {
    let mut table = LeaseTable::new(LeaseConfig::from_millis(1, 10));
    let before: Vec<(u64, u32)> = (0..maker.random.below(60))
        .map(|i| (near(maker, cursor).wrapping_add(i), 1 + i as u32))
        .collect();
    table.resume_attempts(before);
    let mut now = 0;
    for _ in 0..maker.random.below(60) {
        let offset = near(maker, cursor);
        if let Claim::Granted { token, .. } = table.claim(Offset::new(offset), now) {
            match maker.random.below(4) {
                0 => drop(table.ack(&token)),
                1 => drop(table.nack(&token, now, 0)),
                _ => (),
            }
        }
        now += maker.random.pick(&[0, 1, 1_000_000]);
    }
    table.all_attempt_counts()
}

/// Both snapshots of a state.
fn state(maker: &mut Maker) -> (Vec<u8>, Vec<u8>) {
    let cursor = match maker.random.below(2) {
        0 => resumed(maker),
        _ => acked(maker),
    };
    let mut bytes = Vec::new();
    cursor.encode_snapshot(&mut bytes);
    let pairs = match maker.random.below(2) {
        0 => any_counts(maker, &cursor),
        _ => claimed(maker, &cursor),
    };
    let snapshot = maker.random.pick(&[attempt_snapshot, attempt_snapshot, attempt_snapshot_v2]);
    (bytes, snapshot(&pairs))
}

/// A state is imported, called and exported, at once, after the calls, and after a restart.
fn moves(maker: &mut Maker) -> u64 {
    let (cursor, attempts) = state(maker);
    let first = maker.random.pick(&[1, 7, 4_096, 1 << 60]);
    if maker.say(line(first, &cursor, &attempts)) != "imported" {
        return 0;
    }
    maker.say("export");
    checkpoint(maker);
    for _ in 0..maker.random.below(8) {
        maker.any_call();
    }
    maker.say("export");
    if maker.random.below(4) == 0 {
        maker.say("restart");
        maker.say("export");
    }
    1
}

/// A script of states, and how many of them were imported.
fn script(seed: u64) -> (Vec<Vec<u8>>, u64) {
    let mut maker = Maker::moving(seed);
    maker.alone();
    maker.start_crew("3 0 20", 30, 100, 18, &[]);
    let moved = (0..STATES).map(|_| moves(&mut maker)).sum();
    (maker.lines, moved)
}

/// Scripts from seed 1 on, until so many states were moved, each on the model and on the program. How many scripts, states, exports and
/// lines it were, or the first difference.
pub fn moved(program: &str, states: u64) -> Result<[u64; 4], String> {
    let mut done = [0; 4];
    while done[1] < states {
        let (lines, moved) = script(done[0] + 1);
        let exports = lines.iter().filter(|line| *line == b"export").count();
        let text = lines.join(&b'\n');
        let answered =
            run_both(program, &text, Program::moving()).map_err(|said| format!("states of seed {}, {said}", done[0] + 1))?;
        for (sum, more) in done.iter_mut().zip([1, moved, exports as u64, answered as u64]) {
            *sum += more;
        }
    }
    Ok(done)
}

#[cfg(test)]
mod tests {
    use super::*;
    use lists::codecs::decode_attempts;

    type Kind = fn(&AckCursor, &[(u64, u32)]) -> bool;

    /// The states of `oracle/run compare` are of each kind.
    #[test]
    fn states_of_each_kind() {
        let kinds: [(&str, Kind); 11] = [
            ("no range", |cursor, _| cursor.ahead_ranges().is_empty()),
            ("128 ranges", |cursor, _| cursor.ahead_ranges().len() == 128),
            ("a wide range", |cursor, _| {
                cursor.ahead_ranges().iter().any(|range| range.1 - range.0 == 1 << 50)
            }),
            ("ranges near the last offset", |cursor, _| {
                cursor.committed().get() == u64::MAX - 700 && cursor.ahead_runs() > 0
            }),
            ("all settled", |cursor, _| cursor.committed().get() == u64::MAX),
            ("no count", |_, pairs| pairs.is_empty()),
            ("128 counts", |_, pairs| pairs.len() == 128),
            ("the largest count", |_, pairs| pairs.iter().any(|pair| pair.1 == u32::MAX)),
            ("a zero", |_, pairs| pairs.iter().any(|pair| pair.1 == 0)),
            ("a count of the last offset", |_, pairs| {
                pairs.iter().any(|pair| pair.0 == u64::MAX)
            }),
            ("counts of settled and of open offsets", |cursor, pairs| {
                let settled = pairs.iter().filter(|pair| cursor.is_acked(Offset::new(pair.0))).count();
                0 < settled && settled < pairs.len()
            }),
        ];
        let mut maker = Maker::new(1);
        let mut seen = [0; 11];
        for _ in 0..1000 {
            let (cursor, attempts) = state(&mut maker);
            let cursor = AckCursor::decode_snapshot(&cursor).expect("the original's own");
            let pairs = decode_attempts(&attempts).expect("sorted pairs");
            for ((_, is), seen) in kinds.iter().zip(&mut seen) {
                *seen += u32::from(is(&cursor, &pairs));
            }
        }
        for ((kind, _), seen) in kinds.iter().zip(seen) {
            assert!(seen >= 10, "{kind}: {seen}");
        }
    }

    /// A script goes on to its end: every state comes in, and every export is answered.
    #[test]
    fn every_state_comes_in() {
        let (lines, moved) = script(1);
        assert_eq!(moved, STATES);
        let mut program = Program::moving();
        let answers = lines.iter().map(|line| (line, program.answer(line).unwrap_or_default()));
        for (_, answer) in answers.filter(|(line, _)| *line == b"export") {
            assert!(answer.starts_with("exported "), "{answer}");
        }
    }
}
