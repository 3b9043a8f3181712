//! What is unsettled: the stretches between two offsets, and the nearest one (SPEC.md, "Open offsets"); and scenes that ask for
//! them.
use crate::line::ROOM;
use crate::make::Maker;
use crate::scenes::checkpoint;
use ironbus::cursor::AckCursor;
use ironbus::types::Offset;

/// The offsets at which what is settled may begin or end.
fn edges(cursor: &AckCursor) -> Vec<u64> {
    let mut edges = vec![cursor.committed().get()];
    edges.extend(cursor.ahead_ranges().iter().flat_map(|&(start, end)| [start, end]));
    edges
}

fn is_open(cursor: &AckCursor, offset: u64) -> bool {
    !cursor.is_acked(Offset::new(offset))
}

/// The unsettled stretches [start, end) of [from, to), rising, none touching the next. Between two edges all is settled or nothing.
pub fn stretches(cursor: &AckCursor, from: u64, to: u64) -> Vec<(u64, u64)> {
    let mut points = edges(cursor);
    points.retain(|&point| from < point && point < to);
    points.extend([from, to]);
    points.sort();
    let mut stretches: Vec<(u64, u64)> = Vec::new();
    for pair in points.windows(2).filter(|pair| pair[0] < pair[1]) {
        if !is_open(cursor, pair[0]) {
            continue;
        }
        match stretches.last_mut() {
            Some(last) if last.1 == pair[0] => last.1 = pair[1],
            _ => stretches.push((pair[0], pair[1])),
        }
    }
    stretches
}

/// The first unsettled offset at or above one: itself or an edge; the last offset is never settled.
pub fn nearest(cursor: &AckCursor, offset: u64) -> u64 {
    let mut places = edges(cursor);
    places.extend([offset, u64::MAX]);
    places.retain(|&place| place >= offset && is_open(cursor, place));
    *places.iter().min().expect("the last offset is unsettled")
}

impl Maker {
    /// A question for stretches, into a list that has room, just room, or too little.
    pub fn open(&mut self) -> String {
        let (a, b) = (self.offset(), self.offset());
        let (from, to) = match self.random.below(10) {
            0 => (a.max(b), a.min(b)),
            1 => (a, a),
            2 => (0, u64::MAX),
            3 => (a, u64::MAX),
            _ => (a.min(b), a.max(b)),
        };
        let cursor = self.program.consumer().map(|consumer| consumer.cursor.clone());
        let needed = cursor.map_or(0, |cursor| stretches(&cursor, from.min(to), to).len());
        let near = self.random.near(needed as u64);
        let room = self.random.pick(&[needed as u64, near, near, 0, ROOM as u64]);
        format!("open {from} {to} {room}")
    }
}

/// Questions about what is settled and what is not.
pub fn questions(maker: &mut Maker) {
    for _ in 0..3 {
        let open = maker.open();
        maker.say(open);
        let offset = maker.offset();
        maker.say(format!("nearest {offset}"));
        let plan = maker.plan();
        maker.say(plan);
    }
    maker.export();
}

/// Some acks out of order and some commits, and the questions after each.
pub fn open(maker: &mut Maker) {
    maker.start("3 0 9", 10, 25, 18, &[]);
    checkpoint(maker);
    let span = maker.random.pick(&[8, 16, 40]);
    for i in 0..4 + maker.random.below(8) {
        let offset = maker.random.below(span);
        maker.say(format!("claim {offset} 0"));
        let token = maker.token();
        maker.say(format!("ack {token}"));
        if i % 3 == 2 {
            questions(maker);
        }
    }
    let bound = maker.random.pick(&[3, 5, span, u64::MAX - 1, u64::MAX]);
    maker.say(format!("commit {bound}"));
    questions(maker);
    maker.say("state");
    let open = maker.open();
    maker.say_as_anyone(&open);
}

#[cfg(test)]
mod tests {
    use super::*;

    /// Every cursor that has some of the first nine offsets from a base settled.
    fn cursors(base: u64) -> Vec<AckCursor> {
        let mut cursors = Vec::new();
        for settled in 0..1u64 << 9 {
            let mut cursor = AckCursor::resume(Offset::new(base));
            for i in (0..9).filter(|i| settled >> i & 1 == 1) {
                cursor.ack(Offset::new(base + i));
            }
            cursors.push(cursor);
        }
        cursors
    }

    /// The stretches offset by offset.
    fn one_by_one(cursor: &AckCursor, from: u64, to: u64) -> Vec<(u64, u64)> {
        let mut stretches = Vec::new();
        let mut start = None;
        for offset in from..to {
            match (is_open(cursor, offset), start) {
                (true, None) => start = Some(offset),
                (false, Some(first)) => {
                    stretches.push((first, offset));
                    start = None;
                }
                _ => (),
            }
        }
        stretches.extend(start.map(|first| (first, to)));
        stretches
    }

    #[test]
    fn stretches_as_one_by_one() {
        for base in [0, 3, u64::MAX - 10] {
            for cursor in cursors(base) {
                let first = base.saturating_sub(2);
                let last = base.saturating_add(11);
                for from in first..=last {
                    for to in from..=last {
                        assert_eq!(stretches(&cursor, from, to), one_by_one(&cursor, from, to));
                    }
                    let next = (from..=last).find(|&offset| is_open(&cursor, offset));
                    assert_eq!(Some(nearest(&cursor, from)), next);
                }
            }
        }
    }
}
