//! A plan: many offsets answered in one walk over the ahead ranges, whose looks are counted (SPEC.md, "Plan"); and scenes that
//! ask for plans.
use crate::line::{PLAN, ROOM};
use crate::make::Maker;
use crate::scenes::checkpoint;
use ironbus::cursor::AckCursor;
use ironbus::types::Offset;

pub struct Plan {
    pub looks: u64,
    pub settled: Vec<bool>,
}

/// The place of the first offset that is below the one before it.
pub fn falls(offsets: &[u64]) -> Option<usize> {
    (1..offsets.len()).find(|&place| offsets[place] < offsets[place - 1])
}

/// The looks of the walk (SPEC.md, "Plan"): an offset not below committed is compared with the range that the walk stands on,
/// and with the next one as long as it is at or past the end.
fn looks(cursor: &AckCursor, offsets: &[u64]) -> u64 {
    let mut ranges = cursor.ahead_ranges().iter().peekable();
    let mut looks = 0;
    for &offset in offsets.iter().filter(|&&offset| offset >= cursor.committed().get()) {
        while let Some(&&(_, end)) = ranges.peek() {
            looks += 1;
            if offset < end {
                break;
            }
            ranges.next();
        }
    }
    looks
}

/// Offsets that don't fall, each settled or not as the original says.
pub fn plan(cursor: &AckCursor, offsets: &[u64]) -> Plan {
    let settled = offsets.iter().map(|&offset| cursor.is_acked(Offset::new(offset)));
    Plan {
        looks: looks(cursor, offsets),
        settled: settled.collect(),
    }
}

impl Maker {
    /// Offsets about those that matter, rising but for some places.
    fn planned(&mut self) -> Vec<u64> {
        let few = self.random.below(9) as usize;
        let count = self.random.pick(&[few, few, few, few, few, few, PLAN - 1, PLAN, PLAN + 1]);
        let mut offsets: Vec<u64> = Vec::new();
        while offsets.len() < count {
            let offset = self.offset();
            let again = self.random.pick(&[1, 1, 1, 3]);
            offsets.extend([offset].repeat(again).iter().take(count - offsets.len()));
        }
        offsets.sort();
        for _ in 0..self.random.pick(&[0, 0, 0, 1, 2]) {
            if count >= 2 {
                let at = self.random.below(count as u64 - 1) as usize;
                offsets.swap(at, at + 1);
            }
        }
        offsets
    }

    /// A plan, into a list of as many places or of others.
    pub fn plan(&mut self) -> String {
        let offsets = self.planned();
        let count = offsets.len() as u64;
        let near = self.random.near(count);
        let room = self.random.pick(&[count, count, count, count, count, near, 0, ROOM as u64]);
        let offsets: String = offsets.iter().map(|offset| format!(" {offset}")).collect();
        format!("plan {room}{offsets}")
    }
}

/// Acks out of order, so that there are ranges to walk over; plans after them, and after a commit.
pub fn plans(maker: &mut Maker) {
    maker.start("3 0 9", 10, 25, 18, &[]);
    checkpoint(maker);
    let span = maker.random.pick(&[6, 12, 30]);
    for _ in 0..3 + maker.random.below(12) {
        let offset = 1 + maker.random.below(span);
        maker.say(format!("claim {offset} 0"));
        let token = maker.token();
        maker.say(format!("ack {token}"));
    }
    for round in 0..2 {
        for _ in 0..5 {
            let plan = maker.plan();
            maker.say(plan);
        }
        maker.say("plan 0");
        maker.say(format!("commit {}", 2 * round + 1));
    }
    let plan = maker.plan();
    maker.say_as_anyone(&plan);
}

#[cfg(test)]
mod tests {
    use super::*;

    /// The looks by what each offset passes: all ranges that end at or below it are passed once in the whole walk, and it is
    /// compared with one more where there is one.
    fn counted(cursor: &AckCursor, offsets: &[u64]) -> u64 {
        let ranges = cursor.ahead_ranges();
        let passed = |offset: u64| ranges.iter().filter(|&&(_, end)| end <= offset).count() as u64;
        let walked = offsets.iter().filter(|&&offset| offset >= cursor.committed().get());
        let stands = walked.clone().filter(|&&offset| passed(offset) < ranges.len() as u64).count() as u64;
        walked.max().map_or(0, |&last| passed(last)) + stands
    }

    /// All lists of up to four offsets below 9, over every cursor that has some of the first seven settled.
    #[test]
    fn looks_are_counted() {
        for settled in 0..1u64 << 7 {
            let mut cursor = AckCursor::new();
            for offset in (0..7).filter(|i| settled >> i & 1 == 1) {
                cursor.ack(Offset::new(offset));
            }
            for number in 0..10u64.pow(4) {
                let digits = (0..4).map(|i| number / 10u64.pow(i) % 10);
                let offsets: Vec<u64> = digits.filter(|&digit| digit < 9).collect();
                if falls(&offsets).is_none() {
                    let looks = looks(&cursor, &offsets);
                    assert_eq!(looks, counted(&cursor, &offsets));
                    assert!(looks <= (offsets.len() + cursor.ahead_runs()) as u64);
                }
            }
        }
    }

    #[test]
    fn first_falling_pair() {
        for (offsets, place) in [
            (&[][..], None),
            (&[5], None),
            (&[5, 5, 6], None),
            (&[5, 4], Some(1)),
            (&[1, 1, 0, 0], Some(2)),
            (&[1, 2, 1, 0], Some(2)),
            (&[0, u64::MAX, u64::MAX - 1], Some(2)),
        ] {
            assert_eq!(falls(offsets), place);
        }
    }
}
