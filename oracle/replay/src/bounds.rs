//! How often a list of demand 3 may hand out: the bound for a recipe (demand 3) and that for the batch (SPEC.md, "Bounds"),
//! counted by calls and answers alone; and scenes in which both are reached.
use crate::line::{read, Call};
use crate::make::Maker;
use crate::scenes::{checkpoint, KINDS};
use lists::codecs::decode_attempts;
use std::collections::BTreeMap;

/// A list from its start or its import on. Each of its beginnings is a list too, so the bounds hold after every answer.
#[derive(Clone)]
pub struct List {
    pub limit: u128,
    pub threshold: u128,
    /// The bytes of the one journal.
    bytes: u64,
    /// The counts that came with an import; none once a restart came before its first checkpoint.
    counts: BTreeMap<u64, u128>,
    /// Whether a checkpoint was finished.
    kept: bool,
    pub restarts: u128,
    /// The Deliver answers of each offset that was handed out, 0 where all were dead letters.
    pub deliveries: BTreeMap<u64, u128>,
    /// The Deliver answers with a count of 2 or more.
    pub repeats: u128,
}

impl List {
    /// M + C x (N + 1).
    pub fn recipe_bound(&self) -> u128 {
        self.limit + self.restarts * (self.threshold + 1)
    }

    /// M - k, not below 0, + C x (N + 1), where k is the count that the offset came with.
    pub fn moved_bound(&self, offset: u64) -> u128 {
        let came = self.counts.get(&offset).copied().unwrap_or(0);
        self.limit.saturating_sub(came) + self.restarts * (self.threshold + 1)
    }

    /// (M - 1) x D + C x N.
    pub fn batch_bound(&self) -> u128 {
        (self.limit - 1) * self.deliveries.len() as u128 + self.restarts * self.threshold
    }

    fn hand_out(&mut self, offset: u64, delivered: bool, count: u64) {
        *self.deliveries.entry(offset).or_default() += u128::from(delivered);
        self.repeats += u128::from(delivered && count >= 2);
    }

    fn judge(&self, offset: u64) -> Result<(), String> {
        let (deliveries, recipe) = (self.deliveries[&offset], self.recipe_bound());
        if deliveries > recipe {
            return Err(format!(
                "offset {offset} was delivered {deliveries} times, and M + C x (N + 1) is {recipe}"
            ));
        }
        let moved = self.moved_bound(offset);
        if deliveries > moved {
            return Err(format!(
                "offset {offset} was delivered {deliveries} times, and M - k + C x (N + 1) is {moved}"
            ));
        }
        let (repeats, batch) = (self.repeats, self.batch_bound());
        if repeats > batch {
            return Err(format!(
                "{repeats} deliveries had a count of 2 or more, and (M - 1) x D + C x N is {batch}"
            ));
        }
        Ok(())
    }
}

/// Follows the lists of a script.
#[derive(Clone, Default)]
pub struct Bounds {
    /// Nothing where the lines are no list of demand 3: before a start, with no limit to deliveries, once the journal is written by
    /// another hand or cut shorter.
    pub list: Option<List>,
    /// The list of the last start, as it began; its journal may have been cut shorter since.
    begun: Option<List>,
}

impl Bounds {
    /// Sees a line and its answer; says which bound was passed.
    pub fn see(&mut self, line: &[u8], answer: &str) -> Result<(), String> {
        let words: Vec<&str> = answer.split(' ').collect();
        match (read(line), &words[..]) {
            (Some(Call::Start(start)), ["started"]) => {
                let limited = start.limit != 0 && start.limit != u32::MAX;
                self.begun = limited.then(|| List {
                    limit: start.limit.into(),
                    threshold: start.threshold.into(),
                    bytes: start.bytes,
                    counts: BTreeMap::new(),
                    kept: false,
                    restarts: 0,
                    deliveries: BTreeMap::new(),
                    repeats: 0,
                });
                self.list = self.begun.clone();
            }
            (Some(Call::Import(_, _, attempts)), ["imported"]) => self.import(&attempts),
            (Some(Call::Step(_)), ["done", _]) => self.finish(),
            (Some(Call::Poke(..)), ["poked"]) => self.list = None,
            (Some(Call::Restart(bytes)), ["restarted"]) => self.restart(bytes),
            (Some(Call::Claim(offset, _)), [word, _, _, count]) => {
                if let Some(list) = &mut self.list {
                    list.hand_out(offset, *word == "deliver", count.parse().unwrap_or(u64::MAX));
                    return list.judge(offset);
                }
            }
            _ => (),
        }
        Ok(())
    }

    /// A new list, with the configuration of the start and the counts that came.
    fn import(&mut self, attempts: &[u8]) {
        let pairs = decode_attempts(attempts).expect("an accepted snapshot");
        let counts = pairs.into_iter().map(|(offset, count)| (offset, count.into())).collect();
        self.list = self.begun.clone().map(|list| List { counts, ..list });
    }

    fn finish(&mut self) {
        if let Some(list) = &mut self.list {
            list.kept = true;
        }
    }

    fn restart(&mut self, bytes: Option<u64>) {
        if let (Some(bytes), Some(list)) = (bytes, &mut self.begun) {
            list.bytes = bytes;
        }
        self.list = self.list.take().filter(|list| bytes.is_none_or(|bytes| bytes == list.bytes));
        if let Some(list) = &mut self.list {
            list.restarts += 1;
            if !list.kept {
                list.counts.clear();
            }
        }
    }
}

/// How many deliveries of an offset count.
fn count(maker: &Maker, offset: u64) -> u64 {
    let Some(table) = maker.table() else { return 0 };
    let lease = table.leases.iter().find(|lease| lease.offset == offset);
    let carried = table.carried.iter().find(|carried| carried.0 == offset);
    lease.map_or(carried.map_or(0, |carried| carried.1), |lease| lease.deliveries)
}

/// Claims each offset in turn up to the limit; false where a checkpoint is due before all have reached it.
fn deliver_all(maker: &mut Maker, offsets: u64, limit: u64, now: u64) -> bool {
    for round in 1..=limit {
        for offset in 0..offsets {
            if count(maker, offset) < round && maker.say(format!("claim {offset} {now}")) == "refused 26" {
                return false;
            }
        }
    }
    true
}

/// As many redeliveries as go before the next checkpoint, and a restart that forgets them, again and again; then all deliveries that
/// are left. So both bounds are reached, or nearly.
pub fn bounds(maker: &mut Maker) {
    let offsets = maker.random.pick(&[1, 1, 2, 3]);
    let threshold = 1 + maker.random.below(3);
    let limit = threshold.div_ceil(offsets) + maker.random.pick(&[0, 1, 1, 1, 2]);
    maker.opening = (maker.random.below(3) == 0).then(|| maker.any_hours());
    let now = maker.opening.map_or(0, |hours| hours.opening(0));
    let blocks = maker.random.pick(&[18, 18, 20]);
    maker.start(&format!("{limit} 0 {threshold}"), 0, 25, blocks, &[]);
    for _ in 0..maker.random.pick(&[0, 1, 1, 2, 3, 5]) {
        checkpoint(maker);
        deliver_all(maker, offsets, limit, now);
        if maker.random.below(4) == 0 {
            cut(maker);
        }
        maker.say("restart");
    }
    checkpoint(maker);
    while !deliver_all(maker, offsets, limit, now) && checkpoint(maker).is_some() {}
    for offset in 0..offsets {
        maker.say(format!("claim {offset} {now}"));
    }
    maker.say("state");
}

/// A checkpoint that is cut in one of its two last writes.
fn cut(maker: &mut Maker) {
    let begun = maker.say("begin");
    let writes: u64 = begun.strip_prefix("begun ").map_or(0, |count| count.parse().unwrap());
    for _ in 1 + maker.random.below(2)..writes {
        maker.say("step");
    }
    let kind = maker.random.pick(&KINDS);
    maker.say(format!("cut {kind}"));
}

#[cfg(test)]
mod tests {
    use super::*;
    use crate::imports::line;
    use lists::codecs::attempt_snapshot;

    /// Lines written as `LINE => ANSWER`; only behind the last one a bound may be passed.
    fn passed(text: &str) -> Result<(), String> {
        let mut bounds = Bounds::default();
        let mut said = Ok(());
        for line in text.lines().map(str::trim) {
            assert_eq!(said, Ok(()), "{line}");
            let (call, answer) = line.split_once(" => ").unwrap();
            said = bounds.see(call.as_bytes(), answer);
        }
        said
    }

    const RESTART: &str = "\nrestart => restarted";
    const FIRST: &str = "\nclaim 7 0 => deliver 7 0 1";
    const AGAIN: &str = "\nclaim 7 0 => deliver 7 1 2";
    const OTHER: &str = "\nclaim 8 0 => deliver 8 2 2";
    const DEAD: &str = "\nclaim 8 0 => deadletter 8 3 4";

    /// M = 3, N = 1: two repeats for each offset that was handed out, and one for each restart.
    #[test]
    fn the_batch() {
        let start = "start 3 0 1 10 25 9216 => started".to_string() + &AGAIN.repeat(2);
        let keeps = |more: &str| assert_eq!(passed(&(start.clone() + more)), Ok(()));
        let passes = |more: String| {
            assert!(passed(&(start.clone() + &more))
                .unwrap_err()
                .contains("deliveries had a count of 2"))
        };
        keeps(FIRST);
        passes(AGAIN.to_string());
        keeps(&[RESTART, AGAIN].concat());
        passes([RESTART, AGAIN, AGAIN].concat());
        keeps(&[DEAD, DEAD, OTHER, OTHER].concat());
        passes([DEAD, DEAD, OTHER, OTHER, OTHER].concat());
        passes(["\nrestart => refused 34\nclaim 9 0 => refused 26", AGAIN].concat());
    }

    /// M = 2, N = 1: two deliveries of an offset, and two more for each restart.
    #[test]
    fn the_recipe() {
        let start = "start 2 0 1 10 25 9216 => started".to_string();
        let up_to = |restarts: usize| start.clone() + &RESTART.repeat(restarts) + &FIRST.repeat(2 + 2 * restarts);
        for restarts in 0..4 {
            assert_eq!(passed(&up_to(restarts)), Ok(()));
            assert!(passed(&(up_to(restarts) + FIRST))
                .unwrap_err()
                .contains("offset 7 was delivered"));
        }
    }

    /// M = 3, N = 1: what came with a count has as many deliveries less, unless a restart came before the first checkpoint.
    #[test]
    fn after_an_import() {
        let start = "start 3 0 1 10 25 9216 => started\n".to_string();
        let import = |count: u32| {
            let attempts = attempt_snapshot(&[(7, count)]);
            format!("{} => imported", line(4, &[], &attempts))
        };
        let done = "\nstep => done 0";
        for (count, left) in [(0, 3), (1, 2), (3, 0), (9, 0)] {
            let began = start.clone() + &import(count);
            for (before, more) in [(String::new(), 0), (done.to_string(), 0), (done.to_string() + RESTART, 2)] {
                let text = began.clone() + &before + &FIRST.repeat(left + more);
                assert_eq!(passed(&text), Ok(()));
                assert!(passed(&(text + FIRST)).unwrap_err().contains("offset 7 was delivered"));
            }
            let text = began + RESTART + done + &FIRST.repeat(5);
            assert_eq!(passed(&text), Ok(()));
            assert!(passed(&(text + FIRST)).is_err());
        }
    }

    /// What is no list of demand 3 is not judged, up to the next start.
    #[test]
    fn other_lists() {
        for start in [
            "start 2 0 1 10 25 9216 => started\npoke 0 0 0 => poked",
            "start 2 0 1 10 25 10240 => started\nrestart 9216 => restarted",
            "start 0 1 1 10 25 9216 => started",
            "start 4294967295 1 1 10 25 9216 => started",
            "start 2 0 0 10 25 9216 => refused 3",
        ] {
            assert_eq!(passed(&(start.to_string() + &AGAIN.repeat(9))), Ok(()));
            let anew = "\nstart 2 0 1 10 25 9216 => started".to_string() + AGAIN;
            assert!(passed(&(start.to_string() + &anew + AGAIN)).is_err());
        }
        for (same, repeats) in [
            ("poke 99 0 0 => not now", 1),
            ("restart 9216 => restarted", 2),
            ("restart 512 => refused 4", 1),
        ] {
            let text = format!("start 2 0 1 10 25 9216 => started\n{same}{}", AGAIN.repeat(repeats));
            assert_eq!(passed(&text), Ok(()));
            assert!(passed(&(text + AGAIN)).is_err(), "{same}");
        }
    }
}
