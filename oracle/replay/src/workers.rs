//! Scenes with several workers, their rights and each other's tokens (SPEC.md, "Rights").
use crate::make::Maker;
use crate::rights::{Operation, WORKERS};
use crate::scenes::checkpoint;

/// Numbers that are no worker's.
const STRANGERS: [u64; 5] = [8, 9, 264, 1 << 32, u64::MAX];

/// Who calls in a scene.
#[derive(Clone, Copy, PartialEq)]
pub enum Crew {
    Alone,
    Guest,
    Several,
}

impl Maker {
    /// Makes the calls to come carry the number.
    pub fn worker(&mut self, worker: u64) {
        if self.program.worker != worker {
            self.say(format!("worker {worker}"));
        }
    }

    /// Gives the worker these rights at the next start or restart.
    pub fn rights(&mut self, worker: usize, mask: u8) {
        if self.program.handed.rights.0[worker] != mask {
            self.say(format!("rights {worker} {mask}"));
        }
    }

    /// Worker 0 calls, and the next start or restart gives it every right.
    pub fn alone(&mut self) {
        self.crew = Crew::Alone;
        self.worker(0);
        self.rights(0, 127);
    }

    /// The same, and another has every right too and makes some of the calls.
    pub fn with_guest(&mut self) {
        self.alone();
        self.rights(1, 127);
        self.crew = Crew::Guest;
    }

    /// Several workers with various rights; one of them has all.
    pub fn several(&mut self) {
        self.crew = Crew::Several;
        for worker in 0..WORKERS {
            let without = 127 ^ 1 << self.random.below(7);
            let one = 1 << self.random.below(7);
            let any = self.random.below(256) as u8;
            let mask = self.random.pick(&[127, 127, 255, without, without, one, any, 0, 128]);
            if self.random.below(2) == 0 {
                self.rights(worker, mask);
            }
        }
        let all = self.random.below(WORKERS as u64) as usize;
        self.rights(all, 127);
    }

    /// A worker, or a number that is none's.
    pub fn anyone(&mut self) -> u64 {
        match self.random.below(9) {
            0 => self.random.pick(&STRANGERS),
            1..=5 if self.crew == Crew::Guest => 1,
            _ => self.random.below(WORKERS as u64),
        }
    }

    /// The call is a worker's who may make it, where there is one.
    pub fn able(&mut self, operation: Operation) {
        let Some(rights) = self.program.consumer().map(|consumer| consumer.handed().rights) else {
            return;
        };
        let may = |worker: &u64| rights.ask(*worker, operation).is_ok();
        let workers: Vec<u64> = (0..WORKERS as u64).filter(may).collect();
        if !may(&self.program.worker) && !workers.is_empty() {
            let worker = self.random.pick(&workers);
            self.worker(worker);
        }
    }

    /// Who makes a call: its token's owner, one who may make it, or anyone.
    fn caller(&mut self, call: &str) {
        let words: Vec<&str> = call.split(' ').collect();
        let operation = match words[0] {
            "claim" => Operation::Claim,
            "ack" | "term" => Operation::Settle,
            "nack" => Operation::Nack,
            "progress" => Operation::Extend,
            "commit" => Operation::Commit,
            "waiting" | "view" | "open" | "nearest" | "plan" | "export" => Operation::Look,
            _ => return,
        };
        let offset = words.get(1).map(|offset| offset.parse().unwrap());
        let holder = offset.and_then(|offset| self.program.consumer()?.holder(offset));
        match (self.random.below(6), holder) {
            (0..=3, Some(holder)) if operation != Operation::Claim => self.worker(holder),
            (0..=2, _) => self.able(operation),
            (3, _) => (),
            _ => {
                let worker = self.anyone();
                self.worker(worker);
            }
        }
    }

    /// A call by another, between those of the worker who calls.
    pub fn say_as(&mut self, other: u64, call: &str) {
        let worker = self.program.worker;
        self.worker(other);
        self.say(call);
        self.worker(worker);
    }

    /// The same by anyone.
    pub fn say_as_anyone(&mut self, call: &str) {
        let other = self.anyone();
        self.say_as(other, call);
    }

    /// A call that isn't a checkpoint's, by any worker where there are several. A guest makes one call at a time.
    pub fn any_call(&mut self) -> String {
        let call = self.call();
        if self.crew != Crew::Alone {
            self.caller(&call);
        }
        let answer = self.say(call);
        if self.crew == Crew::Guest {
            self.worker(0);
        }
        answer
    }
}

/// Every call by workers of all kinds, and the tokens of one in the hands of another.
pub fn workers(maker: &mut Maker) {
    maker.several();
    let blocks = maker.random.pick(&[18, 18, 20, 40]);
    maker.start_crew("3 0 9", 10, 25, blocks, &[5]);
    checkpoint(maker);
    for round in 0..2 + maker.random.below(4) {
        everything(maker, 100 * round);
        for i in 0..3 {
            handed_on(maker, 100 * round + 20 + i);
        }
        maker.say("state");
        if maker.random.below(2) == 0 {
            maker.several();
            maker.say("restart");
        }
        maker.able(Operation::Checkpoint);
        checkpoint(maker);
    }
}

/// Each call, most of which would be refused or change nothing, by one worker.
fn everything(maker: &mut Maker, base: u64) {
    maker.able(Operation::Claim);
    for i in 0..3 {
        maker.say(format!("claim {} 0", base + i));
    }
    let worker = maker.anyone();
    maker.worker(worker);
    let committed = maker
        .program
        .consumer()
        .map_or(0, |consumer| consumer.cursor.committed().get());
    for bound in [0, committed, base + 2, u64::MAX] {
        maker.say(format!("commit {bound}"));
    }
    for offset in [u64::MAX, 0, base, base + 10] {
        maker.say(format!("claim {offset} 9"));
    }
    for (call, time) in [("progress", " 30"), ("nack", " 30"), ("ack", ""), ("term", "")] {
        let token = maker.token();
        maker.say(format!("{call} {token}{time}"));
    }
    maker.say("waiting 10");
    maker.say(format!("view {base} 9"));
    maker.say(format!("nearest {base}"));
    let (from, room) = maker.random.pick(&[(0, 0), (0, 9), (base + 11, 9)]);
    maker.say(format!("open {from} {} {room}", base + 10));
    let plan = maker.random.pick(&["1 5", "0 5", "3 5 2 1"]);
    maker.say(format!("plan {plan}"));
    maker.export();
    maker.say("begin");
    if maker.writing() {
        unattended(maker);
    }
}

/// The steps of a checkpoint carry no worker, and need no right.
fn unattended(maker: &mut Maker) {
    let worker = maker.anyone();
    maker.worker(worker);
    if maker.random.below(3) == 0 {
        maker.any_call();
        maker.say("begin");
        maker.several();
    }
    while maker.writing() {
        let call = maker.random.pick(&["step", "step", "step", "step", "step", "cut torn"]);
        maker.say(call);
    }
    if maker.program.consumer().is_none() {
        maker.any_call();
        maker.say("restart");
    }
}

/// A lease that goes from one worker to another: its tokens, fresh and stale, in the hands of both.
fn handed_on(maker: &mut Maker, offset: u64) {
    let mut now = maker.random.below(20);
    for _ in 0..3 {
        maker.able(Operation::Claim);
        maker.say(format!("claim {offset} {now}"));
        let generation = |maker: &Maker| {
            let leases = maker.table().map_or(Vec::new(), |table| table.leases);
            leases
                .iter()
                .find(|lease| lease.offset == offset)
                .map(|lease| lease.generation)
        };
        for _ in 0..4 {
            let Some(fresh) = generation(maker) else { break };
            let given = maker.random.pick(&[fresh, fresh, fresh, fresh.saturating_sub(1)]);
            let call = match maker.random.below(6) {
                0 => format!("ack {offset} {given}"),
                1..=2 => format!("nack {offset} {given} {now} {}", maker.random.below(4)),
                3 => format!("nack {offset} {given} {now}"),
                _ => format!("progress {offset} {given} {}", now + maker.random.pick(&[0, 24, 25])),
            };
            maker.caller(&call);
            maker.say(call);
        }
        now += maker.random.pick(&[4, 10, 30]);
        let worker = maker.anyone();
        maker.worker(worker);
    }
}
