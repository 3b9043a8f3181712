//! The scenes of a script: what a consumer may live through.
use crate::make::Maker;
use crate::open::questions;
use crate::rights::Operation;
use crate::workers::Crew;

/// A checkpoint gives out so many generations.
pub const GENERATIONS: u64 = 4_096;

pub const KINDS: [&str; 3] = ["old", "new", "torn"];

/// Begins a checkpoint and makes all its steps. Answers the header's block, or nothing where it was refused.
pub fn checkpoint(maker: &mut Maker) -> Option<usize> {
    if maker.random.below(8) > 0 {
        maker.able(Operation::Checkpoint);
    }
    let mut answer = maker.say("begin");
    while maker.writing() {
        answer = maker.say("step");
    }
    answer.strip_prefix("done ")?.parse().ok()
}

/// Calls of all kinds, checkpoints, power failures and restarts in any order.
pub fn life(maker: &mut Maker) {
    maker.start_any();
    if maker.random.below(8) > 0 {
        checkpoint(maker);
    }
    let mut calls = 20 + maker.random.below(200);
    while calls > 0 {
        calls -= 1;
        match maker.random.below(60) {
            0..=2 => interrupted(maker),
            3 => drop(checkpoint(maker)),
            4 => {
                if maker.crew == Crew::Several && maker.random.below(2) == 0 {
                    maker.several();
                }
                if maker.program.handed.hours.is_some() && maker.random.below(2) == 0 {
                    let hours = maker.any_hours();
                    maker.hours(Some(hours));
                }
                maker.say("restart");
            }
            5 => {
                let line = maker.bad_line();
                maker.say(line);
            }
            6 => out_of_place(maker),
            7 => drop(maker.say("step")),
            _ => {
                let answer = maker.any_call();
                if answer == "refused 26" && maker.random.below(3) > 0 && checkpoint(maker).is_none() {
                    calls = calls.min(5);
                }
            }
        }
    }
    maker.say("state");
}

/// A checkpoint in which anything may happen.
fn interrupted(maker: &mut Maker) {
    maker.able(Operation::Checkpoint);
    maker.say("begin");
    while maker.writing() {
        match maker.random.below(12) {
            0 => {
                let kind = maker.random.pick(&KINDS);
                maker.say(format!("cut {kind}"));
            }
            1 => out_of_place(maker),
            2 => drop(maker.any_call()),
            3 => drop(maker.say("begin")),
            4 => drop(maker.say("restart")),
            _ => drop(maker.say("step")),
        }
    }
    if maker.program.consumer().is_none() {
        after_cut(maker);
    }
    maker.say("state");
}

/// What can and can't be called after a power failure, and then the restart.
fn after_cut(maker: &mut Maker) {
    for _ in 0..maker.random.below(4) {
        let call = match maker.random.below(6) {
            0 => "step".to_string(),
            1 => "cut new".to_string(),
            2 => "begin".to_string(),
            3 => format!("peek {}", maker.random.below(4)),
            _ => maker.call(),
        };
        maker.say(call);
    }
    maker.say("restart");
}

/// Calls with blocks, bytes and lengths that may not exist.
fn out_of_place(maker: &mut Maker) {
    let length = 512 * maker.blocks();
    let near = maker.random.near(length);
    let bytes = maker
        .random
        .pick(&[0, 1, 512, near, near, length, length / 2, 70_000, u64::MAX]);
    let block = maker.random.pick(&[
        0,
        1,
        maker.blocks(),
        maker.blocks().wrapping_sub(1),
        128,
        u64::MAX / 512,
        u64::MAX,
    ]);
    let call = match maker.random.below(6) {
        0..=1 => format!("step {bytes}"),
        2 => format!("restart {bytes}"),
        3 => format!("peek {block}"),
        4 => format!("poke {} {} 0", maker.random.pick(&[128, u64::MAX]), maker.random.below(512)),
        _ => format!(
            "poke {block} {} {}",
            maker.random.pick(&[512, 1 << 32, u64::MAX]),
            maker.random.below(300)
        ),
    };
    maker.say(call);
}

/// Every write of a checkpoint cut in every way, with more and more to store.
pub fn cuts(maker: &mut Maker) {
    let blocks = maker.random.pick(&[18, 18, 20, 60, 128]);
    maker.start("2 0 3", 10, 25, blocks, &[5, 9]);
    checkpoint(maker);
    for round in 0..1 + maker.random.below(3) {
        for i in 0..maker.random.below(30) {
            maker.say(format!("claim {} {round}", 40 * round + 2 * i));
        }
        for _ in 0..maker.random.below(10) {
            let token = maker.token();
            maker.say(format!("ack {token}"));
        }
        for kind in KINDS {
            cut_everywhere(maker, kind);
        }
        checkpoint(maker);
    }
}

/// A checkpoint cut at each of its writes in turn, or at some where they are many, with a restart behind each cut.
pub fn cut_everywhere(maker: &mut Maker, kind: &str) {
    let mut steps = 0;
    loop {
        let begun = maker.say("begin");
        let writes = begun.strip_prefix("begun ").map_or(0, |count| count.parse().unwrap());
        for _ in 0..steps {
            if maker.writing() {
                maker.say("step");
            }
        }
        if !maker.writing() {
            return;
        }
        let answer = maker.say(format!("cut {kind}"));
        if maker.random.below(8) == 0 {
            maker.say(answer.replace("cut", "peek"));
        }
        maker.say("restart");
        maker.say("state");
        maker.any_call();
        steps += 1 + maker.random.below(1 + writes / 24 * 8);
    }
}

/// So many claims and acks of every second offset, the first of generation 0.
fn fragment(maker: &mut Maker, acks: u64) {
    for i in 0..acks {
        let offset = 2 * i + 1;
        maker.say(format!("claim {offset} 0"));
        maker.say(format!("ack {offset} {i}"));
    }
}

/// 64 leases, then 128 counts, with generations left and without; at most with 128 ranges, which is the largest group.
pub fn full(maker: &mut Maker) {
    maker.start("3 0 4294967295", 10, 25, 128, &[]);
    checkpoint(maker);
    let acks = maker.random.pick(&[0, 0, 90, 128]);
    fragment(maker, acks);
    for round in 0..3 {
        let base = 300 + 100 * round;
        for i in 0..66 {
            let now = maker.random.below(3);
            maker.say(format!("claim {} {now}", base + i));
        }
        maker.say("state");
        maker.export();
        let now = 10 + maker.random.below(3);
        maker.say(format!("waiting {now}"));
        for _ in 0..6 {
            maker.any_call();
        }
        maker.say(format!("claim {} 5", base + 90));
        for _ in 0..4 {
            maker.say_as_anyone(&format!("claim {} 5", base + 90));
        }
        checkpoint(maker);
        maker.say("restart");
        maker.say("waiting 0");
        maker.export();
        maker.say(format!("claim {} 5", base + 90));
        checkpoint(maker);
    }
    let kind = maker.random.pick(&KINDS);
    cut_everywhere(maker, kind);
    if let Some(block) = checkpoint(maker) {
        maker.poke(block, 8, &u64::MAX.to_le_bytes());
        maker.reseal(block);
        maker.say("restart");
        maker.say("claim 999 0");
    }
}

/// Checkpoints until each half was in use, with more and less to store, and a restart on all of them.
pub fn filled(maker: &mut Maker) {
    let blocks = maker.random.pick(&[18, 20, 40, 128]);
    maker.start("3 0 9", 10, 25, blocks, &[]);
    for _ in 0..maker.random.pick(&[blocks / 4, blocks / 2, blocks]) {
        checkpoint(maker);
        for _ in 0..maker.random.below(4) {
            maker.any_call();
        }
    }
    maker.say("state");
    maker.say("restart");
    maker.say("state");
    maker.say("begin");
}

/// 128 ranges ahead, and acks that would make one more.
pub fn ranges(maker: &mut Maker) {
    maker.start("5 0 5", 10, 25, 40, &[]);
    checkpoint(maker);
    fragment(maker, 130);
    for _ in 0..3 {
        for _ in 0..15 {
            let offset = maker.offset();
            let time = maker.time();
            maker.say(format!("claim {offset} {time}"));
            let token = maker.token();
            let call = format!("{} {token}", if offset % 2 == 0 { "ack" } else { "term" });
            maker.say_as_anyone(&call);
            maker.say(call);
        }
        maker.say("state");
        questions(maker);
        checkpoint(maker);
        maker.say("restart");
        checkpoint(maker);
        let bound = maker.offset();
        maker.say(format!("commit {bound}"));
    }
    maker.say("state");
}

/// All generations of one checkpoint, and the nack and the claim after them.
pub fn spend(maker: &mut Maker) {
    maker.with_guest();
    maker.start_crew("3 0 4294967295", 0, 25, 18, &[]);
    checkpoint(maker);
    let spare = maker.random.below(3);
    for i in 0..GENERATIONS - spare {
        maker.say(if i % 3 == 2 {
            format!("nack 0 {} 0", i - 1)
        } else {
            "claim 0 0".to_string()
        });
    }
    for i in 0..8 {
        maker.any_call();
        maker.say(format!("claim {} 9", i % 2));
        let token = maker.token();
        maker.say_as_anyone(&format!("nack {token} 7"));
        maker.say(format!("nack {token} 7"));
        maker.say("state");
    }
    checkpoint(maker);
    maker.say("claim 1 90");
}

/// A journal whose ceiling is near the last generation.
pub fn last_generations(maker: &mut Maker) {
    let threshold = maker.random.pick(&[1, 2, 9]);
    maker.with_guest();
    maker.start_crew(&format!("3 0 {threshold}"), 5, 25, 20, &[4]);
    checkpoint(maker);
    maker.say("claim 0 0");
    checkpoint(maker);
    let under = maker
        .random
        .pick(&[0, 1, 2, 3, 5, GENERATIONS - 1, GENERATIONS, GENERATIONS + 1]);
    maker.poke(2, 8, &(u64::MAX - under).to_le_bytes());
    maker.reseal(2);
    for _ in 0..3 {
        maker.say("restart");
        maker.say("state");
        maker.say("claim 1 0");
        checkpoint(maker);
        for _ in 0..12 {
            maker.any_call();
        }
        for i in 0..4 {
            maker.say(format!("claim {} 0", 70 + i));
            let token = maker.token();
            maker.say_as_anyone(&format!("nack {token} 7"));
        }
        maker.say("state");
    }
}

/// Settings and lengths that a start takes or refuses.
pub fn starts(maker: &mut Maker) {
    maker.alone();
    for _ in 0..12 {
        let limit = maker
            .random
            .pick(&["0", "1", "4294967294", "4294967295", "4294967296", "007"]);
        let opt_in = maker.random.pick(&["0", "0", "0", "1", "1", "01", "2", ""]);
        let threshold = maker.random.pick(&["0", "1", "1", "4294967295", "4294967296"]);
        let bytes = maker
            .random
            .pick(&[0, 511, 512, 1_024, 8_192, 8_704, 9_215, 9_216, 9_216, 9_217, 9_728, 10_240]);
        let bytes = maker
            .random
            .pick(&[bytes, bytes, 65_024, 65_535, 65_536, 66_048, 66_560, u64::MAX - 511, u64::MAX]);
        let backoffs = " 1".repeat(maker.random.pick(&[0, 0, 15, 16, 17, 40]));
        match maker.random.below(6) {
            0..=1 => {
                let hours = maker.bad_hours();
                maker.hours(Some(hours));
            }
            _ => maker.hours(None),
        }
        maker.say(format!("start {limit} {opt_in} {threshold} 10 25 {bytes}{backoffs}"));
        for _ in 0..maker.random.below(3) {
            maker.say("begin");
            out_of_place(maker);
            maker.say("step");
            maker.say("state");
        }
    }
}
