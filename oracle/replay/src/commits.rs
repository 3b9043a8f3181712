//! Scenes of commits over jobs that are held (SPEC.md, "Commit").
use crate::make::Maker;
use crate::scenes::{checkpoint, KINDS};

/// Jobs held by several workers, counts beside them and settled ones ahead; commits about them, and what the holders do then. A
/// restart goes back to a checkpoint from before, or finds the commit.
pub fn commits(maker: &mut Maker) {
    maker.several();
    maker.rights(0, 127);
    maker.rights(1, 127);
    maker.start_crew("4 0 9", 10, 25, 18, &[5]);
    maker.worker(0);
    checkpoint(maker);
    for _ in 0..2 + maker.random.below(2) {
        held(maker);
        if maker.random.below(3) > 0 {
            maker.worker(0);
            checkpoint(maker);
        }
        let late = tokens(maker);
        commit(maker);
        late_calls(maker, &late);
        back(maker);
    }
}

/// Claims by workers 0 and 1 in turn, and some acks.
fn held(maker: &mut Maker) {
    let committed = maker.program.consumer().map_or(0, |c| c.cursor.committed().get());
    for _ in 0..3 + maker.random.below(6) {
        let worker = maker.random.below(2);
        maker.worker(worker);
        let offset = committed.saturating_add(maker.random.below(9));
        let now = maker.random.below(12);
        maker.say(format!("claim {offset} {now}"));
        if maker.random.below(5) == 0 {
            let token = maker.token();
            maker.say(format!("ack {token}"));
        }
    }
}

/// The tokens of all leases.
fn tokens(maker: &Maker) -> Vec<(u64, u64)> {
    let leases = maker.table().map_or(Vec::new(), |table| table.leases);
    leases.iter().map(|lease| (lease.offset, lease.generation)).collect()
}

/// A commit up to, at or behind a lease, a count or a range, by one who may or by anyone.
fn commit(maker: &mut Maker) {
    let worker = maker.random.below(2);
    maker.worker(worker);
    let bound = maker.offset();
    maker.say_as_anyone(&format!("commit {bound}"));
    maker.say(format!("commit {bound}"));
    maker.say("state");
}

/// The calls of those who held the jobs, and of others; the lists after it.
fn late_calls(maker: &mut Maker, late: &[(u64, u64)]) {
    for &(offset, generation) in late {
        let call = match maker.random.below(6) {
            0 => format!("ack {offset} {generation}"),
            1 => format!("term {offset} {generation}"),
            2 => format!("nack {offset} {generation} 5"),
            3 => format!("progress {offset} {generation} 5"),
            4 => format!("claim {offset} 20"),
            _ => format!("view {offset} 5"),
        };
        match maker.random.below(5) {
            0 => maker.say_as(8, &call),
            1..=2 => maker.say_as_anyone(&call),
            _ => (),
        }
        maker.say(call);
    }
    maker.say("waiting 20");
}

/// Whether the next restart finds the commit or goes back behind it: a checkpoint, one that is cut, or none.
fn back(maker: &mut Maker) {
    maker.worker(0);
    match maker.random.below(4) {
        0 => drop(checkpoint(maker)),
        1 => {
            maker.say("begin");
            for _ in 0..maker.random.below(2) {
                maker.say("step");
            }
            let kind = maker.random.pick(&KINDS);
            maker.say(format!("cut {kind}"));
        }
        _ => (),
    }
    maker.say("restart");
    maker.say("state");
    checkpoint(maker);
}
