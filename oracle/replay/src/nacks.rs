//! Scenes of nacks whose delays lie below, at and above the hard cap (SPEC.md, "Nack").
use crate::make::Maker;
use crate::scenes::checkpoint;

/// One offset claimed and nacked again and again, by backoffs and by delays about the cap, at clocks up to the last.
pub fn nacks(maker: &mut Maker) {
    let cap = maker.random.pick(&[0, 1, 25, 25, 1 << 45, u64::MAX - 1, u64::MAX]);
    let mut backoffs = [cap.saturating_sub(1), cap, cap.saturating_add(1), u64::MAX, 3];
    for i in 1..backoffs.len() {
        backoffs.swap(i, maker.random.below(i as u64 + 1) as usize);
    }
    let count = maker.random.below(6) as usize;
    maker.start("7 0 4294967295", 10, cap, 18, &backoffs[..count]);
    checkpoint(maker);
    let last = maker.random.near(u64::MAX - cap);
    let mut now = maker.random.pick(&[0, 100, 100, last, last, u64::MAX]);
    for _ in 0..6 {
        maker.say(format!("claim 4 {now}"));
        for _ in 0..2 + maker.random.below(4) {
            nack(maker, now);
        }
        let leases = maker.table().map_or(Vec::new(), |table| table.leases);
        let Some(lease) = leases.first() else { return };
        let moment = maker.random.near(lease.deadline);
        maker.say(format!("waiting {moment}"));
        maker.say(format!("claim 4 {moment}"));
        now = maker.random.pick(&[now, now, lease.deadline]);
    }
    maker.say("state");
}

/// A nack of what is leased, by the backoffs or with a delay.
fn nack(maker: &mut Maker, now: u64) {
    let token = maker.token();
    let delay = maker.delay();
    let call = match maker.random.below(2) {
        0 => format!("nack {token} {now}"),
        _ => format!("nack {token} {now} {delay}"),
    };
    maker.say(call);
}
