//! Scenes in which the waiting list has an order to keep (SPEC.md, "Waiting list").
use crate::make::Maker;
use crate::scenes::checkpoint;

/// Counts carried over a restart, leases between them with deadlines in any order, many of them equal; then lists about each deadline.
pub fn waiting(maker: &mut Maker) {
    maker.start("9 0 4294967295", 10, 25, 18, &[]);
    checkpoint(maker);
    let last = maker.random.pick(&[0, 0, 50, u64::MAX - 12]);
    if maker.random.below(4) > 0 {
        leases(maker, last);
        checkpoint(maker);
        maker.say("restart");
        checkpoint(maker);
    }
    for _ in 0..2 {
        leases(maker, last);
        lists(maker);
    }
    maker.say("state");
}

/// Claims of offsets near one another at clocks near one another, and nacks that put their deadlines before, at and behind others.
fn leases(maker: &mut Maker, last: u64) {
    for _ in 0..3 + maker.random.below(9) {
        let offset = maker.random.below(14);
        let now = last.saturating_add(maker.random.below(4));
        maker.say(format!("claim {offset} {now}"));
        if maker.random.below(2) == 0 {
            let token = maker.token();
            let delay = maker.random.below(3);
            maker.say(format!("nack {token} {now} {delay}"));
        }
    }
}

/// The list at and beside some deadlines, the first clock and the last.
fn lists(maker: &mut Maker) {
    for _ in 0..3 {
        let time = maker.time();
        maker.say(format!("waiting {time}"));
    }
    let token = maker.token();
    maker.say(format!("nack {token} 0 0"));
    let bound = maker.random.pick(&[0, 0, u64::MAX]);
    maker.say(format!("waiting {bound}"));
}
