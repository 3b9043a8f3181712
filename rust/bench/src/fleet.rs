//! Many consumers in one process, called in turns.

use std::time::Instant;

use delivery_bench::{Nowhere, Side, Token};
use ironbus_delivery_state::MIN_BLOCKS;

use crate::{lines, Ours, Theirs};

const CONSUMERS: usize = 10_000;

/// How many of them are timed at a time. A turn of all takes long enough for other work on the machine to come in between; the least
/// of each group is kept, which is called once in a turn like all others.
const GROUP: usize = 100;

/// How often all are called, one side after the other. The first time finds what the other side left in the caches, the later ones
/// what this side did.
const TURNS: u32 = 5;

const ROUNDS: u32 = 8;

/// Consumers that each hold so many leases, and the tokens of what is claimed next.
struct Fleet<S> {
    sides: Vec<S>,
    tokens: Vec<Token>,
    next: u64,
    leases: u64,
    // the least seconds of each group's claims and acks
    claims: Vec<f64>,
    acks: Vec<f64>,
}

/// Lowers the least times of groups, by calls on each of them.
fn time_groups<T>(least: &mut [f64], sides: &mut [T], mut call: impl FnMut(usize, &mut T)) {
    for (i, (least, group)) in least.iter_mut().zip(sides.chunks_mut(GROUP)).enumerate() {
        let start = Instant::now();
        for (k, side) in group.iter_mut().enumerate() {
            call(GROUP * i + k, side);
        }
        *least = least.min(start.elapsed().as_secs_f64());
    }
}

impl<S: Side<Storage = Nowhere>> Fleet<S> {
    fn new(leases: u64) -> Fleet<S> {
        let mut sides = Vec::with_capacity(CONSUMERS);
        for _ in 0..CONSUMERS {
            // the shortest journal: a first checkpoint is all that it gets
            let mut side = S::start(Nowhere { blocks: MIN_BLOCKS });
            for offset in 0..leases {
                side.claim(offset, 0);
            }
            sides.push(side);
        }
        let least = vec![f64::INFINITY; CONSUMERS / GROUP];
        Fleet {
            sides,
            tokens: Vec::with_capacity(CONSUMERS),
            next: leases,
            leases,
            claims: least.clone(),
            acks: least,
        }
    }

    /// Each claims an offset, then each acks it, several times over: the nanoseconds of both.
    fn round(&mut self) -> [f64; 1] {
        for _ in 0..TURNS {
            self.tokens.clear();
            time_groups(&mut self.claims, &mut self.sides, |_, side| {
                self.tokens.push(side.claim(self.next, 0));
            });
            time_groups(&mut self.acks, &mut self.sides, |i, side| {
                side.ack(self.tokens[i]);
            });
            self.next += 1;
        }
        for side in &mut self.sides {
            assert!(side.is_settled(self.next - 1));
            assert_eq!(side.held(), (self.leases as usize, 0));
        }
        let seconds: f64 = self.claims.iter().chain(&self.acks).sum();
        [seconds * 1e9 / CONSUMERS as f64]
    }
}

pub fn table() {
    for leases in [0, 8] {
        let name = format!("claim + ack, 10,000 consumers in turns, {leases} leases besides");
        let mut theirs = Fleet::<Theirs>::new(leases);
        let mut ours = Fleet::<Ours>::new(leases);
        lines([&name], ROUNDS, || theirs.round(), || ours.round());
    }
}
