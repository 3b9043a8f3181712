//! The two sides that the benchmarks compare: a consumer of this crate, and the original's lease table and cursor with what a
//! consumer needs around them. Both are asked through one trait, so that each benchmark is written once.

mod here;
mod original;
mod storage;

use std::ops::{ControlFlow, Range};

use ironbus_delivery_state::Offset;

pub use here::Here;
pub use original::Original;
pub use storage::{Blocks, Nowhere};

/// A hand-out of either side.
#[derive(Clone, Copy, Debug, PartialEq, Eq)]
pub struct Token {
    pub offset: u64,
    pub generation: u64,
}

/// What both sides are asked. None of the calls is to be refused here: a refusal ends the program.
pub trait Side: Sized {
    /// Where the blocks of checkpoints go.
    type Storage;
    /// A checkpoint that is being written.
    type Writing;

    /// A side that holds nothing, with a first checkpoint made, so that it can hand out 4,096 times until the next.
    fn start(storage: Self::Storage) -> Self;
    /// The same with counts of 1 carried over a restart, of offsets that were never seen before: up to 128.
    fn carrying(self, offsets: Range<u64>) -> Self;

    /// A first hand-out.
    fn claim(&mut self, offset: u64, now: u64) -> Token;
    /// Settles under a token.
    fn ack(&mut self, token: Token);
    /// Fails under a token, with the schedule's delay: from when on the offset can be claimed again. The offset's lease then has
    /// the next generation.
    fn nack(&mut self, token: Token, now: u64) -> u64;
    /// Extends the lease: its new deadline.
    fn progress(&mut self, token: Token, now: u64) -> u64;
    /// Settles all below a bound and drops what is held of them; `false` where they were settled before.
    fn commit(&mut self, up_to: u64) -> bool;

    /// Whether an offset is settled.
    fn is_settled(&mut self, offset: u64) -> bool;
    /// Which offsets of a list that doesn't fall are settled: 1 or 0 for each. The original has no call for it, and is asked one by one.
    fn plan(&mut self, offsets: &[Offset], out: &mut [u8]) {
        for (offset, byte) in offsets.iter().zip(out) {
            *byte = u8::from(self.is_settled(offset.get()));
        }
    }
    /// How often an offset was handed out, where the token has its lease.
    fn deliveries(&mut self, token: Token) -> Option<u32>;
    /// How many offsets wait at a clock, once they are listed: by deadline here, by offset in the original.
    fn waiting(&mut self, now: u64) -> usize;
    /// The offset below which all are settled.
    fn committed(&mut self) -> u64;
    /// How many leases and how many carried counts are held, where no lease has run out at 0.
    fn held(&mut self) -> (usize, usize);

    /// Begins a checkpoint: no block is written.
    fn begin(self) -> Self::Writing;
    /// Writes the next block, and gives the side back after the last.
    fn step(writing: Self::Writing) -> ControlFlow<Self, Self::Writing>;

    /// Every step of a checkpoint, and how many they were.
    fn finish(mut writing: Self::Writing) -> (Self, u64) {
        let mut steps = 1;
        loop {
            match Self::step(writing) {
                ControlFlow::Continue(rest) => writing = rest,
                ControlFlow::Break(side) => return (side, steps),
            }
            steps += 1;
        }
    }

    /// A whole checkpoint.
    fn checkpoint(self) -> Self {
        Self::finish(self.begin()).0
    }

    /// A restart from the blocks that were written, where the side has a journal to read. The original has none.
    fn restart(self) -> Option<Self> {
        None
    }
}
