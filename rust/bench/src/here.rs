//! A consumer of this crate.

use std::hint::black_box;
use std::ops::{ControlFlow, Range};

use ironbus_delivery_state::{
    Configuration, Consumer, Generation, LeaseToken, NewJournal, Offset, Step, Storage, WorkerId,
    Writing,
};

use crate::{Side, Token};

pub struct Here<S>(Consumer<S>);

/// Who makes the calls: by default worker 0 has every right.
const WORKER: WorkerId = WorkerId::new(0);

fn here(token: Token) -> LeaseToken {
    LeaseToken {
        offset: Offset::new(token.offset),
        generation: Generation::new(token.generation),
    }
}

impl<S: Storage> Side for Here<S> {
    type Storage = S;
    type Writing = Writing<S>;

    fn start(storage: S) -> Here<S> {
        let journal = NewJournal::on(storage).unwrap();
        let consumer = Consumer::start(&Configuration::default(), journal);
        Here(consumer.unwrap()).checkpoint()
    }

    // A count is carried where a checkpoint has stored a lease and a restart has dropped it. At most 64 can be in flight at a time,
    // so that more take several restarts.
    fn carrying(mut self, offsets: Range<u64>) -> Here<S> {
        for first in offsets.clone().step_by(64) {
            for offset in first..offsets.end.min(first + 64) {
                self.claim(offset, 0);
            }
            self = self.checkpoint().restart().unwrap().checkpoint();
        }
        self
    }

    fn claim(&mut self, offset: u64, now: u64) -> Token {
        let token = self
            .0
            .claim(WORKER, Offset::new(offset), now)
            .unwrap()
            .token();
        Token {
            offset: token.offset.get(),
            generation: token.generation.get(),
        }
    }

    fn ack(&mut self, token: Token) {
        self.0.ack(WORKER, here(token)).unwrap();
    }

    fn nack(&mut self, token: Token, now: u64) -> u64 {
        self.0.nack(WORKER, here(token), now, None).unwrap()
    }

    fn progress(&mut self, token: Token, now: u64) -> u64 {
        self.0.progress(WORKER, here(token), now).unwrap()
    }

    fn commit(&mut self, up_to: u64) -> bool {
        self.0.commit(WORKER, Offset::new(up_to)).unwrap()
    }

    fn is_settled(&mut self, offset: u64) -> bool {
        self.0.is_settled(WORKER, Offset::new(offset)).unwrap()
    }

    fn plan(&mut self, offsets: &[Offset], out: &mut [u8]) {
        self.0.plan(WORKER, offsets, out).unwrap();
    }

    fn deliveries(&mut self, token: Token) -> Option<u32> {
        let lease = self
            .0
            .lease_of(WORKER, Offset::new(token.offset))
            .unwrap()?;
        (lease.generation.get() == token.generation).then_some(lease.deliveries)
    }

    fn waiting(&mut self, now: u64) -> usize {
        let mut list = [Offset::ZERO; 128];
        let n = self.0.waiting(WORKER, now, &mut list).unwrap();
        black_box(list);
        n
    }

    fn committed(&mut self) -> u64 {
        self.0.committed(WORKER).unwrap().get()
    }

    fn held(&mut self) -> (usize, usize) {
        let waiting = self.waiting(0);
        (self.0.in_flight(WORKER).unwrap(), waiting)
    }

    fn begin(self) -> Writing<S> {
        match self.0.begin(WORKER) {
            Ok(writing) => writing,
            Err(error) => panic!("{error}"),
        }
    }

    fn step(writing: Writing<S>) -> ControlFlow<Here<S>, Writing<S>> {
        match writing.step().unwrap() {
            Step::Wrote { writing, .. } => ControlFlow::Continue(writing),
            Step::Finished { consumer, .. } => ControlFlow::Break(Here(consumer)),
        }
    }

    fn restart(self) -> Option<Here<S>> {
        let journal = self.0.into_journal();
        let consumer = Consumer::restart(&Configuration::default(), journal);
        Some(Here(consumer.unwrap()))
    }
}
