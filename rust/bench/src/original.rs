//! The original's lease table, cursor and delivery limits. It has no journal: its snapshots are laid out here in the journal's blocks.

use std::hint::black_box;
use std::ops::{ControlFlow, Range};

use ironbus::attempt::encode_attempt_snapshot;
use ironbus::cursor::AckCursor;
use ironbus::delivery::DeliveryConfig;
use ironbus::lease::{Claim, ExtendOutcome, LeaseConfig, LeaseTable, LeaseToken, NackOutcome};
use ironbus::types::Offset;
use ironbus_delivery_state::{Storage, BLOCK};

use crate::{Side, Token};

/// The bytes of a snapshot in one block.
const BODY: usize = 500;

pub struct Original<S> {
    table: LeaseTable,
    cursor: AckCursor,
    delivery: DeliveryConfig,
    storage: S,
    group: u32,
    block: usize,
    // of the checkpoint that is being written
    payload: Vec<u8>,
    cursor_len: usize,
    written: usize,
}

fn original(token: Token) -> LeaseToken {
    LeaseToken {
        offset: Offset::new(token.offset),
        generation: token.generation,
    }
}

impl<S: Storage> Original<S> {
    // Fills the next block of the checkpoint and says where it goes. The header comes after the bodies.
    fn fill(&self, block: &mut [u8; BLOCK]) -> usize {
        block[4..8].copy_from_slice(&self.group.to_le_bytes());
        let mut bodies = self.payload.chunks(BODY);
        let count = bodies.len();
        let place = if let Some(part) = bodies.nth(self.written) {
            block[0] = 2;
            block[1] = self.written as u8 + 1;
            block[2..4].copy_from_slice(&(part.len() as u16).to_le_bytes());
            block[8..8 + part.len()].copy_from_slice(part);
            self.block + 1 + self.written
        } else {
            let attempt_len = self.payload.len() - self.cursor_len;
            block[0] = 1;
            block[1] = count as u8;
            // the original has no ceiling: bytes 8 to 15 stay 0
            block[16..18].copy_from_slice(&(self.cursor_len as u16).to_le_bytes());
            block[18..20].copy_from_slice(&(attempt_len as u16).to_le_bytes());
            self.block
        };
        let check = crc32c::crc32c(&block[..508]);
        block[508..].copy_from_slice(&check.to_le_bytes());
        place
    }
}

impl<S: Storage> Side for Box<Original<S>> {
    type Storage = S;
    type Writing = Box<Original<S>>;

    fn start(storage: S) -> Box<Original<S>> {
        let side = Box::new(Original {
            table: LeaseTable::new(LeaseConfig::default()),
            cursor: AckCursor::new(),
            delivery: DeliveryConfig::new(DeliveryConfig::DEFAULT_MAX_DELIVER, false, Vec::new())
                .unwrap(),
            storage,
            group: 1,
            block: 0,
            payload: Vec::new(),
            cursor_len: 0,
            written: 0,
        });
        side.checkpoint()
    }

    fn carrying(mut self, offsets: Range<u64>) -> Box<Original<S>> {
        self.table
            .resume_attempts(offsets.map(|offset| (offset, 1)));
        self
    }

    fn claim(&mut self, offset: u64, now: u64) -> Token {
        let Claim::Granted { token, .. } = self.table.claim(Offset::new(offset), now) else {
            panic!("not granted");
        };
        Token {
            offset: token.offset.get(),
            generation: token.generation,
        }
    }

    fn ack(&mut self, token: Token) {
        let token = original(token);
        // not fenced: `held` says so at the end of each benchmark
        self.table.ack(&token);
        assert!(self.cursor.ack(token.offset));
    }

    fn nack(&mut self, token: Token, now: u64) -> u64 {
        let token = original(token);
        let deliveries = self.table.deliveries(&token).expect("no lease");
        let delay = self.delivery.effective_nack_delay(deliveries, None);
        match self.table.nack(&token, now, delay) {
            NackOutcome::Requeued { deadline } => deadline,
            other => panic!("{other:?}"),
        }
    }

    fn progress(&mut self, token: Token, now: u64) -> u64 {
        match self.table.extend(&original(token), now) {
            ExtendOutcome::Extended(deadline) => deadline,
            other => panic!("{other:?}"),
        }
    }

    fn commit(&mut self, up_to: u64) -> bool {
        let up_to = Offset::new(up_to);
        self.table.release_below(up_to);
        self.cursor.commit_up_to(up_to)
    }

    fn is_settled(&mut self, offset: u64) -> bool {
        self.cursor.is_acked(Offset::new(offset))
    }

    fn deliveries(&mut self, token: Token) -> Option<u32> {
        self.table.deliveries(&original(token))
    }

    fn waiting(&mut self, now: u64) -> usize {
        black_box(self.table.expired(now)).len()
    }

    fn committed(&mut self) -> u64 {
        self.cursor.committed().get()
    }

    fn held(&mut self) -> (usize, usize) {
        let leases = self.table.in_flight();
        (leases, self.table.all_attempt_counts().len() - leases)
    }

    fn begin(mut self) -> Box<Original<S>> {
        let mut payload = Vec::new();
        self.cursor.encode_snapshot(&mut payload);
        self.cursor_len = payload.len();
        encode_attempt_snapshot(&self.table.all_attempt_counts(), &mut payload);
        self.payload = payload;
        self.written = 0;
        self
    }

    fn step(mut writing: Box<Original<S>>) -> ControlFlow<Box<Original<S>>, Box<Original<S>>> {
        let mut block = [0; BLOCK];
        let place = writing.fill(&mut block);
        writing.storage.write_block(place, &block).unwrap();
        writing.written += 1;
        if place > writing.block {
            return ControlFlow::Continue(writing);
        }
        writing.table.note_attempts_flushed();
        writing.group += 1;
        writing.block += writing.written;
        ControlFlow::Break(writing)
    }
}

#[cfg(test)]
mod tests {
    use std::io;

    use ironbus_delivery_state::{Configuration, Consumer, Journal, Offset, WorkerId, MIN_BLOCKS};

    use super::{Original, Storage, BLOCK};
    use crate::{Side, Token};

    /// Blocks in memory.
    struct Kept(Vec<u8>);

    impl Storage for Kept {
        fn read(&mut self) -> io::Result<Vec<u8>> {
            Ok(self.0.clone())
        }

        fn write_block(&mut self, block: usize, bytes: &[u8; BLOCK]) -> io::Result<()> {
            self.0[BLOCK * block..BLOCK * (block + 1)].copy_from_slice(bytes);
            Ok(())
        }
    }

    // The blocks are the journal's, so that both sides write the same amount.
    #[test]
    fn a_restart_reads_its_blocks() {
        let mut side = Box::<Original<Kept>>::start(Kept(vec![0; BLOCK * MIN_BLOCKS]));
        let tokens: Vec<Token> = (0..60).map(|offset| side.claim(offset, 0)).collect();
        for token in tokens[..9].iter().step_by(2) {
            side.ack(*token);
        }
        let side = side.checkpoint();
        assert_eq!((side.group, side.block), (3, 2 + 3));
        let journal = Journal::on(side.storage).unwrap();
        let mut consumer = Consumer::restart(&Configuration::default(), journal).unwrap();
        let worker = WorkerId::new(0);
        for offset in 0..61 {
            let settled = offset < 9 && offset % 2 == 0;
            let count = u32::from(offset < 60 && !settled);
            assert_eq!(
                consumer.is_settled(worker, Offset::new(offset)).unwrap(),
                settled
            );
            assert_eq!(
                consumer.count_of(worker, Offset::new(offset)).unwrap(),
                count
            );
        }
    }
}
