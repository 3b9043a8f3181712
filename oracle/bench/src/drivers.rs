//! The loops of the crate `bench`, the same loops over the original, and those of acks over a cursor that lies in Rust.
use ironbus::cursor::AckCursor;
use ironbus::lease::{Claim, LeaseConfig, LeaseTable, LeaseToken};
use ironbus::types::Offset;

/// Where a cursor and a lease table stand.
#[repr(C)]
#[derive(Debug, PartialEq)]
pub struct Stand {
    pub committed: u64,
    pub held: u64,
    pub next: u64,
}

extern "C" {
    fn ninotskev_bench_acks_in_order(n: u64) -> u64;
    fn ninotskev_bench_acks_reversed(n: u32) -> u64;
    fn ninotskev_bench_claims_and_acks(window: u32, n: u32) -> Stand;
    fn ninotskev_bench_encodes(
        committed: u64,
        starts: *const u64,
        starts_len: usize,
        ends: *const u64,
        ends_len: usize,
        out: *mut u8,
        out_len: usize,
        n: u32,
    );
}

pub mod here {
    use super::Stand;

    pub fn acks_in_order(n: u64) -> u64 {
        unsafe { super::ninotskev_bench_acks_in_order(n) }
    }

    pub fn acks_reversed(n: u32) -> u64 {
        unsafe { super::ninotskev_bench_acks_reversed(n) }
    }

    pub fn claims_and_acks(window: u32, n: u32) -> Stand {
        unsafe { super::ninotskev_bench_claims_and_acks(window, n) }
    }

    pub fn encodes(committed: u64, starts: &[u64], ends: &[u64], out: &mut [u8], n: u32) {
        let (s, e) = (starts.as_ptr(), ends.as_ptr());
        unsafe { super::ninotskev_bench_encodes(committed, s, starts.len(), e, ends.len(), out.as_mut_ptr(), out.len(), n) }
    }
}

/// A call for each ack, on a cursor that is changed where it lies.
pub mod in_place {
    use rattle::AckCursor;

    pub fn acks_in_order(n: u64) -> u64 {
        let mut cursor = AckCursor::zero();
        for i in 0..n {
            cursor.ack(i);
        }
        cursor.committed()
    }

    pub fn acks_reversed(n: u32) -> u64 {
        let mut cursor = AckCursor::zero();
        for i in 0..u64::from(n) {
            for k in (0..64).rev() {
                cursor.ack(64 * i + k);
            }
        }
        cursor.committed()
    }

    /// Each ack makes a range before all others, n times over.
    pub fn acks_apart(n: u32) -> u64 {
        let mut new = 0;
        for _ in 0..n {
            let mut cursor = AckCursor::zero();
            for k in (1..128).rev() {
                new += u64::from(cursor.ack(2 * k) == 0);
            }
        }
        new
    }
}

pub mod original {
    use super::*;

    pub fn acks_in_order(n: u64) -> u64 {
        let mut cursor = AckCursor::new();
        for i in 0..n {
            cursor.ack(Offset::new(i));
        }
        cursor.committed().get()
    }

    pub fn acks_reversed(n: u32) -> u64 {
        let mut cursor = AckCursor::new();
        for i in 0..u64::from(n) {
            for k in (0..64).rev() {
                cursor.ack(Offset::new(64 * i + k));
            }
        }
        cursor.committed().get()
    }

    pub fn acks_apart(n: u32) -> u64 {
        let mut new = 0;
        for _ in 0..n {
            let mut cursor = AckCursor::new();
            for k in (1..128).rev() {
                new += u64::from(cursor.ack(Offset::new(2 * k)));
            }
        }
        new
    }

    /// With `window` offsets claimed, claims one more and acks the oldest, n times over.
    pub fn claims_and_acks(window: u32, n: u32) -> Stand {
        let mut table = LeaseTable::new(LeaseConfig::default());
        let mut next = 0;
        let mut claim = |table: &mut LeaseTable, i: u64| {
            if let Claim::Granted { token, .. } = table.claim(Offset::new(i), 0) {
                next = token.generation + 1;
            }
        };
        for i in 0..u64::from(window) {
            claim(&mut table, i);
        }
        let mut cursor = AckCursor::new();
        for i in 0..u64::from(n) {
            claim(&mut table, i + u64::from(window));
            table.ack(&LeaseToken {
                offset: Offset::new(i),
                generation: i,
            });
            cursor.ack(Offset::new(i));
        }
        Stand {
            committed: cursor.committed().get(),
            held: table.in_flight() as u64,
            next,
        }
    }
}
