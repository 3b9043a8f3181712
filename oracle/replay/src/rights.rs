//! The workers' rights (SPEC.md, "Rights").
use lists::codecs::Code;

/// Workers have the numbers below it.
pub const WORKERS: usize = 8;

/// The operations that a worker may be permitted; each is a bit of the worker's mask.
#[derive(Clone, Copy, Debug, PartialEq, Eq, PartialOrd, Ord)]
pub enum Operation {
    Claim,
    Settle,
    Nack,
    Extend,
    Commit,
    Checkpoint,
    Look,
}

pub const OPERATIONS: [Operation; 7] = [
    Operation::Claim,
    Operation::Settle,
    Operation::Nack,
    Operation::Extend,
    Operation::Commit,
    Operation::Checkpoint,
    Operation::Look,
];

/// Each worker's mask.
#[derive(Clone, Copy)]
pub struct Rights(pub [u8; WORKERS]);

impl Rights {
    /// Worker 0 may do all, the others nothing.
    pub const FIRST: Rights = Rights([127, 0, 0, 0, 0, 0, 0, 0]);

    /// Refusals 38, 39.
    pub fn ask(&self, worker: u64, operation: Operation) -> Result<(), Code> {
        if worker >= WORKERS as u64 {
            return Err(vec![38]);
        }
        if self.0[worker as usize] >> operation as u8 & 1 == 0 {
            return Err(vec![39]);
        }
        Ok(())
    }

    /// Whether a worker is marked as a supervisor.
    pub fn marks(&self, worker: u64) -> bool {
        worker < WORKERS as u64 && self.0[worker as usize] >> 7 == 1
    }
}

#[cfg(test)]
mod tests {
    use super::*;

    #[test]
    fn one_bit_for_each_operation() {
        for (bit, operation) in OPERATIONS.into_iter().enumerate() {
            let one = Rights([0, 0, 0, 0, 0, 0, 0, 1 << bit]);
            for other in OPERATIONS {
                let right = if other == operation { Ok(()) } else { Err(vec![39]) };
                assert_eq!(one.ask(7, other), right);
                assert_eq!(one.ask(0, other), Err(vec![39]));
                assert_eq!(one.ask(8, other), Err(vec![38]));
                assert_eq!(one.ask(u64::MAX, other), Err(vec![38]));
            }
        }
    }

    /// The supervisor's mark is no right.
    #[test]
    fn a_mark_permits_nothing() {
        for operation in OPERATIONS {
            assert_eq!(Rights([128; WORKERS]).ask(1, operation), Err(vec![39]));
            assert_eq!(Rights([127; WORKERS]).ask(1, operation), Ok(()));
        }
        assert!(Rights([128; WORKERS]).marks(7) && !Rights([128; WORKERS]).marks(8));
        assert!(!Rights([127; WORKERS]).marks(0));
    }
}
