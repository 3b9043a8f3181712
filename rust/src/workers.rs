//! Who calls a consumer, and what each of them may do.

use core::fmt;
use core::ops::BitOr;

/// How many workers a consumer knows: their numbers are 0 to 7.
pub const WORKERS: usize = 8;

/// Who makes a call. Any number can be named; a call by one of 8 and more is refused
/// ([`Refusal::UnknownWorker`](crate::Refusal::UnknownWorker), 38).
#[derive(Clone, Copy, PartialEq, Eq, PartialOrd, Ord, Hash)]
#[repr(transparent)]
pub struct WorkerId(u64);

impl WorkerId {
    /// The worker of a number.
    #[must_use]
    pub const fn new(number: u64) -> WorkerId {
        WorkerId(number)
    }

    /// Its number.
    #[must_use]
    pub const fn get(self) -> u64 {
        self.0
    }
}

impl From<u64> for WorkerId {
    fn from(number: u64) -> WorkerId {
        WorkerId(number)
    }
}

impl From<WorkerId> for u64 {
    fn from(worker: WorkerId) -> u64 {
        worker.0
    }
}

impl fmt::Debug for WorkerId {
    fn fmt(&self, f: &mut fmt::Formatter<'_>) -> fmt::Result {
        write!(f, "WorkerId({})", self.0)
    }
}

impl fmt::Display for WorkerId {
    fn fmt(&self, f: &mut fmt::Formatter<'_>) -> fmt::Result {
        write!(f, "{}", self.0)
    }
}

/// What a worker may do: a set of operations, and a mark for supervisors. A call that isn't in it is refused
/// ([`Refusal::NotPermitted`](crate::Refusal::NotPermitted), 39).
///
/// ```
/// use ironbus_delivery_state::Rights;
///
/// let temporary = Rights::CLAIM | Rights::SETTLE | Rights::NACK | Rights::EXTEND;
/// assert!(temporary.contains(Rights::SETTLE));
/// assert!(!temporary.contains(Rights::COMMIT));
/// assert_eq!(temporary | Rights::COMMIT | Rights::CHECKPOINT | Rights::LOOK, Rights::all());
/// ```
#[derive(Clone, Copy, PartialEq, Eq, Hash, Default)]
#[repr(transparent)]
pub struct Rights(u8);

impl Rights {
    /// To claim.
    pub const CLAIM: Rights = Rights(1);
    /// To settle: ack and term.
    pub const SETTLE: Rights = Rights(2);
    /// To nack.
    pub const NACK: Rights = Rights(4);
    /// To extend: progress.
    pub const EXTEND: Rights = Rights(8);
    /// To commit.
    pub const COMMIT: Rights = Rights(16);
    /// To begin a checkpoint. Its steps need no right.
    pub const CHECKPOINT: Rights = Rights(32);
    /// To look: every question that changes nothing.
    pub const LOOK: Rights = Rights(64);
    /// The mark of a supervisor. It is no right, and stands in for none.
    pub const SUPERVISOR: Rights = Rights(128);

    /// Every operation, without the supervisor's mark.
    #[must_use]
    pub const fn all() -> Rights {
        Rights(127)
    }

    /// The set of a byte: bits 0 to 6 are claim, settle, nack, extend, commit, checkpoint and look, bit 7 marks a supervisor.
    #[must_use]
    pub const fn from_bits(bits: u8) -> Rights {
        Rights(bits)
    }

    /// Its byte.
    #[must_use]
    pub const fn bits(self) -> u8 {
        self.0
    }

    /// Nothing at all.
    #[must_use]
    pub const fn none() -> Rights {
        Rights(0)
    }

    /// What is in either.
    #[must_use]
    pub const fn union(self, other: Rights) -> Rights {
        Rights(self.0 | other.0)
    }

    /// Whether all of the other is in this.
    #[must_use]
    pub const fn contains(self, other: Rights) -> bool {
        self.0 & other.0 == other.0
    }
}

impl BitOr for Rights {
    type Output = Rights;

    fn bitor(self, other: Rights) -> Rights {
        self.union(other)
    }
}

impl fmt::Debug for Rights {
    fn fmt(&self, f: &mut fmt::Formatter<'_>) -> fmt::Result {
        let named = [
            ("claim", Rights::CLAIM),
            ("settle", Rights::SETTLE),
            ("nack", Rights::NACK),
            ("extend", Rights::EXTEND),
            ("commit", Rights::COMMIT),
            ("checkpoint", Rights::CHECKPOINT),
            ("look", Rights::LOOK),
            ("supervisor", Rights::SUPERVISOR),
        ];
        let given = named.iter().filter(|(_, right)| self.contains(*right));
        f.debug_set().entries(given.map(|(name, _)| name)).finish()
    }
}
