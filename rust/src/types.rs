//! The names of messages and of hand-outs.

use core::fmt;

use crate::workers::WorkerId;

/// A position in the log: it names a message.
#[derive(Clone, Copy, PartialEq, Eq, PartialOrd, Ord, Hash, Default)]
#[repr(transparent)]
pub struct Offset(u64);

impl Offset {
    /// The first offset of a log.
    pub const ZERO: Offset = Offset(0);

    /// The offset of a number.
    #[must_use]
    pub const fn new(value: u64) -> Offset {
        Offset(value)
    }

    /// Its number.
    #[must_use]
    pub const fn get(self) -> u64 {
        self.0
    }

    /// The next offset, or `None` behind the last.
    #[must_use]
    pub const fn checked_next(self) -> Option<Offset> {
        match self.0.checked_add(1) {
            Some(next) => Some(Offset(next)),
            None => None,
        }
    }
}

impl From<u64> for Offset {
    fn from(value: u64) -> Offset {
        Offset(value)
    }
}

impl From<Offset> for u64 {
    fn from(offset: Offset) -> u64 {
        offset.0
    }
}

/// A stretch of offsets: from `start` on, and up to `end`, which isn't in it.
#[derive(Clone, Copy, Debug, PartialEq, Eq, Hash, Default)]
#[repr(C)]
pub struct Stretch {
    /// The first of them.
    pub start: Offset,
    /// The first behind them.
    pub end: Offset,
}

impl Stretch {
    /// The stretch from one number up to another.
    #[must_use]
    pub const fn new(start: u64, end: u64) -> Stretch {
        Stretch {
            start: Offset::new(start),
            end: Offset::new(end),
        }
    }

    /// Its offsets, rising.
    pub fn offsets(self) -> impl Iterator<Item = Offset> {
        (self.start.get()..self.end.get()).map(Offset::new)
    }
}

/// Names a hand-out: no two of one journal's life share one.
#[derive(Clone, Copy, PartialEq, Eq, PartialOrd, Ord, Hash, Default)]
#[repr(transparent)]
pub struct Generation(u64);

impl Generation {
    /// The generation of a number.
    #[must_use]
    pub const fn new(value: u64) -> Generation {
        Generation(value)
    }

    /// Its number.
    #[must_use]
    pub const fn get(self) -> u64 {
        self.0
    }
}

impl From<u64> for Generation {
    fn from(value: u64) -> Generation {
        Generation(value)
    }
}

impl From<Generation> for u64 {
    fn from(generation: Generation) -> u64 {
        generation.0
    }
}

impl fmt::Debug for Offset {
    fn fmt(&self, f: &mut fmt::Formatter<'_>) -> fmt::Result {
        write!(f, "Offset({})", self.0)
    }
}

impl fmt::Display for Offset {
    fn fmt(&self, f: &mut fmt::Formatter<'_>) -> fmt::Result {
        write!(f, "{}", self.0)
    }
}

impl fmt::Debug for Generation {
    fn fmt(&self, f: &mut fmt::Formatter<'_>) -> fmt::Result {
        write!(f, "Generation({})", self.0)
    }
}

impl fmt::Display for Generation {
    fn fmt(&self, f: &mut fmt::Formatter<'_>) -> fmt::Result {
        write!(f, "{}", self.0)
    }
}

/// What a worker holds a message under. It is a name and no right: one that is out of date is refused
/// ([`Refusal::Fenced`](crate::Refusal::Fenced), 24), however it was come by, so it can be copied and sent about freely.
#[derive(Clone, Copy, Debug, PartialEq, Eq, Hash)]
pub struct LeaseToken {
    /// The message.
    pub offset: Offset,
    /// The hand-out.
    pub generation: Generation,
}

/// What a claim hands out. `deliveries` is how often the message was handed out, this time counted.
#[derive(Clone, Copy, Debug, PartialEq, Eq)]
#[must_use = "a message that was handed out is in flight until it is settled or its time is over"]
pub enum HandOut {
    /// To be worked on.
    Deliver {
        /// What it is acknowledged under.
        token: LeaseToken,
        /// The hand-outs so far.
        deliveries: u32,
    },
    /// Handed out more often than the limit: to be put among the dead letters, and then settled under its token.
    DeadLetter {
        /// What it is settled under.
        token: LeaseToken,
        /// The hand-outs so far.
        deliveries: u32,
    },
}

impl HandOut {
    /// The token of either.
    #[must_use]
    pub fn token(&self) -> LeaseToken {
        match *self {
            HandOut::Deliver { token, .. } | HandOut::DeadLetter { token, .. } => token,
        }
    }

    /// The hand-outs so far, of either.
    #[must_use]
    pub fn deliveries(&self) -> u32 {
        match *self {
            HandOut::Deliver { deliveries, .. } | HandOut::DeadLetter { deliveries, .. } => {
                deliveries
            }
        }
    }
}

/// A message in flight, its time run out or not.
#[derive(Clone, Copy, Debug, PartialEq, Eq)]
pub struct Lease {
    /// The hand-out that holds it.
    pub generation: Generation,
    /// When the attempt began, from where the hard cap counts.
    pub attempt_start: u64,
    /// When it can be claimed again.
    pub deadline: u64,
    /// How often it was handed out.
    pub deliveries: u32,
}

/// How an offset stands at a clock.
#[derive(Clone, Copy, Debug, PartialEq, Eq)]
pub enum Standing {
    /// Settled.
    Settled,
    /// In flight under a lease whose deadline hasn't come, nacked or not.
    Held,
    /// All else: never handed out, with a count from before a restart, or with a lease that has run out.
    Waiting,
}

/// What is shown of an offset. To a worker that is its standing alone, and of a settled offset nothing else is shown to anybody. What
/// isn't shown, or isn't there, is `None`.
#[derive(Clone, Copy, Debug, PartialEq, Eq)]
pub struct View {
    /// How it stands.
    pub standing: Standing,
    /// How often it was handed out: as its lease says, or else its count from before a restart, or 0.
    pub attempts: Option<u32>,
    /// The hand-out or the nack that its lease is under.
    pub generation: Option<Generation>,
    /// When it can be claimed again.
    pub deadline: Option<u64>,
    /// Who claimed it.
    pub holder: Option<WorkerId>,
}

impl View {
    /// The standing and no more.
    #[must_use]
    pub const fn bare(standing: Standing) -> View {
        View {
            standing,
            attempts: None,
            generation: None,
            deadline: None,
            holder: None,
        }
    }
}

/// Whether a checkpoint is due, and why.
#[derive(Clone, Copy, Debug, PartialEq, Eq)]
pub struct Due {
    /// No generation is left below the ceiling: claims and nacks are refused until a checkpoint.
    pub ceiling: bool,
    /// Redeliveries since the last checkpoint have reached the threshold: claims are refused until a checkpoint.
    pub threshold: bool,
}

impl Due {
    /// Whether it is due for either reason.
    #[must_use]
    pub fn is_due(self) -> bool {
        self.ceiling || self.threshold
    }
}
