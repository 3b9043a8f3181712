//! What a consumer is started with. The structs are laid out as the proved library has them.

use crate::hours::Hours;
use crate::workers::{Rights, WORKERS};

/// How long a message stays with the worker that claimed it. Times are nanoseconds of any clock.
#[derive(Clone, Copy, Debug, PartialEq, Eq)]
#[repr(C)]
pub struct LeaseConfig {
    /// How long a message that was handed out stays in flight.
    pub visibility_nanos: u64,
    /// How long it may stay so in all, from the start of the attempt, however often its holder extends it; and the longest that a
    /// nack may put it off, from the nack on, or up to the first opening behind that.
    pub hard_cap_nanos: u64,
}

impl LeaseConfig {
    /// 30 seconds.
    pub const DEFAULT_VISIBILITY_MS: u64 = 30_000;
    /// 5 minutes.
    pub const DEFAULT_HARD_CAP_MS: u64 = 300_000;

    /// A configuration from milliseconds, each at most the largest number of nanoseconds.
    #[must_use]
    pub const fn from_millis(visibility_ms: u64, hard_cap_ms: u64) -> LeaseConfig {
        LeaseConfig {
            visibility_nanos: visibility_ms.saturating_mul(1_000_000),
            hard_cap_nanos: hard_cap_ms.saturating_mul(1_000_000),
        }
    }
}

impl Default for LeaseConfig {
    fn default() -> LeaseConfig {
        LeaseConfig::from_millis(
            LeaseConfig::DEFAULT_VISIBILITY_MS,
            LeaseConfig::DEFAULT_HARD_CAP_MS,
        )
    }
}

/// How often a message is handed out, and how long a failed one waits.
#[derive(Clone, Debug, PartialEq, Eq)]
#[repr(C)]
pub struct DeliveryConfig {
    max_deliver: u32,
    allow_unlimited: bool,
    backoff_nanos: [u64; 16],
    backoff_len: usize,
    pub(crate) attempts_flush_redeliveries: u32,
}

impl DeliveryConfig {
    /// The limit on hand-outs before a message is a dead letter.
    pub const DEFAULT_MAX_DELIVER: u32 = 5;
    /// The redeliveries after which a checkpoint is due.
    pub const DEFAULT_ATTEMPTS_FLUSH_REDELIVERIES: u32 = 1;

    /// A configuration of a limit, the opt-in to none (0 or 4294967295), and the delays of failed messages: the first after
    /// the first hand-out and so on, the last after all further ones.
    ///
    /// Nothing is refused here. Start and restart refuse a limit that needs the opt-in,
    /// [`UnlimitedDeliverNotAllowed`](crate::Refusal::UnlimitedDeliverNotAllowed) (1), and more than 16 delays, [`TooManySteps`](crate::Refusal::TooManySteps) (2).
    #[must_use]
    pub fn new(max_deliver: u32, allow_unlimited: bool, backoff_nanos: &[u64]) -> DeliveryConfig {
        let mut backoffs = [0; 16];
        for (place, nanos) in backoffs.iter_mut().zip(backoff_nanos) {
            *place = *nanos;
        }
        DeliveryConfig {
            max_deliver,
            allow_unlimited,
            backoff_nanos: backoffs,
            // more than 16 is what start and restart refuse
            backoff_len: backoff_nanos.len(),
            attempts_flush_redeliveries: Self::DEFAULT_ATTEMPTS_FLUSH_REDELIVERIES,
        }
    }

    /// The same with another flush threshold: after so many redeliveries a checkpoint is due. 0 is refused at the start,
    /// [`ZeroThreshold`](crate::Refusal::ZeroThreshold) (3).
    #[must_use]
    pub fn with_attempts_flush_redeliveries(mut self, n: u32) -> DeliveryConfig {
        self.attempts_flush_redeliveries = n;
        self
    }

    /// The flush threshold.
    #[must_use]
    pub fn attempts_flush_redeliveries(&self) -> u32 {
        self.attempts_flush_redeliveries
    }

    /// The limit on hand-outs.
    #[must_use]
    pub fn max_deliver(&self) -> u32 {
        self.max_deliver
    }

    /// Whether no limit is allowed.
    #[must_use]
    pub fn allows_unlimited(&self) -> bool {
        self.allow_unlimited
    }
}

impl Default for DeliveryConfig {
    fn default() -> DeliveryConfig {
        DeliveryConfig::new(DeliveryConfig::DEFAULT_MAX_DELIVER, false, &[])
    }
}

/// What a consumer keeps of its configuration, beside how long a message stays with a worker.
#[derive(Clone, Debug, PartialEq, Eq)]
#[repr(C)]
pub struct Settings {
    /// The limit, the delays and the flush threshold.
    pub delivery: DeliveryConfig,
    /// What each worker may do, worker 0's first. By default worker 0 may do everything, and the others nothing.
    pub rights: [Rights; WORKERS],
    /// When work is handed out. By default always.
    pub hours: Hours,
}

impl Default for Settings {
    fn default() -> Settings {
        let mut rights = [Rights::none(); WORKERS];
        rights[0] = Rights::all();
        Settings {
            delivery: DeliveryConfig::default(),
            rights,
            hours: Hours::always(),
        }
    }
}

/// What a consumer is started with, and each restart on the same journal: the bound on deliveries is for one configuration.
#[derive(Clone, Debug, Default, PartialEq, Eq)]
#[repr(C)]
pub struct Configuration {
    /// What the consumer keeps.
    pub settings: Settings,
    /// How long a message stays with a worker.
    pub lease: LeaseConfig,
}
