//! The consumer and its checkpoint, each owner of its journal.

use std::fmt;

use crate::configuration::Configuration;
use crate::errors::{
    BeginError, CheckpointError, OlderJournal, RestartAtLeastError, RestartError, StartError,
};
use crate::ffi::{Ask, Look, Machine, Numbers};
use crate::journal::{Failed, Journal, JournalFile, NewJournal, Storage};
use crate::refusal::Refusal;
use crate::snapshot::MAX_PAIRS;
use crate::types::{Due, Generation, HandOut, Lease, LeaseToken, Offset, Standing, Stretch, View};
use crate::workers::WorkerId;

/// The most stretches that [`Consumer::open_between`] answers: one before each of 128 ranges, and one behind the last.
pub const MAX_STRETCHES: usize = 129;

/// The bytes of stack that a call needs at most, with or without optimisations. A thread has 2 MiB unless it is made otherwise.
pub const STACK: usize = 64 * 1024;

/// The delivery state of one consumer: which messages are settled, who holds which until when, and how often each was handed out.
///
/// It owns its journal. A call works on what the one before left, and there is no other copy: it can't be cloned, a
/// [checkpoint](Consumer::begin) takes it away until the last block is written, and after an error of the disk only a restart is
/// left. A refused call has changed nothing. Times are nanoseconds of any clock, which may stand still or run backwards.
///
/// Every call says which worker makes it. Before all else it is refused where there is no such worker
/// ([`UnknownWorker`](Refusal::UnknownWorker), 38), and where the worker's [rights](crate::Settings::rights) don't have it
/// ([`NotPermitted`](Refusal::NotPermitted), 39). A token works for the worker who claimed it alone
/// ([`ForeignToken`](Refusal::ForeignToken), 40).
///
/// # Threads
///
/// Calls that can change it take `&mut self`, questions take `&self`. It can be sent to another thread, and not be shared by several
/// (it isn't `Sync`). A server whose threads share one keeps it in a `Mutex<Option<Consumer>>`: a checkpoint takes it out, and puts it
/// back.
///
/// ```
/// use std::sync::Mutex;
///
/// use ironbus_delivery_state::{CheckpointError, Configuration, Consumer, HandOut, NewJournal, Offset, Refusal, WorkerId};
///
/// /// Where the threads find the consumer. It is `None` after an error of the disk that stayed.
/// type Shared = Mutex<Option<Consumer>>;
///
/// fn claim(shared: &Shared, worker: WorkerId, offset: Offset, now: u64) -> Result<HandOut, Box<dyn std::error::Error>> {
///     let mut place = shared.lock().expect("no thread has panicked");
///     let consumer = place.as_mut().ok_or("the disk has failed")?;
///     match consumer.claim(worker, offset, now) {
///         Err(Refusal::CheckpointDue) => {}
///         answer => return Ok(answer?),
///     }
///     // The checkpoint comes first. The lock is held while it is written, so that no other thread finds the place empty.
///     let whole = place.take().ok_or("the disk has failed")?;
///     let consumer = match whole.checkpoint(WorkerId::new(0)) {
///         Ok(consumer) => place.insert(consumer),
///         Err(CheckpointError::Refused(error)) => {
///             let refusal = error.refusal();
///             *place = Some(error.into_consumer());
///             return Err(refusal.into());
///         }
///         Err(CheckpointError::Failed(failed)) => {
///             // What the disk may have forgotten is written again, before a restart reads it. Where that fails too, the place stays
///             // empty, and the server has to end: with this error goes the journal's lock, and another open of the file might read
///             // what the disk doesn't have.
///             let journal = failed.reopen()?;
///             *place = Some(Consumer::restart(&Configuration::default(), journal)?);
///             return Err("the disk failed, and the consumer was restarted".into());
///         }
///     };
///     Ok(consumer.claim(worker, offset, now)?)
/// }
/// # let path = std::env::temp_dir().join(format!("ironbus-doc-mutex-{}", std::process::id()));
/// # let _ = std::fs::remove_file(&path);
/// let journal = NewJournal::create(&path, 18)?;
/// let shared: Shared = Mutex::new(Some(Consumer::start(&Configuration::default(), journal)?));
/// std::thread::scope(|scope| {
///     let first = scope.spawn(|| claim(&shared, WorkerId::new(0), Offset::from(0), 0).unwrap());
///     let second = scope.spawn(|| claim(&shared, WorkerId::new(0), Offset::from(1), 0).unwrap());
///     assert_ne!(first.join().unwrap().token(), second.join().unwrap().token());
/// });
/// # std::fs::remove_file(&path)?;
/// # Ok::<(), Box<dyn std::error::Error>>(())
/// ```
///
/// # Stack
///
/// A call needs at most [`STACK`](crate::STACK) bytes of stack.
#[must_use = "a consumer that is dropped loses what was not checkpointed"]
pub struct Consumer<S = JournalFile> {
    machine: Machine,
    journal: Journal<S>,
}

// A count of hand-outs, which the library answers as a number of 64 bits.
fn count(value: u64) -> u32 {
    u32::try_from(value).expect("a count of hand-outs has 32 bits")
}

// A length or a block.
fn size(value: u64) -> usize {
    usize::try_from(value).expect("a size has 64 bits")
}

impl<S: Storage> Consumer<S> {
    /// A fresh consumer on a new journal: nothing is settled and nothing handed out. Its first claim is refused
    /// ([`CheckpointDue`](Refusal::CheckpointDue), 26) until a first checkpoint has reserved generations. See [`NewJournal`] on
    /// what must not have been before it.
    ///
    /// # Errors
    /// [`UnlimitedDeliverNotAllowed`](Refusal::UnlimitedDeliverNotAllowed) (1), [`TooManySteps`](Refusal::TooManySteps) (2),
    /// [`ZeroThreshold`](Refusal::ZeroThreshold) (3), [`BadHours`](Refusal::BadHours) (33),
    /// [`NeverOpen`](Refusal::NeverOpen) (34) and [`BadArea`](Refusal::BadArea) (4), with the journal.
    ///
    /// # Panics
    /// Where the linked library is another one: see [`check_library`](crate::check_library).
    pub fn start(
        configuration: &Configuration,
        journal: NewJournal<S>,
    ) -> Result<Consumer<S>, StartError<S>> {
        match Machine::start(configuration, journal.journal.area.len()) {
            Ok(machine) => Ok(Consumer {
                machine,
                journal: journal.journal,
            }),
            Err(refusal) => Err(StartError { refusal, journal }),
        }
    }

    /// The consumer of the last finished checkpoint on a journal, or a fresh one where there is none. What was in flight can be
    /// claimed again, and every token from before is refused from now on ([`Fenced`](Refusal::Fenced), 24). Nothing is written.
    ///
    /// # Errors
    /// [`UnlimitedDeliverNotAllowed`](Refusal::UnlimitedDeliverNotAllowed) (1), [`TooManySteps`](Refusal::TooManySteps) (2),
    /// [`ZeroThreshold`](Refusal::ZeroThreshold) (3), [`BadHours`](Refusal::BadHours) (33),
    /// [`NeverOpen`](Refusal::NeverOpen) (34), [`BadArea`](Refusal::BadArea) (4), [`Damaged`](Refusal::Damaged) (5); of the last
    /// group's snapshots [`CursorBadLength`](Refusal::CursorBadLength) (7),
    /// [`CursorUnsupportedVersion`](Refusal::CursorUnsupportedVersion) (8), [`CursorBadCrc`](Refusal::CursorBadCrc) (9),
    /// [`EmptyRange`](Refusal::EmptyRange) (10),
    /// [`NotSortedDisjointAndAboveCommitted`](Refusal::NotSortedDisjointAndAboveCommitted) (11), and
    /// [`AttemptUnsupportedVersion`](Refusal::AttemptUnsupportedVersion) (14),
    /// [`AttemptBadLength`](Refusal::AttemptBadLength) (15), [`CountMismatch`](Refusal::CountMismatch) (16),
    /// [`AttemptBadCrc`](Refusal::AttemptBadCrc) (17), [`NotSorted`](Refusal::NotSorted) (18); each with the journal. None of 4
    /// to 19 comes on a journal that only consumers of this version of the crate have written, whenever the power failed.
    ///
    /// # Panics
    /// Where the linked library is another one: see [`check_library`](crate::check_library).
    pub fn restart(
        configuration: &Configuration,
        journal: Journal<S>,
    ) -> Result<Consumer<S>, RestartError<S>> {
        match Machine::restart(configuration, &journal.area) {
            Ok(machine) => Ok(Consumer { machine, journal }),
            Err(refusal) => Err(RestartError { refusal, journal }),
        }
    }

    /// The same, on a journal whose ceiling is at least the last [ceiling](Consumer::ceiling) that the server kept apart from it: no
    /// generation below that is given a second time. So a journal that was created anew, or restored from a backup since which
    /// anything was handed out or nacked and then checkpointed, is found before its consumer can be called. Not found are a
    /// journal that was copied and is as new, and a backup with the same ceiling: it gives no generation twice, but what was
    /// settled since is open again.
    ///
    /// # Errors
    /// Those of a [restart](Consumer::restart), and [`OlderJournal`]; each with the journal.
    ///
    /// # Panics
    /// Where the linked library is another one: see [`check_library`](crate::check_library).
    pub fn restart_at_least(
        configuration: &Configuration,
        journal: Journal<S>,
        seen: Generation,
    ) -> Result<Consumer<S>, RestartAtLeastError<S>> {
        let consumer = Consumer::restart(configuration, journal)?;
        let found = consumer.ceiling();
        if found < seen {
            let journal = consumer.journal;
            return Err(RestartAtLeastError::Older(OlderJournal {
                found,
                seen,
                journal,
            }));
        }
        Ok(consumer)
    }

    /// Takes the consumer into the writing of a checkpoint. Nothing is written yet.
    ///
    /// # Errors
    /// [`UnknownWorker`](Refusal::UnknownWorker) (38), [`NotPermitted`](Refusal::NotPermitted) (39), and
    /// [`JournalFull`](Refusal::JournalFull) (31) where the journal has had 4294967295 checkpoints, with the consumer. It goes
    /// on, until its generations or its redeliveries run out.
    pub fn begin(mut self, worker: WorkerId) -> Result<Writing<S>, BeginError<S>> {
        match self.machine.begin(worker) {
            Ok(writes) => Ok(Writing {
                machine: self.machine,
                journal: self.journal,
                writes_left: size(writes),
            }),
            Err(refusal) => Err(BeginError::new(refusal, self)),
        }
    }

    /// A whole checkpoint: begin and every step.
    ///
    /// # Errors
    /// [`UnknownWorker`](Refusal::UnknownWorker) (38), [`NotPermitted`](Refusal::NotPermitted) (39) and
    /// [`JournalFull`](Refusal::JournalFull) (31) with the consumer, or an error of the disk, after which only a restart is left:
    /// [`Failed`] says how.
    pub fn checkpoint(self, worker: WorkerId) -> Result<Consumer<S>, CheckpointError<S>> {
        Ok(self.begin(worker)?.finish()?)
    }
}

impl<S> Consumer<S> {
    /// Hands an offset out under the next generation, which fences off whoever held it before.
    ///
    /// # Errors
    /// [`UnknownWorker`](Refusal::UnknownWorker) (38), [`NotPermitted`](Refusal::NotPermitted) (39),
    /// [`LastOffset`](Refusal::LastOffset) (21), [`Settled`](Refusal::Settled) (22), [`Closed`](Refusal::Closed) (35),
    /// [`InFlight`](Refusal::InFlight) (23), [`Exhausted`](Refusal::Exhausted) (25),
    /// [`CheckpointDue`](Refusal::CheckpointDue) (26) and [`Full`](Refusal::Full) (27). After 35 the next opening has to be
    /// waited for; after 26 comes a [checkpoint](Consumer::begin).
    pub fn claim(
        &mut self,
        worker: WorkerId,
        offset: Offset,
        now: u64,
    ) -> Result<HandOut, Refusal> {
        let mut reply = Numbers::default();
        self.machine
            .ask(worker, Ask::Claim, [offset.get(), now, 0, 0], &mut reply)?;
        let [generation, deliveries, dead, ..] = reply.values;
        let token = LeaseToken {
            offset,
            generation: Generation::new(generation),
        };
        let deliveries = count(deliveries);
        Ok(match dead {
            0 => HandOut::Deliver { token, deliveries },
            _ => HandOut::DeadLetter { token, deliveries },
        })
    }

    // A call under a token, with what comes after it.
    fn under(
        &mut self,
        worker: WorkerId,
        ask: Ask,
        token: LeaseToken,
        now: u64,
        delay: u64,
    ) -> Result<u64, Refusal> {
        let given = [token.offset.get(), token.generation.get(), now, delay];
        let mut reply = Numbers::default();
        self.machine.ask(worker, ask, given, &mut reply)?;
        Ok(reply.values[0])
    }

    /// Done: the lease goes and the offset is settled.
    ///
    /// # Errors
    /// [`UnknownWorker`](Refusal::UnknownWorker) (38), [`NotPermitted`](Refusal::NotPermitted) (39),
    /// [`Fenced`](Refusal::Fenced) (24), [`ForeignToken`](Refusal::ForeignToken) (40) and [`Shed`](Refusal::Shed) (29).
    pub fn ack(&mut self, worker: WorkerId, token: LeaseToken) -> Result<(), Refusal> {
        self.under(worker, Ask::Ack, token, 0, 0).map(drop)
    }

    /// Given up for good: settled as by an ack.
    ///
    /// # Errors
    /// [`UnknownWorker`](Refusal::UnknownWorker) (38), [`NotPermitted`](Refusal::NotPermitted) (39),
    /// [`Fenced`](Refusal::Fenced) (24), [`ForeignToken`](Refusal::ForeignToken) (40) and [`Shed`](Refusal::Shed) (29).
    pub fn term(&mut self, worker: WorkerId, token: LeaseToken) -> Result<(), Refusal> {
        self.under(worker, Ask::Term, token, 0, 0).map(drop)
    }

    /// Failed: the offset can be claimed again after the delay, the one given or else the schedule's for so many hand-outs, but no
    /// later than the hard cap from now, or than the first opening from then on. It answers from when on.
    ///
    /// # Errors
    /// [`UnknownWorker`](Refusal::UnknownWorker) (38), [`NotPermitted`](Refusal::NotPermitted) (39),
    /// [`Fenced`](Refusal::Fenced) (24), [`ForeignToken`](Refusal::ForeignToken) (40), [`Exhausted`](Refusal::Exhausted) (25) and
    /// [`CheckpointDue`](Refusal::CheckpointDue) (26).
    pub fn nack(
        &mut self,
        worker: WorkerId,
        token: LeaseToken,
        now: u64,
        delay_nanos: Option<u64>,
    ) -> Result<u64, Refusal> {
        match delay_nanos {
            None => self.under(worker, Ask::Nack, token, now, 0),
            Some(delay) => self.under(worker, Ask::NackAfter, token, now, delay),
        }
    }

    /// Still being worked on: the lease is extended by one visibility window from now, within the hard cap of its attempt. It
    /// answers the new deadline.
    ///
    /// # Errors
    /// [`UnknownWorker`](Refusal::UnknownWorker) (38), [`NotPermitted`](Refusal::NotPermitted) (39),
    /// [`Fenced`](Refusal::Fenced) (24), [`ForeignToken`](Refusal::ForeignToken) (40) and
    /// [`CapReached`](Refusal::CapReached) (28).
    pub fn progress(
        &mut self,
        worker: WorkerId,
        token: LeaseToken,
        now: u64,
    ) -> Result<u64, Refusal> {
        self.machine
            .progress(worker, token.offset.get(), token.generation.get(), now)
    }

    /// Settles every offset below a bound, held or not, and drops their leases and counts; `false` where that was so before.
    /// Whoever held one of them is refused ([`Fenced`](Refusal::Fenced), 24) from then on. A restart that goes back to a
    /// checkpoint from before finds them open again, with the counts of that checkpoint.
    ///
    /// # Errors
    /// [`UnknownWorker`](Refusal::UnknownWorker) (38) and [`NotPermitted`](Refusal::NotPermitted) (39).
    pub fn commit(&mut self, worker: WorkerId, up_to: Offset) -> Result<bool, Refusal> {
        let mut reply = Numbers::default();
        self.machine
            .ask(worker, Ask::Commit, [up_to.get(), 0, 0, 0], &mut reply)?;
        Ok(reply.values[0] != 0)
    }

    /// What waits to be claimed again at a clock: first the offsets whose counts a restart carried over, by offset; then those whose
    /// lease has run out, the longest waiting first, that is by deadline and those of equal deadlines by offset. They fill the list from
    /// its first place on, and their number is answered. 128 places are always enough.
    ///
    /// # Errors
    /// [`UnknownWorker`](Refusal::UnknownWorker) (38), [`NotPermitted`](Refusal::NotPermitted) (39), and
    /// [`OutTooShort`](Refusal::OutTooShort) (20) where they don't fit; then the list is as it was.
    pub fn waiting(
        &self,
        worker: WorkerId,
        now: u64,
        out: &mut [Offset],
    ) -> Result<usize, Refusal> {
        Ok(size(self.machine.waiting(worker, now, out)?))
    }

    // A question about an offset, or about none, which one number answers.
    fn look_up(&self, worker: WorkerId, look: Look, offset: u64) -> Result<u64, Refusal> {
        let mut reply = Numbers::default();
        self.machine
            .look(worker, look, [offset, 0, 0, 0], &mut reply)?;
        Ok(reply.values[0])
    }

    /// The offset below which all are settled.
    ///
    /// # Errors
    /// [`UnknownWorker`](Refusal::UnknownWorker) (38) and [`NotPermitted`](Refusal::NotPermitted) (39).
    pub fn committed(&self, worker: WorkerId) -> Result<Offset, Refusal> {
        self.look_up(worker, Look::Committed, 0).map(Offset::new)
    }

    /// Whether an offset is settled.
    ///
    /// # Errors
    /// [`UnknownWorker`](Refusal::UnknownWorker) (38) and [`NotPermitted`](Refusal::NotPermitted) (39).
    pub fn is_settled(&self, worker: WorkerId, offset: Offset) -> Result<bool, Refusal> {
        Ok(self.look_up(worker, Look::IsSettled, offset.get())? != 0)
    }

    /// The lease of an offset, run out or not.
    ///
    /// # Errors
    /// [`UnknownWorker`](Refusal::UnknownWorker) (38) and [`NotPermitted`](Refusal::NotPermitted) (39).
    pub fn lease_of(&self, worker: WorkerId, offset: Offset) -> Result<Option<Lease>, Refusal> {
        let mut reply = Numbers::default();
        self.machine
            .look(worker, Look::LeaseOf, [offset.get(), 0, 0, 0], &mut reply)?;
        if reply.count == 0 {
            return Ok(None);
        }
        let [generation, attempt_start, deadline, deliveries, _] = reply.values;
        Ok(Some(Lease {
            generation: Generation::new(generation),
            attempt_start,
            deadline,
            deliveries: count(deliveries),
        }))
    }

    /// How often an offset was handed out, as the next checkpoint stores it.
    ///
    /// # Errors
    /// [`UnknownWorker`](Refusal::UnknownWorker) (38) and [`NotPermitted`](Refusal::NotPermitted) (39).
    pub fn count_of(&self, worker: WorkerId, offset: Offset) -> Result<u32, Refusal> {
        self.look_up(worker, Look::CountOf, offset.get()).map(count)
    }

    /// How often each offset was handed out, rising by offset, as the next checkpoint stores it.
    ///
    /// # Errors
    /// [`UnknownWorker`](Refusal::UnknownWorker) (38) and [`NotPermitted`](Refusal::NotPermitted) (39).
    pub fn all_attempt_counts(&self, worker: WorkerId) -> Result<Vec<(Offset, u32)>, Refusal> {
        // At the last clock every deadline has come, so that the waiting list has every lease and every carried count: at most 128,
        // in the order in which they wait.
        let mut list = [Offset::ZERO; MAX_PAIRS];
        let n = self.waiting(worker, u64::MAX, &mut list)?;
        let offsets = &mut list[..n];
        offsets.sort_unstable();
        let counted = |offset: &Offset| Ok((*offset, self.count_of(worker, *offset)?));
        offsets.iter().map(counted).collect()
    }

    /// How many offsets are in flight, their leases run out or not.
    ///
    /// # Errors
    /// [`UnknownWorker`](Refusal::UnknownWorker) (38) and [`NotPermitted`](Refusal::NotPermitted) (39).
    pub fn in_flight(&self, worker: WorkerId) -> Result<usize, Refusal> {
        self.look_up(worker, Look::InFlight, 0).map(size)
    }

    /// Whether a checkpoint is due, and why.
    ///
    /// # Errors
    /// [`UnknownWorker`](Refusal::UnknownWorker) (38) and [`NotPermitted`](Refusal::NotPermitted) (39).
    pub fn is_due(&self, worker: WorkerId) -> Result<Due, Refusal> {
        let mut reply = Numbers::default();
        self.machine.look(worker, Look::IsDue, [0; 4], &mut reply)?;
        let [ceiling, threshold, ..] = reply.values;
        Ok(Due {
            ceiling: ceiling != 0,
            threshold: threshold != 0,
        })
    }

    /// How many blocks are left in the half of the journal that is in use. A checkpoint that takes more of them goes to the other
    /// half, which is zeroed first: so many writes more.
    ///
    /// # Errors
    /// [`UnknownWorker`](Refusal::UnknownWorker) (38) and [`NotPermitted`](Refusal::NotPermitted) (39).
    pub fn blocks_left(&self, worker: WorkerId) -> Result<usize, Refusal> {
        self.look_up(worker, Look::BlocksLeft, 0).map(size)
    }

    /// How an offset stands at a clock. A worker sees its standing alone; a supervisor, whose [rights](crate::Rights::SUPERVISOR) have
    /// the mark, sees also how often it was handed out, and its lease.
    ///
    /// # Errors
    /// [`UnknownWorker`](Refusal::UnknownWorker) (38) and [`NotPermitted`](Refusal::NotPermitted) (39): the mark doesn't stand in
    /// for the right to look.
    pub fn view(&self, worker: WorkerId, offset: Offset, now: u64) -> Result<View, Refusal> {
        let mut reply = Numbers::default();
        self.machine
            .look(worker, Look::ViewOf, [offset.get(), now, 0, 0], &mut reply)?;
        let [standing, attempts, generation, deadline, holder] = reply.values;
        let shown = |place: u64, value: u64| (place < reply.count).then_some(value);
        Ok(View {
            standing: match standing {
                0 => Standing::Settled,
                1 => Standing::Held,
                _ => Standing::Waiting,
            },
            attempts: shown(1, attempts).map(count),
            generation: shown(2, generation).map(Generation::new),
            deadline: shown(3, deadline),
            holder: shown(4, holder).map(WorkerId::new),
        })
    }

    /// Every stretch of unsettled offsets from `a` up to `b`, which isn't in it: rising, none touching the next, clipped at both
    /// bounds. They fill the list from its first place on, and their number is answered. [`MAX_STRETCHES`] places are always enough.
    ///
    /// # Errors
    /// [`UnknownWorker`](Refusal::UnknownWorker) (38), [`NotPermitted`](Refusal::NotPermitted) (39),
    /// [`BoundsReversed`](Refusal::BoundsReversed) (32) where `a` is above `b`, and [`OutTooShort`](Refusal::OutTooShort) (20)
    /// where they don't fit; then the list is as it was.
    pub fn open_between(
        &self,
        worker: WorkerId,
        a: Offset,
        b: Offset,
        out: &mut [Stretch],
    ) -> Result<usize, Refusal> {
        Ok(size(self.machine.open_between(worker, a, b, out)?))
    }

    /// The same in a list of its own.
    ///
    /// # Errors
    /// [`UnknownWorker`](Refusal::UnknownWorker) (38), [`NotPermitted`](Refusal::NotPermitted) (39) and
    /// [`BoundsReversed`](Refusal::BoundsReversed) (32).
    pub fn open_stretches(
        &self,
        worker: WorkerId,
        a: Offset,
        b: Offset,
    ) -> Result<Vec<Stretch>, Refusal> {
        let mut list = [Stretch::default(); MAX_STRETCHES];
        let n = self.open_between(worker, a, b, &mut list)?;
        Ok(list[..n].to_vec())
    }

    /// The nearest unsettled offset at or above one. The last offset of all is never settled, so that there always is one.
    ///
    /// # Errors
    /// [`UnknownWorker`](Refusal::UnknownWorker) (38) and [`NotPermitted`](Refusal::NotPermitted) (39).
    pub fn nearest_open(&self, worker: WorkerId, offset: Offset) -> Result<Offset, Refusal> {
        self.look_up(worker, Look::NearestOpen, offset.get())
            .map(Offset::new)
    }

    /// Which offsets of a list are settled, in one walk over both: each place of `out` becomes 1 where its offset is settled, and 0 where
    /// it is open. No offset is below the one before it, and both lists have the same length. Answers the number of looks, which are
    /// comparisons of an offset with a range of settled ones: at most one for each offset and one for each range.
    ///
    /// # Errors
    /// [`UnknownWorker`](Refusal::UnknownWorker) (38), [`NotPermitted`](Refusal::NotPermitted) (39), then
    /// [`UnequalLengths`](Refusal::UnequalLengths) (36) and [`Falling`](Refusal::Falling) (37); `out` is as it was.
    pub fn plan(
        &self,
        worker: WorkerId,
        offsets: &[Offset],
        out: &mut [u8],
    ) -> Result<u64, Refusal> {
        self.machine.plan(worker, offsets, out)
    }

    /// Whether a checkpoint is due, for the server's own loop: the next claim, and where no generation is left the next nack,
    /// would be refused ([`CheckpointDue`](Refusal::CheckpointDue), 26). [`is_due`](Consumer::is_due) says it to a worker, and
    /// why.
    #[must_use]
    pub fn checkpoint_due(&self) -> bool {
        self.machine.due().is_due()
    }

    /// The ceiling of the last finished checkpoint: every generation that has been given lies below it. It never falls, and so it says
    /// how old a journal is, though a checkpoint with no hand-out and no nack since the one before leaves it as it was. A server that
    /// keeps it apart from the journal, durably, once a checkpoint is made and before the next claim, hands it to the next
    /// [restart](Consumer::restart_at_least).
    #[must_use]
    pub fn ceiling(&self) -> Generation {
        Generation::new(self.machine.ceiling())
    }

    /// Gives the state up. What was not checkpointed is lost, as in a power failure, and only a restart is left.
    pub fn into_journal(self) -> Journal<S> {
        self.journal
    }
}

impl<S> fmt::Debug for Consumer<S> {
    fn fmt(&self, f: &mut fmt::Formatter<'_>) -> fmt::Result {
        write!(f, "Consumer on {:?}", self.journal)
    }
}

/// A checkpoint that is being written. While it is out there is no consumer to call: only its steps, or a restart.
#[must_use = "a checkpoint counts once its last step is made"]
pub struct Writing<S = JournalFile> {
    machine: Machine,
    journal: Journal<S>,
    writes_left: usize,
}

/// What a step made, and who can be called next.
#[must_use = "what comes next is in it"]
pub enum Step<S = JournalFile> {
    /// A block that isn't the last.
    Wrote {
        /// The block, from 0.
        block: usize,
        /// What writes the next.
        writing: Writing<S>,
    },
    /// The last block, the header's: the checkpoint counts from now on.
    Finished {
        /// The block, from 0.
        block: usize,
        /// The consumer again, with generations up to a new ceiling.
        consumer: Consumer<S>,
    },
}

impl<S> fmt::Debug for Step<S> {
    fn fmt(&self, f: &mut fmt::Formatter<'_>) -> fmt::Result {
        match self {
            Step::Wrote { block, writing } => write!(f, "Wrote block {block}, {writing:?}"),
            Step::Finished { block, consumer } => {
                write!(f, "Finished with block {block}, {consumer:?}")
            }
        }
    }
}

impl<S: Storage> Writing<S> {
    /// Makes the next block write, and no other: it is at its place and durable before the answer.
    ///
    /// # Errors
    /// An error of the disk, after which only a restart is left: [`Failed`] says how.
    pub fn step(mut self) -> Result<Step<S>, Failed<S>> {
        let wrote = self.machine.step(&mut self.journal.area);
        let (machine, block) = (self.machine, wrote.block);
        let journal = self.journal.put(block)?;
        Ok(if wrote.last {
            let consumer = Consumer { machine, journal };
            Step::Finished { block, consumer }
        } else {
            let writes_left = self.writes_left - 1;
            let writing = Writing {
                machine,
                journal,
                writes_left,
            };
            Step::Wrote { block, writing }
        })
    }

    /// Every step that is left.
    ///
    /// # Errors
    /// An error of the disk, after which only a restart is left: [`Failed`] says how.
    pub fn finish(mut self) -> Result<Consumer<S>, Failed<S>> {
        loop {
            match self.step()? {
                Step::Wrote { writing, .. } => self = writing,
                Step::Finished { consumer, .. } => return Ok(consumer),
            }
        }
    }
}

impl<S> Writing<S> {
    /// How many block writes are to come, those of zeros among them.
    #[must_use]
    pub fn writes_left(&self) -> usize {
        self.writes_left
    }

    /// Gives the checkpoint up, and the state with it: only a restart is left, from the checkpoint before.
    pub fn into_journal(self) -> Journal<S> {
        self.journal
    }
}

impl<S> fmt::Debug for Writing<S> {
    fn fmt(&self, f: &mut fmt::Formatter<'_>) -> fmt::Result {
        write!(
            f,
            "Writing on {:?}, {} writes to come",
            self.journal, self.writes_left
        )
    }
}
