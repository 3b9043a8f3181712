//! The consumer and its checkpoint, each owner of its journal.

use std::fmt;
use std::io;

use crate::configuration::Configuration;
use crate::errors::{
    BeginCause, BeginError, CheckpointError, OlderJournal, RestartAtLeastError, RestartError,
    StartError,
};
use crate::ffi::{Ask, Look, Machine, Numbers, Wrote};
use crate::file::JournalFile;
use crate::journal::{Failed, Journal, NewJournal, Writer};
use crate::refusal::Refusal;
use crate::snapshot::{Snapshots, LONGEST_ATTEMPTS, LONGEST_CURSOR, MAX_PAIRS};
use crate::storage::{Area, Storage};
use crate::types::{Due, Generation, HandOut, Lease, LeaseToken, Offset, Standing, Stretch, View};
use crate::workers::WorkerId;

/// The most stretches that [`Consumer::open_between`] answers: one before each of 128 ranges, and one behind the last.
pub const MAX_STRETCHES: usize = 129;

/// The bytes of stack that a call needs at most, with or without optimisations. A thread has 2 MiB unless it is made otherwise.
pub const STACK: usize = 96 * 1024;

/// The delivery state of one consumer: which messages are settled, who holds which until when, and how often each was handed out.
///
/// It owns its journal. A call works on what the one before left, and there is no other copy: it can't be cloned, a
/// [checkpoint](Consumer::begin) takes it away until the last block is written, and after an error of the disk only a restart is
/// left. A refused call has changed nothing. Times are nanoseconds of any clock, which may stand still or run backwards.
///
/// Every call says which worker makes it. Before all else it is refused where there is no such worker
/// ([`UnknownWorker`](Refusal::UnknownWorker), 38), and where the worker's [rights](crate::Settings::rights) don't have it
/// ([`NotPermitted`](Refusal::NotPermitted), 39). A token works for the worker who claimed it alone
/// ([`ForeignToken`](Refusal::ForeignToken), 40).
///
/// # Threads
///
/// Calls that can change it take `&mut self`, questions take `&self`. It can be sent to another thread, and not be shared by several
/// (it isn't `Sync`). A server whose threads share one has a [`SharedConsumer`](crate::SharedConsumer).
///
/// # Stack
///
/// A call needs at most [`STACK`](crate::STACK) bytes of stack.
#[must_use = "a consumer that is dropped loses what was not checkpointed"]
pub struct Consumer<S = JournalFile> {
    machine: Machine,
    writer: Writer<S>,
}

// A count of hand-outs, which the library answers as a number of 64 bits.
fn count(value: u64) -> u32 {
    u32::try_from(value).expect("a count of hand-outs has 32 bits")
}

// A length or a block.
fn size(value: u64) -> usize {
    usize::try_from(value).expect("a size has 64 bits")
}

impl<S: Storage> Consumer<S> {
    /// A fresh consumer on a new journal: nothing is settled and nothing handed out. Its first claim is refused
    /// ([`CheckpointDue`](Refusal::CheckpointDue), 26) until a first checkpoint has reserved generations. See [`NewJournal`] on
    /// what must not have been before it, and [`NewJournal::import`] where it was.
    ///
    /// # Errors
    /// [`UnlimitedDeliverNotAllowed`](Refusal::UnlimitedDeliverNotAllowed) (1), [`TooManySteps`](Refusal::TooManySteps) (2),
    /// [`ZeroThreshold`](Refusal::ZeroThreshold) (3), [`BadHours`](Refusal::BadHours) (33),
    /// [`NeverOpen`](Refusal::NeverOpen) (34) and [`BadArea`](Refusal::BadArea) (4), with the journal.
    ///
    /// # Panics
    /// Where the linked library is another one: see [`check_library`](crate::check_library).
    pub fn start(
        configuration: &Configuration,
        journal: NewJournal<S>,
    ) -> Result<Consumer<S>, StartError<S>> {
        match Machine::start(configuration, journal.journal.bytes().len()) {
            Ok(machine) => Ok(Consumer::of(machine, journal.journal)),
            Err(refusal) => Err(StartError { refusal, journal }),
        }
    }

    /// The consumer of the last finished checkpoint on a journal, or a fresh one where there is none. What was in flight can be
    /// claimed again, and every token from before is refused from now on ([`Fenced`](Refusal::Fenced), 24). Nothing is written.
    ///
    /// # Errors
    /// [`UnlimitedDeliverNotAllowed`](Refusal::UnlimitedDeliverNotAllowed) (1), [`TooManySteps`](Refusal::TooManySteps) (2),
    /// [`ZeroThreshold`](Refusal::ZeroThreshold) (3), [`BadHours`](Refusal::BadHours) (33),
    /// [`NeverOpen`](Refusal::NeverOpen) (34), [`BadArea`](Refusal::BadArea) (4), [`Damaged`](Refusal::Damaged) (5); of the last
    /// group's snapshots [`CursorBadLength`](Refusal::CursorBadLength) (7),
    /// [`CursorUnsupportedVersion`](Refusal::CursorUnsupportedVersion) (8), [`CursorBadCrc`](Refusal::CursorBadCrc) (9),
    /// [`EmptyRange`](Refusal::EmptyRange) (10),
    /// [`NotSortedDisjointAndAboveCommitted`](Refusal::NotSortedDisjointAndAboveCommitted) (11), and
    /// [`AttemptUnsupportedVersion`](Refusal::AttemptUnsupportedVersion) (14),
    /// [`AttemptBadLength`](Refusal::AttemptBadLength) (15), [`CountMismatch`](Refusal::CountMismatch) (16),
    /// [`AttemptBadCrc`](Refusal::AttemptBadCrc) (17), [`NotSorted`](Refusal::NotSorted) (18); each with the journal. None of 4
    /// to 19 comes on a journal that only consumers of this version of the crate have written, whenever the power failed.
    ///
    /// # Panics
    /// Where the linked library is another one: see [`check_library`](crate::check_library).
    pub fn restart(
        configuration: &Configuration,
        journal: Journal<S>,
    ) -> Result<Consumer<S>, RestartError<S>> {
        match Machine::restart(configuration, journal.bytes()) {
            Ok(machine) => Ok(Consumer::of(machine, journal)),
            Err(refusal) => Err(RestartError { refusal, journal }),
        }
    }

    /// The same, on a journal whose ceiling is at least the last [ceiling](Consumer::ceiling) that the server kept apart from it: no
    /// generation below that is given a second time. So a journal that was created anew, or restored from a backup since which
    /// anything was handed out or nacked and then checkpointed, is found before its consumer can be called. Not found are a
    /// journal that was copied and is as new, and a backup with the same ceiling: it gives no generation twice, but what was
    /// settled since is open again.
    ///
    /// A [`CeilingFile`](crate::CeilingFile) keeps the ceiling, and a [`SharedConsumer`](crate::SharedConsumer) does all of it by itself.
    ///
    /// ```
    /// use ironbus_delivery_state::{Configuration, Consumer, Journal, NewJournal, Offset, RestartAtLeastError, WorkerId};
    /// # let path = std::env::temp_dir().join(format!("ironbus-doc-older-{}", std::process::id()));
    /// # let _ = std::fs::remove_file(&path);
    ///
    /// let worker = WorkerId::new(0);
    /// let configuration = Configuration::default();
    /// let consumer = Consumer::start(&configuration, NewJournal::create(&path, 18)?)?;
    /// let mut consumer = consumer.checkpoint(worker)?;
    /// let backup = consumer.journal_bytes()?;
    /// let _ = consumer.claim(worker, Offset::new(7), 0)?;
    /// let consumer = consumer.checkpoint(worker)?;
    /// let seen = consumer.ceiling(worker)?;                      // kept apart from the journal
    /// drop(consumer);
    ///
    /// // Somebody puts the backup in the journal's place: job 7 would be handed out under the same generation again.
    /// std::fs::write(&path, backup.bytes())?;
    /// let refused = Consumer::restart_at_least(&configuration, Journal::open(&path)?, seen);
    /// assert!(matches!(refused, Err(RestartAtLeastError::Older(_))));
    /// # drop(refused);
    /// # std::fs::remove_file(&path)?;
    /// # Ok::<(), Box<dyn std::error::Error>>(())
    /// ```
    ///
    /// # Errors
    /// Those of a [restart](Consumer::restart), and [`OlderJournal`]; each with the journal.
    ///
    /// # Panics
    /// Where the linked library is another one: see [`check_library`](crate::check_library).
    pub fn restart_at_least(
        configuration: &Configuration,
        journal: Journal<S>,
        seen: Generation,
    ) -> Result<Consumer<S>, RestartAtLeastError<S>> {
        let machine = match Machine::restart(configuration, journal.bytes()) {
            Ok(machine) => machine,
            Err(refusal) => return Err(RestartError { refusal, journal }.into()),
        };
        let found = Generation::new(machine.ceiling());
        if found < seen {
            return Err(RestartAtLeastError::Older(OlderJournal {
                found,
                seen,
                journal,
            }));
        }
        Ok(Consumer::of(machine, journal))
    }

    /// Takes the consumer into the writing of a checkpoint. Nothing is written yet.
    ///
    /// # Errors
    /// What became of the journal's file, where it was deleted, moved or cut short under the server
    /// ([`Displaced`](crate::Displaced)); then [`UnknownWorker`](Refusal::UnknownWorker) (38),
    /// [`NotPermitted`](Refusal::NotPermitted) (39), and [`JournalFull`](Refusal::JournalFull) (31) where the journal has had
    /// 4294967295 checkpoints. Each has the consumer, which goes on until its generations or its redeliveries run out.
    pub fn begin(mut self, worker: WorkerId) -> Result<Writing<S>, BeginError<S>> {
        if let Err(error) = self.writer.storage.check() {
            return Err(BeginError::new(BeginCause::Displaced(error), self));
        }
        match self.machine.begin(worker) {
            Ok(writes) => Ok(Writing {
                machine: self.machine,
                writer: self.writer,
                writes_left: size(writes),
            }),
            Err(refusal) => Err(BeginError::new(BeginCause::Refused(refusal), self)),
        }
    }

    /// A whole checkpoint: begin and every step. It takes two syncs, however many blocks it has.
    ///
    /// # Errors
    /// Those of [`begin`](Consumer::begin), with the consumer, or an error of the disk, after which only a restart is left: [`Failed`]
    /// says how.
    pub fn checkpoint(self, worker: WorkerId) -> Result<Consumer<S>, CheckpointError<S>> {
        Ok(self.begin(worker)?.finish()?)
    }

    /// What its journal has, block after block: what a restart would find now. It is read for it, since a consumer has none of its bytes. A
    /// backup of it is of one moment, however long it takes, and needs no pause of the server: no checkpoint is being written while there
    /// is a consumer. In a file by themselves these bytes are a journal whose blocks lie [side by side](crate::Form::SideBySide), as
    /// `inspect` and [`Journal::open`] read it. What it is good for is in docs/OPERATING.md, "Backups".
    ///
    /// # Errors
    /// The disk can't read it. If it can't read single blocks, [`Area::unreadable`] has them.
    pub fn journal_bytes(&mut self) -> io::Result<Area> {
        self.writer.storage.read()
    }

    /// Gives the state up. What was not checkpointed is lost, as in a power failure, and only a restart is left. The journal is read for it.
    ///
    /// # Errors
    /// The disk can't read it: [`Failed::reopen`] tries it again.
    pub fn into_journal(self) -> Result<Journal<S>, Failed<S>> {
        self.writer.read()
    }
}

impl<S> Consumer<S> {
    /// The consumer of a machine, on the journal that it was made for. The journal's bytes go.
    pub(crate) fn of(machine: Machine, journal: Journal<S>) -> Consumer<S> {
        let writer = journal.writer;
        Consumer { machine, writer }
    }

    /// Where its journal is kept.
    pub(crate) fn storage(&mut self) -> &mut S {
        &mut self.writer.storage
    }

    /// Hands an offset out under the next generation, which fences off whoever held it before.
    ///
    /// ```
    /// use ironbus_delivery_state::{Configuration, Consumer, HandOut, NewJournal, Offset, Refusal, WorkerId};
    /// # let path = std::env::temp_dir().join(format!("ironbus-doc-claim-{}", std::process::id()));
    /// # let _ = std::fs::remove_file(&path);
    ///
    /// let (worker, job) = (WorkerId::new(0), Offset::new(7));
    /// let journal = NewJournal::create(&path, 18)?;
    /// let mut consumer = Consumer::start(&Configuration::default(), journal)?;
    /// assert_eq!(consumer.claim(worker, job, 0), Err(Refusal::CheckpointDue));
    /// let mut consumer = consumer.checkpoint(worker)?;
    /// let slow = consumer.claim(worker, job, 0)?;
    /// // It is held for 30 seconds; then it can be handed out again, and the first token is worth nothing.
    /// assert_eq!(consumer.claim(worker, job, 1), Err(Refusal::InFlight));
    /// let HandOut::Deliver { token, deliveries } = consumer.claim(worker, job, 30_000_000_000)? else { unreachable!() };
    /// assert_eq!(deliveries, 2);
    /// assert_eq!(consumer.ack(worker, slow.token()), Err(Refusal::Fenced));
    /// consumer.ack(worker, token)?;
    /// # drop(consumer);
    /// # std::fs::remove_file(&path)?;
    /// # Ok::<(), Box<dyn std::error::Error>>(())
    /// ```
    ///
    /// # Errors
    /// [`UnknownWorker`](Refusal::UnknownWorker) (38), [`NotPermitted`](Refusal::NotPermitted) (39),
    /// [`LastOffset`](Refusal::LastOffset) (21), [`Settled`](Refusal::Settled) (22), [`Closed`](Refusal::Closed) (35),
    /// [`InFlight`](Refusal::InFlight) (23), [`Exhausted`](Refusal::Exhausted) (25),
    /// [`CheckpointDue`](Refusal::CheckpointDue) (26) and [`Full`](Refusal::Full) (27). After 35 the next opening has to be
    /// waited for; after 26 comes a [checkpoint](Consumer::begin).
    pub fn claim(
        &mut self,
        worker: WorkerId,
        offset: Offset,
        now: u64,
    ) -> Result<HandOut, Refusal> {
        let mut reply = Numbers::default();
        self.machine
            .ask(worker, Ask::Claim, [offset.get(), now, 0, 0], &mut reply)?;
        let [generation, deliveries, dead, ..] = reply.values;
        let token = LeaseToken {
            offset,
            generation: Generation::new(generation),
        };
        let deliveries = count(deliveries);
        Ok(match dead {
            0 => HandOut::Deliver { token, deliveries },
            _ => HandOut::DeadLetter { token, deliveries },
        })
    }

    // A call under a token, with what comes after it.
    fn under(
        &mut self,
        worker: WorkerId,
        ask: Ask,
        token: LeaseToken,
        now: u64,
        delay: u64,
    ) -> Result<u64, Refusal> {
        let given = [token.offset.get(), token.generation.get(), now, delay];
        let mut reply = Numbers::default();
        self.machine.ask(worker, ask, given, &mut reply)?;
        Ok(reply.values[0])
    }

    /// Done: the lease goes and the offset is settled.
    ///
    /// # Errors
    /// [`UnknownWorker`](Refusal::UnknownWorker) (38), [`NotPermitted`](Refusal::NotPermitted) (39),
    /// [`Fenced`](Refusal::Fenced) (24), [`ForeignToken`](Refusal::ForeignToken) (40) and [`Shed`](Refusal::Shed) (29).
    pub fn ack(&mut self, worker: WorkerId, token: LeaseToken) -> Result<(), Refusal> {
        self.under(worker, Ask::Ack, token, 0, 0).map(drop)
    }

    /// Given up for good: settled as by an ack.
    ///
    /// # Errors
    /// [`UnknownWorker`](Refusal::UnknownWorker) (38), [`NotPermitted`](Refusal::NotPermitted) (39),
    /// [`Fenced`](Refusal::Fenced) (24), [`ForeignToken`](Refusal::ForeignToken) (40) and [`Shed`](Refusal::Shed) (29).
    pub fn term(&mut self, worker: WorkerId, token: LeaseToken) -> Result<(), Refusal> {
        self.under(worker, Ask::Term, token, 0, 0).map(drop)
    }

    /// Failed: the offset can be claimed again after the delay, the one given or else the schedule's for so many hand-outs, but no
    /// later than the hard cap from now, or than the first opening from then on. It answers from when on.
    ///
    /// # Errors
    /// [`UnknownWorker`](Refusal::UnknownWorker) (38), [`NotPermitted`](Refusal::NotPermitted) (39),
    /// [`Fenced`](Refusal::Fenced) (24), [`ForeignToken`](Refusal::ForeignToken) (40), [`Exhausted`](Refusal::Exhausted) (25) and
    /// [`CheckpointDue`](Refusal::CheckpointDue) (26).
    pub fn nack(
        &mut self,
        worker: WorkerId,
        token: LeaseToken,
        now: u64,
        delay_nanos: Option<u64>,
    ) -> Result<u64, Refusal> {
        match delay_nanos {
            None => self.under(worker, Ask::Nack, token, now, 0),
            Some(delay) => self.under(worker, Ask::NackAfter, token, now, delay),
        }
    }

    /// Still being worked on: the lease is extended by one visibility window from now, within the hard cap of its attempt. It
    /// answers the new deadline.
    ///
    /// # Errors
    /// [`UnknownWorker`](Refusal::UnknownWorker) (38), [`NotPermitted`](Refusal::NotPermitted) (39),
    /// [`Fenced`](Refusal::Fenced) (24), [`ForeignToken`](Refusal::ForeignToken) (40) and
    /// [`CapReached`](Refusal::CapReached) (28).
    pub fn progress(
        &mut self,
        worker: WorkerId,
        token: LeaseToken,
        now: u64,
    ) -> Result<u64, Refusal> {
        self.machine
            .progress(worker, token.offset.get(), token.generation.get(), now)
    }

    /// Settles every offset below a bound, held or not, and drops their leases and counts; `false` where that was so before.
    /// Whoever held one of them is refused ([`Fenced`](Refusal::Fenced), 24) from then on. A restart that goes back to a
    /// checkpoint from before finds them open again, with the counts of that checkpoint.
    ///
    /// # Errors
    /// [`UnknownWorker`](Refusal::UnknownWorker) (38) and [`NotPermitted`](Refusal::NotPermitted) (39).
    pub fn commit(&mut self, worker: WorkerId, up_to: Offset) -> Result<bool, Refusal> {
        let mut reply = Numbers::default();
        self.machine
            .ask(worker, Ask::Commit, [up_to.get(), 0, 0, 0], &mut reply)?;
        Ok(reply.values[0] != 0)
    }

    /// What waits to be claimed again at a clock: first the offsets whose counts a restart carried over, by offset; then those whose
    /// lease has run out, the longest waiting first, that is by deadline and those of equal deadlines by offset. They fill the list from
    /// its first place on, and their number is answered. 128 places are always enough.
    ///
    /// # Errors
    /// [`UnknownWorker`](Refusal::UnknownWorker) (38), [`NotPermitted`](Refusal::NotPermitted) (39), and
    /// [`OutTooShort`](Refusal::OutTooShort) (20) where they don't fit; then the list is as it was.
    pub fn waiting(
        &self,
        worker: WorkerId,
        now: u64,
        out: &mut [Offset],
    ) -> Result<usize, Refusal> {
        Ok(size(self.machine.waiting(worker, now, out)?))
    }

    // A question about an offset, or about none, which one number answers.
    fn look_up(&self, worker: WorkerId, look: Look, offset: u64) -> Result<u64, Refusal> {
        let mut reply = Numbers::default();
        self.machine
            .look(worker, look, [offset, 0, 0, 0], &mut reply)?;
        Ok(reply.values[0])
    }

    /// The offset below which all are settled.
    ///
    /// # Errors
    /// [`UnknownWorker`](Refusal::UnknownWorker) (38) and [`NotPermitted`](Refusal::NotPermitted) (39).
    pub fn committed(&self, worker: WorkerId) -> Result<Offset, Refusal> {
        self.look_up(worker, Look::Committed, 0).map(Offset::new)
    }

    /// Whether an offset is settled.
    ///
    /// # Errors
    /// [`UnknownWorker`](Refusal::UnknownWorker) (38) and [`NotPermitted`](Refusal::NotPermitted) (39).
    pub fn is_settled(&self, worker: WorkerId, offset: Offset) -> Result<bool, Refusal> {
        Ok(self.look_up(worker, Look::IsSettled, offset.get())? != 0)
    }

    /// The lease of an offset, run out or not.
    ///
    /// # Errors
    /// [`UnknownWorker`](Refusal::UnknownWorker) (38) and [`NotPermitted`](Refusal::NotPermitted) (39).
    pub fn lease_of(&self, worker: WorkerId, offset: Offset) -> Result<Option<Lease>, Refusal> {
        let mut reply = Numbers::default();
        self.machine
            .look(worker, Look::LeaseOf, [offset.get(), 0, 0, 0], &mut reply)?;
        if reply.count == 0 {
            return Ok(None);
        }
        let [generation, attempt_start, deadline, deliveries, _] = reply.values;
        Ok(Some(Lease {
            generation: Generation::new(generation),
            attempt_start,
            deadline,
            deliveries: count(deliveries),
        }))
    }

    /// How often an offset was handed out, as the next checkpoint stores it.
    ///
    /// # Errors
    /// [`UnknownWorker`](Refusal::UnknownWorker) (38) and [`NotPermitted`](Refusal::NotPermitted) (39).
    pub fn count_of(&self, worker: WorkerId, offset: Offset) -> Result<u32, Refusal> {
        self.look_up(worker, Look::CountOf, offset.get()).map(count)
    }

    /// How often each offset was handed out, rising by offset, as the next checkpoint stores it.
    ///
    /// # Errors
    /// [`UnknownWorker`](Refusal::UnknownWorker) (38) and [`NotPermitted`](Refusal::NotPermitted) (39).
    pub fn all_attempt_counts(&self, worker: WorkerId) -> Result<Vec<(Offset, u32)>, Refusal> {
        // At the last clock every deadline has come, so that the waiting list has every lease and every carried count: at most 128,
        // in the order in which they wait.
        let mut list = [Offset::ZERO; MAX_PAIRS];
        let n = self.waiting(worker, u64::MAX, &mut list)?;
        let offsets = &mut list[..n];
        offsets.sort_unstable();
        let counted = |offset: &Offset| Ok((*offset, self.count_of(worker, *offset)?));
        offsets.iter().map(counted).collect()
    }

    /// What another server needs to go on: the cursor snapshot, and the attempt snapshot of [all counts](Consumer::all_attempt_counts) in
    /// version 1, which IronBus reads too. It changes nothing. What is handed out afterwards isn't in it, so no worker may be served
    /// any more: docs/MOVING.md has the order.
    ///
    /// # Errors
    /// [`UnknownWorker`](Refusal::UnknownWorker) (38) and [`NotPermitted`](Refusal::NotPermitted) (39).
    pub fn export(&self, worker: WorkerId) -> Result<Snapshots, Refusal> {
        let mut cursor = vec![0; LONGEST_CURSOR];
        let mut attempts = vec![0; LONGEST_ATTEMPTS];
        let lengths = self.machine.export(worker, &mut cursor, &mut attempts)?;
        cursor.truncate(size(lengths.0));
        attempts.truncate(size(lengths.1));
        Ok(Snapshots { cursor, attempts })
    }

    /// How many offsets are in flight, their leases run out or not.
    ///
    /// # Errors
    /// [`UnknownWorker`](Refusal::UnknownWorker) (38) and [`NotPermitted`](Refusal::NotPermitted) (39).
    pub fn in_flight(&self, worker: WorkerId) -> Result<usize, Refusal> {
        self.look_up(worker, Look::InFlight, 0).map(size)
    }

    /// Whether a checkpoint is due, and why: the next claim, and where no generation is left the next nack, would be refused
    /// ([`CheckpointDue`](Refusal::CheckpointDue), 26).
    ///
    /// # Errors
    /// [`UnknownWorker`](Refusal::UnknownWorker) (38) and [`NotPermitted`](Refusal::NotPermitted) (39).
    pub fn is_due(&self, worker: WorkerId) -> Result<Due, Refusal> {
        let mut reply = Numbers::default();
        self.machine.look(worker, Look::IsDue, [0; 4], &mut reply)?;
        let [ceiling, threshold, ..] = reply.values;
        Ok(Due {
            ceiling: ceiling != 0,
            threshold: threshold != 0,
        })
    }

    /// How many blocks are left in the half of the journal that is in use. A checkpoint that takes more of them goes to the other
    /// half, which is zeroed first: so many writes more.
    ///
    /// # Errors
    /// [`UnknownWorker`](Refusal::UnknownWorker) (38) and [`NotPermitted`](Refusal::NotPermitted) (39).
    pub fn blocks_left(&self, worker: WorkerId) -> Result<usize, Refusal> {
        self.look_up(worker, Look::BlocksLeft, 0).map(size)
    }

    /// How an offset stands at a clock. A worker sees its standing alone; a supervisor, whose [rights](crate::Rights::SUPERVISOR) have
    /// the mark, sees also how often it was handed out, and its lease.
    ///
    /// # Errors
    /// [`UnknownWorker`](Refusal::UnknownWorker) (38) and [`NotPermitted`](Refusal::NotPermitted) (39): the mark doesn't stand in
    /// for the right to look.
    pub fn view(&self, worker: WorkerId, offset: Offset, now: u64) -> Result<View, Refusal> {
        let mut reply = Numbers::default();
        self.machine
            .look(worker, Look::ViewOf, [offset.get(), now, 0, 0], &mut reply)?;
        let [standing, attempts, generation, deadline, holder] = reply.values;
        let shown = |place: u64, value: u64| (place < reply.count).then_some(value);
        Ok(View {
            standing: match standing {
                0 => Standing::Settled,
                1 => Standing::Held,
                _ => Standing::Waiting,
            },
            attempts: shown(1, attempts).map(count),
            generation: shown(2, generation).map(Generation::new),
            deadline: shown(3, deadline),
            holder: shown(4, holder).map(WorkerId::new),
        })
    }

    /// Every stretch of unsettled offsets from `a` up to `b`, which isn't in it: rising, none touching the next, clipped at both
    /// bounds. They fill the list from its first place on, and their number is answered. [`MAX_STRETCHES`] places are always enough.
    ///
    /// # Errors
    /// [`UnknownWorker`](Refusal::UnknownWorker) (38), [`NotPermitted`](Refusal::NotPermitted) (39),
    /// [`BoundsReversed`](Refusal::BoundsReversed) (32) where `a` is above `b`, and [`OutTooShort`](Refusal::OutTooShort) (20)
    /// where they don't fit; then the list is as it was.
    pub fn open_between(
        &self,
        worker: WorkerId,
        a: Offset,
        b: Offset,
        out: &mut [Stretch],
    ) -> Result<usize, Refusal> {
        Ok(size(self.machine.open_between(worker, a, b, out)?))
    }

    /// The same in a list of its own.
    ///
    /// # Errors
    /// [`UnknownWorker`](Refusal::UnknownWorker) (38), [`NotPermitted`](Refusal::NotPermitted) (39) and
    /// [`BoundsReversed`](Refusal::BoundsReversed) (32).
    pub fn open_stretches(
        &self,
        worker: WorkerId,
        a: Offset,
        b: Offset,
    ) -> Result<Vec<Stretch>, Refusal> {
        let mut list = [Stretch::default(); MAX_STRETCHES];
        let n = self.open_between(worker, a, b, &mut list)?;
        Ok(list[..n].to_vec())
    }

    /// The nearest unsettled offset at or above one. The last offset of all is never settled, so that there always is one.
    ///
    /// # Errors
    /// [`UnknownWorker`](Refusal::UnknownWorker) (38) and [`NotPermitted`](Refusal::NotPermitted) (39).
    pub fn nearest_open(&self, worker: WorkerId, offset: Offset) -> Result<Offset, Refusal> {
        self.look_up(worker, Look::NearestOpen, offset.get())
            .map(Offset::new)
    }

    /// Which offsets of a list are settled, in one walk over both: each place of `out` becomes 1 where its offset is settled, and 0 where
    /// it is open. No offset is below the one before it, and both lists have the same length. Answers the number of looks, which are
    /// comparisons of an offset with a range of settled ones: at most one for each offset and one for each range.
    ///
    /// # Errors
    /// [`UnknownWorker`](Refusal::UnknownWorker) (38), [`NotPermitted`](Refusal::NotPermitted) (39), then
    /// [`UnequalLengths`](Refusal::UnequalLengths) (36) and [`Falling`](Refusal::Falling) (37); `out` is as it was.
    pub fn plan(
        &self,
        worker: WorkerId,
        offsets: &[Offset],
        out: &mut [u8],
    ) -> Result<u64, Refusal> {
        self.machine.plan(worker, offsets, out)
    }

    /// The ceiling of the last finished checkpoint: every generation that has been given lies below it. It never falls, and so it says
    /// how old a journal is, though a checkpoint with no hand-out and no nack since the one before leaves it as it was. A server that
    /// keeps it apart from the journal, durably, once a checkpoint is made and before the next claim, hands it to the next
    /// [restart](Consumer::restart_at_least).
    ///
    /// # Errors
    /// [`UnknownWorker`](Refusal::UnknownWorker) (38) and [`NotPermitted`](Refusal::NotPermitted) (39).
    pub fn ceiling(&self, worker: WorkerId) -> Result<Generation, Refusal> {
        // The library has no such question: any other tells whether the worker may look.
        self.look_up(worker, Look::Committed, 0)?;
        Ok(self.own_ceiling())
    }

    // The same for the crate's own chores, which are no worker's.
    pub(crate) fn own_ceiling(&self) -> Generation {
        Generation::new(self.machine.ceiling())
    }
}

impl<S> fmt::Debug for Consumer<S> {
    fn fmt(&self, f: &mut fmt::Formatter<'_>) -> fmt::Result {
        write!(f, "Consumer on {:?}", self.writer)
    }
}

/// A checkpoint that is being written. While it is out there is no consumer to call: only its steps, or a restart.
#[must_use = "a checkpoint counts once its last step is made"]
pub struct Writing<S = JournalFile> {
    machine: Machine,
    writer: Writer<S>,
    writes_left: usize,
}

/// What a step made, and who can be called next.
#[must_use = "what comes next is in it"]
pub enum Step<S = JournalFile> {
    /// A block that isn't the last.
    Wrote {
        /// The block, from 0.
        block: usize,
        /// What writes the next.
        writing: Writing<S>,
    },
    /// The last block, the header's: the checkpoint counts from now on.
    Finished {
        /// The block, from 0.
        block: usize,
        /// The consumer again, with generations up to a new ceiling.
        consumer: Consumer<S>,
    },
}

impl<S> fmt::Debug for Step<S> {
    fn fmt(&self, f: &mut fmt::Formatter<'_>) -> fmt::Result {
        match self {
            Step::Wrote { block, writing } => write!(f, "Wrote block {block}, {writing:?}"),
            Step::Finished { block, consumer } => {
                write!(f, "Finished with block {block}, {consumer:?}")
            }
        }
    }
}

impl<S: Storage> Writing<S> {
    /// Makes the next block write, and no other. After the last block before the header, and after the header, what was written is made
    /// durable before the answer; the blocks before need not be.
    ///
    /// # Errors
    /// An error of the disk, after which only a restart is left: [`Failed`] says how.
    pub fn step(self) -> Result<Step<S>, Failed<S>> {
        let (wrote, mut writing) = self.write_next()?;
        if wrote.sync {
            writing.writer = writing.writer.sync()?;
        }
        let block = wrote.block;
        Ok(if wrote.last {
            let consumer = writing.finished();
            Step::Finished { block, consumer }
        } else {
            Step::Wrote { block, writing }
        })
    }

    // Makes the next block write, and not the sync that may be due after it.
    fn write_next(self) -> Result<(Wrote, Writing<S>), Failed<S>> {
        let Writing {
            mut machine,
            writer,
            writes_left,
        } = self;
        let written = machine.step(writer.len(), |wrote, bytes| {
            assert!(
                !wrote.last || writer.is_durable(),
                "a sync comes before the header"
            );
            Ok((wrote, writer.write(wrote.block, bytes)?))
        });
        let (wrote, writer) = written?;
        let writes_left = writes_left - 1;
        let writing = Writing {
            machine,
            writer,
            writes_left,
        };
        Ok((wrote, writing))
    }

    /// Writes every block before the header. None is durable yet.
    pub(crate) fn write_bodies(mut self) -> Result<Writing<S>, Failed<S>> {
        loop {
            let (wrote, writing) = self.write_next()?;
            if wrote.sync {
                return Ok(writing);
            }
            self = writing;
        }
    }

    /// Writes the header, once all before it is durable.
    pub(crate) fn write_header(self) -> Result<Writing<S>, Failed<S>> {
        let (wrote, writing) = self.write_next()?;
        assert!(wrote.last, "the header comes after the first sync");
        Ok(writing)
    }

    /// Makes durable what was written, unless a sync of one of these did it; and whether it took a sync of its own.
    pub(crate) fn sync_after<'a>(
        self,
        synced: impl Iterator<Item = &'a Writing<S>>,
    ) -> (Result<Writing<S>, Failed<S>>, bool)
    where
        S: 'a,
    {
        let storages = synced.map(|writing| &writing.writer.storage);
        let (writer, by_itself) = self.writer.sync_after(storages);
        let (machine, writes_left) = (self.machine, self.writes_left);
        let writing = |writer| Writing {
            machine,
            writer,
            writes_left,
        };
        (writer.map(writing), by_itself)
    }

    /// Gives the checkpoint up, and the state with it: only a restart is left, from the checkpoint before. What was written of it is made
    /// durable first, and the journal is read then, so that a restart reads what the disk has.
    ///
    /// # Errors
    /// An error of the disk: [`Failed`] says how a restart is made then.
    pub fn into_journal(self) -> Result<Journal<S>, Failed<S>> {
        self.writer.sync()?.read()
    }

    /// Every step that is left.
    ///
    /// # Errors
    /// An error of the disk, after which only a restart is left: [`Failed`] says how.
    pub fn finish(mut self) -> Result<Consumer<S>, Failed<S>> {
        loop {
            match self.step()? {
                Step::Wrote { writing, .. } => self = writing,
                Step::Finished { consumer, .. } => return Ok(consumer),
            }
        }
    }
}

impl<S> Writing<S> {
    /// The consumer again, whose header is durable.
    pub(crate) fn finished(self) -> Consumer<S> {
        Consumer {
            machine: self.machine,
            writer: self.writer,
        }
    }

    /// How many block writes are to come, those of zeros among them.
    #[must_use]
    pub fn writes_left(&self) -> usize {
        self.writes_left
    }
}

impl<S> fmt::Debug for Writing<S> {
    fn fmt(&self, f: &mut fmt::Formatter<'_>) -> fmt::Result {
        write!(
            f,
            "Writing on {:?}, {} writes to come",
            self.writer, self.writes_left
        )
    }
}
