//! A consumer that several threads share, which makes its checkpoints, keeps its ceiling and restarts after an error of the disk by itself.

use std::error::Error;
use std::fmt;
use std::fs;
use std::io;
use std::mem;
use std::path::Path;
use std::sync::{Arc, Mutex, MutexGuard, PoisonError};

use crate::abi::{check_library, WrongLibrary};
use crate::ceiling::{CeilingError, CeilingFile};
use crate::configuration::Configuration;
use crate::consumer::Consumer;
use crate::errors::{BeginCause, CheckpointError, JournalError, RestartAtLeastError};
use crate::file::JournalFile;
use crate::journal::{Failed, Journal, NewJournal};
use crate::refusal::Refusal;
use crate::remedy::Remedy;
use crate::storage::{Area, Storage};
use crate::types::{Generation, HandOut, LeaseToken, Offset};
use crate::workers::WorkerId;

/// A [`Consumer`] for all threads of a server, with what every server does around one. Clones are the same consumer, and every call takes
/// `&self`.
///
/// - It opens the journal and restarts by the [last ceiling](CeilingFile) that was seen, or refuses.
/// - It makes a checkpoint where one is due, in the name of the first worker who may, and makes the new ceiling durable before anything
///   is handed out under it. So no call of it is ever refused with [`CheckpointDue`](Refusal::CheckpointDue) (26).
///   [`checkpoint`](SharedConsumer::checkpoint) makes one at any time, before a worker is told that its result lasts, say.
/// - After an error of the disk it writes what may be lost once more, restarts from the journal, and says so:
///   [`SharedError::Restarted`]. Where that fails too, each further call tries it again ([`SharedError::Disk`]).
///
/// ```
/// use ironbus_delivery_state::{CeilingFile, Configuration, HandOut, NewJournal, Offset, SharedConsumer, SharedError, WorkerId};
/// # let folder = std::env::temp_dir().join(format!("ironbus-doc-shared-{}", std::process::id()));
/// # let _ = std::fs::remove_dir_all(&folder);
/// # std::fs::create_dir(&folder)?;
/// # let (journal, seen) = (folder.join("recipes.journal"), folder.join("recipes.seen"));
/// # CeilingFile::new(&seen).begin(&Configuration::default())?;
/// # drop(NewJournal::create(&journal, 18)?);
///
/// // Both files were created once, by a command of its own.
/// let shared = SharedConsumer::open(&journal, &seen, &Configuration::default())?;
/// std::thread::scope(|scope| {
///     for first in [0, 10] {
///         let shared = shared.clone();
///         scope.spawn(move || work(&shared, first..first + 10).unwrap());
///     }
/// });
/// shared.checkpoint()?;                                          // what was settled lasts
/// assert_eq!(shared.look(|consumer| consumer.committed(WORKER))?, Offset::new(20));
///
/// const WORKER: WorkerId = WorkerId::new(0);
///
/// fn work(shared: &SharedConsumer, jobs: std::ops::Range<u64>) -> Result<(), SharedError> {
///     for offset in jobs.map(Offset::new) {
///         match shared.claim(WORKER, offset, 0) {
///             Ok(HandOut::Deliver { token, .. }) => shared.ack(WORKER, token)?,
///             Ok(HandOut::DeadLetter { token, .. }) => shared.term(WORKER, token)?,
///             // Every token from before is refused, and what wasn't checkpointed is open again. The job is claimed another time.
///             Err(SharedError::Restarted(error)) => eprintln!("{error}"),
///             Err(error) => return Err(error),
///         }
///     }
///     Ok(())
/// }
/// # std::fs::remove_dir_all(&folder)?;
/// # Ok::<(), Box<dyn std::error::Error>>(())
/// ```
///
/// # What a restart means to workers
///
/// Only the call whose checkpoint failed is answered [`SharedError::Restarted`]. Any other worker learns it by its next call: its token from
/// before is refused ([`Fenced`](Refusal::Fenced), 24), and it drops its result, as after any restart.
/// [`restarts`](SharedConsumer::restarts) counts them.
///
/// # From async code
///
/// A call blocks: for the lock, and where it makes a checkpoint for two syncs, which take milliseconds on most disks. So make it on a thread
/// that may block. No guard is ever handed out, so that no lock is held over an `await`.
///
/// ```ignore
/// let shared = shared.clone();
/// let hand_out = tokio::task::spawn_blocking(move || shared.claim(worker, offset, now)).await??;
/// ```
///
/// A call that was begun isn't undone where the task that waits for it is cancelled: just its answer is lost. After a claim the job is in
/// flight under a token that nobody has, until its lease runs out; then it can be claimed again, and one hand-out more is counted. A worker
/// that was cancelled while it worked is the same. An ack, term, nack, commit or checkpoint is made, though nobody hears of it: a
/// second ack of the same token is refused (24), and [`Consumer::view`] says whether the job is settled.
///
/// # Panics
///
/// Nothing here panics, unless the library answers what it is proved not to, or a [`Storage`] of one's own does. Where one does in the midst
/// of a call, the state that the call was changing is dropped, with the lock on the journal, and every further call answers
/// [`SharedError::Lost`]: open the journal anew. A panic in what [`look`](SharedConsumer::look) is given harms nothing, since a question
/// changes nothing.
#[must_use = "a consumer that is dropped loses what was not checkpointed"]
pub struct SharedConsumer<S = JournalFile> {
    // A call that panics poisons the mutex. That is no reason to refuse the next: the state says by itself whether it is whole.
    place: Arc<Mutex<Place<S>>>,
}

/// The consumer, and what is kept around it.
struct Place<S> {
    configuration: Configuration,
    // who makes checkpoints
    worker: WorkerId,
    ceiling_file: Option<CeilingFile>,
    // the last ceiling that is durable in that file
    kept: Generation,
    restarts: u64,
    // the blocks that could not be read when the journal was last read
    unreadable: Vec<usize>,
    state: State<S>,
}

enum State<S> {
    Running(Consumer<S>),
    // The disk failed twice. It has the lock, and the blocks that may be lost. The ceiling is the last one that the consumer had.
    Failed(Failed<S>, Generation),
    // What is on the disk now was refused. It has the lock.
    NotRestarted(RestartAtLeastError<S>),
    // A call is going on, or has panicked.
    Lost,
}

impl SharedConsumer {
    /// Creates a journal of so many [blocks](NewJournal::create), and the file of its last ceiling: for a command of its own, once in a
    /// consumer's life, as [`NewJournal`] says. Where another server had the consumer before, the first generation is above all that it
    /// gave ([`Generation::from_clock`]); otherwise it is 0.
    ///
    /// # Errors
    /// [`SharedError::Ceiling`], where something was seen before among it, [`SharedError::Journal`] and [`SharedError::Library`]. If the
    /// journal wasn't created, no file of a ceiling is left that wasn't there before: it would say that nothing was seen. If the journal is
    /// there and just the first generation couldn't be kept, the journal can be opened: 0 is kept of it.
    pub fn create(
        journal: impl AsRef<Path>,
        ceiling: Option<CeilingFile>,
        blocks: usize,
        first: Generation,
        configuration: &Configuration,
    ) -> Result<(), SharedError> {
        check_library()?;
        let mut begun = None;
        if let Some(file) = &ceiling {
            let was_there = file.path().exists();
            file.begin(configuration)?;
            begun = (!was_there).then_some(file);
        }
        let created = match first.get() {
            0 => NewJournal::create(journal, blocks).map(drop),
            _ => NewJournal::create_from(journal, blocks, first).map(drop),
        };
        if let (Err(_), Some(file)) = (&created, begun) {
            let _ = fs::remove_file(file.path());
        }
        created?;
        match ceiling {
            Some(file) if first.get() > 0 => Ok(file.keep(first, configuration)?),
            _ => Ok(()),
        }
    }

    /// Opens a journal and restarts from it, by the last ceiling that was seen of it and under the same limit and threshold. Neither file is
    /// created: that is a command of its own, [`create`](SharedConsumer::create). Nothing is written yet.
    ///
    /// # Errors
    /// [`SharedError::Journal`], and those of [`on`](SharedConsumer::on).
    pub fn open(
        journal: impl AsRef<Path>,
        ceiling: impl AsRef<Path>,
        configuration: &Configuration,
    ) -> Result<SharedConsumer, SharedError> {
        check_library()?;
        let journal = Journal::open(journal)?;
        let ceiling = CeilingFile::new(ceiling.as_ref());
        SharedConsumer::on(journal, Some(ceiling), configuration)
    }
}

impl<S: Storage> SharedConsumer<S> {
    /// The same on a journal that was opened. Without a file for the ceiling nothing tells whether the journal is older than it was; within
    /// this process a restart still goes by the last ceiling.
    ///
    /// # Errors
    /// [`SharedError::Ceiling`], [`SharedError::NotRestarted`] with what a [restart](Consumer::restart) refuses, or with
    /// [`NotPermitted`](Refusal::NotPermitted) (39) where no worker may make a checkpoint, [`SharedError::Older`], and
    /// [`SharedError::Library`].
    pub fn on(
        journal: Journal<S>,
        ceiling: Option<CeilingFile>,
        configuration: &Configuration,
    ) -> Result<SharedConsumer<S>, SharedError> {
        check_library()?;
        let seen = match &ceiling {
            Some(file) => file.read(configuration)?,
            None => Generation::default(),
        };
        let worker = configuration
            .who_checkpoints()
            .ok_or(SharedError::NotRestarted(Refusal::NotPermitted))?;
        let unreadable = journal.unreadable().to_vec();
        let consumer = Consumer::restart_at_least(configuration, journal, seen)
            .map_err(|error| SharedError::of_restart(&error))?;
        let place = Place {
            configuration: configuration.clone(),
            worker,
            ceiling_file: ceiling,
            kept: seen,
            restarts: 0,
            unreadable,
            state: State::Running(consumer),
        };
        Ok(SharedConsumer {
            place: Arc::new(Mutex::new(place)),
        })
    }

    /// The blocks that could not be read when the journal was opened, or read again after an error of the disk, rising:
    /// [`Journal::unreadable`].
    #[must_use]
    pub fn unreadable(&self) -> Vec<usize> {
        self.lock().unreadable.clone()
    }

    /// Hands an offset out: [`Consumer::claim`], after a checkpoint where one is due.
    ///
    /// # Errors
    /// [`SharedError::Refused`], as of [`Consumer::claim`] but for 26; [`SharedError::Ceiling`]; and those of
    /// [`checkpoint`](SharedConsumer::checkpoint). Nothing was handed out.
    pub fn claim(
        &self,
        worker: WorkerId,
        offset: Offset,
        now: u64,
    ) -> Result<HandOut, SharedError> {
        self.lock()
            .give(|consumer| consumer.claim(worker, offset, now))
    }

    /// Done: [`Consumer::ack`]. It lasts from the next [checkpoint](SharedConsumer::checkpoint) on.
    ///
    /// # Errors
    /// [`SharedError::Refused`], as of [`Consumer::ack`]; and where there is no consumer any more, as for
    /// [`look`](SharedConsumer::look).
    pub fn ack(&self, worker: WorkerId, token: LeaseToken) -> Result<(), SharedError> {
        self.lock()
            .call(&mut |consumer| consumer.ack(worker, token))
    }

    /// Given up for good: [`Consumer::term`].
    ///
    /// # Errors
    /// As for [`ack`](SharedConsumer::ack).
    pub fn term(&self, worker: WorkerId, token: LeaseToken) -> Result<(), SharedError> {
        self.lock()
            .call(&mut |consumer| consumer.term(worker, token))
    }

    /// Failed: [`Consumer::nack`], after a checkpoint where one is due. It answers from when on the offset can be claimed again.
    ///
    /// # Errors
    /// [`SharedError::Refused`], as of [`Consumer::nack`] but for 26; [`SharedError::Ceiling`]; and those of
    /// [`checkpoint`](SharedConsumer::checkpoint).
    pub fn nack(
        &self,
        worker: WorkerId,
        token: LeaseToken,
        now: u64,
        delay_nanos: Option<u64>,
    ) -> Result<u64, SharedError> {
        self.lock()
            .give(|consumer| consumer.nack(worker, token, now, delay_nanos))
    }

    /// Still being worked on: [`Consumer::progress`]. It answers the new deadline.
    ///
    /// # Errors
    /// As for [`ack`](SharedConsumer::ack).
    pub fn progress(
        &self,
        worker: WorkerId,
        token: LeaseToken,
        now: u64,
    ) -> Result<u64, SharedError> {
        self.lock()
            .call(&mut |consumer| consumer.progress(worker, token, now))
    }

    /// Settles every offset below a bound: [`Consumer::commit`].
    ///
    /// # Errors
    /// As for [`ack`](SharedConsumer::ack).
    pub fn commit(&self, worker: WorkerId, up_to: Offset) -> Result<bool, SharedError> {
        self.lock()
            .call(&mut |consumer| consumer.commit(worker, up_to))
    }

    /// Makes a checkpoint, and its ceiling durable. Everything that was settled before lasts.
    ///
    /// # Errors
    /// - [`SharedError::Displaced`]: the journal was deleted, moved or cut short. Nothing has changed.
    /// - [`SharedError::Restarted`]: the disk failed. What was called since the last checkpoint counts if the header was among what was
    ///   written once more, and otherwise doesn't.
    /// - [`SharedError::Disk`]: it failed twice.
    /// - [`SharedError::Ceiling`]: the checkpoint is made, and its ceiling couldn't be kept. Nothing is handed out before it is; the next
    ///   claim tries it again.
    /// - [`SharedError::Refused`] with [`JournalFull`](Refusal::JournalFull) (31); and where there is no consumer any more, as for
    ///   [`look`](SharedConsumer::look).
    pub fn checkpoint(&self) -> Result<(), SharedError> {
        self.lock().checkpoint()
    }

    /// Asks the consumer: any question, or several at one moment. The lock is held meanwhile, so no other call of this consumer may be made
    /// in it: it would wait for itself.
    ///
    /// ```
    /// # use ironbus_delivery_state::{Offset, SharedConsumer, SharedError, WorkerId};
    /// fn first_open(shared: &SharedConsumer, worker: WorkerId) -> Result<Offset, SharedError> {
    ///     shared.look(|consumer| consumer.nearest_open(worker, consumer.committed(worker)?))
    /// }
    /// ```
    ///
    /// # Errors
    /// [`SharedError::Refused`], as the question. Where the disk failed twice, this tries to restart and answers
    /// [`SharedError::Restarted`] or [`SharedError::Disk`]; where a restart was refused, [`SharedError::NotRestarted`] or
    /// [`SharedError::Older`]; after a panic [`SharedError::Lost`].
    pub fn look<R>(
        &self,
        question: impl FnOnce(&Consumer<S>) -> Result<R, Refusal>,
    ) -> Result<R, SharedError> {
        let mut place = self.lock();
        if let State::Running(consumer) = &place.state {
            return Ok(question(consumer)?);
        }
        Err(match place.take() {
            Err(error) => error,
            Ok(_) => unreachable!("it isn't running"),
        })
    }

    /// What the journal has: [`Consumer::journal_bytes`], for a backup of one moment while the server runs.
    ///
    /// # Errors
    /// [`SharedError::Journal`] with what the disk says; and where there is no consumer any more, as for [`look`](SharedConsumer::look).
    pub fn journal_bytes(&self) -> Result<Area, SharedError> {
        let mut place = self.lock();
        let mut consumer = place.take()?;
        let read = consumer.journal_bytes();
        place.state = State::Running(consumer);
        Ok(read.map_err(JournalError::Io)?)
    }
}

impl<S> SharedConsumer<S> {
    /// How often the consumer was restarted since it was opened.
    #[must_use]
    pub fn restarts(&self) -> u64 {
        self.lock().restarts
    }

    fn lock(&self) -> MutexGuard<'_, Place<S>> {
        self.place.lock().unwrap_or_else(PoisonError::into_inner)
    }
}

impl<S: Storage> Place<S> {
    // Takes the consumer out, until it is put back: where a call panics in between, it is gone. Where the disk had failed it is tried again.
    fn take(&mut self) -> Result<Consumer<S>, SharedError> {
        match mem::replace(&mut self.state, State::Lost) {
            State::Running(consumer) => Ok(consumer),
            State::Failed(failed, seen) => Err(self.recover(failed, seen)),
            State::NotRestarted(error) => {
                let why = SharedError::of_restart(&error);
                self.state = State::NotRestarted(error);
                Err(why)
            }
            State::Lost => Err(SharedError::Lost),
        }
    }

    fn call<R>(
        &mut self,
        call: &mut impl FnMut(&mut Consumer<S>) -> Result<R, Refusal>,
    ) -> Result<R, SharedError> {
        let mut consumer = self.take()?;
        let answer = call(&mut consumer);
        self.state = State::Running(consumer);
        Ok(answer?)
    }

    // A call that takes a generation: the ceiling above it is durable before.
    fn give<R>(
        &mut self,
        mut call: impl FnMut(&mut Consumer<S>) -> Result<R, Refusal>,
    ) -> Result<R, SharedError> {
        self.keep()?;
        match self.call(&mut call) {
            Err(SharedError::Refused(Refusal::CheckpointDue)) => {
                self.checkpoint()?;
                self.call(&mut call)
            }
            answer => answer,
        }
    }

    fn checkpoint(&mut self) -> Result<(), SharedError> {
        let consumer = self.take()?;
        let seen = consumer.own_ceiling();
        match consumer.checkpoint(self.worker) {
            Ok(consumer) => self.state = State::Running(consumer),
            Err(CheckpointError::Refused(error)) => {
                let (cause, consumer) = error.into_parts();
                self.state = State::Running(consumer);
                return Err(match cause {
                    BeginCause::Refused(refusal) => SharedError::Refused(refusal),
                    BeginCause::Displaced(error) => SharedError::Displaced(error),
                });
            }
            Err(CheckpointError::Failed(failed)) => return Err(self.recover(failed, seen)),
        }
        self.keep()
    }

    fn keep(&mut self) -> Result<(), SharedError> {
        if let (State::Running(consumer), Some(file)) = (&self.state, &self.ceiling_file) {
            let ceiling = consumer.own_ceiling();
            if ceiling > self.kept {
                file.keep(ceiling, &self.configuration)?;
                self.kept = ceiling;
            }
        }
        Ok(())
    }

    // What the disk may have forgotten is written again before a restart reads it. The state is lost in any case.
    fn recover(&mut self, failed: Failed<S>, seen: Generation) -> SharedError {
        let error = DiskError::of(&failed);
        let journal = match failed.reopen() {
            Ok(journal) => journal,
            Err(again) => {
                let error = DiskError::of(&again);
                self.state = State::Failed(again, seen);
                return SharedError::Disk(error);
            }
        };
        self.unreadable = journal.unreadable().to_vec();
        match Consumer::restart_at_least(&self.configuration, journal, seen) {
            Ok(consumer) => {
                self.state = State::Running(consumer);
                self.restarts += 1;
                SharedError::Restarted(error)
            }
            Err(error) => {
                let why = SharedError::of_restart(&error);
                self.state = State::NotRestarted(error);
                why
            }
        }
    }
}

impl<S> Clone for SharedConsumer<S> {
    fn clone(&self) -> SharedConsumer<S> {
        SharedConsumer {
            place: Arc::clone(&self.place),
        }
    }
}

impl<S> fmt::Debug for SharedConsumer<S> {
    fn fmt(&self, f: &mut fmt::Formatter<'_>) -> fmt::Result {
        // As a mutex does: it doesn't wait.
        let place = match self.place.try_lock() {
            Ok(place) => place,
            Err(std::sync::TryLockError::Poisoned(error)) => error.into_inner(),
            Err(std::sync::TryLockError::WouldBlock) => {
                return f.write_str("SharedConsumer, in a call")
            }
        };
        match &place.state {
            State::Running(consumer) => write!(f, "Shared{consumer:?}"),
            State::Failed(failed, _) => write!(f, "SharedConsumer, {failed:?}"),
            State::NotRestarted(error) => write!(f, "SharedConsumer, {error:?}"),
            State::Lost => f.write_str("SharedConsumer, lost"),
        }
    }
}

/// What the disk said, and what it was to do.
#[derive(Debug)]
pub struct DiskError {
    says: String,
    error: io::Error,
}

impl DiskError {
    fn of<S>(failed: &Failed<S>) -> DiskError {
        let error = failed.error();
        DiskError {
            says: failed.to_string(),
            error: match error.raw_os_error() {
                Some(number) => io::Error::from_raw_os_error(number),
                None => io::Error::new(error.kind(), error.to_string()),
            },
        }
    }

    /// What the disk said.
    #[must_use]
    pub fn error(&self) -> &io::Error {
        &self.error
    }
}

impl fmt::Display for DiskError {
    fn fmt(&self, f: &mut fmt::Formatter<'_>) -> fmt::Result {
        f.write_str(&self.says)
    }
}

impl Error for DiskError {
    fn source(&self) -> Option<&(dyn Error + 'static)> {
        Some(&self.error)
    }
}

/// Why a call of a [shared consumer](SharedConsumer) was not made, or it couldn't be opened. [`remedy`](SharedError::remedy) says what
/// to do.
#[derive(Debug)]
#[non_exhaustive]
pub enum SharedError {
    /// The call was refused, and has changed nothing.
    Refused(Refusal),
    /// The disk failed in a checkpoint. What may be lost was written once more, and the consumer was restarted from the journal: every
    /// token from before is refused ([`Fenced`](Refusal::Fenced), 24), and calls go on. This one was not made.
    Restarted(DiskError),
    /// The disk failed, and failed again when what may be lost was written once more. This consumer holds the journal's lock and what
    /// is to be written; each further call tries it again, and is answered [`Restarted`](SharedError::Restarted) once it succeeds.
    /// Where this process ends before that, restart the machine before anything opens the journal: [`Failed`] says why.
    Disk(DiskError),
    /// The journal was deleted, moved or cut short under the server, or the system can't tell: the cause is a
    /// [`Displaced`](crate::Displaced), or what the system says. The checkpoint was not begun, and nothing has changed: acks and questions
    /// go on, and so does all else once the file is back.
    Displaced(io::Error),
    /// The last ceiling can't be read, or the new one can't be kept. Nothing was handed out.
    Ceiling(CeilingError),
    /// There is no journal to open, or it can't be read.
    Journal(JournalError),
    /// A restart was refused.
    NotRestarted(Refusal),
    /// The journal is older than was seen of it.
    Older {
        /// The ceiling that the journal has.
        found: Generation,
        /// The ceiling that was seen.
        seen: Generation,
    },
    /// The linked library isn't the crate's own.
    Library(WrongLibrary),
    /// A call panicked, and the state went with it. Open the journal anew.
    Lost,
}

impl SharedError {
    fn of_restart<S>(error: &RestartAtLeastError<S>) -> SharedError {
        match error {
            RestartAtLeastError::Refused(error) => SharedError::NotRestarted(error.refusal()),
            RestartAtLeastError::Older(error) => SharedError::Older {
                found: error.found(),
                seen: error.seen(),
            },
        }
    }

    /// Why, where the call was refused.
    #[must_use]
    pub fn refusal(&self) -> Option<Refusal> {
        match self {
            SharedError::Refused(refusal) => Some(*refusal),
            _ => None,
        }
    }

    /// What it says with all that caused it, and on a second line what to do.
    #[must_use]
    pub fn report(&self) -> String {
        let mut says = self.to_string();
        let mut cause = self.source();
        while let Some(error) = cause {
            says = format!("{says}: {error}");
            cause = error.source();
        }
        format!("{says}\nto do: {}", self.remedy())
    }

    /// What to do about it.
    #[must_use]
    pub fn remedy(&self) -> Remedy {
        match self {
            SharedError::Refused(_) | SharedError::Library(_) | SharedError::Lost => {
                Remedy::MendProgram
            }
            SharedError::Restarted(_) => Remedy::SeeToDisk,
            SharedError::Disk(_) => Remedy::RestartMachine,
            SharedError::Displaced(error) => Remedy::of_displaced(error),
            SharedError::Ceiling(error) => error.remedy(),
            SharedError::Journal(error) => error.remedy(),
            // 4 to 19 are of the journal, the others of the configuration.
            SharedError::NotRestarted(refusal) if !(4..=19).contains(&refusal.number()) => {
                Remedy::MendProgram
            }
            SharedError::NotRestarted(_) | SharedError::Older { .. } => Remedy::Look,
        }
    }
}

impl fmt::Display for SharedError {
    fn fmt(&self, f: &mut fmt::Formatter<'_>) -> fmt::Result {
        match self {
            SharedError::Refused(refusal) => refusal.fmt(f),
            SharedError::Restarted(_) => {
                f.write_str("the disk failed, and the consumer was restarted")
            }
            SharedError::Disk(_) => f.write_str("the disk failed twice"),
            SharedError::Displaced(_) => f.write_str("the checkpoint was not begun"),
            SharedError::Ceiling(error) => error.fmt(f),
            SharedError::Journal(error) => error.fmt(f),
            SharedError::NotRestarted(_) => f.write_str("the consumer was not restarted"),
            SharedError::Older { found, seen } => write!(
                f,
                "the journal is older than was seen of it: its ceiling is {found}, and {seen} was seen. A restart would give generations \
                 a second time"
            ),
            SharedError::Library(error) => error.fmt(f),
            SharedError::Lost => f.write_str("a call panicked, and the consumer is lost"),
        }
    }
}

// A refusal, and an error of either file or of the library, is the one that it has, and adds no level of its own.
impl Error for SharedError {
    fn source(&self) -> Option<&(dyn Error + 'static)> {
        match self {
            SharedError::Refused(error) => error.source(),
            SharedError::Restarted(error) | SharedError::Disk(error) => Some(error),
            SharedError::Displaced(error) => Some(error),
            SharedError::Ceiling(error) => error.source(),
            SharedError::Journal(error) => error.source(),
            SharedError::NotRestarted(refusal) => Some(refusal),
            SharedError::Library(error) => error.source(),
            SharedError::Older { .. } | SharedError::Lost => None,
        }
    }
}

impl From<Refusal> for SharedError {
    fn from(refusal: Refusal) -> SharedError {
        SharedError::Refused(refusal)
    }
}

impl From<WrongLibrary> for SharedError {
    fn from(error: WrongLibrary) -> SharedError {
        SharedError::Library(error)
    }
}

impl From<JournalError> for SharedError {
    fn from(error: JournalError) -> SharedError {
        SharedError::Journal(error)
    }
}

impl From<CeilingError> for SharedError {
    fn from(error: CeilingError) -> SharedError {
        SharedError::Ceiling(error)
    }
}
