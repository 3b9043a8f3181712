//! Why there is no journal, and what a start, an import, a restart or a checkpoint that was not made gives back.
//!
//! Each says its own level alone: the refusal, or what the disk said, is its `source`.

use std::error::Error;
use std::fmt;
use std::io;
use std::sync::{Mutex, PoisonError};

use crate::consumer::Consumer;
use crate::file::JournalFile;
use crate::form::{FormError, MAX_JOURNALS};
use crate::journal::{Failed, Journal, NewJournal};
use crate::refusal::Refusal;
use crate::storage::{MAX_BLOCKS, MIN_BLOCKS};
use crate::types::Generation;

/// Why a journal can't be had.
#[derive(Debug)]
#[non_exhaustive]
pub enum JournalError {
    /// Another process, or another value here, has it. A process that is being started has, until it runs, all files of the one that
    /// starts it: where a journal is closed and opened again while another thread starts a process, this can come for a moment.
    Locked,
    /// A new journal can't have so many blocks: an even number from 18 to 128.
    BadBlocks(usize),
    /// The path of a new journal doesn't end in the name of a file: it is empty, or ends in `..`.
    NoFileName,
    /// A file can't have so many journals: 1 to 65,535.
    BadJournals(usize),
    /// The file has no journal of this number, counted from 0.
    NoSuchJournal(usize),
    /// The journal of a file of several is free: no consumer was started on it, and none can be restarted from it.
    Free,
    /// The journal of a file of several is unfinished: an import into it, or freeing it, was cut. It can be imported into again, or freed,
    /// and nothing else.
    Unfinished,
    /// The journal of a file of several was given up after an error of the disk, by a [`Failed`] that was dropped without a `reopen` that
    /// succeeded: what was written may not be durable, though it is read back. It can be freed. Otherwise repair or replace the disk, and
    /// restart the machine before anything opens the file.
    Lost,
    /// There is a file of that name, so it can only be opened.
    Exists,
    /// A new journal is to be zeroed, and this one isn't.
    Used,
    /// The file is no journal: its first sector or its length is wrong. Nothing was written to it.
    Form(FormError),
    /// A new journal gets its name by a hard link, so that it takes no other's, and the filesystem has none: FAT, say. Put the journal on
    /// one that has them.
    NoHardLinks(io::Error),
    /// The folder of a new journal can't be synced, so that its name might not outlive a power failure. There is no file of that name.
    Folder(io::Error),
    /// What the disk says, or the system: there is no file of that name, say.
    Io(io::Error),
}

impl fmt::Display for JournalError {
    fn fmt(&self, f: &mut fmt::Formatter<'_>) -> fmt::Result {
        match self {
            JournalError::Locked => f.write_str("the journal is in use"),
            JournalError::BadBlocks(blocks) => write!(
                f,
                "a journal has an even number of blocks, {MIN_BLOCKS} to {MAX_BLOCKS}, and not {blocks}"
            ),
            JournalError::NoFileName => f.write_str("the path doesn't end in the name of a file"),
            JournalError::BadJournals(journals) => {
                write!(f, "a file has 1 to {MAX_JOURNALS} journals, and not {journals}")
            }
            JournalError::NoSuchJournal(number) => {
                write!(f, "the file has no journal {number}")
            }
            JournalError::Free => f.write_str("the journal is free, and there is nothing to restart from"),
            JournalError::Unfinished => f.write_str(
                "the journal is unfinished: import into it again, or free it",
            ),
            JournalError::Lost => f.write_str(
                "the disk failed, and what was written to the journal may not be durable though it is read back",
            ),
            JournalError::Exists => f.write_str("there is a journal of that name"),
            JournalError::Used => f.write_str("the journal was used before"),
            JournalError::Form(_) => f.write_str("the file is no journal"),
            JournalError::NoHardLinks(_) => {
                f.write_str("the filesystem has no hard links, by which a journal gets its name")
            }
            JournalError::Folder(_) => f.write_str("the journal's folder can't be synced"),
            JournalError::Io(_) => f.write_str("the journal can't be read or written"),
        }
    }
}

impl Error for JournalError {
    fn source(&self) -> Option<&(dyn Error + 'static)> {
        match self {
            JournalError::Form(error) => Some(error),
            JournalError::NoHardLinks(error)
            | JournalError::Folder(error)
            | JournalError::Io(error) => Some(error),
            _ => None,
        }
    }
}

impl From<io::Error> for JournalError {
    fn from(error: io::Error) -> JournalError {
        JournalError::Io(error)
    }
}

impl From<FormError> for JournalError {
    fn from(error: FormError) -> JournalError {
        JournalError::Form(error)
    }
}

/// What became of a journal's file while a server had it. It is found as the next checkpoint [begins](Consumer::begin), and comes as the
/// cause of an [`io::Error`].
///
/// The file is open as long as the consumer lives, and unless it was cut short it still has all that the last checkpoint had
/// ([`Consumer::journal_bytes`]). The consumer has the rest in any case ([`Consumer::export`]): docs/OPERATING.md, "A journal that went away
/// under a server".
#[derive(Clone, Copy, Debug, PartialEq, Eq, Hash)]
#[non_exhaustive]
pub enum Displaced {
    /// It was deleted: it has no name any more.
    Deleted,
    /// There is no file of its name.
    Moved,
    /// Another file has its name.
    Replaced,
    /// It has another length.
    Length {
        /// How many bytes it has.
        bytes: u64,
        /// How many it had.
        wanted: u64,
    },
}

impl fmt::Display for Displaced {
    fn fmt(&self, f: &mut fmt::Formatter<'_>) -> fmt::Result {
        match self {
            Displaced::Deleted => f.write_str("the journal was deleted"),
            Displaced::Moved => f.write_str("the journal was moved: there is no file of its name"),
            Displaced::Replaced => f.write_str("another file has the journal's name"),
            Displaced::Length { bytes, wanted } => {
                write!(f, "the journal has {bytes} bytes, and had {wanted}")
            }
        }
    }
}

impl Error for Displaced {}

impl From<Displaced> for io::Error {
    fn from(displaced: Displaced) -> io::Error {
        io::Error::other(displaced)
    }
}

/// A [start](Consumer::start) that was refused. It has the journal, which is as it was.
pub struct StartError<S = JournalFile> {
    pub(crate) refusal: Refusal,
    pub(crate) journal: NewJournal<S>,
}

impl<S> StartError<S> {
    /// Why.
    #[must_use]
    pub fn refusal(&self) -> Refusal {
        self.refusal
    }

    /// The journal.
    pub fn into_journal(self) -> NewJournal<S> {
        self.journal
    }
}

impl<S> fmt::Debug for StartError<S> {
    fn fmt(&self, f: &mut fmt::Formatter<'_>) -> fmt::Result {
        let mut shown = f.debug_struct("StartError");
        shown.field("refusal", &self.refusal);
        shown.field("journal", &self.journal).finish()
    }
}

impl<S> fmt::Display for StartError<S> {
    fn fmt(&self, f: &mut fmt::Formatter<'_>) -> fmt::Result {
        f.write_str("the consumer was not started")
    }
}

impl<S> Error for StartError<S> {
    fn source(&self) -> Option<&(dyn Error + 'static)> {
        Some(&self.refusal)
    }
}

/// Why an [import](NewJournal::import) was not made. There is no file of that name, or the one that was there.
#[derive(Debug)]
#[non_exhaustive]
pub enum ImportError {
    /// The configuration, the number of blocks or a snapshot was refused. Nothing was written.
    Refused(Refusal),
    /// There is no journal: another has that name, or what the disk said of it.
    Journal(JournalError),
    /// The first checkpoint could not be written: what the disk said.
    Failed(io::Error),
}

impl ImportError {
    /// Why, where it was refused.
    #[must_use]
    pub fn refusal(&self) -> Option<Refusal> {
        match self {
            ImportError::Refused(refusal) => Some(*refusal),
            _ => None,
        }
    }
}

impl From<Refusal> for ImportError {
    fn from(refusal: Refusal) -> ImportError {
        ImportError::Refused(refusal)
    }
}

impl From<JournalError> for ImportError {
    fn from(error: JournalError) -> ImportError {
        ImportError::Journal(error)
    }
}

impl fmt::Display for ImportError {
    fn fmt(&self, f: &mut fmt::Formatter<'_>) -> fmt::Result {
        match self {
            ImportError::Refused(_) => f.write_str("the consumer was not imported"),
            ImportError::Journal(error) => error.fmt(f),
            ImportError::Failed(_) => f.write_str("the first checkpoint could not be written"),
        }
    }
}

// That of a journal is the one that it has, and adds no level of its own.
impl Error for ImportError {
    fn source(&self) -> Option<&(dyn Error + 'static)> {
        match self {
            ImportError::Refused(refusal) => Some(refusal),
            ImportError::Journal(error) => error.source(),
            ImportError::Failed(error) => Some(error),
        }
    }
}

/// A [restart](Consumer::restart) that was refused. It has the journal, which is as it was.
pub struct RestartError<S = JournalFile> {
    pub(crate) refusal: Refusal,
    pub(crate) journal: Journal<S>,
}

impl<S> RestartError<S> {
    /// Why.
    #[must_use]
    pub fn refusal(&self) -> Refusal {
        self.refusal
    }

    /// The journal.
    pub fn into_journal(self) -> Journal<S> {
        self.journal
    }
}

impl<S> fmt::Debug for RestartError<S> {
    fn fmt(&self, f: &mut fmt::Formatter<'_>) -> fmt::Result {
        let mut shown = f.debug_struct("RestartError");
        shown.field("refusal", &self.refusal);
        shown.field("journal", &self.journal).finish()
    }
}

impl<S> fmt::Display for RestartError<S> {
    fn fmt(&self, f: &mut fmt::Formatter<'_>) -> fmt::Result {
        f.write_str("the consumer was not restarted")
    }
}

impl<S> Error for RestartError<S> {
    fn source(&self) -> Option<&(dyn Error + 'static)> {
        Some(&self.refusal)
    }
}

/// A journal that is older than the server has seen it: a [restart](Consumer::restart_at_least) from it would give generations a second
/// time. It has the journal, which is as it was.
pub struct OlderJournal<S = JournalFile> {
    pub(crate) found: Generation,
    pub(crate) seen: Generation,
    pub(crate) journal: Journal<S>,
}

impl<S> OlderJournal<S> {
    /// The ceiling that the journal has.
    #[must_use]
    pub fn found(&self) -> Generation {
        self.found
    }

    /// The ceiling that was asked for.
    #[must_use]
    pub fn seen(&self) -> Generation {
        self.seen
    }

    /// The journal.
    pub fn into_journal(self) -> Journal<S> {
        self.journal
    }
}

impl<S> fmt::Debug for OlderJournal<S> {
    fn fmt(&self, f: &mut fmt::Formatter<'_>) -> fmt::Result {
        let mut shown = f.debug_struct("OlderJournal");
        shown.field("found", &self.found).field("seen", &self.seen);
        shown.field("journal", &self.journal).finish()
    }
}

impl<S> fmt::Display for OlderJournal<S> {
    fn fmt(&self, f: &mut fmt::Formatter<'_>) -> fmt::Result {
        write!(
            f,
            "the journal is older than was seen of it: its ceiling is {}, and {} was seen. A restart would give generations a second time",
            self.found, self.seen
        )
    }
}

impl<S> Error for OlderJournal<S> {}

/// Why a [restart on a journal that is new enough](Consumer::restart_at_least) was not made.
pub enum RestartAtLeastError<S = JournalFile> {
    /// The restart was refused.
    Refused(RestartError<S>),
    /// The journal is older than was asked for.
    Older(OlderJournal<S>),
}

impl<S> RestartAtLeastError<S> {
    /// Why, where the restart was refused.
    #[must_use]
    pub fn refusal(&self) -> Option<Refusal> {
        match self {
            RestartAtLeastError::Refused(error) => Some(error.refusal),
            RestartAtLeastError::Older(_) => None,
        }
    }

    /// The journal.
    pub fn into_journal(self) -> Journal<S> {
        match self {
            RestartAtLeastError::Refused(error) => error.journal,
            RestartAtLeastError::Older(error) => error.journal,
        }
    }
}

impl<S> From<RestartError<S>> for RestartAtLeastError<S> {
    fn from(error: RestartError<S>) -> RestartAtLeastError<S> {
        RestartAtLeastError::Refused(error)
    }
}

impl<S> From<OlderJournal<S>> for RestartAtLeastError<S> {
    fn from(error: OlderJournal<S>) -> RestartAtLeastError<S> {
        RestartAtLeastError::Older(error)
    }
}

impl<S> fmt::Debug for RestartAtLeastError<S> {
    fn fmt(&self, f: &mut fmt::Formatter<'_>) -> fmt::Result {
        match self {
            RestartAtLeastError::Refused(error) => error.fmt(f),
            RestartAtLeastError::Older(error) => error.fmt(f),
        }
    }
}

impl<S> fmt::Display for RestartAtLeastError<S> {
    fn fmt(&self, f: &mut fmt::Formatter<'_>) -> fmt::Result {
        match self {
            RestartAtLeastError::Refused(error) => error.fmt(f),
            RestartAtLeastError::Older(error) => error.fmt(f),
        }
    }
}

// It is the one that it has, and adds no level of its own.
impl<S> Error for RestartAtLeastError<S> {
    fn source(&self) -> Option<&(dyn Error + 'static)> {
        match self {
            RestartAtLeastError::Refused(error) => error.source(),
            RestartAtLeastError::Older(error) => error.source(),
        }
    }
}

/// A checkpoint that was not [begun](Consumer::begin). It has the consumer, which is as it was.
pub struct BeginError<S = JournalFile> {
    cause: BeginCause,
    // never locked: nothing is asked of it here, and so an error can be sent about though a consumer isn't `Sync`
    consumer: Mutex<Consumer<S>>,
}

#[derive(Debug)]
pub(crate) enum BeginCause {
    Refused(Refusal),
    Displaced(io::Error),
}

impl<S> BeginError<S> {
    pub(crate) fn new(cause: BeginCause, consumer: Consumer<S>) -> BeginError<S> {
        BeginError {
            cause,
            consumer: Mutex::new(consumer),
        }
    }

    /// Why, where it was refused.
    #[must_use]
    pub fn refusal(&self) -> Option<Refusal> {
        match self.cause {
            BeginCause::Refused(refusal) => Some(refusal),
            BeginCause::Displaced(_) => None,
        }
    }

    /// The consumer.
    pub fn into_consumer(self) -> Consumer<S> {
        self.into_parts().1
    }

    pub(crate) fn into_parts(self) -> (BeginCause, Consumer<S>) {
        let consumer = self.consumer.into_inner();
        (self.cause, consumer.unwrap_or_else(PoisonError::into_inner))
    }
}

impl<S> fmt::Debug for BeginError<S> {
    fn fmt(&self, f: &mut fmt::Formatter<'_>) -> fmt::Result {
        let mut shown = f.debug_struct("BeginError");
        shown.field("cause", &self.cause).finish_non_exhaustive()
    }
}

impl<S> fmt::Display for BeginError<S> {
    fn fmt(&self, f: &mut fmt::Formatter<'_>) -> fmt::Result {
        f.write_str("the checkpoint was not begun")
    }
}

impl<S> Error for BeginError<S> {
    fn source(&self) -> Option<&(dyn Error + 'static)> {
        Some(match &self.cause {
            BeginCause::Refused(refusal) => refusal,
            BeginCause::Displaced(error) => error,
        })
    }
}

/// Why a [checkpoint](Consumer::checkpoint) was not made.
pub enum CheckpointError<S = JournalFile> {
    /// It was not begun: nothing has changed, and the error has the consumer.
    Refused(BeginError<S>),
    /// The disk failed: only a restart is left. It holds the journal's lock, and [`Failed`] says what dropping it means.
    Failed(Failed<S>),
}

impl<S> CheckpointError<S> {
    /// Why, where it was refused.
    #[must_use]
    pub fn refusal(&self) -> Option<Refusal> {
        match self {
            CheckpointError::Refused(error) => error.refusal(),
            CheckpointError::Failed(_) => None,
        }
    }
}

impl<S> From<BeginError<S>> for CheckpointError<S> {
    fn from(error: BeginError<S>) -> CheckpointError<S> {
        CheckpointError::Refused(error)
    }
}

impl<S> From<Failed<S>> for CheckpointError<S> {
    fn from(failed: Failed<S>) -> CheckpointError<S> {
        CheckpointError::Failed(failed)
    }
}

impl<S> fmt::Debug for CheckpointError<S> {
    fn fmt(&self, f: &mut fmt::Formatter<'_>) -> fmt::Result {
        match self {
            CheckpointError::Refused(error) => error.fmt(f),
            CheckpointError::Failed(failed) => failed.fmt(f),
        }
    }
}

impl<S> fmt::Display for CheckpointError<S> {
    fn fmt(&self, f: &mut fmt::Formatter<'_>) -> fmt::Result {
        match self {
            CheckpointError::Refused(error) => error.fmt(f),
            CheckpointError::Failed(failed) => failed.fmt(f),
        }
    }
}

// Likewise.
impl<S> Error for CheckpointError<S> {
    fn source(&self) -> Option<&(dyn Error + 'static)> {
        match self {
            CheckpointError::Refused(error) => error.source(),
            CheckpointError::Failed(failed) => failed.source(),
        }
    }
}

#[cfg(test)]
mod tests {
    use super::*;

    // Each goes by `?` into whatever a server's functions answer.
    fn is_an_error<E: Error + Send + Sync + 'static>() {}

    #[test]
    fn errors_are_rusts() {
        is_an_error::<Refusal>();
        is_an_error::<crate::HoursError>();
        is_an_error::<JournalError>();
        is_an_error::<FormError>();
        is_an_error::<crate::WrongLibrary>();
        is_an_error::<StartError>();
        is_an_error::<ImportError>();
        is_an_error::<RestartError>();
        is_an_error::<OlderJournal>();
        is_an_error::<RestartAtLeastError>();
        is_an_error::<BeginError>();
        is_an_error::<CheckpointError>();
        is_an_error::<Failed>();
        is_an_error::<Displaced>();
        is_an_error::<crate::CeilingError>();
        is_an_error::<crate::DiskError>();
        is_an_error::<crate::SharedError>();
    }

    fn can_be_sent<T: Send + 'static>() {}

    #[test]
    fn a_consumer_can_be_sent() {
        can_be_sent::<Consumer>();
        can_be_sent::<crate::Writing>();
        can_be_sent::<crate::Step>();
        is_shared::<Mutex<Option<Consumer>>>();
    }

    fn is_shared<T: Send + Sync + 'static>() {}

    // So that `unwrap_err` can be asked of what a call answers.
    fn is_shown<T: fmt::Debug>() {}

    #[test]
    fn answers_are_shown() {
        is_shown::<Consumer>();
        is_shown::<crate::Writing>();
        is_shown::<crate::Step>();
        is_shown::<crate::NewJournal>();
        is_shown::<Journal>();
    }
}
