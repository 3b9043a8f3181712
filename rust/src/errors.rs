//! What a start, a restart or a checkpoint that was not made gives back, with why.
//!
//! Each says its own level alone: the refusal, or what the disk said, is its `source`.

use std::error::Error;
use std::fmt;
use std::sync::{Mutex, PoisonError};

use crate::consumer::Consumer;
use crate::journal::{Failed, Journal, JournalFile, NewJournal};
use crate::refusal::Refusal;
use crate::types::Generation;

/// A [start](Consumer::start) that was refused. It has the journal, which is as it was.
pub struct StartError<S = JournalFile> {
    pub(crate) refusal: Refusal,
    pub(crate) journal: NewJournal<S>,
}

impl<S> StartError<S> {
    /// Why.
    #[must_use]
    pub fn refusal(&self) -> Refusal {
        self.refusal
    }

    /// The journal.
    pub fn into_journal(self) -> NewJournal<S> {
        self.journal
    }
}

impl<S> fmt::Debug for StartError<S> {
    fn fmt(&self, f: &mut fmt::Formatter<'_>) -> fmt::Result {
        let mut shown = f.debug_struct("StartError");
        shown.field("refusal", &self.refusal);
        shown.field("journal", &self.journal).finish()
    }
}

impl<S> fmt::Display for StartError<S> {
    fn fmt(&self, f: &mut fmt::Formatter<'_>) -> fmt::Result {
        f.write_str("the consumer was not started")
    }
}

impl<S> Error for StartError<S> {
    fn source(&self) -> Option<&(dyn Error + 'static)> {
        Some(&self.refusal)
    }
}

/// A [restart](Consumer::restart) that was refused. It has the journal, which is as it was.
pub struct RestartError<S = JournalFile> {
    pub(crate) refusal: Refusal,
    pub(crate) journal: Journal<S>,
}

impl<S> RestartError<S> {
    /// Why.
    #[must_use]
    pub fn refusal(&self) -> Refusal {
        self.refusal
    }

    /// The journal.
    pub fn into_journal(self) -> Journal<S> {
        self.journal
    }
}

impl<S> fmt::Debug for RestartError<S> {
    fn fmt(&self, f: &mut fmt::Formatter<'_>) -> fmt::Result {
        let mut shown = f.debug_struct("RestartError");
        shown.field("refusal", &self.refusal);
        shown.field("journal", &self.journal).finish()
    }
}

impl<S> fmt::Display for RestartError<S> {
    fn fmt(&self, f: &mut fmt::Formatter<'_>) -> fmt::Result {
        f.write_str("the consumer was not restarted")
    }
}

impl<S> Error for RestartError<S> {
    fn source(&self) -> Option<&(dyn Error + 'static)> {
        Some(&self.refusal)
    }
}

/// A journal that is older than the server has seen it: a [restart](Consumer::restart_at_least) from it would give generations a second
/// time. It has the journal, which is as it was.
pub struct OlderJournal<S = JournalFile> {
    pub(crate) found: Generation,
    pub(crate) seen: Generation,
    pub(crate) journal: Journal<S>,
}

impl<S> OlderJournal<S> {
    /// The ceiling that the journal has.
    #[must_use]
    pub fn found(&self) -> Generation {
        self.found
    }

    /// The ceiling that was asked for.
    #[must_use]
    pub fn seen(&self) -> Generation {
        self.seen
    }

    /// The journal.
    pub fn into_journal(self) -> Journal<S> {
        self.journal
    }
}

impl<S> fmt::Debug for OlderJournal<S> {
    fn fmt(&self, f: &mut fmt::Formatter<'_>) -> fmt::Result {
        let mut shown = f.debug_struct("OlderJournal");
        shown.field("found", &self.found).field("seen", &self.seen);
        shown.field("journal", &self.journal).finish()
    }
}

impl<S> fmt::Display for OlderJournal<S> {
    fn fmt(&self, f: &mut fmt::Formatter<'_>) -> fmt::Result {
        write!(
            f,
            "the journal is older than was seen of it: its ceiling is {}, and {} was seen. A restart would give generations a second time",
            self.found, self.seen
        )
    }
}

impl<S> Error for OlderJournal<S> {}

/// Why a [restart on a journal that is new enough](Consumer::restart_at_least) was not made.
pub enum RestartAtLeastError<S = JournalFile> {
    /// The restart was refused.
    Refused(RestartError<S>),
    /// The journal is older than was asked for.
    Older(OlderJournal<S>),
}

impl<S> RestartAtLeastError<S> {
    /// Why, where the restart was refused.
    #[must_use]
    pub fn refusal(&self) -> Option<Refusal> {
        match self {
            RestartAtLeastError::Refused(error) => Some(error.refusal),
            RestartAtLeastError::Older(_) => None,
        }
    }

    /// The journal.
    pub fn into_journal(self) -> Journal<S> {
        match self {
            RestartAtLeastError::Refused(error) => error.journal,
            RestartAtLeastError::Older(error) => error.journal,
        }
    }
}

impl<S> From<RestartError<S>> for RestartAtLeastError<S> {
    fn from(error: RestartError<S>) -> RestartAtLeastError<S> {
        RestartAtLeastError::Refused(error)
    }
}

impl<S> From<OlderJournal<S>> for RestartAtLeastError<S> {
    fn from(error: OlderJournal<S>) -> RestartAtLeastError<S> {
        RestartAtLeastError::Older(error)
    }
}

impl<S> fmt::Debug for RestartAtLeastError<S> {
    fn fmt(&self, f: &mut fmt::Formatter<'_>) -> fmt::Result {
        match self {
            RestartAtLeastError::Refused(error) => error.fmt(f),
            RestartAtLeastError::Older(error) => error.fmt(f),
        }
    }
}

impl<S> fmt::Display for RestartAtLeastError<S> {
    fn fmt(&self, f: &mut fmt::Formatter<'_>) -> fmt::Result {
        match self {
            RestartAtLeastError::Refused(error) => error.fmt(f),
            RestartAtLeastError::Older(error) => error.fmt(f),
        }
    }
}

// It is the one that it has, and adds no level of its own.
impl<S> Error for RestartAtLeastError<S> {
    fn source(&self) -> Option<&(dyn Error + 'static)> {
        match self {
            RestartAtLeastError::Refused(error) => error.source(),
            RestartAtLeastError::Older(error) => error.source(),
        }
    }
}

/// A checkpoint that was not [begun](Consumer::begin). It has the consumer, which is as it was.
pub struct BeginError<S = JournalFile> {
    refusal: Refusal,
    // never locked: nothing is asked of it here, and so an error can be sent about though a consumer isn't `Sync`
    consumer: Mutex<Consumer<S>>,
}

impl<S> BeginError<S> {
    pub(crate) fn new(refusal: Refusal, consumer: Consumer<S>) -> BeginError<S> {
        BeginError {
            refusal,
            consumer: Mutex::new(consumer),
        }
    }

    /// Why.
    #[must_use]
    pub fn refusal(&self) -> Refusal {
        self.refusal
    }

    /// The consumer.
    pub fn into_consumer(self) -> Consumer<S> {
        self.consumer
            .into_inner()
            .unwrap_or_else(PoisonError::into_inner)
    }
}

impl<S> fmt::Debug for BeginError<S> {
    fn fmt(&self, f: &mut fmt::Formatter<'_>) -> fmt::Result {
        let mut shown = f.debug_struct("BeginError");
        shown
            .field("refusal", &self.refusal)
            .finish_non_exhaustive()
    }
}

impl<S> fmt::Display for BeginError<S> {
    fn fmt(&self, f: &mut fmt::Formatter<'_>) -> fmt::Result {
        f.write_str("the checkpoint was not begun")
    }
}

impl<S> Error for BeginError<S> {
    fn source(&self) -> Option<&(dyn Error + 'static)> {
        Some(&self.refusal)
    }
}

/// Why a [checkpoint](Consumer::checkpoint) was not made.
pub enum CheckpointError<S = JournalFile> {
    /// It was not begun: nothing has changed, and the error has the consumer.
    Refused(BeginError<S>),
    /// The disk failed: only a restart is left. It holds the journal's lock, and [`Failed`] says what dropping it means.
    Failed(Failed<S>),
}

impl<S> CheckpointError<S> {
    /// Why, where it was not begun.
    #[must_use]
    pub fn refusal(&self) -> Option<Refusal> {
        match self {
            CheckpointError::Refused(error) => Some(error.refusal),
            CheckpointError::Failed(_) => None,
        }
    }
}

impl<S> From<BeginError<S>> for CheckpointError<S> {
    fn from(error: BeginError<S>) -> CheckpointError<S> {
        CheckpointError::Refused(error)
    }
}

impl<S> From<Failed<S>> for CheckpointError<S> {
    fn from(failed: Failed<S>) -> CheckpointError<S> {
        CheckpointError::Failed(failed)
    }
}

impl<S> fmt::Debug for CheckpointError<S> {
    fn fmt(&self, f: &mut fmt::Formatter<'_>) -> fmt::Result {
        match self {
            CheckpointError::Refused(error) => error.fmt(f),
            CheckpointError::Failed(failed) => failed.fmt(f),
        }
    }
}

impl<S> fmt::Display for CheckpointError<S> {
    fn fmt(&self, f: &mut fmt::Formatter<'_>) -> fmt::Result {
        match self {
            CheckpointError::Refused(error) => error.fmt(f),
            CheckpointError::Failed(failed) => failed.fmt(f),
        }
    }
}

// Likewise.
impl<S> Error for CheckpointError<S> {
    fn source(&self) -> Option<&(dyn Error + 'static)> {
        match self {
            CheckpointError::Refused(error) => error.source(),
            CheckpointError::Failed(failed) => failed.source(),
        }
    }
}

#[cfg(test)]
mod tests {
    use super::*;

    // Each goes by `?` into whatever a server's functions answer.
    fn is_an_error<E: Error + Send + Sync + 'static>() {}

    #[test]
    fn errors_are_rusts() {
        is_an_error::<Refusal>();
        is_an_error::<crate::HoursError>();
        is_an_error::<crate::JournalError>();
        is_an_error::<crate::WrongLibrary>();
        is_an_error::<StartError>();
        is_an_error::<RestartError>();
        is_an_error::<OlderJournal>();
        is_an_error::<RestartAtLeastError>();
        is_an_error::<BeginError>();
        is_an_error::<CheckpointError>();
        is_an_error::<Failed>();
    }

    fn can_be_sent<T: Send + 'static>() {}

    #[test]
    fn a_consumer_can_be_sent() {
        can_be_sent::<Consumer>();
        can_be_sent::<crate::Writing>();
        can_be_sent::<crate::Step>();
        is_shared::<Mutex<Option<Consumer>>>();
    }

    fn is_shared<T: Send + Sync + 'static>() {}

    // So that `unwrap_err` can be asked of what a call answers.
    fn is_shown<T: fmt::Debug>() {}

    #[test]
    fn answers_are_shown() {
        is_shown::<Consumer>();
        is_shown::<crate::Writing>();
        is_shown::<crate::Step>();
        is_shown::<crate::NewJournal>();
        is_shown::<Journal>();
    }
}
