//! How a consumer begins that another server had before: its journal has its name, or says that it is in use, only with the first checkpoint
//! in it.

use std::path::Path;

use crate::configuration::Configuration;
use crate::consumer::Consumer;
use crate::errors::{BeginCause, CheckpointError, ImportError, JournalError};
use crate::ffi::Machine;
use crate::file::JournalFile;
use crate::form::{Form, Layout, Mark};
use crate::journal::{Failed, Journal, NewJournal};
use crate::journals::{JournalPart, Journals};
use crate::refusal::Refusal;
use crate::snapshot::{CursorSnapshot, Snapshots};
use crate::storage::{Storage, BLOCK};
use crate::types::Generation;
use crate::workers::WorkerId;

impl NewJournal {
    /// Makes a journal of so many blocks, as [`create`](NewJournal::create) does, and a consumer on it that goes on with what another
    /// server had: the settled offsets of its cursor snapshot, and the counts of its attempt snapshot that aren't 0 and whose offsets
    /// aren't settled.
    ///
    /// No generation below the first one is ever given by the consumer, nor by what restarts from its journal: so where the first one is
    /// above all that the old server gave, every token of the old server is refused ([`Fenced`](Refusal::Fenced), 24) from then on. If
    /// nobody knows the greatest one that it gave, take [`Generation::from_clock`]. docs/MOVING.md says how a clinic moves.
    ///
    /// The first checkpoint is made here, and the file has its name only when that is in it and durable: after a power failure at any
    /// moment there is the whole import, or no file of that name. It is made in the name of the first worker who may make one.
    ///
    /// # Errors
    /// [`ImportError::Refused`], before anything is written: [`UnlimitedDeliverNotAllowed`](Refusal::UnlimitedDeliverNotAllowed) (1),
    /// [`TooManySteps`](Refusal::TooManySteps) (2), [`ZeroThreshold`](Refusal::ZeroThreshold) (3),
    /// [`BadHours`](Refusal::BadHours) (33), [`NeverOpen`](Refusal::NeverOpen) (34), [`BadArea`](Refusal::BadArea) (4); then those of
    /// [`CursorSnapshot::decode`] (6 to 12); then those of [`decode_attempt_snapshot`](crate::decode_attempt_snapshot) (13 to 19); and
    /// [`NotPermitted`](Refusal::NotPermitted) (39) if no worker may make a checkpoint. [`ImportError::Journal`], as of a create but for
    /// the number of blocks; [`ImportError::Failed`]. After each of them there is no file of that name, or the one that was there.
    ///
    /// # Panics
    /// If the linked library is another one: see [`check_library`](crate::check_library).
    pub fn import(
        path: impl AsRef<Path>,
        blocks: usize,
        configuration: &Configuration,
        snapshots: &Snapshots,
        first_generation: Generation,
    ) -> Result<Consumer, ImportError> {
        let imported = Imported::new(configuration, blocks, snapshots, first_generation)?;
        let layout = Layout::new(Form::Sectors, blocks)?;
        let (file, unnamed) = JournalFile::make(path.as_ref(), layout)?;
        // What fails on the way is dropped, and so is the file.
        let mut consumer = imported.checkpoint(NewJournal::on(file)?)?;
        consumer.storage().name(unnamed)?;
        Ok(consumer)
    }

    /// Makes a journal for a consumer that begins with nothing settled and nothing counted, but had a server before: as
    /// [`import`](NewJournal::import) of nothing, with the first generation already in it. The server [restarts](Consumer::restart) from
    /// it, with its own configuration, and gives generations from at least the first one on.
    ///
    /// # Errors
    /// As for [`create`](NewJournal::create). Where the disk fails there is no file of that name, or, if it failed once the file was named, the
    /// whole journal, which can be opened.
    ///
    /// # Panics
    /// If the linked library is another one: see [`check_library`](crate::check_library).
    pub fn create_from(
        path: impl AsRef<Path>,
        blocks: usize,
        first_generation: Generation,
    ) -> Result<Journal, JournalError> {
        Layout::new(Form::Sectors, blocks)?;
        let nothing = Snapshots::encode(&CursorSnapshot::default(), &[]);
        let nothing = nothing.expect("nothing is within every limit");
        let imported = NewJournal::import(
            path,
            blocks,
            &Configuration::default(),
            &nothing,
            first_generation,
        );
        match imported {
            Ok(consumer) => Ok(consumer.into_journal().map_err(Failed::into_error)?),
            Err(ImportError::Journal(error)) => Err(error),
            Err(ImportError::Failed(error)) => Err(error.into()),
            Err(ImportError::Refused(refusal)) => {
                unreachable!("an import of nothing was {refusal}")
            }
        }
    }
}

impl Journals {
    /// A consumer on one of these journals that goes on with what another server had, as [`NewJournal::import`] has it in a file of its own.
    /// The journal is free, or [unfinished](crate::JournalState::Unfinished), as an import leaves it that was cut; then it is zeroed first.
    ///
    /// The file says that the journal is unfinished before the first block of it is written, and that it is in use once the first checkpoint
    /// is durable. So after a power failure at any moment there is the whole import, or a journal that is free or unfinished, from which
    /// nobody can restart.
    ///
    /// # Errors
    /// [`ImportError::Refused`], before anything is written, as of [`NewJournal::import`]; then [`ImportError::Journal`] with
    /// [`JournalError::NoSuchJournal`], [`JournalError::Locked`] if somebody has it, [`JournalError::Used`] if it is in use, or what the disk
    /// says; and [`ImportError::Failed`].
    ///
    /// # Panics
    /// If the linked library is another one: see [`check_library`](crate::check_library).
    pub fn import(
        &self,
        number: usize,
        configuration: &Configuration,
        snapshots: &Snapshots,
        first_generation: Generation,
    ) -> Result<Consumer<JournalPart>, ImportError> {
        let imported = Imported::new(configuration, self.blocks(), snapshots, first_generation)?;
        let mut consumer = imported.checkpoint(self.cleared(number)?)?;
        let marked = consumer.storage().mark(Some(Mark::InUse));
        marked.map_err(ImportError::Failed)?;
        Ok(consumer)
    }
}

// What is taken over, and who makes the first checkpoint of it.
struct Imported {
    machine: Machine,
    worker: WorkerId,
}

impl Imported {
    fn new(
        configuration: &Configuration,
        blocks: usize,
        snapshots: &Snapshots,
        first_generation: Generation,
    ) -> Result<Imported, Refusal> {
        let machine = Machine::import(
            configuration,
            BLOCK.saturating_mul(blocks),
            first_generation.get(),
            &snapshots.cursor,
            &snapshots.attempts,
        )?;
        let worker = configuration
            .who_checkpoints()
            .ok_or(Refusal::NotPermitted)?;
        Ok(Imported { machine, worker })
    }

    // The consumer, with its first checkpoint in the journal.
    fn checkpoint<S: Storage>(self, journal: NewJournal<S>) -> Result<Consumer<S>, ImportError> {
        let consumer = Consumer::of(self.machine, journal.journal);
        match consumer.checkpoint(self.worker) {
            Ok(consumer) => Ok(consumer),
            Err(CheckpointError::Refused(error)) => Err(match error.into_parts().0 {
                BeginCause::Refused(refusal) => refusal.into(),
                BeginCause::Displaced(error) => ImportError::Failed(error),
            }),
            Err(CheckpointError::Failed(failed)) => Err(ImportError::Failed(failed.into_error())),
        }
    }
}
