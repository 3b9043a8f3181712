//! Journals: the blocks of one consumer, with one owner.
//!
//! [`NewJournal`] is zeroed and durable, and a consumer starts on it. [`Journal`] may have been used, and a consumer can only be
//! restarted from it. Neither can be had while another process, or another value here, has the same file. [`Failed`] is what an error of
//! the disk leaves.

use std::fmt;
use std::io;
use std::path::Path;

use crate::errors::JournalError;
use crate::file::JournalFile;
use crate::form::{Form, Layout};
use crate::storage::{Area, Storage, BLOCK};

/// A zeroed, durable journal: a consumer starts on it.
///
/// # Once in a consumer's life
///
/// A consumer on a new journal gives generations from 0 on. Where the consumer had a journal before, the same generations were given
/// out already, and a worker that still holds one of those tokens can settle a message that was handed out anew: the late
/// acknowledgement that made a failed job count as done. The types can't see it. It comes by any of these:
///
/// - a server before this one, IronBus's own, that gave generations from 0 on too: [`import`](NewJournal::import) what it had, or
///   [`create_from`](NewJournal::create_from) a generation above all of its own;
/// - a journal that was deleted, or moved away, and is created anew;
/// - one that was restored from a backup, whose ceiling is old;
/// - one that was copied, with a server on each copy.
///
/// So create a journal by a command of its own, and never because there is no file at a path: `examples/server.rs` has `init` and
/// `run`. Keep the last [ceiling](crate::Consumer::ceiling) that you saw apart from the journal, and restart by
/// [`restart_at_least`](crate::Consumer::restart_at_least), which refuses a journal that is older. Two copies that are equally new it
/// can't tell apart. Where a journal has to be replaced, stop all workers first, so that no token is out, or create it from a generation
/// above all that were given.
#[must_use = "a journal's lock goes with it"]
pub struct NewJournal<S = JournalFile> {
    pub(crate) journal: Journal<S>,
}

impl NewJournal {
    /// Makes a journal for a consumer that no server had before. **If there was one, this is wrong**: tokens that are still out would be
    /// taken, since generations begin at 0 again. Then [`import`](NewJournal::import) what that server had, or
    /// [`create_from`](NewJournal::create_from) a generation above all that it gave.
    ///
    /// It has so many blocks: an even number, at least [18](crate::MIN_BLOCKS) and at most [128](crate::MAX_BLOCKS). It is
    /// used as two equal halves. A checkpoint takes 2 to 9 blocks of one of them; if there is no room for it, the other half is zeroed,
    /// block by block, and the checkpoint goes there. So a journal is never full. 18 blocks are the right number if how long a
    /// checkpoint takes counts: the longest one writes 18 blocks, and with 128 it writes 73.
    ///
    /// Each block lies in a sector of its own ([`Form::Sectors`]), so that the file has 4,096 bytes for each block, and as many before
    /// the first.
    ///
    /// The file is for its owner alone to read and write (mode 600). Until it is zeroed and durable it has another name, the journal's
    /// with two numbers and `.new` after it; what a create that was stopped on the way left of such a name, the next create of the same
    /// journal removes, and [`tidy`](crate::tidy). What may be somebody's own copy of a journal both leave.
    ///
    /// # Errors
    /// [`JournalError::BadBlocks`], [`JournalError::NoFileName`], [`JournalError::Exists`], [`JournalError::Locked`] if another process is
    /// creating it, [`JournalError::NoHardLinks`] and [`JournalError::Folder`] where a journal can't be, or [`JournalError::Io`] with what the
    /// disk says.
    ///
    /// # Panics
    /// If the linked library is another one: see [`check_library`](crate::check_library).
    pub fn create(path: impl AsRef<Path>, blocks: usize) -> Result<NewJournal, JournalError> {
        NewJournal::create_as(path.as_ref(), Form::Sectors, blocks)
    }

    /// Makes a journal whose blocks lie [side by side](Form::SideBySide), in an eighth of the bytes. It is only for disks that write each
    /// block of 512 bytes by itself, so that a write that is cut off touches no block beside it. Most disks have sectors of 4,096 bytes,
    /// and don't: docs/OPERATING.md, "What is assumed of the disk", says how to see it.
    ///
    /// # Errors
    /// As for [`create`](NewJournal::create).
    pub fn create_side_by_side(
        path: impl AsRef<Path>,
        blocks: usize,
    ) -> Result<NewJournal, JournalError> {
        NewJournal::create_as(path.as_ref(), Form::SideBySide, blocks)
    }

    fn create_as(path: &Path, form: Form, blocks: usize) -> Result<NewJournal, JournalError> {
        let layout = Layout::new(form, blocks)?;
        NewJournal::on(JournalFile::create(path, layout)?)
    }
}

impl<S: Storage> NewJournal<S> {
    /// The journal of a zeroed storage.
    ///
    /// # Errors
    /// [`JournalError::Used`] if a byte isn't zero, or can't be read, or [`JournalError::Io`] with what the disk says.
    pub fn on(storage: S) -> Result<NewJournal<S>, JournalError> {
        let journal = Journal::on(storage)?;
        if journal.bytes().iter().any(|byte| *byte != 0) {
            return Err(JournalError::Used);
        }
        Ok(NewJournal { journal })
    }
}

impl<S> fmt::Debug for NewJournal<S> {
    fn fmt(&self, f: &mut fmt::Formatter<'_>) -> fmt::Result {
        write!(f, "New{:?}", self.journal)
    }
}

impl<S> From<NewJournal<S>> for Journal<S> {
    fn from(new: NewJournal<S>) -> Journal<S> {
        new.journal
    }
}

/// A journal that may have been used: a consumer can be restarted from it, and not started.
///
/// It has the journal's bytes, for the restart. The consumer doesn't keep them.
#[must_use = "a journal's lock goes with it"]
pub struct Journal<S = JournalFile> {
    pub(crate) writer: Writer<S>,
    // what was read
    area: Area,
}

impl Journal {
    /// Opens the journal of a file, in either [form](Form). What another process wrote to it is made durable before it is read. How many
    /// other files are in its folder doesn't matter.
    ///
    /// # Errors
    /// [`JournalError::Locked`], [`JournalError::Form`] if the file is no journal, or [`JournalError::Io`] with what the disk says, that
    /// there is no such file among it. Nothing is written then.
    ///
    /// # Panics
    /// If the linked library is another one: see [`check_library`](crate::check_library).
    pub fn open(path: impl AsRef<Path>) -> Result<Journal, JournalError> {
        Ok(Journal::on(JournalFile::open(path.as_ref())?)?)
    }

    /// How its blocks lie in its file.
    #[must_use]
    pub fn form(&self) -> Form {
        self.writer.storage.form()
    }
}

impl<S: Storage> Journal<S> {
    /// The journal of a storage. What is there is made durable before it is read.
    ///
    /// # Errors
    /// What the disk says.
    pub fn on(mut storage: S) -> io::Result<Journal<S>> {
        storage.sync()?;
        let area = storage.read()?;
        Ok(Journal::of(storage, area))
    }
}

impl<S> Journal<S> {
    /// The journal of a storage, as it was read.
    pub(crate) fn of(storage: S, area: Area) -> Journal<S> {
        let writer = Writer {
            storage,
            len: area.bytes().len(),
            pending: None,
        };
        Journal { writer, area }
    }

    /// How many blocks it has.
    #[must_use]
    pub fn blocks(&self) -> usize {
        self.bytes().len() / BLOCK
    }

    /// What it has, byte by byte, block after block.
    #[must_use]
    pub fn bytes(&self) -> &[u8] {
        self.area.bytes()
    }

    /// The blocks that could not be read, rising. A restart takes each of them for a torn one. That is what a power failure in its write may
    /// leave, and then it doesn't matter; but a block that was lost later may be one that counts: docs/OPERATING.md, "A sector that can't
    /// be read".
    #[must_use]
    pub fn unreadable(&self) -> &[usize] {
        self.area.unreadable()
    }
}

impl<S> fmt::Debug for Journal<S> {
    fn fmt(&self, f: &mut fmt::Formatter<'_>) -> fmt::Result {
        self.writer.fmt(f)?;
        match self.unreadable() {
            [] => Ok(()),
            lost => write!(f, ", of which {lost:?} can't be read"),
        }
    }
}

/// What a consumer has of its journal: the storage, its length, and the blocks that may not be durable. It has no other bytes of it.
pub(crate) struct Writer<S> {
    pub(crate) storage: S,
    len: usize,
    pending: Option<Box<Pending>>,
}

// The blocks that were written since the last sync, each once, the one that was written last at the end, with what was written. There are
// none but while a checkpoint is being written.
#[derive(Default)]
struct Pending {
    blocks: Vec<usize>,
    bytes: Vec<[u8; BLOCK]>,
}

impl Pending {
    fn add(&mut self, block: usize, bytes: &[u8; BLOCK]) {
        if let Some(place) = self.blocks.iter().position(|other| *other == block) {
            self.blocks.remove(place);
            self.bytes.remove(place);
        }
        self.blocks.push(block);
        self.bytes.push(*bytes);
    }
}

impl<S: Storage> Writer<S> {
    /// Writes a block to the storage. It is pending until the next sync.
    pub(crate) fn write(
        mut self,
        block: usize,
        bytes: &[u8; BLOCK],
    ) -> Result<Writer<S>, Failed<S>> {
        let pending = self.pending.get_or_insert_default();
        pending.add(block, bytes);
        let written = self.storage.write_block(block, bytes);
        self.unless(During::Write(block), written)
    }

    /// Makes durable what is pending.
    pub(crate) fn sync(mut self) -> Result<Writer<S>, Failed<S>> {
        if self.is_durable() {
            return Ok(self);
        }
        let synced = self.storage.sync();
        self.synced(synced)
    }

    /// The same, unless a sync of one of these did it; and whether it took a sync of its own.
    pub(crate) fn sync_after<'a>(
        mut self,
        mut synced: impl Iterator<Item = &'a S>,
    ) -> (Result<Writer<S>, Failed<S>>, bool)
    where
        S: 'a,
    {
        match synced.find_map(|other| self.storage.synced_by(other)) {
            Some(answer) => (self.synced(answer), false),
            None => (self.sync(), true),
        }
    }

    // After a sync, with what it answered.
    fn synced(self, synced: io::Result<()>) -> Result<Writer<S>, Failed<S>> {
        let mut writer = self.unless(During::Sync, synced)?;
        writer.pending = None;
        Ok(writer)
    }

    /// Reads the journal, of which all is durable.
    pub(crate) fn read(mut self) -> Result<Journal<S>, Failed<S>> {
        match self.storage.read() {
            Ok(area) => Ok(Journal { writer: self, area }),
            Err(error) => Err(self.failed(During::Read, error)),
        }
    }

    fn unless(self, during: During, done: io::Result<()>) -> Result<Writer<S>, Failed<S>> {
        match done {
            Ok(()) => Ok(self),
            Err(error) => Err(self.failed(during, error)),
        }
    }

    fn failed(self, during: During, error: io::Error) -> Failed<S> {
        Failed {
            error,
            during,
            writer: self,
        }
    }

    // Writes all that is pending once more, and makes it durable.
    fn again(mut self) -> Result<Writer<S>, Failed<S>> {
        let pending = self.pending.iter();
        for (block, bytes) in pending.flat_map(|pending| pending.blocks.iter().zip(&pending.bytes))
        {
            if let Err(error) = self.storage.write_block(*block, bytes) {
                let during = During::Write(*block);
                return Err(self.failed(during, error));
            }
        }
        let synced = self.storage.sync();
        self.synced(synced)
    }
}

impl<S> Writer<S> {
    /// The bytes of the journal.
    pub(crate) fn len(&self) -> usize {
        self.len
    }

    /// Whether all that was written is durable.
    pub(crate) fn is_durable(&self) -> bool {
        self.pending.is_none()
    }
}

impl<S> fmt::Debug for Writer<S> {
    fn fmt(&self, f: &mut fmt::Formatter<'_>) -> fmt::Result {
        write!(f, "Journal of {} blocks", self.len / BLOCK)
    }
}

/// What an error of the disk leaves. Of the blocks that were written since the last sync nobody knows whether they are old, new or torn, so
/// there is no state any more: only the journal, read again, and a restart from it.
///
/// Some systems forget what could not be made durable, and still read it back from memory until they are restarted. So this remembers
/// every block since the last sync, and [`reopen`](Failed::reopen) writes all of them again.
///
/// # Dropping it
///
/// It holds the lock on the journal's file, as the consumer did. Where it is dropped, by itself or with an error that has it, or with the
/// process, **the lock goes, and the blocks that it remembered go too**: any process can open the journal from then on, and may read back
/// what the disk doesn't have. Nothing tells that process. So:
///
/// - Call [`reopen`](Failed::reopen) first, wherever this comes from: before the error is handed on by `?`, and before the process ends.
/// - If `reopen` fails too, keep what it gives back for as long as nobody else may open the journal, and try again; or end the process
///   so that nothing starts it again by itself, with an exit status of its own for a service manager to know, as `examples/server.rs`
///   does.
/// - If it was dropped without a `reopen` that succeeded, repair or replace the disk, and restart the machine before anything opens the
///   journal.
#[must_use = "`reopen` writes the blocks again that may not be durable; dropping it gives the journal's lock up"]
pub struct Failed<S = JournalFile> {
    error: io::Error,
    during: During,
    // with the blocks that are pending, as they were to be written
    writer: Writer<S>,
}

// What the disk failed in.
#[derive(Clone, Copy, Debug, PartialEq, Eq)]
enum During {
    Write(usize),
    Sync,
    Read,
}

impl<S: Storage> Failed<S> {
    /// Writes every block once more that was written since the last sync, in order, makes them durable, and reads the journal again: what
    /// a restart reads is then what the disk has. The checkpoint stands where a power failure after these writes would have left it. If
    /// the header was among them, it counts.
    ///
    /// ```
    /// use ironbus_delivery_state::{CheckpointError, Configuration, Consumer, Storage, WorkerId};
    ///
    /// /// A checkpoint, or after an error of the disk a restart: every token from before is refused then.
    /// fn checkpoint<S: Storage + 'static>(
    ///     consumer: Consumer<S>,
    ///     configuration: &Configuration,
    /// ) -> Result<Consumer<S>, CheckpointError<S>> {
    ///     match consumer.checkpoint(WorkerId::new(0)) {
    ///         Err(CheckpointError::Failed(failed)) => {
    ///             eprintln!("{failed}: {}", failed.error());
    ///             // If this fails too, the error has what is still to be written, and the journal's lock: keep it.
    ///             let journal = failed.reopen()?;
    ///             Ok(Consumer::restart(configuration, journal).expect("what was written can be read"))
    ///         }
    ///         answer => answer,
    ///     }
    /// }
    /// ```
    ///
    /// # Errors
    /// The disk failed again. Nothing is forgotten, and it can be tried once more.
    pub fn reopen(self) -> Result<Journal<S>, Failed<S>> {
        self.writer.again()?.read()
    }
}

impl<S> Failed<S> {
    /// What the disk said.
    #[must_use]
    pub fn error(&self) -> &io::Error {
        &self.error
    }

    /// The block whose write failed, from 0; none if a sync failed, or [`reopen`](Failed::reopen) could not read.
    #[must_use]
    pub fn block(&self) -> Option<usize> {
        match self.during {
            During::Write(block) => Some(block),
            During::Sync | During::Read => None,
        }
    }

    /// Likewise, where the journal itself isn't wanted any more: its file has no name yet.
    pub(crate) fn into_error(self) -> io::Error {
        self.error
    }

    #[cfg(test)]
    pub(crate) fn writer_has_header(&self) -> bool {
        let pending = self.writer.pending.as_ref();
        pending.is_some_and(|pending| pending.bytes.iter().any(|block| block[0] == 1))
    }

    /// The blocks that were written since the last sync, each once, the last one at the end: those that the disk may not have.
    #[must_use]
    pub fn blocks(&self) -> &[usize] {
        let pending = self.writer.pending.as_ref();
        pending.map_or(&[], |pending| &pending.blocks)
    }
}

impl<S> fmt::Debug for Failed<S> {
    fn fmt(&self, f: &mut fmt::Formatter<'_>) -> fmt::Result {
        let mut shown = f.debug_struct("Failed");
        shown.field("error", &self.error);
        shown.field("during", &self.during);
        shown.field("blocks", &self.blocks()).finish()
    }
}

impl<S> fmt::Display for Failed<S> {
    fn fmt(&self, f: &mut fmt::Formatter<'_>) -> fmt::Result {
        match self.during {
            During::Write(block) => {
                write!(f, "block {block} of the journal could not be written")
            }
            During::Sync => f.write_str("the journal could not be made durable"),
            During::Read => f.write_str("the journal could not be read again"),
        }
    }
}

impl<S> std::error::Error for Failed<S> {
    fn source(&self) -> Option<&(dyn std::error::Error + 'static)> {
        Some(&self.error)
    }
}

#[cfg(test)]
mod tests {
    use super::*;

    struct Kept(Vec<u8>, Option<usize>);

    impl Storage for Kept {
        fn read(&mut self) -> io::Result<Area> {
            let mut area = Area::from(self.0.clone());
            if let Some(block) = self.1 {
                area.mark_unreadable(block);
            }
            Ok(area)
        }

        fn write_block(&mut self, _: usize, _: &[u8; BLOCK]) -> io::Result<()> {
            Ok(())
        }

        fn sync(&mut self) -> io::Result<()> {
            Ok(())
        }
    }

    #[test]
    fn a_new_journal_is_zeroed() {
        let mut bytes = vec![0; 2 * BLOCK];
        assert!(NewJournal::on(Kept(bytes.clone(), None)).is_ok());
        let lost = NewJournal::on(Kept(bytes.clone(), Some(1)));
        assert!(matches!(lost, Err(JournalError::Used)));
        bytes[2 * BLOCK - 1] = 1;
        let used = NewJournal::on(Kept(bytes, None));
        assert!(matches!(used, Err(JournalError::Used)));
    }

    // A block that is written twice is pending once, where it was written last.
    #[test]
    fn pending_blocks_are_kept_in_order() {
        let mut writer = Journal::on(Kept(vec![0; 4 * BLOCK], None)).unwrap().writer;
        for (turn, block) in [2, 0, 1, 0].into_iter().enumerate() {
            assert_eq!(writer.is_durable(), turn == 0);
            writer = writer.write(block, &[turn as u8; BLOCK]).unwrap();
        }
        let pending = writer.pending.as_ref().unwrap();
        assert_eq!(pending.blocks, [2, 1, 0]);
        assert_eq!(pending.bytes, [0, 2, 3].map(|turn| [turn; BLOCK]));
        assert!(writer.sync().unwrap().is_durable());
    }
}
