//! The journal: a file of fixed blocks, with one owner.
//!
//! [`NewJournal`] is zeroed and durable, and a consumer starts on it. [`Journal`] may have been used, and a consumer can only be
//! restarted from it. Neither can be had while another process, or another value here, has the same file.
//!
//! What is asked of the disk is what demand 3 says: where the power fails in a write, that block is then old, new, or fails its
//! check, and no other block has changed. A block is 512 bytes, so that is for a disk to keep which writes its sectors whole.

use std::ffi::OsStr;
use std::fmt;
use std::fs::{self, File, OpenOptions, TryLockError};
use std::io;
use std::os::unix::ffi::OsStrExt;
use std::os::unix::fs::{FileExt, MetadataExt, OpenOptionsExt};
use std::path::{Path, PathBuf};
use std::sync::atomic::{AtomicU32, Ordering};

/// The bytes of a block.
pub const BLOCK: usize = 512;

/// The fewest blocks of a journal: each half of it has room for the largest checkpoint.
pub const MIN_BLOCKS: usize = 18;

/// The most blocks of a journal.
pub const MAX_BLOCKS: usize = 128;

/// Where a journal's blocks are kept. [`JournalFile`] is the one for a server; tests put others in its place.
///
/// # What an implementor promises
///
/// Nothing here can test it, and the promises about delivery rest on it.
///
/// - **One owner.** While this value lives, nobody else writes the blocks, and there is no second value over them: no other process, and
///   nothing else in this one. [`JournalFile`] holds a lock for it.
/// - **Whole blocks.** A write changes its block and no other, whatever becomes of it. Where the power fails in it, or it answers an error,
///   the block is then the old one, the new one, or torn: one whose check fails, which is the CRC32C of its first 508 bytes in its
///   last four.
/// - **Order.** A write is durable before it answers, so before the next one begins. What was durable stays, also where a later write
///   fails.
/// - **One length.** It is the same from the first read on, for the life of the journal.
/// - **Reads are of what lasts.** A read answers what a restart after a power failure would find. After a write that answered an error it
///   may answer the old block, the new one or a torn one, and need not answer the same the next time: [`Failed::reopen`] writes that
///   block again before it reads.
/// - **Errors are not hidden.** Where a block may not be durable, the write answers an error. It doesn't panic: a panic loses the
///   consumer, and with it what [`Failed`] remembers.
pub trait Storage {
    /// All that is there. What it answers stays so if the power fails.
    ///
    /// # Errors
    /// What the disk says.
    fn read(&mut self) -> io::Result<Vec<u8>>;

    /// Writes one block at its place, counted from 0, and no other, and makes it durable before it answers. A write that was interrupted
    /// or came short is gone on with.
    ///
    /// # Errors
    /// What the disk says. The block may then be old, new or torn.
    fn write_block(&mut self, block: usize, bytes: &[u8; BLOCK]) -> io::Result<()>;
}

/// Why a journal can't be had.
#[derive(Debug)]
#[non_exhaustive]
pub enum JournalError {
    /// Another process, or another value here, has it. A process that is being started has, until it runs, all files of the one that
    /// starts it: where a journal is closed and opened again while another thread starts a process, this can come for a moment.
    Locked,
    /// A new journal can't have so many blocks: an even number from 18 to 128.
    BadBlocks(usize),
    /// There is a file of that name, so it can only be opened.
    Exists,
    /// A new journal is to be zeroed, and this one isn't.
    Used,
    /// What the disk says, or the system: there is no file of that name, say.
    Io(io::Error),
}

impl fmt::Display for JournalError {
    fn fmt(&self, f: &mut fmt::Formatter<'_>) -> fmt::Result {
        match self {
            JournalError::Locked => f.write_str("the journal is in use"),
            JournalError::BadBlocks(blocks) => write!(
                f,
                "a journal has an even number of blocks, {MIN_BLOCKS} to {MAX_BLOCKS}, and not {blocks}"
            ),
            JournalError::Exists => f.write_str("there is a journal of that name"),
            JournalError::Used => f.write_str("the journal was used before"),
            JournalError::Io(_) => f.write_str("the journal can't be read or written"),
        }
    }
}

impl std::error::Error for JournalError {
    fn source(&self) -> Option<&(dyn std::error::Error + 'static)> {
        match self {
            JournalError::Io(error) => Some(error),
            _ => None,
        }
    }
}

impl From<io::Error> for JournalError {
    fn from(error: io::Error) -> JournalError {
        JournalError::Io(error)
    }
}

/// A journal's file, locked for as long as this value lives. It comes with a journal and can't be had without: a consumer's
/// checkpoints are all that writes it.
#[derive(Debug)]
pub struct JournalFile {
    file: File,
}

impl JournalFile {
    // Makes a file of so many zeroed blocks, for its owner alone to read and write. It gets its name once it is zeroed and durable, so
    // that a power failure leaves the whole journal or none.
    fn create(path: impl AsRef<Path>, blocks: usize) -> Result<JournalFile, JournalError> {
        let path = path.as_ref();
        if !(MIN_BLOCKS..=MAX_BLOCKS).contains(&blocks) || !blocks.is_multiple_of(2) {
            return Err(JournalError::BadBlocks(blocks));
        }
        remove_leftovers(path, None);
        let (file, made) = make_beside(path)?;
        let named = lock(&file)
            .and_then(|()| Ok(file.write_all_at(&vec![0; BLOCK * blocks], 0)?))
            .and_then(|()| Ok(file.sync_all()?))
            .and_then(|()| name(&file, &made, path));
        // Another create may have taken it for a leftover.
        match fs::remove_file(&made) {
            Err(error) if error.kind() != io::ErrorKind::NotFound => return Err(error.into()),
            _ => {}
        }
        named?;
        sync_folder(path)?;
        Ok(JournalFile { file })
    }

    // Opens a file that is there.
    fn open(path: impl AsRef<Path>) -> Result<JournalFile, JournalError> {
        let path = path.as_ref();
        let file = OpenOptions::new().read(true).write(true).open(path)?;
        lock(&file)?;
        remove_leftovers(path, Some(&file));
        Ok(JournalFile { file })
    }
}

// How the name of a file goes on that isn't a journal yet.
const NEW: &str = ".new";

// A file of a name that nobody has, in the same folder. No name comes twice in a process.
fn make_beside(path: &Path) -> io::Result<(File, PathBuf)> {
    static NUMBER: AtomicU32 = AtomicU32::new(0);
    loop {
        let number = NUMBER.fetch_add(1, Ordering::Relaxed);
        let mut name = path.as_os_str().to_owned();
        name.push(format!(".{}-{number}{NEW}", std::process::id()));
        let made = OpenOptions::new()
            .read(true)
            .write(true)
            .create_new(true)
            .mode(0o600)
            .open(&name);
        match made {
            Err(error) if error.kind() == io::ErrorKind::AlreadyExists => {}
            other => return Ok((other?, PathBuf::from(name))),
        }
    }
}

// Whether a name is that of a file that a create of this journal made: the journal's, and behind it two numbers.
fn is_made_beside(name: &OsStr, journal: &OsStr) -> bool {
    let rest = name.as_bytes().strip_prefix(journal.as_bytes());
    let rest = rest.and_then(|rest| rest.strip_prefix(b"."));
    let Some(numbers) = rest.and_then(|rest| rest.strip_suffix(NEW.as_bytes())) else {
        return false;
    };
    let mut parts = numbers.split(|byte| *byte == b'-');
    let number = |part: Option<&[u8]>| {
        part.is_some_and(|p| !p.is_empty() && p.iter().all(u8::is_ascii_digit))
    };
    number(parts.next()) && number(parts.next()) && parts.next().is_none()
}

// Removes what creates of this journal left that were stopped on the way. That is for tidiness alone: a folder that can't be read, or a
// file that can't be removed, is no reason against the journal.
fn remove_leftovers(path: &Path, journal: Option<&File>) {
    let Some(name) = path.file_name() else {
        return;
    };
    let entries = fs::read_dir(folder_of(path))
        .into_iter()
        .flatten()
        .flatten();
    for entry in entries {
        let is_file = entry.file_type().is_ok_and(|kind| kind.is_file());
        if is_file && is_made_beside(&entry.file_name(), name) && is_left(&entry.path(), journal) {
            let _ = fs::remove_file(entry.path());
        }
    }
}

// Whether a file of such a name is what a create left, and no create needs it. One that is going on holds its lock; and a create that was
// stopped late left a second name of the journal itself, which is open here. A create writes zeros alone, so that a file with anything
// else in it is somebody's own, whatever its name: a copy named by year and month, say.
fn is_left(made: &Path, journal: Option<&File>) -> bool {
    let Ok(file) = OpenOptions::new().read(true).write(true).open(made) else {
        return false;
    };
    let same = |journal: &File| is_same(&file, &journal.metadata()?);
    journal.is_some_and(|journal| same(journal).unwrap_or(false))
        || (lock(&file).is_ok() && is_zeroed(&file))
}

// Whether a file is no longer than a journal and has zeros alone.
fn is_zeroed(file: &File) -> bool {
    let bytes = read_from(|bytes, at| file.read_at(bytes, at));
    bytes
        .is_ok_and(|bytes| bytes.len() <= BLOCK * MAX_BLOCKS && bytes.iter().all(|byte| *byte == 0))
}

// Gives a file that was made beside it the journal's name, unless there is one of that name.
fn name(file: &File, made: &Path, path: &Path) -> Result<(), JournalError> {
    match fs::hard_link(made, path) {
        Ok(()) => {}
        Err(error) => {
            return Err(match error.kind() {
                io::ErrorKind::AlreadyExists => JournalError::Exists,
                // Another create took it for a leftover, before it was locked.
                io::ErrorKind::NotFound => JournalError::Locked,
                _ => JournalError::Io(error),
            });
        }
    }
    // Two processes of one number, as in two containers, can make files of one name.
    if is_same(file, &fs::metadata(path)?)? {
        return Ok(());
    }
    Err(JournalError::Locked)
}

fn is_same(file: &File, other: &fs::Metadata) -> io::Result<bool> {
    let this = file.metadata()?;
    Ok((this.dev(), this.ino()) == (other.dev(), other.ino()))
}

fn lock(file: &File) -> Result<(), JournalError> {
    lock_by(|| file.try_lock())
}

// Where a try may be interrupted.
fn lock_by(mut try_lock: impl FnMut() -> Result<(), TryLockError>) -> Result<(), JournalError> {
    loop {
        match try_lock() {
            Ok(()) => return Ok(()),
            Err(TryLockError::WouldBlock) => return Err(JournalError::Locked),
            Err(TryLockError::Error(error)) if error.kind() == io::ErrorKind::Interrupted => {}
            Err(TryLockError::Error(error)) => return Err(JournalError::Io(error)),
        }
    }
}

fn folder_of(path: &Path) -> &Path {
    match path.parent() {
        Some(folder) if !folder.as_os_str().is_empty() => folder,
        _ => Path::new("."),
    }
}

// Makes a file's name durable.
fn sync_folder(path: &Path) -> io::Result<()> {
    File::open(folder_of(path))?.sync_all()
}

// All that reading at one place after the other gives, where a read may be interrupted or come short.
fn read_from(mut read_at: impl FnMut(&mut [u8], u64) -> io::Result<usize>) -> io::Result<Vec<u8>> {
    let most = BLOCK * MAX_BLOCKS;
    let mut bytes = Vec::with_capacity(most + BLOCK);
    let mut front = [0; BLOCK];
    // one byte too many is enough for a restart to refuse the length
    while bytes.len() <= most {
        match read_at(&mut front, bytes.len() as u64) {
            Ok(0) => break,
            Ok(n) => bytes.extend_from_slice(&front[..n]),
            Err(error) if error.kind() == io::ErrorKind::Interrupted => {}
            Err(error) => return Err(error),
        }
    }
    Ok(bytes)
}

impl Storage for JournalFile {
    // A process that was stopped may have left a write that isn't durable yet, so that comes first.
    fn read(&mut self) -> io::Result<Vec<u8>> {
        self.file.sync_all()?;
        read_from(|bytes, at| self.file.read_at(bytes, at))
    }

    // Both go on where they are interrupted, and the first where it comes short.
    fn write_block(&mut self, block: usize, bytes: &[u8; BLOCK]) -> io::Result<()> {
        self.file.write_all_at(bytes, (BLOCK * block) as u64)?;
        self.file.sync_data()
    }
}

/// A zeroed, durable journal: a consumer starts on it.
///
/// # Once in a consumer's life
///
/// A consumer on a new journal gives generations from 0 on. Where the consumer had a journal before, the same generations were given
/// out already, and a worker that still holds one of those tokens can settle a message that was handed out anew: the late
/// acknowledgement that made a failed job count as done. The types can't see it. It comes by any of these:
///
/// - a journal that was deleted, or moved away, and is created anew;
/// - one that was restored from a backup, whose ceiling is old;
/// - one that was copied, with a server on each copy.
///
/// So create a journal by a command of its own, and never because there is no file at a path: `examples/server.rs` has `init` and
/// `run`. Keep the last [ceiling](crate::Consumer::ceiling) that you saw apart from the journal, and restart by
/// [`restart_at_least`](crate::Consumer::restart_at_least), which refuses a journal that is older. Two copies that are equally new it
/// can't tell apart. Where a journal has to be replaced, stop all workers first, so that no token is out.
#[must_use = "a journal's lock goes with it"]
pub struct NewJournal<S = JournalFile> {
    pub(crate) journal: Journal<S>,
}

impl NewJournal {
    /// Makes a journal of so many blocks: an even number, at least [18](MIN_BLOCKS) and at most [128](MAX_BLOCKS). It is used as two
    /// equal halves. A checkpoint takes 2 to 9 blocks of one of them; where there is no room for it, the other half is zeroed, block
    /// by block, and the checkpoint goes there. So a journal is never full, and a longer one writes fewer zeros.
    ///
    /// The file is for its owner alone to read and write (mode 600). Until it is zeroed and durable it has another name, the journal's
    /// with two numbers and `.new` behind it; what a create that was stopped on the way left of such a name, the next create or open of
    /// the same journal removes, where it has zeros alone.
    ///
    /// # Errors
    /// [`JournalError::BadBlocks`], [`JournalError::Exists`], [`JournalError::Locked`] where another process is creating it, or
    /// [`JournalError::Io`] with what the disk says.
    pub fn create(path: impl AsRef<Path>, blocks: usize) -> Result<NewJournal, JournalError> {
        NewJournal::on(JournalFile::create(path, blocks)?)
    }
}

impl<S: Storage> NewJournal<S> {
    /// The journal of a zeroed storage.
    ///
    /// # Errors
    /// [`JournalError::Used`] where a byte isn't zero, or [`JournalError::Io`] with what the disk says.
    pub fn on(storage: S) -> Result<NewJournal<S>, JournalError> {
        let journal = Journal::on(storage)?;
        if journal.area.iter().any(|byte| *byte != 0) {
            return Err(JournalError::Used);
        }
        Ok(NewJournal { journal })
    }
}

impl<S> fmt::Debug for NewJournal<S> {
    fn fmt(&self, f: &mut fmt::Formatter<'_>) -> fmt::Result {
        write!(f, "New{:?}", self.journal)
    }
}

impl<S> From<NewJournal<S>> for Journal<S> {
    fn from(new: NewJournal<S>) -> Journal<S> {
        new.journal
    }
}

/// A journal that may have been used: a consumer can be restarted from it, and not started.
#[must_use = "a journal's lock goes with it"]
pub struct Journal<S = JournalFile> {
    pub(crate) storage: S,
    // what the storage has
    pub(crate) area: Vec<u8>,
}

impl Journal {
    /// Opens the journal of a file.
    ///
    /// # Errors
    /// [`JournalError::Locked`], or [`JournalError::Io`] with what the disk says, that there is no such file among it.
    pub fn open(path: impl AsRef<Path>) -> Result<Journal, JournalError> {
        Ok(Journal::on(JournalFile::open(path)?)?)
    }
}

impl<S: Storage> Journal<S> {
    /// The journal of a storage.
    ///
    /// # Errors
    /// What the disk says.
    pub fn on(mut storage: S) -> io::Result<Journal<S>> {
        let area = storage.read()?;
        Ok(Journal { storage, area })
    }

    // Writes a block of the area to the storage.
    pub(crate) fn put(mut self, block: usize) -> Result<Journal<S>, Failed<S>> {
        let from = BLOCK * block;
        let bytes: &[u8; BLOCK] = self.area[from..from + BLOCK]
            .try_into()
            .expect("a block has 512 bytes");
        match self.storage.write_block(block, bytes) {
            Ok(()) => Ok(self),
            Err(error) => Err(Failed {
                error,
                block,
                bytes: Box::new(*bytes),
                storage: self.storage,
            }),
        }
    }
}

impl<S> Journal<S> {
    /// How many blocks it has.
    #[must_use]
    pub fn blocks(&self) -> usize {
        self.area.len() / BLOCK
    }

    /// What it has, byte by byte.
    #[must_use]
    pub fn bytes(&self) -> &[u8] {
        &self.area
    }
}

impl<S> fmt::Debug for Journal<S> {
    fn fmt(&self, f: &mut fmt::Formatter<'_>) -> fmt::Result {
        write!(f, "Journal of {} blocks", self.blocks())
    }
}

/// What an error of the disk leaves. Whether the block that was being written is old, new or torn isn't known, so there is no
/// state any more: only the journal, read again, and a restart from it.
///
/// Some systems forget a write that could not be made durable, and still read it back from memory until they are restarted. So this
/// remembers the block, and [`reopen`](Failed::reopen) writes it again.
///
/// # Dropping it
///
/// It holds the lock on the journal's file, as the consumer did. Where it is dropped, by itself or with an error that has it, or with the
/// process, **the lock goes, and the block that it remembered goes too**: any process can open the journal from then on, and may read back
/// what the disk doesn't have. Nothing tells that process. So:
///
/// - Call [`reopen`](Failed::reopen) first, wherever this comes from: before the error is handed on by `?`, and before the process ends.
/// - Where `reopen` fails too, keep what it gives back for as long as nobody else may open the journal, and try again; or end the process
///   so that nothing starts it again by itself, with an exit status of its own for a service manager to know, as `examples/server.rs`
///   does.
/// - Where it was dropped without a `reopen` that succeeded, see to the disk, and restart the machine before anything opens the journal.
#[must_use = "`reopen` writes the block again that could not be made durable; dropping it gives the journal's lock up"]
pub struct Failed<S = JournalFile> {
    pub(crate) error: io::Error,
    pub(crate) storage: S,
    // what was being written, and where
    pub(crate) block: usize,
    pub(crate) bytes: Box<[u8; BLOCK]>,
}

impl<S: Storage> Failed<S> {
    /// Writes the block that failed once more, makes it durable, and reads the journal again: what a restart reads is then what the
    /// disk has. The checkpoint stands where a power failure right behind that block would have left it, so that with a header it
    /// counts.
    ///
    /// # Errors
    /// The disk failed again. Nothing is forgotten, and it can be tried once more.
    pub fn reopen(mut self) -> Result<Journal<S>, Failed<S>> {
        let written = self.storage.write_block(self.block, &self.bytes);
        match written.and_then(|()| self.storage.read()) {
            Ok(area) => Ok(Journal {
                storage: self.storage,
                area,
            }),
            Err(error) => Err(Failed { error, ..self }),
        }
    }
}

impl<S> Failed<S> {
    /// What the disk said.
    #[must_use]
    pub fn error(&self) -> &io::Error {
        &self.error
    }

    /// The block that was being written, from 0.
    #[must_use]
    pub fn block(&self) -> usize {
        self.block
    }
}

impl<S> fmt::Debug for Failed<S> {
    fn fmt(&self, f: &mut fmt::Formatter<'_>) -> fmt::Result {
        write!(f, "Failed({:?}, block {})", self.error, self.block)
    }
}

impl<S> fmt::Display for Failed<S> {
    fn fmt(&self, f: &mut fmt::Formatter<'_>) -> fmt::Result {
        write!(
            f,
            "block {} of the journal could not be written",
            self.block
        )
    }
}

impl<S> std::error::Error for Failed<S> {
    fn source(&self) -> Option<&(dyn std::error::Error + 'static)> {
        Some(&self.error)
    }
}

#[cfg(test)]
mod tests {
    use super::*;

    struct Kept(Vec<u8>);

    impl Storage for Kept {
        fn read(&mut self) -> io::Result<Vec<u8>> {
            Ok(self.0.clone())
        }

        fn write_block(&mut self, _: usize, _: &[u8; BLOCK]) -> io::Result<()> {
            Ok(())
        }
    }

    // Each read is interrupted once and then gives three bytes at most.
    #[test]
    fn a_read_that_is_interrupted_or_short_goes_on() {
        let all: Vec<u8> = (0..700u32).map(|n| n as u8).collect();
        let mut interrupted = false;
        let read = read_from(|bytes, at| {
            interrupted = !interrupted;
            if interrupted {
                return Err(io::ErrorKind::Interrupted.into());
            }
            let left = &all[usize::try_from(at).unwrap()..];
            let n = left.len().min(3);
            bytes[..n].copy_from_slice(&left[..n]);
            Ok(n)
        });
        assert_eq!(read.unwrap(), all);
        let failed = read_from(|_, _| Err(io::ErrorKind::TimedOut.into()));
        assert_eq!(failed.unwrap_err().kind(), io::ErrorKind::TimedOut);
    }

    #[test]
    fn a_lock_that_is_interrupted_is_tried_again() {
        let failed = |kind: io::ErrorKind| Err(TryLockError::Error(kind.into()));
        let mut tries = 0;
        let locked = lock_by(|| {
            tries += 1;
            if tries < 3 {
                return failed(io::ErrorKind::Interrupted);
            }
            Ok(())
        });
        assert!(locked.is_ok());
        assert_eq!(tries, 3);
        let locked = lock_by(|| Err(TryLockError::WouldBlock));
        assert!(matches!(locked, Err(JournalError::Locked)));
        let locked = lock_by(|| failed(io::ErrorKind::TimedOut));
        assert!(
            matches!(locked, Err(JournalError::Io(error)) if error.kind() == io::ErrorKind::TimedOut)
        );
    }

    // Another process of the same number, as in another container, made a file of the same name: that one gets the journal's name, and
    // what was made here isn't the journal.
    #[test]
    fn only_the_file_that_has_the_name_is_the_journal() {
        let folder = std::env::temp_dir().join(format!("ninotskev-names-{}", std::process::id()));
        let _ = fs::remove_dir_all(&folder);
        fs::create_dir(&folder).unwrap();
        let [made, path, second] = ["made", "journal", "second"].map(|name| folder.join(name));
        let mine = File::create_new(&made).unwrap();
        fs::remove_file(&made).unwrap();
        let other = File::create_new(&made).unwrap();
        assert!(matches!(
            name(&mine, &made, &path),
            Err(JournalError::Locked)
        ));
        assert!(is_same(&other, &fs::metadata(&path).unwrap()).unwrap());
        assert!(name(&other, &made, &second).is_ok());
        assert!(matches!(
            name(&other, &made, &path),
            Err(JournalError::Exists)
        ));
        fs::remove_dir_all(&folder).unwrap();
    }

    #[test]
    fn names_of_leftovers() {
        let is = |name: &str| is_made_beside(OsStr::new(name), OsStr::new("a.journal"));
        assert!(is("a.journal.17-0.new") && is("a.journal.1-23.new"));
        for name in [
            "a.journal",
            "a.journal.new",
            "a.journal.17.new",
            "a.journal.17-.new",
            "a.journal.-0.new",
            "a.journal.17-0-1.new",
            "a.journal.17-x.new",
            "a.journal.17-0.new.old",
            "b.journal.17-0.new",
            "a.journal17-0.new",
        ] {
            assert!(!is(name), "{name}");
        }
    }

    #[test]
    fn a_new_journal_is_zeroed() {
        let mut bytes = vec![0; 2 * BLOCK];
        assert!(NewJournal::on(Kept(bytes.clone())).is_ok());
        bytes[2 * BLOCK - 1] = 1;
        assert!(matches!(
            NewJournal::on(Kept(bytes)),
            Err(JournalError::Used)
        ));
    }
}
