//! A journal's file: how it is made, opened, locked, read and written.

use std::ffi::OsStr;
use std::fs::{self, File, OpenOptions, TryLockError};
use std::io;
use std::ops::Deref;
use std::os::unix::ffi::OsStrExt;
use std::os::unix::fs::{FileExt, MetadataExt, OpenOptionsExt};
use std::path::{self, Path, PathBuf};
use std::sync::atomic::{AtomicU32, Ordering};
use std::sync::OnceLock;

use crate::errors::{Displaced, JournalError};
use crate::form::{is_no_journal_yet, Form, Layout, LONGEST, SECTOR};
use crate::storage::{Area, Storage, BLOCK};

/// A journal's file, locked for as long as this value lives. It comes with a journal and can't be had without: a consumer's
/// checkpoints are all that writes it.
#[derive(Debug)]
pub struct JournalFile {
    // in a box: errors have journals in them, and are to be small
    file: Box<Opened>,
    layout: Layout,
}

impl JournalFile {
    fn new(file: Opened, layout: Layout) -> JournalFile {
        let file = Box::new(file);
        JournalFile { file, layout }
    }

    /// Makes a journal's file of zeroed blocks. A power failure leaves the whole journal or none of that name.
    pub(crate) fn create(path: &Path, layout: Layout) -> Result<JournalFile, JournalError> {
        let (file, unnamed) = JournalFile::make(path, layout)?;
        file.name(unnamed)?;
        Ok(file)
    }

    /// Makes a file of zeros that isn't a journal yet.
    pub(crate) fn make(
        path: &Path,
        layout: Layout,
    ) -> Result<(JournalFile, Unnamed), JournalError> {
        let (file, unnamed) = make_zeroed(path, layout.file_len() as u64)?;
        Ok((JournalFile::new(file, layout), unnamed))
    }

    /// Makes a journal of it.
    pub(crate) fn name(&self, unnamed: Unnamed) -> Result<(), JournalError> {
        unnamed.name(&self.file, self.layout.first_sector().as_ref())
    }

    /// Opens a file that is there.
    pub(crate) fn open(path: &Path) -> Result<JournalFile, JournalError> {
        let (file, len) = open_locked(path)?;
        let layout = Layout::of_file(len, |bytes, at| file.read_exact_at(bytes, at))?;
        Ok(JournalFile::new(file, layout))
    }

    pub(crate) fn form(&self) -> Form {
        self.layout.form()
    }
}

impl Storage for JournalFile {
    fn read(&mut self) -> io::Result<Area> {
        self.layout
            .read(|bytes, at| self.file.read_exact_at(bytes, at))
    }

    fn write_block(&mut self, block: usize, bytes: &[u8; BLOCK]) -> io::Result<()> {
        self.layout
            .write_block(block, bytes, |bytes, at| self.file.write_all_at(bytes, at))
    }

    fn sync(&mut self) -> io::Result<()> {
        self.file.sync_data()
    }

    fn check(&mut self) -> io::Result<()> {
        self.file.check(self.layout.file_len() as u64)
    }
}

/// A file that is open, and its name, from the root on, once it has one.
#[derive(Debug)]
pub(crate) struct Opened {
    file: File,
    path: OnceLock<PathBuf>,
}

impl Deref for Opened {
    type Target = File;

    fn deref(&self) -> &File {
        &self.file
    }
}

impl Opened {
    fn new(file: File) -> Opened {
        let path = OnceLock::new();
        Opened { file, path }
    }

    // The server's folder may change, and the name may not.
    fn is_named(&self, name: &Path) -> io::Result<()> {
        let name = path::absolute(name)?;
        self.path.set(name).expect("it is named once");
        Ok(())
    }

    /// Whether it still has its name and its length.
    pub(crate) fn check(&self, wanted: u64) -> io::Result<()> {
        let open = self.metadata()?;
        let path = self.path.get();
        let displaced = match path.map(fs::metadata) {
            _ if path.is_some() && open.nlink() == 0 => Displaced::Deleted,
            _ if open.len() != wanted => Displaced::Length {
                bytes: open.len(),
                wanted,
            },
            Some(Ok(named)) if identity(&named) != identity(&open) => Displaced::Replaced,
            Some(Err(error)) => match error.kind() {
                io::ErrorKind::NotFound | io::ErrorKind::NotADirectory => Displaced::Moved,
                // A server that has given its rights up can't look any more.
                io::ErrorKind::PermissionDenied => return Ok(()),
                _ => return Err(error),
            },
            _ => return Ok(()),
        };
        Err(displaced.into())
    }
}

/// Opens a file that is there, for one owner, and says how long it is.
pub(crate) fn open_locked(path: &Path) -> Result<(Opened, u64), JournalError> {
    let file = OpenOptions::new().read(true).write(true).open(path)?;
    lock(&file)?;
    let len = file.metadata()?.len();
    let opened = Opened::new(file);
    opened.is_named(path)?;
    Ok((opened, len))
}

/// Makes a file of so many zeros, for its owner alone to read and write, that isn't a journal yet: it has another name. What is written to
/// it before it is [named](Unnamed::name) is in the journal from its first moment on.
pub(crate) fn make_zeroed(path: &Path, len: u64) -> Result<(Opened, Unnamed), JournalError> {
    if path.file_name().is_none() {
        return Err(JournalError::NoFileName);
    }
    remove_leftovers(path);
    let (file, temporary) = make_beside(path)?;
    let unnamed = Unnamed {
        path: path.to_owned(),
        temporary: Some(temporary),
    };
    lock(&file)?;
    // Written, and not left out: so that a checkpoint finds the place for its blocks.
    let zeros = vec![0; len.min(LONGEST as u64) as usize];
    let mut at = 0;
    while at < len {
        let part = (len - at).min(zeros.len() as u64);
        file.write_all_at(&zeros[..part as usize], at)?;
        at += part;
    }
    Ok((Opened::new(file), unnamed))
}

/// A file that is made beside the journal's name. It goes where this is dropped, unless it was named.
pub(crate) struct Unnamed {
    path: PathBuf,
    temporary: Option<PathBuf>,
}

impl Unnamed {
    /// Makes a journal of the file: it gets its first sector, all of it is made durable, and then it gets the journal's name. Where that
    /// name could not be made durable it is taken away again.
    pub(crate) fn name(
        mut self,
        made: &Opened,
        first_sector: Option<&[u8; SECTOR]>,
    ) -> Result<(), JournalError> {
        if let Some(sector) = first_sector {
            made.write_all_at(sector, 0)?;
        }
        made.sync_all()?;
        let temporary = self.temporary.take().expect("it is named once");
        let named = name(made, &temporary, &self.path);
        let removed = match fs::remove_file(&temporary) {
            // Another create may have taken it for a leftover.
            Err(error) if error.kind() == io::ErrorKind::NotFound => Ok(()),
            other => other,
        };
        named?;
        let durable = removed.map_err(JournalError::Io).and_then(|()| {
            made.is_named(&self.path)?;
            sync_folder(&self.path).map_err(JournalError::Folder)
        });
        if durable.is_err() {
            let _ = fs::remove_file(&self.path);
        }
        durable
    }
}

impl Drop for Unnamed {
    fn drop(&mut self) {
        if let Some(temporary) = self.temporary.take() {
            let _ = fs::remove_file(temporary);
        }
    }
}

// How the name of a file goes on that isn't a journal yet.
const NEW: &str = ".new";

// A file of a name that nobody has, in the same folder. No name comes twice in a process.
fn make_beside(path: &Path) -> io::Result<(File, PathBuf)> {
    static NUMBER: AtomicU32 = AtomicU32::new(0);
    loop {
        let number = NUMBER.fetch_add(1, Ordering::Relaxed);
        let mut name = path.as_os_str().to_owned();
        name.push(format!(".{}-{number}{NEW}", std::process::id()));
        let made = OpenOptions::new()
            .read(true)
            .write(true)
            .create_new(true)
            .mode(0o600)
            .open(&name);
        match made {
            Err(error) if error.kind() == io::ErrorKind::AlreadyExists => {}
            other => return Ok((other?, PathBuf::from(name))),
        }
    }
}

// The journal of which a create or an import made a file of this name, if it is such a name: the journal's, and after it two numbers.
fn made_for(name: &OsStr) -> Option<&OsStr> {
    let rest = name.as_bytes().strip_suffix(NEW.as_bytes())?;
    let dot = rest.iter().rposition(|byte| *byte == b'.')?;
    let (journal, numbers) = (&rest[..dot], &rest[dot + 1..]);
    let mut parts = numbers.split(|byte| *byte == b'-');
    let number = |part: Option<&[u8]>| {
        part.is_some_and(|p| !p.is_empty() && p.iter().all(u8::is_ascii_digit))
    };
    let two = number(parts.next()) && number(parts.next()) && parts.next().is_none();
    (two && !journal.is_empty()).then_some(OsStr::from_bytes(journal))
}

/// Removes what creates and imports in a folder left that were stopped on the way, and answers how many files that were. A server asks it
/// once, when it begins: the folder is read once for all journals in it. A [create](crate::NewJournal::create) does the same for its own
/// name; opening a journal doesn't.
///
/// Such a file has the name of the journal with two numbers and `.new` after it. One that is being made stays, and so does what may be
/// somebody's own copy of a journal.
///
/// # Errors
/// The folder can't be read. A file that can't be removed is left.
pub fn tidy(folder: impl AsRef<Path>) -> io::Result<usize> {
    remove_made(folder.as_ref(), |_| true)
}

// The same for the name of one journal. That is only for tidiness: a folder that can't be read is no reason against the journal.
fn remove_leftovers(path: &Path) {
    let _ = remove_made(folder_of(path), |name| Some(name) == path.file_name());
}

// The same for the journals whose names are wanted.
fn remove_made(folder: &Path, wanted: impl Fn(&OsStr) -> bool) -> io::Result<usize> {
    let mut removed = 0;
    for entry in fs::read_dir(folder)?.flatten() {
        let name = entry.file_name();
        let Some(journal) = made_for(&name).filter(|journal| wanted(journal)) else {
            continue;
        };
        let is_file = entry.file_type().is_ok_and(|kind| kind.is_file());
        if is_file && is_left(&entry.path(), &folder.join(journal)) {
            removed += usize::from(fs::remove_file(entry.path()).is_ok());
        }
    }
    Ok(removed)
}

// Whether a file of such a name is what a create or an import left, and none needs it. One that is going on holds its lock; and one that
// was stopped late left a second name of the journal itself. What can be opened as a journal and has a block in it is somebody's own,
// whatever its name: a copy named by year and month, say.
fn is_left(made: &Path, journal: &Path) -> bool {
    let Ok(file) = OpenOptions::new().read(true).write(true).open(made) else {
        return false;
    };
    let second_name = fs::metadata(journal).and_then(|journal| is_same(&file, &journal));
    second_name.unwrap_or(false) || (lock(&file).is_ok() && is_unfinished(&file))
}

// Whether a file was not finished.
fn is_unfinished(file: &File) -> bool {
    let unfinished = || {
        let len = file.metadata()?.len();
        is_no_journal_yet(len, |bytes, at| file.read_exact_at(bytes, at))
    };
    unfinished().unwrap_or(false)
}

// Gives a file that was made beside it the journal's name, unless there is one of that name.
fn name(file: &File, made: &Path, path: &Path) -> Result<(), JournalError> {
    match fs::hard_link(made, path) {
        Ok(()) => {}
        Err(error) => {
            return Err(match error.kind() {
                io::ErrorKind::AlreadyExists => JournalError::Exists,
                // Another create took it for a leftover, before it was locked.
                io::ErrorKind::NotFound => JournalError::Locked,
                _ if has_no_links(&error) => JournalError::NoHardLinks(error),
                _ => JournalError::Io(error),
            });
        }
    }
    // Two processes of one number, as in two containers, can make files of one name.
    if is_same(file, &fs::metadata(path)?)? {
        return Ok(());
    }
    Err(JournalError::Locked)
}

// What filesystems say that have no hard links: EPERM, ENOSYS, EOPNOTSUPP, or EMLINK where a file can have one name alone.
fn has_no_links(error: &io::Error) -> bool {
    matches!(error.raw_os_error(), Some(1 | 31 | 38 | 95))
}

fn is_same(file: &File, other: &fs::Metadata) -> io::Result<bool> {
    Ok(identity(&file.metadata()?) == identity(other))
}

// What a file has for its life, by whatever name: its device and its inode.
fn identity(file: &fs::Metadata) -> (u64, u64) {
    (file.dev(), file.ino())
}

fn lock(file: &File) -> Result<(), JournalError> {
    lock_by(|| file.try_lock())
}

// Where a try may be interrupted.
fn lock_by(mut try_lock: impl FnMut() -> Result<(), TryLockError>) -> Result<(), JournalError> {
    loop {
        match try_lock() {
            Ok(()) => return Ok(()),
            Err(TryLockError::WouldBlock) => return Err(JournalError::Locked),
            Err(TryLockError::Error(error)) if error.kind() == io::ErrorKind::Interrupted => {}
            Err(TryLockError::Error(error)) => return Err(JournalError::Io(error)),
        }
    }
}

fn folder_of(path: &Path) -> &Path {
    match path.parent() {
        Some(folder) if !folder.as_os_str().is_empty() => folder,
        _ => Path::new("."),
    }
}

/// Makes a file's name durable.
pub(crate) fn sync_folder(path: &Path) -> io::Result<()> {
    File::open(folder_of(path))?.sync_all()
}

#[cfg(test)]
mod tests {
    use super::*;

    #[test]
    fn a_lock_that_is_interrupted_is_tried_again() {
        let failed = |kind: io::ErrorKind| Err(TryLockError::Error(kind.into()));
        let mut tries = 0;
        let locked = lock_by(|| {
            tries += 1;
            if tries < 3 {
                return failed(io::ErrorKind::Interrupted);
            }
            Ok(())
        });
        assert!(locked.is_ok());
        assert_eq!(tries, 3);
        let locked = lock_by(|| Err(TryLockError::WouldBlock));
        assert!(matches!(locked, Err(JournalError::Locked)));
        let locked = lock_by(|| failed(io::ErrorKind::TimedOut));
        assert!(
            matches!(locked, Err(JournalError::Io(error)) if error.kind() == io::ErrorKind::TimedOut)
        );
    }

    fn folder(name: &str) -> PathBuf {
        let folder = std::env::temp_dir().join(format!("ninotskev-{name}-{}", std::process::id()));
        let _ = fs::remove_dir_all(&folder);
        fs::create_dir(&folder).unwrap();
        folder
    }

    // Another process of the same number, as in another container, made a file of the same name: that one gets the journal's name, and
    // what was made here isn't the journal.
    #[test]
    fn only_the_file_that_has_the_name_is_the_journal() {
        let folder = folder("names");
        let [made, path, second] = ["made", "journal", "second"].map(|name| folder.join(name));
        let mine = File::create_new(&made).unwrap();
        fs::remove_file(&made).unwrap();
        let other = File::create_new(&made).unwrap();
        assert!(matches!(
            name(&mine, &made, &path),
            Err(JournalError::Locked)
        ));
        assert!(is_same(&other, &fs::metadata(&path).unwrap()).unwrap());
        assert!(name(&other, &made, &second).is_ok());
        assert!(matches!(
            name(&other, &made, &path),
            Err(JournalError::Exists)
        ));
        fs::remove_dir_all(&folder).unwrap();
    }

    // What is written before the file has its name is there when it has; what isn't named goes, and can't be opened before.
    #[test]
    fn a_file_is_no_journal_before_it_is_named() {
        let folder = folder("unnamed");
        let path = folder.join("journal");
        let layout = Layout::new(Form::Sectors, 18).unwrap();
        let (mut file, unnamed) = JournalFile::make(&path, layout).unwrap();
        file.write_block(3, &[7; BLOCK]).unwrap();
        let temporary = unnamed.temporary.clone().unwrap();
        let copy = folder.join("copy");
        fs::copy(&temporary, &copy).unwrap();
        assert!(matches!(
            JournalFile::open(&copy),
            Err(JournalError::Form(_))
        ));
        fs::remove_file(&copy).unwrap();
        assert!(!path.exists());
        file.name(unnamed).unwrap();
        assert!(!temporary.exists());
        drop(file);
        let area = JournalFile::open(&path).unwrap().read().unwrap();
        assert_eq!(area.block(3), &[7; BLOCK]);
        fs::remove_file(&path).unwrap();
        drop(JournalFile::make(&path, layout).unwrap());
        assert_eq!(fs::read_dir(&folder).unwrap().count(), 0);
        fs::remove_dir_all(&folder).unwrap();
    }

    #[test]
    fn names_of_leftovers() {
        let is = |name: &str| made_for(OsStr::new(name)) == Some(OsStr::new("a.journal"));
        assert!(is("a.journal.17-0.new") && is("a.journal.1-23.new"));
        // A journal that is itself named so has leftovers of its own.
        let of = |name| made_for(OsStr::new(name));
        assert_eq!(of("a.1-2.new.3-4.new"), Some(OsStr::new("a.1-2.new")));
        assert_eq!(of(".1-2.new"), None);
        for name in [
            "a.journal",
            "a.journal.new",
            "a.journal.17.new",
            "a.journal.17-.new",
            "a.journal.-0.new",
            "a.journal.17-0-1.new",
            "a.journal.17-x.new",
            "a.journal.17-0.new.old",
            "b.journal.17-0.new",
            "a.journal17-0.new",
        ] {
            assert!(!is(name), "{name}");
        }
    }
}
