//! Files of several journals: one file, one lock and one file descriptor for many consumers.

use std::fmt;
use std::io;
use std::os::unix::fs::FileExt;
use std::path::Path;
use std::sync::atomic::{AtomicBool, AtomicU64, Ordering};
use std::sync::{Arc, Mutex, MutexGuard, PoisonError};

use crate::errors::JournalError;
use crate::file::{make_zeroed, open_locked, Opened};
use crate::form::{is_header, Layout, Many, Mark};
use crate::journal::{Journal, NewJournal};
use crate::storage::{Area, Storage, BLOCK};

/// A file of several journals, each for a consumer of its own. It is locked while this value lives, or anything that it gave.
///
/// A journal of it is [free](JournalState::Free), [in use](JournalState::InUse) or [unfinished](JournalState::Unfinished), and the file says
/// which. It has one owner at a time.
///
/// ```
/// use ironbus_delivery_state::{checkpoint_all, Configuration, Consumer, Journals, WorkerId};
/// # let path = std::env::temp_dir().join(format!("ironbus-doc-journals-{}", std::process::id()));
/// # let _ = std::fs::remove_file(&path);
///
/// let journals = Journals::create(&path, 3, 18)?;
/// let mut consumers = Vec::new();
/// for number in 0..journals.count() {
///     consumers.push(Consumer::start(&Configuration::default(), journals.new_journal(number)?)?);
/// }
/// // Two syncs for all of them.
/// for made in checkpoint_all(consumers, WorkerId::new(0)) {
///     drop(made?);
/// }
/// let consumer = Consumer::restart(&Configuration::default(), journals.journal(2)?)?;
/// # drop(consumer);
/// # std::fs::remove_file(&path)?;
/// # Ok::<(), Box<dyn std::error::Error>>(())
/// ```
#[must_use = "the file's lock goes with it"]
pub struct Journals {
    shared: Arc<Shared>,
}

/// What a file of several says of one of its journals.
#[derive(Clone, Copy, Debug, PartialEq, Eq, Hash)]
#[non_exhaustive]
pub enum JournalState {
    /// Nobody has used it: a consumer can be started on it, or imported into it.
    Free,
    /// An import into it, or freeing it, was cut. It can be imported into again, or freed. Nothing can be started on it or restarted from
    /// it: a consumer that began so would give generations from 0 on, and the server before may have given them too.
    Unfinished,
    /// A consumer was started on it, or imported into it: one can be restarted from it.
    InUse,
}

impl fmt::Display for JournalState {
    fn fmt(&self, f: &mut fmt::Formatter<'_>) -> fmt::Result {
        f.write_str(match self {
            JournalState::Free => "free",
            JournalState::Unfinished => "unfinished",
            JournalState::InUse => "in use",
        })
    }
}

impl Journals {
    /// Makes a file of so many journals, 1 to 65,535, all of them free, of so many blocks each: as
    /// [`NewJournal::create`](crate::NewJournal::create) has them. A power failure leaves the whole file or none of that name.
    ///
    /// # Errors
    /// [`JournalError::BadBlocks`], [`JournalError::BadJournals`], and as of [`NewJournal::create`](crate::NewJournal::create)
    /// [`JournalError::NoFileName`], [`JournalError::Exists`], [`JournalError::Locked`], [`JournalError::NoHardLinks`],
    /// [`JournalError::Folder`], or [`JournalError::Io`] with what the disk says.
    ///
    /// # Panics
    /// If the linked library is another one: see [`check_library`](crate::check_library).
    pub fn create(
        path: impl AsRef<Path>,
        journals: usize,
        blocks: usize,
    ) -> Result<Journals, JournalError> {
        let many = Many::new(journals, blocks)?;
        let (file, unnamed) = make_zeroed(path.as_ref(), many.file_len())?;
        unnamed.name(&file, Some(&many.first_sector()))?;
        Ok(Journals::of(file, many))
    }

    /// Opens a file of several journals. What another process wrote to it is made durable. No journal of it is read yet.
    ///
    /// # Errors
    /// [`JournalError::Locked`], [`JournalError::Form`] if it is no such file, or [`JournalError::Io`] with what the disk says, that there is
    /// no such file among it. Nothing is written then.
    ///
    /// # Panics
    /// If the linked library is another one: see [`check_library`](crate::check_library).
    pub fn open(path: impl AsRef<Path>) -> Result<Journals, JournalError> {
        let (file, len) = open_locked(path.as_ref())?;
        let many = Many::of_file(len, |bytes, at| file.read_exact_at(bytes, at))?;
        file.sync_data()?;
        Ok(Journals::of(file, many))
    }

    fn of(file: Opened, many: Many) -> Journals {
        let taken = vec![Owner::Nobody; many.journals as usize];
        Journals {
            shared: Arc::new(Shared {
                file,
                many,
                taken: Mutex::new(taken),
                syncing: Mutex::new(()),
                synced: AtomicU64::new(0),
                failed: AtomicU64::new(0),
                unsynced: AtomicBool::new(false),
            }),
        }
    }

    /// How many journals it has. Their numbers begin at 0.
    #[must_use]
    pub fn count(&self) -> usize {
        self.shared.many.journals as usize
    }

    /// How many blocks each of them has.
    #[must_use]
    pub fn blocks(&self) -> usize {
        self.shared.many.blocks
    }

    /// How many syncs of the file there were since it was created or opened: two for each checkpoint, or for
    /// [many together](crate::checkpoint_all).
    #[must_use]
    pub fn syncs(&self) -> u64 {
        self.shared.synced.load(Ordering::SeqCst)
    }

    /// What the file says of a journal.
    ///
    /// # Errors
    /// [`JournalError::NoSuchJournal`], [`JournalError::Locked`] if somebody has it, who has it in use, [`JournalError::Lost`], or
    /// [`JournalError::Io`].
    pub fn state(&self, number: usize) -> Result<JournalState, JournalError> {
        Ok(self.take(number)?.look()?.1)
    }

    /// A free journal, for a consumer that no server had before; otherwise [import](Journals::import) what that server had. It is in use from
    /// then on, durably.
    ///
    /// # Errors
    /// [`JournalError::NoSuchJournal`], [`JournalError::Locked`] if somebody has it, [`JournalError::Used`] if it is in use,
    /// [`JournalError::Unfinished`], [`JournalError::Lost`], or [`JournalError::Io`] with what the disk says.
    pub fn new_journal(&self, number: usize) -> Result<NewJournal<JournalPart>, JournalError> {
        let mut part = self.take(number)?;
        let (area, state) = part.look()?;
        match state {
            JournalState::Free => {}
            JournalState::Unfinished => return Err(JournalError::Unfinished),
            JournalState::InUse => return Err(JournalError::Used),
        }
        part.mark(Some(Mark::InUse))?;
        let journal = Journal::of(part, area);
        Ok(NewJournal { journal })
    }

    /// A journal that is in use, for a restart.
    ///
    /// # Errors
    /// [`JournalError::NoSuchJournal`], [`JournalError::Locked`] if somebody has it, [`JournalError::Free`], [`JournalError::Unfinished`],
    /// [`JournalError::Lost`], or [`JournalError::Io`] with what the disk says.
    pub fn journal(&self, number: usize) -> Result<Journal<JournalPart>, JournalError> {
        let mut part = self.take(number)?;
        let (area, state) = part.look()?;
        match state {
            JournalState::Free => Err(JournalError::Free),
            JournalState::Unfinished => Err(JournalError::Unfinished),
            JournalState::InUse => Ok(Journal::of(part, area)),
        }
    }

    /// Makes a journal free, whatever it has: **the checkpoints in it are gone**, as with a file that is deleted, and what
    /// [`NewJournal`](crate::NewJournal) says of that holds here. If it is cut, the journal is unfinished or still in use, and can be freed again.
    ///
    /// # Errors
    /// [`JournalError::NoSuchJournal`], [`JournalError::Locked`] if somebody has it, or [`JournalError::Io`] with what the disk says.
    pub fn free(&self, number: usize) -> Result<(), JournalError> {
        let mut part = self.take_lost(number)?;
        part.clear()?;
        part.mark(None)?;
        Ok(())
    }

    /// A journal that is zeroed and says that it is unfinished, for an import.
    pub(crate) fn cleared(&self, number: usize) -> Result<NewJournal<JournalPart>, JournalError> {
        let mut part = self.take_lost(number)?;
        match part.look()?.1 {
            JournalState::Free if !part.lost => part.mark(Some(Mark::Unfinished))?,
            JournalState::Free | JournalState::Unfinished => part.clear()?,
            JournalState::InUse => return Err(JournalError::Used),
        }
        NewJournal::on(part)
    }

    // One that nobody has. What was written of it before is durable then.
    fn take(&self, number: usize) -> Result<JournalPart, JournalError> {
        let mut part = self.take_lost(number)?;
        if part.lost {
            return Err(JournalError::Lost);
        }
        let synced = if part.shared.is_unsynced() {
            part.shared.sync()
        } else {
            Ok(())
        };
        part.is_held()?;
        synced?;
        Ok(part)
    }

    // The same, also where the disk failed.
    fn take_lost(&self, number: usize) -> Result<JournalPart, JournalError> {
        let shared = Arc::clone(&self.shared);
        let owner = match locked(&shared.taken).get_mut(number) {
            None => return Err(JournalError::NoSuchJournal(number)),
            Some(Owner::Somebody) => return Err(JournalError::Locked),
            Some(owner) => std::mem::replace(owner, Owner::Somebody),
        };
        Ok(JournalPart {
            layout: shared.many.journal(number),
            shared,
            number,
            failed_before: match owner {
                Owner::Left(failed) => Some(failed),
                _ => None,
            },
            lost: owner == Owner::Lost,
        })
    }
}

impl fmt::Debug for Journals {
    fn fmt(&self, f: &mut fmt::Formatter<'_>) -> fmt::Result {
        write!(f, "{} journals of {} blocks", self.count(), self.blocks())
    }
}

// Who has a journal.
#[derive(Clone, Copy, Debug, PartialEq, Eq)]
enum Owner {
    Nobody,
    Somebody,
    // Nobody, and it was given up before all was synced: how many syncs had failed before the first write that wasn't.
    Left(u64),
    // Nobody, and the disk failed: what was written may not be durable, though it is read back.
    Lost,
}

// A file of journals, as all of them have it.
#[derive(Debug)]
struct Shared {
    file: Opened,
    many: Many,
    // who has each of them
    taken: Mutex<Vec<Owner>>,
    // one sync at a time, so that who comes after one that failed knows it
    syncing: Mutex<()>,
    // how many syncs there were, and how many of them have failed
    synced: AtomicU64,
    failed: AtomicU64,
    // whether anything was written since the last sync that succeeded
    unsynced: AtomicBool,
}

// Nothing that a thread does here leaves half of it done.
fn locked<T>(place: &Mutex<T>) -> MutexGuard<'_, T> {
    place.lock().unwrap_or_else(PoisonError::into_inner)
}

impl Shared {
    fn write_all_at(&self, bytes: &[u8], at: u64) -> io::Result<()> {
        let written = self.file.write_all_at(bytes, at);
        self.unsynced.store(true, Ordering::SeqCst);
        written
    }

    // Not while a sync is under way, which may fail.
    fn is_unsynced(&self) -> bool {
        let _none = locked(&self.syncing);
        self.unsynced.load(Ordering::SeqCst)
    }

    fn sync(&self) -> io::Result<()> {
        let _one = locked(&self.syncing);
        self.unsynced.store(false, Ordering::SeqCst);
        let synced = self.file.sync_data();
        self.synced.fetch_add(1, Ordering::SeqCst);
        if synced.is_err() {
            self.unsynced.store(true, Ordering::SeqCst);
            self.failed.fetch_add(1, Ordering::SeqCst);
        }
        synced
    }
}

/// One journal of a [file of several](Journals). It comes with a journal and can't be had without: a consumer's checkpoints are all that
/// writes it.
#[derive(Debug)]
pub struct JournalPart {
    shared: Arc<Shared>,
    layout: Layout,
    number: usize,
    // how many syncs of the file had failed before the first write since the last sync
    failed_before: Option<u64>,
    // a write or a sync of it failed, and none has succeeded since
    lost: bool,
}

impl JournalPart {
    /// Which journal of its file it is, counted from 0.
    #[must_use]
    pub fn number(&self) -> usize {
        self.number
    }

    // What the journal has, and what the file says of it. A mark goes with the last block, which a checkpoint writes only when another is
    // in the journal: so where it is torn, a header says that the journal is in use.
    fn look(&mut self) -> Result<(Area, JournalState), JournalError> {
        let area = self.read()?;
        let mark = self.read_mark();
        let middle = self.shared.many.blocks / 2;
        let state = match Mark::of_block(&mark) {
            Some(Mark::InUse) => JournalState::InUse,
            Some(Mark::Unfinished) => JournalState::Unfinished,
            None if is_zero(&mark) && is_zero(area.bytes()) => JournalState::Free,
            None if is_header(area.block(0)) || is_header(area.block(middle)) => {
                JournalState::InUse
            }
            None => JournalState::Unfinished,
        };
        Ok((area, state))
    }

    // The mark, or what stands in its place. One that can't be read is none.
    fn read_mark(&self) -> [u8; BLOCK] {
        let mut mark = [0; BLOCK];
        let place = self.layout.place_of_mark();
        match self.shared.file.read_exact_at(&mut mark, place) {
            Ok(()) => mark,
            Err(_) => [crate::UNREADABLE; BLOCK],
        }
    }

    /// Marks a journal whose last block is zeros, durably.
    pub(crate) fn mark(&mut self, mark: Option<Mark>) -> io::Result<()> {
        self.layout = self.layout.with_mark(mark);
        let last = self.shared.many.blocks - 1;
        self.write_block(last, &[0; BLOCK])?;
        self.sync()
    }

    // Zeroes a journal, whatever it has. It is marked as unfinished before the first block goes. One that is marked so already isn't marked
    // again before its blocks are zeros: a torn mark beside the header of an import that was cut would say that it is in use. Where the disk
    // failed, what is read need not be on it: zeros under a mark that still says in use would be a fresh consumer, so it is marked again.
    fn clear(&mut self) -> io::Result<()> {
        if self.lost || Mark::of_block(&self.read_mark()) != Some(Mark::Unfinished) {
            self.mark(Some(Mark::Unfinished))?;
        }
        for block in 0..self.shared.many.blocks - 1 {
            self.write_block(block, &[0; BLOCK])?;
        }
        self.sync()?;
        self.mark(Some(Mark::Unfinished))
    }

    // Whether the file's last sync, which succeeded, made durable what was written here: not if one failed since then. The system says
    // only once that something could not be made durable, to whoever syncs next, and forgets it.
    fn is_held(&mut self) -> io::Result<()> {
        let failed = self.shared.failed.load(Ordering::SeqCst);
        match self.failed_before.take() {
            Some(before) if before != failed => {
                self.lost = true;
                Err(io::Error::other(
                    "a sync of another journal's blocks in the same file failed since these were written",
                ))
            }
            _ => {
                self.lost = false;
                Ok(())
            }
        }
    }
}

fn is_zero(bytes: &[u8]) -> bool {
    bytes.iter().all(|byte| *byte == 0)
}

impl Storage for JournalPart {
    fn read(&mut self) -> io::Result<Area> {
        let file = &self.shared.file;
        self.layout.read(|bytes, at| file.read_exact_at(bytes, at))
    }

    fn write_block(&mut self, block: usize, bytes: &[u8; BLOCK]) -> io::Result<()> {
        let shared = &self.shared;
        self.failed_before
            .get_or_insert_with(|| shared.failed.load(Ordering::SeqCst));
        let write = |bytes: &[u8], at| shared.write_all_at(bytes, at);
        let written = self.layout.write_block(block, bytes, write);
        self.lost |= written.is_err();
        written
    }

    fn sync(&mut self) -> io::Result<()> {
        let synced = self.shared.sync();
        if synced.is_err() {
            self.lost = true;
            self.failed_before = None;
            return synced;
        }
        self.is_held()
    }

    fn check(&mut self) -> io::Result<()> {
        self.shared.file.check(self.shared.many.file_len())
    }

    fn synced_by(&mut self, other: &JournalPart) -> Option<io::Result<()>> {
        Arc::ptr_eq(&self.shared, &other.shared).then(|| self.is_held())
    }
}

impl Drop for JournalPart {
    fn drop(&mut self) {
        let owner = match self.failed_before {
            _ if self.lost => Owner::Lost,
            Some(failed) => Owner::Left(failed),
            None => Owner::Nobody,
        };
        locked(&self.shared.taken)[self.number] = owner;
    }
}

#[cfg(test)]
mod tests {
    use std::cell::RefCell;
    use std::path::PathBuf;
    use std::rc::Rc;

    use super::*;
    use crate::{
        checkpoint_all, CheckpointError, Configuration, Consumer, Failed, Offset, WorkerId,
    };

    const WORKER: WorkerId = WorkerId::new(0);

    // What the disks of some journals are asked, and which of it fails.
    #[derive(Default)]
    struct Plan {
        fails_in: Option<usize>,
        asked: Vec<Asked>,
    }

    #[derive(Clone, Copy, Debug, PartialEq, Eq)]
    enum Asked {
        Block,
        Header,
        Sync,
    }

    // A journal whose disk fails as it is planned. A sync that fails is one of the file.
    struct Faulty {
        part: JournalPart,
        plan: Rc<RefCell<Plan>>,
    }

    impl Faulty {
        fn fails(&self, asked: Asked) -> bool {
            let plan = &mut *self.plan.borrow_mut();
            plan.asked.push(asked);
            let fails = plan.fails_in == Some(0);
            plan.fails_in = plan.fails_in.and_then(|left| left.checked_sub(1));
            fails
        }
    }

    fn failure() -> io::Result<()> {
        Err(io::Error::other("the disk failed"))
    }

    impl Storage for Faulty {
        fn read(&mut self) -> io::Result<Area> {
            self.part.read()
        }

        fn write_block(&mut self, block: usize, bytes: &[u8; BLOCK]) -> io::Result<()> {
            let header = bytes[0] == 1;
            if self.fails(if header { Asked::Header } else { Asked::Block }) {
                return failure();
            }
            self.part.write_block(block, bytes)
        }

        fn sync(&mut self) -> io::Result<()> {
            if self.fails(Asked::Sync) {
                self.part.shared.failed.fetch_add(1, Ordering::SeqCst);
                self.part.failed_before = None;
                return failure();
            }
            self.part.sync()
        }

        fn synced_by(&mut self, other: &Faulty) -> Option<io::Result<()>> {
            self.part.synced_by(&other.part)
        }
    }

    fn path(name: &str) -> PathBuf {
        let name = format!("ninotskev-{name}-{}", std::process::id());
        let path = std::env::temp_dir().join(name);
        let _ = std::fs::remove_file(&path);
        path
    }

    // A file of some journals, each in use with one checkpoint.
    fn file(name: &str, journals: usize) -> Journals {
        let path = path(name);
        let file = Journals::create(&path, journals, 18).unwrap();
        let started = (0..journals).map(|number| {
            let journal = file.new_journal(number).unwrap();
            Consumer::start(&Configuration::default(), journal).unwrap()
        });
        for made in checkpoint_all(started, WORKER) {
            drop(made.unwrap());
        }
        std::fs::remove_file(&path).unwrap();
        file
    }

    // How many syncs clearing a journal takes: one more where it is marked as unfinished first.
    fn syncs_to_clear(part: &mut JournalPart) -> u64 {
        let before = part.shared.synced.load(Ordering::SeqCst);
        part.clear().unwrap();
        part.shared.synced.load(Ordering::SeqCst) - before
    }

    // After an error of the disk a mark that is read need not be on the disk: there it may still say in use, and zeros under it would be
    // restarted from as a fresh consumer.
    #[test]
    fn what_the_disk_may_lack_is_marked_again_before_the_first_zero() {
        let file = file("lost-mark", 1);
        let mut part = file.take_lost(0).unwrap();
        assert_eq!(syncs_to_clear(&mut part), 3);
        assert_eq!(syncs_to_clear(&mut part), 2);
        part.lost = true;
        assert_eq!(syncs_to_clear(&mut part), 3);
        assert!(!part.lost);
    }

    // Consumers of all journals of a file, each with an offset more settled.
    fn consumers(file: &Journals, plan: &Rc<RefCell<Plan>>, bound: u64) -> Vec<Consumer<Faulty>> {
        let consumer = |number| {
            let part = file.take(number).unwrap();
            let plan = Rc::clone(plan);
            let journal = Journal::on(Faulty { part, plan }).unwrap();
            let mut consumer = Consumer::restart(&Configuration::default(), journal).unwrap();
            consumer.commit(WORKER, Offset::new(bound)).unwrap();
            consumer
        };
        let consumers = (0..file.count()).map(consumer).collect();
        *plan.borrow_mut() = Plan::default();
        consumers
    }

    fn asked(blocks: usize, headers: usize) -> Vec<Asked> {
        [
            vec![Asked::Block; blocks],
            vec![Asked::Sync],
            vec![Asked::Header; headers],
            vec![Asked::Sync],
        ]
        .concat()
    }

    #[test]
    fn two_syncs_do_for_all() {
        let file = file("two-syncs", 20);
        let plan = Rc::default();
        let made = checkpoint_all(consumers(&file, &plan, 1), WORKER);
        assert!(made.iter().all(Result::is_ok));
        assert_eq!(plan.borrow().asked, asked(20, 20));
    }

    #[test]
    fn several_files_take_two_syncs_each() {
        let files = ["one-of-two", "two-of-two"].map(|name| file(name, 3));
        let plan = Rc::default();
        // One of each in turns.
        let [one, two] = [0, 1].map(|i| consumers(&files[i], &plan, 1));
        let all: Vec<_> = one.into_iter().zip(two).flat_map(<[_; 2]>::from).collect();
        let made = checkpoint_all(all, WORKER);
        assert!(made.iter().all(Result::is_ok));
        let (block, header) = (vec![Asked::Block; 6], vec![Asked::Header; 6]);
        let syncs = vec![Asked::Sync; 2];
        assert_eq!(
            plan.borrow().asked,
            [block, syncs.clone(), header, syncs].concat()
        );
    }

    // What is left of a checkpoint whose disk failed: a restart finds it whole, or the one before.
    fn settled(failed: Failed<Faulty>) -> (bool, u64) {
        let header = failed.writer_has_header();
        let journal = failed.reopen().unwrap();
        let consumer = Consumer::restart(&Configuration::default(), journal).unwrap();
        (header, consumer.committed(WORKER).unwrap().get())
    }

    // Each write and each sync of a checkpoint of four consumers fails in its turn.
    #[test]
    fn each_is_left_with_what_it_needs() {
        let file = file("faults", 4);
        let plan = Rc::new(RefCell::new(Plan::default()));
        let mut bounds = [0; 4];
        let mut seen = Vec::new();
        for (fault, bound) in (0..47).cycle().zip(1..300) {
            let all = consumers(&file, &plan, bound);
            plan.borrow_mut().fails_in = Some(fault);
            let made = checkpoint_all(all, WORKER);
            plan.borrow_mut().fails_in = None;
            let fails = plan.borrow().asked.get(fault).copied();
            seen.push(fails);
            let mut failures = 0;
            for (made, last) in made.into_iter().zip(&mut bounds) {
                let found = match made {
                    Ok(consumer) => {
                        *last = bound;
                        consumer.committed(WORKER).unwrap().get()
                    }
                    Err(CheckpointError::Failed(failed)) => {
                        failures += 1;
                        let (header, found) = settled(failed);
                        if header {
                            *last = bound;
                        }
                        found
                    }
                    Err(CheckpointError::Refused(error)) => panic!("{error}"),
                };
                assert_eq!(found, *last, "at fault {fault}");
            }
            // A write is of one of them, and a sync of all.
            let most = match fails {
                None => 0,
                Some(Asked::Sync) => 4,
                Some(_) => 1,
            };
            assert_eq!(failures, most);
        }
        for fault in [Asked::Block, Asked::Header, Asked::Sync] {
            assert!(seen.contains(&Some(fault)));
        }
        for (number, last) in bounds.into_iter().enumerate() {
            let journal = file.journal(number).unwrap();
            let consumer = Consumer::restart(&Configuration::default(), journal).unwrap();
            assert_eq!(consumer.committed(WORKER).unwrap().get(), last);
        }
    }

    // What was given up before it was durable is synced before somebody gets it again, and isn't given where a sync failed since.
    #[test]
    fn what_was_given_up_is_durable_or_lost() {
        let file = file("given-up", 3);
        let [mut one, mut other] = [0, 1].map(|number| file.take(number).unwrap());
        one.write_block(17, &[0; BLOCK]).unwrap();
        drop(one);
        assert!(file.shared.unsynced.load(Ordering::SeqCst));
        drop(file.journal(0).unwrap());
        assert!(!file.shared.unsynced.load(Ordering::SeqCst));
        other.write_block(17, &[0; BLOCK]).unwrap();
        drop(other);
        file.shared.failed.fetch_add(1, Ordering::SeqCst);
        assert!(matches!(file.journal(1), Err(JournalError::Io(_))));
        for _ in 0..2 {
            assert!(matches!(file.journal(1), Err(JournalError::Lost)));
            assert!(matches!(file.state(1), Err(JournalError::Lost)));
        }
        assert!(file.journal(0).is_ok() && file.journal(2).is_ok());
        // Freeing it writes all of it.
        file.free(1).unwrap();
        assert_eq!(file.state(1).unwrap(), JournalState::Free);
    }
}
