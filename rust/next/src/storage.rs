//! Where a journal's blocks are kept, and what is asked of a disk.

use std::cell::Cell;
use std::io;

/// The bytes of a block.
pub const BLOCK: usize = 512;

/// The fewest blocks of a journal: each half of it has room for the largest checkpoint.
pub const MIN_BLOCKS: usize = 18;

/// The most blocks of a journal.
pub const MAX_BLOCKS: usize = 128;

/// Where a journal's blocks are kept. [`JournalFile`](crate::JournalFile) is the one for a server; tests put others in its place.
///
/// # What an implementor promises
///
/// Nothing here can test it, and the promises about delivery rest on it. It is the disk of `docs/SPEC.md`, "Disk".
///
/// - **Held and pending.** Of each block there is what is *held*, and there are its *pending* writes: those since the last sync, oldest
///   first. A [write](Storage::write_block) adds one to them, of its own block and no other.
/// - **A power failure** leaves each block, by itself, as it was held, as any one of its pending writes, or, if it has one, as any 512 bytes
///   whose check fails. (The check of a block is the CRC32C of its first 508 bytes, and lies in its last four.) So pending writes can be
///   lost, torn, and made in any order. A block without a pending write stays as it was held.
/// - **A [sync](Storage::sync)** that succeeds makes everything held that is pending: of each block its last write. Then nothing is pending.
/// - **Reads show what was written**: of each block the last write, whether it is held or pending. A process that is killed loses none of
///   them: without a power failure the next one reads what the system has.
/// - **Errors are not hidden.** A write that answers an error may have been made, be torn, or not have been made. A sync that answers an
///   error may have made any of the pending writes held, and may have forgotten any others, though reads still show them. So after either
///   [`Failed::reopen`](crate::Failed::reopen) writes every pending block again, syncs, and only then reads. No method panics: a panic
///   loses the consumer, and what `Failed` remembers.
/// - **One owner.** While this value lives, nobody else writes the blocks, and there is no second value over them: no other process, and
///   nothing else in this one. `JournalFile` holds a lock for it.
/// - **One length.** It is the same from the first read on, for the life of the journal.
///
/// # What is asked of it, and when
///
/// | what | which calls |
/// |---|---|
/// | a journal is opened, or created | a sync, a read |
/// | a checkpoint | a [check](Storage::check), a write for each block but the header, a sync, the write of the header, a sync |
/// | [`checkpoint_all`](crate::checkpoint_all) | the same of each, with the first writes of all before the first sync, and all headers between the two |
/// | a checkpoint that is [given up](crate::Writing::into_journal) | a sync |
/// | [`Failed::reopen`](crate::Failed::reopen) | the pending writes again, a sync, a read |
///
/// So a checkpoint takes two syncs, however many blocks it has, and the header is written only when nothing else is pending.
///
/// # An example
///
/// A journal in memory, for a test of a server. A test of errors answers them from `write_block` and `sync`.
///
/// ```
/// use std::io;
///
/// use ironbus_delivery_state::{Area, Configuration, Consumer, NewJournal, Offset, Storage, WorkerId, BLOCK};
///
/// struct InMemory(Vec<u8>);
///
/// impl Storage for InMemory {
///     fn read(&mut self) -> io::Result<Area> {
///         Ok(self.0.clone().into())
///     }
///
///     fn write_block(&mut self, block: usize, bytes: &[u8; BLOCK]) -> io::Result<()> {
///         self.0[BLOCK * block..BLOCK * (block + 1)].copy_from_slice(bytes);
///         Ok(())
///     }
///
///     fn sync(&mut self) -> io::Result<()> {
///         Ok(())
///     }
/// }
///
/// let worker = WorkerId::new(0);
/// let journal = NewJournal::on(InMemory(vec![0; 18 * BLOCK]))?;
/// let consumer = Consumer::start(&Configuration::default(), journal)?;
/// let mut consumer = consumer.checkpoint(worker)?;
/// let token = consumer.claim(worker, Offset::new(0), 0)?.token();
/// consumer.ack(worker, token)?;
/// # Ok::<(), Box<dyn std::error::Error>>(())
/// ```
pub trait Storage {
    /// What there is, block after block, as it was written last. A block that can't be read is [marked](Area::mark_unreadable), and the
    /// others are read.
    ///
    /// # Errors
    /// What the disk says, if no block can be read.
    fn read(&mut self) -> io::Result<Area>;

    /// Writes one block at its place, counted from 0, and no other. It need not be durable before the answer. A write that was
    /// interrupted or came short is gone on with.
    ///
    /// # Errors
    /// What the disk says. The block may then be old, new or torn.
    fn write_block(&mut self, block: usize, bytes: &[u8; BLOCK]) -> io::Result<()>;

    /// Makes everything durable that was written before it.
    ///
    /// # Errors
    /// What the disk says, if anything that was written may not be durable.
    fn sync(&mut self) -> io::Result<()>;

    /// Whether the blocks are still where the next open finds them. It is asked as a checkpoint begins, before anything is written.
    /// Unless an implementor says otherwise they are.
    ///
    /// # Errors
    /// What became of them. The checkpoint is not begun then, and nothing has changed.
    fn check(&mut self) -> io::Result<()> {
        Ok(())
    }

    /// Whether a sync of another storage, which has just succeeded, and before which everything was written here, was one of this storage too:
    /// both lie in the same file. [`checkpoint_all`](crate::checkpoint_all) asks it, to make one sync do for many. None says that a sync of
    /// its own is needed, which is always right.
    ///
    /// # Errors
    /// As for [`sync`](Storage::sync).
    fn synced_by(&mut self, other: &Self) -> Option<io::Result<()>> {
        let _ = other;
        None
    }
}

/// What a [`Storage`] has: its blocks, one after the other, and which of them can't be read.
#[derive(Clone, Debug, Default, PartialEq, Eq)]
pub struct Area {
    pub(crate) bytes: Vec<u8>,
    unreadable: Vec<usize>,
}

impl Area {
    /// The blocks, byte by byte.
    #[must_use]
    pub fn bytes(&self) -> &[u8] {
        &self.bytes
    }

    /// The blocks that can't be read, in the order in which they were marked.
    #[must_use]
    pub fn unreadable(&self) -> &[usize] {
        &self.unreadable
    }

    /// Notes that a block can't be read. Its bytes become [`UNREADABLE`], whose check fails: a restart takes it for a torn one.
    /// A block that there isn't is left out.
    pub fn mark_unreadable(&mut self, block: usize) {
        let bytes = self.block_mut(block);
        bytes.fill(UNREADABLE);
        if !bytes.is_empty() && !self.unreadable.contains(&block) {
            self.unreadable.push(block);
        }
    }

    /// A block of it.
    pub(crate) fn block(&self, block: usize) -> &[u8; BLOCK] {
        let (blocks, _) = self.bytes.as_chunks();
        &blocks[block]
    }

    /// A block of it, or what there is of it.
    pub(crate) fn block_mut(&mut self, block: usize) -> &mut [u8] {
        let block = self.bytes.chunks_mut(BLOCK).nth(block);
        block.unwrap_or_default()
    }
}

/// All of its blocks can be read.
impl From<Vec<u8>> for Area {
    fn from(bytes: Vec<u8>) -> Area {
        Area {
            bytes,
            unreadable: Vec::new(),
        }
    }
}

/// Each byte of a block that [can't be read](Area::mark_unreadable), as a restart gets it. A block of it is no header and no body, and
/// its check fails.
pub const UNREADABLE: u8 = 0xff;

/// Lends so many bytes, whatever they are: at most 65,536 are asked for. A thread has them once, and keeps them.
pub(crate) fn with_scratch<T>(len: usize, call: impl FnOnce(&mut [u8]) -> T) -> T {
    thread_local! {
        static SCRATCH: Cell<Vec<u8>> = const { Cell::new(Vec::new()) };
    }
    // A thread that ends may have given them up already.
    let mut bytes = SCRATCH.try_with(Cell::take).unwrap_or_default();
    if bytes.len() < len {
        bytes = vec![0; len];
    }
    let answer = call(&mut bytes[..len]);
    let _ = SCRATCH.try_with(|place| place.set(bytes));
    answer
}

#[cfg(test)]
mod tests {
    use super::*;
    use crate::ffi::crc32c;

    #[test]
    fn the_check_of_a_block_that_can_not_be_read_fails() {
        let mut area = Area::from(vec![0; 3 * BLOCK]);
        area.mark_unreadable(1);
        let block = area.block(1);
        assert_ne!(crc32c(&block[..508]).to_le_bytes(), block[508..]);
        assert!(block[0] != 1 && block[0] != 2);
        // The others stay; a second time, and one that there isn't, are left out.
        area.mark_unreadable(1);
        area.mark_unreadable(3);
        assert_eq!(area.unreadable(), [1]);
        assert_eq!((area.block(0), area.block(2)), (&[0; BLOCK], &[0; BLOCK]));
    }
}
