//! Where the blocks go.

use std::cell::Cell;
use std::fs::{File, OpenOptions};
use std::hint::black_box;
use std::io;
use std::os::unix::fs::FileExt;
use std::path::Path;
use std::rc::Rc;

use ironbus_delivery_state::{Area, Storage, BLOCK, SECTOR};

/// A file with each block in a sector of its own, as the crate's own has them. A sync makes it durable or does nothing.
pub struct Blocks {
    file: File,
    blocks: usize,
    durable: bool,
    syncs: Rc<Cell<u64>>,
}

impl Blocks {
    pub fn new(path: &Path, blocks: usize, durable: bool) -> Blocks {
        let mut open = OpenOptions::new();
        let file = open
            .read(true)
            .write(true)
            .create(true)
            .truncate(true)
            .open(path)
            .unwrap();
        file.write_all_at(&vec![0; SECTOR * (1 + blocks)], 0)
            .unwrap();
        file.sync_all().unwrap();
        Blocks {
            file,
            blocks,
            durable,
            syncs: Rc::default(),
        }
    }

    /// How many syncs there were.
    pub fn syncs(&self) -> Rc<Cell<u64>> {
        Rc::clone(&self.syncs)
    }
}

fn place(block: usize) -> u64 {
    (SECTOR * (1 + block)) as u64
}

impl Storage for Blocks {
    fn read(&mut self) -> io::Result<Area> {
        let mut bytes = vec![0; BLOCK * self.blocks];
        for (block, bytes) in bytes.chunks_mut(BLOCK).enumerate() {
            self.file.read_exact_at(bytes, place(block))?;
        }
        Ok(bytes.into())
    }

    fn write_block(&mut self, block: usize, bytes: &[u8; BLOCK]) -> io::Result<()> {
        let mut sector = [0; SECTOR];
        sector[..BLOCK].copy_from_slice(bytes);
        self.file.write_all_at(&sector, place(block))
    }

    fn sync(&mut self) -> io::Result<()> {
        self.syncs.set(self.syncs.get() + 1);
        if self.durable {
            self.file.sync_data()?;
        }
        Ok(())
    }
}

/// So many blocks in memory: for the time of the calls alone.
pub struct Memory(Vec<u8>);

impl Memory {
    pub fn new(blocks: usize) -> Memory {
        Memory(vec![0; BLOCK * blocks])
    }
}

impl Storage for Memory {
    fn read(&mut self) -> io::Result<Area> {
        Ok(self.0.clone().into())
    }

    fn write_block(&mut self, block: usize, bytes: &[u8; BLOCK]) -> io::Result<()> {
        self.0[BLOCK * block..BLOCK * (block + 1)].copy_from_slice(bytes);
        Ok(())
    }

    fn sync(&mut self) -> io::Result<()> {
        Ok(())
    }
}

/// Blocks that are written nowhere: for the memory of the original, which has no journal.
pub struct Nowhere;

impl Storage for Nowhere {
    fn read(&mut self) -> io::Result<Area> {
        Ok(Area::default())
    }

    fn write_block(&mut self, block: usize, bytes: &[u8; BLOCK]) -> io::Result<()> {
        black_box((block, bytes));
        Ok(())
    }

    fn sync(&mut self) -> io::Result<()> {
        Ok(())
    }
}
