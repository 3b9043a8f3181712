//! Where the blocks go.

use std::fs::{File, OpenOptions};
use std::hint::black_box;
use std::io;
use std::os::unix::fs::FileExt;
use std::path::Path;

use ironbus_delivery_state::{Storage, BLOCK, MAX_BLOCKS};

/// A file of blocks, made durable at each write or not.
pub struct Blocks {
    file: File,
    sync: bool,
}

impl Blocks {
    pub fn new(path: &Path, sync: bool) -> Blocks {
        let mut open = OpenOptions::new();
        let file = open
            .read(true)
            .write(true)
            .create(true)
            .truncate(true)
            .open(path)
            .unwrap();
        file.write_all_at(&[0; BLOCK * MAX_BLOCKS], 0).unwrap();
        file.sync_all().unwrap();
        Blocks { file, sync }
    }
}

impl Storage for Blocks {
    fn read(&mut self) -> io::Result<Vec<u8>> {
        let mut bytes = vec![0; BLOCK * MAX_BLOCKS];
        self.file.read_exact_at(&mut bytes, 0)?;
        Ok(bytes)
    }

    fn write_block(&mut self, block: usize, bytes: &[u8; BLOCK]) -> io::Result<()> {
        self.file.write_all_at(bytes, (BLOCK * block) as u64)?;
        if self.sync {
            self.file.sync_data()?;
        }
        Ok(())
    }
}

/// So many blocks, which are written nowhere: for the time of the calls alone. A journal has its own copy of them for a restart.
pub struct Nowhere {
    pub blocks: usize,
}

impl Storage for Nowhere {
    fn read(&mut self) -> io::Result<Vec<u8>> {
        Ok(vec![0; BLOCK * self.blocks])
    }

    fn write_block(&mut self, block: usize, bytes: &[u8; BLOCK]) -> io::Result<()> {
        black_box((block, bytes));
        Ok(())
    }
}
