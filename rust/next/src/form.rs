//! How a journal's blocks lie in its file, and what the first sector says of it.
//!
//! A file of sectors, numbers little-endian:
//!
//! | bytes of sector 0 | |
//! |---|---|
//! | 0 to 7 | the magic word, `NINOTSKV` |
//! | 8 to 11 | version of the layout, 1 |
//! | 12 to 15 | bytes of a sector, 4,096 |
//! | 16 to 19 | blocks of a journal, an even number from 18 to 128 |
//! | 20 to 23 | journals, 1 to 65,535 |
//! | 24 | 1 if its journals have marks, and otherwise 0 |
//! | 25 to 507 | zeros |
//! | 508 to 511 | CRC32C of bytes 0 to 507 |
//! | 512 to 4,095 | zeros |
//!
//! Block b of journal j, both counted from 0, lies at the front of sector 1 + j × blocks + b, and zeros fill the rest of the sector, but
//! for the mark. There is nothing else in the file.
//!
//! A journal's [mark](Mark) lies after its last block, in the same sector: 512 bytes, of which the first is its number and the last four are
//! the CRC32C of those before. A file of one journal that [`NewJournal`](crate::NewJournal) made has none.

use std::fmt;
use std::io;

use crate::errors::JournalError;
use crate::ffi::crc32c;
use crate::storage::{with_scratch, Area, BLOCK, MAX_BLOCKS, MIN_BLOCKS};

/// The bytes of a sector, where each block has one of its own.
pub const SECTOR: usize = 4096;

/// The most bytes of a file whose blocks lie side by side. A file of sectors is longer.
const MOST_SIDE_BY_SIDE: u64 = (BLOCK * MAX_BLOCKS) as u64;

const MAGIC: [u8; 8] = *b"NINOTSKV";
const VERSION: u32 = 1;
/// The most journals of a file.
pub(crate) const MAX_JOURNALS: u32 = 65_535;

/// The file is at least so long: sector 0 and the shortest journal.
const LEAST_OF_SECTORS: u64 = (SECTOR * (1 + MIN_BLOCKS)) as u64;

/// How the blocks lie in a journal's file.
#[derive(Clone, Copy, Debug, PartialEq, Eq, Hash)]
#[non_exhaustive]
pub enum Form {
    /// Each block in a sector of 4,096 bytes of its own, after a first sector that says what the file is. A disk may lose any sector that
    /// is being written.
    Sectors,
    /// Blocks of 512 bytes side by side, as all files were before. The disk has to write each block by itself: a write of one that is cut
    /// off may not touch those beside it.
    SideBySide,
}

impl fmt::Display for Form {
    fn fmt(&self, f: &mut fmt::Formatter<'_>) -> fmt::Result {
        f.write_str(match self {
            Form::Sectors => "each block in a sector of its own",
            Form::SideBySide => "blocks side by side",
        })
    }
}

/// Why a file isn't a journal. Nothing was written to it.
#[derive(Debug)]
#[non_exhaustive]
pub enum FormError {
    /// It has so many bytes, over 65,536, and doesn't begin with the magic word `NINOTSKV`.
    NoMagicWord {
        /// How many bytes it has.
        bytes: u64,
    },
    /// Sector 0 can't be read: what the disk says.
    Unreadable(io::Error),
    /// The check of sector 0 fails.
    BadCheck,
    /// It has another version of the layout.
    Version(u32),
    /// It has sectors of another number of bytes.
    SectorBytes(u32),
    /// Its journals have so many blocks, and not an even number from 18 to 128.
    Blocks(u32),
    /// It has so many journals, and not 1 to 65,535.
    Journals(u32),
    /// It is a file of so many journals, which [`Journals`](crate::Journals) opens and [`Journal`](crate::Journal) doesn't.
    SeveralJournals(u32),
    /// Its journals have no marks, so that [`Journals`](crate::Journals) can't tell which are free; [`Journal`](crate::Journal) opens one of
    /// one journal.
    NoMarks,
    /// It is shorter than its first sector says, or than any file that begins with the magic word.
    TooShort {
        /// How many bytes it has.
        bytes: u64,
        /// How many it should have.
        wanted: u64,
    },
    /// It is longer than its first sector says.
    TooLong {
        /// How many bytes it has.
        bytes: u64,
        /// How many it should have.
        wanted: u64,
    },
    /// This byte of sector 0 should be zero.
    NotZero {
        /// Its place, counted from 0.
        byte: usize,
    },
}

impl fmt::Display for FormError {
    fn fmt(&self, f: &mut fmt::Formatter<'_>) -> fmt::Result {
        use FormError as E;
        match self {
            E::NoMagicWord { bytes } => write!(
                f,
                "it has {bytes} bytes and doesn't begin with NINOTSKV; without that word a journal has at most {MOST_SIDE_BY_SIDE}"
            ),
            E::Unreadable(_) => f.write_str("sector 0 can't be read"),
            E::BadCheck => f.write_str("the check of sector 0 is wrong"),
            E::Version(n) => write!(f, "its layout has version {n}, and not {VERSION}"),
            E::SectorBytes(n) => write!(f, "its sectors have {n} bytes, and not {SECTOR}"),
            E::Blocks(n) => write!(
                f,
                "its journals have {n} blocks, and not an even number from {MIN_BLOCKS} to {MAX_BLOCKS}"
            ),
            E::Journals(n) => write!(f, "it has {n} journals, and not 1 to {MAX_JOURNALS}"),
            E::SeveralJournals(n) => write!(f, "it is a file for several journals, of {n}, and `Journals` opens it"),
            E::NoMarks => f.write_str("its journals have no marks, and `Journals` opens only files of journals that have"),
            E::TooShort { bytes, wanted } => {
                write!(f, "it is too short: {bytes} bytes, and not {wanted}")
            }
            E::TooLong { bytes, wanted } => {
                write!(f, "it is too long: {bytes} bytes, and not {wanted}")
            }
            E::NotZero { byte } => write!(f, "byte {byte} of sector 0 is not zero"),
        }
    }
}

impl std::error::Error for FormError {
    fn source(&self) -> Option<&(dyn std::error::Error + 'static)> {
        match self {
            FormError::Unreadable(error) => Some(error),
            _ => None,
        }
    }
}

/// Where the blocks of one journal lie in its file.
#[derive(Clone, Copy, Debug, PartialEq, Eq)]
pub(crate) struct Layout {
    form: Form,
    // the bytes of all blocks; in a file from before that may be no whole number of them, which a restart refuses
    area_len: usize,
    // which journal of the file it is
    number: usize,
    // its mark, which goes with the last block
    mark: Option<Mark>,
}

impl Layout {
    /// The layout of a new file.
    pub(crate) fn new(form: Form, blocks: usize) -> Result<Layout, JournalError> {
        if !has_halves(blocks) {
            return Err(JournalError::BadBlocks(blocks));
        }
        Ok(Layout {
            form,
            area_len: BLOCK * blocks,
            number: 0,
            mark: None,
        })
    }

    /// The layout of a file of so many bytes. What reads it fills the bytes that it is lent, from a place on.
    pub(crate) fn of_file(
        len: u64,
        mut read_exact_at: impl FnMut(&mut [u8], u64) -> io::Result<()>,
    ) -> Result<Layout, JournalError> {
        let mut first = [0; SECTOR];
        let there = SECTOR.min(usize::try_from(len).unwrap_or(SECTOR));
        let first = &mut first[..there];
        let side_by_side = (len <= MOST_SIDE_BY_SIDE).then_some(Layout {
            form: Form::SideBySide,
            area_len: len as usize,
            number: 0,
            mark: None,
        });
        match read_exact_at(first, 0) {
            Ok(()) if first.starts_with(&MAGIC) => {
                let many = Many::of_sector(first, len)?;
                if many.marked || many.journals > 1 {
                    return Err(FormError::SeveralJournals(many.journals).into());
                }
                Layout::new(Form::Sectors, many.blocks)
            }
            Ok(()) => side_by_side.ok_or(FormError::NoMagicWord { bytes: len }.into()),
            Err(error) if can_not_be_read(&error) => {
                side_by_side.ok_or(FormError::Unreadable(error).into())
            }
            Err(error) => Err(error.into()),
        }
    }

    pub(crate) fn form(&self) -> Form {
        self.form
    }

    /// The bytes of the file.
    pub(crate) fn file_len(&self) -> usize {
        match self.form {
            Form::Sectors => SECTOR * (1 + self.area_len / BLOCK),
            Form::SideBySide => self.area_len,
        }
    }

    /// Sector 0, which makes a journal of a file of sectors.
    pub(crate) fn first_sector(&self) -> Option<[u8; SECTOR]> {
        match self.form {
            Form::Sectors => Some(sector_0(self.blocks() as u32, 1, false)),
            Form::SideBySide => None,
        }
    }

    fn blocks(&self) -> usize {
        self.area_len / BLOCK
    }

    // Where a block begins.
    fn place(&self, block: usize) -> u64 {
        match self.form {
            Form::Sectors => (SECTOR * (1 + self.number * self.blocks() + block)) as u64,
            Form::SideBySide => (BLOCK * block) as u64,
        }
    }

    /// Where its mark begins.
    pub(crate) fn place_of_mark(&self) -> u64 {
        self.place(self.blocks() - 1) + BLOCK as u64
    }

    /// The same with another mark.
    pub(crate) fn with_mark(self, mark: Option<Mark>) -> Layout {
        Layout { mark, ..self }
    }

    /// Writes a block, and what is after it up to the end of its sector, the mark or zeros: a disk that writes whole sectors needn't read
    /// one first.
    pub(crate) fn write_block(
        &self,
        block: usize,
        bytes: &[u8; BLOCK],
        write_all_at: impl FnOnce(&[u8], u64) -> io::Result<()>,
    ) -> io::Result<()> {
        let place = self.place(block);
        match self.form {
            Form::Sectors => {
                let mut sector = [0; SECTOR];
                sector[..BLOCK].copy_from_slice(bytes);
                if let Some(mark) = self.mark.filter(|_| block + 1 == self.blocks()) {
                    sector[BLOCK..2 * BLOCK].copy_from_slice(&mark.block());
                }
                write_all_at(&sector, place)
            }
            Form::SideBySide => write_all_at(bytes, place),
        }
    }

    /// Reads many blocks at a time, or, where the disk can't, block after block, those that can be read.
    pub(crate) fn read(
        &self,
        mut read_exact_at: impl FnMut(&mut [u8], u64) -> io::Result<()>,
    ) -> io::Result<Area> {
        match self.read_many(&mut read_exact_at) {
            Err(error) if can_not_be_read(&error) => self.read_one_by_one(read_exact_at),
            other => other,
        }
    }

    fn read_many(
        &self,
        mut read_exact_at: impl FnMut(&mut [u8], u64) -> io::Result<()>,
    ) -> io::Result<Area> {
        let mut area = vec![0; self.area_len];
        match self.form {
            Form::SideBySide => read_exact_at(&mut area, 0)?,
            Form::Sectors => with_scratch(SECTOR * AT_ONCE, |sectors| {
                for (turn, blocks) in area.chunks_mut(BLOCK * AT_ONCE).enumerate() {
                    let sectors = &mut sectors[..SECTOR * (blocks.len() / BLOCK)];
                    read_exact_at(sectors, self.place(AT_ONCE * turn))?;
                    for (block, sector) in blocks.chunks_mut(BLOCK).zip(sectors.chunks(SECTOR)) {
                        block.copy_from_slice(&sector[..BLOCK]);
                    }
                }
                io::Result::Ok(())
            })?,
        }
        Ok(Area::from(area))
    }

    fn read_one_by_one(
        &self,
        mut read_exact_at: impl FnMut(&mut [u8], u64) -> io::Result<()>,
    ) -> io::Result<Area> {
        let mut area = Area::from(vec![0; self.area_len]);
        let (mut readable, mut lost) = (0, None);
        for block in 0..self.area_len.div_ceil(BLOCK) {
            match read_exact_at(area.block_mut(block), self.place(block)) {
                Err(error) if can_not_be_read(&error) => {
                    area.mark_unreadable(block);
                    lost = Some(error);
                }
                other => {
                    other?;
                    readable += 1;
                }
            }
        }
        match lost {
            // Of such a disk nothing is known: a restart on it would find a fresh consumer.
            Some(error) if readable == 0 => Err(error),
            _ => Ok(area),
        }
    }
}

/// What sector 0 says of a file of sectors.
#[derive(Clone, Copy, Debug, PartialEq, Eq)]
pub(crate) struct Many {
    pub(crate) blocks: usize,
    pub(crate) journals: u32,
    marked: bool,
}

impl Many {
    /// A new file of journals that have marks.
    pub(crate) fn new(journals: usize, blocks: usize) -> Result<Many, JournalError> {
        if !has_halves(blocks) {
            return Err(JournalError::BadBlocks(blocks));
        }
        match u32::try_from(journals) {
            Ok(journals) if (1..=MAX_JOURNALS).contains(&journals) => Ok(Many {
                blocks,
                journals,
                marked: true,
            }),
            _ => Err(JournalError::BadJournals(journals)),
        }
    }

    /// A file of so many bytes, whose journals have marks.
    pub(crate) fn of_file(
        len: u64,
        mut read_exact_at: impl FnMut(&mut [u8], u64) -> io::Result<()>,
    ) -> Result<Many, JournalError> {
        let mut first = [0; SECTOR];
        if len < SECTOR as u64 {
            return Err(FormError::NoMarks.into());
        }
        match read_exact_at(&mut first, 0) {
            Ok(()) => {}
            Err(error) if can_not_be_read(&error) => {
                return Err(FormError::Unreadable(error).into())
            }
            Err(error) => return Err(error.into()),
        }
        if !first.starts_with(&MAGIC) {
            return Err(if len <= MOST_SIDE_BY_SIDE {
                FormError::NoMarks.into()
            } else {
                FormError::NoMagicWord { bytes: len }.into()
            });
        }
        let many = Many::of_sector(&first, len)?;
        if !many.marked {
            return Err(FormError::NoMarks.into());
        }
        Ok(many)
    }

    // A file of so many bytes, by its first sector, or what there is of it.
    fn of_sector(first: &[u8], len: u64) -> Result<Many, FormError> {
        let too_short = |wanted| FormError::TooShort { bytes: len, wanted };
        let Some(head) = first.first_chunk::<BLOCK>() else {
            return Err(too_short(LEAST_OF_SECTORS));
        };
        let number = |place: usize| {
            let bytes = head[place..].first_chunk();
            u32::from_le_bytes(*bytes.expect("a number is within the block"))
        };
        if number(508) != crc32c(&head[..508]) {
            return Err(FormError::BadCheck);
        }
        let [version, sector, blocks, journals] = [8, 12, 16, 20].map(number);
        if version != VERSION {
            return Err(FormError::Version(version));
        }
        if sector != SECTOR as u32 {
            return Err(FormError::SectorBytes(sector));
        }
        if !has_halves(blocks as usize) {
            return Err(FormError::Blocks(blocks));
        }
        if !(1..=MAX_JOURNALS).contains(&journals) {
            return Err(FormError::Journals(journals));
        }
        let many = Many {
            blocks: blocks as usize,
            journals,
            marked: head[24] == 1,
        };
        let wanted = many.file_len();
        if len < wanted {
            return Err(too_short(wanted));
        }
        if len > wanted {
            return Err(FormError::TooLong { bytes: len, wanted });
        }
        let zero = |byte: &usize| first[*byte] == 0 || (*byte == 24 && many.marked);
        let mut zeros = (24..508).chain(BLOCK..SECTOR);
        match zeros.find(|byte| !zero(byte)) {
            Some(byte) => Err(FormError::NotZero { byte }),
            None => Ok(many),
        }
    }

    /// The bytes of the file.
    pub(crate) fn file_len(&self) -> u64 {
        SECTOR as u64 * (1 + u64::from(self.journals) * self.blocks as u64)
    }

    /// Sector 0.
    pub(crate) fn first_sector(&self) -> [u8; SECTOR] {
        sector_0(self.blocks as u32, self.journals, self.marked)
    }

    /// One of its journals, which is in use.
    pub(crate) fn journal(&self, number: usize) -> Layout {
        Layout {
            form: Form::Sectors,
            area_len: BLOCK * self.blocks,
            number,
            mark: Some(Mark::InUse),
        }
    }
}

/// What the file says of one of several journals. Zeros say that it is free.
#[derive(Clone, Copy, Debug, PartialEq, Eq)]
pub(crate) enum Mark {
    /// Something is being done to it that has to be done whole: an import, or freeing it.
    Unfinished = 1,
    /// A consumer was started on it, or an import was finished.
    InUse = 2,
}

impl Mark {
    fn block(self) -> [u8; BLOCK] {
        let mut block = [0; BLOCK];
        block[0] = self as u8;
        let check = crc32c(&block[..508]);
        block[508..].copy_from_slice(&check.to_le_bytes());
        block
    }

    /// The mark that 512 bytes are, if they are one.
    pub(crate) fn of_block(block: &[u8; BLOCK]) -> Option<Mark> {
        [Mark::Unfinished, Mark::InUse]
            .into_iter()
            .find(|mark| mark.block() == *block)
    }
}

/// Whether a block is a header with the right check, of whatever group.
pub(crate) fn is_header(block: &[u8; BLOCK]) -> bool {
    block[0] == 1 && crc32c(&block[..508]).to_le_bytes() == block[508..]
}

/// Whether a file of so many bytes is what a create or an import has made before it is finished. Either it has no block: zeros, and perhaps
/// sector 0. Or it has the length of a file of sectors, and sector 0 is still zeros: whatever blocks it has, nobody can open it as a
/// journal.
pub(crate) fn is_no_journal_yet(
    len: u64,
    mut read_exact_at: impl FnMut(&mut [u8], u64) -> io::Result<()>,
) -> io::Result<bool> {
    let of_one = len <= LONGEST as u64;
    let sectors = len / SECTOR as u64;
    let whole_sectors = sectors > 0 && len.is_multiple_of(SECTOR as u64);
    if !of_one && !whole_sectors {
        return Ok(false);
    }
    let mut bytes = vec![0; (LONGEST as u64).min(len) as usize];
    read_exact_at(&mut bytes, 0)?;
    let zeros = |bytes: &[u8]| bytes.iter().all(|byte| *byte == 0);
    let of_sectors = whole_sectors && (!of_one || has_halves(sectors as usize - 1));
    if of_sectors && zeros(&bytes[..SECTOR]) {
        return Ok(true);
    }
    let (first, rest) = bytes.split_at(bytes.len().min(BLOCK));
    if !zeros(rest) || !(zeros(first) || first.starts_with(&MAGIC)) {
        return Ok(false);
    }
    let mut at = bytes.len() as u64;
    while at < len {
        let part = (len - at).min(LONGEST as u64) as usize;
        read_exact_at(&mut bytes[..part], at)?;
        if !zeros(&bytes[..part]) {
            return Ok(false);
        }
        at += part as u64;
    }
    Ok(true)
}

// How many sectors are read at a time.
const AT_ONCE: usize = 16;

/// The longest file of one journal.
pub(crate) const LONGEST: usize = SECTOR * (1 + MAX_BLOCKS);

// Whether a journal can have so many blocks.
fn has_halves(blocks: usize) -> bool {
    (MIN_BLOCKS..=MAX_BLOCKS).contains(&blocks) && blocks.is_multiple_of(2)
}

// EIO: a sector can't be read, as one that was torn shows on many disks. Any other error is of the file or of the whole disk.
fn can_not_be_read(error: &io::Error) -> bool {
    const EIO: i32 = 5;
    error.raw_os_error() == Some(EIO)
}

fn sector_0(blocks: u32, journals: u32, marked: bool) -> [u8; SECTOR] {
    let mut sector = [0; SECTOR];
    sector[..8].copy_from_slice(&MAGIC);
    sector[24] = u8::from(marked);
    for (place, number) in [
        (8, VERSION),
        (12, SECTOR as u32),
        (16, blocks),
        (20, journals),
    ] {
        sector[place..place + 4].copy_from_slice(&number.to_le_bytes());
    }
    let check = crc32c(&sector[..508]);
    sector[508..512].copy_from_slice(&check.to_le_bytes());
    sector
}

#[cfg(test)]
mod tests {
    use super::*;

    // A file, of which some sectors of 4,096 bytes can't be read.
    fn reader<'a>(
        file: &'a [u8],
        lost: &'a [usize],
    ) -> impl FnMut(&mut [u8], u64) -> io::Result<()> + 'a {
        |bytes, at| {
            let at = at as usize;
            let end = at + bytes.len();
            if lost
                .iter()
                .any(|lost| (at / SECTOR..end.div_ceil(SECTOR)).contains(lost))
            {
                return Err(io::Error::from_raw_os_error(5));
            }
            let Some(found) = file.get(at..end) else {
                return Err(io::ErrorKind::UnexpectedEof.into());
            };
            bytes.copy_from_slice(found);
            Ok(())
        }
    }

    fn layout_of(file: &[u8]) -> Result<Layout, JournalError> {
        Layout::of_file(file.len() as u64, reader(file, &[]))
    }

    fn file_of(blocks: u32, journals: u32) -> Vec<u8> {
        let mut file = sector_0(blocks, journals, false).to_vec();
        file.resize(SECTOR * (1 + (blocks * journals) as usize), 0);
        file
    }

    fn left(file: &[u8]) -> bool {
        is_no_journal_yet(file.len() as u64, reader(file, &[])).unwrap()
    }

    fn wrong(file: &[u8]) -> String {
        match layout_of(file) {
            Err(JournalError::Form(error)) => error.to_string(),
            other => panic!("{other:?}"),
        }
    }

    // Changes a number of sector 0 and makes the check right again.
    fn with(mut file: Vec<u8>, place: usize, bytes: &[u8]) -> Vec<u8> {
        file[place..place + bytes.len()].copy_from_slice(bytes);
        let check = crc32c(&file[..508]);
        file[508..512].copy_from_slice(&check.to_le_bytes());
        file
    }

    // Byte by byte, as other programs read it.
    #[test]
    fn sector_0_is_as_it_is_written_down() {
        let sector = sector_0(18, 1, false);
        assert_eq!(sector[..8], *b"NINOTSKV");
        assert_eq!(
            sector[8..24],
            [1, 0, 0, 0, 0, 16, 0, 0, 18, 0, 0, 0, 1, 0, 0, 0]
        );
        assert!(sector[24..508].iter().all(|byte| *byte == 0));
        assert_eq!(sector[508..512], 0x416d_a02f_u32.to_le_bytes());
        assert!(sector[512..].iter().all(|byte| *byte == 0));
        // The check is the RFC's.
        assert_eq!(crc32c(&[0; 32]), 0x8a91_36aa);
    }

    #[test]
    fn blocks_lie_where_the_form_says() {
        let sectors = Layout::new(Form::Sectors, 128).unwrap();
        assert_eq!((sectors.file_len(), sectors.place(0)), (528_384, 4096));
        assert_eq!(sectors.place(127), 524_288);
        let side_by_side = Layout::new(Form::SideBySide, 128).unwrap();
        assert_eq!(
            (side_by_side.file_len(), side_by_side.place(127)),
            (65_536, 65_024)
        );
        let block = [7; BLOCK];
        let written = |bytes: &[u8], at: u64| {
            assert_eq!((bytes.len(), at), (SECTOR, 5 * 4096));
            assert_eq!(bytes[..BLOCK], block);
            assert!(bytes[BLOCK..].iter().all(|byte| *byte == 0));
            Ok(())
        };
        sectors.write_block(4, &block, written).unwrap();
        let written = |bytes: &[u8], at: u64| {
            assert_eq!((bytes, at), (&block[..], 4 * 512));
            Ok(())
        };
        side_by_side.write_block(4, &block, written).unwrap();
    }

    #[test]
    fn a_file_says_which_form_it_has() {
        for blocks in [18, 20, 128] {
            let layout = layout_of(&file_of(blocks, 1)).unwrap();
            assert_eq!(layout, Layout::new(Form::Sectors, blocks as usize).unwrap());
        }
        // Up to 65,536 bytes without the magic word are blocks side by side, and a restart judges how many.
        for len in [0, 7, 100, 9216, 65_536] {
            let layout = layout_of(&vec![0; len]).unwrap();
            assert_eq!((layout.form(), layout.file_len()), (Form::SideBySide, len));
        }
    }

    #[test]
    fn what_is_wrong_with_a_file_is_said() {
        let good = file_of(18, 1);
        let zeros = "it has 65537 bytes and doesn't begin with NINOTSKV; without that word a journal has at most 65536";
        assert_eq!(wrong(&vec![0; 65_537]), zeros);
        let mut other = good.clone();
        other[0] ^= 1;
        assert!(wrong(&other).contains("doesn't begin with NINOTSKV"));
        // Each other byte of the first block, by the check.
        for byte in 8..512 {
            let mut other = good.clone();
            other[byte] ^= 1;
            assert_eq!(wrong(&other), "the check of sector 0 is wrong");
        }
        let number =
            |place: usize, number: u32| wrong(&with(good.clone(), place, &number.to_le_bytes()));
        assert_eq!(number(8, 2), "its layout has version 2, and not 1");
        assert_eq!(number(12, 512), "its sectors have 512 bytes, and not 4096");
        for blocks in [0, 16, 17, 19, 127, 129, 130, u32::MAX] {
            let said =
                format!("its journals have {blocks} blocks, and not an even number from 18 to 128");
            assert_eq!(number(16, blocks), said);
        }
        for journals in [0, 65_536, u32::MAX] {
            let said = format!("it has {journals} journals, and not 1 to 65535");
            assert_eq!(number(20, journals), said);
        }
        assert_eq!(
            wrong(&file_of(18, 3)),
            "it is a file for several journals, of 3, and `Journals` opens it"
        );
        // Of one journal that has a mark, too.
        assert_eq!(
            wrong(&with(good.clone(), 24, &[1])),
            "it is a file for several journals, of 1, and `Journals` opens it"
        );
        for byte in [24, 25, 507] {
            let said = format!("byte {byte} of sector 0 is not zero");
            assert_eq!(wrong(&with(good.clone(), byte, &[2])), said);
        }
        for byte in [512, 4095] {
            let mut other = good.clone();
            other[byte] = 1;
            assert_eq!(
                wrong(&other),
                format!("byte {byte} of sector 0 is not zero")
            );
        }
    }

    // Also where what is left is so short that it could be blocks side by side.
    #[test]
    fn a_file_has_the_length_that_it_says() {
        let good = file_of(18, 1);
        for len in [
            8,
            511,
            512,
            4095,
            4096,
            9216,
            65_536,
            65_537,
            good.len() - 1,
        ] {
            let said = format!("it is too short: {len} bytes, and not {}", good.len());
            assert_eq!(wrong(&good[..len]), said);
        }
        let mut long = good.clone();
        for more in [1, SECTOR] {
            long.resize(good.len() + more, 0);
            let said = format!(
                "it is too long: {} bytes, and not {}",
                long.len(),
                good.len()
            );
            assert_eq!(wrong(&long), said);
        }
    }

    #[test]
    fn a_block_that_can_not_be_read_is_marked() {
        let mut file = file_of(18, 1);
        for block in 0..18 {
            file[SECTOR * (1 + block)] = block as u8;
        }
        let layout = layout_of(&file).unwrap();
        let area = layout.read(reader(&file, &[3, 18])).unwrap();
        assert_eq!(area.unreadable(), [2, 17]);
        for block in 0..18 {
            let unreadable = [2, 17].contains(&block);
            let first = if unreadable {
                crate::UNREADABLE
            } else {
                block as u8
            };
            assert_eq!(area.block(block)[0], first);
        }
        // Side by side, eight blocks go with a sector; and of no block nothing is known.
        let layout = Layout::new(Form::SideBySide, 18).unwrap();
        let file = vec![0; 18 * BLOCK];
        let area = layout.read(reader(&file, &[0])).unwrap();
        assert_eq!(area.unreadable(), [0, 1, 2, 3, 4, 5, 6, 7]);
        let error = layout.read(reader(&file, &[0, 1, 2])).unwrap_err();
        assert_eq!(error.raw_os_error(), Some(5));
        // Another error is of the file.
        let error = layout.read(reader(&file[..9215], &[])).unwrap_err();
        assert_eq!(error.kind(), io::ErrorKind::UnexpectedEof);
    }

    #[test]
    fn sector_0_that_can_not_be_read_is_said() {
        let file = file_of(18, 1);
        let layout = Layout::of_file(file.len() as u64, reader(&file, &[0]));
        assert!(matches!(
            layout,
            Err(JournalError::Form(FormError::Unreadable(_)))
        ));
        // A file as short as that has no such sector: its first blocks can't be read.
        let file = vec![0; 9216];
        let layout = Layout::of_file(9216, reader(&file, &[0])).unwrap();
        assert_eq!(layout.form(), Form::SideBySide);
        let gone = |_: &mut [u8], _| Err(io::ErrorKind::TimedOut.into());
        assert!(matches!(
            Layout::of_file(9216, gone),
            Err(JournalError::Io(_))
        ));
    }

    #[test]
    fn what_a_create_leaves_is_known() {
        let mut file = file_of(18, 1);
        assert!(left(&file) && left(&file[..100]) && left(&[]));
        assert!(left(&vec![0; file.len()]));
        file[SECTOR] = 1;
        assert!(!left(&file));
        assert!(!left(&[1]) && !left(&file[SECTOR..]));
    }

    // The same of a file of several journals, which is longer.
    #[test]
    fn what_a_create_of_several_leaves_is_known() {
        let mut file = Many::new(8, 18).unwrap().first_sector().to_vec();
        file.resize(SECTOR * (1 + 8 * 18), 0);
        assert!(file.len() > LONGEST && left(&file));
        assert!(left(&vec![0; file.len()]) && !left(&vec![0; file.len() - 1]));
        *file.last_mut().unwrap() = 1;
        assert!(!left(&file));
        file[..SECTOR].fill(0);
        assert!(left(&file));
    }

    // It has blocks, and sector 0 is still zeros: an import was stopped. A file with a block side by side has no such length.
    #[test]
    fn what_an_import_leaves_is_known() {
        for blocks in [18, 20, 128] {
            let mut file = vec![0; SECTOR * (1 + blocks)];
            file[SECTOR..].fill(7);
            assert!(left(&file) && layout_of(&file).is_err());
            // With one byte of sector 0, a byte less, and a sector less.
            file[SECTOR - 1] = 1;
            assert!(!left(&file));
            file[SECTOR - 1] = 0;
            assert!(!left(&file[..SECTOR * blocks]) && !left(&file[..SECTOR * (1 + blocks) - 1]));
        }
        let mut file = vec![0; BLOCK * MAX_BLOCKS];
        file[SECTOR..].fill(7);
        assert!(!left(&file) && layout_of(&file).is_ok());
    }

    fn many_of(file: &[u8]) -> Result<Many, JournalError> {
        Many::of_file(file.len() as u64, reader(file, &[]))
    }

    #[test]
    fn a_file_of_several_journals_says_how_many() {
        for (journals, blocks) in [(1, 18), (3, 20), (2, 128)] {
            let many = Many::new(journals, blocks).unwrap();
            let mut file = many.first_sector().to_vec();
            assert_eq!(file[24], 1);
            file.resize(many.file_len() as usize, 0);
            assert_eq!(many_of(&file).unwrap(), many);
            assert!(layout_of(&file).is_err());
        }
        assert!(Many::new(65_535, 18).is_ok());
        for journals in [0, 65_536, usize::MAX] {
            assert!(matches!(
                Many::new(journals, 18),
                Err(JournalError::BadJournals(_))
            ));
        }
        assert!(matches!(Many::new(2, 19), Err(JournalError::BadBlocks(19))));
        // Without marks, of whatever form.
        for file in [file_of(18, 1), file_of(18, 3), vec![0; 9216], Vec::new()] {
            assert!(matches!(
                many_of(&file),
                Err(JournalError::Form(FormError::NoMarks))
            ));
        }
        assert!(matches!(
            many_of(&vec![0; 73_728]),
            Err(JournalError::Form(FormError::NoMagicWord { bytes: 73_728 }))
        ));
    }

    #[test]
    fn the_mark_goes_with_the_last_block() {
        let many = Many::new(3, 18).unwrap();
        let (block, zeros) = ([7; BLOCK], [0; BLOCK]);
        let sector_of = |layout: Layout, block_at: usize| {
            let mut found = Vec::new();
            let write = |bytes: &[u8], at: u64| {
                assert_eq!(at, (SECTOR * (1 + 2 * 18 + block_at)) as u64);
                found = bytes.to_vec();
                Ok(())
            };
            layout.write_block(block_at, &block, write).unwrap();
            assert!(found[2 * BLOCK..].iter().all(|byte| *byte == 0));
            let (blocks, _) = found.as_chunks::<BLOCK>();
            assert_eq!(blocks[0], block);
            blocks[1]
        };
        let layout = many.journal(2);
        assert_eq!(layout.place_of_mark(), (SECTOR * 3 * 18 + BLOCK) as u64);
        for block in 0..17 {
            assert_eq!(sector_of(layout, block), zeros);
        }
        let mut in_use = zeros;
        in_use[0] = 2;
        let check = crc32c(&in_use[..508]);
        in_use[508..].copy_from_slice(&check.to_le_bytes());
        assert_eq!(sector_of(layout, 17), in_use);
        assert_eq!(Mark::of_block(&in_use), Some(Mark::InUse));
        let unfinished = sector_of(layout.with_mark(Some(Mark::Unfinished)), 17);
        assert_eq!(Mark::of_block(&unfinished), Some(Mark::Unfinished));
        assert_eq!(sector_of(layout.with_mark(None), 17), zeros);
        // Anything else is none.
        for byte in 0..BLOCK {
            let mut other = in_use;
            other[byte] ^= 1;
            assert_eq!(Mark::of_block(&other), None);
        }
        assert_eq!(Mark::of_block(&zeros), None);
    }
}
