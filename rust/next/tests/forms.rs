//! The two forms of a journal's file: what is no journal and stays as it is, files of before, sectors that are lost whole, and blocks that
//! can't be read.

mod common;

use std::cell::RefCell;
use std::collections::BTreeSet;
use std::fs;
use std::io;
use std::path::Path;
use std::process::Command;
use std::rc::Rc;

use common::{
    blocks_of, configuration, crc32c, created, file_of, fresh_path, Random, FORMS, WORKER,
};
use ironbus_delivery_state::{
    Area, Configuration, Consumer, Form, FormError, Generation, Journal, JournalError, NewJournal,
    Offset, Refusal, Step, Storage, BLOCK, SECTOR, UNREADABLE,
};

fn settings() -> Configuration {
    configuration(3, 99, 10, 25)
}

// ## Files that are no journals

/// A file that is no journal: why, and that it is as it was.
fn wrong(path: &Path, bytes: &[u8]) -> String {
    fs::write(path, bytes).unwrap();
    let before = fs::metadata(path).unwrap().modified().unwrap();
    let error = match Journal::open(path) {
        Err(JournalError::Form(error)) => error,
        other => panic!("{other:?}"),
    };
    assert_eq!(fs::read(path).unwrap(), bytes);
    assert_eq!(fs::metadata(path).unwrap().modified().unwrap(), before);
    error.to_string()
}

/// A file of sectors with another number at a place of sector 0, and the check made right.
fn with(place: usize, number: u32) -> Vec<u8> {
    let mut file = file_of(Form::Sectors, &[0; 18 * BLOCK]);
    file[place..place + 4].copy_from_slice(&number.to_le_bytes());
    let check = crc32c(&file[..508]);
    file[508..512].copy_from_slice(&check.to_le_bytes());
    file
}

#[test]
fn what_is_no_journal_is_left_as_it_is() {
    let path = fresh_path("no-journal");
    let good = file_of(Form::Sectors, &[0; 18 * BLOCK]);
    let len = good.len();
    let mut worn = good.clone();
    worn[16] ^= 4;
    let mut long = good.clone();
    long.push(0);
    let mut behind = good.clone();
    behind[600] = 1;
    let no_word = |bytes: usize| {
        format!("it has {bytes} bytes and doesn't begin with NINOTSKV; without that word a journal has at most 65536")
    };
    for (bytes, why) in [
        (vec![0; 65_537], no_word(65_537)),
        (vec![0; 130 * BLOCK], no_word(66_560)),
        (good[1..].to_vec(), no_word(len - 1)),
        (worn, "the check of sector 0 is wrong".to_owned()),
        (with(8, 2), "its layout has version 2, and not 1".to_owned()),
        (
            with(12, 512),
            "its sectors have 512 bytes, and not 4096".to_owned(),
        ),
        (
            with(16, 130),
            "its journals have 130 blocks, and not an even number from 18 to 128".to_owned(),
        ),
        (
            with(20, 0),
            "it has 0 journals, and not 1 to 65535".to_owned(),
        ),
        (
            with(20, 65_536),
            "it has 65536 journals, and not 1 to 65535".to_owned(),
        ),
        // Each of them would need a length of its own.
        (
            with(20, 2),
            format!("it is too short: {len} bytes, and not {}", 37 * SECTOR),
        ),
        (
            good[..len - 1].to_vec(),
            format!("it is too short: {} bytes, and not {len}", len - 1),
        ),
        // So short that it could be blocks side by side, if it didn't begin with the word.
        (
            good[..18 * BLOCK].to_vec(),
            format!("it is too short: {} bytes, and not {len}", 18 * BLOCK),
        ),
        (
            long,
            format!("it is too long: {} bytes, and not {len}", len + 1),
        ),
        (behind, "byte 600 of sector 0 is not zero".to_owned()),
    ] {
        assert_eq!(wrong(&path, &bytes), why);
    }
    let mut several = with(20, 2);
    several.resize(37 * SECTOR, 0);
    let why = wrong(&path, &several);
    assert_eq!(
        why,
        "it is a file for several journals, of 2, and `Journals` opens it"
    );
    // As it should be.
    fs::write(&path, &good).unwrap();
    let journal = Journal::open(&path).unwrap();
    assert_eq!((journal.form(), journal.blocks()), (Form::Sectors, 18));
}

#[test]
fn a_file_from_before_is_gone_on_with() {
    for blocks in [18, 128] {
        let path = fresh_path("from-before");
        fs::write(&path, vec![0; BLOCK * blocks]).unwrap();
        let mut journal = Journal::open(&path).unwrap();
        for ceiling in [4096, 8192] {
            assert_eq!(journal.form(), Form::SideBySide);
            let consumer = Consumer::restart(&settings(), journal).unwrap();
            let consumer = consumer.checkpoint(WORKER).unwrap();
            assert_eq!(consumer.ceiling(WORKER).unwrap(), Generation::new(ceiling));
            let bytes = consumer.into_journal().unwrap().bytes().to_vec();
            assert_eq!(fs::read(&path).unwrap(), bytes);
            journal = Journal::open(&path).unwrap();
        }
    }
}

/// Runs a line of docs/OPERATING.md, which begins so, in the folder for tests, with a journal's name in place of another.
fn run_documented(begins: &str, names: &[(&str, &Path)]) {
    let text = include_str!("../../../docs/OPERATING.md");
    let line = text.lines().find(|line| line.starts_with(begins)).unwrap();
    let command = names.iter().fold(line.to_owned(), |line, (name, path)| {
        assert!(line.contains(name));
        line.replace(name, path.to_str().unwrap())
    });
    let mut sh = Command::new("sh");
    assert!(sh.args(["-c", &command]).status().unwrap().success());
}

#[test]
fn a_file_from_before_is_moved_to_the_new_form() {
    let [old, new] = ["old.journal", "new.journal"].map(fresh_path);
    let bytes = journal_after(6);
    fs::write(&old, &bytes).unwrap();
    drop(NewJournal::create(&new, 18).unwrap());
    run_documented("for b in ", &[("old.journal", &old), ("new.journal", &new)]);
    assert_eq!(fs::read(&new).unwrap(), file_of(Form::Sectors, &bytes));
    let [old, new] = [old, new].map(|path| restarted(Journal::open(path).unwrap()).unwrap());
    assert_eq!(old, new);
}

// ## Sectors that are lost whole

/// What becomes of a sector of 4,096 bytes that is being written.
#[derive(Clone, Copy, Debug, PartialEq, Eq)]
enum Sector {
    Old,
    New,
    /// All of its bytes are gone.
    Lost,
}

/// What restarts found after cuts.
#[derive(Debug, Default, PartialEq, Eq)]
struct Cuts {
    right: usize,
    refused: usize,
    /// The checkpoint of before, or none, though a later one was finished.
    went_back: usize,
}

/// What a consumer has settled, from 0 on, and its ceiling.
fn found(consumer: &Consumer) -> (u64, Generation) {
    let settled = |offset: &u64| consumer.is_settled(WORKER, Offset::new(*offset)).unwrap();
    let settled = (0..100).take_while(settled).count() as u64;
    (settled, consumer.ceiling(WORKER).unwrap())
}

struct Cutter {
    form: Form,
    random: Random,
    path: std::path::PathBuf,
    cuts: Cuts,
}

impl Cutter {
    /// The sectors of blocks, rising.
    fn sectors(&self, blocks: &[usize]) -> Vec<usize> {
        let sector = |block: &usize| match self.form {
            Form::Sectors => 1 + block,
            _ => block / 8,
        };
        let sectors: BTreeSet<usize> = blocks.iter().map(sector).collect();
        sectors.into_iter().collect()
    }

    /// The power fails between two images of the file, while these blocks are being written. Of the sectors some are old, some new and
    /// some lost: every combination of up to two, and some of more.
    fn cut(
        &mut self,
        [held, now]: [&[u8]; 2],
        blocks: &[usize],
        right: impl Fn(&[Sector]) -> (u64, Generation),
    ) {
        let sectors = self.sectors(blocks);
        let count = match sectors.len() {
            1 => 3,
            2 => 9,
            _ => 12,
        };
        for number in 0..count {
            let number = match sectors.len() {
                1 | 2 => number,
                _ => self.random.next() as usize,
            };
            let fate = |place: usize| {
                [Sector::Old, Sector::New, Sector::Lost][number / 3usize.pow(place as u32) % 3]
            };
            let fates: Vec<Sector> = (0..sectors.len()).map(fate).collect();
            let mut file = held.to_vec();
            for (sector, fate) in sectors.iter().zip(&fates) {
                let place = SECTOR * sector..(SECTOR * (sector + 1)).min(file.len());
                match fate {
                    Sector::Old => {}
                    Sector::New => file[place.clone()].copy_from_slice(&now[place]),
                    Sector::Lost => file[place].fill_with(|| self.random.next() as u8),
                }
            }
            fs::write(&self.path, &file).unwrap();
            match Consumer::restart(&settings(), Journal::open(&self.path).unwrap()) {
                Ok(consumer) if found(&consumer) == right(&fates) => self.cuts.right += 1,
                Ok(_) => self.cuts.went_back += 1,
                Err(_) => self.cuts.refused += 1,
            }
        }
    }

    /// A list of checkpoints with two changes between the halves, cut at each write before the sync that follows.
    fn cut_everywhere(mut self, name: &str) -> Cuts {
        let path = fresh_path(name);
        let mut consumer = Consumer::start(&settings(), created(&path, self.form, 18)).unwrap();
        let mut last = found(&consumer);
        for offset in 0..11 {
            if offset > 0 {
                let token = consumer.claim(WORKER, Offset::new(offset - 1), 0).unwrap();
                consumer.ack(WORKER, token.token()).unwrap();
            }
            let mut held = fs::read(&path).unwrap();
            let mut writing = consumer.begin(WORKER).unwrap();
            let mut blocks = Vec::new();
            consumer = loop {
                let left = writing.writes_left();
                match writing.step().unwrap() {
                    Step::Wrote {
                        block,
                        writing: next,
                    } => {
                        blocks.push(block);
                        let now = fs::read(&path).unwrap();
                        self.cut([&held, &now], &blocks, |_| last);
                        // Before the header comes a sync.
                        if left == 2 {
                            held = now;
                            blocks.clear();
                        }
                        writing = next;
                    }
                    Step::Finished { block, consumer } => {
                        let now = fs::read(&path).unwrap();
                        let new = found(&consumer);
                        self.cut([&held, &now], &[block], |fates| match fates {
                            [Sector::New] => new,
                            _ => last,
                        });
                        last = new;
                        break consumer;
                    }
                }
            };
        }
        self.cuts
    }
}

fn cuts(form: Form, name: &str) -> Cuts {
    let mut all = Cuts::default();
    for seed in 0..4 {
        let cutter = Cutter {
            form,
            random: Random(seed),
            path: fresh_path(&format!("{name}-cut")),
            cuts: Cuts::default(),
        };
        let cuts = cutter.cut_everywhere(name);
        all.right += cuts.right;
        all.refused += cuts.refused;
        all.went_back += cuts.went_back;
    }
    all
}

#[test]
fn with_each_block_in_a_sector_of_its_own_nothing_is_lost() {
    let cuts = cuts(Form::Sectors, "own-sectors");
    assert_eq!((cuts.refused, cuts.went_back), (0, 0), "{cuts:?}");
    assert!(cuts.right > 1000, "{cuts:?}");
}

// So the other form is for disks that write each block by itself.
#[test]
fn side_by_side_a_lost_sector_takes_finished_checkpoints_with_it() {
    let cuts = cuts(Form::SideBySide, "shared-sectors");
    assert!(cuts.went_back > 50 && cuts.right > 50, "{cuts:?}");
}

// ## Blocks that can't be read

/// Blocks in memory, of which some can't be read until they are written.
#[derive(Clone)]
struct Worn(Rc<RefCell<(Vec<u8>, BTreeSet<usize>)>>);

impl Worn {
    fn new(bytes: &[u8], lost: &[usize]) -> Worn {
        let lost = lost.iter().copied().collect();
        Worn(Rc::new(RefCell::new((bytes.to_vec(), lost))))
    }
}

impl Storage for Worn {
    fn read(&mut self) -> io::Result<Area> {
        let (bytes, lost) = &*self.0.borrow();
        let mut area = Area::from(bytes.clone());
        for block in lost {
            area.mark_unreadable(*block);
        }
        Ok(area)
    }

    fn write_block(&mut self, block: usize, bytes: &[u8; BLOCK]) -> io::Result<()> {
        let (all, lost) = &mut *self.0.borrow_mut();
        all[BLOCK * block..BLOCK * (block + 1)].copy_from_slice(bytes);
        lost.remove(&block);
        Ok(())
    }

    fn sync(&mut self) -> io::Result<()> {
        Ok(())
    }
}

/// The blocks of a journal after so many checkpoints, before each of which an offset is settled, from the second on.
fn journal_after(checkpoints: u64) -> Vec<u8> {
    let path = fresh_path("journal-after");
    let journal = NewJournal::create(&path, 18).unwrap();
    let mut consumer = Consumer::start(&settings(), journal).unwrap();
    for offset in 0..checkpoints {
        if offset > 0 {
            let token = consumer.claim(WORKER, Offset::new(offset - 1), 0).unwrap();
            consumer.ack(WORKER, token.token()).unwrap();
        }
        consumer = consumer.checkpoint(WORKER).unwrap();
    }
    drop(consumer);
    blocks_of(&path)
}

/// What a restart finds: the offset below which all is settled, and the ceiling.
fn restarted<S: Storage>(journal: Journal<S>) -> Result<(u64, Generation), Refusal> {
    let consumer = Consumer::restart(&settings(), journal).map_err(|error| error.refusal())?;
    Ok((
        consumer.committed(WORKER).unwrap().get(),
        consumer.ceiling(WORKER).unwrap(),
    ))
}

// The second half is in use, with two groups; the first has four old ones.
#[test]
fn a_block_that_can_not_be_read_is_an_unsound_one() {
    let bytes = journal_after(6);
    let right = (5, Generation::new(4096 + 5));
    assert_eq!(
        restarted(Journal::on(Worn::new(&bytes, &[])).unwrap()),
        Ok(right)
    );
    let mut gone_on = 0;
    for block in 0..18 {
        let journal = Journal::on(Worn::new(&bytes, &[block])).unwrap();
        assert_eq!(journal.unreadable(), [block]);
        assert_eq!(
            format!("{journal:?}"),
            format!("Journal of 18 blocks, of which [{block}] can't be read")
        );
        let place = BLOCK * block..BLOCK * (block + 1);
        assert_eq!(journal.bytes()[place.clone()], [UNREADABLE; BLOCK]);
        // The same is found where the block has other bytes whose check fails.
        let mut torn = bytes.clone();
        torn[place.start + 9] ^= 1;
        torn[place.start] |= 0x80;
        let torn = restarted(Journal::on(Worn::new(&torn, &[])).unwrap());
        let lost = restarted(journal);
        assert_eq!(lost, torn, "block {block}");
        gone_on += usize::from(lost == Ok(right));
    }
    // All but the two blocks of each of the two groups.
    assert_eq!(gone_on, 18 - 4);
}

// As a disk does: the sector can be read again once it is written.
#[test]
fn what_is_written_can_be_read_again() {
    let storage = Worn::new(&journal_after(1), &[2, 3, 7]);
    let journal = Journal::on(storage.clone()).unwrap();
    let consumer = Consumer::restart(&settings(), journal).unwrap();
    let journal = consumer.checkpoint(WORKER).unwrap().into_journal().unwrap();
    assert_eq!(journal.unreadable(), [7]);
    drop(journal);
    let journal = Journal::on(storage).unwrap();
    assert_eq!(journal.unreadable(), [7]);
    assert_eq!(restarted(journal), Ok((0, Generation::new(8192))));
}

#[test]
fn no_new_journal_is_on_blocks_that_can_not_be_read() {
    let lost = NewJournal::on(Worn::new(&[0; 18 * BLOCK], &[17]));
    assert!(matches!(lost, Err(JournalError::Used)));
}

#[test]
fn forms_say_what_they_are() {
    let said = FORMS.map(|form| form.to_string());
    assert_eq!(
        said,
        ["each block in a sector of its own", "blocks side by side"]
    );
    let error = JournalError::from(FormError::BadCheck);
    assert_eq!(error.to_string(), "the file is no journal");
}
