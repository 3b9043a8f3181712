//! What the tests share: a folder for files, their forms, other processes, random numbers, the book of docs/SPEC.md, and a disk that
//! keeps no order.
#![allow(dead_code)]

use std::cell::RefCell;
use std::collections::{BTreeMap, BTreeSet};
use std::fs;
use std::io::{self, BufRead, BufReader, Write};
use std::path::{Path, PathBuf};
use std::process::{Child, Command};
use std::rc::Rc;

use ironbus_delivery_state::{
    Area, Configuration, Consumer, DeliveryConfig, Form, HandOut, LeaseConfig, NewJournal, Offset,
    Settings, Storage, WorkerId, BLOCK, SECTOR,
};

/// The worker that makes the calls, where it doesn't matter which: it has every right.
pub const WORKER: WorkerId = WorkerId::new(0);

/// A file of this name in the folder for tests, which isn't there.
pub fn fresh_path(name: &str) -> PathBuf {
    let path = Path::new(env!("CARGO_TARGET_TMPDIR")).join(name);
    let _ = fs::remove_file(&path);
    path
}

/// What else stands in the folder under the journal's name, by what comes behind it.
pub fn beside(path: &Path) -> Vec<String> {
    let journal = path.file_name().unwrap().to_str().unwrap();
    let names = fs::read_dir(path.parent().unwrap()).unwrap();
    let mut names: Vec<String> = names
        .map(|entry| entry.unwrap().file_name().into_string().unwrap())
        .filter_map(|name| name.strip_prefix(journal).map(str::to_owned))
        .filter(|rest| !rest.is_empty())
        .collect();
    names.sort_unstable();
    names
}

/// A path with an end after it.
pub fn with_end(path: &Path, end: &str) -> PathBuf {
    PathBuf::from(format!("{}{end}", path.display()))
}

/// Another process, which ends with this value: a test that fails would else wait for it.
pub struct Other(pub Child);

impl Other {
    pub fn ends(&mut self) {
        self.0.wait().unwrap();
    }

    pub fn is_killed(&mut self) {
        self.0.kill().unwrap();
        self.ends();
    }
}

impl Drop for Other {
    fn drop(&mut self) {
        let _ = self.0.kill();
        let _ = self.0.wait();
    }
}

/// The line that it says.
pub fn says(child: &mut Other) -> String {
    let lines = BufReader::new(child.0.stdout.as_mut().unwrap()).lines();
    let line = lines
        .map(|line| line.unwrap())
        .find(|line| line.contains("says "))
        .expect("the other process says something");
    line.split("says ").nth(1).unwrap().to_owned()
}

/// Whether system calls can be watched. Where they can't, that is said, past the test's own output, which is shown of tests that fail
/// alone; and where nothing may be skipped, it is an error.
pub fn strace_is_there(test: &str) -> bool {
    let mut can = Command::new("strace");
    can.args(["-o", "/dev/null", "true"]);
    if can.output().is_ok_and(|output| output.status.success()) {
        return true;
    }
    let missing = format!("{test} needs strace, which is not there or may not trace");
    assert!(
        std::env::var_os("CI").is_none_or(|ci| ci != "true"),
        "{missing}; with CI=true nothing is skipped"
    );
    let skipped = format!("\nSKIPPED: {missing}\n");
    io::stderr().write_all(skipped.as_bytes()).unwrap();
    false
}

/// Both forms of a journal's file.
pub const FORMS: [Form; 2] = [Form::Sectors, Form::SideBySide];

/// A new journal of a form.
pub fn created(path: &Path, form: Form, blocks: usize) -> NewJournal {
    match form {
        Form::Sectors => NewJournal::create(path, blocks).unwrap(),
        _ => NewJournal::create_side_by_side(path, blocks).unwrap(),
    }
}

/// The blocks of a journal's file, one after the other.
pub fn blocks_of(path: &Path) -> Vec<u8> {
    let file = fs::read(path).unwrap();
    if !file.starts_with(b"NINOTSKV") {
        return file;
    }
    let sectors = file[SECTOR..].chunks(SECTOR);
    sectors
        .flat_map(|sector| &sector[..BLOCK])
        .copied()
        .collect()
}

/// The file of a form that has these blocks.
pub fn file_of(form: Form, blocks: &[u8]) -> Vec<u8> {
    if form == Form::SideBySide {
        return blocks.to_vec();
    }
    let mut file = vec![0; SECTOR + SECTOR / BLOCK * blocks.len()];
    file[..8].copy_from_slice(b"NINOTSKV");
    let count = (blocks.len() / BLOCK) as u32;
    for (place, number) in [(8, 1), (12, 4096), (16, count), (20, 1)] {
        file[place..place + 4].copy_from_slice(&u32::to_le_bytes(number));
    }
    let check = crc32c(&file[..508]);
    file[508..512].copy_from_slice(&check.to_le_bytes());
    for (sector, block) in file[SECTOR..].chunks_mut(SECTOR).zip(blocks.chunks(BLOCK)) {
        sector[..BLOCK].copy_from_slice(block);
    }
    file
}

/// A configuration of a limit, a threshold, a visibility and a cap.
pub fn configuration(max_deliver: u32, threshold: u32, visibility: u64, cap: u64) -> Configuration {
    Configuration {
        settings: Settings {
            delivery: DeliveryConfig::new(max_deliver, false, &[3, 7])
                .with_attempts_flush_redeliveries(threshold),
            ..Settings::default()
        },
        lease: LeaseConfig {
            visibility_nanos: visibility,
            hard_cap_nanos: cap,
        },
    }
}

/// Numbers that look random and are the same in every run (splitmix64).
pub struct Random(pub u64);

impl Random {
    pub fn next(&mut self) -> u64 {
        self.0 = self.0.wrapping_add(0x9e37_79b9_7f4a_7c15);
        let mut z = self.0;
        z = (z ^ (z >> 30)).wrapping_mul(0xbf58_476d_1ce4_e5b9);
        z = (z ^ (z >> 27)).wrapping_mul(0x94d0_49bb_1331_11eb);
        z ^ (z >> 31)
    }

    pub fn below(&mut self, n: u64) -> u64 {
        self.next() % n
    }

    pub fn pick<T: Copy>(&mut self, list: &[T]) -> T {
        list[self.below(list.len() as u64) as usize]
    }
}

/// What the book keeps of settled offsets and counts.
#[derive(Clone, Debug, Default, PartialEq, Eq)]
pub struct Page {
    below: u64,
    ahead: BTreeSet<u64>,
    counts: BTreeMap<u64, u32>,
}

impl Page {
    pub fn is_settled(&self, offset: u64) -> bool {
        offset < self.below || self.ahead.contains(&offset)
    }

    pub fn count(&self, offset: u64) -> u32 {
        self.counts.get(&offset).copied().unwrap_or(0)
    }
}

/// The book of docs/SPEC.md: it sees each call's arguments and answer, and whether a cut left a header block new.
#[derive(Default)]
pub struct Book {
    pub page: Page,
    pub copy: Page,
    // for the bounds and the generations
    pub delivered: BTreeMap<u64, u64>,
    /// Every offset that was handed out, for delivery or as a dead letter.
    pub handed_out: BTreeSet<u64>,
    /// Deliver answers with a count of 2 or more.
    pub repeated: u64,
    pub generations: BTreeSet<u64>,
    pub restarts: u64,
}

impl Book {
    /// A Deliver or DeadLetter, with the book's next count. No other hand-out may have its generation.
    pub fn handed_out(&mut self, hand_out: HandOut) {
        let token = hand_out.token();
        let offset = token.offset.get();
        let count = self.page.counts.entry(offset).or_insert(0);
        *count = count.saturating_add(1);
        assert_eq!(hand_out.deliveries(), *count, "the count of {offset}");
        self.handed_out.insert(offset);
        if let HandOut::Deliver { deliveries, .. } = hand_out {
            *self.delivered.entry(offset).or_insert(0) += 1;
            self.repeated += u64::from(deliveries >= 2);
        }
        assert!(
            self.generations.insert(token.generation.get()),
            "{token:?} was handed out before"
        );
    }

    pub fn settled(&mut self, offset: u64) {
        self.page.ahead.insert(offset);
        self.page.counts.remove(&offset);
    }

    pub fn committed(&mut self, bound: u64) {
        self.page.below = self.page.below.max(bound);
        let below = self.page.below;
        self.page.counts.retain(|offset, _| *offset >= below);
        self.page.ahead.retain(|offset| *offset >= below);
    }

    pub fn header_written(&mut self) {
        self.copy = self.page.clone();
    }

    /// A restart goes back to the copy, and finds just that.
    pub fn restarted<S: Storage>(&mut self, consumer: &Consumer<S>, offsets: &[u64]) {
        self.restarts += 1;
        self.page = self.copy.clone();
        self.compare(consumer, offsets);
        assert_eq!(consumer.in_flight(WORKER).unwrap(), 0);
    }

    /// The consumer has the settled offsets and the counts of the book.
    pub fn compare<S: Storage>(&self, consumer: &Consumer<S>, offsets: &[u64]) {
        for offset in offsets {
            let name = Offset::new(*offset);
            assert_eq!(
                consumer.is_settled(WORKER, name).unwrap(),
                self.page.is_settled(*offset),
                "whether {offset} is settled"
            );
            assert_eq!(
                consumer.count_of(WORKER, name).unwrap(),
                self.page.count(*offset),
                "the count of {offset}"
            );
        }
        let counts = self.page.counts.iter();
        let counts: Vec<(Offset, u32)> = counts
            .map(|(offset, count)| (Offset::new(*offset), *count))
            .collect();
        assert_eq!(consumer.all_attempt_counts(WORKER).unwrap(), counts);
    }

    /// Demand 3's bound, at most M + C × (N + 1) deliveries of each offset, and the one over the batch, at most (M − 1) × D + C × N
    /// deliveries with a count of 2 or more of all D offsets together.
    pub fn holds_the_bounds(&self, configuration: &Configuration) {
        let delivery = &configuration.settings.delivery;
        let limit = u64::from(delivery.max_deliver());
        let threshold = u64::from(delivery.attempts_flush_redeliveries());
        let most = limit + self.restarts * (threshold + 1);
        for (offset, times) in &self.delivered {
            assert!(
                *times <= most,
                "{offset} was delivered {times} times, and the bound is {most}"
            );
        }
        let offsets = self.handed_out.len() as u64;
        let most = (limit - 1) * offsets + self.restarts * threshold;
        assert!(
            self.repeated <= most,
            "{} repeated deliveries of {offsets} offsets, and the bound is {most}",
            self.repeated
        );
    }
}

/// What a power failure leaves of a block that has pending writes.
#[derive(Clone, Copy, Debug, PartialEq, Eq)]
pub enum Fate {
    /// As it was held.
    Held,
    /// As one of its pending writes, counted back from the last.
    Written(usize),
    /// The front of its last write and the rest of what was held, with a wrong check.
    Torn(usize),
    /// Bytes of no meaning, with a wrong check.
    Noise(u64),
}

impl Fate {
    pub fn random(random: &mut Random) -> Fate {
        match random.below(4) {
            0 => Fate::Held,
            1 => Fate::Written(random.below(3) as usize),
            2 => Fate::Torn(random.below(513) as usize),
            _ => Fate::Noise(random.next()),
        }
    }

    /// What it leaves of a block with these pending writes, oldest first.
    pub fn leaves(self, held: &[u8], writes: &[&Block]) -> Vec<u8> {
        let last = writes.len() - 1;
        let mut left = match self {
            Fate::Held => return held.to_vec(),
            Fate::Written(back) => return writes[last - back % writes.len()].to_vec(),
            Fate::Torn(at) => [&writes[last][..at], &held[at..]].concat(),
            Fate::Noise(seed) => {
                let mut random = Random(seed);
                (0..BLOCK).map(|_| random.next() as u8).collect()
            }
        };
        if check_matches(&left) {
            left[508] ^= 1;
        }
        assert!(!check_matches(&left));
        left
    }
}

pub type Block = [u8; BLOCK];

/// A disk in memory that keeps no order between two syncs: what is held, and the writes that are pending, oldest first.
#[derive(Clone)]
pub struct Disk {
    pub held: Vec<u8>,
    pub pending: Vec<(usize, Block)>,
    /// How many writes and syncs are left before one fails. A write that fails is pending, and a sync that fails has made nothing held.
    pub fails_in: Option<usize>,
    /// Whether all after that one fail too.
    pub keeps_failing: bool,
    /// Writes and syncs so far, and how many of the writes were zeros.
    pub writes: usize,
    pub syncs: usize,
    pub zeroed: usize,
    /// Failures while zeros were pending.
    pub failed_zeros: usize,
    /// What the disk was after each write, if that is wanted.
    pub moments: Option<Vec<Disk>>,
}

impl Disk {
    pub fn new(blocks: usize) -> Disk {
        Disk {
            held: vec![0; BLOCK * blocks],
            pending: Vec::new(),
            fails_in: None,
            keeps_failing: false,
            writes: 0,
            syncs: 0,
            zeroed: 0,
            failed_zeros: 0,
            moments: None,
        }
    }

    /// The blocks that have pending writes, rising.
    pub fn pending_blocks(&self) -> BTreeSet<usize> {
        self.pending.iter().map(|write| write.0).collect()
    }

    /// What is held of a block, and its pending writes, oldest first.
    pub fn block(&self, block: usize) -> (&[u8], Vec<&Block>) {
        let writes = self.pending.iter().filter(|write| write.0 == block);
        let held = &self.held[BLOCK * block..BLOCK * (block + 1)];
        (held, writes.map(|write| &write.1).collect())
    }

    pub fn hold(&mut self, block: usize, bytes: &[u8]) {
        self.held[BLOCK * block..BLOCK * (block + 1)].copy_from_slice(bytes);
    }

    /// What reads show.
    pub fn shown(&self) -> Vec<u8> {
        let mut bytes = self.held.clone();
        for (block, new) in &self.pending {
            bytes[BLOCK * block..BLOCK * (block + 1)].copy_from_slice(new);
        }
        bytes
    }

    /// The power fails: each block that has pending writes has a fate by itself.
    pub fn power_fails(&mut self, mut fate: impl FnMut(usize) -> Fate) {
        for block in self.pending_blocks() {
            let (held, writes) = self.block(block);
            let left = fate(block).leaves(held, &writes);
            self.hold(block, &left);
        }
        self.pending.clear();
    }

    /// The header that is pending. No other block is, then.
    pub fn pending_header(&self) -> Option<(usize, Block)> {
        let header = self.pending.iter().find(|write| write.1[0] == 1).copied();
        if let Some((block, _)) = header {
            assert_eq!(self.pending_blocks(), BTreeSet::from([block]));
        }
        header
    }

    fn fails(&mut self) -> bool {
        match self.fails_in {
            Some(0) => {
                self.fails_in = self.keeps_failing.then_some(0);
                let zeros = |write: &(usize, Block)| write.1 == [0; BLOCK];
                self.failed_zeros += usize::from(self.pending.iter().any(zeros));
                true
            }
            left => {
                self.fails_in = left.map(|left| left - 1);
                false
            }
        }
    }
}

/// A storage over a disk, which outlives it, as a disk outlives a process.
#[derive(Clone)]
pub struct Simulated(pub Rc<RefCell<Disk>>);

impl Simulated {
    pub fn new(blocks: usize) -> Simulated {
        Simulated::on(Disk::new(blocks))
    }

    pub fn on(disk: Disk) -> Simulated {
        Simulated(Rc::new(RefCell::new(disk)))
    }
}

impl Storage for Simulated {
    fn read(&mut self) -> io::Result<Area> {
        Ok(self.0.borrow().shown().into())
    }

    fn write_block(&mut self, block: usize, bytes: &[u8; BLOCK]) -> io::Result<()> {
        let disk = &mut *self.0.borrow_mut();
        disk.writes += 1;
        disk.zeroed += usize::from(*bytes == [0; BLOCK]);
        // The header is written only when nothing else is pending.
        assert!(bytes[0] != 1 || disk.pending.iter().all(|write| write.0 == block));
        disk.pending.push((block, *bytes));
        if let Some(mut moments) = disk.moments.take() {
            moments.push(disk.clone());
            disk.moments = Some(moments);
        }
        if disk.fails() {
            return Err(io::Error::other("the disk failed"));
        }
        Ok(())
    }

    fn sync(&mut self) -> io::Result<()> {
        let disk = &mut *self.0.borrow_mut();
        disk.syncs += 1;
        if disk.fails() {
            return Err(io::Error::other("the disk failed"));
        }
        disk.held = disk.shown();
        disk.pending.clear();
        Ok(())
    }
}

// What each byte comes to, bit by bit, as RFC 3720 has it.
static REMAINDERS: [u32; 256] = {
    let mut remainders = [0; 256];
    let mut byte = 0;
    while byte < 256 {
        let mut crc = byte as u32;
        let mut bit = 0;
        while bit < 8 {
            crc = (crc >> 1) ^ (0x82f6_3b78 * (crc & 1));
            bit += 1;
        }
        remainders[byte] = crc;
        byte += 1;
    }
    remainders
};

/// CRC32C.
pub fn crc32c(bytes: &[u8]) -> u32 {
    !bytes.iter().fold(!0, |crc: u32, byte| {
        (crc >> 8) ^ REMAINDERS[usize::from(crc as u8 ^ byte)]
    })
}

fn check_matches(block: &[u8]) -> bool {
    crc32c(&block[..508]).to_le_bytes() == block[508..]
}
