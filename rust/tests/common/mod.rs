//! What the tests share: a folder for files, random numbers, the book of docs/SPEC.md, and a storage whose power can be cut.
#![allow(dead_code)]

use std::cell::RefCell;
use std::collections::{BTreeMap, BTreeSet};
use std::fs::{self, File, OpenOptions};
use std::io;
use std::os::unix::fs::FileExt;
use std::path::{Path, PathBuf};
use std::rc::Rc;

use ironbus_delivery_state::{
    Configuration, Consumer, DeliveryConfig, HandOut, LeaseConfig, Offset, Settings, Storage,
    WorkerId, BLOCK,
};

/// The worker that makes the calls, where it doesn't matter which: it has every right.
pub const WORKER: WorkerId = WorkerId::new(0);

/// A file of this name in the folder for tests, which isn't there.
pub fn fresh_path(name: &str) -> PathBuf {
    let path = Path::new(env!("CARGO_TARGET_TMPDIR")).join(name);
    let _ = fs::remove_file(&path);
    path
}

/// A configuration of a limit, a threshold, a visibility and a cap.
pub fn configuration(max_deliver: u32, threshold: u32, visibility: u64, cap: u64) -> Configuration {
    Configuration {
        settings: Settings {
            delivery: DeliveryConfig::new(max_deliver, false, &[3, 7])
                .with_attempts_flush_redeliveries(threshold),
            ..Settings::default()
        },
        lease: LeaseConfig {
            visibility_nanos: visibility,
            hard_cap_nanos: cap,
        },
    }
}

/// Numbers that look random and are the same in every run (splitmix64).
pub struct Random(pub u64);

impl Random {
    pub fn next(&mut self) -> u64 {
        self.0 = self.0.wrapping_add(0x9e37_79b9_7f4a_7c15);
        let mut z = self.0;
        z = (z ^ (z >> 30)).wrapping_mul(0xbf58_476d_1ce4_e5b9);
        z = (z ^ (z >> 27)).wrapping_mul(0x94d0_49bb_1331_11eb);
        z ^ (z >> 31)
    }

    pub fn below(&mut self, n: u64) -> u64 {
        self.next() % n
    }

    pub fn pick<T: Copy>(&mut self, list: &[T]) -> T {
        list[self.below(list.len() as u64) as usize]
    }
}

/// What the book keeps of settled offsets and counts.
#[derive(Clone, Debug, Default, PartialEq, Eq)]
pub struct Page {
    below: u64,
    ahead: BTreeSet<u64>,
    counts: BTreeMap<u64, u32>,
}

impl Page {
    pub fn is_settled(&self, offset: u64) -> bool {
        offset < self.below || self.ahead.contains(&offset)
    }

    pub fn count(&self, offset: u64) -> u32 {
        self.counts.get(&offset).copied().unwrap_or(0)
    }
}

/// The book of docs/SPEC.md: it sees each call's arguments and answer, and whether a cut left a header block new.
#[derive(Default)]
pub struct Book {
    pub page: Page,
    pub copy: Page,
    // for the bounds and the generations
    pub delivered: BTreeMap<u64, u64>,
    /// Every offset that was handed out, for delivery or as a dead letter.
    pub handed_out: BTreeSet<u64>,
    /// Deliver answers with a count of 2 or more.
    pub repeated: u64,
    pub generations: BTreeSet<u64>,
    pub restarts: u64,
}

impl Book {
    /// A Deliver or DeadLetter, with the book's next count. No other hand-out may have its generation.
    pub fn handed_out(&mut self, hand_out: HandOut) {
        let token = hand_out.token();
        let offset = token.offset.get();
        let count = self.page.counts.entry(offset).or_insert(0);
        *count = count.saturating_add(1);
        assert_eq!(hand_out.deliveries(), *count, "the count of {offset}");
        self.handed_out.insert(offset);
        if let HandOut::Deliver { deliveries, .. } = hand_out {
            *self.delivered.entry(offset).or_insert(0) += 1;
            self.repeated += u64::from(deliveries >= 2);
        }
        assert!(
            self.generations.insert(token.generation.get()),
            "{token:?} was handed out before"
        );
    }

    pub fn settled(&mut self, offset: u64) {
        self.page.ahead.insert(offset);
        self.page.counts.remove(&offset);
    }

    pub fn committed(&mut self, bound: u64) {
        self.page.below = self.page.below.max(bound);
        let below = self.page.below;
        self.page.counts.retain(|offset, _| *offset >= below);
        self.page.ahead.retain(|offset| *offset >= below);
    }

    pub fn header_written(&mut self) {
        self.copy = self.page.clone();
    }

    /// A restart goes back to the copy, and finds just that.
    pub fn restarted<S: Storage>(&mut self, consumer: &Consumer<S>, offsets: &[u64]) {
        self.restarts += 1;
        self.page = self.copy.clone();
        self.compare(consumer, offsets);
        assert_eq!(consumer.in_flight(WORKER).unwrap(), 0);
    }

    /// The consumer has the settled offsets and the counts of the book.
    pub fn compare<S: Storage>(&self, consumer: &Consumer<S>, offsets: &[u64]) {
        for offset in offsets {
            let name = Offset::new(*offset);
            assert_eq!(
                consumer.is_settled(WORKER, name).unwrap(),
                self.page.is_settled(*offset),
                "whether {offset} is settled"
            );
            assert_eq!(
                consumer.count_of(WORKER, name).unwrap(),
                self.page.count(*offset),
                "the count of {offset}"
            );
        }
        let counts = self.page.counts.iter();
        let counts: Vec<(Offset, u32)> = counts
            .map(|(offset, count)| (Offset::new(*offset), *count))
            .collect();
        assert_eq!(consumer.all_attempt_counts(WORKER).unwrap(), counts);
    }

    /// Demand 3's bound, at most M + C × (N + 1) deliveries of each offset, and the one over the batch, at most (M − 1) × D + C × N
    /// deliveries with a count of 2 or more of all D offsets together.
    pub fn holds_the_bounds(&self, configuration: &Configuration) {
        let delivery = &configuration.settings.delivery;
        let limit = u64::from(delivery.max_deliver());
        let threshold = u64::from(delivery.attempts_flush_redeliveries());
        let most = limit + self.restarts * (threshold + 1);
        for (offset, times) in &self.delivered {
            assert!(
                *times <= most,
                "{offset} was delivered {times} times, and the bound is {most}"
            );
        }
        let offsets = self.handed_out.len() as u64;
        let most = (limit - 1) * offsets + self.restarts * threshold;
        assert!(
            self.repeated <= most,
            "{} repeated deliveries of {offsets} offsets, and the bound is {most}",
            self.repeated
        );
    }
}

/// What a power failure leaves of the block that is being written.
#[derive(Clone, Copy, Debug, PartialEq, Eq)]
pub enum Cut {
    Old,
    New,
    /// The front of the new one and the rest of the old one.
    Torn(usize),
    /// Bytes of no meaning.
    Noise(u64),
}

/// When the power fails next, and what was written.
#[derive(Default)]
pub struct Power {
    /// How many writes are left before the cut, and what it leaves.
    pub cut: Option<(usize, Cut)>,
    pub writes: usize,
    /// Blocks of zeros that were written, and cuts in such a write.
    pub zeroed: usize,
    pub cut_zeros: usize,
    /// The block that the last cut left new.
    pub left_new: Option<Vec<u8>>,
    /// The block that was being written at the last cut.
    pub writing: Option<Vec<u8>>,
}

/// A real file whose power fails at a write. It isn't made durable: the power fails by what is written. After a failure the next process
/// has the file [again](Cuttable::again).
pub struct Cuttable {
    file: File,
    power: Rc<RefCell<Power>>,
}

impl Cuttable {
    /// A zeroed file.
    pub fn new(path: &Path, blocks: usize, power: &Rc<RefCell<Power>>) -> Cuttable {
        let file = OpenOptions::new()
            .read(true)
            .write(true)
            .create(true)
            .truncate(true)
            .open(path)
            .unwrap();
        file.set_len((BLOCK * blocks) as u64).unwrap();
        Cuttable {
            file,
            power: Rc::clone(power),
        }
    }

    /// The file that is there.
    pub fn again(path: &Path, power: &Rc<RefCell<Power>>) -> Cuttable {
        let file = OpenOptions::new().read(true).write(true).open(path);
        Cuttable {
            file: file.unwrap(),
            power: Rc::clone(power),
        }
    }
}

/// CRC32C by bits, as RFC 3720 has it.
pub fn crc32c(bytes: &[u8]) -> u32 {
    let mut crc = !0u32;
    for byte in bytes {
        crc ^= u32::from(*byte);
        for _ in 0..8 {
            crc = if crc & 1 == 1 {
                (crc >> 1) ^ 0x82f6_3b78
            } else {
                crc >> 1
            };
        }
    }
    !crc
}

fn check_matches(block: &[u8]) -> bool {
    crc32c(&block[..508]).to_le_bytes() == block[508..]
}

impl Cut {
    /// What it leaves of a block: the old one, the new one, or one whose check fails.
    fn leaves(self, old: &[u8], new: &[u8]) -> Vec<u8> {
        let mut left = match self {
            Cut::Old => return old.to_vec(),
            Cut::New => return new.to_vec(),
            Cut::Torn(at) => [&new[..at], &old[at..]].concat(),
            Cut::Noise(seed) => {
                let mut random = Random(seed);
                (0..BLOCK).map(|_| random.next() as u8).collect()
            }
        };
        if left != old && left != new {
            if check_matches(&left) {
                left[508] ^= 1;
            }
            assert!(!check_matches(&left));
        }
        left
    }
}

impl Storage for Cuttable {
    fn read(&mut self) -> io::Result<Vec<u8>> {
        let mut bytes = vec![0; usize::try_from(self.file.metadata()?.len()).unwrap()];
        self.file.read_exact_at(&mut bytes, 0)?;
        Ok(bytes)
    }

    fn write_block(&mut self, block: usize, bytes: &[u8; BLOCK]) -> io::Result<()> {
        let at = (BLOCK * block) as u64;
        let power = &mut *self.power.borrow_mut();
        power.writes += 1;
        let zeros = usize::from(bytes.iter().all(|byte| *byte == 0));
        power.zeroed += zeros;
        if let Some((left, cut)) = power.cut {
            if left == 0 {
                let mut old = vec![0; BLOCK];
                self.file.read_exact_at(&mut old, at)?;
                let leaves = cut.leaves(&old, bytes);
                self.file.write_all_at(&leaves, at)?;
                power.cut = None;
                power.cut_zeros += zeros;
                power.left_new = (leaves == bytes).then_some(leaves);
                power.writing = Some(bytes.to_vec());
                return Err(io::Error::other("the power failed"));
            }
            power.cut = Some((left - 1, cut));
        }
        self.file.write_all_at(bytes, at)
    }
}
