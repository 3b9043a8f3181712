//! Makes lists of operations. The original runs along, so that tokens, times and positions are mostly those that matter: the
//! lease's own generation or an older one, the deadline or a nanosecond off it, outputs exactly full or one short.
use crate::random::Random;
use crate::state::{read_table, Lease, State, BYTES, ENTRIES};

const MAX: u64 = u64::MAX;

/// Puts a line into the list, made from a format and its values.
macro_rules! say {
    ($maker:expr, $($text:tt)*) => {{
        let line = format!($($text)*);
        $maker.say(line)
    }};
}

struct Maker {
    state: State,
    random: Random,
    lines: Vec<String>,
}

/// A list: each of `rounds` rounds has one of each kind of scene.
pub fn list(seed: u64, rounds: u64) -> Vec<String> {
    let mut maker = Maker {
        state: State::fresh(),
        random: Random(seed),
        lines: Vec::new(),
    };
    for _ in 0..rounds {
        for scene in SCENES {
            scene(&mut maker);
        }
    }
    maker.lines
}

const SCENES: [fn(&mut Maker); 12] = [
    Maker::acks,
    Maker::acks_near_the_end,
    Maker::full_cursor,
    Maker::resumed_ranges,
    Maker::cursor_bytes,
    Maker::attempt_bytes,
    Maker::leases,
    Maker::leases_near_the_end_of_time,
    Maker::full_table,
    Maker::carried_counts,
    Maker::last_generations,
    Maker::policy,
];

impl Maker {
    fn say(&mut self, line: String) {
        self.state.run(&line).unwrap_or_else(|| panic!("{line}"));
        self.lines.push(line);
    }

    fn say_all(&mut self, lines: &[&str]) {
        for line in lines {
            self.say(line.to_string());
        }
    }

    fn below(&mut self, n: u64) -> u64 {
        self.random.below(n)
    }

    // Cursor.

    fn committed(&self) -> u64 {
        self.state.cursor.committed().get()
    }

    /// Committed, an end of a range, or something close to either.
    fn edge(&mut self) -> u64 {
        let ranges = self.state.cursor.ahead_ranges();
        let mut edges: Vec<u64> = ranges.iter().flat_map(|&(start, end)| [start, end]).collect();
        edges.push(self.state.cursor.committed().get());
        let edge = self.random.pick(&edges);
        self.random.near(edge)
    }

    fn an_offset(&mut self) -> u64 {
        match self.below(4) {
            0 => self.committed(),
            1 => self.edge(),
            _ => self.committed().saturating_add(self.random.below(24)),
        }
    }

    fn cursor_step(&mut self) {
        let x = self.an_offset();
        let line = match self.below(12) {
            0..=4 => format!("cursor ack {x}"),
            5..=7 => format!("cursor bounded {x} {}", self.random.pick(&[0, 1, 2, 3, 127, 128, 129, MAX])),
            8 => format!("cursor commit {x}"),
            9 => format!("cursor acked {x}"),
            10 => format!("cursor ranges {}", self.random.near(self.state.cursor.ahead_runs() as u64)),
            _ => self
                .random
                .pick(&["cursor committed", "cursor len", "cursor runs"])
                .to_string(),
        };
        self.say(line);
    }

    fn acks(&mut self) {
        let start = self.random.pick(&[0, 0, 5, 1_u64 << 40]);
        say!(self, "cursor resume {start}");
        for _ in 0..30 {
            self.cursor_step();
        }
        say!(self, "cursor new");
        for x in [2, 1, 0, 0, 3, 7, 5, 6, 4] {
            say!(self, "cursor ack {x}");
        }
    }

    fn acks_near_the_end(&mut self) {
        let start = MAX - self.below(12);
        say!(self, "cursor resume {start}");
        for x in [MAX, MAX - 1, MAX - 2] {
            say!(self, "cursor ack {x}");
            say!(self, "cursor acked {x}");
            say!(self, "offset next {x}");
        }
        for _ in 0..10 {
            self.cursor_step();
        }
        say!(self, "cursor commit {MAX}");
        say!(self, "cursor ack {MAX}");
    }

    /// 128 ranges, reached from either end, and what still lands there.
    fn full_cursor(&mut self) {
        let start = self.below(1000);
        let rising = self.below(2) == 0;
        say!(self, "cursor resume {start}");
        for i in 0..130 {
            let place = if rising { i } else { 129 - i };
            say!(self, "cursor ack {}", start + 2 + 3 * place);
        }
        say!(self, "cursor runs");
        for room in [127, 128, 129] {
            say!(self, "cursor ranges {room}");
        }
        self.say_all(&[
            "bytes new 2060 7",
            "cursor encode 0",
            "bytes new 2061 7",
            "cursor encode 1",
            "cursor encode 0",
        ]);
        self.say_all(&["cursor decode 0 2061", "cursor decode 0 2060"]);
        self.over_the_limit();
        for _ in 0..20 {
            let x = self.edge();
            let limit = self.random.pick(&[127, 128, 129, MAX]);
            say!(self, "cursor bounded {x} {limit}");
        }
        let x = self.edge();
        say!(self, "cursor commit {x}");
        say!(self, "cursor ack {x}");
        say!(self, "cursor len");
    }

    /// Ranges that rise behind an offset, `n` of them, put into the list.
    fn good_ranges(&mut self, committed: u64, n: u64) {
        say!(self, "list new");
        let mut end = committed;
        for _ in 0..n {
            let start = end + 1 + self.below(3);
            end = start + 1 + self.below(3);
            say!(self, "list add {start} {end}");
        }
    }

    fn resumed_ranges(&mut self) {
        let committed = self.below(1000);
        let n = self.random.pick(&[0, 1, 2, 3, 5]);
        self.good_ranges(committed, n);
        say!(self, "cursor with {committed}");
        say!(self, "cursor with {}", committed + 2);
        let (a, b) = self.state.list.last().copied().unwrap_or((committed + 9, committed + 9));
        for (start, end) in [
            (b, b),
            (b + 1, b + 1),
            (b + 2, b + 1),
            (a, b + 1),
            (b, b + 1),
            (committed, committed + 1),
        ] {
            self.good_ranges(committed, n);
            say!(self, "list add {start} {end}");
            say!(self, "cursor with {committed}");
        }
        let n = self.random.pick(&[127, 128, 129]);
        self.good_ranges(committed, n);
        say!(self, "cursor with {committed}");
        let last = self.state.list[n as usize - 1].1;
        say!(self, "list add {last} {}", last + 1);
        say!(self, "cursor with {committed}");
        self.say_all(&[
            "list new",
            &format!("list add {} {MAX}", MAX - 1),
            &format!("cursor with {}", MAX - 2),
        ]);
        say!(self, "cursor ack {}", MAX - 2);
    }

    // Bytes.

    /// Puts a snapshot of `len` bytes into bytes of exactly its length, one less and some more, at positions around the limits.
    fn encode(&mut self, encoder: &str, len: u64) {
        let spare = self.random.pick(&[0, 1, 5]);
        let fill = self.below(256);
        say!(self, "bytes new {} {fill}", len + spare - 1);
        say!(self, "{encoder} {spare}");
        say!(self, "bytes new {} {fill}", len + spare);
        for at in [spare + 1, len + spare, len + spare + 1, MAX, MAX - len + 1, spare] {
            say!(self, "{encoder} {at}");
        }
        // with the check behind it, this would be the same for every snapshot of its length, as the digest is
        say!(self, "bytes crc {spare} {}", len + spare - 4);
    }

    /// Damages bytes[from..] in one place, sometimes with its check made right again.
    fn damage(&mut self, from: u64) {
        let len = self.state.bytes.len() as u64;
        let place = from + self.random.pick(&[0, 1, 2, 5, 9, 13, 17, 25]).min(len - from - 1);
        let value = self.random.pick(&[0, 1, 2, 3, 255]);
        say!(self, "bytes set {place} {value}");
        if self.below(3) != 0 {
            say!(self, "bytes seal {from} {len}");
        }
    }

    /// Another check than the right one.
    fn spoil(&mut self) {
        let last = self.state.bytes.len() - 1;
        let byte = self.state.bytes[last] ^ (1 << self.below(8));
        say!(self, "bytes set {last} {byte}");
    }

    fn cursor_bytes(&mut self) {
        let committed = self.random.pick(&[0, 3, 1_u64 << 33]);
        let n = self.random.pick(&[0, 1, 2, 4]);
        self.good_ranges(committed, n);
        say!(self, "cursor with {committed}");
        self.encode("cursor encode", 13 + 16 * n);
        let len = self.state.bytes.len() as u64;
        let from = len - (13 + 16 * n);
        say!(self, "cursor new");
        say!(self, "cursor decode {from} {len}");
        for to in [from, from + 12, from + 13, len - 1] {
            say!(self, "cursor decode {from} {to}");
        }
        self.spoil();
        say!(self, "cursor decode {from} {len}");
        for _ in 0..6 {
            self.damage(from);
            say!(self, "cursor decode {from} {len}");
        }
    }

    /// A snapshot of 128 ranges with one more behind them and a right check: well formed, and then with that one empty.
    fn over_the_limit(&mut self) {
        say!(self, "bytes new 2077 0");
        say!(self, "cursor encode 0");
        for end in [9001, 9000] {
            self.put_number(2057, 9000);
            self.put_number(2065, end);
            say!(self, "bytes seal 0 2077");
            say!(self, "cursor decode 0 2077");
        }
    }

    fn put_number(&mut self, at: u64, number: u64) {
        for (place, byte) in (at..).zip(number.to_le_bytes()) {
            if self.state.bytes[place as usize] != byte {
                say!(self, "bytes set {place} {byte}");
            }
        }
    }

    /// Pairs that rise, `n` of them, put into the list.
    fn good_pairs(&mut self, n: u64) {
        say!(self, "list new");
        let mut offset = self.random.pick(&[0, 7, 1_u64 << 35]);
        for _ in 0..n {
            let attempt = self.random.pick(&[0, 1, 1, 2, 3, u64::from(u32::MAX)]);
            say!(self, "list add {offset} {attempt}");
            offset += 1 + self.below(3);
        }
    }

    fn attempt_bytes(&mut self) {
        self.attempts_by("attempt encode");
        self.attempts_by("attempt encode2");
        self.most_pairs();
        self.other_versions();
    }

    /// Attempt bytes by an encoder: its outputs, damage, and pairs that fall.
    fn attempts_by(&mut self, encoder: &str) {
        let n = self.random.pick(&[0, 1, 2, 5]);
        self.good_pairs(n);
        self.encode(encoder, 9 + 12 * n);
        let len = self.state.bytes.len() as u64;
        let from = len - (9 + 12 * n);
        for room in [n.saturating_sub(1), n, n + 1] {
            say!(self, "attempt decode {from} {len} {room}");
        }
        for to in [from, from + 8, from + 9, len - 1] {
            say!(self, "attempt decode {from} {to} 256");
        }
        self.spoil();
        say!(self, "attempt decode {from} {len} 256");
        for _ in 0..6 {
            self.damage(from);
            say!(self, "attempt decode {from} {len} 256");
        }
        self.unsorted_pairs(encoder);
    }

    /// As many pairs as there may be, one less or one more, in both versions.
    fn most_pairs(&mut self) {
        let n = self.random.pick(&[127, 128, 129]);
        self.good_pairs(n);
        say!(self, "bytes new 1600 9");
        for encoder in ["attempt encode", "attempt encode2"] {
            say!(self, "{encoder} 2");
            if n < 129 {
                say!(self, "bytes crc 2 {}", 7 + 12 * n);
                say!(self, "attempt decode 2 {} {n}", 11 + 12 * n);
            }
        }
    }

    /// Pairs in the given order are encoded, and refused when they are read.
    fn unsorted_pairs(&mut self, encoder: &str) {
        let (a, b) = (self.below(9), self.below(9));
        say!(self, "list new");
        say!(self, "list add {a} 1");
        say!(self, "list add {b} {}", u32::MAX);
        say!(self, "bytes new 33 0");
        say!(self, "{encoder} 0");
        self.say_all(&[
            "attempt decode 0 33 2",
            "bytes set 1 1",
            "attempt decode 0 33 2",
            "bytes seal 0 33",
            "attempt decode 0 33 2",
        ]);
    }

    /// The bytes of either version read as the other, and as versions that there are none of; a length that is no snapshot's.
    fn other_versions(&mut self) {
        self.good_pairs(3);
        for encoder in ["attempt encode", "attempt encode2"] {
            say!(self, "bytes new 46 0");
            say!(self, "{encoder} 0");
            for version in [0, 1, 2, 3, 255] {
                say!(self, "bytes set 0 {version}");
                say!(self, "attempt decode 0 45 3");
                say!(self, "bytes seal 0 45");
                say!(self, "attempt decode 0 45 3");
                say!(self, "attempt decode 0 46 3");
            }
        }
    }

    // Leases.

    fn leased(&self) -> Vec<Lease> {
        read_table(&self.state.table).leases
    }

    /// An offset and a generation: mostly those of a lease, sometimes an older or a newer generation or an offset without lease.
    fn a_token(&mut self) -> (u64, u64) {
        let leases = self.leased();
        if leases.is_empty() || self.below(8) == 0 {
            return (self.below(6), self.below(4));
        }
        let lease = &leases[self.below(leases.len() as u64) as usize];
        match self.below(5) {
            0 => (lease.offset, self.random.near(lease.generation)),
            _ => (lease.offset, lease.generation),
        }
    }

    /// A time close to a deadline or to the cap of a lease, or to the time before.
    fn a_time(&mut self, now: u64) -> u64 {
        let table = read_table(&self.state.table);
        if table.leases.is_empty() || self.below(3) == 0 {
            return now.saturating_add(self.random.below(12));
        }
        let lease = &table.leases[self.random.below(table.leases.len() as u64) as usize];
        let times = [
            lease.deadline,
            lease.attempt_start,
            lease.attempt_start.saturating_add(table.config[1]),
        ];
        let time = self.random.pick(&times);
        self.random.near(time)
    }

    fn lease_step(&mut self, base: u64, now: u64) {
        let x = base.saturating_add(self.random.below(5));
        let (offset, generation) = self.a_token();
        let delay = self.random.pick(&[0, 1, 9, 40, MAX]);
        let line = match self.below(24) {
            0..=7 => format!("lease claim {x} {now}"),
            8 | 9 => format!("lease ack {offset} {generation}"),
            10 | 11 => format!("lease extend {offset} {generation} {now}"),
            12 | 13 => format!("lease nack {offset} {generation} {now} {delay}"),
            14 => format!(
                "lease reseal {offset} {generation} {}",
                self.random.pick(&[0, 1, 2, generation, MAX])
            ),
            15 => format!("lease defer {offset} {now} {delay}"),
            16 => format!("lease claimable {x} {now}"),
            17 => format!("lease deliveries {offset} {generation}"),
            18 => format!("lease holds {offset} {generation} {now}"),
            19 => format!("lease pending {x} {now}"),
            20 => format!("lease expired {now} {}", self.random.pick(&[0, 1, 2, 64])),
            21 => format!("lease release {x}"),
            22 => format!("lease shift {}", self.random.pick(&[0, 1, 10])),
            _ => self
                .random
                .pick(&[
                    "lease counts",
                    "lease all",
                    "lease redeliveries",
                    "lease inflight",
                    "lease flushed",
                ])
                .to_string(),
        };
        self.say(line);
    }

    fn leases(&mut self) {
        let (v, c) = self
            .random
            .pick(&[(10, 25), (10, 10), (10, 4), (0, 5), (5, 0), (MAX, MAX), (7, MAX)]);
        say!(self, "lease new {v} {c}");
        let base = self.random.pick(&[0, 3, MAX - 4]);
        let mut now = self.random.pick(&[0, 100]);
        for _ in 0..60 {
            now = self.a_time(now);
            self.lease_step(base, now);
        }
        self.say_all(&[
            "lease all",
            "lease flushed",
            "lease inflight",
            "lease new 10 25",
            "lease claim 1 100",
        ]);
        for now in [109, 110, 120, 124, 125, 126] {
            say!(self, "lease extend 1 0 {now}");
        }
    }

    /// Sums of times that pass the largest number stay there.
    fn leases_near_the_end_of_time(&mut self) {
        let (v, c) = self.random.pick(&[(10, 25), (MAX, MAX), (3, MAX), (MAX, 3)]);
        let config = self
            .random
            .pick(&["default", "millis 30000 300000", "millis 18446744073709 18446744073710"]);
        say!(self, "lease {config}");
        say!(self, "lease claim 1 {}", MAX - 5);
        say!(self, "lease new {v} {c}");
        for _ in 0..20 {
            let now = MAX - self.below(30);
            self.lease_step(0, now);
        }
        say!(self, "lease shift {}", self.random.pick(&[MAX, MAX - 5, 20]));
        let (offset, generation) = self.a_token();
        say!(self, "lease extend {offset} {generation} {}", MAX - 1);
        say!(self, "lease expired {MAX} 64");
    }

    /// 64 leases, claimed out of order, and one more.
    fn full_table(&mut self) {
        say!(self, "lease new 10 25");
        let (step, base) = (self.random.pick(&[1, 5, 27, 63]), self.below(50));
        for i in 0..64 {
            say!(self, "lease claim {} {}", base + i * step % 64, i / 16);
        }
        say!(self, "lease claim {} 9", base + 64);
        say!(self, "lease claim {base} 9");
        say!(self, "lease claim {base} 30");
        say!(self, "lease expired 12 63");
        say!(self, "lease expired 12 64");
        let (offset, generation) = self.a_token();
        say!(self, "lease ack {offset} {generation}");
        say!(self, "lease claim {} 31", base + 64);
        say!(self, "lease claim {} 31", base + 65);
        say!(self, "lease all");
        say!(self, "lease release {}", base + 40);
        say!(self, "lease counts");
    }

    /// Counts carried over, also beside a lease of the same offset, up to the limit of 128 and past it.
    fn carried_counts(&mut self) {
        say!(self, "lease new 10 25");
        say!(self, "lease claim 3 0");
        say!(self, "lease claim 5 0");
        say!(self, "list new");
        for _ in 0..8 {
            let attempt = self.random.pick(&[0, 1, 2, 7, u64::from(u32::MAX) - 1, u64::from(u32::MAX)]);
            say!(self, "list add {} {attempt}", self.random.below(8));
        }
        say!(self, "lease resume");
        say!(self, "lease counts");
        say!(self, "lease all");
        for now in [5, 10, 20] {
            for _ in 0..6 {
                self.lease_step(0, now);
            }
            say!(self, "lease all");
        }
        say!(self, "lease claim 3 {}", 1000);
        say!(self, "lease ack 3 0");
        say!(self, "lease redeliveries");
        self.past_the_limit();
    }

    fn past_the_limit(&mut self) {
        let n = self.random.pick(&[127, 128]);
        say!(self, "list new");
        for i in 0..n {
            say!(self, "list add {} {}", 2 * (i * 37 % 128), 1 + i);
        }
        self.say_all(&["lease new 1000 1000", "lease resume", "lease resume"]);
        for i in 0..2 {
            self.say_all(&[
                "list new",
                "list add 300 0",
                &format!("list add 0 {}", 9 + i),
                &format!("list add {} 5", 301 + i),
                "lease resume",
            ]);
        }
        for i in 0..66 {
            say!(self, "lease claim {} 0", i * 2 + i % 2);
        }
        say!(self, "lease all");
        say!(self, "bytes new {BYTES} 1");
        say!(self, "attempt encode 0");
        say!(self, "lease release 90");
        assert!(self.state.list.len() <= ENTRIES);
    }

    /// Generations up to the last, which is never given.
    fn last_generations(&mut self) {
        let first = MAX - self.below(5);
        say!(self, "lease at 10 25 {first}");
        say!(self, "lease claim 1 0");
        let (offset, generation) = self.a_token();
        say!(self, "lease nack {offset} {generation} 1 3");
        for i in 0..4 {
            say!(self, "lease claim {i} 2");
        }
        for _ in 0..12 {
            let now = self.below(40);
            self.lease_step(0, now);
        }
        let (offset, generation) = self.a_token();
        say!(self, "lease nack {offset} {generation} 50 0");
        say!(self, "lease claim {offset} 1000");
        say!(self, "lease at 10 25 {}", self.random.pick(&[0, 1, 4096]));
        say!(self, "lease claim 1 0");
    }

    // Delivery.

    fn policy(&mut self) {
        const LAST: u64 = u32::MAX as u64;
        let steps = self.random.pick(&[0, 1, 2, 15, 16, 17]);
        say!(self, "list new");
        for _ in 0..steps {
            say!(self, "list add {} 0", self.random.pick(&[0, 5, 9, MAX]));
        }
        for limit in [0, 1, 3, LAST - 1, LAST] {
            for opt_in in [0, 1] {
                say!(self, "delivery new {limit} {opt_in}");
                let k = self.random.near(limit).min(LAST);
                say!(self, "delivery disposition {k}");
            }
        }
        let limit = self.random.pick(&[1, 2, 3, 5]);
        say!(self, "delivery new {limit} 0");
        for _ in steps..17 {
            say!(self, "list add 1 0");
        }
        self.say_all(&["delivery new 3 0", "delivery new 0 0"]);
        say!(self, "delivery flush {}", self.random.pick(&[0, 1, 2, LAST]));
        self.say_all(&["delivery threshold", "delivery limit", "delivery unlimited"]);
        for k in [0, 1, 2, 3, 15, 16, 17, LAST] {
            say!(self, "delivery backoff {k}");
            say!(self, "delivery disposition {k}");
        }
        for cap in [0, 5, 6, 7, 8, MAX] {
            say!(self, "delivery delay {} {cap}", self.random.below(20));
            say!(
                self,
                "delivery explicit {} {} {cap}",
                self.random.below(20),
                self.random.pick(&[0, 6, 7, MAX])
            );
        }
    }
}
