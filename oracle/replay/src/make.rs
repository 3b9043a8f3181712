//! Makes scripts. The model runs along, so that tokens, times, offsets and blocks are those that matter.
use crate::hours::Hours;
use crate::line::LINE;
use crate::program::{Phase, Program};
use crate::workers::Crew;
use crate::{
    bounds, commits, halves, headers, help, hours, imports, nacks, open, plan, scenes, versions, views, waiting, wear, workers,
};
use lists::random::Random;
use lists::state::Table;

pub struct Maker {
    pub random: Random,
    pub program: Program,
    pub lines: Vec<Vec<u8>>,
    visibility: u64,
    cap: u64,
    now: u64,
    /// Tokens that were given out, stale ones too.
    tokens: Vec<(u64, u64)>,
    pub crew: Crew,
    /// The hours that the next start is given, if any.
    pub opening: Option<Hours>,
}

/// What can't be called before a start.
const NEEDS_A_START: [&str; 12] = [
    "restart",
    "claim 0 0",
    "view 0 0",
    "open 0 0 0",
    "nearest 0",
    "plan 0",
    "poke 0 0 0",
    "peek 0",
    "step",
    "cut old",
    "begin",
    "state",
];

/// Of what moves in and out, what can't be called before a start.
const MOVES_NEED_A_START: [&str; 2] = ["import 0 - -", "export"];

/// Lines that look like calls, and `help`, which is none and tells bad lines from then on what they should be.
const NO_CALLS: [&str; 37] = [
    "cut",
    "cut half",
    "cut old ",
    "cut 1",
    "step old",
    "begin 1",
    "state 0",
    "peek",
    "poke 0 0",
    "start",
    "worker",
    "worker 18446744073709551616",
    "worker 1 1",
    "rights",
    "rights 0",
    "rights 8 0",
    "rights 0 256",
    "rights 0 0 0",
    "hours",
    "hours none 0",
    "hours 0 1 1 1 1 1 1",
    "hours 0 1 1 1 1 1 1 1 1",
    "view",
    "view 0",
    "view 0 0 0",
    "open",
    "open 0 1",
    "open 0 1 257",
    "open 0 1 1 1",
    "nearest",
    "nearest 0 0",
    "plan",
    "plan 257",
    "plan 1 18446744073709551616",
    "help",
    "help 1",
    "helps",
];

/// Lines that look like what moves in and out.
const NO_MOVES: [&str; 11] = [
    "import",
    "import 0",
    "import 0 -",
    "import 0 - - -",
    "import 0 0 -",
    "import 0 - 0A",
    "import 0 -  -",
    "import 0 -0 -",
    "import - - -",
    "export 1",
    "export -",
];

/// A script of so many lines, without what moves in and out.
pub fn script(seed: u64, lines: usize) -> Vec<Vec<u8>> {
    filled(Maker::new(seed), lines)
}

/// The same, with imports and exports everywhere.
pub fn moving_script(seed: u64, lines: usize) -> Vec<Vec<u8>> {
    filled(Maker::moving(seed), lines)
}

fn filled(mut maker: Maker, lines: usize) -> Vec<Vec<u8>> {
    let worker = maker.random.pick(&[0, 1, 8]);
    maker.worker(worker);
    for call in NEEDS_A_START {
        maker.say(call);
    }
    if maker.program.moving {
        for call in MOVES_NEED_A_START {
            maker.say(call);
        }
    }
    if lines >= 2 * scenes::GENERATIONS as usize {
        scenes::spend(&mut maker);
    }
    while maker.lines.len() < lines {
        scene(&mut maker);
    }
    maker.lines.truncate(lines);
    maker.lines
}

/// Any scene.
fn scene(maker: &mut Maker) {
    if maker.program.moving && maker.random.below(16) == 0 {
        return imports::imports(maker);
    }
    match maker.random.below(60) {
        0..=5 => scenes::life(maker),
        6..=7 => scenes::cuts(maker),
        8 => scenes::full(maker),
        9 => scenes::ranges(maker),
        10 => scenes::last_generations(maker),
        11 => scenes::starts(maker),
        12 => scenes::filled(maker),
        13..=14 => wear::worn(maker),
        15 => wear::bounds(maker),
        16..=20 => headers::headers(maker),
        21..=22 => versions::versions(maker),
        23..=24 => halves::switches(maker),
        25..=26 => halves::cut_switches(maker),
        27..=28 => halves::first_blocks(maker),
        29..=30 => halves::last_numbers(maker),
        31 => halves::old_journals(maker),
        32 => halves::unfit(maker),
        33..=35 => workers::workers(maker),
        36..=37 => views::views(maker),
        38..=39 => nacks::nacks(maker),
        40..=41 => waiting::waiting(maker),
        42..=43 => commits::commits(maker),
        44..=45 => open::open(maker),
        46..=47 => plan::plans(maker),
        48..=50 => hours::hours(maker),
        51..=54 => bounds::bounds(maker),
        55..=56 => help::lines_of_people(maker),
        _ => wear::forged(maker),
    }
}

impl Maker {
    pub fn new(seed: u64) -> Maker {
        Maker {
            random: Random(seed),
            program: Program::default(),
            lines: Vec::new(),
            visibility: 0,
            cap: 0,
            now: 0,
            tokens: Vec::new(),
            crew: Crew::Alone,
            opening: None,
        }
    }

    /// One whose scripts move in and out.
    pub fn moving(seed: u64) -> Maker {
        Maker {
            program: Program::moving(),
            ..Maker::new(seed)
        }
    }

    /// An export, in a script that moves in and out.
    pub fn export(&mut self) {
        if self.program.moving {
            self.say("export");
        }
    }

    /// Adds a line, and answers what the model does.
    pub fn say(&mut self, line: impl AsRef<[u8]>) -> String {
        let line = line.as_ref().to_vec();
        let answer = self.program.answer(&line).unwrap_or_default();
        let words: Vec<&str> = answer.split(' ').collect();
        if let ["deliver" | "deadletter", offset, generation, _] = words[..] {
            self.tokens.push((offset.parse().unwrap(), generation.parse().unwrap()));
        }
        self.lines.push(line);
        answer
    }

    /// Starts a consumer with such times, which worker 0 calls, mostly alone; `rest` is the limit, the opt-in and the threshold.
    pub fn start(&mut self, rest: &str, visibility: u64, cap: u64, blocks: u64, backoffs: &[u64]) {
        match self.random.below(4) {
            0 => self.with_guest(),
            _ => self.alone(),
        }
        self.start_crew(rest, visibility, cap, blocks, backoffs);
    }

    /// The same, with the workers and rights that were said, and the hours that were meant for it.
    pub fn start_crew(&mut self, rest: &str, visibility: u64, cap: u64, blocks: u64, backoffs: &[u64]) {
        self.visibility = visibility;
        self.cap = cap;
        self.tokens.clear();
        let hours = self.opening.take();
        self.hours(hours);
        let backoffs: String = backoffs.iter().map(|delay| format!(" {delay}")).collect();
        self.say(format!("start {rest} {visibility} {cap} {}{backoffs}", 512 * blocks));
    }

    pub fn start_any(&mut self) {
        let limits = ["1 0", "2 0", "3 0", "3 1", "0 1", "4294967295 1", "4294967294 0"];
        let limit = self.random.pick(&limits);
        let threshold = self.random.pick(&[1, 1, 2, 3, 20, u32::MAX]);
        let visibility = self.random.pick(&[0, 1, 10, 30, 30, u64::MAX]);
        let cap = self.random.pick(&[0, 5, 10, 25, 100, 100, u64::MAX]);
        let blocks = self.random.pick(&[18, 18, 20, 26, 40, 128]);
        let count = self.random.pick(&[0, 0, 1, 2, 3, 16]);
        let backoffs: Vec<u64> = (0..count).map(|_| self.random.pick(&[0, 3, 7, 50, u64::MAX])).collect();
        self.now = self.random.pick(&[0, 100, 100, 1 << 40, u64::MAX - 60]);
        match self.random.below(2) {
            0 => self.alone(),
            _ => self.several(),
        }
        self.opening = (self.random.below(5) == 0).then(|| self.any_hours());
        self.start_crew(&format!("{limit} {threshold}"), visibility, cap, blocks, &backoffs);
    }

    /// What the lease table holds where there is a consumer.
    pub fn table(&self) -> Option<Table> {
        Some(self.program.consumer()?.table())
    }

    pub fn blocks(&self) -> u64 {
        let area = self.program.started.as_ref().map(|started| &started.area);
        area.map_or(0, |area| area.len() as u64 / 512)
    }

    pub fn writing(&self) -> bool {
        matches!(&self.program.started, Some(started) if matches!(started.phase, Phase::Writing(_)))
    }

    /// A time at or beside a deadline, a cap, an opening or the clock.
    pub fn time(&mut self) -> u64 {
        self.now = self.now.saturating_add(self.random.pick(&[0, 0, 1, 5, 13]));
        if let Some(hours) = self.program.handed.hours.filter(|hours| hours.judge().is_ok()) {
            self.now = match self.random.below(3) {
                0 => hours.opening(self.now),
                _ => self.now,
            };
        }
        let leases = self.table().map_or(Vec::new(), |table| table.leases);
        if leases.is_empty() || self.random.below(4) == 0 {
            let now = self.now;
            return self.random.pick(&[now, now, now, now, 0, u64::MAX - 1, u64::MAX]);
        }
        let lease = &leases[self.random.below(leases.len() as u64) as usize];
        let moment = self.random.pick(&[
            lease.deadline,
            lease.deadline,
            lease.attempt_start,
            lease.attempt_start.saturating_add(self.cap),
            lease.attempt_start.saturating_add(self.visibility),
        ]);
        self.random.near(moment)
    }

    /// An offset near the cursor, a range, a lease or a count.
    pub fn offset(&mut self) -> u64 {
        let Some(consumer) = self.program.consumer() else {
            return self.random.below(4);
        };
        let committed = consumer.cursor.committed().get();
        let mut places = vec![committed; 6];
        places.extend(consumer.cursor.ahead_ranges().iter().flat_map(|&(start, end)| [start, end]));
        let table = consumer.table();
        places.extend(table.leases.iter().map(|lease| lease.offset));
        places.extend(table.carried.iter().map(|&(offset, _)| offset));
        if self.random.below(30) == 0 {
            return self.random.pick(&[0, u64::MAX, u64::MAX - 1, u64::MAX - 2]);
        }
        let place = self.random.pick(&places);
        match self.random.below(3) {
            0 => place.saturating_add(self.random.below(6)),
            1 => place,
            _ => self.random.near(place),
        }
    }

    /// A token: of a lease, or one that was given out before, or near one.
    pub fn token(&mut self) -> String {
        let leases = self.table().map_or(Vec::new(), |table| table.leases);
        let (offset, generation) = match self.random.below(10) {
            0..=6 if !leases.is_empty() => {
                let lease = &leases[self.random.below(leases.len() as u64) as usize];
                (lease.offset, lease.generation)
            }
            7..=8 if !self.tokens.is_empty() => self.random.pick(&self.tokens.clone()),
            _ => (self.offset(), self.random.below(4)),
        };
        match self.random.below(12) {
            0 => format!("{} {generation}", self.random.near(offset)),
            1 => format!("{offset} {}", self.random.near(generation)),
            _ => format!("{offset} {generation}"),
        }
    }

    /// A delay, often at or beside the hard cap.
    pub fn delay(&mut self) -> u64 {
        let cap = self.random.near(self.cap);
        self.random.pick(&[0, 1, 9, 200, cap, cap, u64::MAX])
    }

    /// One call that isn't a checkpoint's.
    pub fn call(&mut self) -> String {
        let time = self.time();
        match self.random.below(28) {
            0..=8 => format!("claim {} {time}", self.offset()),
            9..=11 => format!("ack {}", self.token()),
            12 => format!("term {}", self.token()),
            13..=14 => format!("nack {} {time}", self.token()),
            15 => format!("nack {} {time} {}", self.token(), self.delay()),
            16..=17 => format!("progress {} {time}", self.token()),
            18..=19 => format!("commit {}", self.offset()),
            20..=21 => format!("waiting {time}"),
            22 => format!("view {} {time}", self.offset()),
            23 => self.open(),
            24 => format!("nearest {}", self.offset()),
            25 => self.plan(),
            26 if self.program.moving => "export".to_string(),
            _ => "state".to_string(),
        }
    }

    /// A line that looks like a call.
    pub fn no_call(&mut self) -> Vec<u8> {
        if self.program.moving && self.random.below(4) == 0 {
            return self.random.pick(&NO_MOVES).into();
        }
        self.random.pick(&NO_CALLS).into()
    }

    /// A line that is none, or nearly one.
    pub fn bad_line(&mut self) -> Vec<u8> {
        let mut line = self.call().into_bytes();
        let at = self.random.below(line.len() as u64) as usize;
        match self.random.below(14) {
            0 => line[at] = self.random.below(256) as u8,
            1 => drop(line.remove(at)),
            2 => line.insert(at, b' '),
            3 => line.push(b' '),
            4 => line.extend(b" 1"),
            5 => line.extend(b"\r"),
            6 => line.extend(b" 18446744073709551616"),
            7 => line.insert(at, self.random.pick(b"0+-#\0\t9")),
            8 => line.truncate(at),
            9 => line.insert(0, self.random.pick(b" #")),
            10 => line = b"claim 00000000000000000000000000000000 18446744073709551615".to_vec(),
            11 => line = self.no_call(),
            12 => line = (0..self.random.below(300)).map(|_| self.random.below(256) as u8).collect(),
            _ if self.random.below(20) == 0 => line = long_line(&mut self.random),
            _ => line = b"#".repeat(self.random.below(200) as usize),
        }
        line.retain(|&byte| byte != b'\n');
        line
    }
}

/// A line about as long as is read, or longer.
fn long_line(random: &mut Random) -> Vec<u8> {
    let length = random.pick(&[LINE - 1, LINE, LINE + 1, LINE + 2, 2 * LINE, 3 * LINE - 1]);
    let (first, last): (&[u8], &[u8]) = random.pick(&[(b"#", b"x"), (b"peek ", b"0"), (b"claim ", b" 7")]);
    let mut line = first.to_vec();
    line.resize(length - last.len(), b'0');
    line.extend(last);
    line
}
