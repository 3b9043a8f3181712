//! The program: what stands where, which calls can be made there, and the line that answers each.
use crate::block::BLOCK;
use crate::consumer::{Consumer, Handed, Settings, Writing};
use crate::help;
use crate::journal::{area_length, block_of};
use crate::line::{asks, read, Call, Left, Start};
use crate::rights::Rights;
use ironbus::lease::LeaseConfig;
use lists::codecs::Code;

#[derive(Clone)]
pub enum Phase {
    Idle(Consumer),
    Writing(Writing),
    /// The power failed in a step.
    Cut,
}

/// What a `start` has made: its settings, the area, and who can be called.
#[derive(Clone)]
pub struct Started {
    settings: Settings,
    pub area: Vec<u8>,
    pub phase: Phase,
}

#[derive(Clone)]
pub struct Program {
    pub started: Option<Started>,
    /// The worker whose number the calls carry.
    pub worker: u64,
    /// What the next start or restart hands in.
    pub handed: Handed,
    /// Whether bad lines are told what they should be: once `help` was asked for.
    pub told: bool,
    /// Whether lines that move in and out are understood.
    pub moving: bool,
}

impl Default for Program {
    fn default() -> Program {
        Program {
            started: None,
            worker: 0,
            handed: Handed {
                rights: Rights::FIRST,
                hours: None,
            },
            told: false,
            moving: false,
        }
    }
}

impl Program {
    /// One that understands lines that move in and out.
    pub fn moving() -> Program {
        Program {
            moving: true,
            ..Program::default()
        }
    }
}

const NOT_NOW: &str = "not now";

/// A refusal as a line.
fn refused(code: Code) -> String {
    format!("refused {}", words(&code))
}

fn words(numbers: &[u64]) -> String {
    let words: Vec<String> = numbers.iter().map(u64::to_string).collect();
    words.join(" ")
}

/// Entries with commas between them, or `none`.
fn listed(entries: Vec<String>) -> String {
    if entries.is_empty() {
        return "none".to_string();
    }
    entries.join(",")
}

/// Ranges, each as START-END.
fn ranges(ranges: &[(u64, u64)]) -> String {
    listed(ranges.iter().map(|(start, end)| format!("{start}-{end}")).collect())
}

/// The hexadecimal digits of bytes.
fn digits(bytes: &[u8]) -> String {
    bytes.iter().map(|byte| format!("{byte:02x}")).collect()
}

fn state(consumer: &Consumer) -> String {
    let table = consumer.table();
    let leases = table.leases.iter().map(|l| {
        format!(
            "{}:{}:{}:{}:{}",
            l.offset, l.generation, l.attempt_start, l.deadline, l.deliveries
        )
    });
    let carried = table.carried.iter().map(|(offset, count)| format!("{offset}:{count}"));
    format!(
        "state committed {} ranges {} leases {} carried {} next {} ceiling {} counter {} group {} block {} half {}",
        consumer.cursor.committed().get(),
        ranges(consumer.cursor.ahead_ranges()),
        listed(leases.collect()),
        listed(carried.collect()),
        table.next_generation,
        consumer.ceiling,
        table.redeliveries,
        consumer.group,
        consumer.block,
        consumer.half.number
    )
}

/// A worker's call on a consumer that has no record out.
pub fn ask(consumer: &mut Consumer, worker: u64, call: &Call) -> Result<String, Code> {
    Ok(match *call {
        Call::Claim(offset, now) => {
            let answer = consumer.claim(worker, offset, now)?;
            let word = if answer.dead { "deadletter" } else { "deliver" };
            format!("{word} {offset} {} {}", answer.generation, answer.count)
        }
        Call::Settle(offset, generation) => consumer.settle(worker, offset, generation).map(|()| "settled".to_string())?,
        Call::Nack(offset, generation, now, delay) => {
            format!("requeued {}", consumer.nack(worker, offset, generation, now, delay)?)
        }
        Call::Progress(offset, generation, now) => {
            format!("extended {}", consumer.progress(worker, offset, generation, now)?)
        }
        Call::Commit(bound) => match consumer.commit(worker, bound)? {
            true => "committed".to_string(),
            false => "unchanged".to_string(),
        },
        Call::Waiting(now) => {
            let offsets: String = consumer
                .waiting(worker, now)?
                .iter()
                .map(|offset| format!(" {offset}"))
                .collect();
            format!("waiting{offsets}")
        }
        Call::View(offset, now) => consumer.view(worker, offset, now)?.line(),
        Call::Open(from, to, room) => format!("open {}", ranges(&consumer.open(worker, from, to, room)?)),
        Call::Nearest(offset) => format!("nearest {}", consumer.nearest(worker, offset)?),
        Call::Plan(room, ref offsets) => {
            let plan = consumer.plan(worker, room, offsets)?;
            let settled = plan.settled.iter().map(|&settled| u8::from(settled).to_string());
            format!("plan {} {}", plan.looks, listed(settled.collect()))
        }
        Call::Export => {
            let (cursor, attempts) = consumer.export(worker)?;
            format!("exported {} {}", digits(&cursor), digits(&attempts))
        }
        Call::State => state(consumer),
        _ => NOT_NOW.to_string(),
    })
}

impl Started {
    fn fresh(start: &Start, handed: Handed) -> Result<Started, Code> {
        let lease = LeaseConfig {
            visibility_nanos: start.visibility,
            hard_cap_nanos: start.cap,
        };
        let settings = Settings::new(start.limit, start.opt_in, start.threshold, lease, &start.backoffs, handed)?;
        area_length(start.bytes)?;
        let area = vec![0; start.bytes as usize];
        let consumer = Consumer::restart(&settings, &area)?;
        Ok(Started {
            settings,
            area,
            phase: Phase::Idle(consumer),
        })
    }

    fn call(&mut self, worker: u64, handed: Handed, call: &Call) -> String {
        match call {
            Call::Import(generation, cursor, attempts) => self.import(*generation, cursor, attempts, handed),
            Call::Restart(bytes) => self.restart(*bytes, handed),
            Call::Poke(block, byte, value) => self.poke(*block, *byte, *value),
            Call::Peek(block) => self.peek(*block),
            Call::Begin => self.begin(worker),
            Call::Step(bytes) => self.step(*bytes),
            Call::Cut(left) => self.cut(*left),
            _ => match &mut self.phase {
                Phase::Idle(consumer) => ask(consumer, worker, call).unwrap_or_else(refused),
                _ => NOT_NOW.to_string(),
            },
        }
    }

    fn begin(&mut self, worker: u64) -> String {
        let Phase::Idle(consumer) = &self.phase else {
            return NOT_NOW.to_string();
        };
        match consumer.begin(worker) {
            Ok(writing) => {
                let answer = format!("begun {}", writing.writes.len());
                self.phase = Phase::Writing(writing);
                answer
            }
            Err(code) => refused(code),
        }
    }

    /// What of the area is lent, nothing where it hasn't that much.
    fn lent(&self, bytes: Option<u64>) -> Option<u64> {
        let length = self.area.len() as u64;
        let bytes = bytes.unwrap_or(length);
        (bytes <= length).then_some(bytes)
    }

    fn write(&mut self, block: usize, bytes: &[u8]) {
        self.area[BLOCK * block..BLOCK * (block + 1)].copy_from_slice(bytes);
    }

    fn step(&mut self, bytes: Option<u64>) -> String {
        let lent = self.lent(bytes);
        let Phase::Writing(writing) = &mut self.phase else {
            return NOT_NOW.to_string();
        };
        let Some(lent) = lent else {
            return NOT_NOW.to_string();
        };
        if lent != self.area.len() as u64 {
            return refused(vec![4]);
        }
        let (block, new) = writing.writes.remove(0);
        if !writing.writes.is_empty() {
            self.write(block, &new);
            return format!("wrote {block}");
        }
        self.phase = Phase::Idle(writing.after.clone());
        self.write(block, &new);
        format!("done {block}")
    }

    fn cut(&mut self, left: Left) -> String {
        let Phase::Writing(writing) = &mut self.phase else {
            return NOT_NOW.to_string();
        };
        let (block, mut new) = writing.writes.remove(0);
        if left == Left::Torn {
            new[511] = new[511].wrapping_add(1);
        }
        if left != Left::Old {
            self.write(block, &new);
        }
        self.phase = Phase::Cut;
        format!("cut {block}")
    }

    fn restart(&mut self, bytes: Option<u64>, handed: Handed) -> String {
        let Some(bytes) = self.lent(bytes) else {
            return NOT_NOW.to_string();
        };
        match self.restarted(bytes, handed) {
            Ok(consumer) => {
                self.area.truncate(bytes as usize);
                self.phase = Phase::Idle(consumer);
                "restarted".to_string()
            }
            Err(code) => refused(code),
        }
    }

    /// The consumer of a restart on so much of the area.
    fn restarted(&self, bytes: u64, handed: Handed) -> Result<Consumer, Code> {
        let settings = self.settings.with(handed)?;
        area_length(bytes)?;
        Consumer::restart(&settings, &self.area[..bytes as usize])
    }

    /// An import on the area, which is zeroed: with the settings of the start, and what a restart would be handed.
    fn import(&mut self, generation: u64, cursor: &[u8], attempts: &[u8], handed: Handed) -> String {
        match self.imported(generation, cursor, attempts, handed) {
            Ok(consumer) => {
                self.area.fill(0);
                self.phase = Phase::Idle(consumer);
                "imported".to_string()
            }
            Err(code) => refused(code),
        }
    }

    fn imported(&self, generation: u64, cursor: &[u8], attempts: &[u8], handed: Handed) -> Result<Consumer, Code> {
        let settings = self.settings.with(handed)?;
        area_length(self.area.len() as u64)?;
        Consumer::import(&settings, self.area.len() / BLOCK, generation, cursor, attempts)
    }

    fn has_block(&self, block: u64) -> bool {
        block < (self.area.len() / BLOCK) as u64
    }

    fn poke(&mut self, block: u64, byte: u64, value: u64) -> String {
        if !self.has_block(block) || byte >= BLOCK as u64 || value > 255 {
            return NOT_NOW.to_string();
        }
        self.area[BLOCK * block as usize + byte as usize] = value as u8;
        "poked".to_string()
    }

    fn peek(&self, block: u64) -> String {
        if !self.has_block(block) {
            return NOT_NOW.to_string();
        }
        format!("block {}", digits(block_of(&self.area, block as usize)))
    }
}

impl Program {
    /// The answer to a line, which is several lines for `help`, or nothing for an empty line and a comment.
    pub fn answer(&mut self, line: &[u8]) -> Option<String> {
        if !asks(line) {
            return None;
        }
        Some(match read(line) {
            None => help::bad_line(line, self.told, self.moving),
            Some(Call::Import(..) | Call::Export) if !self.moving => help::bad_line(line, self.told, false),
            Some(Call::Help) => {
                self.told = true;
                help::text()
            }
            Some(Call::Worker(worker)) => {
                self.worker = worker;
                format!("worker {worker}")
            }
            Some(Call::Rights(worker, mask)) => {
                self.handed.rights.0[worker] = mask;
                "rights".to_string()
            }
            Some(Call::Hours(hours)) => {
                self.handed.hours = hours;
                "hours".to_string()
            }
            Some(Call::Start(start)) => match Started::fresh(&start, self.handed) {
                Ok(started) => {
                    self.started = Some(started);
                    "started".to_string()
                }
                Err(code) => refused(code),
            },
            Some(call) => match &mut self.started {
                Some(started) => started.call(self.worker, self.handed, &call),
                None => NOT_NOW.to_string(),
            },
        })
    }

    pub fn consumer(&self) -> Option<&Consumer> {
        match &self.started.as_ref()?.phase {
            Phase::Idle(consumer) => Some(consumer),
            _ => None,
        }
    }
}

/// The lines of a text; what stands behind the last line end is a line too.
pub fn lines(text: &[u8]) -> impl Iterator<Item = &[u8]> {
    text.split(|&byte| byte == b'\n')
}
