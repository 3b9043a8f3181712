//! One journal of 18 blocks for very many checkpoints, against the book of docs/SPEC.md: with power failures at its writes, over many
//! changes between the halves with each block made durable, and on a file with the process killed again and again.
//!
//! The long ones are `cargo test --release --test soak -- --ignored a_million` and `.. -- --ignored an_hour`, which `NINOTSKEV_SOAK_SECONDS`
//! makes shorter or longer. Their files stand in the folder that `NINOTSKEV_SOAK` names, or else in cargo's for tests. It doesn't matter
//! for a process that is killed how durable a disk is, so that a folder in memory will do.

mod common;

use std::cell::RefCell;
use std::fs;
use std::io::{self, BufRead, BufReader, Write};
use std::path::{Path, PathBuf};
use std::process::{Child, Command, Stdio};
use std::rc::Rc;
use std::thread;
use std::time::{Duration, Instant};

use common::{configuration, fresh_path, Book, Cut, Cuttable, Power, Random, WORKER};
use ironbus_delivery_state::{
    Configuration, Consumer, Generation, HandOut, Journal, LeaseToken, NewJournal, Offset, Storage,
};

fn settings() -> Configuration {
    configuration(3, 2, 5, 12)
}

/// How many offsets from committed on are claimed.
const WINDOW: u64 = 12;

/// What the book is told.
#[derive(Clone, Copy, Debug, PartialEq, Eq)]
enum Event {
    HandedOut(HandOut),
    Settled(u64),
    Committed(u64),
    Begun,
    Done,
}

/// Who calls: it has a clock, and the tokens that it was given since the last restart.
struct Caller {
    random: Random,
    now: u64,
    tokens: Vec<LeaseToken>,
}

impl Caller {
    fn new(seed: u64) -> Caller {
        Caller {
            random: Random(seed),
            now: 0,
            tokens: Vec::new(),
        }
    }

    /// One call. Offsets rise with what is settled.
    fn call<S>(&mut self, consumer: &mut Consumer<S>, say: &mut impl FnMut(Event)) {
        self.now += self.random.below(4);
        let base = consumer.committed(WORKER).unwrap().get();
        match self.random.below(8) {
            0..=3 => {
                let offset = base + self.random.below(WINDOW);
                if let Ok(hand_out) = consumer.claim(WORKER, Offset::new(offset), self.now) {
                    say(Event::HandedOut(hand_out));
                    self.tokens.push(hand_out.token());
                }
            }
            4..=6 => self.under_a_token(consumer, say),
            _ => {
                let bound = base + self.random.below(3);
                consumer
                    .commit(WORKER, Offset::new(bound))
                    .expect("no commit is refused to who may");
                say(Event::Committed(bound));
            }
        }
    }

    fn under_a_token<S>(&mut self, consumer: &mut Consumer<S>, say: &mut impl FnMut(Event)) {
        if self.tokens.is_empty() {
            return;
        }
        let place = self.random.below(self.tokens.len() as u64) as usize;
        let token = self.tokens.swap_remove(place);
        if self.random.below(4) == 0 {
            let _ = consumer.nack(WORKER, token, self.now, Some(2));
        } else if consumer.ack(WORKER, token).is_ok() {
            say(Event::Settled(token.offset.get()));
        }
    }
}

/// What the book has of the offsets that are called about.
fn window(committed: u64) -> Vec<u64> {
    (committed.saturating_sub(2)..committed + WINDOW + 2).collect()
}

fn tell(book: &mut Book, event: Event) {
    match event {
        Event::HandedOut(hand_out) => book.handed_out(hand_out),
        Event::Settled(offset) => book.settled(offset),
        Event::Committed(bound) => book.committed(bound),
        Event::Begun => {}
        Event::Done => book.header_written(),
    }
}

// ## Power failures

#[test]
fn twenty_thousand_checkpoints_with_power_failures() {
    let power = Rc::new(RefCell::new(Power::default()));
    let path = fresh_path("soak");
    let journal = NewJournal::on(Cuttable::new(&path, 18, &power)).unwrap();
    let mut consumer = Consumer::start(&settings(), journal).unwrap();
    let mut book = Book::default();
    let mut caller = Caller::new(1);
    let mut done = 0;
    while done < 20_000 {
        for _ in 0..caller.random.below(6) {
            caller.call(&mut consumer, &mut |event| tell(&mut book, event));
        }
        if caller.random.below(8) == 0 {
            let cut = match caller.random.below(3) {
                0 => Cut::Old,
                1 => Cut::New,
                _ => Cut::Torn(caller.random.below(513) as usize),
            };
            let left = caller.random.below(20) as usize;
            power.borrow_mut().cut = Some((left, cut));
        }
        match consumer
            .begin(WORKER)
            .expect("there is always room")
            .finish()
        {
            Ok(same) => {
                book.header_written();
                consumer = same;
                done += 1;
            }
            Err(failed) => {
                let left_new = power.borrow_mut().left_new.take();
                if left_new.is_some_and(|block| block[0] == 1) {
                    book.header_written();
                }
                drop(failed);
                let file = Cuttable::again(&path, &power);
                consumer = Consumer::restart(&settings(), Journal::on(file).unwrap())
                    .expect("no restart is refused");
                let offsets = window(consumer.committed(WORKER).unwrap().get());
                book.restarted(&consumer, &offsets);
                caller.tokens.clear();
            }
        }
    }
    book.holds_the_bounds(&settings());
    let power = power.borrow();
    assert!(power.zeroed > 20_000 && power.cut_zeros > 300 && book.restarts > 1000);
}

// ## Changes between the halves

/// How many blocks are left in the half in use: more than before where the other half is in use now.
fn changed(consumer: &Consumer, before: &mut usize) -> bool {
    let left = consumer.blocks_left(WORKER).unwrap();
    let changed = left > *before;
    *before = left;
    changed
}

/// On a journal's file, as a server has it, with a new process's restart now and then.
#[test]
fn hundreds_of_changes_between_the_halves() {
    let path = fresh_path("changes");
    let journal = NewJournal::create(&path, 18).unwrap();
    let mut consumer = Consumer::start(&settings(), journal).unwrap();
    let mut book = Book::default();
    let mut caller = Caller::new(5);
    let (mut changes, mut left) = (0, 9);
    while changes < 300 {
        for _ in 0..caller.random.below(4) {
            caller.call(&mut consumer, &mut |event| tell(&mut book, event));
        }
        consumer = consumer.checkpoint(WORKER).unwrap();
        book.header_written();
        let seen = consumer.ceiling();
        changes += u64::from(changed(&consumer, &mut left));
        if caller.random.below(20) == 0 {
            drop(consumer);
            let journal = Journal::open(&path).unwrap();
            consumer = Consumer::restart_at_least(&settings(), journal, seen).unwrap();
            let offsets = window(consumer.committed(WORKER).unwrap().get());
            book.restarted(&consumer, &offsets);
            caller.tokens.clear();
        }
    }
    book.holds_the_bounds(&settings());
    assert!(book.restarts > 20, "{} restarts", book.restarts);
}

// ## Kills

const ROLE: &str = "NINOTSKEV_SOAK_PATH";

/// What the process that is killed does: calls and checkpoints without end, each said once it is made.
#[test]
#[ignore = "a part of the tests below"]
fn worker() {
    let Some(path) = std::env::var_os(ROLE) else {
        return;
    };
    let journal = Journal::open(&path).unwrap();
    let mut consumer = Consumer::restart(&settings(), journal).unwrap();
    let mut caller = Caller::new(u64::from(std::process::id()));
    let mut out = io::stdout();
    let mut say = |event: Event| {
        let line = match event {
            Event::HandedOut(hand_out) => {
                let LeaseToken { offset, generation } = hand_out.token();
                let (generation, count) = (generation.get(), hand_out.deliveries());
                let name = match hand_out {
                    HandOut::Deliver { .. } => "deliver",
                    HandOut::DeadLetter { .. } => "deadletter",
                };
                format!("says {name} {offset} {generation} {count}\n")
            }
            Event::Settled(offset) => format!("says settled {offset}\n"),
            Event::Committed(bound) => format!("says committed {bound}\n"),
            Event::Begun => "says begun\n".to_owned(),
            Event::Done => "says done\n".to_owned(),
        };
        out.write_all(line.as_bytes()).unwrap();
        out.flush().unwrap();
    };
    loop {
        for _ in 0..caller.random.below(4) {
            caller.call(&mut consumer, &mut say);
        }
        let writing = consumer.begin(WORKER).expect("there is always room");
        say(Event::Begun);
        consumer = writing.finish().unwrap();
        say(Event::Done);
    }
}

fn start_worker(path: &Path) -> Child {
    Command::new(std::env::current_exe().unwrap())
        .args(["worker", "--exact", "--nocapture", "--ignored"])
        .env(ROLE, path)
        .stdout(Stdio::piped())
        .spawn()
        .unwrap()
}

/// What a line says, where it is whole.
fn event_of(line: &str) -> Option<Event> {
    let said = line.strip_suffix('\n')?.split("says ").nth(1)?;
    let mut words = said.split(' ');
    let name = words.next()?;
    let mut number = || words.next().map(|word| word.parse::<u64>().unwrap());
    Some(match name {
        "deliver" | "deadletter" => {
            let token = LeaseToken {
                offset: Offset::new(number()?),
                generation: Generation::new(number()?),
            };
            let deliveries = u32::try_from(number()?).unwrap();
            Event::HandedOut(if name == "deliver" {
                HandOut::Deliver { token, deliveries }
            } else {
                HandOut::DeadLetter { token, deliveries }
            })
        }
        "settled" => Event::Settled(number()?),
        "committed" => Event::Committed(number()?),
        "begun" => Event::Begun,
        "done" => Event::Done,
        _ => return None,
    })
}

/// What a worker said before it was killed: how many checkpoints it made, and whether one was begun and not said to be done.
fn heard(lines: impl Iterator<Item = String>, book: &mut Book) -> (u64, bool) {
    let (mut done, mut begun) = (0, false);
    for event in lines.filter_map(|line| event_of(&line)) {
        tell(book, event);
        match event {
            Event::Begun => begun = true,
            Event::Done => (done, begun) = (done + 1, false),
            _ => {}
        }
    }
    (done, begun)
}

/// Kills a worker some time after it began, wherever it is.
fn killed_after(worker: &mut Child, book: &mut Book, time: Duration) -> (u64, bool) {
    let mut lines = BufReader::new(worker.stdout.take().unwrap());
    // Its first line is said once it has restarted.
    let mut first = String::new();
    while !first.contains("says ") && lines.read_line(&mut first).unwrap() > 0 {}
    let reader = thread::spawn(move || {
        let mut said = vec![first];
        let mut line = String::new();
        while lines.read_line(&mut line).unwrap() > 0 {
            said.push(std::mem::take(&mut line));
        }
        said
    });
    thread::sleep(time);
    worker.kill().unwrap();
    worker.wait().unwrap();
    heard(reader.join().unwrap().into_iter(), book)
}

/// Reads what a worker says until it ends, and kills it some time after so many checkpoints; answers how many it made, and whether one
/// was begun and not said to be done.
fn watch(worker: &mut Child, book: &mut Book, kill_after: u64, later: Duration) -> (u64, bool) {
    let mut lines = BufReader::new(worker.stdout.take().unwrap());
    let (mut done, mut begun) = (0, false);
    let mut line = String::new();
    while lines.read_line(&mut line).unwrap() > 0 {
        if let Some(event) = event_of(&line) {
            tell(book, event);
            match event {
                Event::Begun => begun = true,
                Event::Done => {
                    begun = false;
                    done += 1;
                    if done == kill_after {
                        // The lines that it has said by then are read too.
                        std::thread::sleep(later);
                        worker.kill().unwrap();
                    }
                }
                _ => {}
            }
        }
        line.clear();
    }
    worker.wait().unwrap();
    (done, begun)
}

/// Whether a consumer has what a page of the book has.
fn has_page<S: Storage>(consumer: &Consumer<S>, book: &Book, offsets: &[u64]) -> bool {
    let counts = consumer.all_attempt_counts(WORKER).unwrap();
    offsets.iter().all(|offset| {
        let name = Offset::new(*offset);
        let count = counts
            .iter()
            .find(|pair| pair.0 == name)
            .map_or(0, |pair| pair.1);
        consumer.is_settled(WORKER, name).unwrap() == book.page.is_settled(*offset)
            && count == book.page.count(*offset)
    })
}

/// What kills a worker.
type Kill = dyn FnMut(&mut Random, &mut Child, &mut Book) -> (u64, bool);

/// Checkpoints on one file, by workers that are killed, as long as there is more to do; answers how many there were, and how many kills.
fn killed_again_and_again(path: &Path, kill: &mut Kill, more: impl Fn(u64) -> bool) -> [u64; 2] {
    drop(Consumer::start(&settings(), NewJournal::create(path, 18).unwrap()).unwrap());
    let mut book = Book::default();
    let mut random = Random(2);
    let (mut all, mut kills, mut within, mut written) = (0, 0, 0, 0);
    while more(all) {
        let mut worker = start_worker(path);
        // The worker's restart finds what the last look did.
        book.restarts += 1;
        let (done, begun) = kill(&mut random, &mut worker, &mut book);
        all += done;
        kills += 1;
        let consumer = Consumer::restart(&settings(), Journal::open(path).unwrap())
            .expect("no restart is refused");
        let offsets = window(consumer.committed(WORKER).unwrap().get());
        // The header of a checkpoint that was begun may be written, or not.
        within += u64::from(begun);
        if begun && has_page(&consumer, &book, &offsets) {
            written += u64::from(book.page != book.copy);
            book.header_written();
        }
        book.restarted(&consumer, &offsets);
    }
    book.holds_the_bounds(&settings());
    let generations = book.generations.len();
    println!("{all} checkpoints, {generations} hand-outs, {kills} kills");
    println!("{within} kills in a checkpoint, {written} of them behind its header");
    fs::remove_file(path).unwrap();
    [all, kills]
}

/// So many checkpoints, by workers that are killed some time after at most so many of them.
fn kills_by_checkpoints(path: &Path, checkpoints: u64, most: u64) {
    let mut kill = move |random: &mut Random, worker: &mut Child, book: &mut Book| {
        let kill_after = 1 + random.below(most);
        let later = 1 + random.below(20_000);
        let later = Duration::from_micros(random.below(later));
        watch(worker, book, kill_after, later)
    };
    let [all, _] = killed_again_and_again(path, &mut kill, |all| all < checkpoints);
    assert!(all >= checkpoints);
}

/// For some time, by workers that are killed at any moment of it: answers how many kills there were.
fn kills_by_time(path: &Path, time: Duration) -> u64 {
    let mut kill = |random: &mut Random, worker: &mut Child, book: &mut Book| {
        killed_after(worker, book, Duration::from_micros(random.below(30_000)))
    };
    let begun = Instant::now();
    let [all, kills] = killed_again_and_again(path, &mut kill, |_| begun.elapsed() < time);
    assert!(all > 0);
    kills
}

/// Where a long test has its file.
fn soak_path(name: &str) -> PathBuf {
    match std::env::var_os("NINOTSKEV_SOAK").map(PathBuf::from) {
        Some(folder) => folder.join(format!("ninotskev-{name}-{}", std::process::id())),
        None => fresh_path(name),
    }
}

#[test]
fn some_hundred_checkpoints_with_kills() {
    kills_by_checkpoints(&fresh_path("kills"), 400, 40);
}

#[test]
fn seconds_of_kills_at_any_moment() {
    let kills = kills_by_time(&fresh_path("moments"), Duration::from_secs(5));
    assert!(kills > 20, "{kills} kills");
}

#[test]
#[ignore = "takes an hour"]
fn an_hour_of_kills_at_any_moment() {
    let given = std::env::var("NINOTSKEV_SOAK_SECONDS");
    let seconds = given.map_or(3600, |text| text.parse().expect("a number of seconds"));
    kills_by_time(&soak_path("hour"), Duration::from_secs(seconds));
}

#[test]
#[ignore = "takes minutes"]
fn a_million_checkpoints_with_kills() {
    kills_by_checkpoints(&soak_path("million"), 1_000_000, 500);
}
