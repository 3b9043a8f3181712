//! A shared consumer on one journal of 18 blocks for very many checkpoints, against the book of docs/SPEC.md: with errors of the disk and power
//! failures between its syncs, over many changes between the halves on a file that is made durable, and on one whose process is killed again
//! and again. Files have both forms.
//!
//! Then a hundred consumers whose journals lie in one file, with their checkpoints together, each against a book of its own: with power
//! failures and errors of a simulated disk, with kills, and with writes and syncs of a real file that fail.
//!
//! The long ones are `cargo test --release --test soak -- --ignored a_million`, `.. -- --ignored an_hour` and `.. -- --ignored ten_minutes`; of
//! the latter two `NINOTSKEV_SOAK_SECONDS` says how long. Their files stand in the folder that `NINOTSKEV_SOAK` names, or else in cargo's for
//! tests. It doesn't matter for a process that is killed how durable a disk is, so that a folder in memory will do.

mod common;

use std::cell::{Cell, RefCell};
use std::collections::BTreeMap;
use std::fs;
use std::io::{self, BufRead, BufReader, BufWriter, Read, Write};
use std::path::{Path, PathBuf};
use std::process::{Child, Command, Stdio};
use std::rc::Rc;
use std::thread;
use std::time::{Duration, Instant};

use common::{
    configuration, created, fresh_path, strace_is_there, with_end, Block, Book, Disk, Fate, Random,
    Simulated, FORMS, WORKER,
};
use ironbus_delivery_state::{
    checkpoint_all, Area, CeilingFile, CheckpointError, Configuration, Consumer, Failed, Form,
    Generation, HandOut, Journal, JournalPart, Journals, LeaseToken, NewJournal, Offset,
    SharedConsumer, SharedError, Storage, BLOCK,
};

fn settings() -> Configuration {
    configuration(3, 2, 5, 12)
}

/// How many offsets from committed on are claimed.
const WINDOW: u64 = 12;

/// What the book is told.
#[derive(Clone, Copy, Debug, PartialEq, Eq)]
enum Event {
    HandedOut(HandOut),
    Settled(u64),
    Committed(u64),
    Begun,
    Done,
}

/// Who calls: it has a clock, and the tokens that it was given since the last restart.
struct Caller {
    random: Random,
    now: u64,
    tokens: Vec<LeaseToken>,
}

impl Caller {
    fn new(seed: u64) -> Caller {
        Caller {
            random: Random(seed),
            now: 0,
            tokens: Vec::new(),
        }
    }

    /// One call, and before it the checkpoint that is due.
    fn call<S: Storage>(
        &mut self,
        mut shared: &SharedConsumer<S>,
        say: &mut impl FnMut(Event),
    ) -> Result<(), SharedError> {
        if shared.look(|consumer| Ok(consumer.is_due(WORKER)?.is_due()))? {
            checkpoint(shared, say)?;
        }
        self.call_alone(&mut shared, say)
    }

    /// One call. Offsets rise with what is settled.
    fn call_alone(
        &mut self,
        called: &mut impl Called,
        say: &mut impl FnMut(Event),
    ) -> Result<(), SharedError> {
        self.now += self.random.below(4);
        let base = called.committed()?.get();
        let answer = match self.random.below(8) {
            0..=3 => {
                let offset = base + self.random.below(WINDOW);
                let hand_out = called.claim(Offset::new(offset), self.now);
                hand_out.map(|hand_out| {
                    say(Event::HandedOut(hand_out));
                    self.tokens.push(hand_out.token());
                })
            }
            4..=6 => self.under_a_token(called, say),
            _ => {
                let bound = base + self.random.below(3);
                let committed = called.commit(Offset::new(bound));
                committed.map(|()| say(Event::Committed(bound)))
            }
        };
        match answer {
            Err(SharedError::Refused(_)) => Ok(()),
            answer => answer,
        }
    }

    fn under_a_token(
        &mut self,
        called: &mut impl Called,
        say: &mut impl FnMut(Event),
    ) -> Result<(), SharedError> {
        if self.tokens.is_empty() {
            return Ok(());
        }
        let place = self.random.below(self.tokens.len() as u64) as usize;
        let token = self.tokens.swap_remove(place);
        if self.random.below(4) == 0 {
            return called.nack(token, self.now);
        }
        called.ack(token)?;
        say(Event::Settled(token.offset.get()));
        Ok(())
    }
}

/// What is called: a consumer that is shared, or one of many.
trait Called {
    fn committed(&self) -> Result<Offset, SharedError>;
    fn claim(&mut self, offset: Offset, now: u64) -> Result<HandOut, SharedError>;
    fn ack(&mut self, token: LeaseToken) -> Result<(), SharedError>;
    fn nack(&mut self, token: LeaseToken, now: u64) -> Result<(), SharedError>;
    fn commit(&mut self, up_to: Offset) -> Result<(), SharedError>;
}

const DELAY: Option<u64> = Some(2);

impl<S: Storage> Called for &SharedConsumer<S> {
    fn committed(&self) -> Result<Offset, SharedError> {
        self.look(|consumer| consumer.committed(WORKER))
    }

    fn claim(&mut self, offset: Offset, now: u64) -> Result<HandOut, SharedError> {
        SharedConsumer::claim(self, WORKER, offset, now)
    }

    fn ack(&mut self, token: LeaseToken) -> Result<(), SharedError> {
        SharedConsumer::ack(self, WORKER, token)
    }

    fn nack(&mut self, token: LeaseToken, now: u64) -> Result<(), SharedError> {
        SharedConsumer::nack(self, WORKER, token, now, DELAY).map(drop)
    }

    fn commit(&mut self, up_to: Offset) -> Result<(), SharedError> {
        SharedConsumer::commit(self, WORKER, up_to).map(drop)
    }
}

impl<S: Storage> Called for Consumer<S> {
    fn committed(&self) -> Result<Offset, SharedError> {
        Ok(Consumer::committed(self, WORKER)?)
    }

    fn claim(&mut self, offset: Offset, now: u64) -> Result<HandOut, SharedError> {
        Ok(Consumer::claim(self, WORKER, offset, now)?)
    }

    fn ack(&mut self, token: LeaseToken) -> Result<(), SharedError> {
        Ok(Consumer::ack(self, WORKER, token)?)
    }

    fn nack(&mut self, token: LeaseToken, now: u64) -> Result<(), SharedError> {
        Consumer::nack(self, WORKER, token, now, DELAY)?;
        Ok(())
    }

    fn commit(&mut self, up_to: Offset) -> Result<(), SharedError> {
        Consumer::commit(self, WORKER, up_to)?;
        Ok(())
    }
}

fn checkpoint<S: Storage>(
    shared: &SharedConsumer<S>,
    say: &mut impl FnMut(Event),
) -> Result<(), SharedError> {
    say(Event::Begun);
    shared.checkpoint()?;
    say(Event::Done);
    Ok(())
}

/// A restart has found what the book has. If a checkpoint was begun, its header may be written, or not; answers whether it is, and matters.
fn restarted<S: Storage>(shared: &SharedConsumer<S>, book: &mut Book, begun: bool) -> bool {
    let found = shared.look(|consumer| {
        let offsets = window(consumer.committed(WORKER)?.get());
        let written = begun && has_page(consumer, book, &offsets);
        let matters = written && book.page != book.copy;
        if written {
            book.header_written();
        }
        book.restarted(consumer, &offsets);
        Ok(matters)
    });
    found.unwrap()
}

/// What the book has of the offsets that are called about.
fn window(committed: u64) -> Vec<u64> {
    (committed.saturating_sub(2)..committed + WINDOW + 2).collect()
}

fn tell(book: &mut Book, event: Event) {
    match event {
        Event::HandedOut(hand_out) => book.handed_out(hand_out),
        Event::Settled(offset) => book.settled(offset),
        Event::Committed(bound) => book.committed(bound),
        Event::Begun => {}
        Event::Done => book.header_written(),
    }
}

// ## Power failures

// The disk fails, once, and the consumer goes on by itself; or for good, and then the power fails too.
#[test]
fn twenty_thousand_checkpoints_with_power_failures() {
    let storage = Simulated::new(18);
    let disk = Rc::clone(&storage.0);
    let on =
        |journal| SharedConsumer::on(journal, None, &settings()).expect("no restart is refused");
    let mut shared = on(Journal::on(storage.clone()).unwrap());
    let mut book = Book::default();
    let mut caller = Caller::new(1);
    let (mut done, mut by_itself) = (0, 0);
    while done < 20_000 {
        let say = &mut |event| tell(&mut book, event);
        let calls = (0..caller.random.below(6)).try_for_each(|_| caller.call(&shared, say));
        if caller.random.below(8) == 0 {
            let disk = &mut *disk.borrow_mut();
            disk.fails_in = Some(caller.random.below(24) as usize);
            disk.keeps_failing = caller.random.below(4) > 0;
        }
        match calls.and_then(|()| checkpoint(&shared, say)) {
            Ok(()) => {
                done += 1;
                continue;
            }
            Err(SharedError::Restarted(_)) => {
                by_itself += 1;
                restarted(&shared, &mut book, true);
            }
            Err(SharedError::Disk(_)) => {
                let header = disk.borrow().pending_header();
                drop(shared);
                let random = &mut caller.random;
                disk.borrow_mut().power_fails(|_| Fate::random(random));
                disk.borrow_mut().fails_in = None;
                let journal = Journal::on(storage.clone()).unwrap();
                let found = |block| &journal.bytes()[BLOCK * block..BLOCK * (block + 1)];
                if header.is_some_and(|(block, bytes)| *found(block) == bytes) {
                    book.header_written();
                }
                shared = on(journal);
                restarted(&shared, &mut book, false);
            }
            Err(error) => panic!("{error:?}"),
        }
        caller.tokens.clear();
    }
    book.holds_the_bounds(&settings());
    let disk = disk.borrow();
    assert!(disk.zeroed > 20_000 && disk.failed_zeros > 300);
    assert!(
        book.restarts > 1000 && by_itself > 300,
        "{} {by_itself}",
        book.restarts
    );
}

// ## Changes between the halves

/// A journal and the file of its last ceiling.
fn created_with_ceiling(path: &Path, form: Form) -> PathBuf {
    let seen = with_end(path, ".seen");
    let _ = fs::remove_file(&seen);
    CeilingFile::new(&seen).begin(&settings()).unwrap();
    drop(created(path, form, 18));
    seen
}

fn opened(path: &Path) -> SharedConsumer {
    SharedConsumer::open(path, with_end(path, ".seen"), &settings()).expect("no restart is refused")
}

/// On a journal's file, as a server has it, with a new process's restart now and then.
#[test]
fn hundreds_of_changes_between_the_halves() {
    for form in FORMS {
        changes_between_the_halves(form);
    }
}

fn changes_between_the_halves(form: Form) {
    let path = fresh_path("changes");
    created_with_ceiling(&path, form);
    let mut shared = opened(&path);
    let mut book = Book::default();
    let mut caller = Caller::new(5);
    let (mut changes, mut left) = (0, 9);
    while changes < 300 {
        let say = &mut |event| tell(&mut book, event);
        for _ in 0..caller.random.below(4) {
            caller.call(&shared, say).unwrap();
        }
        checkpoint(&shared, say).unwrap();
        // More blocks are left than before where the other half is in use now.
        let now = shared
            .look(|consumer| consumer.blocks_left(WORKER))
            .unwrap();
        changes += u64::from(now > left);
        left = now;
        if caller.random.below(20) == 0 {
            drop(shared);
            shared = opened(&path);
            restarted(&shared, &mut book, false);
            caller.tokens.clear();
        }
    }
    book.holds_the_bounds(&settings());
    assert!(book.restarts > 20, "{} restarts", book.restarts);
}

// ## Kills

const ROLE: &str = "NINOTSKEV_SOAK_PATH";

/// What the process that is killed does: calls and checkpoints without end, each said once it is made.
#[test]
#[ignore = "a part of the tests below"]
fn worker() {
    let Some(path) = std::env::var_os(ROLE) else {
        return;
    };
    let shared = opened(Path::new(&path));
    let mut caller = Caller::new(u64::from(std::process::id()));
    let mut out = io::stdout();
    let mut say = |event: Event| {
        out.write_all(line_of(event).as_bytes()).unwrap();
        out.flush().unwrap();
    };
    loop {
        for _ in 0..caller.random.below(4) {
            caller.call(&shared, &mut say).unwrap();
        }
        checkpoint(&shared, &mut say).unwrap();
    }
}

/// How an event is said.
fn line_of(event: Event) -> String {
    match event {
        Event::HandedOut(hand_out) => {
            let LeaseToken { offset, generation } = hand_out.token();
            let (generation, count) = (generation.get(), hand_out.deliveries());
            let name = match hand_out {
                HandOut::Deliver { .. } => "deliver",
                HandOut::DeadLetter { .. } => "deadletter",
            };
            format!("says {name} {offset} {generation} {count}\n")
        }
        Event::Settled(offset) => format!("says settled {offset}\n"),
        Event::Committed(bound) => format!("says committed {bound}\n"),
        Event::Begun => "says begun\n".to_owned(),
        Event::Done => "says done\n".to_owned(),
    }
}

fn start_worker(path: &Path) -> Child {
    Command::new(std::env::current_exe().unwrap())
        .args(["worker", "--exact", "--nocapture", "--ignored"])
        .env(ROLE, path)
        .stdout(Stdio::piped())
        .spawn()
        .unwrap()
}

/// What a line says, where it is whole.
fn event_of(line: &str) -> Option<Event> {
    let said = line.strip_suffix('\n')?.split("says ").nth(1)?;
    let mut words = said.split(' ');
    let name = words.next()?;
    let mut number = || words.next().map(|word| word.parse::<u64>().unwrap());
    Some(match name {
        "deliver" | "deadletter" => {
            let token = LeaseToken {
                offset: Offset::new(number()?),
                generation: Generation::new(number()?),
            };
            let deliveries = u32::try_from(number()?).unwrap();
            Event::HandedOut(if name == "deliver" {
                HandOut::Deliver { token, deliveries }
            } else {
                HandOut::DeadLetter { token, deliveries }
            })
        }
        "settled" => Event::Settled(number()?),
        "committed" => Event::Committed(number()?),
        "begun" => Event::Begun,
        "done" => Event::Done,
        _ => return None,
    })
}

/// What a worker said before it was killed: how many checkpoints it made, and whether one was begun and not said to be done.
fn heard(lines: impl Iterator<Item = String>, book: &mut Book) -> (u64, bool) {
    let (mut done, mut begun) = (0, false);
    for event in lines.filter_map(|line| event_of(&line)) {
        tell(book, event);
        match event {
            Event::Begun => begun = true,
            Event::Done => (done, begun) = (done + 1, false),
            _ => {}
        }
    }
    (done, begun)
}

/// Kills a worker some time after it began, wherever it is.
fn killed_after(worker: &mut Child, book: &mut Book, time: Duration) -> (u64, bool) {
    let mut lines = BufReader::new(worker.stdout.take().unwrap());
    // Its first line is said once it has restarted.
    let mut first = String::new();
    while !first.contains("says ") && lines.read_line(&mut first).unwrap() > 0 {}
    let reader = thread::spawn(move || {
        let mut said = vec![first];
        let mut line = String::new();
        while lines.read_line(&mut line).unwrap() > 0 {
            said.push(std::mem::take(&mut line));
        }
        said
    });
    thread::sleep(time);
    worker.kill().unwrap();
    worker.wait().unwrap();
    heard(reader.join().unwrap().into_iter(), book)
}

/// Reads what a worker says until it ends, and kills it some time after so many checkpoints; answers how many it made, and whether one
/// was begun and not said to be done.
fn watch(worker: &mut Child, book: &mut Book, kill_after: u64, later: Duration) -> (u64, bool) {
    let mut lines = BufReader::new(worker.stdout.take().unwrap());
    let (mut done, mut begun) = (0, false);
    let mut line = String::new();
    while lines.read_line(&mut line).unwrap() > 0 {
        if let Some(event) = event_of(&line) {
            tell(book, event);
            match event {
                Event::Begun => begun = true,
                Event::Done => {
                    begun = false;
                    done += 1;
                    if done == kill_after {
                        // The lines that it has said by then are read too.
                        std::thread::sleep(later);
                        worker.kill().unwrap();
                    }
                }
                _ => {}
            }
        }
        line.clear();
    }
    worker.wait().unwrap();
    (done, begun)
}

/// Whether a consumer has what a page of the book has.
fn has_page<S: Storage>(consumer: &Consumer<S>, book: &Book, offsets: &[u64]) -> bool {
    let counts = consumer.all_attempt_counts(WORKER).unwrap();
    offsets.iter().all(|offset| {
        let name = Offset::new(*offset);
        let count = counts
            .iter()
            .find(|pair| pair.0 == name)
            .map_or(0, |pair| pair.1);
        consumer.is_settled(WORKER, name).unwrap() == book.page.is_settled(*offset)
            && count == book.page.count(*offset)
    })
}

/// What kills a worker.
type Kill = dyn FnMut(&mut Random, &mut Child, &mut Book) -> (u64, bool);

/// Checkpoints on one file, by workers that are killed, as long as there is more to do; answers how many there were, and how many kills.
fn killed_again_and_again(
    path: &Path,
    form: Form,
    kill: &mut Kill,
    more: impl Fn(u64) -> bool,
) -> [u64; 2] {
    let seen = created_with_ceiling(path, form);
    let mut book = Book::default();
    let mut random = Random(2);
    let (mut all, mut kills, mut within, mut written) = (0, 0, 0, 0);
    while more(all) {
        let mut worker = start_worker(path);
        // The worker's restart finds what the last look did.
        book.restarts += 1;
        let (done, begun) = kill(&mut random, &mut worker, &mut book);
        all += done;
        kills += 1;
        within += u64::from(begun);
        written += u64::from(restarted(&opened(path), &mut book, begun));
    }
    book.holds_the_bounds(&settings());
    let generations = book.generations.len();
    println!("{form}: {all} checkpoints, {generations} hand-outs, {kills} kills");
    println!("{within} kills in a checkpoint, {written} of them after its header");
    for path in [path, &seen] {
        fs::remove_file(path).unwrap();
    }
    [all, kills]
}

/// So many checkpoints, by workers that are killed some time after at most so many of them.
fn kills_by_checkpoints(path: &Path, form: Form, checkpoints: u64, most: u64) {
    let mut kill = move |random: &mut Random, worker: &mut Child, book: &mut Book| {
        let kill_after = 1 + random.below(most);
        let later = 1 + random.below(20_000);
        let later = Duration::from_micros(random.below(later));
        watch(worker, book, kill_after, later)
    };
    let [all, _] = killed_again_and_again(path, form, &mut kill, |all| all < checkpoints);
    assert!(all >= checkpoints);
}

/// For some time, by workers that are killed at any moment of it: answers how many kills there were.
fn kills_by_time(path: &Path, form: Form, time: Duration) -> u64 {
    let mut kill = |random: &mut Random, worker: &mut Child, book: &mut Book| {
        killed_after(worker, book, Duration::from_micros(random.below(30_000)))
    };
    let begun = Instant::now();
    let more = |_| begun.elapsed() < time;
    let [all, kills] = killed_again_and_again(path, form, &mut kill, more);
    assert!(all > 0);
    kills
}

/// Where a long test has its file.
fn soak_path(name: &str) -> PathBuf {
    match std::env::var_os("NINOTSKEV_SOAK").map(PathBuf::from) {
        Some(folder) => folder.join(format!("ninotskev-{name}-{}", std::process::id())),
        None => fresh_path(name),
    }
}

#[test]
fn some_hundred_checkpoints_with_kills() {
    for form in FORMS {
        kills_by_checkpoints(&fresh_path("kills"), form, 400, 40);
    }
}

#[test]
fn seconds_of_kills_at_any_moment() {
    for form in FORMS {
        let kills = kills_by_time(&fresh_path("moments"), form, Duration::from_secs(5));
        assert!(kills > 20, "{kills} kills");
    }
}

#[test]
#[ignore = "takes an hour"]
fn an_hour_of_kills_at_any_moment() {
    let given = std::env::var("NINOTSKEV_SOAK_SECONDS");
    let seconds = given.map_or(3600, |text| text.parse().expect("a number of seconds"));
    for form in FORMS {
        kills_by_time(&soak_path("hour"), form, Duration::from_secs(seconds / 2));
    }
}

#[test]
#[ignore = "takes minutes"]
fn a_million_checkpoints_with_kills() {
    for form in FORMS {
        kills_by_checkpoints(&soak_path("million"), form, 500_000, 500);
    }
}

// ## A hundred consumers of one file

const MANY: usize = 100;
const BLOCKS: usize = 18;

/// A disk with several journals.
struct Shared {
    disk: RefCell<Disk>,
    /// How many syncs failed.
    failed: Cell<u64>,
    /// Everything fails from the first failure on, as where the power goes.
    dies: Cell<bool>,
    dead: Cell<bool>,
    syncs: Cell<u64>,
    /// The last header of each journal that was written, durable or not, in this round.
    headers: RefCell<BTreeMap<usize, (usize, Block)>>,
}

/// One of them. A sync that fails is told to all that have pending writes.
struct Part {
    shared: Rc<Shared>,
    number: usize,
    failed_before: Option<u64>,
}

impl Shared {
    fn new() -> Rc<Shared> {
        Rc::new(Shared {
            disk: RefCell::new(Disk::new(MANY * BLOCKS)),
            failed: Cell::new(0),
            dies: Cell::new(false),
            dead: Cell::new(false),
            syncs: Cell::new(0),
            headers: RefCell::default(),
        })
    }

    fn part(self: &Rc<Shared>, number: usize) -> Part {
        Part {
            shared: Rc::clone(self),
            number,
            failed_before: None,
        }
    }

    fn fails(&self) -> io::Result<()> {
        let disk = &mut *self.disk.borrow_mut();
        let fails = self.dead.get() || disk.fails_in == Some(0);
        disk.fails_in = disk.fails_in.and_then(|left| left.checked_sub(1));
        self.dead.set(fails && self.dies.get());
        if fails {
            return Err(io::Error::other("the disk failed"));
        }
        Ok(())
    }
}

impl Part {
    fn is_held(&mut self) -> io::Result<()> {
        let failed = self.shared.failed.get();
        match self.failed_before.take() {
            Some(before) if before != failed => Err(io::Error::other("another sync failed")),
            _ => Ok(()),
        }
    }
}

impl Storage for Part {
    fn read(&mut self) -> io::Result<Area> {
        let disk = self.shared.disk.borrow();
        let blocks = BLOCKS * self.number..BLOCKS * (self.number + 1);
        let mut bytes = disk.held[BLOCK * blocks.start..BLOCK * blocks.end].to_vec();
        for (block, new) in disk
            .pending
            .iter()
            .filter(|write| blocks.contains(&write.0))
        {
            let place = BLOCK * (block - blocks.start);
            bytes[place..place + BLOCK].copy_from_slice(new);
        }
        Ok(bytes.into())
    }

    fn write_block(&mut self, block: usize, bytes: &Block) -> io::Result<()> {
        self.failed_before.get_or_insert(self.shared.failed.get());
        let place = BLOCKS * self.number + block;
        {
            let pending = &mut self.shared.disk.borrow_mut().pending;
            // The header is written only when nothing else of the journal is pending.
            let mine = pending
                .iter()
                .filter(|write| write.0 / BLOCKS == self.number);
            assert!(bytes[0] != 1 || mine.clone().all(|write| write.0 == place));
            pending.push((place, *bytes));
        }
        if bytes[0] == 1 {
            let mut headers = self.shared.headers.borrow_mut();
            headers.insert(self.number, (place, *bytes));
        }
        self.shared.fails()
    }

    fn sync(&mut self) -> io::Result<()> {
        self.shared.syncs.set(self.shared.syncs.get() + 1);
        if let Err(error) = self.shared.fails() {
            self.shared.failed.set(self.shared.failed.get() + 1);
            self.failed_before = None;
            return Err(error);
        }
        {
            let disk = &mut *self.shared.disk.borrow_mut();
            for (block, bytes) in std::mem::take(&mut disk.pending) {
                disk.hold(block, &bytes);
            }
        }
        self.is_held()
    }

    fn synced_by(&mut self, other: &Part) -> Option<io::Result<()>> {
        assert!(Rc::ptr_eq(&self.shared, &other.shared));
        Some(self.is_held())
    }
}

/// A consumer with its book and who calls it.
struct Kept<S> {
    consumer: Option<Consumer<S>>,
    book: Book,
    caller: Caller,
}

impl<S: Storage> Kept<S> {
    fn new(number: usize, consumer: Consumer<S>) -> Kept<S> {
        Kept {
            consumer: Some(consumer),
            book: Book::default(),
            caller: Caller::new(number as u64),
        }
    }

    fn calls(&mut self) {
        let consumer = self.consumer.as_mut().unwrap();
        for _ in 0..self.caller.random.below(6) {
            let book = &mut self.book;
            let called = self
                .caller
                .call_alone(consumer, &mut |event| tell(book, event));
            called.unwrap();
        }
    }

    fn restarts(&mut self, journal: Journal<S>) {
        let consumer = Consumer::restart(&settings(), journal).expect("no restart is refused");
        let offsets = window(consumer.committed(WORKER).unwrap().get());
        self.book.restarted(&consumer, &offsets);
        self.caller.tokens.clear();
        self.consumer = Some(consumer);
    }
}

/// Some rounds of calls and of checkpoints together on a simulated disk, whose writes and syncs fail, alone or with the power.
fn many_on_a_disk(rounds: u64) {
    let shared = Shared::new();
    let mut kept: Vec<Kept<Part>> = (0..MANY)
        .map(|number| {
            let journal = NewJournal::on(shared.part(number)).unwrap();
            Kept::new(number, Consumer::start(&settings(), journal).unwrap())
        })
        .collect();
    let mut random = Random(7);
    let (mut whole, mut reopened, mut powers, mut headers) = (0, 0, 0, 0);
    for _ in 0..rounds {
        kept.iter_mut().for_each(Kept::calls);
        shared.dies.set(random.below(2) == 0);
        shared.dead.set(false);
        shared.headers.borrow_mut().clear();
        let fault = (random.below(2) == 0).then(|| random.below(600) as usize);
        shared.disk.borrow_mut().fails_in = fault;
        let before = shared.syncs.get();
        let consumers = kept.iter_mut().map(|one| one.consumer.take().unwrap());
        let made = checkpoint_all(consumers.collect::<Vec<_>>(), WORKER);
        shared.disk.borrow_mut().fails_in = None;
        let mut failures: Vec<(usize, Failed<Part>)> = Vec::new();
        for (number, made) in made.into_iter().enumerate() {
            match made {
                Ok(consumer) => {
                    kept[number].book.header_written();
                    kept[number].consumer = Some(consumer);
                }
                Err(CheckpointError::Failed(failed)) => failures.push((number, failed)),
                Err(CheckpointError::Refused(error)) => panic!("{error}"),
            }
        }
        if failures.is_empty() {
            assert_eq!(shared.syncs.get() - before, 2);
            whole += 1;
        } else if shared.dead.get() {
            powers += 1;
            headers += power_fails(&shared, &mut kept, &mut random);
        } else {
            for (number, failed) in failures {
                reopened += 1;
                let journal = failed.reopen().unwrap();
                // Then it counts, if it was written at all.
                if shared.headers.borrow().contains_key(&number) {
                    kept[number].book.header_written();
                }
                kept[number].restarts(journal);
            }
        }
    }
    for one in &kept {
        one.book.holds_the_bounds(&settings());
    }
    println!(
        "{whole} whole, {reopened} reopened, {powers} power failures, {headers} headers left new"
    );
    assert!(whole > rounds / 4 && reopened > 0 && powers > 0 && headers > 0);
}

/// The power fails, and all consumers are restarted; answers how many headers were left new.
fn power_fails(shared: &Rc<Shared>, kept: &mut [Kept<Part>], random: &mut Random) -> u64 {
    shared.dead.set(false);
    let mut disk = shared.disk.borrow_mut();
    disk.power_fails(|_| Fate::random(random));
    let held = disk.held.clone();
    drop(disk);
    let headers = shared.headers.borrow().clone();
    let mut left = 0;
    for (number, one) in kept.iter_mut().enumerate() {
        one.consumer = None;
        let found = |block: usize| &held[BLOCK * block..BLOCK * (block + 1)];
        let header = headers.get(&number);
        if header.is_some_and(|(block, bytes)| found(*block) == bytes) {
            left += 1;
            one.book.header_written();
        }
        one.restarts(Journal::on(shared.part(number)).unwrap());
    }
    left
}

#[test]
fn a_hundred_consumers_of_one_disk() {
    many_on_a_disk(300);
}

const MANY_ROLE: &str = "NINOTSKEV_SOAK_MANY";

/// What the process does that is killed, or whose disk fails: calls of all consumers, and their checkpoints together.
#[test]
#[ignore = "a part of the tests below"]
fn worker_of_many() {
    let Some(path) = std::env::var_os(MANY_ROLE) else {
        return;
    };
    let journals = Journals::open(&path).unwrap();
    let mut consumers: Vec<Consumer<JournalPart>> = (0..MANY)
        .map(|number| Consumer::restart(&settings(), journals.journal(number).unwrap()).unwrap())
        .collect();
    let seed = u64::from(std::process::id()) << 8;
    let mut callers: Vec<Caller> = (0..MANY as u64).map(|n| Caller::new(seed + n)).collect();
    let mut out = BufWriter::new(io::stdout());
    loop {
        for (number, (consumer, caller)) in consumers.iter_mut().zip(&mut callers).enumerate() {
            for _ in 0..caller.random.below(3) {
                let say = &mut |event| write!(out, "{number} {}", line_of(event)).unwrap();
                caller.call_alone(consumer, say).unwrap();
            }
        }
        // What is said is read before the checkpoint can count.
        write!(out, "all {}", line_of(Event::Begun)).unwrap();
        out.flush().unwrap();
        let mut failures = Vec::new();
        let made = checkpoint_all(std::mem::take(&mut consumers), WORKER);
        for one in made {
            match one {
                Ok(consumer) => consumers.push(consumer),
                Err(CheckpointError::Failed(failed)) => failures.push(failed),
                Err(CheckpointError::Refused(error)) => panic!("{error}"),
            }
        }
        if !failures.is_empty() {
            // Each is written again before the process ends.
            for mut failed in failures {
                while let Err(again) = failed.reopen() {
                    failed = again;
                }
            }
            return;
        }
        write!(out, "all {}", line_of(Event::Done)).unwrap();
        out.flush().unwrap();
    }
}

/// Which consumer a line is of, or all, and what it says.
fn event_of_many(line: &str) -> Option<(Option<usize>, Event)> {
    let event = event_of(line)?;
    let who = line.split("says ").next()?.trim();
    let number = who.rsplit(' ').next()?.parse().ok();
    (who.ends_with("all") || number.is_some()).then_some((number, event))
}

/// Tells the books what a worker said; answers how many rounds of checkpoints it made, and whether one was begun and not said to be done.
fn heard_of_many(said: &str, books: &mut [Book]) -> (u64, bool) {
    let (mut done, mut begun) = (0, false);
    for line in said.split_inclusive('\n') {
        match event_of_many(line) {
            Some((Some(number), event)) => tell(&mut books[number], event),
            Some((None, Event::Begun)) => begun = true,
            Some((None, event)) => {
                books.iter_mut().for_each(|book| tell(book, event));
                (done, begun) = (done + 1, false);
            }
            None => {}
        }
    }
    (done, begun)
}

/// What another process finds of each consumer is what its book has.
fn compare_many(path: &Path, books: &mut [Book], begun: bool) {
    let journals = Journals::open(path).unwrap();
    for (number, book) in books.iter_mut().enumerate() {
        let journal = journals.journal(number).unwrap();
        let consumer = Consumer::restart(&settings(), journal).expect("no restart is refused");
        let offsets = window(consumer.committed(WORKER).unwrap().get());
        if begun && has_page(&consumer, book, &offsets) {
            book.header_written();
        }
        // The worker's restart, and this one.
        book.restarts += 1;
        book.restarted(&consumer, &offsets);
    }
}

fn worker_of(mut command: Command, path: &Path) -> Child {
    command
        .args(["worker_of_many", "--exact", "--nocapture", "--ignored"])
        .env(MANY_ROLE, path)
        .stdout(Stdio::piped())
        .spawn()
        .unwrap()
}

/// What a worker says that is killed some time after it began to say something.
fn until_killed(path: &Path, random: &mut Random) -> String {
    let mut worker = worker_of(Command::new(std::env::current_exe().unwrap()), path);
    let mut lines = BufReader::new(worker.stdout.take().unwrap());
    let mut said = String::new();
    while !said.contains("says ") && lines.read_line(&mut said).unwrap() > 0 {}
    let reader = thread::spawn(move || {
        lines.read_to_string(&mut said).unwrap();
        said
    });
    thread::sleep(Duration::from_micros(random.below(60_000)));
    worker.kill().unwrap();
    worker.wait().unwrap();
    reader.join().unwrap()
}

/// What a worker says that ends once a write or a sync of its file has failed.
fn until_failed(path: &Path, random: &mut Random) -> String {
    let (call, most) = random.pick(&[("pwrite64", 3000), ("fdatasync", 12)]);
    let when = 2 + random.below(most);
    let mut strace = Command::new("strace");
    let trace = format!("trace={call}");
    let inject = format!("inject={call}:error=EIO:when={when}");
    strace.args([
        "-f",
        "-qq",
        "--seccomp-bpf",
        "-o",
        "/dev/null",
        "-e",
        &trace,
        "-e",
        &inject,
    ]);
    strace.arg(std::env::current_exe().unwrap());
    let worker = worker_of(strace, path);
    let output = worker.wait_with_output().unwrap();
    assert!(output.status.success());
    String::from_utf8(output.stdout).unwrap()
}

/// For some time, by workers of a hundred consumers that are killed, and, where that can be, whose disk fails.
fn many_on_a_file(path: &Path, time: Duration) {
    let can_fail = strace_is_there("failing writes of a hundred consumers");
    let journals = Journals::create(path, MANY, BLOCKS).unwrap();
    let started = (0..MANY).map(|number| {
        let journal = journals.new_journal(number).unwrap();
        Consumer::start(&settings(), journal).unwrap()
    });
    for made in checkpoint_all(started, WORKER) {
        drop(made.unwrap());
    }
    drop(journals);
    let mut books: Vec<Book> = (0..MANY).map(|_| Book::default()).collect();
    let mut random = Random(3);
    let (mut rounds, mut within, mut turns) = (0, 0, [0; 2]);
    let begun = Instant::now();
    while begun.elapsed() < time {
        let fails = can_fail && random.below(3) == 0;
        let said = if fails {
            until_failed(path, &mut random)
        } else {
            until_killed(path, &mut random)
        };
        let (done, begun) = heard_of_many(&said, &mut books);
        rounds += done;
        within += u64::from(begun);
        turns[usize::from(fails)] += 1;
        compare_many(path, &mut books, begun);
    }
    let mut hand_outs = 0;
    for book in &books {
        book.holds_the_bounds(&settings());
        hand_outs += book.generations.len();
    }
    let [kills, faults] = turns;
    println!("{MANY} consumers: {rounds} checkpoints of each, {hand_outs} hand-outs, {kills} kills, {faults} errors of the disk");
    println!("{within} of them in a checkpoint");
    assert!(rounds > 0 && within > 0 && kills > 0 && (faults > 0 || !can_fail));
    fs::remove_file(path).unwrap();
}

#[test]
fn seconds_of_kills_and_faults_of_many() {
    many_on_a_file(&fresh_path("many"), Duration::from_secs(8));
}

#[test]
#[ignore = "takes ten minutes"]
fn ten_minutes_of_kills_and_faults_of_many() {
    let given = std::env::var("NINOTSKEV_SOAK_SECONDS");
    let seconds = given.map_or(600, |text| text.parse().expect("a number of seconds"));
    many_on_a_disk(20 * seconds);
    many_on_a_file(&soak_path("many"), Duration::from_secs(seconds));
}
