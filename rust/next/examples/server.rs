//! A server's loop over one consumer: it claims, works and acknowledges. The jobs here are numbers, and some fail at first.
//!
//!     cargo run --example server -- init recipes.journal seen       # once: a new journal, of which no ceiling was seen
//!     cargo run --example server -- run recipes.journal seen        # again and again: each run goes on where the last one was
//!
//! The file `seen` has the last ceiling, and belongs on another disk than the journal; it may be left out. Where another server had the
//! jobs before, `takeover clock` comes in place of `init`: no token of that server is taken then (docs/MOVING.md). `run` creates
//! nothing: a journal that was lost and is created anew gives tokens a second time.

use std::process::ExitCode;
use std::time::Instant;

use ironbus_delivery_state::{
    CeilingFile, Configuration, Consumer, Generation, HandOut, Journal, LeaseToken, Offset,
    Refusal, Remedy, SharedConsumer, SharedError, WorkerId, MIN_BLOCKS,
};

const USAGE: &str = "\
server init JOURNAL [SEEN]             creates the journal: once in its life
server takeover FIRST JOURNAL [SEEN]   likewise, if there was a server before: FIRST is a generation
                                       above all that it gave, or the word clock
server run JOURNAL [SEEN]              goes on with it
It ends with 0 if all is well, with 2 if the arguments are wrong, or by what is to be done:
";

/// Who makes the calls: by default worker 0 may do everything.
const WORKER: WorkerId = WorkerId::new(0);

/// Whether a job can be done: every third one fails once.
fn work(token: LeaseToken, deliveries: u32) -> bool {
    !token.offset.get().is_multiple_of(3) || deliveries > 1
}

/// A worker's loop.
fn serve(shared: &SharedConsumer, clock: Instant, end: Offset) -> Result<(), SharedError> {
    let now = || clock.elapsed().as_nanos() as u64;
    while let Some(offset) = shared.look(|consumer| next(consumer, now(), end))? {
        match shared.claim(WORKER, offset, now())? {
            HandOut::Deliver { token, deliveries } if work(token, deliveries) => {
                shared.ack(WORKER, token)?;
            }
            HandOut::Deliver { token, .. } => drop(shared.nack(WORKER, token, now(), Some(0))?),
            HandOut::DeadLetter { token, .. } => shared.term(WORKER, token)?,
        }
    }
    Ok(())
}

/// The next job: one that waits, or else the first that isn't settled and not in flight.
fn next(consumer: &Consumer, now: u64, end: Offset) -> Result<Option<Offset>, Refusal> {
    let mut waiting = [Offset::ZERO; 128];
    if consumer.waiting(WORKER, now, &mut waiting)? > 0 {
        return Ok(Some(waiting[0]));
    }
    let open = consumer.open_stretches(WORKER, Offset::ZERO, end)?;
    let mut open = open.into_iter().flat_map(|stretch| stretch.offsets());
    Ok(open.find(|offset| consumer.lease_of(WORKER, *offset) == Ok(None)))
}

fn run(path: &str, seen: Option<CeilingFile>) -> Result<(), SharedError> {
    let journal = Journal::open(path)?;
    println!("restarting from {journal:?}, {}", journal.form());
    let shared = SharedConsumer::on(journal, seen, &Configuration::default())?;
    let done = shared.look(|consumer| consumer.committed(WORKER))?;
    serve(&shared, Instant::now(), Offset::new(done.get() + 20))?;
    shared.checkpoint()?;
    let done = shared.look(|consumer| consumer.committed(WORKER))?;
    println!("settled below {done}, and that lasts");
    Ok(())
}

fn create(first: &str, path: &str, seen: Option<&str>) -> Option<Result<(), SharedError>> {
    let first = match first {
        "clock" => Generation::from_clock().ok()?,
        number => Generation::new(number.parse().ok()?),
    };
    let seen = seen.map(CeilingFile::new);
    // With the fewest blocks no checkpoint writes more than 18 of them.
    let created = SharedConsumer::create(path, seen, MIN_BLOCKS, first, &Configuration::default());
    Some(created.map(|()| println!("created, from generation {first} on")))
}

/// What the arguments ask for; none where they are wrong.
fn called(words: &[&str]) -> Option<Result<(), SharedError>> {
    match *words {
        ["init", path] => create("0", path, None),
        ["init", path, seen] => create("0", path, Some(seen)),
        ["takeover", first, path] => create(first, path, None),
        ["takeover", first, path, seen] => create(first, path, Some(seen)),
        ["run", path] => Some(run(path, None)),
        ["run", path, seen] => Some(run(path, Some(CeilingFile::new(seen)))),
        _ => None,
    }
}

fn usage() -> String {
    let line = |remedy: &Remedy| format!("  {}  {remedy}\n", remedy.exit_status());
    USAGE.to_owned() + &Remedy::ALL.iter().map(line).collect::<String>()
}

fn main() -> ExitCode {
    let words: Vec<String> = std::env::args().skip(1).collect();
    let words: Vec<&str> = words.iter().map(String::as_str).collect();
    if let ["help" | "--help" | "-h"] = words[..] {
        print!("{}", usage());
        return ExitCode::SUCCESS;
    }
    match called(&words) {
        Some(Ok(())) => ExitCode::SUCCESS,
        Some(Err(error)) => {
            eprintln!("server {}: {}", words.join(" "), error.report());
            ExitCode::from(error.remedy().exit_status())
        }
        None => {
            eprint!("server: wrong arguments\n\n{}", usage());
            ExitCode::from(2)
        }
    }
}
