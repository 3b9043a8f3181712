//! A server's loop over one consumer: it claims, works, acknowledges, and makes a checkpoint when one is due. The jobs here are
//! numbers, and some fail at first.
//!
//!     cargo run --example server -- init recipes.journal seen       # once: a new journal, of which no ceiling was seen
//!     cargo run --example server -- run recipes.journal seen        # again and again: each run goes on where the last one was
//!
//! The file `seen` has the last ceiling, and would stand on another disk than the journal. It may be left out of both.
//!
//! A journal is created by `init` alone: where there is none, `run` ends with an error, since a journal that was lost and is created
//! anew gives tokens a second time. So does `run` where `seen` is named and isn't there, as on a disk that isn't mounted; and `init` ends
//! where something was seen. After an error of the disk the server ends. Its exit statuses stand in `USAGE`: a service manager must not
//! start it again by itself where somebody has to look first.

use std::error::Error;
use std::fs;
use std::io;
use std::path::{Path, PathBuf};
use std::process::ExitCode;
use std::time::Instant;

use ironbus_delivery_state::{
    check_library, CheckpointError, Configuration, Consumer, Failed, Generation, HandOut, Journal,
    JournalError, LeaseToken, NewJournal, Offset, Refusal, RestartAtLeastError, WorkerId,
};

/// What is printed where it is asked for, or the arguments are wrong.
const USAGE: &str = "\
server init JOURNAL [SEEN]    creates the journal: once in its life
server run JOURNAL [SEEN]     goes on with it

It ends with one of these, and says why:
  0  done
  1  an error of this program
  2  wrong arguments
  3  another process has the journal: start no second server
  4  the journal, or what was seen of it, isn't there or isn't the right one: look, and create no new one
  5  the disk failed, and what it failed to write is written now: see to the disk, then run it again
  6  the disk failed: see to it, and restart the machine before the server
docs/OPERATING.md says more.
";

/// Who makes the calls: by default worker 0 may do everything.
const WORKER: WorkerId = WorkerId::new(0);

/// Whether a job can be done: every third one fails once.
fn work(token: LeaseToken, deliveries: u32) -> bool {
    !token.offset.get().is_multiple_of(3) || deliveries > 1
}

/// Hands one job out and settles it, or gives it back.
fn serve(consumer: &mut Consumer, offset: Offset, now: u64) -> Result<(), Refusal> {
    match consumer.claim(WORKER, offset, now)? {
        HandOut::Deliver { token, deliveries } if work(token, deliveries) => {
            consumer.ack(WORKER, token)
        }
        HandOut::Deliver { token, .. } => match consumer.nack(WORKER, token, now, Some(0)) {
            // The claim took the last generation: the job comes back when its lease has run out.
            Err(Refusal::CheckpointDue) => Ok(()),
            answer => answer.map(drop),
        },
        HandOut::DeadLetter { token, deliveries } => {
            println!("{offset} goes to the dead letters after {deliveries} hand-outs");
            consumer.term(WORKER, token)
        }
    }
}

/// The next job: one that waits, or else the first that isn't settled and not in flight.
fn next(consumer: &Consumer, now: u64, end: u64) -> Result<Option<Offset>, Refusal> {
    let mut waiting = [Offset::ZERO; 128];
    if consumer.waiting(WORKER, now, &mut waiting)? > 0 {
        return Ok(Some(waiting[0]));
    }
    for offset in (consumer.committed(WORKER)?.get()..end).map(Offset::from) {
        let settled = consumer.is_settled(WORKER, offset)?;
        if !settled && consumer.lease_of(WORKER, offset)?.is_none() {
            return Ok(Some(offset));
        }
    }
    Ok(None)
}

/// The last ceiling that was seen, kept apart from the journal.
struct Seen(Option<PathBuf>);

impl Seen {
    // None where there is no such file.
    fn read(path: &Path) -> Result<Option<Generation>, End> {
        match fs::read_to_string(path) {
            Ok(text) => match text.trim().parse() {
                Ok(number) => Ok(Some(Generation::new(number))),
                Err(error) => Err(End::about(path, Status::Journal, &error)),
            },
            Err(error) if error.kind() == io::ErrorKind::NotFound => Ok(None),
            Err(error) => Err(End::of_file(path, &error)),
        }
    }

    fn ceiling(&self) -> Result<Generation, End> {
        let Some(path) = &self.0 else {
            return Ok(Generation::new(0));
        };
        let missing = || format!("{}: there is no such file", path.display());
        Seen::read(path)?.ok_or_else(|| End::new(Status::Journal, missing()))
    }

    // A new journal: nothing may have been seen.
    fn begin(&self) -> Result<(), End> {
        let Some(path) = &self.0 else {
            return Ok(());
        };
        match Seen::read(path)? {
            None => self.keep(Generation::new(0)),
            Some(ceiling) if ceiling.get() == 0 => Ok(()),
            Some(ceiling) => {
                let path = path.display();
                let says = format!(
                    "{path}: ceiling {ceiling} was seen of a journal that was there before. Stop all workers, and remove this file, \
                     before there is a new one"
                );
                Err(End::new(Status::Journal, says))
            }
        }
    }

    // A checkpoint has been made: the journal has this ceiling. It lasts before anything is handed out.
    fn keep(&self, ceiling: Generation) -> Result<(), End> {
        let Some(path) = &self.0 else {
            return Ok(());
        };
        write_durably(path, &ceiling.to_string()).map_err(|error| End::of_file(path, &error))
    }
}

/// A file that has the old text or the new one, whenever the power fails.
fn write_durably(path: &Path, text: &str) -> io::Result<()> {
    let mut new = path.to_owned().into_os_string();
    new.push(".tmp");
    fs::write(&new, text)?;
    fs::File::open(&new)?.sync_all()?;
    fs::rename(new, path)?;
    let folder = path
        .parent()
        .filter(|folder| !folder.as_os_str().is_empty());
    fs::File::open(folder.unwrap_or(Path::new(".")))?.sync_all()
}

/// An error of the disk ends the server. What the disk may have forgotten is written once more before, so that the next process reads
/// what is there: the journal's lock goes with this one.
fn disk_failed(failed: Failed) -> End {
    let first = chain(&failed);
    match failed.reopen() {
        Ok(_) => End::new(
            Status::WrittenNow,
            format!("{first}; it is written now. See to the disk, then run the server again"),
        ),
        Err(again) => End::new(
            Status::Disk,
            format!(
                "{first}; and once more: {}. See to the disk, and restart the machine before the server",
                chain(&again)
            ),
        ),
    }
}

/// A checkpoint, and the ceiling that it left.
fn checkpoint(consumer: Consumer, seen: &Seen) -> Result<Consumer, End> {
    let consumer = match consumer.checkpoint(WORKER) {
        Ok(consumer) => consumer,
        Err(CheckpointError::Refused(error)) => return Err(error.into()),
        Err(CheckpointError::Failed(failed)) => return Err(disk_failed(failed)),
    };
    seen.keep(consumer.ceiling())?;
    Ok(consumer)
}

fn init(path: &Path, seen: &Seen) -> Result<(), End> {
    seen.begin()?;
    let journal = NewJournal::create(path, 128).map_err(|error| End::of_journal(path, &error))?;
    println!("{journal:?}");
    Ok(())
}

fn run(path: &Path, seen: &Seen) -> Result<(), End> {
    let journal = Journal::open(path).map_err(|error| End::of_journal(path, &error))?;
    println!("restarting from {journal:?}");
    let configuration = Configuration::default();
    let mut consumer = Consumer::restart_at_least(&configuration, journal, seen.ceiling()?)
        .map_err(|error| End::of_restart(path, &error))?;
    let clock = Instant::now();
    let end = consumer.committed(WORKER)?.get() + 20;
    loop {
        // Nothing is handed out before it.
        if consumer.checkpoint_due() {
            consumer = checkpoint(consumer, seen)?;
        }
        let now = u64::try_from(clock.elapsed().as_nanos())?;
        let Some(offset) = next(&consumer, now, end)? else {
            break;
        };
        serve(&mut consumer, offset, now)?;
    }
    let consumer = checkpoint(consumer, seen)?;
    println!(
        "settled below {}, {} blocks left",
        consumer.committed(WORKER)?,
        consumer.blocks_left(WORKER)?
    );
    Ok(())
}

fn serve_arguments() -> Result<(), End> {
    check_library()?;
    let arguments: Vec<_> = std::env::args_os().skip(1).collect();
    let (command, files) = match arguments.split_first() {
        Some((command, files)) => (command.to_str(), files),
        None => (None, &[][..]),
    };
    let [path, seen] = [0, 1].map(|place| files.get(place).map(PathBuf::from));
    match (command, path) {
        (Some("help" | "--help" | "-h"), _) => {
            print!("{USAGE}");
            Ok(())
        }
        (Some("init"), Some(path)) if files.len() <= 2 => init(&path, &Seen(seen)),
        (Some("run"), Some(path)) if files.len() <= 2 => run(&path, &Seen(seen)),
        _ => Err(End::new(
            Status::Arguments,
            format!("wrong arguments\n\n{USAGE}"),
        )),
    }
}

fn main() -> ExitCode {
    match serve_arguments() {
        Ok(()) => ExitCode::SUCCESS,
        Err(End { status, says }) => {
            eprintln!("server: {}", says.trim_end());
            ExitCode::from(status as u8)
        }
    }
}

// ## How it ends

/// The exit statuses of `USAGE`.
#[derive(Clone, Copy)]
enum Status {
    Program = 1,
    Arguments = 2,
    InUse = 3,
    Journal = 4,
    WrittenNow = 5,
    Disk = 6,
}

/// How the server ends where not all is well: its exit status, and what it says.
struct End {
    status: Status,
    says: String,
}

impl End {
    fn new(status: Status, says: impl Into<String>) -> End {
        let says = says.into();
        End { status, says }
    }

    /// An error about a file.
    fn about(path: &Path, status: Status, error: &dyn Error) -> End {
        End::new(status, format!("{}: {}", path.display(), chain(error)))
    }

    /// What the system said of a file.
    fn of_file(path: &Path, error: &io::Error) -> End {
        End::about(path, Status::of(error), error)
    }

    fn of_journal(path: &Path, error: &JournalError) -> End {
        let status = match error {
            JournalError::Locked => Status::InUse,
            JournalError::Exists | JournalError::Used => Status::Journal,
            JournalError::Io(error) => Status::of(error),
            _ => Status::Program,
        };
        End::about(path, status, error)
    }

    /// Not restarted: it is older than was seen, or refused; 4 to 19 are of the journal, the others of the configuration.
    fn of_restart(path: &Path, error: &RestartAtLeastError) -> End {
        let number = error.refusal().map(Refusal::number);
        let status = match number {
            None | Some(4..=19) => Status::Journal,
            Some(_) => Status::Program,
        };
        End::about(path, status, error)
    }
}

impl Status {
    // It isn't there, can't be opened, or is no text: the wrong file, or a disk that isn't mounted. All else is the disk's.
    fn of(error: &io::Error) -> Status {
        use io::ErrorKind::{InvalidData, IsADirectory, NotADirectory, NotFound, PermissionDenied};
        match error.kind() {
            NotFound | PermissionDenied | IsADirectory | NotADirectory | InvalidData => {
                Status::Journal
            }
            _ => Status::Disk,
        }
    }
}

/// An error and all that caused it: each says its own level alone.
fn chain(error: &dyn Error) -> String {
    let mut says = error.to_string();
    let mut cause = error.source();
    while let Some(error) = cause {
        says = format!("{says}: {error}");
        cause = error.source();
    }
    says
}

/// What has no status of its own: a call that was refused, or a library that isn't the crate's.
impl<E: Error> From<E> for End {
    fn from(error: E) -> End {
        End::new(Status::Program, chain(&error))
    }
}
