//! A server that reads a call from each line of standard input and answers it with a line, over a journal in a file. The lines and answers
//! are those of the program `replay` (docs/REPLAY.md), which has its journal in memory. `./run` tells the clinics' incident with it.
//!
//!     lines new JOURNAL       a new journal
//!     lines on JOURNAL        restarts from it
//!
//! Its lines are `worker`, `claim`, `ack`, `nack` with a delay, `view`, and `checkpoint` for a whole one.

use std::env::args;
use std::error::Error;
use std::io::stdin;

use ironbus_delivery_state::{
    Configuration, Consumer, HandOut, Journal, LeaseToken, NewJournal, Refusal, Rights, WorkerId,
};

/// The server itself makes the checkpoints; workers 1 and 2 do the jobs.
const SERVER: WorkerId = WorkerId::new(0);

fn configuration() -> Configuration {
    let mut configuration = Configuration::default();
    let rights = Rights::CLAIM | Rights::SETTLE | Rights::NACK | Rights::LOOK;
    configuration.settings.rights[1..=2].fill(rights);
    configuration
}

fn token(offset: u64, generation: u64) -> LeaseToken {
    LeaseToken {
        offset: offset.into(),
        generation: generation.into(),
    }
}

/// What a worker's call is answered.
fn answer(
    consumer: &mut Consumer,
    worker: WorkerId,
    call: &str,
    numbers: &[u64],
) -> Result<String, Refusal> {
    Ok(match (call, numbers) {
        ("claim", &[offset, now]) => {
            let (word, token, count) = match consumer.claim(worker, offset.into(), now)? {
                HandOut::Deliver { token, deliveries } => ("deliver", token, deliveries),
                HandOut::DeadLetter { token, deliveries } => ("deadletter", token, deliveries),
            };
            format!("{word} {offset} {} {count}", token.generation)
        }
        ("ack", &[offset, generation]) => {
            consumer.ack(worker, token(offset, generation))?;
            "settled".to_owned()
        }
        ("nack", &[offset, generation, now, delay]) => {
            let clock = consumer.nack(worker, token(offset, generation), now, Some(delay))?;
            format!("requeued {clock}")
        }
        ("view", &[offset, now]) => {
            let standing = consumer.view(worker, offset.into(), now)?.standing;
            format!("view {standing:?}").to_lowercase()
        }
        _ => "bad line".to_owned(),
    })
}

fn main() -> Result<(), Box<dyn Error>> {
    let arguments: Vec<String> = args().skip(1).collect();
    let words: Vec<&str> = arguments.iter().map(String::as_str).collect();
    let mut consumer = match words[..] {
        ["new", path] => Consumer::start(&configuration(), NewJournal::create(path, 18)?)?,
        ["on", path] => Consumer::restart(&configuration(), Journal::open(path)?)?,
        _ => return Err("usage: lines new JOURNAL, or lines on JOURNAL".into()),
    };
    let mut worker = SERVER;
    for line in stdin().lines() {
        let line = line?;
        let mut words = line.split(' ');
        let call = words.next().unwrap_or_default();
        let numbers: Vec<u64> = words.map(str::parse).collect::<Result<_, _>>()?;
        let said = match (call, &numbers[..]) {
            ("worker", &[number]) => {
                worker = WorkerId::new(number);
                line
            }
            ("checkpoint", []) => {
                consumer = consumer.checkpoint(SERVER)?;
                "done".to_owned()
            }
            _ => answer(&mut consumer, worker, call, &numbers)
                .unwrap_or_else(|refusal| format!("refused {}", refusal.number())),
        };
        println!("{said}");
    }
    Ok(())
}
