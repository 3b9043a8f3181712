//! What is shown of one offset (SPEC.md, "View"), and scenes in which all kinds of workers look at all kinds of offsets.
use crate::make::Maker;
use crate::rights::Operation;
use crate::scenes::checkpoint;

/// What a supervisor sees besides; what there isn't is `None`.
#[derive(Clone, Copy, Default)]
pub struct Details {
    pub attempts: Option<u64>,
    pub generation: Option<u64>,
    pub deadline: Option<u64>,
    pub holder: Option<u64>,
}

pub struct View {
    pub standing: &'static str,
    /// For a supervisor alone.
    pub details: Option<Details>,
}

impl View {
    /// The line that answers.
    pub fn line(&self) -> String {
        let mut line = format!("view {}", self.standing);
        if let Some(details) = &self.details {
            for value in [details.attempts, details.generation, details.deadline, details.holder] {
                line += &value.map_or(" none".to_string(), |value| format!(" {value}"));
            }
        }
        line
    }
}

/// Two who look besides the others: a supervisor and a worker.
const LOOKERS: [(u64, u8); 2] = [(6, 255), (7, 127)];

/// Offsets that are settled, held, run out, nacked, carried and untouched, at the clocks about their deadlines.
pub fn views(maker: &mut Maker) {
    maker.several();
    for (worker, mask) in LOOKERS {
        maker.rights(worker as usize, mask);
    }
    maker.start_crew("3 0 9", 10, 25, 18, &[5]);
    checkpoint(maker);
    maker.worker(LOOKERS[0].0);
    for i in 0..5 {
        maker.say(format!("claim {i} {}", 3 * i));
    }
    for _ in 0..2 {
        let token = maker.token();
        maker.say(format!("ack {token}"));
    }
    for _ in 0..3 {
        maker.any_call();
        for (worker, _) in LOOKERS {
            look(maker, worker);
        }
    }
    let worker = maker.anyone();
    look(maker, worker);
    maker.able(Operation::Checkpoint);
    checkpoint(maker);
    maker.say("restart");
    for (worker, _) in LOOKERS {
        look(maker, worker);
    }
}

fn look(maker: &mut Maker, worker: u64) {
    maker.worker(worker);
    for _ in 0..3 {
        let (offset, time) = (maker.offset(), maker.time());
        maker.say(format!("view {offset} {time}"));
    }
}
