//! Runs one operation on the original. Where SPEC.md has a limit and the original none, the operation is tried on a copy; if
//! that passes the limit, SPEC.md's refusal is answered and nothing changes: 2 (backoffs), 19 (carried counts), 27 (leases), and
//! 29 for `ack`, which is `ack_bounded` at 128 ranges. Attempt snapshots of version 2 are the codecs' own, not the original's.
use crate::codecs::{
    decode_attempts, decode_cursor, encode_attempts, encode_attempts_v2, encode_cursor, resume_with_ahead, Code, OUT_TOO_SHORT,
    RANGES, TOO_MANY_PAIRS,
};
use crate::operations::{answer, ANSWER};
use crate::state::{read_table, starting_at, State, BYTES, ENTRIES};
use ironbus::cursor::{AckCursor, BoundedAck};
use ironbus::delivery::{DeliveryConfig, Disposition};
use ironbus::lease::{AckOutcome, Claim, ExtendOutcome, LeaseConfig, LeaseTable, LeaseToken, NackOutcome};
use ironbus::types::Offset;

const LEASES: usize = 64;
const CARRIED: usize = 128;
const BACKOFFS: usize = 16;

const TOO_MANY_STEPS: u64 = 2;

fn option(value: Option<u64>) -> Code {
    match value {
        Some(value) => vec![0, 1, value],
        None => vec![0, 0],
    }
}

fn yes(value: bool) -> Code {
    vec![0, value.into()]
}

fn bounded(answer: BoundedAck) -> Code {
    match answer {
        BoundedAck::Recorded => vec![0, 1],
        BoundedAck::Duplicate => vec![0, 0],
        BoundedAck::Shed => vec![29],
    }
}

fn token(offset: u64, generation: u64) -> LeaseToken {
    LeaseToken {
        offset: Offset::new(offset),
        generation,
    }
}

impl State {
    /// The answer to an operation, and the digest of what it leaves; none of its numbers where it is none.
    pub fn answer(&mut self, line: &str) -> [u64; ANSWER] {
        let code = self.run(line).unwrap_or_default();
        answer(&code, self.digest())
    }

    pub fn run(&mut self, line: &str) -> Option<Code> {
        let mut words = line.split(' ');
        let module = words.next()?;
        let operation = words.next()?;
        let number = |word: &str| word.bytes().all(|b| b.is_ascii_digit()).then(|| word.parse().ok())?;
        let numbers: Vec<u64> = words.map(number).collect::<Option<_>>()?;
        match module {
            "list" => self.list(operation, &numbers),
            "bytes" => self.bytes(operation, &numbers),
            "offset" => match (operation, &numbers[..]) {
                ("next", &[x]) => Some(option(Offset::new(x).checked_next().map(Offset::get))),
                _ => None,
            },
            "cursor" => self.cursor(operation, &numbers),
            "attempt" => self.attempt(operation, &numbers),
            "lease" => self
                .table(operation, &numbers)
                .or_else(|| self.lease(operation, &numbers))
                .or_else(|| self.question(operation, &numbers)),
            "delivery" => self.delivery(operation, &numbers),
            _ => None,
        }
    }

    fn part(&self, from: u64, to: u64) -> Option<std::ops::Range<usize>> {
        (from <= to && to <= self.bytes.len() as u64).then_some(from as usize..to as usize)
    }

    fn list(&mut self, operation: &str, numbers: &[u64]) -> Option<Code> {
        match (operation, numbers) {
            ("new", &[]) => self.list.clear(),
            ("add", &[a, b]) if self.list.len() < ENTRIES => self.list.push((a, b)),
            _ => return None,
        }
        Some(vec![0])
    }

    fn bytes(&mut self, operation: &str, numbers: &[u64]) -> Option<Code> {
        match (operation, numbers) {
            ("new", &[n, v]) if n <= BYTES as u64 && v < 256 => self.bytes = vec![v as u8; n as usize],
            ("set", &[i, v]) if i < self.bytes.len() as u64 && v < 256 => self.bytes[i as usize] = v as u8,
            ("seal", &[from, to]) => {
                let part = self.part(from, to).filter(|part| part.len() >= 4)?;
                let part = &mut self.bytes[part];
                let (body, check) = part.split_at_mut(part.len() - 4);
                check.copy_from_slice(&ironbus::crc::crc32c(body).to_le_bytes());
            }
            ("crc", &[from, to]) => {
                let part = self.part(from, to)?;
                return Some(vec![0, ironbus::crc::crc32c(&self.bytes[part]).into()]);
            }
            _ => return None,
        }
        Some(vec![0])
    }

    /// A list into lent memory of `room` places.
    fn listed(&mut self, list: Vec<(u64, u64)>, room: u64) -> Option<Code> {
        if room > ENTRIES as u64 {
            return None;
        }
        if room < list.len() as u64 {
            return Some(vec![OUT_TOO_SHORT]);
        }
        self.list = list;
        Some(vec![0, self.list.len() as u64])
    }

    fn become_cursor(&mut self, answer: Result<AckCursor, Code>) -> Code {
        match answer {
            Ok(cursor) => {
                self.cursor = cursor;
                vec![0]
            }
            Err(code) => code,
        }
    }

    fn cursor(&mut self, operation: &str, numbers: &[u64]) -> Option<Code> {
        Some(match (operation, numbers) {
            ("new", &[]) => self.become_cursor(Ok(AckCursor::new())),
            ("resume", &[x]) => self.become_cursor(Ok(AckCursor::resume(Offset::new(x)))),
            ("with", &[x]) => self.become_cursor(resume_with_ahead(x, self.list.clone())),
            ("ack", &[x]) => {
                let code = bounded(self.cursor.clone().ack_bounded(Offset::new(x), RANGES));
                if code[0] != 0 {
                    return Some(code);
                }
                yes(self.cursor.ack(Offset::new(x)))
            }
            ("bounded", &[x, limit]) => bounded(self.cursor.ack_bounded(Offset::new(x), limit.min(RANGES as u64) as usize)),
            ("commit", &[x]) => yes(self.cursor.commit_up_to(Offset::new(x))),
            ("acked", &[x]) => yes(self.cursor.is_acked(Offset::new(x))),
            ("committed", &[]) => vec![0, self.cursor.committed().get()],
            ("len", &[]) => vec![0, self.cursor.ahead_len()],
            ("runs", &[]) => vec![0, self.cursor.ahead_runs() as u64],
            ("ranges", &[room]) => return self.listed(self.cursor.ahead_ranges().to_vec(), room),
            ("encode", &[at]) => encode_cursor(&self.cursor, &mut self.bytes, at),
            ("decode", &[from, to]) => {
                let part = self.part(from, to)?;
                self.become_cursor(decode_cursor(&self.bytes[part]))
            }
            _ => return None,
        })
    }

    /// The list as attempt pairs.
    fn pairs(&self) -> Vec<(u64, u32)> {
        self.list.iter().map(|&(offset, attempt)| (offset, attempt as u32)).collect()
    }

    fn attempt(&mut self, operation: &str, numbers: &[u64]) -> Option<Code> {
        match (operation, numbers) {
            ("encode", &[at]) => {
                let pairs = self.pairs();
                Some(encode_attempts(&pairs, &mut self.bytes, at))
            }
            ("encode2", &[at]) => {
                let pairs = self.pairs();
                Some(encode_attempts_v2(&pairs, &mut self.bytes, at))
            }
            ("decode", &[from, to, room]) => {
                let part = self.part(from, to)?;
                match decode_attempts(&self.bytes[part]) {
                    Ok(pairs) => self.listed(
                        pairs.into_iter().map(|(offset, attempt)| (offset, attempt.into())).collect(),
                        room,
                    ),
                    Err(code) => (room <= ENTRIES as u64).then_some(code),
                }
            }
            _ => None,
        }
    }

    fn become_table(&mut self, table: LeaseTable) -> Code {
        self.table = table;
        vec![0]
    }

    /// The operations that put another lease table in its place.
    fn table(&mut self, operation: &str, numbers: &[u64]) -> Option<Code> {
        let config = |visibility_nanos, hard_cap_nanos| LeaseConfig {
            visibility_nanos,
            hard_cap_nanos,
        };
        Some(match (operation, numbers) {
            ("new", &[v, c]) => self.become_table(LeaseTable::new(config(v, c))),
            ("millis", &[v, c]) => self.become_table(LeaseTable::new(LeaseConfig::from_millis(v, c))),
            ("default", &[]) => self.become_table(LeaseTable::new(LeaseConfig::default())),
            ("at", &[v, c, generation]) => self.become_table(starting_at(config(v, c), generation)),
            ("resume", &[]) => {
                let mut table = self.table.clone();
                table.resume_attempts(self.pairs());
                if read_table(&table).carried.len() > CARRIED {
                    return Some(vec![TOO_MANY_PAIRS]);
                }
                self.become_table(table)
            }
            _ => return None,
        })
    }

    /// The operations that change the lease table.
    fn lease(&mut self, operation: &str, numbers: &[u64]) -> Option<Code> {
        Some(match (operation, numbers) {
            ("flushed", &[]) => {
                self.table.note_attempts_flushed();
                vec![0]
            }
            ("release", &[x]) => {
                self.table.release_below(Offset::new(x));
                vec![0]
            }
            ("claim", &[x, now]) => self.claim(x, now),
            ("reseal", &[x, from, to]) => yes(self.table.reseal_from_to(Offset::new(x), from, to)),
            ("ack", &[x, generation]) => match self.table.ack(&token(x, generation)) {
                AckOutcome::Acked => vec![0],
                AckOutcome::Fenced => vec![24],
            },
            ("extend", &[x, generation, now]) => match self.table.extend(&token(x, generation), now) {
                ExtendOutcome::Extended(deadline) => vec![0, deadline],
                ExtendOutcome::CapReached => vec![28],
                ExtendOutcome::Fenced => vec![24],
            },
            ("nack", &[x, generation, now, delay]) => match self.table.nack(&token(x, generation), now, delay) {
                NackOutcome::Requeued { deadline } => vec![0, deadline],
                NackOutcome::Fenced => vec![24],
                NackOutcome::Exhausted => vec![25],
            },
            ("defer", &[x, now, delay]) => yes(self.table.defer_redelivery(Offset::new(x), now, delay)),
            ("shift", &[delta]) => {
                self.table.shift_deadlines(delta);
                vec![0]
            }
            _ => return None,
        })
    }

    fn claim(&mut self, x: u64, now: u64) -> Code {
        let mut table = self.table.clone();
        match table.claim(Offset::new(x), now) {
            Claim::InFlight => vec![23],
            Claim::Exhausted => vec![25],
            Claim::Granted { .. } if table.in_flight() > LEASES => vec![27],
            Claim::Granted { token, deliveries } => {
                self.table = table;
                vec![0, token.offset.get(), token.generation, deliveries.into()]
            }
        }
    }

    /// The questions that leave the lease table as it is.
    fn question(&mut self, operation: &str, numbers: &[u64]) -> Option<Code> {
        let wide = |(offset, attempt): (u64, u32)| (offset, u64::from(attempt));
        Some(match (operation, numbers) {
            ("counts", &[]) => return self.listed(self.table.attempt_counts().into_iter().map(wide).collect(), ENTRIES as u64),
            ("all", &[]) => {
                return self.listed(
                    self.table.all_attempt_counts().into_iter().map(wide).collect(),
                    ENTRIES as u64,
                )
            }
            ("redeliveries", &[]) => vec![0, self.table.redeliveries_since_flush().into()],
            ("inflight", &[]) => vec![0, self.table.in_flight() as u64],
            ("claimable", &[x, now]) => yes(self.table.is_claimable(Offset::new(x), now)),
            ("deliveries", &[x, generation]) => option(self.table.deliveries(&token(x, generation)).map(u64::from)),
            ("holds", &[x, generation, now]) => yes(self.table.holds_active(&token(x, generation), now)),
            ("pending", &[x, now]) => option(self.table.pending_redelivery_attempt(Offset::new(x), now).map(u64::from)),
            ("expired", &[now, room]) => {
                return self.listed(
                    self.table.expired(now).into_iter().map(|offset| (offset.get(), 0)).collect(),
                    room,
                )
            }
            _ => return None,
        })
    }

    fn delivery(&mut self, operation: &str, numbers: &[u64]) -> Option<Code> {
        let small = |n: u64| u32::try_from(n).ok();
        Some(match (operation, numbers) {
            ("new", &[limit, opt_in]) if opt_in < 2 => {
                let backoffs: Vec<u64> = self.list.iter().map(|&(a, _)| a).collect();
                let steps = backoffs.len();
                match DeliveryConfig::new(small(limit)?, opt_in == 1, backoffs) {
                    Err(_) => vec![1],
                    Ok(_) if steps > BACKOFFS => vec![TOO_MANY_STEPS],
                    Ok(config) => {
                        self.config = config;
                        vec![0]
                    }
                }
            }
            ("flush", &[k]) => {
                self.config = self.config.clone().with_attempts_flush_redeliveries(small(k)?);
                vec![0]
            }
            ("threshold", &[]) => vec![0, self.config.attempts_flush_redeliveries().into()],
            ("limit", &[]) => vec![0, self.config.max_deliver().into()],
            ("unlimited", &[]) => yes(self.config.allows_unlimited()),
            ("disposition", &[k]) => yes(self.config.disposition(small(k)?) == Disposition::DeadLetter),
            ("backoff", &[k]) => vec![0, self.config.nack_backoff(small(k)?)],
            // the original has no cap: its delay is compared with the cap applied
            ("delay", &[k, cap]) => vec![0, self.config.effective_nack_delay(small(k)?, None).min(cap)],
            ("explicit", &[k, delay, cap]) => {
                vec![0, self.config.effective_nack_delay(small(k)?, Some(delay)).min(cap)]
            }
            _ => return None,
        })
    }
}
