//! The consumer over the original's cursor, lease table and delivery policy. Each call runs down its refusals in their order, then
//! lets the original act. A lease's worker (SPEC.md, "Rights") stands beside the original's table, which has no place for it.
use crate::hours::Hours;
use crate::journal::{read, writes, zeroing, Half, Stored};
use crate::open::{nearest, stretches};
use crate::plan::{falls, plan, Plan};
use crate::rights::{Operation, Rights};
use crate::views::{Details, View};
use ironbus::cursor::{AckCursor, BoundedAck};
use ironbus::delivery::{DeliveryConfig, Disposition};
use ironbus::lease::{AckOutcome, Claim, ExtendOutcome, LeaseConfig, LeaseTable, LeaseToken, NackOutcome};
use ironbus::types::Offset;
use lists::codecs::{attempt_snapshot, attempt_snapshot_v2, decode_attempts, decode_cursor, Code, RANGES};
use lists::state::{read_table, starting_at, Table};
use std::collections::BTreeMap;

const LEASES: usize = 64;
const COUNTS: usize = 128;
const BACKOFFS: usize = 16;
const GENERATIONS: u64 = 4_096;

/// What a start and each restart are handed beside the settings that stay.
#[derive(Clone, Copy)]
pub struct Handed {
    pub rights: Rights,
    /// None: open always.
    pub hours: Option<Hours>,
}

impl Handed {
    /// Refusals 33, 34.
    fn judge(&self) -> Result<(), Code> {
        self.hours.map_or(Ok(()), |hours| hours.judge())
    }
}

#[derive(Clone)]
pub struct Settings {
    delivery: DeliveryConfig,
    lease: LeaseConfig,
    handed: Handed,
}

impl Settings {
    /// Refusals 1 to 3, 33, 34.
    pub fn new(
        limit: u32,
        opt_in: bool,
        threshold: u32,
        lease: LeaseConfig,
        backoffs: &[u64],
        handed: Handed,
    ) -> Result<Settings, Code> {
        let delivery = DeliveryConfig::new(limit, opt_in, backoffs.to_vec()).map_err(|_| vec![1])?;
        if backoffs.len() > BACKOFFS {
            return Err(vec![2]);
        }
        if threshold == 0 {
            return Err(vec![3]);
        }
        handed.judge()?;
        Ok(Settings {
            delivery: delivery.with_attempts_flush_redeliveries(threshold),
            lease,
            handed,
        })
    }

    /// By how much a nack puts off the next delivery: the delay that it was given or the backoff, and at most the hard cap
    /// (SPEC.md, "Nack").
    fn nack_delay(&self, attempt: u32, explicit: Option<u64>) -> u64 {
        let delay = self.delivery.effective_nack_delay(attempt, explicit);
        delay.min(self.lease.hard_cap_nanos)
    }

    /// Refusal 35.
    fn open_at(&self, now: u64) -> Result<(), Code> {
        match self.handed.hours {
            Some(hours) if !hours.is_open(now) => Err(vec![35, hours.opening(now)]),
            _ => Ok(()),
        }
    }

    /// A nack's deadline, moved to the next opening where it falls outside of hours (SPEC.md, "Hours").
    fn nack_deadline(&self, now: u64, delay: u64) -> u64 {
        let deadline = now.saturating_add(delay);
        self.handed.hours.map_or(deadline, |hours| hours.opening(deadline))
    }

    /// Refusals 33, 34. The same, with what a restart is handed.
    pub fn with(&self, handed: Handed) -> Result<Settings, Code> {
        handed.judge()?;
        Ok(Settings { handed, ..self.clone() })
    }
}

#[derive(Clone)]
pub struct Consumer {
    pub cursor: AckCursor,
    table: LeaseTable,
    /// Who claimed the offset last, for each that has a lease.
    holders: BTreeMap<u64, u64>,
    pub ceiling: u64,
    /// The next group's number: 4294967296 where there is none.
    pub group: u64,
    pub block: usize,
    pub half: Half,
    settings: Settings,
}

/// A checkpoint on its way: the consumer as it will be given back, and the writes still to come.
#[derive(Clone)]
pub struct Writing {
    pub after: Consumer,
    pub writes: Vec<(usize, Vec<u8>)>,
}

/// What a claim answers.
pub struct HandOut {
    pub dead: bool,
    pub generation: u64,
    pub count: u32,
}

fn token(offset: u64, generation: u64) -> LeaseToken {
    LeaseToken {
        offset: Offset::new(offset),
        generation,
    }
}

impl Consumer {
    /// Restarts on an area whose length is tested; a fresh consumer is one restarted on a zeroed area.
    pub fn restart(settings: &Settings, area: &[u8]) -> Result<Consumer, Code> {
        let found = read(area)?;
        let (cursor, pairs, ceiling) = match &found.last {
            Some(stored) => {
                let cursor = decode_cursor(&stored.cursor)?;
                (cursor, decode_attempts(&stored.attempts)?, stored.ceiling)
            }
            None => (AckCursor::new(), Vec::new(), 0),
        };
        Ok(Consumer {
            group: found.group,
            block: found.block,
            ..Consumer::resumed(settings, cursor, pairs, ceiling, found.half)
        })
    }

    /// Imports two snapshots, in an area of so many zeroed blocks (SPEC.md, "Import"). Refusals 6 to 12, 13 to 19.
    pub fn import(settings: &Settings, blocks: usize, first: u64, cursor: &[u8], attempts: &[u8]) -> Result<Consumer, Code> {
        let cursor = decode_cursor(cursor)?;
        let pairs = decode_attempts(attempts)?;
        Ok(Consumer::resumed(settings, cursor, pairs, first, Half::new(blocks, 0)))
    }

    /// A consumer without leases that goes on with the nonzero counts of unsettled offsets, from a generation on, and whose next group
    /// is the first of a half.
    fn resumed(settings: &Settings, cursor: AckCursor, pairs: Vec<(u64, u32)>, first: u64, half: Half) -> Consumer {
        let mut table = starting_at(settings.lease, first);
        table.resume_attempts(pairs.into_iter().filter(|&(offset, _)| !cursor.is_acked(Offset::new(offset))));
        Consumer {
            cursor,
            table,
            holders: BTreeMap::new(),
            ceiling: first,
            group: 1,
            block: half.from,
            half,
            settings: settings.clone(),
        }
    }

    /// All that the lease table holds.
    pub fn table(&self) -> Table {
        read_table(&self.table)
    }

    /// Refusals 24, 40: whether the token works for the worker.
    fn owns(&self, worker: u64, token: &LeaseToken) -> Result<(), Code> {
        if self.table.deliveries(token).is_none() {
            return Err(vec![24]);
        }
        if self.holders[&token.offset.get()] != worker {
            return Err(vec![40]);
        }
        Ok(())
    }

    pub fn handed(&self) -> Handed {
        self.settings.handed
    }

    /// The same consumer with other rights and hours.
    pub fn with(&self, handed: Handed) -> Consumer {
        let mut same = self.clone();
        same.settings.handed = handed;
        same
    }

    /// The same consumer with other rights.
    pub fn with_rights(&self, rights: Rights) -> Consumer {
        self.with(Handed { rights, ..self.handed() })
    }

    /// Who claimed the offset's lease.
    pub fn holder(&self, offset: u64) -> Option<u64> {
        self.holders.get(&offset).copied()
    }

    /// Refusals 38, 39. Held is what has a lease whose deadline hasn't come.
    pub fn view(&self, worker: u64, offset: u64, now: u64) -> Result<View, Code> {
        self.settings.handed.rights.ask(worker, Operation::Look)?;
        let supervisor = self.settings.handed.rights.marks(worker);
        if self.cursor.is_acked(Offset::new(offset)) {
            return Ok(View {
                standing: "settled",
                details: supervisor.then(Details::default),
            });
        }
        let table = self.table();
        let lease = table.leases.iter().find(|lease| lease.offset == offset);
        let carried = table.carried.iter().find(|&&(carried, _)| carried == offset);
        let details = match lease {
            Some(lease) => Details {
                attempts: Some(lease.deliveries.into()),
                generation: Some(lease.generation),
                deadline: Some(lease.deadline),
                holder: self.holder(offset),
            },
            None => Details {
                attempts: Some(carried.map_or(0, |&(_, count)| count.into())),
                ..Details::default()
            },
        };
        Ok(View {
            standing: if lease.is_some_and(|lease| now < lease.deadline) {
                "held"
            } else {
                "waiting"
            },
            details: supervisor.then_some(details),
        })
    }

    /// Refusals 38, 39, 21, 22, 35, 23, 25, 26, 27.
    pub fn claim(&mut self, worker: u64, offset: u64, now: u64) -> Result<HandOut, Code> {
        self.settings.handed.rights.ask(worker, Operation::Claim)?;
        let table = self.table();
        let leased = table.leases.iter().any(|lease| lease.offset == offset);
        let counted = table.carried.iter().any(|&(carried, _)| carried == offset);
        let counts = table.leases.len() + table.carried.len();
        if offset == u64::MAX {
            return Err(vec![21]);
        }
        if self.cursor.is_acked(Offset::new(offset)) {
            return Err(vec![22]);
        }
        self.settings.open_at(now)?;
        if !self.table.is_claimable(Offset::new(offset), now) {
            return Err(vec![23]);
        }
        if table.next_generation == u64::MAX {
            return Err(vec![25]);
        }
        let threshold = self.settings.delivery.attempts_flush_redeliveries();
        if table.next_generation >= self.ceiling || self.table.redeliveries_since_flush() >= threshold {
            return Err(vec![26]);
        }
        if (!leased && table.leases.len() >= LEASES) || (!leased && !counted && counts >= COUNTS) {
            return Err(vec![27]);
        }
        match self.table.claim(Offset::new(offset), now) {
            Claim::Granted { token, deliveries } => {
                self.holders.insert(offset, worker);
                Ok(HandOut {
                    dead: self.settings.delivery.disposition(deliveries) == Disposition::DeadLetter,
                    generation: token.generation,
                    count: deliveries,
                })
            }
            Claim::InFlight => Err(vec![23]),
            Claim::Exhausted => Err(vec![25]),
        }
    }

    /// Ack and Term: refusals 38, 39, 24, 40, 29.
    pub fn settle(&mut self, worker: u64, offset: u64, generation: u64) -> Result<(), Code> {
        self.settings.handed.rights.ask(worker, Operation::Settle)?;
        self.owns(worker, &token(offset, generation))?;
        let mut after = self.clone();
        after.holders.remove(&offset);
        if after.table.ack(&token(offset, generation)) == AckOutcome::Fenced {
            return Err(vec![24]);
        }
        if after.cursor.ack_bounded(Offset::new(offset), RANGES) == BoundedAck::Shed {
            return Err(vec![29]);
        }
        *self = after;
        Ok(())
    }

    /// Refusals 38, 39, 24, 40, 25, 26. The answer is the new deadline; the lease stays the worker's.
    pub fn nack(&mut self, worker: u64, offset: u64, generation: u64, now: u64, delay: Option<u64>) -> Result<u64, Code> {
        self.settings.handed.rights.ask(worker, Operation::Nack)?;
        let token = token(offset, generation);
        self.owns(worker, &token)?;
        let Some(attempt) = self.table.deliveries(&token) else {
            return Err(vec![24]);
        };
        let next = self.table().next_generation;
        if next == u64::MAX {
            return Err(vec![25]);
        }
        if next >= self.ceiling {
            return Err(vec![26]);
        }
        let delay = self.settings.nack_delay(attempt, delay);
        let deadline = self.settings.nack_deadline(now, delay);
        match self.table.nack(&token, now, deadline - now) {
            NackOutcome::Requeued { deadline } => Ok(deadline),
            NackOutcome::Fenced => Err(vec![24]),
            NackOutcome::Exhausted => Err(vec![25]),
        }
    }

    /// Refusals 38, 39, 24, 40, 28. The answer is the new deadline.
    pub fn progress(&mut self, worker: u64, offset: u64, generation: u64, now: u64) -> Result<u64, Code> {
        self.settings.handed.rights.ask(worker, Operation::Extend)?;
        self.owns(worker, &token(offset, generation))?;
        match self.table.extend(&token(offset, generation), now) {
            ExtendOutcome::Extended(deadline) => Ok(deadline),
            ExtendOutcome::Fenced => Err(vec![24]),
            ExtendOutcome::CapReached => Err(vec![28]),
        }
    }

    /// Refusals 38, 39; none for what is held below the bound, which is dropped (SPEC.md, "Commit"). The answer is false where
    /// nothing changes.
    pub fn commit(&mut self, worker: u64, bound: u64) -> Result<bool, Code> {
        self.settings.handed.rights.ask(worker, Operation::Commit)?;
        if bound <= self.cursor.committed().get() {
            return Ok(false);
        }
        self.cursor.commit_up_to(Offset::new(bound));
        self.table.release_below(Offset::new(bound));
        self.holders.retain(|&offset, _| offset >= bound);
        Ok(true)
    }

    /// Refusals 38, 39. Carried offsets, by offset; then those whose deadline has come, by deadline, equal deadlines by offset
    /// (SPEC.md, "Waiting list").
    pub fn waiting(&self, worker: u64, now: u64) -> Result<Vec<u64>, Code> {
        self.settings.handed.rights.ask(worker, Operation::Look)?;
        let table = self.table();
        let mut carried: Vec<u64> = table.carried.iter().map(|&(offset, _)| offset).collect();
        carried.sort();
        let come = self.table.expired(now);
        let mut leases = table.leases;
        leases.retain(|lease| come.contains(&Offset::new(lease.offset)));
        leases.sort_by_key(|lease| (lease.deadline, lease.offset));
        carried.extend(leases.iter().map(|lease| lease.offset));
        Ok(carried)
    }

    /// Refusals 38, 39, 32, 20. The unsettled stretches from one offset up to another, where the lent list has that many places
    /// (SPEC.md, "Open offsets").
    pub fn open(&self, worker: u64, from: u64, to: u64, room: usize) -> Result<Vec<(u64, u64)>, Code> {
        self.settings.handed.rights.ask(worker, Operation::Look)?;
        if from > to {
            return Err(vec![32]);
        }
        let stretches = stretches(&self.cursor, from, to);
        if stretches.len() > room {
            return Err(vec![20]);
        }
        Ok(stretches)
    }

    /// Refusals 38, 39. The first unsettled offset that isn't below the given one (SPEC.md, "Open offsets").
    pub fn nearest(&self, worker: u64, offset: u64) -> Result<u64, Code> {
        self.settings.handed.rights.ask(worker, Operation::Look)?;
        Ok(nearest(&self.cursor, offset))
    }

    /// Refusals 38, 39, 36, 37. Which offsets of a list are settled, where the lent list has as many places, and the looks
    /// (SPEC.md, "Plan").
    pub fn plan(&self, worker: u64, room: usize, offsets: &[u64]) -> Result<Plan, Code> {
        self.settings.handed.rights.ask(worker, Operation::Look)?;
        if room != offsets.len() {
            return Err(vec![36]);
        }
        match falls(offsets) {
            Some(place) => Err(vec![37, place as u64]),
            None => Ok(plan(&self.cursor, offsets)),
        }
    }

    /// Refusals 38, 39. The snapshots of the cursor and of all counts, as the original writes them (SPEC.md, "Export").
    pub fn export(&self, worker: u64) -> Result<(Vec<u8>, Vec<u8>), Code> {
        self.settings.handed.rights.ask(worker, Operation::Look)?;
        let mut cursor = Vec::new();
        self.cursor.encode_snapshot(&mut cursor);
        Ok((cursor, attempt_snapshot(&self.table.all_attempt_counts())))
    }

    /// Refusals 38, 39, 31. The counts are stored in version 2 (SPEC.md, "Attempt snapshot"). Where the half in use has no room
    /// for the group, the other half is zeroed, and the group begins it (SPEC.md, "Halves").
    pub fn begin(&self, worker: u64) -> Result<Writing, Code> {
        self.settings.handed.rights.ask(worker, Operation::Checkpoint)?;
        let mut stored = Stored {
            ceiling: self.table().next_generation.saturating_add(GENERATIONS),
            cursor: Vec::new(),
            attempts: attempt_snapshot_v2(&self.table.all_attempt_counts()),
        };
        self.cursor.encode_snapshot(&mut stored.cursor);
        let Ok(group) = u32::try_from(self.group) else {
            return Err(vec![31]);
        };
        let here = writes(&stored, group, self.block);
        let mut after = self.clone();
        after.ceiling = stored.ceiling;
        after.table.note_attempts_flushed();
        after.group += 1;
        after.block = self.block + here.len();
        if after.block <= self.half.end {
            return Ok(Writing { after, writes: here });
        }
        let other = self.half.other();
        after.half = other;
        after.block = other.from + here.len();
        let writes = [zeroing(other), writes(&stored, group, other.from)].concat();
        Ok(Writing { after, writes })
    }
}
