//! The proved libraries, and the only unsafe code of this crate.
//!
//! `crates/server/src/calls.rt` of the repository has the functions with their contracts. They take the state behind `&mut`
//! and require one thing, the invariant of the state that every start, restart and call is proved to leave. So a [`Machine`] is
//! made here by a start, an import or a restart alone, nothing outside this file sees its fields, and the structs below are laid out as
//! the library's, field by field, which `tests` at the end compares. The codecs of snapshots, of `crates/exports/src/lib.rt`,
//! require nothing but slices that don't overlap. Before the first call both libraries are asked whether they are those that this file was
//! written for (`abi.rt` beside each).
//!
//! A question changes nothing, and takes `&self` here, though the library's one function for questions and calls takes `&mut`, and
//! stores numbers back that it has not changed. So the state lies in an `UnsafeCell`, as that of `std::cell::Cell` does, and for the
//! same reason that is sound: no reference to it is ever made outside of a call, a call doesn't call back, and the type isn't `Sync`, so
//! that no other thread is in a call at the time.

use core::cell::UnsafeCell;
use core::mem::size_of;

use crate::abi::{require_library, Compared, ABI, EXPORTS_ABI};
use crate::configuration::{Configuration, LeaseConfig, Settings};
use crate::refusal::Refusal;
use crate::storage::{with_scratch, BLOCK};
use crate::types::{Offset, Stretch};
use crate::workers::WorkerId;

// cursor: AckCursor
#[repr(C)]
struct AckCursor {
    committed: u64,
    starts: [u64; 128],
    ends: [u64; 128],
    runs: usize,
}

// lease: LeaseTable
#[repr(C)]
struct LeaseTable {
    config: LeaseConfig,
    offsets: [u64; 64],
    slots: [u32; 64],
    generations: [u64; 64],
    attempt_starts: [u64; 64],
    deadlines: [u64; 64],
    deliveries: [u32; 64],
    workers: [u32; 64],
    len: usize,
    carried_offsets: [u64; 128],
    carried_counts: [u32; 128],
    carried_len: usize,
    next_generation: u64,
    redeliveries_since_flush: u32,
}

// consumer: NextGroup
#[repr(C)]
struct NextGroup {
    number: u64,
    block: usize,
}

// consumer: Consumer
#[repr(C)]
struct Consumer {
    cursor: AckCursor,
    table: LeaseTable,
    ceiling: u64,
    next: NextGroup,
    area_len: usize,
    settings: Settings,
}

// checkpoint: Writing
#[repr(C)]
struct Writing {
    consumer: Consumer,
    written: usize,
    payload: [u8; 3606],
    cursor_len: usize,
    attempt_len: usize,
}

// machine: Machine. The state: the consumer, or the record of a checkpoint that is being written.
#[repr(C)]
struct State {
    configuration: Configuration,
    phase: u64,
    writing: Writing,
}

/// What a call answers: the number of docs/SPEC.md, 0 where nothing was refused; how many values there are; and the first five.
#[derive(Clone, Copy, Debug, Default, PartialEq, Eq)]
#[repr(C)]
pub(crate) struct Numbers {
    number: u64,
    pub(crate) count: u64,
    pub(crate) values: [u64; 5],
}

/// The calls that can change a consumer, by their numbers in `crates/server/specs/Kinds.antt`. Progress, which is 5, has a function of
/// its own.
#[derive(Clone, Copy, Debug, PartialEq, Eq)]
#[repr(u64)]
pub(crate) enum Ask {
    Claim = 0,
    Ack = 1,
    Term = 2,
    Nack = 3,
    NackAfter = 4,
    Commit = 6,
}

/// The questions, which change nothing, likewise.
#[derive(Clone, Copy, Debug, PartialEq, Eq)]
#[repr(u64)]
pub(crate) enum Look {
    Waiting = 32,
    Committed = 33,
    IsSettled = 34,
    LeaseOf = 35,
    CountOf = 36,
    InFlight = 37,
    IsDue = 38,
    BlocksLeft = 39,
    ViewOf = 40,
    OpenBetween = 41,
    NearestOpen = 42,
}

extern "C" {
    fn ninotskev_abi() -> u64;
    fn ninotskev_abi_size(part: u64) -> u64;
    fn ninotskev_exports_abi() -> u64;
    fn ninotskev_start(
        machine: *mut State,
        numbers: *mut Numbers,
        configuration: *const Configuration,
        area_len: usize,
    );
    fn ninotskev_import(
        machine: *mut State,
        numbers: *mut Numbers,
        configuration: *const Configuration,
        area_len: usize,
        generation: u64,
        cursor: *const u8,
        cursor_len: usize,
        attempts: *const u8,
        attempts_len: usize,
    );
    fn ninotskev_off(machine: *mut State, configuration: *const Configuration);
    fn ninotskev_restart(
        machine: *mut State,
        numbers: *mut Numbers,
        area: *const u8,
        area_len: usize,
    );
    fn ninotskev_ask(
        machine: *mut State,
        numbers: *mut Numbers,
        worker: u64,
        kind: u64,
        a: u64,
        b: u64,
        c: u64,
        d: u64,
        out: *mut u64,
        out_len: usize,
    );
    fn ninotskev_progress(
        machine: *mut State,
        numbers: *mut Numbers,
        worker: u64,
        offset: u64,
        generation: u64,
        now: u64,
    );
    fn ninotskev_plan(
        machine: *mut State,
        numbers: *mut Numbers,
        worker: u64,
        offsets: *const u64,
        offsets_len: usize,
        out: *mut u8,
        out_len: usize,
    );
    fn ninotskev_export(
        machine: *mut State,
        numbers: *mut Numbers,
        worker: u64,
        cursor: *mut u8,
        cursor_len: usize,
        attempts: *mut u8,
        attempts_len: usize,
    );
    fn ninotskev_begin(machine: *mut State, numbers: *mut Numbers, worker: u64);
    fn ninotskev_step(machine: *mut State, numbers: *mut Numbers, area: *mut u8, area_len: usize);
    fn ninotskev_sync_due(machine: *const State) -> u64;
    fn ninotskev_crc32c(bytes: *const u8, len: usize) -> u32;
    fn ninotskev_encode_cursor(
        committed: u64,
        starts: *const u64,
        starts_len: usize,
        ends: *const u64,
        ends_len: usize,
        out: *mut u8,
        out_len: usize,
        at: usize,
    ) -> Numbers;
    fn ninotskev_decode_cursor(
        input: *const u8,
        input_len: usize,
        starts: *mut u64,
        starts_len: usize,
        ends: *mut u64,
        ends_len: usize,
    ) -> Numbers;
    fn ninotskev_encode_attempts(
        offsets: *const u64,
        offsets_len: usize,
        attempts: *const u32,
        attempts_len: usize,
        out: *mut u8,
        out_len: usize,
        at: usize,
    ) -> Numbers;
    fn ninotskev_encode_attempts_v2(
        offsets: *const u64,
        offsets_len: usize,
        attempts: *const u32,
        attempts_len: usize,
        out: *mut u8,
        out_len: usize,
        at: usize,
    ) -> Numbers;
    fn ninotskev_decode_attempts(
        input: *const u8,
        input_len: usize,
        offsets: *mut u64,
        offsets_len: usize,
        attempts: *mut u32,
        attempts_len: usize,
    ) -> Numbers;
}

/// What the linked libraries say of themselves, beside what stands here: the numbers of the interfaces, and the sizes of the structs that
/// cross.
pub(crate) fn compared() -> [Compared; 5] {
    let size = |what, part, here: usize| Compared {
        of: "server",
        what,
        // SAFETY: a number in and a number out, whichever library it is.
        library: unsafe { ninotskev_abi_size(part) },
        here: here as u64,
    };
    let number = |of, library, here| Compared {
        of,
        what: "the number of the interface",
        library,
        here,
    };
    // SAFETY: likewise.
    let (server, exports) = unsafe { (ninotskev_abi(), ninotskev_exports_abi()) };
    [
        number("server", server, ABI),
        size("the size of the machine", 0, size_of::<State>()),
        size(
            "the size of its configuration",
            1,
            size_of::<Configuration>(),
        ),
        size("the size of an answer", 2, size_of::<Numbers>()),
        number("exports", exports, EXPORTS_ABI),
    ]
}

/// The check of bytes: CRC32C.
pub(crate) fn crc32c(bytes: &[u8]) -> u32 {
    require_library();
    // SAFETY: a slice, of which nothing is required.
    unsafe { ninotskev_crc32c(bytes.as_ptr(), bytes.len()) }
}

/// Writes a cursor snapshot from the start of the bytes: 10 to 12, 20.
pub(crate) fn encode_cursor(
    committed: u64,
    starts: &[u64],
    ends: &[u64],
    out: &mut [u8],
) -> Result<(), Refusal> {
    require_library();
    let (s, e) = (starts.as_ptr(), ends.as_ptr());
    // SAFETY: as for `encode_attempts`.
    let numbers = unsafe {
        ninotskev_encode_cursor(
            committed,
            s,
            starts.len(),
            e,
            ends.len(),
            out.as_mut_ptr(),
            out.len(),
            0,
        )
    };
    numbers.check()
}

/// Reads a cursor snapshot into two columns: the committed offset and how many ranges there are, or 6 to 12, 20.
pub(crate) fn decode_cursor(
    input: &[u8],
    starts: &mut [u64],
    ends: &mut [u64],
) -> Result<[u64; 2], Refusal> {
    require_library();
    let (s, e) = (starts.as_mut_ptr(), ends.as_mut_ptr());
    // SAFETY: as for `encode_attempts`.
    let numbers = unsafe {
        ninotskev_decode_cursor(input.as_ptr(), input.len(), s, starts.len(), e, ends.len())
    };
    numbers.check()?;
    Ok([numbers.values[0], numbers.values[1]])
}

/// Writes an attempt snapshot of version 1 from the start of the bytes: 19, 20.
pub(crate) fn encode_attempts(
    offsets: &[u64],
    attempts: &[u32],
    out: &mut [u8],
) -> Result<(), Refusal> {
    require_library();
    let (o, a) = (offsets.as_ptr(), attempts.as_ptr());
    // SAFETY: slices that don't overlap, of which nothing else is required.
    let numbers = unsafe {
        ninotskev_encode_attempts(
            o,
            offsets.len(),
            a,
            attempts.len(),
            out.as_mut_ptr(),
            out.len(),
            0,
        )
    };
    numbers.check()
}

/// Likewise of version 2.
pub(crate) fn encode_attempts_v2(
    offsets: &[u64],
    attempts: &[u32],
    out: &mut [u8],
) -> Result<(), Refusal> {
    require_library();
    let (o, a) = (offsets.as_ptr(), attempts.as_ptr());
    // SAFETY: as for `encode_attempts`.
    let numbers = unsafe {
        ninotskev_encode_attempts_v2(
            o,
            offsets.len(),
            a,
            attempts.len(),
            out.as_mut_ptr(),
            out.len(),
            0,
        )
    };
    numbers.check()
}

/// Reads an attempt snapshot of either version into two columns: how many pairs there are, or 13 to 20.
pub(crate) fn decode_attempts(
    input: &[u8],
    offsets: &mut [u64],
    attempts: &mut [u32],
) -> Result<u64, Refusal> {
    require_library();
    let (o, a) = (offsets.as_mut_ptr(), attempts.as_mut_ptr());
    // SAFETY: as for `encode_attempts`.
    let numbers = unsafe {
        ninotskev_decode_attempts(
            input.as_ptr(),
            input.len(),
            o,
            offsets.len(),
            a,
            attempts.len(),
        )
    };
    numbers.check()?;
    Ok(numbers.values[0])
}

/// The block that a step wrote, whether it was the last, and whether a sync is due after it.
#[derive(Clone, Copy)]
pub(crate) struct Wrote {
    pub(crate) block: usize,
    pub(crate) last: bool,
    pub(crate) sync: bool,
}

impl Numbers {
    // The refusal, where it is one. The values are read where the library put them, one by one: a copy of them all right behind a
    // call waits for the library's stores.
    #[inline]
    fn check(&self) -> Result<(), Refusal> {
        if self.number == 0 {
            return Ok(());
        }
        Err(self.refusal())
    }

    #[cold]
    fn refusal(&self) -> Refusal {
        Refusal::from_number(self.number, [self.values[0], self.values[1]])
            .expect("the library answers the refusals' numbers")
    }
}

/// The state in its place, where it stays.
pub(crate) struct Machine(Box<UnsafeCell<State>>);

// Makes a call on the consumer.
//
// SAFETY: the machine was made by a start, an import or an off, and changed by calls alone, so that it meets the invariant; nobody else reads or
// writes it or the lists during the call, and none of them overlap.
#[inline]
unsafe fn call(
    machine: *mut State,
    worker: WorkerId,
    kind: u64,
    [a, b, c, d]: [u64; 4],
    out: &mut [u64],
    numbers: &mut Numbers,
) {
    ninotskev_ask(
        machine,
        numbers,
        worker.get(),
        kind,
        a,
        b,
        c,
        d,
        out.as_mut_ptr(),
        out.len(),
    );
}

impl Machine {
    // Memory for a machine, once the library is known to be the right one: an off or a start that isn't refused makes one of it.
    fn blank() -> Machine {
        require_library();
        // SAFETY: every field is a number, a bool or an array of numbers, for which zeros are a value.
        Machine(unsafe { Box::<UnsafeCell<State>>::new_zeroed().assume_init() })
    }

    /// A fresh machine for so many zeroed bytes: 1 to 3, 33, 34, 4.
    pub(crate) fn start(
        configuration: &Configuration,
        area_len: usize,
    ) -> Result<Machine, Refusal> {
        let machine = Machine::blank();
        let mut numbers = Numbers::default();
        // SAFETY: three places of the library's layout, of which nothing is required.
        unsafe { ninotskev_start(machine.0.get(), &mut numbers, configuration, area_len) };
        numbers.check()?;
        Ok(machine)
    }

    /// A machine for so many zeroed bytes that begins with the snapshots of another server and a first generation: 1 to 3,
    /// 33, 34, 4, 6 to 19.
    pub(crate) fn import(
        configuration: &Configuration,
        area_len: usize,
        generation: u64,
        cursor: &[u8],
        attempts: &[u8],
    ) -> Result<Machine, Refusal> {
        let machine = Machine::blank();
        let mut numbers = Numbers::default();
        // SAFETY: places and slices that don't overlap, of the library's layout, of which nothing is required.
        unsafe {
            ninotskev_import(
                machine.0.get(),
                &mut numbers,
                configuration,
                area_len,
                generation,
                cursor.as_ptr(),
                cursor.len(),
                attempts.as_ptr(),
                attempts.len(),
            );
        }
        numbers.check()?;
        Ok(machine)
    }

    /// The machine of what a journal has: 1 to 3, 33, 34, 4 to 19.
    pub(crate) fn restart(configuration: &Configuration, area: &[u8]) -> Result<Machine, Refusal> {
        let machine = Machine::blank();
        let mut numbers = Numbers::default();
        let place = machine.0.get();
        // SAFETY: places and a slice that don't overlap, of the library's layout. An off requires nothing, and the machine that it
        // leaves meets the invariant.
        unsafe {
            ninotskev_off(place, configuration);
            ninotskev_restart(place, &mut numbers, area.as_ptr(), area.len());
        }
        numbers.check()?;
        Ok(machine)
    }

    // A question of the consumer. Whoever asks has a consumer, and no record is out.
    #[inline]
    fn question(
        &self,
        worker: WorkerId,
        look: Look,
        given: [u64; 4],
        out: &mut [u64],
        numbers: &mut Numbers,
    ) {
        // SAFETY: as for `call`: there is no reference into the cell, the library doesn't call back, and no other thread has this
        // value, which isn't `Sync`.
        unsafe { call(self.0.get(), worker, look as u64, given, out, numbers) };
    }

    /// A question that numbers answer.
    #[inline]
    pub(crate) fn look(
        &self,
        worker: WorkerId,
        look: Look,
        given: [u64; 4],
        numbers: &mut Numbers,
    ) -> Result<(), Refusal> {
        self.question(worker, look, given, &mut [], numbers);
        numbers.check()
    }

    /// A call on the consumer that answers numbers.
    #[inline]
    pub(crate) fn ask(
        &mut self,
        worker: WorkerId,
        ask: Ask,
        given: [u64; 4],
        numbers: &mut Numbers,
    ) -> Result<(), Refusal> {
        // SAFETY: as for `call`, and this value is the caller's alone.
        unsafe { call(self.0.get(), worker, ask as u64, given, &mut [], numbers) };
        numbers.check()
    }

    /// Extends a lease: its new deadline, or 38, 39, 24, 40 or 28.
    #[inline]
    pub(crate) fn progress(
        &mut self,
        worker: WorkerId,
        offset: u64,
        generation: u64,
        now: u64,
    ) -> Result<u64, Refusal> {
        let mut numbers = Numbers::default();
        let machine = self.0.get();
        // SAFETY: as for `ask`.
        unsafe { ninotskev_progress(machine, &mut numbers, worker.get(), offset, generation, now) };
        numbers.check()?;
        Ok(numbers.values[0])
    }

    /// The waiting list at a clock, into a list: how many there are, or 38, 39 or 20.
    #[inline]
    pub(crate) fn waiting(
        &self,
        worker: WorkerId,
        now: u64,
        out: &mut [Offset],
    ) -> Result<u64, Refusal> {
        // SAFETY: an offset is laid out as its number.
        let places =
            unsafe { core::slice::from_raw_parts_mut(out.as_mut_ptr().cast::<u64>(), out.len()) };
        let mut numbers = Numbers::default();
        self.question(worker, Look::Waiting, [now, 0, 0, 0], places, &mut numbers);
        numbers.check()?;
        Ok(numbers.count)
    }

    /// The open stretches between two numbers, into a list: how many there are, or 38, 39, 32 or 20.
    #[inline]
    pub(crate) fn open_between(
        &self,
        worker: WorkerId,
        a: Offset,
        b: Offset,
        out: &mut [Stretch],
    ) -> Result<u64, Refusal> {
        // SAFETY: a stretch is laid out as its two numbers, start and end. A slice has at most `isize::MAX` bytes, so that twice its
        // length is a length.
        let places = unsafe {
            core::slice::from_raw_parts_mut(out.as_mut_ptr().cast::<u64>(), 2 * out.len())
        };
        let mut numbers = Numbers::default();
        let bounds = [a.get(), b.get(), 0, 0];
        self.question(worker, Look::OpenBetween, bounds, places, &mut numbers);
        numbers.check()?;
        Ok(numbers.count / 2)
    }

    /// Which offsets of a list are settled, into a list: how many looks that took, or 38, 39, 36 or 37.
    #[inline]
    pub(crate) fn plan(
        &self,
        worker: WorkerId,
        offsets: &[Offset],
        out: &mut [u8],
    ) -> Result<u64, Refusal> {
        let mut numbers = Numbers::default();
        // SAFETY: as for `question`; an offset is laid out as its number.
        unsafe {
            ninotskev_plan(
                self.0.get(),
                &mut numbers,
                worker.get(),
                offsets.as_ptr().cast::<u64>(),
                offsets.len(),
                out.as_mut_ptr(),
                out.len(),
            );
        }
        numbers.check()?;
        Ok(numbers.values[0])
    }

    /// Both snapshots, each into bytes: how long they are, or 38, 39 or 20.
    pub(crate) fn export(
        &self,
        worker: WorkerId,
        cursor: &mut [u8],
        attempts: &mut [u8],
    ) -> Result<(u64, u64), Refusal> {
        let mut numbers = Numbers::default();
        // SAFETY: as for `question`.
        unsafe {
            ninotskev_export(
                self.0.get(),
                &mut numbers,
                worker.get(),
                cursor.as_mut_ptr(),
                cursor.len(),
                attempts.as_mut_ptr(),
                attempts.len(),
            );
        }
        numbers.check()?;
        Ok((numbers.values[0], numbers.values[1]))
    }

    /// The ceiling: every generation that may be given before the next checkpoint lies below it.
    pub(crate) fn ceiling(&self) -> u64 {
        // SAFETY: nobody is in a call on it, as for `question`, and no reference is made.
        unsafe { (*self.0.get()).writing.consumer.ceiling }
    }

    /// Takes the consumer into a record: how many blocks are to be written, or 38, 39 or 31.
    #[inline]
    pub(crate) fn begin(&mut self, worker: WorkerId) -> Result<u64, Refusal> {
        let mut numbers = Numbers::default();
        // SAFETY: as for `ask`.
        unsafe { ninotskev_begin(self.0.get(), &mut numbers, worker.get()) };
        numbers.check()?;
        Ok(numbers.values[0])
    }

    /// Makes the next block of a journal of so many bytes, which the machine was started on, and hands it on: which one it is, and what it
    /// has. A step reads no byte of the area that it is lent, only its length (`length-alone` in docs/THEOREMS.md): so that is scratch memory.
    #[inline]
    pub(crate) fn step<T>(
        &mut self,
        area_len: usize,
        write: impl FnOnce(Wrote, &[u8; BLOCK]) -> T,
    ) -> T {
        with_scratch(area_len, |area| {
            let wrote = self.step_on(area);
            let (blocks, _) = area.as_chunks();
            let bytes = &blocks[wrote.block];
            write(wrote, bytes)
        })
    }

    // Writes the next block into an area of that length.
    fn step_on(&mut self, area: &mut [u8]) -> Wrote {
        let mut numbers = Numbers::default();
        // SAFETY: as for `ask`; this one only reads.
        let due = unsafe { ninotskev_sync_due(self.0.get()) };
        // SAFETY: as for `ask`.
        unsafe { ninotskev_step(self.0.get(), &mut numbers, area.as_mut_ptr(), area.len()) };
        numbers
            .check()
            .expect("a step on its own area is not refused");
        Wrote {
            block: usize::try_from(numbers.values[0]).expect("a block is below 128"),
            last: numbers.values[1] != 0,
            sync: due != 0,
        }
    }
}

#[cfg(test)]
mod tests {
    use super::*;
    use crate::configuration::DeliveryConfig;
    use crate::hours::Hours;
    use crate::workers::Rights;
    use std::mem::offset_of;

    // A machine with bytes behind it that nobody may touch.
    #[repr(C)]
    struct Guarded {
        machine: State,
        machine_end: [u8; 64],
        numbers: Numbers,
        numbers_end: [u8; 64],
    }

    impl Guarded {
        fn new() -> Box<Guarded> {
            // SAFETY: as for `Machine::blank`.
            let mut guarded = unsafe { Box::<Guarded>::new_zeroed().assume_init() };
            guarded.machine_end = [0xa5; 64];
            guarded.numbers_end = [0xa5; 64];
            guarded
        }

        fn start(&mut self, configuration: &Configuration, area_len: usize) {
            // SAFETY: as for `Machine::start`.
            unsafe {
                ninotskev_start(
                    &mut self.machine,
                    &mut self.numbers,
                    configuration,
                    area_len,
                )
            };
            self.untouched();
        }

        fn restart(&mut self, area: &[u8]) {
            // SAFETY: as for `Machine::restart`; the machine was started.
            unsafe {
                ninotskev_restart(
                    &mut self.machine,
                    &mut self.numbers,
                    area.as_ptr(),
                    area.len(),
                )
            };
            self.untouched();
        }

        fn untouched(&self) {
            assert_eq!(self.machine_end, [0xa5; 64]);
            assert_eq!(self.numbers_end, [0xa5; 64]);
        }

        // By worker 0.
        fn ask(&mut self, kind: u64, given: [u64; 4], out: &mut [u64]) {
            self.ask_by(0, kind, given, out);
        }

        fn ask_by(&mut self, worker: u64, kind: u64, [a, b, c, d]: [u64; 4], out: &mut [u64]) {
            // SAFETY: as for `call`; the machine was started.
            unsafe {
                ninotskev_ask(
                    &mut self.machine,
                    &mut self.numbers,
                    worker,
                    kind,
                    a,
                    b,
                    c,
                    d,
                    out.as_mut_ptr(),
                    out.len(),
                );
            }
            self.untouched();
        }

        fn progress(&mut self, [offset, generation, now]: [u64; 3]) {
            // SAFETY: as for `Machine::progress`; the machine was started.
            unsafe {
                ninotskev_progress(
                    &mut self.machine,
                    &mut self.numbers,
                    0,
                    offset,
                    generation,
                    now,
                );
            }
            self.untouched();
        }

        fn plan(&mut self, worker: u64, offsets: &[u64], out: &mut [u8]) {
            // SAFETY: as for `Machine::plan`; the machine was started.
            unsafe {
                ninotskev_plan(
                    &mut self.machine,
                    &mut self.numbers,
                    worker,
                    offsets.as_ptr(),
                    offsets.len(),
                    out.as_mut_ptr(),
                    out.len(),
                );
            }
            self.untouched();
        }

        fn begin(&mut self) {
            // SAFETY: as for `Machine::begin`; the machine was started.
            unsafe { ninotskev_begin(&mut self.machine, &mut self.numbers, 0) };
            self.untouched();
        }

        fn step(&mut self, area: &mut [u8]) {
            // SAFETY: as for `Machine::step`; the machine was started.
            unsafe {
                ninotskev_step(
                    &mut self.machine,
                    &mut self.numbers,
                    area.as_mut_ptr(),
                    area.len(),
                )
            };
            self.untouched();
        }
    }

    // The values from the first on; those behind are 0.
    fn code<const N: usize>(number: u64, count: u64, first: [u64; N]) -> Numbers {
        let mut values = [0; 5];
        values[..N].copy_from_slice(&first);
        Numbers {
            number,
            count,
            values,
        }
    }

    #[test]
    fn sizes_are_those_of_the_fields() {
        assert_eq!(size_of::<Configuration>(), 152 + 8 + 72 + 16);
        assert_eq!(size_of::<AckCursor>(), 8 + 1024 + 1024 + 8);
        assert_eq!(
            size_of::<LeaseTable>(),
            16 + 4 * 512 + 3 * 256 + 8 + 1024 + 512 + 8 + 8 + 8
        );
        assert_eq!(offset_of!(State, writing), 248 + 8);
        assert_eq!(size_of::<Numbers>(), 56);
    }

    // Each field that the library fills is read here under its name, and nothing behind the structs is touched: the last field of
    // the machine, `attempt_len`, is where the library puts it.
    #[test]
    fn the_layout_is_the_librarys() {
        let mut guarded = Guarded::new();
        let mut area = [0; 512 * 20];
        starts(&mut guarded, area.len());
        checkpoints(&mut guarded, &mut area);
        claims_and_acks(&mut guarded);
        restarts(&mut guarded, &mut area);
    }

    fn starts(guarded: &mut Guarded, area_len: usize) {
        let configuration = Configuration {
            settings: Settings {
                delivery: DeliveryConfig::new(3, true, &[11, 12])
                    .with_attempts_flush_redeliveries(7),
                rights: [127, 1, 2, 3, 4, 5, 6, 255].map(Rights::from_bits),
                hours: Hours::from_masks([1, 2, 3, 4, 5, 6, 7], 11),
            },
            lease: LeaseConfig {
                visibility_nanos: 100,
                hard_cap_nanos: 1000,
            },
        };
        guarded.start(&configuration, area_len);
        assert_eq!(guarded.numbers, code(0, 0, [0; 4]));
        assert_eq!(guarded.machine.configuration, configuration);
        assert_eq!(guarded.machine.phase, 0);
        let consumer = &guarded.machine.writing.consumer;
        assert_eq!(consumer.settings, configuration.settings);
        assert_eq!(consumer.table.config, configuration.lease);
        assert_eq!(consumer.area_len, area_len);
        assert_eq!(consumer.next.number, 1);
    }

    fn checkpoints(guarded: &mut Guarded, area: &mut [u8]) {
        guarded.begin();
        assert_eq!(guarded.numbers, code(0, 1, [2, 0, 0, 0]));
        assert_eq!(guarded.machine.phase, 1);
        assert_eq!(guarded.machine.writing.cursor_len, 13);
        assert_eq!(guarded.machine.writing.attempt_len, 9);
        assert_eq!(guarded.machine.writing.payload[0], 1);
        assert_eq!(guarded.machine.writing.payload[13], 2);
        guarded.step(area);
        assert_eq!(guarded.numbers, code(0, 2, [1, 0, 0, 0]));
        assert_eq!(guarded.machine.writing.written, 1);
        guarded.step(area);
        assert_eq!(guarded.numbers, code(0, 2, [0, 1, 0, 0]));
        assert_eq!(guarded.machine.phase, 0);
        assert_eq!(guarded.machine.writing.consumer.ceiling, 4096);
        assert_eq!(guarded.machine.writing.consumer.next.block, 2);
    }

    fn claims_and_acks(guarded: &mut Guarded) {
        for (worker, offset) in [(0, 5), (7, 9)] {
            guarded.ask_by(worker, Ask::Claim as u64, [offset, 50, 0, 0], &mut []);
        }
        assert_eq!(guarded.numbers, code(0, 3, [1, 1, 0, 0]));
        let table = &guarded.machine.writing.consumer.table;
        assert_eq!((table.len, table.next_generation), (2, 2));
        assert_eq!(table.offsets[..2], [5, 9]);
        assert_eq!(table.slots[..3], [0, 1, 2]);
        assert_eq!((table.generations[1], table.attempt_starts[1]), (1, 50));
        assert_eq!((table.deadlines[1], table.deliveries[1]), (150, 1));
        assert_eq!(table.workers[..2], [0, 7]);
        // Outside the hours: Monday has its first half hour alone, and Tuesday its second.
        guarded.ask(Ask::Claim as u64, [6, Hours::HALF_HOUR - 11, 0, 0], &mut []);
        let tuesday = 49 * Hours::HALF_HOUR - 11;
        assert_eq!(guarded.numbers, code(35, 1, [tuesday]));
        // What is shown to a supervisor, and to another who looks.
        guarded.ask_by(7, Look::ViewOf as u64, [9, 149, 0, 0], &mut []);
        assert_eq!(guarded.numbers, code(0, 5, [1, 1, 1, 150, 7]));
        guarded.ask(Look::ViewOf as u64, [9, 150, 0, 0], &mut []);
        assert_eq!(guarded.numbers, code(0, 1, [2]));
        // Another's token, and one's own.
        guarded.ask(Ask::Ack as u64, [9, 1, 0, 0], &mut []);
        assert_eq!(guarded.numbers, code(40, 0, [0; 4]));
        guarded.ask_by(7, Ask::Ack as u64, [9, 1, 0, 0], &mut []);
        let cursor = &guarded.machine.writing.consumer.cursor;
        assert_eq!((cursor.committed, cursor.runs), (0, 1));
        assert_eq!((cursor.starts[0], cursor.ends[0]), (9, 10));
        // A plan: in front of the range, in it, and at its end, where no range is left.
        let mut bytes = [7; 4];
        guarded.plan(0, &[8, 9, 9, 10], &mut bytes);
        assert_eq!(guarded.numbers, code(0, 5, [4, 0, 1, 1, 0]));
        assert_eq!(bytes, [0, 1, 1, 0]);
    }

    // With a checkpoint of the claim that is left.
    fn restarts(guarded: &mut Guarded, area: &mut [u8]) {
        let mut out = [0; 4];
        guarded.begin();
        assert_eq!(guarded.machine.writing.cursor_len, 13 + 16);
        assert_eq!(guarded.machine.writing.attempt_len, 9 + 12);
        // While a record is out, the consumer can't be called.
        guarded.ask(Ask::Claim as u64, [6, 50, 0, 0], &mut out);
        assert_eq!(guarded.numbers, code(255, 0, [0; 4]));
        guarded.step(area);
        guarded.step(area);
        guarded.restart(area);
        assert_eq!(guarded.numbers, code(0, 0, [0; 4]));
        let table = &guarded.machine.writing.consumer.table;
        assert_eq!((table.carried_len, table.carried_offsets[0]), (1, 5));
        assert_eq!((table.carried_counts[0], table.next_generation), (1, 4098));
        assert_eq!(table.redeliveries_since_flush, 0);
        guarded.ask(Look::Waiting as u64, [50, 0, 0, 0], &mut out);
        assert_eq!(guarded.numbers, code(0, 1, [5, 0, 0, 0]));
        assert_eq!(out[0], 5);
    }

    #[test]
    fn a_number_that_is_no_call_is_refused() {
        let mut guarded = Guarded::new();
        guarded.start(&Configuration::default(), 512 * 20);
        for kind in [7, 15, 16, 17, 18, 19, 31, 43, u64::MAX] {
            guarded.ask(kind, [0; 4], &mut []);
            assert_eq!(guarded.numbers, code(255, 0, [0; 4]));
        }
    }

    #[test]
    fn a_consumer_is_not_asked_while_a_record_is_out() {
        let mut guarded = Guarded::new();
        guarded.start(&Configuration::default(), 512 * 20);
        guarded.begin();
        let mut list = [7; 2];
        for kind in [
            Ask::Claim as u64,
            Ask::Commit as u64,
            Look::Waiting as u64,
            Look::Committed as u64,
        ] {
            guarded.ask(kind, [5, 0, 0, 0], &mut list);
            assert_eq!(guarded.numbers, code(255, 0, [0; 4]));
        }
        assert_eq!(list, [7; 2]);
        guarded.progress([5, 0, 0]);
        assert_eq!(guarded.numbers, code(255, 0, [0; 4]));
        let mut bytes = [7; 1];
        guarded.plan(0, &[5], &mut bytes);
        assert_eq!((guarded.numbers, bytes), (code(255, 0, [0; 4]), [7; 1]));
        guarded.begin();
        assert_eq!(guarded.numbers, code(255, 0, [0; 4]));
        assert_eq!(guarded.machine.phase, 1);
    }

    // Two machines with one lease, made by the same calls at clock 50: visibility 100, hard cap 250.
    fn leased() -> [Box<Guarded>; 2] {
        let configuration = Configuration {
            lease: LeaseConfig {
                visibility_nanos: 100,
                hard_cap_nanos: 250,
            },
            ..Configuration::default()
        };
        [(); 2].map(|()| {
            let mut guarded = Guarded::new();
            let mut area = [0; 512 * 20];
            guarded.start(&configuration, area.len());
            guarded.begin();
            guarded.step(&mut area);
            guarded.step(&mut area);
            guarded.ask(Ask::Claim as u64, [5, 50, 0, 0], &mut []);
            assert_eq!(guarded.numbers, code(0, 3, [0, 1, 0, 0]));
            guarded
        })
    }

    // The numbers of the lease, which is the only one.
    fn lease(guarded: &Guarded) -> [u64; 4] {
        let table = &guarded.machine.writing.consumer.table;
        assert_eq!((table.len, table.offsets[0]), (1, 5));
        let deliveries = u64::from(table.deliveries[0]);
        let (generation, deadline) = (table.generations[0], table.deadlines[0]);
        [generation, table.attempt_starts[0], deadline, deliveries]
    }

    #[test]
    fn progress_by_itself_is_call_5() {
        let [mut one, mut other] = leased();
        for (numbers, answer, deadline) in [
            ([5, 0, 120], code(0, 1, [220, 0, 0, 0]), 220),
            // As the hard cap has it.
            ([5, 0, 260], code(0, 1, [300, 0, 0, 0]), 300),
            ([5, 0, 300], code(28, 0, [0; 4]), 300),
            ([5, 1, 260], code(24, 0, [0; 4]), 300),
            ([0, 5, 260], code(24, 0, [0; 4]), 300),
            // A clock that runs backwards.
            ([5, 0, 60], code(0, 1, [160, 0, 0, 0]), 160),
        ] {
            one.progress(numbers);
            let [offset, generation, now] = numbers;
            other.ask(5, [offset, generation, now, 0], &mut []);
            assert_eq!((one.numbers, other.numbers), (answer, answer));
            assert_eq!(lease(&one), [0, 50, deadline, 1]);
            assert_eq!(lease(&other), lease(&one));
        }
    }

    #[test]
    fn nothing_is_stepped_where_no_record_is_out() {
        let mut guarded = Guarded::new();
        guarded.start(&Configuration::default(), 512 * 20);
        let mut area = [7; 512 * 20];
        guarded.step(&mut area);
        assert_eq!(guarded.numbers, code(255, 0, [0; 4]));
        assert_eq!(area, [7; 512 * 20]);
        assert_eq!(guarded.machine.phase, 0);
    }

    #[test]
    fn a_step_on_another_area_is_refused() {
        let mut guarded = Guarded::new();
        guarded.start(&Configuration::default(), 512 * 20);
        guarded.begin();
        let mut area = [7; 512];
        guarded.step(&mut area);
        assert_eq!(guarded.numbers, code(4, 0, [0; 4]));
        assert_eq!(area, [7; 512]);
        assert_eq!(guarded.machine.phase, 1);
    }

    #[test]
    fn a_refused_start_keeps_the_machine() {
        let mut guarded = Guarded::new();
        guarded.start(&Configuration::default(), 512 * 20);
        guarded.begin();
        assert_eq!(guarded.numbers, code(0, 1, [2, 0, 0, 0]));
        guarded.start(&Configuration::default(), 511);
        assert_eq!(guarded.numbers, code(4, 0, [0; 4]));
        assert_eq!(guarded.machine.phase, 1);
        // What was begun goes on.
        let mut area = [0; 512 * 20];
        guarded.step(&mut area);
        assert_eq!(guarded.numbers, code(0, 2, [1, 0, 0, 0]));
    }
}
