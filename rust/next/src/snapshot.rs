//! Snapshots, as bytes that clinics exchange: which offsets are settled, and how often each was handed out.

use crate::ffi;
use crate::refusal::Refusal;
use crate::types::{Offset, Stretch};

/// The most ranges of a cursor snapshot.
pub const MAX_RANGES: usize = 128;

/// The most pairs of an attempt snapshot.
pub const MAX_PAIRS: usize = 128;

/// Which offsets are settled: all below `committed`, and the ranges ahead of it. As bytes it is the cursor snapshot, byte for byte what
/// IronBus writes.
///
/// ```
/// use ironbus_delivery_state::{CursorSnapshot, Offset, Stretch};
///
/// let settled = CursorSnapshot {
///     committed: Offset::new(7),
///     ahead: vec![Stretch::new(9, 12), Stretch::new(20, 21)],
/// };
/// let bytes = settled.encode()?;
/// assert_eq!(CursorSnapshot::decode(&bytes)?, settled);
/// # Ok::<(), ironbus_delivery_state::Refusal>(())
/// ```
#[derive(Clone, Debug, Default, PartialEq, Eq, Hash)]
pub struct CursorSnapshot {
    /// Every offset below it is settled.
    pub committed: Offset,
    /// What else is settled: none empty, rising, each start above the end before it, the first above `committed`; at most
    /// [`MAX_RANGES`].
    pub ahead: Vec<Stretch>,
}

impl CursorSnapshot {
    /// Its bytes.
    ///
    /// # Errors
    /// [`EmptyRange`](Refusal::EmptyRange) (10),
    /// [`NotSortedDisjointAndAboveCommitted`](Refusal::NotSortedDisjointAndAboveCommitted) (11) and
    /// [`TooManyRuns`](Refusal::TooManyRuns) (12) where there are over [`MAX_RANGES`].
    ///
    /// # Panics
    /// Where the linked library is another one: see [`check_library`](crate::check_library).
    pub fn encode(&self) -> Result<Vec<u8>, Refusal> {
        let ranges = self.ahead.iter();
        let (starts, ends): (Vec<u64>, Vec<u64>) = ranges
            .map(|range| (range.start.get(), range.end.get()))
            .unzip();
        let mut bytes = vec![0; 13 + 16 * self.ahead.len()];
        ffi::encode_cursor(self.committed.get(), &starts, &ends, &mut bytes)?;
        Ok(bytes)
    }

    /// What is settled by the bytes of a cursor snapshot.
    ///
    /// # Errors
    /// [`CursorTruncated`](Refusal::CursorTruncated) (6), [`CursorBadLength`](Refusal::CursorBadLength) (7),
    /// [`CursorUnsupportedVersion`](Refusal::CursorUnsupportedVersion) (8), [`CursorBadCrc`](Refusal::CursorBadCrc) (9),
    /// [`EmptyRange`](Refusal::EmptyRange) (10),
    /// [`NotSortedDisjointAndAboveCommitted`](Refusal::NotSortedDisjointAndAboveCommitted) (11) and
    /// [`TooManyRuns`](Refusal::TooManyRuns) (12).
    ///
    /// # Panics
    /// Where the linked library is another one: see [`check_library`](crate::check_library).
    pub fn decode(bytes: &[u8]) -> Result<CursorSnapshot, Refusal> {
        let mut starts = [0; MAX_RANGES];
        let mut ends = [0; MAX_RANGES];
        let [committed, ranges] = ffi::decode_cursor(bytes, &mut starts, &mut ends)?;
        let ranges = usize::try_from(ranges).expect("there are at most 128 ranges");
        let ahead = starts.into_iter().zip(ends).take(ranges);
        Ok(CursorSnapshot {
            committed: Offset::new(committed),
            ahead: ahead.map(|(start, end)| Stretch::new(start, end)).collect(),
        })
    }
}

/// What one server hands to another: which messages are settled, and how often the others were handed out. Tokens and leases are not in
/// it. [`Consumer::export`](crate::Consumer::export) gives it, and [`NewJournal::import`](crate::NewJournal::import) takes it.
#[derive(Clone, Debug, PartialEq, Eq, Hash)]
pub struct Snapshots {
    /// The bytes of a cursor snapshot: [`CursorSnapshot`].
    pub cursor: Vec<u8>,
    /// The bytes of an attempt snapshot, of version 1 or 2: [`encode_attempt_snapshot`], [`encode_attempt_snapshot_v2`].
    pub attempts: Vec<u8>,
}

impl Snapshots {
    /// Both as bytes, the attempts in version 1, as IronBus reads them.
    ///
    /// # Errors
    /// Those of [`CursorSnapshot::encode`], then those of [`encode_attempt_snapshot`].
    ///
    /// # Panics
    /// Where the linked library is another one: see [`check_library`](crate::check_library).
    pub fn encode(
        settled: &CursorSnapshot,
        counts: &[(Offset, u32)],
    ) -> Result<Snapshots, Refusal> {
        Ok(Snapshots {
            cursor: settled.encode()?,
            attempts: encode_attempt_snapshot(counts)?,
        })
    }
}

// The length of a snapshot of so many pairs, in either version.
const fn length(pairs: usize) -> usize {
    9 + 12 * pairs
}

/// The most bytes of each snapshot.
pub(crate) const LONGEST_CURSOR: usize = 13 + 16 * MAX_RANGES;
pub(crate) const LONGEST_ATTEMPTS: usize = length(MAX_PAIRS);

// Offsets and attempts apart, as they cross.
fn columns(pairs: &[(Offset, u32)]) -> (Vec<u64>, Vec<u32>) {
    pairs
        .iter()
        .map(|(offset, attempt)| (offset.get(), *attempt))
        .unzip()
}

/// A snapshot of version 1, byte for byte what IronBus writes: for a clinic whose server is IronBus's own, which reads no other.
///
/// The pairs are written in the order given; a reader wants their offsets rising.
///
/// # Errors
/// [`TooManyPairs`](Refusal::TooManyPairs) (19) where there are over [`MAX_PAIRS`].
///
/// # Panics
/// Where the linked library is another one: see [`check_library`](crate::check_library).
pub fn encode_attempt_snapshot(pairs: &[(Offset, u32)]) -> Result<Vec<u8>, Refusal> {
    let (offsets, attempts) = columns(pairs);
    let mut bytes = vec![0; length(pairs.len())];
    ffi::encode_attempts(&offsets, &attempts, &mut bytes)?;
    Ok(bytes)
}

/// A snapshot of version 2, as journals have it: all offsets and then all attempts, so that attempts which change leave the bytes of
/// the offsets as they are. IronBus's own server refuses it, as [`AttemptUnsupportedVersion`](Refusal::AttemptUnsupportedVersion) (14).
///
/// # Errors
/// [`TooManyPairs`](Refusal::TooManyPairs) (19) where there are over [`MAX_PAIRS`].
///
/// # Panics
/// Where the linked library is another one: see [`check_library`](crate::check_library).
pub fn encode_attempt_snapshot_v2(pairs: &[(Offset, u32)]) -> Result<Vec<u8>, Refusal> {
    let (offsets, attempts) = columns(pairs);
    let mut bytes = vec![0; length(pairs.len())];
    ffi::encode_attempts_v2(&offsets, &attempts, &mut bytes)?;
    Ok(bytes)
}

/// The pairs of a snapshot of either version.
///
/// # Errors
/// [`AttemptTruncated`](Refusal::AttemptTruncated) (13),
/// [`AttemptUnsupportedVersion`](Refusal::AttemptUnsupportedVersion) (14) for versions other than 1 and 2,
/// [`AttemptBadLength`](Refusal::AttemptBadLength) (15), [`CountMismatch`](Refusal::CountMismatch) (16),
/// [`AttemptBadCrc`](Refusal::AttemptBadCrc) (17), [`NotSorted`](Refusal::NotSorted) (18) and
/// [`TooManyPairs`](Refusal::TooManyPairs) (19).
///
/// # Panics
/// Where the linked library is another one: see [`check_library`](crate::check_library).
pub fn decode_attempt_snapshot(bytes: &[u8]) -> Result<Vec<(Offset, u32)>, Refusal> {
    let mut offsets = [0; MAX_PAIRS];
    let mut attempts = [0; MAX_PAIRS];
    let count = ffi::decode_attempts(bytes, &mut offsets, &mut attempts)?;
    let pairs = offsets.into_iter().map(Offset::new).zip(attempts);
    let count = usize::try_from(count).expect("there are at most 128 pairs");
    Ok(pairs.take(count).collect())
}
