//! Attempt snapshots: how often each offset was handed out, as bytes that clinics exchange.

use crate::ffi;
use crate::refusal::Refusal;
use crate::types::Offset;

/// The most pairs of a snapshot.
pub const MAX_PAIRS: usize = 128;

// The length of a snapshot of so many pairs, in either version.
const fn length(pairs: usize) -> usize {
    9 + 12 * pairs
}

// Offsets and attempts apart, as they cross.
fn columns(pairs: &[(Offset, u32)]) -> (Vec<u64>, Vec<u32>) {
    pairs
        .iter()
        .map(|(offset, attempt)| (offset.get(), *attempt))
        .unzip()
}

/// A snapshot of version 1, byte for byte what IronBus writes: for a clinic whose server is IronBus's own, which reads no other.
///
/// The pairs are written in the order given; a reader wants their offsets rising.
///
/// # Errors
/// [`TooManyPairs`](Refusal::TooManyPairs) (19) where there are over [`MAX_PAIRS`].
///
/// # Panics
/// Where the linked library is another one: see [`check_library`](crate::check_library).
pub fn encode_attempt_snapshot(pairs: &[(Offset, u32)]) -> Result<Vec<u8>, Refusal> {
    let (offsets, attempts) = columns(pairs);
    let mut bytes = vec![0; length(pairs.len())];
    ffi::encode_attempts(&offsets, &attempts, &mut bytes)?;
    Ok(bytes)
}

/// A snapshot of version 2, as journals have it: all offsets and then all attempts, so that attempts which change leave the bytes of
/// the offsets as they are. IronBus's own server refuses it, as [`AttemptUnsupportedVersion`](Refusal::AttemptUnsupportedVersion) (14).
///
/// # Errors
/// [`TooManyPairs`](Refusal::TooManyPairs) (19) where there are over [`MAX_PAIRS`].
///
/// # Panics
/// Where the linked library is another one: see [`check_library`](crate::check_library).
pub fn encode_attempt_snapshot_v2(pairs: &[(Offset, u32)]) -> Result<Vec<u8>, Refusal> {
    let (offsets, attempts) = columns(pairs);
    let mut bytes = vec![0; length(pairs.len())];
    ffi::encode_attempts_v2(&offsets, &attempts, &mut bytes)?;
    Ok(bytes)
}

/// The pairs of a snapshot of either version.
///
/// # Errors
/// [`AttemptTruncated`](Refusal::AttemptTruncated) (13),
/// [`AttemptUnsupportedVersion`](Refusal::AttemptUnsupportedVersion) (14) for versions other than 1 and 2,
/// [`AttemptBadLength`](Refusal::AttemptBadLength) (15), [`CountMismatch`](Refusal::CountMismatch) (16),
/// [`AttemptBadCrc`](Refusal::AttemptBadCrc) (17), [`NotSorted`](Refusal::NotSorted) (18) and
/// [`TooManyPairs`](Refusal::TooManyPairs) (19).
///
/// # Panics
/// Where the linked library is another one: see [`check_library`](crate::check_library).
pub fn decode_attempt_snapshot(bytes: &[u8]) -> Result<Vec<(Offset, u32)>, Refusal> {
    let mut offsets = [0; MAX_PAIRS];
    let mut attempts = [0; MAX_PAIRS];
    let count = ffi::decode_attempts(bytes, &mut offsets, &mut attempts)?;
    let pairs = offsets.into_iter().map(Offset::new).zip(attempts);
    let count = usize::try_from(count).expect("there are at most 128 pairs");
    Ok(pairs.take(count).collect())
}
