//! The original's codecs under SPEC.md's limits, with its numbers for what is refused. Beyond a limit that the original lacks the
//! answer is SPEC.md's refusal: 12 (ranges), 19 (pairs), 20 (room in lent memory). Version 2 of the attempt snapshot, which the
//! original doesn't know, is written here from SPEC.md, "Attempt snapshot", and read as the bytes of version 1 that have its pairs.
use ironbus::attempt::{decode_attempt_snapshot, encode_attempt_snapshot, AttemptSnapshotError};
use ironbus::crc::crc32c;
use ironbus::cursor::{AckCursor, AckCursorError, SnapshotError};
use ironbus::types::Offset;

/// The refusal's number with its values, or 0 with those of the outcome.
pub type Code = Vec<u64>;

pub const RANGES: usize = 128;
pub const PAIRS: usize = 128;

pub const TOO_MANY_RUNS: u64 = 12;
pub const TOO_MANY_PAIRS: u64 = 19;
pub const OUT_TOO_SHORT: u64 = 20;

pub fn ranges_error(error: AckCursorError) -> Code {
    match error {
        AckCursorError::EmptyRange { start, end } => vec![10, start, end],
        AckCursorError::NotSortedDisjointAndAboveCommitted { start, prev_end } => vec![11, start, prev_end],
    }
}

pub fn cursor_error(error: SnapshotError) -> Code {
    match error {
        SnapshotError::Truncated => vec![6],
        SnapshotError::BadLength { len } => vec![7, len as u64],
        SnapshotError::UnsupportedVersion(version) => vec![8, version.into()],
        SnapshotError::BadCrc => vec![9],
        SnapshotError::Ranges(error) => ranges_error(error),
    }
}

pub fn attempt_error(error: AttemptSnapshotError) -> Code {
    match error {
        AttemptSnapshotError::Truncated => vec![13],
        AttemptSnapshotError::UnsupportedVersion(version) => vec![14, version.into()],
        AttemptSnapshotError::BadLength { len } => vec![15, len as u64],
        AttemptSnapshotError::CountMismatch { declared, actual } => vec![16, declared.into(), actual],
        AttemptSnapshotError::BadCrc => vec![17],
        AttemptSnapshotError::NotSorted { offset, prev_offset } => vec![18, offset, prev_offset],
    }
}

/// A cursor that the original accepts and the limit may not.
pub fn few_ranges(cursor: AckCursor) -> Result<AckCursor, Code> {
    if cursor.ahead_runs() > RANGES {
        return Err(vec![TOO_MANY_RUNS]);
    }
    Ok(cursor)
}

pub fn resume_with_ahead(committed: u64, ranges: Vec<(u64, u64)>) -> Result<AckCursor, Code> {
    few_ranges(AckCursor::resume_with_ahead(Offset::new(committed), ranges).map_err(ranges_error)?)
}

pub fn decode_cursor(bytes: &[u8]) -> Result<AckCursor, Code> {
    few_ranges(AckCursor::decode_snapshot(bytes).map_err(cursor_error)?)
}

/// What the original answers to attempt bytes of any version.
pub fn original_decode_attempts(bytes: &[u8]) -> Result<Vec<(u64, u32)>, Code> {
    decode_attempt_snapshot(bytes).map_err(attempt_error)
}

/// Bytes of version 2 as version 1 has them: all offsets and then all attempts become pairs. Lengths that hold no whole pairs stay,
/// a declared count stays, and a wrong check stays wrong, so that all but the version is the original's to judge.
pub fn as_version_1(bytes: &[u8]) -> Vec<u8> {
    let mut old = bytes.to_vec();
    if bytes.first() != Some(&2) || bytes.len() < 9 {
        return old;
    }
    let check = bytes.len() - 4;
    let n = (bytes.len() - 9) / 12;
    old[0] = 1;
    if bytes.len() == 9 + 12 * n {
        for i in 0..n {
            let (offset, attempt, pair) = (5 + 8 * i, 5 + 8 * n + 4 * i, 5 + 12 * i);
            old[pair..pair + 8].copy_from_slice(&bytes[offset..offset + 8]);
            old[pair + 8..pair + 12].copy_from_slice(&bytes[attempt..attempt + 4]);
        }
    }
    let right = crc32c(&bytes[..check]).to_le_bytes();
    let new = crc32c(&old[..check]).to_le_bytes();
    for i in 0..4 {
        old[check + i] = new[i] ^ right[i] ^ bytes[check + i];
    }
    old
}

pub fn decode_attempts(bytes: &[u8]) -> Result<Vec<(u64, u32)>, Code> {
    let pairs = original_decode_attempts(&as_version_1(bytes))?;
    if pairs.len() > PAIRS {
        return Err(vec![TOO_MANY_PAIRS]);
    }
    Ok(pairs)
}

/// Puts bytes at a position of lent ones, and answers the position behind them.
pub fn write(out: &mut [u8], at: u64, new: &[u8]) -> Code {
    let end = usize::try_from(at).ok().and_then(|at| at.checked_add(new.len()));
    match end {
        Some(end) if end <= out.len() => {
            out[end - new.len()..end].copy_from_slice(new);
            vec![0, end as u64]
        }
        _ => vec![OUT_TOO_SHORT],
    }
}

pub fn encode_cursor(cursor: &AckCursor, out: &mut [u8], at: u64) -> Code {
    let mut new = Vec::new();
    cursor.encode_snapshot(&mut new);
    write(out, at, &new)
}

/// Version 1, which is the original's.
pub fn attempt_snapshot(pairs: &[(u64, u32)]) -> Vec<u8> {
    let mut bytes = Vec::new();
    encode_attempt_snapshot(pairs, &mut bytes);
    bytes
}

/// Version 2: the count, all offsets, all attempts in the same order, the check of all before it.
pub fn attempt_snapshot_v2(pairs: &[(u64, u32)]) -> Vec<u8> {
    let mut bytes = vec![2];
    bytes.extend((pairs.len() as u32).to_le_bytes());
    bytes.extend(pairs.iter().flat_map(|(offset, _)| offset.to_le_bytes()));
    bytes.extend(pairs.iter().flat_map(|(_, attempt)| attempt.to_le_bytes()));
    bytes.extend(crc32c(&bytes).to_le_bytes());
    bytes
}

/// Writes a snapshot of pairs, of the version that `snapshot` makes.
fn encode(snapshot: fn(&[(u64, u32)]) -> Vec<u8>, pairs: &[(u64, u32)], out: &mut [u8], at: u64) -> Code {
    if pairs.len() > PAIRS {
        return vec![TOO_MANY_PAIRS];
    }
    write(out, at, &snapshot(pairs))
}

pub fn encode_attempts(pairs: &[(u64, u32)], out: &mut [u8], at: u64) -> Code {
    encode(attempt_snapshot, pairs, out, at)
}

pub fn encode_attempts_v2(pairs: &[(u64, u32)], out: &mut [u8], at: u64) -> Code {
    encode(attempt_snapshot_v2, pairs, out, at)
}

#[cfg(test)]
mod tests {
    use super::*;

    /// Two pairs, and both versions of them without version and count; the checks were worked out apart.
    const TWO: [(u64, u32); 2] = [(5, 1), (260, 3)];
    const VERSION_1: [u8; 24] = [5, 0, 0, 0, 0, 0, 0, 0, 1, 0, 0, 0, 4, 1, 0, 0, 0, 0, 0, 0, 3, 0, 0, 0];
    const VERSION_2: [u8; 24] = [5, 0, 0, 0, 0, 0, 0, 0, 4, 1, 0, 0, 0, 0, 0, 0, 1, 0, 0, 0, 3, 0, 0, 0];
    const CHECK_1: [u8; 4] = [22, 127, 210, 103];
    const CHECK_2: [u8; 4] = [186, 210, 94, 50];

    fn whole(version: u8, pairs: [u8; 24], check: [u8; 4]) -> Vec<u8> {
        [&[version, 2, 0, 0, 0][..], &pairs, &check].concat()
    }

    #[test]
    fn both_versions_byte_by_byte() {
        assert_eq!(attempt_snapshot(&TWO), whole(1, VERSION_1, CHECK_1));
        assert_eq!(attempt_snapshot_v2(&TWO), whole(2, VERSION_2, CHECK_2));
    }

    #[test]
    fn version_2_as_version_1() {
        for n in 0..5 {
            let pairs: Vec<(u64, u32)> = (0..n).map(|i| (7 * u64::from(i) + (1 << 40), i + 1)).collect();
            let (old, new) = (attempt_snapshot(&pairs), attempt_snapshot_v2(&pairs));
            assert_eq!(as_version_1(&new), old);
            assert_eq!(as_version_1(&old), old);
            assert_eq!(decode_attempts(&new), Ok(pairs));
            assert_eq!(original_decode_attempts(&new), Err(vec![14, 2]));
        }
    }

    /// Each refusal on version 2, and 14 for the versions beside the two.
    #[test]
    fn refusals_of_version_2() {
        let good = whole(2, VERSION_2, CHECK_2);
        let changed = |at: usize, value: u8| {
            let mut bytes = good.clone();
            bytes[at] = value;
            let check = crc32c(&bytes[..29]).to_le_bytes();
            bytes[29..].copy_from_slice(&check);
            decode_attempts(&bytes)
        };
        assert_eq!(decode_attempts(&good[..8]), Err(vec![13]));
        for version in [0, 3, 255] {
            assert_eq!(changed(0, version), Err(vec![14, version.into()]));
        }
        assert_eq!(decode_attempts(&good[..32]), Err(vec![15, 32]));
        assert_eq!(changed(1, 3), Err(vec![16, 3, 2]));
        let mut spoilt = good.clone();
        spoilt[32] ^= 1;
        assert_eq!(decode_attempts(&spoilt), Err(vec![17]));
        assert_eq!(changed(25, 9), Ok(vec![(5, 1), (260, 9)]));
        assert_eq!(changed(7, 1), Err(vec![18, 260, 65_541]));
        let many: Vec<(u64, u32)> = (0..129).map(|i| (i, 1)).collect();
        assert_eq!(decode_attempts(&attempt_snapshot_v2(&many)), Err(vec![19]));
        assert_eq!(decode_attempts(&attempt_snapshot_v2(&many[..128])), Ok(many[..128].to_vec()));
    }
}
