//! The functions of the crate `exports`, declared once and wrapped: a slice crosses as a pointer and a length. Their contracts
//! require nothing of a caller but slices that are there and of which none that is written to overlaps another, which Rust's
//! references ensure, and cursors that only these functions changed, which private fields ensure.

/// The refusal's number, 0 where nothing is refused; how many values there are; and the first five of them, 0 where there are
/// fewer.
#[repr(C)]
#[derive(Clone, Copy, Debug, PartialEq, Eq)]
pub struct Numbers {
    pub number: u64,
    pub count: u64,
    pub values: [u64; 5],
}

/// A cursor that is changed where it lies.
#[repr(C)]
pub struct AckCursor {
    committed: u64,
    starts: [u64; 128],
    ends: [u64; 128],
    runs: usize,
}

extern "C" {
    fn ninotskev_crc32c(bytes: *const u8, len: usize) -> u32;
    fn ninotskev_encode_cursor(
        committed: u64,
        starts: *const u64,
        starts_len: usize,
        ends: *const u64,
        ends_len: usize,
        out: *mut u8,
        out_len: usize,
        at: usize,
    ) -> Numbers;
    fn ninotskev_decode_cursor(
        input: *const u8,
        input_len: usize,
        starts: *mut u64,
        starts_len: usize,
        ends: *mut u64,
        ends_len: usize,
    ) -> Numbers;
    fn ninotskev_encode_attempts(
        offsets: *const u64,
        offsets_len: usize,
        attempts: *const u32,
        attempts_len: usize,
        out: *mut u8,
        out_len: usize,
        at: usize,
    ) -> Numbers;
    fn ninotskev_encode_attempts_v2(
        offsets: *const u64,
        offsets_len: usize,
        attempts: *const u32,
        attempts_len: usize,
        out: *mut u8,
        out_len: usize,
        at: usize,
    ) -> Numbers;
    fn ninotskev_decode_attempts(
        input: *const u8,
        input_len: usize,
        offsets: *mut u64,
        offsets_len: usize,
        attempts: *mut u32,
        attempts_len: usize,
    ) -> Numbers;
    fn ninotskev_cursor_ack(cursor: *mut AckCursor, offset: u64) -> u64;
}

/// The check of the bytes.
pub fn crc32c(bytes: &[u8]) -> u32 {
    unsafe { ninotskev_crc32c(bytes.as_ptr(), bytes.len()) }
}

/// Writes the snapshot of a cursor from a position on, and answers the position behind it.
pub fn encode_cursor(committed: u64, starts: &[u64], ends: &[u64], out: &mut [u8], at: usize) -> Numbers {
    let (s, e) = (starts.as_ptr(), ends.as_ptr());
    unsafe { ninotskev_encode_cursor(committed, s, starts.len(), e, ends.len(), out.as_mut_ptr(), out.len(), at) }
}

/// Puts the ranges of a snapshot at the front of two columns, and answers the committed offset and their number.
pub fn decode_cursor(input: &[u8], starts: &mut [u64], ends: &mut [u64]) -> Numbers {
    let (s, e) = (starts.as_mut_ptr(), ends.as_mut_ptr());
    unsafe { ninotskev_decode_cursor(input.as_ptr(), input.len(), s, starts.len(), e, ends.len()) }
}

/// Writes the snapshot of attempt counts, version 1, from a position on, and answers the position behind it.
pub fn encode_attempts(offsets: &[u64], attempts: &[u32], out: &mut [u8], at: usize) -> Numbers {
    let (o, a) = (offsets.as_ptr(), attempts.as_ptr());
    unsafe { ninotskev_encode_attempts(o, offsets.len(), a, attempts.len(), out.as_mut_ptr(), out.len(), at) }
}

/// Writes version 2 likewise.
pub fn encode_attempts_v2(offsets: &[u64], attempts: &[u32], out: &mut [u8], at: usize) -> Numbers {
    let (o, a) = (offsets.as_ptr(), attempts.as_ptr());
    unsafe { ninotskev_encode_attempts_v2(o, offsets.len(), a, attempts.len(), out.as_mut_ptr(), out.len(), at) }
}

/// Puts the pairs of a snapshot of either version at the front of two columns, and answers their number.
pub fn decode_attempts(input: &[u8], offsets: &mut [u64], attempts: &mut [u32]) -> Numbers {
    let (o, a) = (offsets.as_mut_ptr(), attempts.as_mut_ptr());
    unsafe { ninotskev_decode_attempts(input.as_ptr(), input.len(), o, offsets.len(), a, attempts.len()) }
}

impl AckCursor {
    /// A cursor at offset zero with nothing acked, `AckCursor::new` of the port: all its numbers are zero.
    pub fn zero() -> AckCursor {
        AckCursor {
            committed: 0,
            starts: [0; 128],
            ends: [0; 128],
            runs: 0,
        }
    }

    /// Records an ack. Answers 0 where it was new, 1 for a duplicate and 29 where it is shed.
    pub fn ack(&mut self, offset: u64) -> u64 {
        unsafe { ninotskev_cursor_ack(self, offset) }
    }

    pub fn committed(&self) -> u64 {
        self.committed
    }

    pub fn ranges(&self) -> Vec<(u64, u64)> {
        let ranges = self.starts.iter().copied().zip(self.ends.iter().copied());
        ranges.take(self.runs).collect()
    }
}
