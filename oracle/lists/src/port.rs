//! The port's side: the exported function of the crate `operations`.
use lists::operations::{numbers, ANSWER};

#[link(name = "operations", kind = "static")]
extern "C" {
    fn ninotskev_operations(ops: *const u64, ops_len: usize, out: *mut u64, out_len: usize) -> usize;
}

/// The port's answers to a list.
pub fn answers(lines: &[String]) -> Vec<[u64; ANSWER]> {
    let ops: Vec<u64> = lines.iter().flat_map(|line| numbers(line)).collect();
    let mut out = vec![0; lines.len() * ANSWER];
    let written = unsafe { ninotskev_operations(ops.as_ptr(), ops.len(), out.as_mut_ptr(), out.len()) };
    assert_eq!(
        written,
        out.len(),
        "the port answers another number of operations than was asked"
    );
    out.chunks(ANSWER).map(|answer| answer.try_into().unwrap()).collect()
}
