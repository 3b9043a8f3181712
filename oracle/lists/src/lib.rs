//! Lists of operations on the original, and the original's codecs under SPEC.md's limits.
pub mod codecs;
pub mod make;
pub mod operations;
pub mod random;
pub mod run;
pub mod state;
