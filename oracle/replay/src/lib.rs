//! A model of the program `replay`: the specification's consumer and journal, step by step, over the original's modules.
pub mod block;
pub mod bounds;
pub mod commits;
pub mod compare;
pub mod consumer;
pub mod halves;
pub mod headers;
pub mod help;
pub mod hours;
pub mod imports;
pub mod journal;
pub mod line;
pub mod make;
pub mod moving;
pub mod nacks;
pub mod open;
pub mod plan;
pub mod program;
pub mod rights;
pub mod scenes;
pub mod versions;
pub mod views;
pub mod waiting;
pub mod wear;
pub mod workers;

#[cfg(test)]
mod tests;
