//! Lists of operations on cursor, lease table, delivery policy and codecs: made anew, run on the original, and compared with what
//! the port answers. docs/ORACLE.md has the format.
//!
//!     lists make SEED ROUNDS      print a list
//!     lists run                   run the list on standard input on the original and print its answers
//!     lists compare SEEDS ROUNDS  run the original and the port on the lists of seeds 1 to SEEDS, and stop where they differ
mod port;

use lists::make;
use lists::operations::{line_of, read, written, ANSWER};
use lists::state::State;
use std::io::{Read, Write};
use std::process::exit;

/// How many lines are shown before a difference.
const BEFORE: usize = 12;

/// The original's answers to a list.
fn answers(lines: &[String]) -> Vec<[u64; ANSWER]> {
    let mut state = State::fresh();
    lines.iter().map(|line| state.answer(line)).collect()
}

/// The lines of a list that was written down.
fn lines_of(text: &str) -> Vec<String> {
    let asking = text.lines().filter(|line| !line.is_empty() && !line.starts_with('#'));
    asking
        .map(|line| read(line).unwrap_or_else(|| panic!("no operation: {line}")))
        .collect()
}

/// Runs one list on both sides, and says where they first differ.
fn compare(seed: u64, rounds: u64) -> usize {
    let lines = make::list(seed, rounds);
    let original = answers(&lines);
    let port = port::answers(&lines);
    if let Some(i) = (0..lines.len()).find(|&i| original[i] != port[i]) {
        println!("seed {seed}, operation {}, and those before it:", i + 1);
        for (line, answer) in lines.iter().zip(&original).take(i).skip(i.saturating_sub(BEFORE)) {
            println!("  {line}: {}", line_of(answer));
        }
        println!("  {}", lines[i]);
        println!(
            "    the original: {}\n    the port: {}",
            line_of(&original[i]),
            line_of(&port[i])
        );
        exit(1);
    }
    lines.len()
}

fn main() {
    let arguments: Vec<String> = std::env::args().skip(1).collect();
    let arguments: Vec<&str> = arguments.iter().map(String::as_str).collect();
    let number = |word: &str| word.parse::<u64>().expect("a number");
    match arguments[..] {
        ["make", seed, rounds] => {
            for line in make::list(number(seed), number(rounds)) {
                println!("{}", written(&line));
            }
        }
        ["run"] => {
            let mut text = String::new();
            std::io::stdin().read_to_string(&mut text).unwrap();
            let mut out = std::io::stdout().lock();
            for answer in answers(&lines_of(&text)) {
                writeln!(out, "{}", line_of(&answer)).unwrap();
            }
        }
        ["compare", seeds, rounds] => {
            let total: usize = (1..=number(seeds)).map(|seed| compare(seed, number(rounds))).sum();
            println!("lists: {total} operations of {seeds} lists, all answered as the original answers them, in version 2 as SPEC says");
        }
        _ => {
            eprintln!("usage: lists make SEED ROUNDS | lists run | lists compare SEEDS ROUNDS");
            exit(2);
        }
    }
}

#[cfg(test)]
mod tests {
    use super::{answers, lines_of};
    use lists::make;
    use lists::operations::{numbers, written, OPERATIONS};
    use std::collections::BTreeSet;

    /// The recorded list has every operation, and every refusal that these modules have.
    #[test]
    fn the_recorded_list_has_everything() {
        let lines = make::list(1, 3);
        let operations: BTreeSet<u64> = lines.iter().map(|line| numbers(line)[0]).collect();
        assert_eq!(operations, OPERATIONS.iter().map(|&(_, number)| number).collect());
        assert_eq!(operations.len(), OPERATIONS.len());
        let refusals: BTreeSet<u64> = answers(&lines).iter().map(|answer| answer[1]).collect();
        let expected = [0, 1, 2].into_iter().chain(6..=20).chain([23, 24, 25, 27, 28, 29]);
        assert_eq!(refusals, expected.collect());
    }

    /// A list is read as it was written down.
    #[test]
    fn a_written_list_is_read_back() {
        let lines = make::list(2, 1);
        let text: Vec<String> = lines.iter().map(|line| written(line)).collect();
        assert_eq!(lines_of(&text.join("\n")), lines);
    }
}
