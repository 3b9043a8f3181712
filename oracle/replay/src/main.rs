//! A model of the program `replay`, from the specification and over the original. docs/ORACLE.md says what it shows.
//!
//!     replay-model run                           the model's answers to the script on standard input, whose lists keep the bounds; with
//!                                                MOVING in the environment also to what moves in and out
//!     replay-model make SEED LINES               a script
//!     replay-model compare PROGRAM SEEDS LINES   PROGRAM and the model on the scripts of seeds 1 to SEEDS, up to the first difference; then
//!                                                on those that move in and out
//!     replay-model moving PROGRAM STATES         both on so many states of the original, imported, called and exported
use replay_model::compare::{answers_of, bounds_of, compare, compare_moving};
use replay_model::make::script;
use replay_model::moving::moved;
use replay_model::program::Program;
use std::io::{Read, Write};
use std::process::exit;

/// The lines of all seeds that both answered alike.
fn sum(seeds: u64, compared: impl Fn(u64) -> Result<usize, String>) -> usize {
    let mut total = 0;
    for seed in 1..=seeds {
        match compared(seed) {
            Ok(answered) => total += answered,
            Err(said) => {
                println!("{said}");
                exit(1);
            }
        }
    }
    total
}

fn compare_all(program: &str, seeds: u64, lines: usize) {
    let total = sum(seeds, |seed| compare(program, seed, lines));
    println!("replay: {total} lines of {seeds} scripts, all answered as the model answers them and within the bounds");
    let total = sum(seeds, |seed| compare_moving(program, seed, lines));
    println!("replay: {total} lines of {seeds} scripts that move in and out, likewise");
}

fn move_all(program: &str, states: u64) {
    match moved(program, states) {
        Ok([_, states, exports, lines]) => println!(
            "moving: {states} states of the original, imported, called and exported {exports} times, byte for byte as the original writes them; {lines} lines"
        ),
        Err(said) => {
            println!("{said}");
            exit(1);
        }
    }
}

fn main() {
    let arguments: Vec<String> = std::env::args().skip(1).collect();
    let arguments: Vec<&str> = arguments.iter().map(String::as_str).collect();
    let number = |word: &str| word.parse::<u64>().expect("a number");
    let mut out = std::io::stdout().lock();
    match arguments[..] {
        ["run"] => {
            let mut text = Vec::new();
            std::io::stdin().read_to_end(&mut text).unwrap();
            let fresh = match std::env::var_os("MOVING") {
                Some(_) => Program::moving(),
                None => Program::default(),
            };
            let given = answers_of(fresh, &text);
            out.write_all(given.as_bytes()).unwrap();
            if let Err(said) = bounds_of(&text, &given) {
                eprintln!("{said}");
                exit(1);
            }
        }
        ["make", seed, lines] => {
            let mut text = script(number(seed), number(lines) as usize).join(&b'\n');
            text.push(b'\n');
            out.write_all(&text).unwrap();
        }
        ["compare", program, seeds, lines] => {
            drop(out);
            compare_all(program, number(seeds), number(lines) as usize);
        }
        ["moving", program, states] => {
            drop(out);
            move_all(program, number(states));
        }
        _ => {
            eprintln!(
                "usage: replay-model run | replay-model make SEED LINES | replay-model compare PROGRAM SEEDS LINES | replay-model moving PROGRAM STATES"
            );
            exit(2);
        }
    }
}
