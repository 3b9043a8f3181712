//! Runs the model and a program on the same scripts.
use crate::bounds::Bounds;
use crate::help;
use crate::line::{asks, read, Call};
use crate::make::{moving_script, script};
use crate::program::{lines, Program};
use std::io::Write;
use std::process::{Command, Stdio};

/// How many lines are shown before one that differs.
const SHOWN: usize = 12;

/// The model's answers to a text.
pub fn answers(text: &[u8]) -> String {
    answers_of(Program::default(), text)
}

/// The same of a model that may understand what moves in and out.
pub fn answers_of(mut program: Program, text: &[u8]) -> String {
    lines(text)
        .filter_map(|line| program.answer(line))
        .map(|answer| answer + "\n")
        .collect()
}

/// The first answer to a text, the model's or another's, with which a list passes a bound.
pub fn bounds_of(text: &[u8], given: &str) -> Result<(), String> {
    let mut bounds = Bounds::default();
    let mut given = given.lines();
    for (i, line) in lines(text).enumerate().filter(|(_, line)| asks(line)) {
        if matches!(read(line), Some(Call::Help)) {
            given.nth(help::count() - 1);
            continue;
        }
        let Some(answer) = given.next() else { break };
        bounds
            .see(line, answer)
            .map_err(|said| format!("line {}: {}\n  {said}", i + 1, shown(line)))?;
    }
    Ok(())
}

/// What a program writes when it is given a text; MOVING in its environment lets lines move in and out.
fn output_of(program: &str, input: Vec<u8>, moving: bool) -> Result<String, String> {
    let mut command = Command::new(program);
    command.env_remove("MOVING");
    if moving {
        command.env("MOVING", "1");
    }
    let mut child = command
        .stdin(Stdio::piped())
        .stdout(Stdio::piped())
        .spawn()
        .map_err(|error| format!("{program}: {error}"))?;
    let mut stdin = child.stdin.take().unwrap();
    let feeding = std::thread::spawn(move || stdin.write_all(&input));
    let output = child.wait_with_output().map_err(|error| error.to_string())?;
    if feeding.join().unwrap().is_err() {
        return Err(format!("{program} left input unread: {}", output.status));
    }
    if !output.status.success() {
        return Err(format!("{program}: {}", output.status));
    }
    Ok(String::from_utf8_lossy(&output.stdout).into_owned())
}

/// A line as it is shown, cut short where it is long.
fn shown(line: &[u8]) -> String {
    let text = line.escape_ascii().to_string();
    if text.len() <= 1_200 {
        return text;
    }
    format!("{}.. ({} bytes)", &text[..1_200], line.len())
}

/// The model's state and the worker who calls before a line of a text, by its place.
fn before_line(mut program: Program, text: &[u8], place: usize) -> String {
    for line in lines(text).take(place) {
        program.answer(line);
    }
    let state = program.answer(b"state").unwrap_or_default();
    format!("worker {}, {}", program.worker, shown(state.as_bytes()))
}

/// The first difference between the model's answers to a script and those given, with the lines and the state before it.
pub fn difference(text: &[u8], given: &str) -> Result<usize, String> {
    difference_from(Program::default(), text, given)
}

/// The same of a model that may understand what moves in and out.
pub fn difference_from(fresh: Program, text: &[u8], given: &str) -> Result<usize, String> {
    let mut program = fresh.clone();
    let mut given = given.lines();
    let mut before: Vec<String> = Vec::new();
    let mut answered = 0;
    for (i, line) in lines(text).enumerate() {
        let Some(right) = program.answer(line) else { continue };
        let got: Vec<&str> = given.by_ref().take(right.lines().count()).collect();
        let got = if got.is_empty() {
            "nothing".to_string()
        } else {
            got.join("\n")
        };
        if got != right {
            let from = before.len().saturating_sub(SHOWN);
            return Err(format!(
                "{}line {}: {}\n  the model:   {right}\n  the program: {got}\n  before it:   {}",
                before[from..].concat(),
                i + 1,
                shown(line),
                before_line(fresh, text, i)
            ));
        }
        before.push(format!("{}\n    {}\n", shown(line), shown(right.as_bytes())));
        answered += 1;
    }
    match given.next() {
        Some(more) => Err(format!("the program answers more than was asked: {more}")),
        None => Ok(answered),
    }
}

/// Runs both on the script of a seed, whose lists have to keep the bounds; every second one has no line end at its last line.
pub fn compare(program: &str, seed: u64, lines: usize) -> Result<usize, String> {
    compared(program, seed, script(seed, lines), Program::default())
}

/// The same of a script that moves in and out.
pub fn compare_moving(program: &str, seed: u64, lines: usize) -> Result<usize, String> {
    compared(program, seed, moving_script(seed, lines), Program::moving())
}

/// Runs both on a text, with MOVING in the program's environment where the model understands what moves in and out.
pub fn run_both(program: &str, text: &[u8], fresh: Program) -> Result<usize, String> {
    let given = output_of(program, text.to_vec(), fresh.moving)?;
    let answered = difference_from(fresh, text, &given)?;
    bounds_of(text, &given)?;
    Ok(answered)
}

fn compared(program: &str, seed: u64, script: Vec<Vec<u8>>, fresh: Program) -> Result<usize, String> {
    let mut text = script.join(&b'\n');
    if seed % 2 == 0 {
        text.push(b'\n');
    }
    run_both(program, &text, fresh).map_err(|said| format!("seed {seed}, {said}"))
}
