//! What `help` prints, as docs/REPLAY.md has it, and what a bad line is told of it; and scenes of such lines.
use crate::line::{bare, LINE};
use crate::make::Maker;

const DOCUMENT: &str = include_str!("../../../docs/REPLAY.md");

/// The lines that the document shows behind `help`, each with four spaces before it.
fn lines() -> impl Iterator<Item = &'static str> {
    DOCUMENT
        .lines()
        .skip_while(|line| !line.starts_with("    A line is "))
        .map_while(|line| line.strip_prefix("    "))
}

pub fn text() -> String {
    lines().collect::<Vec<_>>().join("\n")
}

/// The lines of its answer.
pub fn count() -> usize {
    lines().count()
}

/// The forms that move in and out, which help doesn't list.
const MOVES: [&str; 2] = [
    "export: the snapshots of the cursor and of all counts, in hexadecimal",
    "import GENERATION CURSOR ATTEMPTS: a consumer with what two snapshots have, and its journal anew; bytes are lower-case hexadecimal digits, - for none",
];

/// The first form that begins with this word. The lines of forms begin with a small letter; a form's words stand before a colon.
fn form(word: &[u8], moving: bool) -> Option<&'static str> {
    let moves = MOVES.into_iter().filter(|_| moving);
    let mut forms = lines()
        .filter(|line| line.starts_with(|first: char| first.is_ascii_lowercase()))
        .chain(moves);
    forms.find(|form| form.split([' ', ':']).next().map(str::as_bytes) == Some(word))
}

/// The answer to a line that is none. What it should be is told once somebody asked for help, and where it can be told.
pub fn bad_line(line: &[u8], told: bool, moving: bool) -> String {
    let word = bare(line).split(|&byte| byte == b' ').next().unwrap_or_default();
    let known = (told && line.len() <= LINE).then(|| form(word, moving)).flatten();
    match known {
        Some(form) => format!("bad line: {form}"),
        None => "bad line".to_string(),
    }
}

/// Lines as people write them: with mistakes, with carriage returns, now and then with a look at the help.
pub fn lines_of_people(maker: &mut Maker) {
    for _ in 0..10 + maker.random.below(20) {
        let line = match maker.random.below(12) {
            0 => b"help".to_vec(),
            1..=4 => (maker.call() + "\r").into_bytes(),
            5..=6 => maker.no_call(),
            _ => maker.bad_line(),
        };
        maker.say(line);
    }
}
