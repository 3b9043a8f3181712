//! Imports: what they give, in which order they are refused, and that the made scripts have them everywhere.
use super::{moving_scripts, play, play_moving, Met};
use crate::compare::answers_of;
use crate::help;
use crate::imports::{line, word};
use crate::line::{read, Call};
use crate::program::{Phase, Program};
use ironbus::cursor::AckCursor;
use ironbus::types::Offset;
use lists::codecs::{attempt_snapshot, attempt_snapshot_v2};

fn cursor(committed: u64, ranges: &[(u64, u64)]) -> Vec<u8> {
    let cursor = AckCursor::resume_with_ahead(Offset::new(committed), ranges.to_vec()).unwrap();
    let mut bytes = Vec::new();
    cursor.encode_snapshot(&mut bytes);
    bytes
}

const START: &str = "start 5 0 3 30 300 9216 => started";

/// A worker of the old server holds 7 under generation 0; counts of settled offsets and zeros are left out.
#[test]
fn the_day_of_the_move() {
    let pairs = [(3, 2), (5, 0), (6, 4), (7, 1), (9, 2)];
    let old = cursor(5, &[(6, 7)]);
    let found = |next: u64, group: u64, block: u64| {
        format!("state committed 5 ranges 6-7 leases none carried 7:1,9:2 next {next} ceiling {next} counter 0 group {group} block {block} half 0")
    };
    for attempts in [attempt_snapshot(&pairs), attempt_snapshot_v2(&pairs)] {
        play_moving(&format!(
            "{START}
            {} => imported
            state => {}
            claim 7 0 => refused 26
            checkpoint => 1,0
            claim 7 0 => deliver 7 100 2
            ack 7 0 => refused 24
            restart => restarted
            state => {}
            ack 7 0 => refused 24
            ack 7 100 => refused 24",
            line(100, &old, &attempts),
            found(100, 1, 0),
            found(4_196, 2, 2),
        ));
    }
}

/// Before its first checkpoint is finished a restart finds nothing of an import.
#[test]
fn an_import_that_was_not_kept() {
    let import = line(9, &cursor(3, &[]), &attempt_snapshot(&[(4, 2)]));
    let nothing = "state committed 0 ranges none leases none carried none next 0 ceiling 0 counter 0 group 1 block 0 half 0";
    for before in [
        "",
        "begin => begun 2",
        "begin => begun 2\nstep => wrote 1",
        "begin => begun 2\nstep => wrote 1\ncut torn => cut 0",
    ] {
        play_moving(&format!(
            "{START}\n{import} => imported\n{before}\nrestart => restarted\nstate => {nothing}"
        ));
    }
    play_moving(&format!(
        "{START}\n{import} => imported\nbegin => begun 2\nstep => wrote 1\ncut new => cut 0\nrestart => restarted
        state => state committed 3 ranges none leases none carried 4:2 next 4105 ceiling 4105 counter 0 group 2 block 2 half 0"
    ));
}

/// The hours before the bytes, the cursor's before the attempts', and a refusal changes nothing.
#[test]
fn refused_in_their_order() {
    let good = word(&cursor(5, &[(6, 7)]));
    let (bad_hours, never) = ("hours 604800000000000 1 1 1 1 1 1 1", "hours 0 0 0 0 0 0 0 0");
    let state = "state committed 1 ranges none leases none carried none next 0 ceiling 4096 counter 0 group 2 block 2 half 0";
    play_moving(&format!(
        "import 0 - - => not now
        {START}
        checkpoint => 1,0
        commit 1 => committed
        {bad_hours} => hours
        import 0 - - => refused 33
        {never} => hours
        import 0 - - => refused 34
        hours none => hours
        import 0 - - => refused 6
        import 0 - {good} => refused 6
        import 0 {good} - => refused 13
        import 0 {good} {good} => refused 15 29
        state => {state}
        restart => restarted
        state => state committed 0 ranges none leases none carried none next 4096 ceiling 4096 counter 0 group 2 block 2 half 0"
    ));
}

/// A journal that was cut shorter stays so.
#[test]
fn on_a_shorter_journal() {
    let import = line(9, &cursor(3, &[]), &attempt_snapshot(&[]));
    play_moving(&format!("start 5 0 3 30 300 10240 => started\nrestart 9216 => restarted\n{import} => imported\npeek 18 => not now\nrestart 10240 => not now"));
}

/// Where it isn't asked for, what moves in and out is a bad line, of which nothing is told.
#[test]
fn not_asked_for() {
    let import = line(9, &cursor(3, &[]), &attempt_snapshot(&[]));
    play(&format!(
        "import 0 - - => bad line\n{START}\n{import} => bad line\nexport => bad line\nexport 1 => bad line"
    ));
    let lines = format!("help\nimport 1\n{import}\nexport\nexport 1\nimports\nexports");
    let told = |fresh: Program| {
        let given = answers_of(fresh, lines.as_bytes());
        given.lines().skip(help::count()).map(str::to_string).collect::<Vec<_>>()
    };
    assert_eq!(told(Program::default()), ["bad line"; 6]);
    let (as_import, as_export) = ("bad line: import GENERATION", "bad line: export: the snapshots");
    for (answer, right) in told(Program::moving())
        .iter()
        .zip([as_import, "not now", "not now", as_export, "bad line", "bad line"])
    {
        assert!(answer.starts_with(right), "{answer}");
        assert!(right != "bad line" || answer == right, "{answer}");
    }
}

/// Who could be called before an import.
fn phase(program: &Program) -> &'static str {
    match program.started.as_ref().map(|started| &started.phase) {
        None => "before a start",
        Some(Phase::Idle(_)) => "idle",
        Some(Phase::Writing(_)) => "writing",
        Some(Phase::Cut) => "cut",
    }
}

/// The scripts of `oracle/run compare` that move in and out import in every phase, both versions, and restart before and after the first checkpoint.
#[test]
fn scripts_have_imports() {
    let mut met = Met::default();
    for lines in moving_scripts() {
        let mut program = Program::moving();
        let mut begun = None;
        for line in lines {
            let before = phase(&program);
            let answer = program.answer(line).unwrap_or_default();
            match read(line) {
                Some(Call::Import(_, _, attempts)) if answer == "imported" => {
                    met.add([before, if attempts[0] == 2 { "version 2" } else { "version 1" }]);
                    begun = Some(false);
                }
                Some(Call::Import(..)) => met.add([format!("{before}, refused")]),
                Some(Call::Start(_)) if answer == "started" => begun = None,
                Some(Call::Step(_)) if answer.starts_with("done") => begun = begun.map(|_| true),
                Some(Call::Restart(_)) if answer == "restarted" => {
                    met.add(begun.map(|kept| if kept { "found again" } else { "not kept" }));
                }
                _ => (),
            }
        }
    }
    met.want(&[
        ("before a start, refused", 1),
        ("idle", 50),
        ("idle, refused", 50),
        ("writing", 5),
        ("cut", 5),
        ("version 1", 30),
        ("version 2", 30),
        ("found again", 100),
        ("not kept", 5),
    ]);
}
