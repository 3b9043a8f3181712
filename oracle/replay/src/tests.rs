//! The settled examples and the phases of the program, as scripts with their answers; and that the made scripts meet everything.
use crate::block::{bodies_for, formed_header, seal};
use crate::compare::{answers, bounds_of, difference};
use crate::help;
use crate::journal::{block_of, ends_unfit, header_behind, in_use, walk, writes, Half, Stored};
use crate::line::{read, Call};
use crate::make::{moving_script, script};
use crate::program::{ask, Phase, Program};
use crate::rights::{Rights, WORKERS};
use crate::versions::rewritten;
use lists::codecs::as_version_1;
use std::collections::{BTreeMap, BTreeSet};
use std::sync::OnceLock;

mod bounds;
mod commits;
mod export;
mod hours;
mod imports;
mod nacks;
mod open;
mod plan;
mod waiting;

/// The scripts that `oracle/run compare` uses, made once for all tests.
fn scripts() -> &'static [Vec<Vec<u8>>] {
    static MADE: OnceLock<Vec<Vec<Vec<u8>>>> = OnceLock::new();
    MADE.get_or_init(|| (1..=120).map(|seed| script(seed, 2_000)).collect())
}

/// Those that move in and out.
fn moving_scripts() -> &'static [Vec<Vec<u8>>] {
    static MADE: OnceLock<Vec<Vec<Vec<u8>>>> = OnceLock::new();
    MADE.get_or_init(|| (1..=120).map(|seed| moving_script(seed, 2_000)).collect())
}

/// The answers to the lines of a script but `help`.
fn given(lines: &[Vec<u8>]) -> Vec<String> {
    given_by(Program::default(), lines)
}

/// The same of a model that may understand what moves in and out.
fn given_by(mut program: Program, lines: &[Vec<u8>]) -> Vec<String> {
    let answers = lines.iter().map(|line| (read(line), program.answer(line)));
    answers
        .filter(|(call, _)| !matches!(call, Some(Call::Help)))
        .filter_map(|(_, answer)| answer)
        .collect()
}

/// The names of those that hold.
fn holding<const N: usize>(facts: [(&'static str, bool); N]) -> Vec<&'static str> {
    facts.into_iter().filter(|&(_, holds)| holds).map(|(name, _)| name).collect()
}

/// How often each kind was met.
#[derive(Default)]
struct Met(BTreeMap<String, u32>);

impl Met {
    fn add(&mut self, kinds: impl IntoIterator<Item = impl ToString>) {
        for kind in kinds {
            *self.0.entry(kind.to_string()).or_default() += 1;
        }
    }

    /// Each of these so often at least.
    fn want(&self, kinds: &[(&str, u32)]) {
        for (kind, least) in kinds {
            assert!(self.0.get(*kind) >= Some(least), "{kind} {:?}", self.0);
        }
    }
}

/// Runs lines written as `LINE => ANSWER`; several steps of a checkpoint are written `checkpoint => BLOCK,..`.
fn play(text: &str) {
    play_on(Program::default(), text);
}

/// The same where what moves in and out is understood.
fn play_moving(text: &str) {
    play_on(Program::moving(), text);
}

fn play_on(mut program: Program, text: &str) {
    for line in text.lines().map(str::trim).filter(|line| !line.is_empty()) {
        let (call, right) = line.split_once(" => ").expect(line);
        if call != "checkpoint" {
            assert_eq!(program.answer(call.as_bytes()).as_deref(), Some(right), "{call}");
            continue;
        }
        let blocks: Vec<&str> = right.split(',').collect();
        assert_eq!(program.answer(b"begin"), Some(format!("begun {}", blocks.len())));
        for (i, block) in blocks.iter().enumerate() {
            let word = if i + 1 == blocks.len() { "done" } else { "wrote" };
            assert_eq!(program.answer(b"step"), Some(format!("{word} {block}")));
        }
    }
}

/// Examples 1, 2 and 4: acks in and out of order, and a commit that swallows a range.
#[test]
fn acks_and_commits() {
    play(
        "start 5 0 1 10 25 9216 => started
        checkpoint => 1,0
        claim 2 0 => deliver 2 0 1
        claim 1 0 => deliver 1 1 1
        claim 0 0 => deliver 0 2 1
        ack 2 0 => settled
        state => state committed 0 ranges 2-3 leases 0:2:0:10:1,1:1:0:10:1 carried none next 3 ceiling 4096 counter 0 group 2 block 2 half 0
        ack 2 0 => refused 24
        claim 2 0 => refused 22
        term 1 1 => settled
        commit 0 => unchanged
        commit 1 => committed
        ack 0 2 => refused 24
        state => state committed 3 ranges none leases none carried none next 3 ceiling 4096 counter 0 group 2 block 2 half 0
        commit 5 => committed
        claim 8 0 => deliver 8 3 1
        ack 8 3 => settled
        claim 9 0 => deliver 9 4 1
        ack 9 4 => settled
        commit 7 => committed
        state => state committed 7 ranges 8-10 leases none carried none next 5 ceiling 4096 counter 0 group 2 block 2 half 0
        commit 8 => committed
        commit 10 => unchanged
        state => state committed 10 ranges none leases none carried none next 5 ceiling 4096 counter 0 group 2 block 2 half 0
        claim 18446744073709551615 0 => refused 21",
    );
}

/// Examples 7, 8 and 10: deadlines, the cap, backoffs.
#[test]
fn times() {
    play(
        "start 9 0 9 10 25 9216 5 9 => started
        checkpoint => 1,0
        claim 0 100 => deliver 0 0 1
        claim 0 109 => refused 23
        waiting 109 => waiting
        waiting 110 => waiting 0
        progress 0 0 120 => extended 125
        progress 0 0 125 => refused 28
        claim 0 125 => deliver 0 1 2
        ack 0 0 => refused 24
        nack 0 1 130 => requeued 139
        nack 0 1 130 => refused 24
        nack 0 2 130 7 => requeued 137
        claim 0 136 => refused 23
        claim 0 137 => deliver 0 4 3
        nack 0 4 18446744073709551610 => requeued 18446744073709551615",
    );
}

/// Examples 13 and 14, and what the checkpoints of 14 left in the area.
#[test]
fn dead_letter_after_a_restart() {
    play(
        "start 2 0 1 10 25 9216 => started
        claim 0 0 => refused 26
        checkpoint => 1,0
        claim 0 0 => deliver 0 0 1
        claim 0 10 => deliver 0 1 2
        claim 0 20 => refused 26
        checkpoint => 3,2
        state => state committed 0 ranges none leases 0:1:10:20:2 carried none next 2 ceiling 4098 counter 0 group 3 block 4 half 0
        restart => restarted
        state => state committed 0 ranges none leases none carried 0:2 next 4098 ceiling 4098 counter 0 group 3 block 4 half 0
        claim 0 30 => refused 26
        checkpoint => 5,4
        claim 0 30 => deadletter 0 4098 3
        restart 8704 => refused 4
        restart 8192 => refused 4
        restart 9215 => refused 4
        restart 9217 => not now
        restart 9216 => restarted
        state => state committed 0 ranges none leases none carried 0:2 next 8194 ceiling 8194 counter 0 group 4 block 6 half 0",
    );
}

/// Old, new and torn at a body and at a header.
#[test]
fn power_failures() {
    let before = "start 3 0 9 10 25 9216 => started
        checkpoint => 1,0
        claim 4 0 => deliver 4 0 1
        begin => begun 2\n";
    let old = "state committed 0 ranges none leases none carried none next 4096 ceiling 4096 counter 0 group 2 block 2 half 0";
    let new = "state committed 0 ranges none leases none carried 4:1 next 4097 ceiling 4097 counter 0 group 3 block 4 half 0";
    for kind in ["old", "new", "torn"] {
        let right = if kind == "new" { new } else { old };
        play(&format!(
            "{before}cut {kind} => cut 3\nstate => not now\nrestart => restarted\nstate => {old}"
        ));
        play(&format!(
            "{before}step => wrote 3\ncut {kind} => cut 2\nrestart => restarted\nstate => {right}"
        ));
    }
}

/// Wear: an unsound body that a sound header counts is refused, by its block; an unsound header ends the walk.
#[test]
fn worn_blocks() {
    play(
        "start 3 0 9 10 25 9216 => started
        checkpoint => 1,0
        checkpoint => 3,2
        poke 3 100 1 => poked
        restart => refused 5 3
        poke 1 511 0 => poked
        restart => refused 5 1
        claim 0 0 => deliver 0 0 1
        poke 1 511 7 => poked
        poke 2 0 2 => poked
        restart => restarted
        state => state committed 0 ranges none leases none carried none next 4096 ceiling 4096 counter 0 group 2 block 2 half 0
        poke 0 1 2 => poked
        restart => restarted
        state => state committed 0 ranges none leases none carried none next 0 ceiling 0 counter 0 group 1 block 0 half 0",
    );
}

/// SPEC.md, "Restart" and "Halves": a worn header of three groups in the first half. While a header stands behind it, a restart
/// is refused by its block, behind the bodies before it; else the group before is taken. What stands behind in the half counts
/// by kind and check alone.
#[test]
fn worn_headers() {
    let before = "start 3 0 9 10 25 9216 => started
        checkpoint => 1,0
        checkpoint => 3,2
        claim 0 0 => deliver 0 0 1
        checkpoint => 5,4\n";
    let [none, first, second, third] = [
        ("none", 0, 1, 0),
        ("none", 4096, 2, 2),
        ("none", 4096, 3, 4),
        ("0:1", 4097, 4, 6),
    ]
    .map(|(carried, next, group, block)| {
        format!(
            "restart => restarted
            state => state committed 0 ranges none leases none carried {carried} next {next} ceiling {next} counter 0 group {group} block {block} half 0"
        )
    });
    for (worn, right) in [
        ("poke 0 511 0 => poked", "restart => refused 5 0"),
        ("poke 2 511 0 => poked", "restart => refused 5 2"),
        ("poke 4 511 0 => poked", &second[..]),
        ("poke 2 511 0 => poked\npoke 4 0 2 => poked", &first[..]),
        ("poke 0 511 0 => poked\npoke 2 4 9 => poked\npoke 4 0 0 => poked", &none[..]),
        ("poke 2 511 0 => poked\npoke 1 9 1 => poked", "restart => refused 5 1"),
        (
            "poke 2 511 0 => poked\npoke 3 9 1 => poked\npoke 5 9 1 => poked",
            "restart => refused 5 2",
        ),
        (
            &format!("poke 2 511 0 => poked\npoke 4 511 0 => poked\n{}", head(8)),
            "restart => refused 5 2",
        ),
        (&head(8), "restart => refused 5 6"),
        (&head(7), "restart => refused 5 6"),
        (&head(9), &third[..]),
        (&head(17), &third[..]),
        (&head(4), &second[..]),
    ] {
        play(&format!("{before}{worn}\n{right}"));
    }
}

/// Makes a block one of kind 1 with a right check and zeros else, whatever it was.
fn head(block: usize) -> String {
    let mut bytes = [0; 512];
    bytes[0] = 1;
    seal(&mut bytes);
    let pokes = (0..512).map(|i| format!("poke {block} {i} {} => poked\n", bytes[i]));
    pokes.collect()
}

#[test]
fn calls_out_of_place() {
    play(
        "restart => not now
        peek 0 => not now
        claim x 0 => bad line
        start 0 0 0 1 1 0 => refused 1
        start 1 0 0 1 1 0 1 1 1 1 1 1 1 1 1 1 1 1 1 1 1 1 1 => refused 2
        start 1 0 0 1 1 0 => refused 3
        start 1 0 1 1 1 0 => refused 4
        start 1 0 1 1 1 66048 => refused 4
        start 1 0 1 1 1 66560 => refused 4
        start 1 0 1 1 1 8192 => refused 4
        start 1 0 1 1 1 8704 => refused 4
        start 1 0 1 1 1 9728 => refused 4
        start 1 0 1 1 1 9217 => refused 4
        state => not now
        start 1 0 1 1 1 10240 => started
        start 1 0 1 1 1 1 => refused 4
        step => not now
        cut old => not now
        begin => begun 2
        begin => not now
        claim 0 0 => not now
        state => not now
        step 10241 => not now
        step 9216 => refused 4
        step 10240 => wrote 1
        restart 0 => refused 4
        restart 9728 => refused 4
        poke 20 0 0 => not now
        poke 1 512 0 => not now
        poke 1 0 256 => not now
        peek 20 => not now
        step => done 0
        restart 9216 => restarted
        restart 10240 => not now
        peek 18 => not now
        state => state committed 0 ranges none leases none carried none next 4096 ceiling 4096 counter 0 group 2 block 2 half 0",
    );
}

/// SPEC.md, "Rights": 38 and 39 before all else that a call could answer, 40 right behind 24.
#[test]
fn workers_and_rights() {
    play(
        "worker 18446744073709551615 => worker 18446744073709551615
        rights 1 127 => rights
        rights 2 128 => rights
        rights 8 0 => bad line
        rights 0 256 => bad line
        claim 0 0 => not now
        start 2 0 9 10 25 9216 5 => started
        begin => refused 38
        worker 0 => worker 0
        checkpoint => 1,0
        claim 0 0 => deliver 0 0 1
        worker 1 => worker 1
        ack 0 0 => refused 40
        progress 0 0 25 => refused 40
        nack 0 1 0 => refused 24
        claim 0 9 => refused 23
        claim 0 10 => deliver 0 1 2
        nack 0 0 10 => refused 24
        worker 0 => worker 0
        term 0 1 => refused 40
        ack 0 0 => refused 24
        worker 1 => worker 1
        nack 0 1 10 => requeued 15
        worker 0 => worker 0
        nack 0 2 10 => refused 40
        worker 1 => worker 1
        progress 0 2 12 => extended 22
        worker 2 => worker 2
        claim 18446744073709551615 0 => refused 39
        ack 0 0 => refused 39
        nack 0 0 0 => refused 39
        progress 0 0 0 => refused 39
        commit 0 => refused 39
        waiting 0 => refused 39
        begin => refused 39
        worker 8 => worker 8
        claim 18446744073709551615 0 => refused 38
        commit 0 => refused 38
        waiting 0 => refused 38
        state => state committed 0 ranges none leases 0:2:10:22:2 carried none next 3 ceiling 4096 counter 1 group 2 block 2 half 0
        restart => restarted
        worker 0 => worker 0
        begin => begun 2
        worker 8 => worker 8
        claim 0 0 => not now
        step => wrote 3
        step => done 2",
    );
}

/// SPEC.md, "Rights": a restart takes the rights that it is handed; what is said touches no consumer that is running.
#[test]
fn rights_of_a_restart() {
    play(
        "start 2 0 9 10 25 9216 => started
        rights 0 119 => rights
        rights 3 32 => rights
        checkpoint => 1,0
        progress 5 5 5 => refused 24
        poke 1 9 77 => poked
        restart => refused 5 1
        progress 5 5 5 => refused 24
        poke 1 9 0 => poked
        restart => restarted
        progress 5 5 5 => refused 39
        ack 5 5 => refused 24
        worker 3 => worker 3
        checkpoint => 3,2
        claim 0 0 => refused 39
        waiting 0 => refused 39
        rights 3 33 => rights
        begin => begun 2
        cut new => cut 5
        claim 0 0 => not now
        restart => restarted
        claim 0 0 => refused 26
        checkpoint => 5,4
        claim 0 0 => deliver 0 8192 1",
    );
}

/// SPEC.md, "View": what a worker and a supervisor are shown. Worker 1 is a supervisor, worker 2 a worker, worker 3 has the mark
/// alone.
#[test]
fn views() {
    play(
        "view 0 0 => not now
        rights 1 192 => rights
        rights 2 64 => rights
        rights 3 128 => rights
        start 3 0 9 10 25 9216 => started
        checkpoint => 1,0
        claim 4 100 => deliver 4 0 1
        view 4 109 => view held
        view 4 110 => view waiting
        view 5 0 => view waiting
        view 18446744073709551615 0 => view waiting
        worker 1 => worker 1
        view 4 109 => view held 1 0 110 0
        view 4 110 => view waiting 1 0 110 0
        view 5 0 => view waiting 0 none none none
        view 18446744073709551615 0 => view waiting 0 none none none
        worker 3 => worker 3
        view 4 109 => refused 39
        worker 8 => worker 8
        view 4 109 => refused 38
        worker 0 => worker 0
        nack 4 0 100 20 => requeued 120
        worker 1 => worker 1
        view 4 119 => view held 1 1 120 0
        view 4 120 => view waiting 1 1 120 0
        worker 2 => worker 2
        view 4 119 => view held
        worker 0 => worker 0
        begin => begun 2
        view 4 0 => not now
        step => wrote 3
        step => done 2
        restart => restarted
        view 4 0 => view waiting
        worker 1 => worker 1
        view 4 0 => view waiting 1 none none none
        worker 0 => worker 0
        commit 5 => committed
        view 4 0 => view settled
        worker 1 => worker 1
        view 4 0 => view settled none none none none
        view 5 0 => view waiting 0 none none none
        worker 2 => worker 2
        view 4 0 => view settled",
    );
}

/// The scripts that `oracle/run compare` uses show every kind of view.
#[test]
fn scripts_have_views() {
    let mut met = BTreeMap::new();
    for lines in scripts() {
        for answer in given(lines) {
            if let Some(view) = answer.strip_prefix("view ") {
                let words = view.split(' ');
                let shape: Vec<&str> = words
                    .map(|word| {
                        if word.starts_with(|c: char| c.is_ascii_digit()) {
                            "#"
                        } else {
                            word
                        }
                    })
                    .collect();
                *met.entry(shape.join(" ")).or_insert(0) += 1;
            }
        }
    }
    for shape in [
        "settled",
        "held",
        "waiting",
        "settled none none none none",
        "waiting # none none none",
        "held # # # #",
        "waiting # # # #",
    ] {
        assert!(met.get(shape) >= Some(&20), "{met:?}");
    }
    assert_eq!(met.len(), 7, "{met:?}");
}

/// Lines that get no answer, and a last line without a line end.
#[test]
fn lines_of_a_text() {
    assert_eq!(answers(b"\n# state\n\nstate\n\0\r\n#"), "not now\nbad line\n");
    assert_eq!(answers(b"state"), "not now\n");
    assert_eq!(answers(b""), "");
    assert_eq!(answers(b"state\r\n\r\n# \r\nstate\r"), "not now\nnot now\n");
}

/// A bad line is told the first form that begins as it does, behind `help` alone.
#[test]
fn help_and_bad_lines() {
    let given = answers(b"claim 0\nhelp\nclaim 0\nnack 1\r\nrights 8 0\n claim 0 0\nhours\nhelp 1\nno");
    let given: Vec<&str> = given.lines().collect();
    assert_eq!(
        (given[0], given[1 + help::count()]),
        ("bad line", "bad line: claim OFFSET NOW: hands an offset out")
    );
    let begins = [
        "nack OFFSET GENERATION NOW: ",
        "rights WORKER MASK: ",
        "",
        "hours SHIFT MON ",
        "help: ",
        "",
    ];
    for (line, begins) in given[2 + help::count()..].iter().zip(begins) {
        let told = if begins.is_empty() {
            "bad line".to_string()
        } else {
            format!("bad line: {begins}")
        };
        assert!(line.starts_with(&told) && (!begins.is_empty() || *line == told), "{line}");
    }
}

/// The scripts that `oracle/run compare` uses have calls that end in a carriage return, and bad lines before and behind `help`.
#[test]
fn scripts_have_lines_of_people() {
    let mut met = Met::default();
    for lines in scripts() {
        let mut program = Program::default();
        for line in lines {
            let told = program.told;
            let answer = program.answer(line).unwrap_or_default();
            met.add(holding([
                ("help", matches!(read(line), Some(Call::Help))),
                ("returned", line.ends_with(b"\r") && read(line).is_some()),
                ("bad", answer == "bad line" && !told),
                ("not told", answer == "bad line" && told),
                ("told", answer.starts_with("bad line: ")),
            ]));
        }
    }
    met.want(&[
        ("help", 100),
        ("returned", 300),
        ("bad", 300),
        ("not told", 50),
        ("told", 300),
    ]);
}

/// A bound that is passed is shown as a difference is.
#[test]
fn a_bound_is_shown() {
    let text = b"start 2 0 1 10 25 9216\nclaim 0 0";
    assert_eq!(bounds_of(text, "started\nrefused 26\n"), Ok(()));
    let said = bounds_of(
        &[&text[..], b"\n\nclaim 0 9"].concat(),
        "started\ndeliver 0 0 2\ndeliver 0 0 2\n",
    );
    assert!(said.unwrap_err().starts_with("line 4: claim 0 9\n  2 deliveries"));
}

#[test]
fn a_difference_is_shown() {
    let text = b"start 1 0 1 1 1 9216\n\nbegin\nstep\n";
    assert_eq!(difference(text, "started\nbegun 2\nwrote 1\n"), Ok(3));
    let said = difference(text, "started\nbegun 2\nwrote 0\n").unwrap_err();
    assert!(said.contains("line 4: step\n  the model:   wrote 1\n  the program: wrote 0\n  before it:   worker 0, not now"));
    assert!(difference(text, "started\nbegun 2\n").is_err());
    assert!(difference(text, "started\nbegun 2\nwrote 1\nmore\n").is_err());
}

/// SPEC.md, "Halves": the second half is zeroed from its first block on, and the group that doesn't fit the first is written
/// there; back again when that is full. The next block of a full half is its end.
#[test]
fn switches() {
    let state = |ceiling: u64, group, block, half| {
        format!(
            "state => state committed 0 ranges none leases none carried none next 0 ceiling {ceiling} counter 0 group {group} block {block} half {half}\n"
        )
    };
    let zeros = |from: usize| (from..from + 9).map(|block| format!("{block},")).collect::<String>();
    play(&format!(
        "start 3 0 9 10 25 9216 => started
        {}checkpoint => 1,0
        checkpoint => 3,2
        checkpoint => 5,4
        checkpoint => 7,6
        {}checkpoint => {}10,9
        {}checkpoint => 12,11
        checkpoint => 14,13
        checkpoint => 16,15
        checkpoint => {}1,0
        {}restart => restarted
        state => state committed 0 ranges none leases none carried none next 4096 ceiling 4096 counter 0 group 10 block 2 half 0",
        state(0, 1, 0, 0),
        state(4096, 5, 8, 0),
        zeros(9),
        state(4096, 6, 11, 1),
        zeros(0),
        state(4096, 10, 2, 0),
    ));
    let full = (0..5)
        .map(|i| format!("checkpoint => {},{}\n", 2 * i + 1, 2 * i))
        .collect::<String>();
    let zeros = (10..20).map(|block| format!("{block},")).collect::<String>();
    play(&format!(
        "start 3 0 9 10 25 10240 => started
        {full}{}checkpoint => {zeros}11,10
        poke 10 9 0 => poked
        restart => restarted
        state => state committed 0 ranges none leases none carried none next 4096 ceiling 4096 counter 0 group 6 block 10 half 0",
        state(4096, 6, 10, 0)
    ));
}

/// Brings a journal of 18 blocks to where the next group goes to the other half: the first, the second, the first again.
fn before_a_switch(switches: u64) -> Program {
    let mut program = Program::default();
    program.answer(b"start 3 0 9 10 25 9216");
    for i in 0..4 * (switches + 1) {
        program.answer(format!("claim {i} 0").as_bytes());
        program.answer(b"begin");
        while program.consumer().is_none() {
            program.answer(b"step");
        }
    }
    program.answer(b"claim 77 0");
    program
}

/// SPEC.md, "Halves": every write of a switch cut in every way. A restart finds what it would have found before, but where the
/// header was left new; then the checkpoint is made again, and found.
#[test]
fn switches_cut_everywhere() {
    for (switches, kind) in [0, 1, 2]
        .into_iter()
        .flat_map(|n| ["old", "new", "torn"].map(|kind| (n, kind)))
    {
        for steps in 0..11 {
            let mut program = before_a_switch(switches);
            program.answer(b"restart");
            let old = program.answer(b"state");
            let mut program = before_a_switch(switches);
            assert_eq!(program.answer(b"begin").as_deref(), Some("begun 11"));
            for _ in 0..steps {
                program.answer(b"step");
            }
            let block = [9, 0][switches as usize % 2] + [0, 1, 2, 3, 4, 5, 6, 7, 8, 1, 0][steps];
            assert_eq!(program.answer(format!("cut {kind}").as_bytes()), Some(format!("cut {block}")));
            assert_eq!(program.answer(b"restart").as_deref(), Some("restarted"));
            let found = program.answer(b"state");
            let made = steps == 10 && kind == "new";
            assert_eq!(found == old, !made);
            let begun = if made { "begun 2" } else { "begun 11" };
            assert_eq!(program.answer(b"begin").as_deref(), Some(begun));
            while program.consumer().is_none() {
                program.answer(b"step");
            }
            let done = program
                .consumer()
                .map(|consumer| (consumer.group, consumer.block, consumer.half));
            assert_eq!(program.answer(b"restart").as_deref(), Some("restarted"));
            assert_eq!(
                program
                    .consumer()
                    .map(|consumer| (consumer.group, consumer.block, consumer.half)),
                done
            );
        }
    }
}

/// Pokes that write a group with nothing but its number in it.
fn group(number: u32, at: usize) -> String {
    group_up_to(number.into(), number, at)
}

/// The same with a ceiling.
fn group_up_to(ceiling: u64, number: u32, at: usize) -> String {
    let stored = Stored {
        ceiling,
        cursor: vec![1, 0, 0, 0, 0, 0, 0, 0, 0, 235, 190, 219, 79],
        attempts: vec![2, 0, 0, 0, 0, 109, 169, 80, 53],
    };
    let pokes = writes(&stored, number, at).into_iter().flat_map(|(block, bytes)| {
        let of_byte = |(i, value)| format!("poke {block} {i} {value} => poked\n");
        bytes.into_iter().enumerate().map(of_byte).collect::<Vec<_>>()
    });
    pokes.collect()
}

/// What a restart finds: the ceiling, which is the number of the last group, and the next one's number, block and half.
fn finds(last: u64, block: usize, half: usize) -> String {
    let next = last + 1;
    format!(
        "restart => restarted
        state => state committed 0 ranges none leases none carried none next {last} ceiling {last} counter 0 group {next} block {block} half {half}\n"
    )
}

/// SPEC.md, "Halves": which half is in use, by what stands in the two first blocks; and what a restart refuses in it.
#[test]
fn halves_of_a_journal() {
    let start = "start 3 0 9 10 25 9216 => started\n".to_string();
    let many = |numbers: std::ops::Range<u32>, at: usize| {
        let first = numbers.start;
        numbers.map(|n| group(n, at + 2 * (n - first) as usize)).collect::<String>()
    };
    for right in [
        // nothing; one half; two, the greater number in the first or in the second; equal numbers
        finds(0, 0, 0),
        many(1..4, 0) + &finds(3, 6, 0),
        many(7..9, 9) + &finds(8, 13, 1),
        many(7..9, 0) + &many(1..5, 9) + &finds(8, 4, 0),
        many(1..5, 0) + &many(5..8, 9) + &finds(7, 15, 1),
        many(5..7, 0) + &many(5..9, 9) + &finds(6, 4, 0),
        group(0, 0) + &finds(0, 2, 0),
        // the first block counts, not the last: three groups up to 9 against one of 8
        many(7..10, 0) + &group(8, 9) + &finds(8, 11, 1),
        // the first block of the half in use is worn: the other half, whatever stands behind
        many(1..5, 0) + &many(5..8, 9) + "poke 9 100 1 => poked\n" + &finds(4, 8, 0),
        many(1..5, 9) + &many(5..8, 0) + "poke 0 0 2 => poked\n" + &finds(4, 17, 1),
        // both are worn: no group, and headers behind in the first half are refused
        many(1..3, 0) + &many(5..8, 9) + "poke 9 100 1 => poked\npoke 0 100 1 => poked\nrestart => refused 5 0",
        group(1, 0) + &many(5..8, 9) + "poke 9 100 1 => poked\npoke 0 100 1 => poked\n" + &finds(0, 0, 0),
        // a worn header in the half in use; what is worn in the other is not judged
        many(1..5, 0) + &many(5..8, 9) + "poke 11 100 1 => poked\nrestart => refused 5 11",
        many(1..5, 0) + &many(5..8, 9) + "poke 14 100 1 => poked\nrestart => refused 5 14",
        many(1..5, 0) + &many(5..8, 9) + "poke 2 100 1 => poked\npoke 1 100 1 => poked\n" + &finds(7, 15, 1),
        // a group across the middle, behind a worn body, with another number, with another fault; one that ends in the area
        many(1..6, 0) + "restart => refused 5 8",
        many(1..6, 0) + "poke 7 100 1 => poked\nrestart => refused 5 7",
        many(1..5, 0) + &group(6, 8) + &finds(4, 8, 0),
        many(1..6, 0) + "poke 8 100 1 => poked\n" + &finds(4, 8, 0),
        many(1..9, 0) + "restart => refused 5 8",
    ] {
        play(&(start.clone() + &right));
    }
    // one that begins on the middle
    let start = "start 3 0 9 10 25 10240 => started\n".to_string();
    play(&(start.clone() + &many(1..6, 0) + &finds(5, 10, 0)));
    play(&(start.clone() + &many(1..8, 0) + &finds(7, 14, 1)));
    // the same on less of the area, whose middle is another
    play(&(start + &many(1..8, 0) + "restart 9216 => refused 5 8"));
}

/// SPEC.md, "Halves": the last number, and none behind it, whether there is room in the half or not.
#[test]
fn the_last_number() {
    let number = u32::MAX;
    let zeros = (9..18).map(|block| format!("{block},")).collect::<String>();
    for (before, right) in [
        (
            group(number, 0) + &finds(number.into(), 2, 0),
            "begin => refused 31".to_string(),
        ),
        (
            group(number - 1, 0) + &finds(u64::from(number) - 1, 2, 0),
            "checkpoint => 3,2\nbegin => refused 31\nrestart => restarted\nbegin => refused 31".to_string(),
        ),
        (
            (0..4).map(|i| group(number - 4 + i, 2 * i as usize)).collect::<String>() + &finds(u64::from(number) - 1, 8, 0),
            format!("checkpoint => {zeros}10,9\nbegin => refused 31\nrestart => restarted\nbegin => refused 31"),
        ),
        (
            (0..4).map(|i| group(number - 3 + i, 2 * i as usize)).collect::<String>() + &finds(number.into(), 8, 0),
            "begin => refused 31".to_string(),
        ),
        (
            group(number, 0) + &group(number, 9) + &finds(number.into(), 2, 0),
            "begin => refused 31".to_string(),
        ),
    ] {
        play(&format!("start 3 0 9 10 25 9216 => started\n{before}{right}"));
    }
}

/// The first words of all answers to these scripts, and the refusals.
fn answered(scripts: &[Vec<Vec<u8>>], fresh: &Program) -> (BTreeSet<String>, BTreeSet<u64>) {
    let mut words = BTreeSet::new();
    let mut refusals = BTreeSet::new();
    for lines in scripts {
        for answer in given_by(fresh.clone(), lines) {
            let mut parts = answer.split(' ');
            words.insert(parts.next().unwrap().to_string());
            if answer.starts_with("refused") {
                refusals.insert(parts.next().unwrap().parse::<u64>().unwrap());
            }
        }
    }
    (words, refusals)
}

/// The scripts that `oracle/run compare` uses have every kind of answer, and every refusal that a script can meet: all but 6, 12, 13
/// and 19, which a sound header's lengths rule out, and 30, which nothing meets any longer.
#[test]
fn scripts_have_everything() {
    let (words, refusals) = answered(scripts(), &Program::default());
    assert_eq!(words.len(), 27, "{words:?}");
    assert_eq!(
        refusals,
        (1..=5).chain(7..=11).chain(14..=18).chain(20..=29).chain(31..=40).collect()
    );
}

/// Those that move in and out have every refusal: all but 30.
#[test]
fn moving_scripts_have_everything() {
    let (words, refusals) = answered(moving_scripts(), &Program::moving());
    assert_eq!(words.len(), 29, "{words:?}");
    assert_eq!(refusals, (1..=29).chain(31..=40).collect());
}

/// What a call that was refused 38, 39 or 40 would be answered without workers: its first word, or the refusal's number.
fn without_workers(program: &Program, line: &[u8]) -> Option<String> {
    let consumer = program.consumer()?.with_rights(Rights([127; WORKERS]));
    let call = read(line)?;
    let owner = match call {
        Call::Settle(offset, _) | Call::Nack(offset, ..) | Call::Progress(offset, ..) => consumer.holder(offset),
        _ => None,
    };
    let owner = owner.unwrap_or(0);
    let answer = match call {
        Call::Begin => consumer.begin(owner).map(|_| "begun".to_string()),
        _ => ask(&mut consumer.clone(), owner, &call),
    };
    Some(match answer {
        Ok(answer) => answer.split(' ').next().unwrap().to_string(),
        Err(code) => code[0].to_string(),
    })
}

/// That these scripts refuse every call for its worker and its right, and every token for its owner; and so where something else would have
/// been refused too, each refusal of these calls at least once. `more` has a call beside the others, and what it answers.
fn have_workers<'a>(scripts: impl Iterator<Item = &'a Vec<Vec<u8>>>, fresh: &Program, more: Option<(&str, &str)>) {
    let mut met = BTreeMap::new();
    let mut instead: BTreeMap<&str, BTreeSet<String>> = BTreeMap::new();
    for lines in scripts {
        let mut program = fresh.clone();
        for line in lines {
            let other = without_workers(&program, line);
            let answer = program.answer(line).unwrap_or_default();
            let Some(refusal) = ["38", "39", "40"].into_iter().find(|n| answer == format!("refused {n}")) else {
                continue;
            };
            let word = String::from_utf8_lossy(line).split(' ').next().unwrap().to_string();
            *met.entry((refusal, word)).or_insert(0) += 1;
            instead.entry(refusal).or_default().extend(other);
        }
    }
    let words = [
        "claim", "ack", "term", "nack", "progress", "commit", "begin", "waiting", "view", "open", "nearest", "plan",
    ];
    for word in words.into_iter().chain(more.map(|(word, _)| word)) {
        assert!(met.get(&("38", word.to_string())) >= Some(&20), "{word} {met:?}");
        assert!(met.get(&("39", word.to_string())) >= Some(&40), "{word} {met:?}");
    }
    for word in ["ack", "term", "nack", "progress"] {
        assert!(met.get(&("40", word.to_string())) >= Some(&20), "{word} {met:?}");
    }
    let has = |refusal: &str, answers: &str| {
        let seen = &instead[refusal];
        assert!(answers.split(' ').all(|answer| seen.contains(answer)), "{refusal} {seen:?}");
    };
    for refusal in ["38", "39"] {
        has(refusal, "20 21 22 23 24 26 27 28 31 32 35 36 37 unchanged committed");
        has(refusal, "begun deliver settled requeued extended waiting open nearest plan");
        if let Some((_, answer)) = more {
            has(refusal, answer);
        }
    }
    has("40", "25 26 28 29 settled requeued extended");
}

/// The scripts that `oracle/run compare` uses have workers.
#[test]
fn scripts_have_workers() {
    let long = [script(1, 9_000), script(2, 9_000)];
    have_workers(scripts().iter().chain(&long), &Program::default(), None);
}

/// So have those that move in and out.
#[test]
fn moving_scripts_have_workers() {
    let long = [moving_script(1, 9_000), moving_script(2, 9_000)];
    have_workers(
        moving_scripts().iter().chain(&long),
        &Program::moving(),
        Some(("export", "exported")),
    );
}

/// SPEC.md, "Rights": a script without the refused calls of one worker gives all else the same answers.
#[test]
fn refused_calls_left_out() {
    let mut left_out = 0;
    for lines in &scripts()[..10] {
        let mut whole = Program::default();
        let mut less: Vec<Program> = (0..WORKERS).map(|_| Program::default()).collect();
        for line in lines {
            let worker = whole.worker;
            let answer = whole.answer(line);
            let refused = answer.as_deref().is_some_and(|answer| answer.starts_with("refused"));
            let a_call = !matches!(read(line), Some(Call::Start(_) | Call::Step(_) | Call::Restart(_)));
            for (i, program) in less.iter_mut().enumerate() {
                if refused && a_call && worker == i as u64 {
                    left_out += 1;
                } else {
                    assert_eq!(program.answer(line), answer);
                }
            }
        }
    }
    assert!(left_out >= 1_000, "{left_out}");
}

/// What a restart on an area meets of worn headers.
#[derive(Clone, Copy, Debug, PartialEq, Eq, PartialOrd, Ord)]
enum Worn {
    /// A header behind the walk, which ended in the first group or in a later one.
    First,
    Middle,
    /// The headers behind the walk are sound in kind and check alone.
    LookAlike,
    /// No header behind the walk, which ended where its group has bodies.
    Last,
    /// An unsound body on the walk, and headers behind it.
    BodyFirst,
    None,
}

/// Whether a header that is sound, of whatever group, stands behind the block in the half.
fn formed_behind(area: &[u8], half: Half, block: usize) -> bool {
    (block + 1..half.end).any(|i| formed_header(block_of(area, i)).is_some())
}

fn worn(area: &[u8]) -> Worn {
    match walk(area) {
        Err(code) if header_behind(area, in_use(area).0, code[1] as usize) => Worn::BodyFirst,
        Err(_) => Worn::None,
        Ok(found) if formed_behind(area, found.half, found.block) => match found.last {
            None => Worn::First,
            Some(_) => Worn::Middle,
        },
        Ok(found) if header_behind(area, found.half, found.block) => Worn::LookAlike,
        Ok(found) => match area.chunks(512).nth(found.block + 1) {
            Some(block) if block[0] == 2 => Worn::Last,
            _ => Worn::None,
        },
    }
}

/// The scripts that `oracle/run compare` uses often have a header behind the walk, wherever one is worn.
#[test]
fn scripts_have_worn_headers() {
    let mut met = BTreeMap::new();
    for lines in scripts() {
        let mut program = Program::default();
        for line in lines {
            if let (b"restart", Some(started)) = (&line[..], &program.started) {
                *met.entry(worn(&started.area)).or_insert(0) += 1;
            }
            program.answer(line);
        }
    }
    for kind in [Worn::First, Worn::Middle, Worn::LookAlike, Worn::Last, Worn::BodyFirst] {
        assert!(met.get(&kind) >= Some(&100), "{met:?}");
    }
}

/// What of the halves a restart on an area meets.
fn halves_met(area: &[u8]) -> Vec<&'static str> {
    let (half, first) = in_use(area);
    let firsts = [half, half.other()].map(|half| formed_header(block_of(area, half.from)));
    let mut met = vec![match firsts {
        [Some(a), Some(b)] if a.group == b.group => "equal numbers",
        [Some(_), Some(_)] => "two first blocks",
        [Some(_), None] => "one first block",
        _ => "no first block",
    }];
    let of = |names: [&'static str; 2]| names[half.number];
    met.push(of(["the first half", "the second half"]));
    if firsts[0].is_some() && first == 0 {
        met.push("group 0");
    }
    match walk(area) {
        Err(_) => met.push(of(["a body of the first half", "a body of the second half"])),
        Ok(found) if ends_unfit(area, &found) => met.push("no room for a header's bodies"),
        Ok(found) if header_behind(area, half, found.block) => {
            met.push(match firsts[0] {
                Some(_) => of(["a header behind in the first half", "a header behind in the second half"]),
                None => "a header behind no group",
            });
        }
        Ok(found) => {
            if found.block == half.end {
                met.push("a full half");
            }
            if found.group > u64::from(u32::MAX) {
                met.push("no number left");
            }
            if header_behind(area, half.other(), half.other().from) {
                met.push("headers in the other half");
            }
        }
    }
    met
}

/// What of the halves a begin or a cut meets.
fn writes_met(program: &Program, line: &[u8]) -> Option<&'static str> {
    let phase = &program.started.as_ref()?.phase;
    match (line, phase) {
        (b"begin", Phase::Idle(consumer)) => match consumer.with_rights(Rights([127; WORKERS])).begin(0) {
            Err(_) if consumer.block == consumer.half.end => Some("31 in a full half"),
            Err(_) => Some("31"),
            Ok(writing) if writing.after.half != consumer.half => Some("a switch"),
            Ok(_) => None,
        },
        (b"cut old" | b"cut new" | b"cut torn", Phase::Writing(writing)) => {
            let bodies = writing.after.half.end - writing.after.half.from;
            let zeroing = writing.writes[0].1.iter().all(|&byte| byte == 0);
            match (zeroing, &line[4..]) {
                (true, b"old") => Some("zeros left old"),
                (true, b"new") => Some("zeros left new"),
                (true, _) => Some("zeros left torn"),
                _ if writing.writes.len() > 1 => Some("a body cut"),
                _ if writing.after.block - writing.after.half.from < bodies => Some("a header cut"),
                _ => Some("the header cut that fills its half"),
            }
        }
        _ => None,
    }
}

/// The scripts that `oracle/run compare` uses meet each of these often.
#[test]
fn scripts_have_halves() {
    let mut met = BTreeMap::new();
    for lines in scripts() {
        let mut program = Program::default();
        for line in lines {
            let mut now: Vec<&str> = writes_met(&program, line).into_iter().collect();
            if let (b"restart", Some(started)) = (&line[..], &program.started) {
                now.extend(halves_met(&started.area));
            }
            for what in now {
                *met.entry(what).or_insert(0) += 1;
            }
            program.answer(line);
        }
    }
    for (what, least) in [
        ("equal numbers", 20),
        ("two first blocks", 200),
        ("one first block", 1_000),
        ("no first block", 50),
        ("the first half", 1_000),
        ("the second half", 300),
        ("group 0", 10),
        ("a body of the first half", 50),
        ("a body of the second half", 20),
        ("no room for a header's bodies", 20),
        ("a header behind in the first half", 100),
        ("a header behind in the second half", 30),
        ("a header behind no group", 50),
        ("a full half", 50),
        ("no number left", 20),
        ("headers in the other half", 200),
        ("31", 20),
        ("31 in a full half", 5),
        ("a switch", 200),
        ("zeros left old", 50),
        ("zeros left new", 50),
        ("zeros left torn", 50),
        ("a body cut", 200),
        ("a header cut", 200),
        ("the header cut that fills its half", 5),
    ] {
        assert!(met.get(what) >= Some(&least), "{what} {met:?}");
    }
}

/// What a restart would find, as its `state` says it, or its refusal.
fn found_by_restart(program: &Program) -> Option<String> {
    let mut copy = program.clone();
    let answer = copy.answer(b"restart");
    match answer.as_deref() {
        Some("restarted") => copy.answer(b"state"),
        _ => answer,
    }
}

/// SPEC.md, "Halves": where the journal is the consumer's own, whatever write of a checkpoint is cut, and however, the restart
/// finds what it would have found before, but where the header was left new.
#[test]
fn cuts_keep_the_last_checkpoint() {
    let mut compared = 0;
    for lines in scripts() {
        let mut program = Program::default();
        let mut before = None;
        for line in lines {
            let place = |program: &Program| {
                program
                    .consumer()
                    .map(|consumer| (consumer.group, consumer.block, consumer.half))
            };
            if line == b"begin" && program.consumer().is_some() {
                let mut copy = program.clone();
                let own = copy.answer(b"restart").as_deref() == Some("restarted") && place(&copy) == place(&program);
                before = own.then(|| found_by_restart(&program));
            }
            if line.starts_with(b"poke") {
                before = None;
            }
            let last = match program.started.as_ref().map(|started| &started.phase) {
                Some(Phase::Writing(writing)) => writing.writes.len() == 1,
                _ => false,
            };
            let answer = program.answer(line).unwrap_or_default();
            if let (true, Some(before)) = (answer.starts_with("cut "), &before) {
                assert_eq!(found_by_restart(&program) == *before, !(last && line == b"cut new"));
                compared += 1;
            }
        }
    }
    assert!(compared >= 500, "{compared}");
}

/// Version 1 in place of version 2, in the last group of an area; nothing where there is none such.
fn older(area: &[u8]) -> Option<Vec<u8>> {
    let found = walk(area).ok()?;
    let last = found.last.filter(|last| last.attempts[0] == 2)?;
    let header = found.block - 1 - bodies_for(last.cursor.len() + last.attempts.len());
    let mut old = area.to_vec();
    for (block, bytes) in rewritten(area, header, as_version_1) {
        old[512 * block..512 * (block + 1)].copy_from_slice(&bytes);
    }
    Some(old)
}

/// SPEC.md, "Attempt snapshot": the restart's answer and state don't depend on the version found, whatever the made scripts left
/// in the area.
#[test]
fn restarts_on_both_versions() {
    let mut compared = 0;
    for lines in &scripts()[..10] {
        let mut program = Program::default();
        for line in lines {
            let old = program.started.as_ref().and_then(|started| older(&started.area));
            let answer = program.answer(line);
            let (b"restart", Some(old)) = (&line[..], old) else { continue };
            let started = program.started.as_mut().unwrap();
            let area = std::mem::replace(&mut started.area, old);
            let found = program.answer(b"state");
            assert_eq!(program.answer(line), answer);
            assert_eq!(program.answer(b"state"), found);
            program.started.as_mut().unwrap().area = area;
            compared += 1;
        }
    }
    assert!(compared >= 500, "{compared}");
}

/// The scripts that `oracle/run compare` uses have restarts on both versions and on others, where the last group alone is read.
#[test]
fn scripts_have_versions() {
    let mut met = BTreeMap::new();
    for lines in scripts() {
        let mut program = Program::default();
        for line in lines {
            if let (b"restart", Some(started)) = (&line[..], &program.started) {
                let last = walk(&started.area).ok().and_then(|found| found.last);
                if let Some(stored) = last {
                    *met.entry(stored.attempts[0]).or_insert(0) += 1;
                }
            }
            program.answer(line);
        }
    }
    for (version, least) in [(0, 20), (1, 100), (2, 1_000), (3, 20), (255, 20)] {
        assert!(met.get(&version) >= Some(&least), "{met:?}");
    }
}
