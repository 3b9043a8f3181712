//! SPEC.md, "Commit": a commit over jobs that are held.
use super::{holding, play, scripts, Met};
use crate::consumer::Consumer;
use crate::line::{read, Call};
use crate::program::Program;
use ironbus::types::Offset;
use std::collections::BTreeSet;

/// Leases and counts below the bound go, that at the bound stays; generations, ceiling and counter are as they were.
#[test]
fn what_is_held_is_dropped() {
    play(
        "rights 1 127 => rights
        rights 2 112 => rights
        start 9 0 9 10 25 9216 => started
        checkpoint => 1,0
        claim 0 0 => deliver 0 0 1
        claim 1 0 => deliver 1 1 1
        checkpoint => 3,2
        restart => restarted
        checkpoint => 5,4
        claim 1 0 => deliver 1 4098 2
        claim 2 0 => deliver 2 4099 1
        worker 1 => worker 1
        claim 3 0 => deliver 3 4100 1
        claim 4 0 => deliver 4 4101 1
        claim 6 0 => deliver 6 4102 1
        claim 5 0 => deliver 5 4103 1
        ack 5 4103 => settled
        worker 0 => worker 0
        state => state committed 0 ranges 5-6 leases 1:4098:0:10:2,2:4099:0:10:1,3:4100:0:10:1,4:4101:0:10:1,6:4102:0:10:1 carried 0:1 next 4104 ceiling 8194 counter 1 group 4 block 6 half 0
        commit 3 => committed
        state => state committed 3 ranges 5-6 leases 3:4100:0:10:1,4:4101:0:10:1,6:4102:0:10:1 carried none next 4104 ceiling 8194 counter 1 group 4 block 6 half 0
        commit 3 => unchanged
        ack 2 4099 => refused 24
        claim 2 90 => refused 22
        worker 2 => worker 2
        commit 5 => committed
        state => state committed 6 ranges none leases 6:4102:0:10:1 carried none next 4104 ceiling 8194 counter 1 group 4 block 6 half 0
        worker 1 => worker 1
        progress 4 4101 5 => refused 24
        ack 6 4102 => settled",
    );
}

/// The holders' tokens are fenced, for them as for others, behind 38 and 39; a bound of MAX closes all.
#[test]
fn late_tokens() {
    let before = "rights 1 127 => rights
        rights 2 112 => rights
        start 9 0 9 10 25 9216 => started
        checkpoint => 1,0
        claim 7 0 => deliver 7 0 1
        claim 18446744073709551614 0 => deliver 18446744073709551614 1 1
        commit 18446744073709551615 => committed
        state => state committed 18446744073709551615 ranges none leases none carried none next 2 ceiling 4096 counter 0 group 2 block 2 half 0
        waiting 90 => waiting\n"
        .to_string();
    for (worker, right) in [(0, 24), (1, 24), (2, 39), (8, 38)] {
        let late = [
            "ack 7 0",
            "term 7 0",
            "nack 7 0 5",
            "progress 7 0 5",
            "ack 18446744073709551614 1",
        ]
        .map(|call| format!("{call} => refused {right}\n"))
        .concat();
        play(&format!("{before}worker {worker} => worker {worker}\n{late}"));
    }
}

/// A restart on a checkpoint from before the commit: its jobs are open again, with the counts of that checkpoint.
#[test]
fn open_again() {
    let before = "start 9 0 9 10 25 9216 => started
        checkpoint => 1,0
        claim 0 0 => deliver 0 0 1
        claim 0 10 => deliver 0 1 2
        claim 1 0 => deliver 1 2 1
        checkpoint => 3,2
        claim 0 20 => deliver 0 3 3
        claim 2 0 => deliver 2 4 1
        commit 3 => committed\n"
        .to_string();
    let back = "restart => restarted
        state => state committed 0 ranges none leases none carried 0:2,1:1 next 4099 ceiling 4099 counter 0 group 3 block 4 half 0
        checkpoint => 5,4
        claim 0 0 => deliver 0 4099 3
        claim 2 0 => deliver 2 4100 1
        ack 2 4 => refused 24";
    play(&(before.clone() + back));
    play(&(before.clone() + "begin => begun 2\nstep => wrote 5\ncut torn => cut 4\n" + back));
    play(
        &(before
            + "begin => begun 2
            step => wrote 5
            cut new => cut 4
            restart => restarted
            state => state committed 3 ranges none leases none carried none next 4101 ceiling 4101 counter 0 group 4 block 6 half 0
            claim 2 0 => refused 22"),
    );
}

/// What a worker's commit drops.
fn dropped(consumer: &Consumer, worker: u64, bound: u64) -> Vec<&'static str> {
    let table = consumer.table();
    let below = || table.leases.iter().filter(|lease| lease.offset < bound);
    let ranges = consumer.cursor.ahead_ranges();
    let held = below().count() > 0;
    holding([
        ("nothing held", !held),
        (
            "one's own",
            below().any(|lease| consumer.holder(lease.offset) == Some(worker)),
        ),
        (
            "another's",
            below().any(|lease| consumer.holder(lease.offset) != Some(worker)),
        ),
        ("all leases", held && below().count() == table.leases.len()),
        (
            "but one at the bound",
            held && table.leases.iter().any(|lease| lease.offset == bound),
        ),
        ("counts too", held && table.carried.iter().any(|&(offset, _)| offset < bound)),
        (
            "and a range is swallowed",
            held && ranges.iter().any(|&(start, end)| start <= bound && bound < end),
        ),
    ])
}

/// What a call or a restart meets after commits that dropped such tokens.
fn late(dropped: &BTreeSet<(u64, u64)>, program: &Program, call: &Call, answer: &str) -> Option<String> {
    let token = match *call {
        Call::Settle(offset, generation) | Call::Nack(offset, generation, ..) | Call::Progress(offset, generation, _) => {
            (offset, generation)
        }
        Call::Restart(_) if answer == "restarted" => {
            let consumer = program.consumer()?;
            let open = |&&(offset, _): &&(u64, u64)| !consumer.cursor.is_acked(Offset::new(offset));
            let (offset, _) = dropped.iter().find(open)?;
            let counted = consumer.table().carried.iter().any(|(carried, _)| carried == offset);
            return Some(if counted { "open again, counted" } else { "open again" }.to_string());
        }
        _ => return None,
    };
    (dropped.contains(&token) && answer != "not now").then(|| format!("late {answer}"))
}

/// The scripts that `oracle/run compare` uses have such commits of every kind, late calls, and restarts that go back behind them. No
/// lease lies below what is committed.
#[test]
fn scripts_have_commits_over_leases() {
    let mut met = Met::default();
    for lines in scripts() {
        let mut program = Program::default();
        let mut gone = BTreeSet::new();
        for line in lines {
            let before = program.consumer().cloned();
            let answer = program.answer(line).unwrap_or_default();
            let Some(call) = read(line) else { continue };
            if let (Call::Commit(bound), "committed", Some(before)) = (&call, &answer[..], before) {
                met.add(dropped(&before, program.worker, *bound));
                let leases = before.table().leases;
                let below = leases.iter().filter(|lease| lease.offset < *bound);
                gone.extend(below.map(|lease| (lease.offset, lease.generation)));
                let left = program.consumer().unwrap().table().leases;
                assert!(left.iter().all(|lease| lease.offset >= *bound));
            }
            met.add(late(&gone, &program, &call, &answer));
            if matches!(call, Call::Start(_) | Call::Restart(_)) {
                gone.clear();
            }
        }
    }
    met.want(&[
        ("nothing held", 100),
        ("one's own", 50),
        ("another's", 50),
        ("all leases", 30),
        ("but one at the bound", 20),
        ("counts too", 20),
        ("and a range is swallowed", 20),
        ("late refused 24", 100),
        ("late refused 38", 5),
        ("late refused 39", 5),
        ("open again, counted", 20),
        ("open again", 20),
    ]);
    assert_eq!(met.0.keys().filter(|kind| kind.starts_with("late")).count(), 3, "{:?}", met.0);
}
