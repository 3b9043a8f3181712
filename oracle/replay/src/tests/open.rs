//! SPEC.md, "Open offsets": what is unsettled between two numbers, and the nearest of it.
use super::{holding, play, scripts, Met};
use crate::consumer::Consumer;
use crate::line::{read, Call};
use crate::open::stretches;
use crate::program::Program;
use ironbus::types::Offset;

/// Stretches between settled ranges, clipped at both bounds; 32 before 20, and 38 and 39 before both.
#[test]
fn stretches_and_nearest() {
    play(
        "open 0 1 1 => not now
        nearest 0 => not now
        rights 1 63 => rights
        start 9 0 9 10 25 9216 => started
        open 0 0 0 => open none
        open 0 18446744073709551615 1 => open 0-18446744073709551615
        open 0 18446744073709551615 0 => refused 20
        open 1 0 0 => refused 32
        nearest 0 => nearest 0
        nearest 18446744073709551615 => nearest 18446744073709551615
        checkpoint => 1,0
        claim 2 0 => deliver 2 0 1
        ack 2 0 => settled
        claim 3 0 => deliver 3 1 1
        ack 3 1 => settled
        claim 6 0 => deliver 6 2 1
        ack 6 2 => settled
        claim 4 0 => deliver 4 3 1
        commit 1 => committed
        open 0 9 3 => open 1-2,4-6,7-9
        open 0 9 2 => refused 20
        open 0 9 256 => open 1-2,4-6,7-9
        open 0 9 257 => bad line
        open 5 7 1 => open 5-6
        open 2 4 0 => open none
        open 3 5 1 => open 4-5
        open 6 7 0 => open none
        open 5 5 0 => open none
        open 7 18446744073709551615 1 => open 7-18446744073709551615
        open 18446744073709551615 18446744073709551615 0 => open none
        open 18446744073709551615 18446744073709551614 0 => refused 32
        nearest 0 => nearest 1
        nearest 1 => nearest 1
        nearest 2 => nearest 4
        nearest 6 => nearest 7
        commit 18446744073709551615 => committed
        open 0 18446744073709551615 0 => open none
        nearest 7 => nearest 18446744073709551615
        nearest 18446744073709551615 => nearest 18446744073709551615
        worker 1 => worker 1
        open 1 0 0 => refused 39
        nearest 0 => refused 39
        worker 8 => worker 8
        open 1 0 0 => refused 38
        nearest 0 => refused 38
        worker 0 => worker 0
        begin => begun 2
        open 0 1 1 => not now
        nearest 0 => not now",
    );
}

/// What a question for stretches meets.
fn open_kinds(consumer: &Consumer, from: u64, to: u64, room: usize) -> Vec<&'static str> {
    if from > to {
        return vec![if room == 0 { "32 without room" } else { "32 with room" }];
    }
    let open = |offset: u64| !consumer.cursor.is_acked(Offset::new(offset));
    let all = stretches(&consumer.cursor, from, to);
    let (first, last) = (all.first().copied(), all.last().copied());
    let touches = first.is_some_and(|first| from > 0 && first.0 == from);
    holding([
        ("20 by one", all.len() == room + 1),
        ("20 by more", all.len() > room + 1),
        ("just room", all.len() == room && room > 0),
        ("an empty interval", from == to),
        ("all settled", from < to && all.is_empty()),
        ("one stretch", all.len() == 1),
        ("three or more", all.len() >= 3),
        ("100 or more", all.len() >= 100),
        ("clipped below", touches && open(from - 1)),
        ("whole below", touches && !open(from - 1)),
        ("clipped above", last.is_some_and(|last| last.1 == to && open(to))),
        ("whole above", last.is_some_and(|last| last.1 == to && !open(to))),
        ("up to the last offset", to == u64::MAX && last.is_some()),
    ])
}

fn nearest_kind(offset: u64, found: u64) -> &'static str {
    match (offset, found) {
        (u64::MAX, _) => "the last, asked for",
        (_, u64::MAX) => "the last",
        _ if offset == found => "itself",
        _ => "a later one",
    }
}

/// The scripts that `oracle/run compare` uses have questions of every kind.
#[test]
fn scripts_have_stretches() {
    let mut met = Met::default();
    for lines in scripts() {
        let mut program = Program::default();
        for line in lines {
            let answer = program.answer(line).unwrap_or_default();
            let kinds = match (read(line), program.consumer(), &answer[..]) {
                (_, _, "refused 38" | "refused 39") => continue,
                (Some(Call::Open(from, to, room)), Some(consumer), _) => open_kinds(consumer, from, to, room),
                (Some(Call::Nearest(offset)), Some(_), found) => {
                    vec![nearest_kind(offset, found["nearest ".len()..].parse().unwrap())]
                }
                _ => continue,
            };
            met.add(kinds);
        }
    }
    met.want(&[
        ("32 without room", 20),
        ("32 with room", 20),
        ("20 by one", 50),
        ("20 by more", 50),
        ("just room", 50),
        ("an empty interval", 50),
        ("all settled", 20),
        ("one stretch", 100),
        ("three or more", 100),
        ("100 or more", 5),
        ("clipped below", 50),
        ("whole below", 50),
        ("clipped above", 50),
        ("whole above", 50),
        ("up to the last offset", 50),
        ("the last, asked for", 5),
        ("the last", 5),
        ("itself", 100),
        ("a later one", 50),
    ]);
}
