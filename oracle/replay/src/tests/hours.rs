//! SPEC.md, "Hours": opening hours.
use super::{group_up_to, holding, play, scripts, Met};
use crate::consumer::{Consumer, Handed};
use crate::hours::{Hours, DAY, HALF_HOUR, WEEK};
use crate::line::{read, Call};
use crate::program::Program;
use std::collections::BTreeSet;

/// A line that hands in hours with these half hours of the week open.
fn hours(shift: u64, half_hours: &[u64]) -> String {
    let mut days = [0u64; 7];
    for half_hour in half_hours {
        days[(half_hour / DAY) as usize] |= 1 << (half_hour % DAY);
    }
    format!("hours {shift} {} => hours\n", days.map(|bits| bits.to_string()).join(" "))
}

const START: &str = "start 9 0 9 10 18446744073709551615 9216 => started\ncheckpoint => 1,0\n";

/// A half hour includes its first nanosecond and not its end; the search goes on to the same half hour of the next week, and a
/// deadline moves as a claim is put off.
#[test]
fn one_half_hour_a_week() {
    play(&format!(
        "{}{START}
        claim 0 0 => refused 35 1800000000000
        claim 0 1799999999999 => refused 35 1800000000000
        claim 0 1800000000000 => deliver 0 0 1
        claim 1 3599999999999 => deliver 1 1 1
        claim 2 3600000000000 => refused 35 606600000000000
        claim 2 606599999999999 => refused 35 606600000000000
        claim 2 606600000000000 => deliver 2 2 1
        nack 0 0 1800000000000 1799999999999 => requeued 3599999999999
        nack 0 3 1800000000000 1800000000000 => requeued 606600000000000
        nack 0 4 0 5 => requeued 1800000000000
        nack 0 5 0 => requeued 1800000000000
        nack 0 6 3600000000000 => requeued 606600000000000
        progress 1 1 3600000000000 => extended 3600000000010
        waiting 606600000000000 => waiting 1 0
        state => state committed 0 ranges none leases 0:7:1800000000000:606600000000000:1,1:1:3599999999999:3600000000010:1,2:2:606600000000000:606600000000010:1 carried none next 8 ceiling 4096 counter 0 group 2 block 2 half 0",
        hours(0, &[1])
    ));
}

/// The rest of the day, following days, and the same weekday a week later, its earlier half hours too.
#[test]
fn the_search() {
    let claim = |now: u64, opening: u64| format!("claim 0 {now} => refused 35 {opening}\n");
    let friday = 4 * DAY;
    let week = hours(0, &[3, 9, friday + 47]);
    let calls = [
        claim(0, 3 * HALF_HOUR),
        claim(4 * HALF_HOUR, 9 * HALF_HOUR),
        claim(10 * HALF_HOUR, (friday + 47) * HALF_HOUR),
        claim((friday + 47) * HALF_HOUR - 1, (friday + 47) * HALF_HOUR),
        claim((friday + 48) * HALF_HOUR, WEEK + 3 * HALF_HOUR),
    ];
    play(&(week + START + &calls.concat()));
    let week = hours(0, &[friday + 5]);
    let calls = [
        claim((friday + 6) * HALF_HOUR, WEEK + (friday + 5) * HALF_HOUR),
        claim((friday + 47) * HALF_HOUR, WEEK + (friday + 5) * HALF_HOUR),
    ];
    play(&(week + START + &calls.concat()));
}

/// A shift of a week but one nanosecond: clock 0 is the last of Sunday, clock 1 Monday midnight.
#[test]
fn the_turn_of_the_week() {
    let sunday = hours(WEEK - 1, &[335]);
    play(
        &(sunday
            + START
            + "claim 0 0 => deliver 0 0 1
            claim 1 1 => refused 35 603000000000001
            claim 1 603000000000000 => refused 35 603000000000001
            claim 1 603000000000001 => deliver 1 1 1
            nack 0 0 0 0 => requeued 0
            nack 0 2 0 1 => requeued 603000000000001"),
    );
    let monday = hours(WEEK - 1, &[0]);
    play(
        &(monday
            + START
            + "claim 0 0 => refused 35 1
            claim 0 1 => deliver 0 0 1
            claim 1 1800000000000 => deliver 1 1 1
            claim 2 1800000000001 => refused 35 604800000000001
            nack 0 0 0 0 => requeued 1
            nack 0 2 1800000000000 1 => requeued 604800000000001"),
    );
}

/// The last clock lies in half hour 191 of its week, which begins at 18446743800000000000. What opens beyond it is given as the last.
#[test]
fn the_last_clocks() {
    let before = hours(0, &[190]);
    play(
        &(before
            + START
            + "claim 0 18446743799999999999 => deliver 0 0 1
            claim 1 18446743800000000000 => refused 35 18446744073709551615
            claim 1 18446744073709551614 => refused 35 18446744073709551615
            claim 1 18446744073709551615 => refused 35 18446744073709551615
            nack 0 0 18446743799999999999 0 => requeued 18446743799999999999
            nack 0 1 18446743799999999999 1 => requeued 18446744073709551615
            nack 0 2 18446744073709551615 => requeued 18446744073709551615
            nack 0 3 18446743799999999999 18446744073709551615 => requeued 18446744073709551615"),
    );
    let last = hours(0, &[191]);
    play(
        &(last
            + START
            + "claim 0 18446743799999999999 => refused 35 18446743800000000000
            claim 0 18446744073709551615 => deliver 0 0 1
            nack 0 0 18446743799999999999 0 => requeued 18446743800000000000
            nack 0 1 18446744073709551615 7 => requeued 18446744073709551615"),
    );
    // clock and shift together pass what a u64 holds
    let behind = hours(WEEK - HALF_HOUR, &[190]);
    play(
        &(behind
            + START
            + "claim 0 18446743799999999999 => refused 35 18446743800000000000
            claim 0 18446744073709551615 => deliver 0 0 1"),
    );
}

/// 33 and 34 behind 3 and before 4, at a start and at a restart, where they come before 5 too; what is said touches no consumer that
/// is running.
#[test]
fn hours_that_are_refused() {
    play(&format!(
        "hours 0 0 0 0 0 0 0 0 => hours
        start 0 0 0 10 25 0 => refused 1
        start 9 0 0 10 25 0 => refused 3
        start 9 0 9 10 25 0 => refused 34
        hours 604800000000000 0 0 0 0 0 0 0 => hours
        start 9 0 0 10 25 0 => refused 3
        start 9 0 9 10 25 0 => refused 33
        hours 604799999999999 0 0 0 0 0 0 140737488355328 => hours
        start 9 0 9 10 25 0 => refused 4
        hours 0 0 0 0 0 0 0 281474976710656 => hours
        start 9 0 9 10 25 9216 => refused 33
        hours none => hours
        {START}
        claim 0 0 => deliver 0 0 1
        hours 0 9223372036854775808 1 0 0 0 0 0 => hours
        claim 1 0 => deliver 1 1 1
        restart => refused 33
        restart 8704 => refused 33
        restart 9728 => not now
        poke 1 9 1 => poked
        restart => refused 33
        hours 0 0 0 0 0 0 0 0 => hours
        restart 8704 => refused 34
        begin => begun 2
        restart => refused 34
        step => wrote 3
        cut torn => cut 2
        restart => refused 34
        {}restart 8704 => refused 4
        restart => refused 5 1
        poke 1 9 0 => poked
        restart => restarted
        claim 1 0 => refused 35 1800000000000
        claim 1 1800000000000 => refused 26
        hours none => hours
        claim 1 0 => refused 35 1800000000000
        restart => restarted
        claim 1 0 => refused 26",
        hours(0, &[1])
    ));
}

/// 35 behind 38, 39, 21 and 22, and before 23, 25, 26 and 27.
#[test]
fn closed_among_the_refusals() {
    let full: String = (5..68).map(|i| format!("claim {i} 0 => deliver {i} {} 1\n", i - 3)).collect();
    play(&format!(
        "{}{START}
        claim 0 0 => deliver 0 0 1
        claim 0 0 => refused 23
        claim 0 1800000000000 => refused 35 604800000000000
        claim 1 0 => deliver 1 1 1
        ack 1 1 => settled
        claim 1 1800000000000 => refused 22
        claim 18446744073709551615 1800000000000 => refused 21
        {full}claim 70 0 => refused 27
        claim 70 1800000000000 => refused 35 604800000000000
        worker 1 => worker 1
        claim 70 1800000000000 => refused 39
        worker 8 => worker 8
        claim 70 1800000000000 => refused 38
        restart => restarted
        worker 0 => worker 0
        claim 0 0 => refused 26
        claim 0 1800000000000 => refused 35 604800000000000
        {}restart => restarted
        claim 0 0 => refused 25
        claim 0 1800000000000 => refused 35 604800000000000",
        hours(0, &[0]),
        group_up_to(u64::MAX, 1, 0)
    ));
}

/// The clock's half hour, counted from a Monday midnight, and its nanosecond there.
fn half_hour(hours: &Hours, clock: u64) -> (u128, u128) {
    let place = u128::from(clock) + u128::from(hours.shift);
    (place / u128::from(HALF_HOUR), place % u128::from(HALF_HOUR))
}

/// What of the hours a clock meets.
fn clock_kinds(hours: &Hours, clock: u64) -> Vec<&'static str> {
    let (_, nano) = half_hour(hours, clock);
    let open = hours.is_open(clock);
    let turned = |other: Option<u64>| other.is_some_and(|other| hours.is_open(other) != open);
    let first = nano == 0 && turned(clock.checked_sub(1));
    let last = nano == u128::from(HALF_HOUR) - 1 && turned(clock.checked_add(1));
    holding([
        ("the first nanosecond, open", first && open),
        ("the first nanosecond, closed", first && !open),
        ("the last nanosecond, open", last && open),
        ("the last nanosecond, closed", last && !open),
        ("the sum passes", clock.checked_add(hours.shift).is_none()),
        ("the last clock, open", clock == u64::MAX && open),
        ("the last clock, closed", clock == u64::MAX && !open),
    ])
}

/// Where the opening lies to which a closed clock is put off.
fn opening_kinds(hours: &Hours, clock: u64, opening: u64) -> Vec<&'static str> {
    if opening == u64::MAX {
        return holding([("beyond", clock < u64::MAX)]);
    }
    let ((here, _), (there, _)) = (half_hour(hours, clock), half_hour(hours, opening));
    let (day, week) = (u128::from(DAY), u128::from(7 * DAY));
    holding([
        ("that day", there / day == here / day),
        ("another day", there / day > here / day),
        ("a week later", there / day == here / day + 7),
        ("the turn of the week", there / week > here / week),
    ])
}

/// What a nack with a delay meets.
fn deadline_kind(hours: &Hours, asked: u64, deadline: u64) -> &'static str {
    assert!(hours.is_open(deadline) || deadline == u64::MAX);
    match deadline {
        _ if deadline == asked => "a deadline in hours",
        u64::MAX => "a deadline moved to the last",
        _ => "a deadline moved or capped",
    }
}

/// What a claim would be answered without hours: its refusal's number, or `granted`.
fn without_hours(consumer: &Consumer, worker: u64, offset: u64, now: u64) -> String {
    let handed = Handed {
        hours: None,
        ..consumer.handed()
    };
    match consumer.with(handed).claim(worker, offset, now) {
        Ok(_) => "granted".to_string(),
        Err(code) => code[0].to_string(),
    }
}

/// What a call on a consumer with hours meets. Outside of hours a claim is refused 38, 39, 21, 22 or 35.
fn kinds(hours: &Hours, call: &Call, answer: &str) -> Vec<&'static str> {
    let words: Vec<&str> = answer.split(' ').collect();
    match (call, &words[..]) {
        (Call::Claim(_, now), ["refused", "35", opening]) => {
            let opening = opening_kinds(hours, *now, opening.parse().unwrap());
            [clock_kinds(hours, *now), opening].concat()
        }
        (Call::Claim(_, now), _) if hours.is_open(*now) => clock_kinds(hours, *now),
        (Call::Claim(..), ["refused", "38" | "39"]) => Vec::new(),
        (Call::Claim(..), ["refused", "21" | "22"]) => vec!["21 or 22 while closed"],
        (Call::Claim(..), _) => panic!("{answer} while closed"),
        (Call::Nack(_, _, now, Some(delay)), ["requeued", deadline]) => {
            vec![deadline_kind(hours, now.saturating_add(*delay), deadline.parse().unwrap())]
        }
        _ => Vec::new(),
    }
}

/// The scripts that `oracle/run compare` uses have claims and nacks about the hours of every kind; what else a closed claim would have
/// met is seen.
#[test]
fn scripts_have_hours() {
    let mut met = Met::default();
    let mut instead = BTreeSet::new();
    for lines in scripts() {
        let mut program = Program::default();
        for line in lines {
            let before = program.consumer().filter(|before| before.handed().hours.is_some()).cloned();
            let answer = program.answer(line).unwrap_or_default();
            let (Some(before), Some(call)) = (before, read(line)) else {
                continue;
            };
            if let (Call::Claim(offset, now), true) = (&call, answer.starts_with("refused 35")) {
                instead.insert(without_hours(&before, program.worker, *offset, *now));
            }
            met.add(kinds(&before.handed().hours.unwrap(), &call, &answer));
        }
    }
    met.want(&[
        ("the first nanosecond, open", 50),
        ("the first nanosecond, closed", 20),
        ("the last nanosecond, open", 20),
        ("the last nanosecond, closed", 20),
        ("the sum passes", 20),
        ("the last clock, open", 5),
        ("the last clock, closed", 20),
        ("that day", 50),
        ("another day", 50),
        ("a week later", 5),
        ("the turn of the week", 20),
        ("beyond", 20),
        ("21 or 22 while closed", 10),
        ("a deadline in hours", 50),
        ("a deadline moved to the last", 10),
        ("a deadline moved or capped", 50),
    ]);
    let seen = ["granted", "23", "26"].iter().all(|&answer| instead.contains(answer));
    assert!(seen && !instead.contains("21") && !instead.contains("22"), "{instead:?}");
}

/// They have 33 and 34 at starts and at restarts, 33 for bits and for the shift, and beside a bad area.
#[test]
fn scripts_have_bad_hours() {
    let mut met = Met::default();
    for lines in scripts() {
        let mut program = Program::default();
        for line in lines {
            let answer = program.answer(line).unwrap_or_default();
            let at = match read(line) {
                Some(Call::Start(start)) if start.bytes % 1_024 == 0 && start.bytes >= 9_216 => "a start",
                Some(Call::Start(_)) => "a start on a bad area",
                Some(Call::Restart(None)) => "a restart",
                Some(Call::Restart(_)) => "a restart on some of the area",
                _ => continue,
            };
            let why = match (&answer[..], program.handed.hours) {
                ("refused 34", _) => "34",
                ("refused 33", Some(hours)) if hours.shift >= WEEK => "33 for the shift",
                ("refused 33", _) => "33 for bits",
                ("refused 3", Some(hours)) if hours.judge().is_err() => "3",
                _ => continue,
            };
            met.add([format!("{why} at {at}")]);
        }
    }
    for at in [
        "a start",
        "a start on a bad area",
        "a restart",
        "a restart on some of the area",
    ] {
        for why in ["33 for the shift", "33 for bits", "34"] {
            met.want(&[(&format!("{why} at {at}"), 3)]);
        }
    }
    met.want(&[("3 at a start", 1)]);
}
