//! SPEC.md, "Export": the snapshots of a consumer, as the original writes them. The checks of the bytes were worked out apart.
use super::{holding, moving_scripts, play_moving, Met};
use crate::line::{read, Call};
use crate::program::Program;
use lists::codecs::{decode_attempts, decode_cursor};

/// Nothing at first; then ranges, a lease's count and a carried one, in the order of the offsets; what a commit leaves of them. 38 and 39.
#[test]
fn exports() {
    play_moving(
        "export => not now
        rights 1 63 => rights
        start 9 0 9 10 25 9216 => started
        export => exported 010000000000000000ebbedb4f 01000000009919637d
        checkpoint => 1,0
        commit 2 => committed
        claim 3 0 => deliver 3 0 1
        ack 3 0 => settled
        claim 4 0 => deliver 4 1 1
        ack 4 1 => settled
        claim 8 0 => deliver 8 2 1
        ack 8 2 => settled
        claim 6 0 => deliver 6 3 1
        export => exported 01020000000000000003000000000000000500000000000000080000000000000009000000000000001a1afba5 01010000000600000000000000010000005020640d
        claim 10 0 => deliver 10 4 1
        claim 10 10 => deliver 10 5 2
        export => exported 01020000000000000003000000000000000500000000000000080000000000000009000000000000001a1afba5 01020000000600000000000000010000000a0000000000000002000000dd3c9ccf
        checkpoint => 3,2
        export 1 => bad line
        restart => restarted
        export => exported 01020000000000000003000000000000000500000000000000080000000000000009000000000000001a1afba5 01020000000600000000000000010000000a0000000000000002000000dd3c9ccf
        checkpoint => 5,4
        claim 5 0 => deliver 5 4102 1
        export => exported 01020000000000000003000000000000000500000000000000080000000000000009000000000000001a1afba5 01030000000500000000000000010000000600000000000000010000000a0000000000000002000000c3960f88
        commit 8 => committed
        export => exported 01090000000000000016c7dc44 01010000000a0000000000000002000000d82ee324
        worker 1 => worker 1
        export => refused 39
        worker 8 => worker 8
        export => refused 38
        worker 0 => worker 0
        begin => begun 2
        export => not now
        cut old => cut 7
        export => not now",
    );
}

/// The bytes that hexadecimal digits say.
fn bytes(digits: &str) -> Vec<u8> {
    (0..digits.len() / 2)
        .map(|i| u8::from_str_radix(&digits[2 * i..2 * i + 2], 16).unwrap())
        .collect()
}

/// The scripts of `oracle/run compare` that move in and out export few ranges and counts and as many as there can be; the original reads each again as
/// what the state was.
#[test]
fn scripts_have_exports() {
    let mut met = Met::default();
    for lines in moving_scripts() {
        let mut program = Program::moving();
        for line in lines {
            let before = program.consumer().cloned();
            let answer = program.answer(line).unwrap_or_default();
            if !matches!(read(line), Some(Call::Export)) {
                continue;
            }
            let words: Vec<&str> = answer.split(' ').collect();
            let &["exported", cursor, attempts] = &words[..] else {
                met.add([answer]);
                continue;
            };
            let before = before.unwrap();
            assert_eq!(decode_cursor(&bytes(cursor)).unwrap(), before.cursor);
            let table = before.table();
            let counts = decode_attempts(&bytes(attempts)).unwrap();
            assert_eq!(counts.len(), table.leases.len() + table.carried.len());
            let ranges = before.cursor.ahead_ranges().len();
            met.add(holding([
                ("no range", ranges == 0),
                ("128 ranges", ranges == 128),
                ("no count", counts.is_empty()),
                ("128 counts", counts.len() == 128),
                ("leases and carried", !table.leases.is_empty() && !table.carried.is_empty()),
            ]));
        }
    }
    met.want(&[
        ("no range", 100),
        ("128 ranges", 5),
        ("no count", 100),
        ("128 counts", 10),
        ("leases and carried", 50),
        ("refused 38", 20),
        ("refused 39", 40),
        ("not now", 20),
    ]);
}
