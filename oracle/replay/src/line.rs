//! How a line of a script is read.
use crate::hours::Hours;
use crate::rights::WORKERS;

/// The longest line that is read, one less than 65,536 for its line end; a longer one is none of the calls (docs/DECISIONS.md).
pub const LINE: usize = 65_535;

/// The most places of a lent list.
pub const ROOM: usize = 256;

/// The most offsets of a plan.
pub const PLAN: usize = 128;

pub struct Start {
    pub limit: u32,
    pub opt_in: bool,
    pub threshold: u32,
    pub visibility: u64,
    pub cap: u64,
    pub bytes: u64,
    pub backoffs: Vec<u64>,
}

#[derive(Clone, Copy, PartialEq)]
pub enum Left {
    Old,
    New,
    Torn,
}

pub enum Call {
    Start(Start),
    /// The first generation, and the bytes of both snapshots.
    Import(u64, Vec<u8>, Vec<u8>),
    Worker(u64),
    Rights(usize, u8),
    Hours(Option<Hours>),
    Claim(u64, u64),
    Settle(u64, u64),
    Nack(u64, u64, u64, Option<u64>),
    Progress(u64, u64, u64),
    Commit(u64),
    Waiting(u64),
    View(u64, u64),
    /// The bounds, and the places of the lent list.
    Open(u64, u64, usize),
    Nearest(u64),
    /// The places of the lent list, and the offsets.
    Plan(usize, Vec<u64>),
    Export,
    Begin,
    Step(Option<u64>),
    Cut(Left),
    Restart(Option<u64>),
    State,
    Poke(u64, u64, u64),
    Peek(u64),
    Help,
}

/// A line without the carriage return that may stand before its line end.
pub fn bare(line: &[u8]) -> &[u8] {
    line.strip_suffix(b"\r").unwrap_or(line)
}

/// Whether a line asks for something: it is neither empty nor a comment.
pub fn asks(line: &[u8]) -> bool {
    !matches!(bare(line), [] | [b'#', ..])
}

/// One or more digits whose number a u64 can hold.
fn number(word: &str) -> Option<u64> {
    if word.is_empty() || !word.bytes().all(|byte| byte.is_ascii_digit()) {
        return None;
    }
    word.parse().ok()
}

/// The value of a lower-case hexadecimal digit.
fn digit(byte: u8) -> Option<u8> {
    match byte {
        b'0'..=b'9' => Some(byte - b'0'),
        b'a'..=b'f' => Some(byte - b'a' + 10),
        _ => None,
    }
}

/// Two lower-case hexadecimal digits for each byte, or `-` for no bytes at all.
fn bytes(word: &str) -> Option<Vec<u8>> {
    if word == "-" {
        return Some(Vec::new());
    }
    if word.is_empty() || word.len() % 2 != 0 {
        return None;
    }
    let pairs = word.as_bytes().chunks(2);
    pairs.map(|pair| Some(16 * digit(pair[0])? + digit(pair[1])?)).collect()
}

fn import(words: &[&str]) -> Option<Call> {
    let &[generation, cursor, attempts] = words else {
        return None;
    };
    Some(Call::Import(number(generation)?, bytes(cursor)?, bytes(attempts)?))
}

fn start(numbers: &[u64]) -> Option<Call> {
    let &[limit, opt_in, threshold, visibility, cap, bytes, ref backoffs @ ..] = numbers else {
        return None;
    };
    Some(Call::Start(Start {
        limit: limit.try_into().ok()?,
        opt_in: match opt_in {
            0 => false,
            1 => true,
            _ => return None,
        },
        threshold: threshold.try_into().ok()?,
        visibility,
        cap,
        bytes,
        backoffs: backoffs.to_vec(),
    }))
}

fn rights(worker: u64, mask: u64) -> Option<Call> {
    let worker = worker.try_into().ok().filter(|&worker| worker < WORKERS)?;
    Some(Call::Rights(worker, mask.try_into().ok()?))
}

/// The places of a lent list, nothing where they are too many.
fn room(places: u64) -> Option<usize> {
    places.try_into().ok().filter(|&places| places <= ROOM)
}

/// A call that changes nothing.
fn question(word: &str, numbers: &[u64]) -> Option<Call> {
    Some(match (word, numbers) {
        ("waiting", &[now]) => Call::Waiting(now),
        ("view", &[offset, now]) => Call::View(offset, now),
        ("open", &[from, to, places]) => Call::Open(from, to, room(places)?),
        ("nearest", &[offset]) => Call::Nearest(offset),
        ("plan", &[places, ref offsets @ ..]) if offsets.len() <= PLAN => Call::Plan(room(places)?, offsets.to_vec()),
        ("export", &[]) => Call::Export,
        _ => return None,
    })
}

/// The call that a line makes, or nothing where it is none.
pub fn read(line: &[u8]) -> Option<Call> {
    if line.len() > LINE {
        return None;
    }
    let line = bare(line);
    match line {
        b"cut old" => return Some(Call::Cut(Left::Old)),
        b"cut new" => return Some(Call::Cut(Left::New)),
        b"cut torn" => return Some(Call::Cut(Left::Torn)),
        b"hours none" => return Some(Call::Hours(None)),
        _ => (),
    }
    let mut words = std::str::from_utf8(line).ok()?.split(' ');
    let word = words.next()?;
    if word == "import" {
        return import(&words.collect::<Vec<_>>());
    }
    let numbers: Vec<u64> = words.map(number).collect::<Option<_>>()?;
    Some(match (word, &numbers[..]) {
        ("start", numbers) => return start(numbers),
        ("worker", &[worker]) => Call::Worker(worker),
        ("rights", &[worker, mask]) => return rights(worker, mask),
        ("hours", &[shift, ref days @ ..]) => Call::Hours(Some(Hours {
            shift,
            days: days.try_into().ok()?,
        })),
        ("claim", &[offset, now]) => Call::Claim(offset, now),
        ("ack" | "term", &[offset, generation]) => Call::Settle(offset, generation),
        ("nack", &[offset, generation, now]) => Call::Nack(offset, generation, now, None),
        ("nack", &[offset, generation, now, delay]) => Call::Nack(offset, generation, now, Some(delay)),
        ("progress", &[offset, generation, now]) => Call::Progress(offset, generation, now),
        ("commit", &[bound]) => Call::Commit(bound),
        ("begin", &[]) => Call::Begin,
        ("step", &[]) => Call::Step(None),
        ("step", &[bytes]) => Call::Step(Some(bytes)),
        ("restart", &[]) => Call::Restart(None),
        ("restart", &[bytes]) => Call::Restart(Some(bytes)),
        ("state", &[]) => Call::State,
        ("poke", &[block, byte, value]) => Call::Poke(block, byte, value),
        ("peek", &[block]) => Call::Peek(block),
        ("help", &[]) => Call::Help,
        (word, numbers) => return question(word, numbers),
    })
}

#[cfg(test)]
mod tests {
    use super::{asks, read, Call, Hours, LINE, PLAN};

    fn is_none(line: &str) -> bool {
        read(line.as_bytes()).is_none()
    }

    #[test]
    fn numbers() {
        assert!(matches!(
            read(b"claim 007 18446744073709551615"),
            Some(Call::Claim(7, u64::MAX))
        ));
        for line in [
            "claim 1 18446744073709551616",
            "claim 1 +2",
            "claim 1 -2",
            "claim 1 0x2",
            "claim 1 2a",
            "claim 1 \u{661}",
        ] {
            assert!(is_none(line), "{line}");
        }
        assert!(read(b"claim 1 \xff").is_none());
    }

    #[test]
    fn carriage_returns() {
        assert!(matches!(read(b"claim 1 2\r"), Some(Call::Claim(1, 2))));
        assert!(matches!(read(b"cut torn\r"), Some(Call::Cut(_))));
        assert!(!asks(b"") && !asks(b"\r") && !asks(b"#\r") && asks(b"\r\r") && asks(b"x"));
    }

    #[test]
    fn one_space_between_words() {
        for line in [
            "claim 1",
            "claim 1 2 3",
            "claim  1 2",
            " claim 1 2",
            "claim 1 2 ",
            "claim 1 2\r\r",
            "claim 1\r 2",
            "claim\t1 2",
            "Claim 1 2",
            " ",
        ] {
            assert!(is_none(line), "{line}");
        }
        for line in [
            "begin 1",
            "state 1",
            "peek",
            "poke 0 0",
            "cut",
            "cut Old",
            "cut old 1",
            "nack 1 2",
            "nack 1 2 3 4 5",
        ] {
            assert!(is_none(line), "{line}");
        }
    }

    #[test]
    fn what_a_start_takes() {
        assert!(
            matches!(read(b"start 4294967295 01 4294967295 1 2 3"), Some(Call::Start(start)) if start.opt_in && start.backoffs.is_empty())
        );
        assert!(matches!(read(b"start 1 0 1 1 2 3 4 5"), Some(Call::Start(start)) if start.bytes == 3 && start.backoffs == [4, 5]));
        for line in [
            "start 4294967296 0 1 1 2 3",
            "start 1 0 4294967296 1 2 3",
            "start 1 2 1 1 2 3",
            "start 1 0 1 1 2",
        ] {
            assert!(is_none(line), "{line}");
        }
    }

    #[test]
    fn imports() {
        let is = |line: &str, generation: u64, cursor: &[u8], attempts: &[u8]| {
            let call = read(line.as_bytes());
            matches!(call, Some(Call::Import(g, c, a)) if g == generation && c == cursor && a == attempts)
        };
        assert!(is("import 7 - -", 7, &[], &[]));
        assert!(is("import 18446744073709551615 00ff -", u64::MAX, &[0, 255], &[]));
        assert!(is("import 007 - 9af0\r", 7, &[], &[0x9a, 0xf0]));
        for line in [
            "import",
            "import 0",
            "import 0 -",
            "import 0 - - -",
            "import 0 -  -",
            "import 0  - -",
            "import - - -",
            "import 18446744073709551616 - -",
            "import 0 0 -",
            "import 0 - 000",
            "import 0 0G -",
            "import 0 0A -",
            "import 0 -- -",
            "import 0 -0 -",
            "import 0 0x00 -",
            "import 0 - \u{661}\u{661}",
            "Import 0 - -",
        ] {
            assert!(is_none(line), "{line}");
        }
    }

    #[test]
    fn workers_and_rights() {
        assert!(matches!(read(b"worker 18446744073709551615"), Some(Call::Worker(u64::MAX))));
        assert!(matches!(read(b"rights 7 255"), Some(Call::Rights(7, 255))));
        assert!(matches!(read(b"rights 00 00"), Some(Call::Rights(0, 0))));
        for line in [
            "worker",
            "worker 1 2",
            "worker 18446744073709551616",
            "rights 0",
            "rights 8 0",
            "rights 0 256",
            "rights 4294967296 0",
            "rights 0 1 2",
        ] {
            assert!(is_none(line), "{line}");
        }
    }

    #[test]
    fn lent_lists() {
        assert!(matches!(read(b"open 9 2 256"), Some(Call::Open(9, 2, 256))));
        assert!(matches!(
            read(b"open 0 18446744073709551615 0"),
            Some(Call::Open(0, u64::MAX, 0))
        ));
        assert!(matches!(read(b"nearest 18446744073709551615"), Some(Call::Nearest(u64::MAX))));
        for line in [
            "open",
            "open 0 1",
            "open 0 1 257",
            "open 0 1 4294967296",
            "open 0 1 18446744073709551615",
            "open 0 18446744073709551616 1",
            "open 0 1 1 1",
            "nearest",
            "nearest 18446744073709551616",
            "nearest 0 0",
        ] {
            assert!(is_none(line), "{line}");
        }
    }

    #[test]
    fn opening_hours() {
        assert!(matches!(read(b"hours none"), Some(Call::Hours(None))));
        let days = |hours: Hours| (hours.shift, hours.days) == (18446744073709551615, [1, 2, 3, 4, 5, 6, u64::MAX]);
        assert!(
            matches!(read(b"hours 18446744073709551615 1 2 3 4 5 6 18446744073709551615"), Some(Call::Hours(Some(hours))) if days(hours))
        );
        for line in [
            "hours",
            "hours none 1",
            "hours 0",
            "hours 0 1 2 3 4 5 6",
            "hours 0 1 2 3 4 5 6 7 8",
            "hours 0 1 2 3 4 5 6 18446744073709551616",
        ] {
            assert!(is_none(line), "{line}");
        }
    }

    #[test]
    fn plans() {
        assert!(matches!(read(b"plan 0"), Some(Call::Plan(0, offsets)) if offsets.is_empty()));
        assert!(matches!(read(b"plan 256 7 3 7"), Some(Call::Plan(256, offsets)) if offsets == [7, 3, 7]));
        let line = |offsets: usize| format!("plan 128{}", " 5".repeat(offsets));
        assert!(matches!(read(line(PLAN).as_bytes()), Some(Call::Plan(128, offsets)) if offsets.len() == PLAN));
        assert!(is_none(&line(PLAN + 1)));
        for line in [
            "plan",
            "plan ",
            "plan 257",
            "plan 257 1",
            "plan 1 18446744073709551616",
            "plan 1 x",
        ] {
            assert!(is_none(line), "{line}");
        }
    }

    #[test]
    fn exports() {
        assert!(matches!(read(b"export"), Some(Call::Export)));
        for line in ["export ", "export 0", "export -", "exports", "Export"] {
            assert!(is_none(line), "{line}");
        }
    }

    #[test]
    fn long_lines() {
        let line = |length: usize| format!("peek {}", "0".repeat(length - 5));
        assert!(matches!(read(line(LINE).as_bytes()), Some(Call::Peek(0))));
        assert!(is_none(&line(LINE + 1)));
        assert!(matches!(
            read(format!("{}\r", line(LINE - 1)).as_bytes()),
            Some(Call::Peek(0))
        ));
        assert!(is_none(&format!("{}\r", line(LINE))));
    }
}
