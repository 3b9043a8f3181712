//! One input on both sides: what is answered, and all that lent memory holds afterwards.
use ironbus::cursor::{AckCursor, BoundedAck};
use ironbus::types::Offset;
use lists::codecs;
use rattle::Numbers;

/// What lent memory holds before a call, a different byte or number at each place.
fn lent_bytes(len: usize) -> Vec<u8> {
    (0..len).map(|i| (i * 7 + 3) as u8).collect()
}

fn lent_numbers(len: usize) -> Vec<u64> {
    (0..len).map(|i| 0xfeed_0000_0000 + i as u64).collect()
}

/// Counts the inputs that were compared, and stops at the first on which the two sides differ. Attempt snapshots of version 2
/// (SPEC.md, "Attempt snapshot") are compared with what SPEC.md says, by `codecs`, and the original has to turn them away.
#[derive(Default)]
pub struct Both {
    pub inputs: u64,
    pub turned_away: u64,
}

/// An encoder of attempt counts, on each side.
struct Encoder {
    version: u8,
    rattle: fn(&[u64], &[u32], &mut [u8], usize) -> Numbers,
    expected: fn(&[(u64, u32)], &mut [u8], u64) -> codecs::Code,
}

const ENCODERS: [Encoder; 2] = [
    Encoder {
        version: 1,
        rattle: rattle::encode_attempts,
        expected: codecs::encode_attempts,
    },
    Encoder {
        version: 2,
        rattle: rattle::encode_attempts_v2,
        expected: codecs::encode_attempts_v2,
    },
];

/// An answer of either side: the number and the values, and lent memory.
#[derive(Debug, PartialEq)]
struct Answer<M> {
    code: Numbers,
    lent: M,
}

/// A number and its values.
fn code(numbers: &[u64]) -> Numbers {
    let mut values = [0; 5];
    values[..numbers.len() - 1].copy_from_slice(&numbers[1..]);
    Numbers {
        number: numbers[0],
        count: numbers.len() as u64 - 1,
        values,
    }
}

/// Two columns at the front of lent ones, where both fit.
fn listed(values: &[u64], left: &[u64], right: &[u64], lent: (Vec<u64>, Vec<u64>)) -> Answer<(Vec<u64>, Vec<u64>)> {
    let (mut l, mut r) = lent;
    if l.len() < left.len() || r.len() < right.len() {
        return Answer {
            code: code(&[codecs::OUT_TOO_SHORT]),
            lent: (l, r),
        };
    }
    l[..left.len()].copy_from_slice(left);
    r[..right.len()].copy_from_slice(right);
    let mut numbers = vec![0];
    numbers.extend(values);
    Answer {
        code: code(&numbers),
        lent: (l, r),
    }
}

impl Both {
    fn same<M: PartialEq + std::fmt::Debug>(&mut self, expected: Answer<M>, rattle: Answer<M>, input: impl FnOnce() -> String) {
        self.inputs += 1;
        if expected != rattle {
            println!(
                "compare: the two sides differ on {}\n  expected: {expected:?}\n  here: {rattle:?}",
                input()
            );
            std::process::exit(1);
        }
    }

    pub fn check(&mut self, bytes: &[u8]) {
        let original = Answer {
            code: code(&[ironbus::crc::crc32c(bytes).into()]),
            lent: (),
        };
        let rattle = Answer {
            code: code(&[rattle::crc32c(bytes).into()]),
            lent: (),
        };
        self.same(original, rattle, || format!("the check of {bytes:?}"));
    }

    /// An ack on a cursor of each side; lent is where the cursor lies.
    pub fn ack(&mut self, original: &mut AckCursor, rattle: &mut rattle::AckCursor, offset: u64) {
        let number = match original.ack_bounded(Offset::new(offset), 128) {
            BoundedAck::Recorded => 0,
            BoundedAck::Duplicate => 1,
            BoundedAck::Shed => 29,
        };
        let theirs = Answer {
            code: code(&[number]),
            lent: (original.committed().get(), original.ahead_ranges().to_vec()),
        };
        let ours = Answer {
            code: code(&[rattle.ack(offset)]),
            lent: (rattle.committed(), rattle.ranges()),
        };
        self.same(theirs, ours, || format!("an ack of {offset}"));
    }

    /// Decodes cursor bytes into columns with these numbers of places.
    pub fn decode_cursor(&mut self, bytes: &[u8], places: (usize, usize)) {
        let lent = (lent_numbers(places.0), lent_numbers(places.1));
        let (mut starts, mut ends) = lent.clone();
        let answer = rattle::decode_cursor(bytes, &mut starts, &mut ends);
        let original = match codecs::decode_cursor(bytes) {
            Err(refusal) => Answer {
                code: code(&refusal),
                lent,
            },
            Ok(cursor) => {
                let (left, right): (Vec<u64>, Vec<u64>) = cursor.ahead_ranges().iter().copied().unzip();
                listed(&[cursor.committed().get(), left.len() as u64], &left, &right, lent)
            }
        };
        self.same(
            original,
            Answer {
                code: answer,
                lent: (starts, ends),
            },
            || format!("cursor bytes {bytes:?} into {places:?} places"),
        );
    }

    /// Encodes a cursor into `len` lent bytes at a position.
    pub fn encode_cursor(&mut self, committed: u64, ranges: &[(u64, u64)], len: usize, at: usize) {
        let (starts, ends): (Vec<u64>, Vec<u64>) = ranges.iter().copied().unzip();
        let mut out = lent_bytes(len);
        let answer = rattle::encode_cursor(committed, &starts, &ends, &mut out, at);
        let mut expected = lent_bytes(len);
        let refusal = match codecs::resume_with_ahead(committed, ranges.to_vec()) {
            Err(refusal) => refusal,
            Ok(cursor) => codecs::encode_cursor(&cursor, &mut expected, at as u64),
        };
        let original = Answer {
            code: code(&refusal),
            lent: expected,
        };
        self.same(original, Answer { code: answer, lent: out }, || {
            format!("a cursor at {committed} with {ranges:?} into {len} bytes at {at}")
        });
    }

    /// The original answers 14 with 2 to bytes of version 2, but for those too short for any version.
    fn turned_away(&mut self, bytes: &[u8]) {
        let refusal = if bytes.len() < 9 { vec![13] } else { vec![14, 2] };
        if codecs::original_decode_attempts(bytes) != Err(refusal) {
            println!("compare: the original doesn't turn away {bytes:?}");
            std::process::exit(1);
        }
        self.turned_away += 1;
    }

    /// Decodes attempt bytes into columns with these numbers of places.
    pub fn decode_attempts(&mut self, bytes: &[u8], places: (usize, usize)) {
        let lent = (
            lent_numbers(places.0),
            lent_numbers(places.1)
                .iter()
                .map(|&n| u64::from(n as u32))
                .collect::<Vec<u64>>(),
        );
        let mut offsets = lent.0.clone();
        let mut attempts: Vec<u32> = lent.1.iter().map(|&n| n as u32).collect();
        let answer = rattle::decode_attempts(bytes, &mut offsets, &mut attempts);
        if bytes.first() == Some(&2) {
            self.turned_away(bytes);
        }
        let expected = match codecs::decode_attempts(bytes) {
            Err(refusal) => Answer {
                code: code(&refusal),
                lent,
            },
            Ok(pairs) => {
                let (left, right): (Vec<u64>, Vec<u64>) =
                    pairs.iter().map(|&(offset, attempt)| (offset, u64::from(attempt))).unzip();
                listed(&[left.len() as u64], &left, &right, lent)
            }
        };
        let attempts = attempts.into_iter().map(u64::from).collect();
        self.same(
            expected,
            Answer {
                code: answer,
                lent: (offsets, attempts),
            },
            || format!("attempt bytes {bytes:?} into {places:?} places"),
        );
    }

    /// Encodes attempt counts into `len` lent bytes at a position, in each version.
    pub fn encode_attempts(&mut self, pairs: &[(u64, u32)], len: usize, at: usize) {
        let (offsets, attempts): (Vec<u64>, Vec<u32>) = pairs.iter().copied().unzip();
        for encoder in ENCODERS {
            let mut out = lent_bytes(len);
            let answer = (encoder.rattle)(&offsets, &attempts, &mut out, at);
            let mut lent = lent_bytes(len);
            let refusal = (encoder.expected)(pairs, &mut lent, at as u64);
            if encoder.version == 2 && answer.number == 0 {
                self.turned_away(&out[at..answer.values[0] as usize]);
            }
            let expected = Answer {
                code: code(&refusal),
                lent,
            };
            self.same(expected, Answer { code: answer, lent: out }, || {
                format!("version {} of pairs {pairs:?} into {len} bytes at {at}", encoder.version)
            });
        }
    }
}
