//! Why a call was refused.

use core::fmt;

/// The refusals of `docs/SPEC.md`, by their numbers, with their values. A refused call has changed nothing.
#[derive(Clone, Copy, Debug, PartialEq, Eq, Hash)]
#[non_exhaustive]
pub enum Refusal {
    /// 1: the delivery limit is 0 or 4294967295, without the opt-in.
    UnlimitedDeliverNotAllowed,
    /// 2: more than 16 backoffs.
    TooManySteps,
    /// 3: the flush threshold is 0.
    ZeroThreshold,
    /// 4: the journal isn't of an even number of blocks of 512 bytes, at least 18 and at most 128. One from before there were halves may
    /// have another length: the README says how it is taken over.
    BadArea,
    /// 5: a block of the half in use isn't what it has to be.
    ///
    /// - A body that a sound header counts is unsound.
    /// - A header is: the groups end where it would stand, and a block behind that, in this half, has the kind of a header and a
    ///   right check, so that the group before isn't the last one. Where the last header is worn there is no such block, and the
    ///   group before counts, as after a power failure.
    /// - A header is sound, and its bodies pass the end of its half, as in a journal from before there were halves, with a group
    ///   across the middle. The README says how such a journal is taken over.
    ///
    /// No power failure leaves a journal that is refused. The first block of the half in use is guarded less: where it is worn, and a
    /// header opens the other half, that half is read, without a refusal. Where none opens it, the refusal names block 0 if a
    /// header is left behind that block in the first half; if none is left there, a restart gives a fresh consumer.
    Damaged {
        /// The first unsound body on the walk over the groups, or else the block where the walk ended; from 0.
        block: u64,
    },
    /// 6: a cursor snapshot of under 13 bytes.
    CursorTruncated,
    /// 7: a cursor snapshot whose length less 13 is no multiple of 16.
    CursorBadLength {
        /// Its length.
        len: u64,
    },
    /// 8: a cursor snapshot of another version.
    CursorUnsupportedVersion {
        /// Its first byte.
        version: u64,
    },
    /// 9: a cursor snapshot whose check doesn't match.
    CursorBadCrc,
    /// 10: a range that is empty or reversed.
    EmptyRange {
        /// Its start.
        start: u64,
        /// Its end.
        end: u64,
    },
    /// 11: a range that doesn't start above the end before it.
    NotSortedDisjointAndAboveCommitted {
        /// Its start.
        start: u64,
        /// The end before it.
        prev_end: u64,
    },
    /// 12: more than 128 ranges.
    TooManyRuns,
    /// 13: an attempt snapshot of under 9 bytes.
    AttemptTruncated,
    /// 14: an attempt snapshot of a version other than 1 and 2.
    AttemptUnsupportedVersion {
        /// Its first byte.
        version: u64,
    },
    /// 15: an attempt snapshot whose length less 9 is no multiple of 12.
    AttemptBadLength {
        /// Its length.
        len: u64,
    },
    /// 16: an attempt snapshot with another number of pairs than it declares.
    CountMismatch {
        /// The number declared.
        declared: u64,
        /// The number there.
        actual: u64,
    },
    /// 17: an attempt snapshot whose check doesn't match.
    AttemptBadCrc,
    /// 18: a pair whose offset isn't above the one before.
    NotSorted {
        /// Its offset.
        offset: u64,
        /// The offset before it.
        prev_offset: u64,
    },
    /// 19: more than 128 pairs.
    TooManyPairs,
    /// 20: the lent list can't hold the whole answer.
    OutTooShort,
    /// 21: a claim of the last offset of all.
    LastOffset,
    /// 22: a claim of a settled offset.
    Settled,
    /// 23: a claim before the deadline of the offset's lease.
    InFlight,
    /// 24: no lease has the token's offset and generation: it is out of date.
    Fenced,
    /// 25: there are no generations left.
    Exhausted,
    /// 26: a checkpoint has to come first.
    CheckpointDue,
    /// 27: there is no room for another lease, or another count.
    Full,
    /// 28: the attempt has lasted as long as the hard cap allows.
    CapReached,
    /// 29: there is no room for another range of settled offsets. The lease stays, and runs out.
    Shed,
    /// 30, which no call is answered any more: a commit settles what is in flight too.
    Held,
    /// 31: the numbers of groups are used up: the last is 4294967295. It is never met for want of blocks.
    JournalFull,
    /// 32: the first bound is above the second.
    BoundsReversed,
    /// 33: the hours have a bit above 47, or a shift of a week or more.
    BadHours,
    /// 34: no half hour of the week is open.
    NeverOpen,
    /// 35: a claim outside opening hours.
    Closed {
        /// The clock of the next opening: the largest number where that lies beyond.
        opening: u64,
    },
    /// 36: the lists are of unequal length.
    UnequalLengths,
    /// 37: an offset of the list is below the one before it.
    Falling {
        /// The place of the first such offset, from 0.
        place: u64,
    },
    /// 38: there is no worker of that number: it is 8 or more.
    UnknownWorker,
    /// 39: the worker may not do that.
    NotPermitted,
    /// 40: the token is another worker's.
    ForeignToken,
}

impl Refusal {
    /// Its number in docs/SPEC.md.
    #[must_use]
    pub const fn number(self) -> u64 {
        match self {
            Refusal::UnlimitedDeliverNotAllowed => 1,
            Refusal::TooManySteps => 2,
            Refusal::ZeroThreshold => 3,
            Refusal::BadArea => 4,
            Refusal::Damaged { .. } => 5,
            Refusal::CursorTruncated => 6,
            Refusal::CursorBadLength { .. } => 7,
            Refusal::CursorUnsupportedVersion { .. } => 8,
            Refusal::CursorBadCrc => 9,
            Refusal::EmptyRange { .. } => 10,
            Refusal::NotSortedDisjointAndAboveCommitted { .. } => 11,
            Refusal::TooManyRuns => 12,
            Refusal::AttemptTruncated => 13,
            Refusal::AttemptUnsupportedVersion { .. } => 14,
            Refusal::AttemptBadLength { .. } => 15,
            Refusal::CountMismatch { .. } => 16,
            Refusal::AttemptBadCrc => 17,
            Refusal::NotSorted { .. } => 18,
            Refusal::TooManyPairs => 19,
            Refusal::OutTooShort => 20,
            Refusal::LastOffset => 21,
            Refusal::Settled => 22,
            Refusal::InFlight => 23,
            Refusal::Fenced => 24,
            Refusal::Exhausted => 25,
            Refusal::CheckpointDue => 26,
            Refusal::Full => 27,
            Refusal::CapReached => 28,
            Refusal::Shed => 29,
            Refusal::Held => 30,
            Refusal::JournalFull => 31,
            Refusal::BoundsReversed => 32,
            Refusal::BadHours => 33,
            Refusal::NeverOpen => 34,
            Refusal::Closed { .. } => 35,
            Refusal::UnequalLengths => 36,
            Refusal::Falling { .. } => 37,
            Refusal::UnknownWorker => 38,
            Refusal::NotPermitted => 39,
            Refusal::ForeignToken => 40,
        }
    }

    /// The refusal of a [number](Refusal::number) and its [values](Refusal::values), of which those that it doesn't have count for
    /// nothing; or `None` where there is no such number.
    ///
    /// ```
    /// use ironbus_delivery_state::Refusal;
    ///
    /// assert_eq!(Refusal::from_number(24, [0, 0]), Some(Refusal::Fenced));
    /// assert_eq!(Refusal::from_number(5, [7, 0]), Some(Refusal::Damaged { block: 7 }));
    /// assert_eq!(Refusal::from_number(41, [0, 0]), None);
    /// ```
    #[must_use]
    pub const fn from_number(number: u64, values: [u64; 2]) -> Option<Refusal> {
        let [first, second] = values;
        Some(match number {
            5 => Refusal::Damaged { block: first },
            7 => Refusal::CursorBadLength { len: first },
            8 => Refusal::CursorUnsupportedVersion { version: first },
            10 => Refusal::EmptyRange {
                start: first,
                end: second,
            },
            11 => Refusal::NotSortedDisjointAndAboveCommitted {
                start: first,
                prev_end: second,
            },
            14 => Refusal::AttemptUnsupportedVersion { version: first },
            15 => Refusal::AttemptBadLength { len: first },
            16 => Refusal::CountMismatch {
                declared: first,
                actual: second,
            },
            18 => Refusal::NotSorted {
                offset: first,
                prev_offset: second,
            },
            35 => Refusal::Closed { opening: first },
            37 => Refusal::Falling { place: first },
            _ => return Refusal::without_values(number),
        })
    }

    // The refusal of a number that has no values.
    const fn without_values(number: u64) -> Option<Refusal> {
        Some(match number {
            1 => Refusal::UnlimitedDeliverNotAllowed,
            2 => Refusal::TooManySteps,
            3 => Refusal::ZeroThreshold,
            4 => Refusal::BadArea,
            6 => Refusal::CursorTruncated,
            9 => Refusal::CursorBadCrc,
            12 => Refusal::TooManyRuns,
            13 => Refusal::AttemptTruncated,
            17 => Refusal::AttemptBadCrc,
            19 => Refusal::TooManyPairs,
            20 => Refusal::OutTooShort,
            21 => Refusal::LastOffset,
            22 => Refusal::Settled,
            23 => Refusal::InFlight,
            24 => Refusal::Fenced,
            25 => Refusal::Exhausted,
            26 => Refusal::CheckpointDue,
            27 => Refusal::Full,
            28 => Refusal::CapReached,
            29 => Refusal::Shed,
            30 => Refusal::Held,
            31 => Refusal::JournalFull,
            32 => Refusal::BoundsReversed,
            33 => Refusal::BadHours,
            34 => Refusal::NeverOpen,
            36 => Refusal::UnequalLengths,
            38 => Refusal::UnknownWorker,
            39 => Refusal::NotPermitted,
            40 => Refusal::ForeignToken,
            _ => return None,
        })
    }

    // What is said of it, with a # in place of each value.
    fn words(self) -> &'static str {
        WORDS[self.number() as usize - 1]
    }

    /// Its values in the order in which the documents have them, 0 where it has fewer.
    #[must_use]
    pub const fn values(self) -> [u64; 2] {
        match self {
            Refusal::Damaged { block } => [block, 0],
            Refusal::Closed { opening } => [opening, 0],
            Refusal::Falling { place } => [place, 0],
            Refusal::CursorBadLength { len } | Refusal::AttemptBadLength { len } => [len, 0],
            Refusal::CursorUnsupportedVersion { version }
            | Refusal::AttemptUnsupportedVersion { version } => [version, 0],
            Refusal::EmptyRange { start, end } => [start, end],
            Refusal::NotSortedDisjointAndAboveCommitted { start, prev_end } => [start, prev_end],
            Refusal::CountMismatch { declared, actual } => [declared, actual],
            Refusal::NotSorted {
                offset,
                prev_offset,
            } => [offset, prev_offset],
            _ => [0, 0],
        }
    }
}

// What is said of each, by its number, from 1 on.
const WORDS: [&str; 40] = [
    "a delivery limit of 0 or 4294967295 needs the opt-in",
    "more than 16 backoffs",
    "the flush threshold is 0",
    "a journal has an even number of blocks, 18 to 128",
    "block # of the journal is damaged",
    "the cursor snapshot is under 13 bytes",
    "a cursor snapshot can't have # bytes",
    "the cursor snapshot has version #",
    "the cursor snapshot's check doesn't match",
    "the range [#, #) is empty or reversed",
    "the range start # is not above #, the end before it",
    "more than 128 ranges",
    "the attempt snapshot is under 9 bytes",
    "the attempt snapshot has version #",
    "an attempt snapshot can't have # bytes",
    "the attempt snapshot declares # pairs and has #",
    "the attempt snapshot's check doesn't match",
    "the offset # is not above #, the one before it",
    "more than 128 pairs",
    "the list is too short for the answer",
    "the last offset of all can't be claimed",
    "the offset is settled",
    "the offset is in flight",
    "the token is out of date",
    "there are no generations left",
    "a checkpoint has to come first",
    "there is no room for another lease or count",
    "the attempt has lasted as long as the hard cap allows",
    "there is no room for another range of settled offsets",
    "an offset below the bound is in flight",
    "the numbers of checkpoints are used up",
    "the first bound is above the second",
    "the hours have a bit above 47, or a shift of a week or more",
    "no half hour of the week is open",
    "closed until clock #",
    "the lists are of unequal length",
    "the offset at place # is below the one before it",
    "there is no worker of that number",
    "the worker may not do that",
    "the token is another worker's",
];

impl fmt::Display for Refusal {
    fn fmt(&self, f: &mut fmt::Formatter<'_>) -> fmt::Result {
        let number = self.number();
        write!(f, "refused ({number}): ")?;
        let mut parts = self.words().split('#');
        f.write_str(parts.next().unwrap_or_default())?;
        for (value, part) in self.values().into_iter().zip(parts) {
            write!(f, "{value}{part}")?;
        }
        Ok(())
    }
}

impl std::error::Error for Refusal {}

#[cfg(test)]
mod tests {
    use super::Refusal;

    #[test]
    fn numbers_and_values_go_both_ways() {
        for number in 1..=40 {
            let refusal = Refusal::from_number(number, [7, 9]).unwrap();
            assert_eq!(refusal.number(), number);
            assert_eq!(
                Refusal::from_number(number, refusal.values()),
                Some(refusal)
            );
            assert!(refusal
                .to_string()
                .starts_with(&format!("refused ({number}): ")));
        }
        assert_eq!(Refusal::from_number(0, [0, 0]), None);
        for number in [41, 255] {
            assert_eq!(Refusal::from_number(number, [0, 0]), None);
        }
        assert_eq!(
            Refusal::from_number(16, [7, 9]),
            Some(Refusal::CountMismatch {
                declared: 7,
                actual: 9
            })
        );
    }

    // Where a document of this crate names a refusal by its variant, the number beside it is the variant's, and none is named by its
    // number alone.
    #[test]
    fn documents_name_refusals_by_their_variants() {
        let mut named = 0;
        for source in [
            include_str!("configuration.rs"),
            include_str!("consumer.rs"),
            include_str!("hours.rs"),
            include_str!("journal.rs"),
            include_str!("snapshot.rs"),
            include_str!("types.rs"),
            include_str!("workers.rs"),
        ] {
            let documents: Vec<&str> = source
                .lines()
                .filter_map(|line| line.trim_start().strip_prefix("/// "))
                .collect();
            let text = documents.join(" ");
            assert!(!text.contains("Refusals "));
            let text = text.replace("](crate::Refusal::", "](Refusal::");
            for link in text.split("](Refusal::").skip(1) {
                let (name, behind) = link.split_once(')').unwrap();
                let digits = behind.trim_start_matches([' ', '(', ',']);
                let digits = digits.split(|c: char| !c.is_ascii_digit()).next();
                let Some(Ok(number)) = digits.map(str::parse) else {
                    panic!("{name} is named without its number: {behind:.40}");
                };
                let refusal = Refusal::from_number(number, [0, 0]).unwrap();
                let variant = format!("{refusal:?}");
                assert_eq!(variant.split(' ').next(), Some(name), "{number}");
                named += 1;
            }
        }
        assert!(named > 80, "{named} are named");
    }

    #[test]
    fn values_stand_in_their_places() {
        let said = |number| Refusal::from_number(number, [7, 9]).unwrap().to_string();
        assert_eq!(said(8), "refused (8): the cursor snapshot has version 7");
        assert_eq!(
            said(10),
            "refused (10): the range [7, 9) is empty or reversed"
        );
        assert_eq!(
            said(16),
            "refused (16): the attempt snapshot declares 7 pairs and has 9"
        );
        assert_eq!(said(24), "refused (24): the token is out of date");
    }
}
