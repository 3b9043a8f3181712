//! When work is handed out: the half hours of a week.

use core::fmt;
use core::ops::Range;

/// A day of the week. Its number, from Monday's 0 on, is its place in [`Hours::masks`].
#[derive(Clone, Copy, Debug, PartialEq, Eq, PartialOrd, Ord, Hash)]
#[allow(missing_docs)]
pub enum Weekday {
    Monday,
    Tuesday,
    Wednesday,
    Thursday,
    Friday,
    Saturday,
    Sunday,
}

impl Weekday {
    /// The seven, Monday first.
    pub const ALL: [Weekday; 7] = [
        Weekday::Monday,
        Weekday::Tuesday,
        Weekday::Wednesday,
        Weekday::Thursday,
        Weekday::Friday,
        Weekday::Saturday,
        Weekday::Sunday,
    ];
}

/// A time of the day, as hour and minute: `(8, 0)` to `(24, 0)`. The minute is 0 or 30.
pub type TimeOfDay = (u8, u8);

/// The opening hours of a consumer, or none: without them it is open always, which is the default.
///
/// Outside its hours a claim is refused with the clock of the next opening
/// ([`Refusal::Closed`](crate::Refusal::Closed), 35), and a nacked message waits until then if its delay ends outside. All else,
/// deadlines of claims among it, doesn't look at the hours.
///
/// ```
/// use ironbus_delivery_state::{Hours, Weekday};
///
/// let mut hours = Hours::week();
/// for day in &Weekday::ALL[..5] {
///     hours = hours.open(*day, (8, 0)..(12, 0))?.open(*day, (13, 0)..(17, 30))?;
/// }
/// // the clock counts from 1970 on: its 0 was a Thursday midnight
/// let hours = hours.clock_zero(Weekday::Thursday, (0, 0))?;
/// assert_eq!(hours.masks().unwrap()[0].count_ones(), 17);
///
/// let error = Hours::week().open(Weekday::Monday, (8, 15)..(12, 0)).unwrap_err();
/// assert_eq!(error.to_string(), "08:15 is no half hour of a day");
/// # Ok::<(), ironbus_delivery_state::HoursError>(())
/// ```
#[derive(Clone, Copy, Debug, PartialEq, Eq)]
#[repr(C)]
pub struct Hours {
    given: bool,
    shift: u64,
    days: [u64; 7],
}

impl Hours {
    /// Nanoseconds of half an hour.
    pub const HALF_HOUR: u64 = 1_800_000_000_000;
    /// Nanoseconds of a week.
    pub const WEEK: u64 = 336 * Hours::HALF_HOUR;

    /// No hours: open always.
    #[must_use]
    pub const fn always() -> Hours {
        Hours {
            given: false,
            shift: 0,
            days: [0; 7],
        }
    }

    /// A week with nothing open yet, whose Monday midnight is clock 0. As it stands, a start refuses it,
    /// [`NeverOpen`](crate::Refusal::NeverOpen) (34).
    #[must_use]
    pub const fn week() -> Hours {
        Hours::from_masks([0; 7], 0)
    }

    /// The hours of seven numbers, Monday's first, whose bits 0 to 47 are the half hours of a day, bit 0 the one from midnight; and of
    /// the nanoseconds by which clock 0 lies after Monday midnight.
    ///
    /// Nothing is refused here. Start and restart refuse bits above 47 and a shift of a week or more, [`BadHours`](crate::Refusal::BadHours) (33),
    /// and a week in which nothing is open, [`NeverOpen`](crate::Refusal::NeverOpen) (34).
    #[must_use]
    pub const fn from_masks(days: [u64; 7], shift_nanos: u64) -> Hours {
        Hours {
            given: true,
            shift: shift_nanos,
            days,
        }
    }

    /// The same, open on a day from one time to another, beside what is open already. Of [`Hours::always`] it makes a week in which
    /// nothing else is open.
    ///
    /// # Errors
    /// A time that no half hour begins or ends at, or a range that is empty or reversed.
    pub fn open(mut self, day: Weekday, times: Range<TimeOfDay>) -> Result<Hours, HoursError> {
        let from = half_hour(times.start)?;
        let to = half_hour(times.end)?;
        if to <= from {
            return Err(HoursError::Reversed(times.start, times.end));
        }
        for half in from..to {
            self.days[day as usize] |= 1 << half;
        }
        self.given = true;
        Ok(self)
    }

    /// The same, with clock 0 at a time of a weekday.
    ///
    /// # Errors
    /// A time that no half hour begins at. A clock that starts elsewhere is said by [`Hours::from_masks`].
    pub fn clock_zero(mut self, day: Weekday, time: TimeOfDay) -> Result<Hours, HoursError> {
        let half = half_hour(time)?;
        self.shift = (48 * day as u64 + half) % 336 * Hours::HALF_HOUR;
        Ok(self)
    }

    /// The seven numbers, if there are hours.
    #[must_use]
    pub const fn masks(&self) -> Option<[u64; 7]> {
        if self.given {
            Some(self.days)
        } else {
            None
        }
    }

    /// The nanoseconds by which clock 0 lies after Monday midnight.
    #[must_use]
    pub const fn shift_nanos(&self) -> u64 {
        self.shift
    }
}

impl Default for Hours {
    fn default() -> Hours {
        Hours::always()
    }
}

// The half hours of a day before a time.
fn half_hour(time: TimeOfDay) -> Result<u64, HoursError> {
    let (hour, minute) = time;
    let half = 2 * u64::from(hour) + u64::from(minute / 30);
    if minute % 30 != 0 || minute > 30 || half > 48 {
        return Err(HoursError::NoHalfHour(time));
    }
    Ok(half)
}

/// Why hours can't be set so.
#[derive(Clone, Copy, Debug, PartialEq, Eq)]
#[non_exhaustive]
pub enum HoursError {
    /// A time that isn't on the half hour, or after 24:00.
    NoHalfHour(TimeOfDay),
    /// A range whose first time isn't before its second.
    Reversed(TimeOfDay, TimeOfDay),
}

impl fmt::Display for HoursError {
    fn fmt(&self, f: &mut fmt::Formatter<'_>) -> fmt::Result {
        match self {
            HoursError::NoHalfHour((hour, minute)) => {
                write!(f, "{hour:02}:{minute:02} is no half hour of a day")
            }
            HoursError::Reversed((hour, minute), (end_hour, end_minute)) => write!(
                f,
                "{hour:02}:{minute:02} is not before {end_hour:02}:{end_minute:02}"
            ),
        }
    }
}

impl std::error::Error for HoursError {}

#[cfg(test)]
mod tests {
    use super::{Hours, HoursError, Weekday};

    #[test]
    fn times_are_half_hours() {
        let hours = Hours::week()
            .open(Weekday::Monday, (0, 0)..(0, 30))
            .and_then(|hours| hours.open(Weekday::Sunday, (23, 30)..(24, 0)))
            .unwrap();
        assert_eq!(hours.masks(), Some([1, 0, 0, 0, 0, 0, 1 << 47]));
        let whole = Hours::always().open(Weekday::Friday, (0, 0)..(24, 0));
        assert_eq!(whole.unwrap().masks().unwrap()[4], (1 << 48) - 1);
        for time in [(8, 1), (8, 31), (8, 60), (24, 30), (25, 0), (255, 255)] {
            let refused = Err(HoursError::NoHalfHour(time));
            assert_eq!(Hours::week().open(Weekday::Monday, (0, 0)..time), refused);
            assert_eq!(Hours::week().clock_zero(Weekday::Monday, time), refused);
        }
        for end in [(8, 0), (7, 30)] {
            assert_eq!(
                Hours::week().open(Weekday::Monday, (8, 0)..end),
                Err(HoursError::Reversed((8, 0), end))
            );
        }
    }

    #[test]
    fn the_shift_is_less_than_a_week() {
        for day in Weekday::ALL {
            for half in 0..=48u8 {
                let hours = Hours::week()
                    .clock_zero(day, (half / 2, half % 2 * 30))
                    .unwrap();
                assert!(hours.shift_nanos() < Hours::WEEK);
            }
        }
        let last = Hours::week().clock_zero(Weekday::Sunday, (24, 0)).unwrap();
        assert_eq!(last.shift_nanos(), 0);
        assert_eq!(Hours::always().masks(), None);
        assert_eq!(Hours::default(), Hours::always());
    }
}
