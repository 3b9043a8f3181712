//! Opening hours (SPEC.md, "Hours"), searched half hour by half hour; and scenes about openings, closings, the turn of the week
//! and the last clocks.
use crate::make::Maker;
use crate::scenes::checkpoint;
use lists::codecs::Code;

pub const HALF_HOUR: u64 = 1_800_000_000_000;
/// Half hours of a day.
pub const DAY: u64 = 48;
pub const WEEK: u64 = 7 * DAY * HALF_HOUR;

/// By how much clock 0 lies after Monday midnight, and the open half hours of each weekday as bits, Monday's first.
#[derive(Clone, Copy, Debug, PartialEq)]
pub struct Hours {
    pub shift: u64,
    pub days: [u64; 7],
}

impl Hours {
    /// Refusals 33, 34.
    pub fn judge(&self) -> Result<(), Code> {
        if self.shift >= WEEK || self.days.iter().any(|bits| bits >> DAY != 0) {
            return Err(vec![33]);
        }
        if self.days == [0; 7] {
            return Err(vec![34]);
        }
        Ok(())
    }

    /// The nanoseconds from the Monday midnight at or before clock 0, which a u64 may not hold.
    fn place(&self, clock: u64) -> u128 {
        u128::from(clock) + u128::from(self.shift)
    }

    /// Whether the half hour is open in which a place lies.
    fn open_there(&self, place: u128) -> bool {
        let half_hour = (place % u128::from(WEEK)) as u64 / HALF_HOUR;
        self.days[(half_hour / DAY) as usize] >> (half_hour % DAY) & 1 == 1
    }

    pub fn is_open(&self, clock: u64) -> bool {
        self.open_there(self.place(clock))
    }

    /// The first clock that isn't before the given one and in an open half hour; the last clock where that lies beyond.
    pub fn opening(&self, clock: u64) -> u64 {
        let mut place = self.place(clock);
        while !self.open_there(place) {
            place += u128::from(HALF_HOUR);
            place -= place % u128::from(HALF_HOUR);
        }
        u64::try_from(place - u128::from(self.shift)).unwrap_or(u64::MAX)
    }
}

/// What scenes ask of hours.
impl Hours {
    /// A clock for a place of the week that may be none.
    fn clock_of(&self, place: u128) -> u64 {
        u64::try_from(place.saturating_sub(u128::from(self.shift))).unwrap_or(u64::MAX)
    }

    /// The beginning of a clock's half hour.
    fn begins(&self, clock: u64) -> u64 {
        let place = self.place(clock);
        self.clock_of(place - place % u128::from(HALF_HOUR))
    }

    /// The first closed half hour from an open clock on, at most a week later.
    fn closing(&self, clock: u64) -> u64 {
        let mut ends = (1..=7 * DAY).map(|i| self.begins(clock).saturating_add(i * HALF_HOUR));
        ends.find(|&end| !self.is_open(end)).unwrap_or(clock)
    }

    /// The Monday midnight behind a clock.
    fn turn(&self, clock: u64) -> u64 {
        let week = u128::from(WEEK);
        self.clock_of((self.place(clock) / week + 1) * week)
    }
}

/// A week with the half hours whose numbers are given.
fn week(half_hours: impl IntoIterator<Item = u64>) -> [u64; 7] {
    let mut days = [0; 7];
    for half_hour in half_hours {
        days[(half_hour / DAY) as usize] |= 1 << (half_hour % DAY);
    }
    days
}

impl Maker {
    /// Gives these hours to the next start or restart.
    pub fn hours(&mut self, hours: Option<Hours>) {
        if self.program.handed.hours == hours {
            return;
        }
        match hours {
            None => self.say("hours none"),
            Some(Hours { shift, days }) => {
                let days = days.map(|bits| bits.to_string()).join(" ");
                self.say(format!("hours {shift} {days}"))
            }
        };
    }

    /// Half hours by the day or by the week, few or many.
    fn any_week(&mut self) -> [u64; 7] {
        let one = self.random.below(7 * DAY);
        match self.random.below(8) {
            0 => week([one]),
            1 => week([self.random.pick(&[0, DAY - 1, DAY, 6 * DAY, 7 * DAY - 1])]),
            2 => week([one, (one + 2) % (7 * DAY)]),
            3 => [0x5555_5555_5555 << self.random.below(2) & ((1 << DAY) - 1); 7],
            4 => [((1 << 36) - 1) & !((1 << 16) - 1); 7],
            5 => week((0..7 * DAY).filter(|&half_hour| half_hour != one)),
            6 => std::array::from_fn(|_| self.random.number() & self.random.number() & ((1 << DAY) - 1) | 1 << 9),
            _ => [(1 << DAY) - 1; 7],
        }
    }

    /// Hours that a start takes.
    pub fn any_hours(&mut self) -> Hours {
        let any = self.random.below(WEEK);
        let day = DAY * HALF_HOUR;
        Hours {
            shift: self.random.pick(&[
                0,
                0,
                1,
                HALF_HOUR - 1,
                HALF_HOUR,
                3 * day,
                WEEK - HALF_HOUR,
                WEEK - 1,
                any,
                any,
            ]),
            days: self.any_week(),
        }
    }

    /// Hours that a start refuses, for one reason or two.
    pub fn bad_hours(&mut self) -> Hours {
        let mut hours = self.any_hours();
        let bit = self.random.pick(&[DAY, DAY, DAY + 1, 63]);
        match self.random.below(6) {
            0 => hours.shift = self.random.pick(&[WEEK, WEEK + 1, u64::MAX]),
            1 => hours.days[self.random.below(7) as usize] |= 1 << bit,
            2 => hours.days = [1 << bit; 7],
            3 => (hours.shift, hours.days) = (WEEK, [0; 7]),
            _ => hours.days = [0; 7],
        }
        hours
    }

    /// A clock at or beside one that matters, within a week from the first: where a half hour begins, where it opens or closes, the
    /// turn of the week, and the last of all.
    fn clock(&mut self, hours: &Hours, first: u64) -> u64 {
        let some = first.saturating_add(HALF_HOUR * self.random.below(7 * DAY));
        let opening = hours.opening(hours.begins(some));
        let closing = hours.closing(opening);
        let turn = hours.turn(some);
        let moments = [some, hours.begins(some), opening, opening, closing, closing, turn, u64::MAX];
        let moment = self.random.pick(&moments);
        self.random.near(moment)
    }
}

/// Claims and nacks about the hours, restarts with other hours and with none, and hours that a restart refuses.
pub fn hours(maker: &mut Maker) {
    let hours = maker.any_hours();
    maker.opening = Some(hours);
    let threshold = maker.random.pick(&[2, 9, 9]);
    let visibility = maker.random.pick(&[10, 10, HALF_HOUR, WEEK]);
    let cap = maker.random.pick(&[25, HALF_HOUR, DAY * HALF_HOUR, WEEK, u64::MAX]);
    maker.start(&format!("5 0 {threshold}"), visibility, cap, 18, &[5, HALF_HOUR]);
    checkpoint(maker);
    let day = DAY * HALF_HOUR;
    let first = maker
        .random
        .pick(&[0, 0, WEEK, 1 << 50, u64::MAX - WEEK, u64::MAX - day, u64::MAX - HALF_HOUR]);
    for _ in 0..6 {
        work(maker, &hours, first);
    }
    let hours = other_hours(maker).unwrap_or(hours);
    for _ in 0..4 {
        work(maker, &hours, first);
    }
    maker.say("state");
}

/// An offset claimed in or outside of hours, and again at the opening; a nack whose deadline is a clock about the hours.
fn work(maker: &mut Maker, hours: &Hours, first: u64) {
    let offset = maker.offset();
    let now = maker.clock(hours, first);
    let answer = maker.say(format!("claim {offset} {now}"));
    if let Some(opening) = answer.strip_prefix("refused 35 ") {
        let opening: u64 = opening.parse().unwrap();
        let moment = maker.random.pick(&[opening.saturating_sub(1), opening]);
        maker.say(format!("claim {offset} {moment}"));
        maker.say(format!("claim {offset} {opening}"));
    } else if answer == "refused 26" {
        checkpoint(maker);
    }
    let (token, from, to) = (maker.token(), maker.clock(hours, first), maker.clock(hours, first));
    let late = u64::MAX - maker.random.below(HALF_HOUR);
    let from = maker.random.pick(&[from, from, from, late]);
    let call = match maker.random.below(6) {
        0 => format!("ack {token}"),
        1 => format!("nack {token} {from}"),
        _ => format!("nack {token} {from} {}", to.saturating_sub(from)),
    };
    let answer = maker.say(call);
    if let Some(deadline) = answer.strip_prefix("requeued ") {
        let time = maker.random.near(deadline.parse().unwrap());
        maker.say(format!("waiting {time}"));
        let (offset, _) = token.split_once(' ').unwrap();
        maker.say(format!("claim {offset} {time}"));
    }
}

/// Hours that no start and no restart takes, whatever the area; the threshold comes before them.
fn refused(maker: &mut Maker) {
    let hours = maker.bad_hours();
    maker.hours(Some(hours));
    for call in [
        "restart",
        "restart 8704",
        "start 5 0 9 10 25 9216",
        "start 5 0 9 10 25 512",
        "start 5 0 0 10 25 9216",
    ] {
        if maker.random.below(2) == 0 {
            maker.say(call);
        }
    }
}

/// Other hours, of which the consumer hears at the restart alone, sometimes behind such as are refused.
fn other_hours(maker: &mut Maker) -> Option<Hours> {
    for _ in 0..maker.random.below(3) {
        refused(maker);
    }
    let hours = (maker.random.below(4) > 0).then(|| maker.any_hours());
    maker.hours(hours);
    let offset = maker.offset();
    maker.say(format!("claim {offset} 7"));
    maker.say("restart");
    let time = maker.random.pick(&[0, HALF_HOUR, 1 << 50, u64::MAX]);
    maker.say(format!("claim {offset} {time}"));
    checkpoint(maker);
    hours
}

#[cfg(test)]
mod tests {
    use super::*;

    /// The opening by the day's bits that are left, as SPEC.md has the search: the rest of the day, then following days, the same
    /// weekday a week later the last.
    fn by_days(hours: &Hours, clock: u64) -> u64 {
        let place = hours.place(clock);
        let week = u128::from(WEEK);
        let half_hour = (place % week) as u64 / HALF_HOUR;
        if hours.is_open(clock) {
            return clock;
        }
        for ahead in 0..=7 {
            let day = half_hour / DAY + ahead;
            let passed = if ahead == 0 { half_hour % DAY } else { 0 };
            let left = hours.days[day as usize % 7] >> passed << passed;
            if left != 0 {
                let found = day * DAY + u64::from(left.trailing_zeros());
                let opening = place / week * week + u128::from(found) * u128::from(HALF_HOUR) - u128::from(hours.shift);
                return u64::try_from(opening).unwrap_or(u64::MAX);
            }
        }
        unreachable!("no open half hour")
    }

    /// Both searches on many hours and clocks; what is found is open, or the last clock, and nothing between is.
    #[test]
    fn openings_by_days() {
        let mut maker = Maker::new(7);
        for _ in 0..2_000 {
            let hours = maker.any_hours();
            assert_eq!(hours.judge(), Ok(()));
            for first in [0, WEEK, 1 << 62, u64::MAX - WEEK, u64::MAX - 3 * HALF_HOUR] {
                let clock = maker.clock(&hours, first);
                let opening = hours.opening(clock);
                assert_eq!(opening, by_days(&hours, clock), "{hours:?} {clock}");
                assert!(opening >= clock && (hours.is_open(opening) || opening == u64::MAX));
                assert!(opening == clock || !hours.is_open(opening - 1) && !hours.is_open(clock));
            }
        }
    }

    #[test]
    fn hours_that_are_refused() {
        let open = Hours {
            shift: WEEK - 1,
            days: [0, 0, 0, 0, 0, 0, 1 << 47],
        };
        assert_eq!(open.judge(), Ok(()));
        let with = |shift: u64, sunday: u64| {
            let mut days = open.days;
            days[6] = sunday;
            Hours { shift, days }.judge()
        };
        assert_eq!(with(0, 1), Ok(()));
        assert_eq!(with(0, 0), Err(vec![34]));
        assert_eq!(with(0, 1 << 48), Err(vec![33]));
        assert_eq!(with(0, 1 << 63 | 1), Err(vec![33]));
        assert_eq!(with(WEEK, 1), Err(vec![33]));
        assert_eq!(with(WEEK, 0), Err(vec![33]));
        assert_eq!(with(u64::MAX, 1), Err(vec![33]));
    }
}
