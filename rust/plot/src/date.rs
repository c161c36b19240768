//! Dates, times and durations, as they are shown.

pub const SECOND: u64 = 1_000;
pub const MINUTE: u64 = 60 * SECOND;
pub const HOUR: u64 = 60 * MINUTE;
pub const DAY: u64 = 24 * HOUR;

/// A stamp's parts. Month and day are counted from 1.
#[derive(Clone, Copy, Debug, PartialEq, Eq)]
pub struct Date {
    pub year: u64,
    pub month: u64,
    pub day: u64,
    /// Milliseconds of its day.
    pub time: u64,
}

fn is_leap(year: u64) -> bool {
    match (year % 4, year % 100) {
        (0, 0) => matches!(year % 400, 0),
        (fourth, _) => matches!(fourth, 0),
    }
}

fn days_of_year(year: u64) -> u64 {
    if is_leap(year) {
        366
    } else {
        365
    }
}

pub fn days_of_month(year: u64, month: u64) -> u64 {
    match month {
        2 if is_leap(year) => 29,
        2 => 28,
        4 | 6 | 9 | 11 => 30,
        _ => 31,
    }
}

impl Date {
    pub fn of(milliseconds: u64) -> Date {
        let mut days = milliseconds / DAY;
        let mut year = 2000;
        while days >= days_of_year(year) {
            days -= days_of_year(year);
            year += 1;
        }
        let mut month = 1;
        while days >= days_of_month(year, month) {
            days -= days_of_month(year, month);
            month += 1;
        }
        Date {
            year,
            month,
            day: days + 1,
            time: milliseconds % DAY,
        }
    }

    pub fn milliseconds(&self) -> u64 {
        let years: u64 = (2000..self.year).map(days_of_year).sum();
        let months = (1..self.month).map(|month| days_of_month(self.year, month));
        let days = years + months.sum::<u64>() + self.day - 1;
        days * DAY + self.time
    }

    /// As 2026-03-01.
    pub fn day_text(&self) -> String {
        format!("{}-{:02}-{:02}", self.year, self.month, self.day)
    }

    /// As 06:30, with seconds or milliseconds where `unit` asks for them.
    pub fn time_text(&self, unit: u64) -> String {
        let (hour, minute) = (self.time / HOUR, self.time / MINUTE % 60);
        let (second, milli) = (self.time / SECOND % 60, self.time % SECOND);
        if unit < SECOND {
            format!("{hour:02}:{minute:02}:{second:02}.{milli:03}")
        } else if unit < MINUTE {
            format!("{hour:02}:{minute:02}:{second:02}")
        } else {
            format!("{hour:02}:{minute:02}")
        }
    }
}

/// The largest of a minute, a second and a millisecond in which all of these are whole.
pub fn unit_of(all: impl IntoIterator<Item = u64>) -> u64 {
    let unit = |milliseconds: u64| match (milliseconds % SECOND, milliseconds % MINUTE) {
        (0, 0) => MINUTE,
        (0, _) => SECOND,
        _ => 1,
    };
    all.into_iter().map(unit).min().unwrap_or(MINUTE)
}

/// A duration in its two largest units, such as `1 h 30 min`; the rest is left out.
pub fn duration_text(milliseconds: u64) -> String {
    let units = [
        (DAY, "d"),
        (HOUR, "h"),
        (MINUTE, "min"),
        (SECOND, "s"),
        (1, "ms"),
    ];
    let first = units.iter().position(|&(unit, _)| milliseconds >= unit);
    let first = first.unwrap_or(units.len() - 1);
    let (unit, name) = units[first];
    let mut text = format!("{} {name}", milliseconds / unit);
    if let Some(&(smaller, name)) = units.get(first + 1) {
        let rest = milliseconds % unit / smaller;
        if rest != 0 {
            text += &format!(" {rest} {name}");
        }
    }
    text
}

#[cfg(test)]
mod tests {
    use super::*;

    #[test]
    fn dates_and_back() {
        let leap = Date::of(5_097_600_000);
        assert_eq!(
            (leap.year, leap.month, leap.day, leap.time),
            (2000, 2, 29, 0)
        );
        assert_eq!(Date::of(3_155_759_999_999).day_text(), "2099-12-31");
        for days in 0..36_525 {
            let milliseconds = days * DAY + 45_296_789;
            assert_eq!(Date::of(milliseconds).milliseconds(), milliseconds);
        }
    }

    #[test]
    fn times() {
        let date = Date::of(45_296_789);
        assert_eq!(date.time_text(1), "12:34:56.789");
        assert_eq!(date.time_text(SECOND), "12:34:56");
        assert_eq!(date.time_text(HOUR), "12:34");
        assert_eq!(unit_of([HOUR, 90 * SECOND]), SECOND);
        assert_eq!(unit_of([1_500, HOUR]), 1);
        assert_eq!(unit_of([]), MINUTE);
    }

    #[test]
    fn durations() {
        for (milliseconds, text) in [
            (0, "0 ms"),
            (999, "999 ms"),
            (1_500, "1 s 500 ms"),
            (30 * MINUTE, "30 min"),
            (6 * HOUR, "6 h"),
            (5_400_000, "1 h 30 min"),
            (172_800, "2 min 52 s"),
            (2 * DAY + 3 * HOUR + 7, "2 d 3 h"),
            (400 * DAY, "400 d"),
        ] {
            assert_eq!(duration_text(milliseconds), text);
        }
    }
}
