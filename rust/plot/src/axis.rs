//! Ticks of both axes.

use crate::date::{Date, DAY, HOUR, MINUTE, SECOND};

/// A tick: where, what stands there, and what stands below it.
#[derive(Clone, Debug, PartialEq, Eq)]
pub struct Tick<N> {
    pub at: N,
    pub label: String,
    pub below: String,
}

/// How many ticks an axis of time has at most.
const MOST: u64 = 9;

/// Steps of time up to days.
const STEPS: [u64; 31] = [
    1,
    2,
    5,
    10,
    20,
    50,
    100,
    200,
    500,
    SECOND,
    2 * SECOND,
    5 * SECOND,
    10 * SECOND,
    15 * SECOND,
    30 * SECOND,
    MINUTE,
    2 * MINUTE,
    5 * MINUTE,
    10 * MINUTE,
    15 * MINUTE,
    30 * MINUTE,
    HOUR,
    2 * HOUR,
    3 * HOUR,
    6 * HOUR,
    12 * HOUR,
    DAY,
    2 * DAY,
    5 * DAY,
    7 * DAY,
    14 * DAY,
];

/// Ticks of an axis of time from one moment to another, in milliseconds.
pub fn times(from: u64, to: u64) -> Vec<Tick<u64>> {
    let fits = |step: &u64| (to - from) / step < MOST;
    match STEPS.iter().copied().find(fits) {
        Some(step) => times_by(step, from, to),
        None => months(from, to),
    }
}

/// Ticks at whole steps; the date stands below the first of each day.
fn times_by(step: u64, from: u64, to: u64) -> Vec<Tick<u64>> {
    let mut ticks = Vec::new();
    let mut day = String::new();
    let mut at = from.div_ceil(step) * step;
    while at <= to {
        let date = Date::of(at);
        let (label, below) = if step < DAY {
            let is_new = date.day_text() != day;
            day = date.day_text();
            let below = if is_new { day.clone() } else { String::new() };
            (date.time_text(step), below)
        } else {
            (date.day_text(), String::new())
        };
        ticks.push(Tick { at, label, below });
        at += step;
    }
    ticks
}

/// Ticks at the first days of months or years.
fn months(from: u64, to: u64) -> Vec<Tick<u64>> {
    let number = |date: Date| 12 * date.year + date.month - 1;
    let (first, last) = (number(Date::of(from)), number(Date::of(to)));
    let steps = [1, 2, 3, 6, 12, 24, 60, 120, 240];
    let fits = |step: &u64| (last - first) / step < MOST;
    let step = steps.into_iter().find(fits).unwrap_or(600);
    let mut ticks = Vec::new();
    for month in (first.div_ceil(step) * step..=last).step_by(step as usize) {
        let date = Date {
            year: month / 12,
            month: month % 12 + 1,
            day: 1,
            time: 0,
        };
        let at = date.milliseconds();
        if at >= from {
            let label = if step < 12 {
                format!("{}-{:02}", date.year, date.month)
            } else {
                date.year.to_string()
            };
            let below = String::new();
            ticks.push(Tick { at, label, below });
        }
    }
    ticks
}

/// The step between ticks of movements from one to another, 1, 2 or 5 times a power of ten.
pub fn movement_step(from: i64, to: i64) -> i64 {
    let powers = (0..).map(|power| 10i64.pow(power));
    let mut steps = powers.flat_map(|power| [1, 2, 5].map(|times| times * power));
    steps
        .find(|step| (to - from) / step < 12)
        .expect("a step that is large enough")
}

/// Ticks of an axis of movements from one to another, both whole steps.
pub fn movements(from: i64, to: i64, step: i64) -> Vec<Tick<i64>> {
    (from..=to)
        .step_by(step as usize)
        .map(|at| Tick {
            at,
            label: number_text(at),
            below: String::new(),
        })
        .collect()
}

/// A number with commas between thousands and a minus sign.
pub fn number_text(number: i64) -> String {
    let digits = number.unsigned_abs().to_string();
    let mut text = String::from(if number < 0 { "\u{2212}" } else { "" });
    let first = (digits.len() - 1) % 3 + 1; // before the first comma
    text.push_str(&digits[..first]);
    for three in digits.as_bytes()[first..].chunks(3) {
        text.push(',');
        text.extend(three.iter().map(|&digit| char::from(digit)));
    }
    text
}

#[cfg(test)]
mod tests {
    use super::*;

    fn labels(from: u64, to: u64) -> Vec<String> {
        let label = |tick: Tick<u64>| format!("{} {}", tick.label, tick.below);
        let labels = times(from, to).into_iter().map(label);
        labels.map(|label| label.trim_end().to_string()).collect()
    }

    #[test]
    fn ticks_of_a_day() {
        let day = 825_638_400_000;
        assert_eq!(
            labels(day, day + 23 * HOUR),
            [
                "00:00 2026-03-01",
                "03:00",
                "06:00",
                "09:00",
                "12:00",
                "15:00",
                "18:00",
                "21:00"
            ]
        );
        assert_eq!(
            labels(day + 10 * HOUR, day + 44 * HOUR),
            [
                "12:00 2026-03-01",
                "18:00",
                "00:00 2026-03-02",
                "06:00",
                "12:00",
                "18:00"
            ]
        );
    }

    #[test]
    fn ticks_of_moments_and_of_years() {
        assert_eq!(
            labels(0, 4),
            [
                "00:00:00.000 2000-01-01",
                "00:00:00.001",
                "00:00:00.002",
                "00:00:00.003",
                "00:00:00.004"
            ]
        );
        assert_eq!(
            labels(1_000, 3_999)[..2],
            ["00:00:01.000 2000-01-01", "00:00:01.500"]
        );
        assert_eq!(labels(0, 5 * DAY)[1..3], ["2000-01-02", "2000-01-03"]);
        assert_eq!(labels(DAY, 200 * DAY)[..2], ["2000-02", "2000-03"]);
        assert_eq!(
            labels(DAY, 3_155_759_999_999)[..3],
            ["2020", "2040", "2060"]
        );
        assert_eq!(labels(0, 0), ["00:00:00.000 2000-01-01"]);
    }

    /// Whatever the span, there are ticks enough to read it by, and not too many.
    #[test]
    fn as_many_ticks_as_can_be_read() {
        let mut span = 4;
        while span <= 3_155_759_999_999 {
            for from in [0, 1, 825_638_412_345] {
                let to = from + span;
                let ticks = times(from, to);
                assert!((2..=10).contains(&ticks.len()), "{span}: {ticks:?}");
                assert!(ticks.iter().all(|tick| (from..=to).contains(&tick.at)));
            }
            span += span / 7 + 1;
        }
    }

    #[test]
    fn ticks_of_movements() {
        for (from, to, step) in [
            (0, 0, 1),
            (0, 11, 1),
            (0, 12, 2),
            (-7_600, 11_800, 2_000),
            (-20_000, 20_000, 5_000),
            (0, 60_000, 10_000),
        ] {
            assert_eq!(movement_step(from, to), step, "{from} {to}");
        }
        let labels = movements(-10_000, 15_000, 5_000);
        let labels: Vec<&str> = labels.iter().map(|tick| &tick.label[..]).collect();
        assert_eq!(
            labels,
            ["−10,000", "−5,000", "0", "5,000", "10,000", "15,000"]
        );
        assert_eq!(number_text(-999), "−999");
        assert_eq!(number_text(1_234_567), "1,234,567");
    }
}
