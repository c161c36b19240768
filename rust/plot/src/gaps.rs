//! Where readings are missing.

use crate::Reading;

/// A step of more than this many times the usual one is a gap.
pub const GAP: f64 = 2.5;

fn steps(readings: &[Reading]) -> impl Iterator<Item = u64> + '_ {
    let step = |two: &[Reading]| two[1].milliseconds - two[0].milliseconds;
    readings.windows(2).map(step)
}

/// The median of the steps from one reading to the next, of two the smaller; none where there are
/// fewer than two readings.
pub fn usual_step(readings: &[Reading]) -> Option<u64> {
    let mut steps: Vec<u64> = steps(readings).collect();
    steps.sort_unstable();
    steps.get(steps.len().saturating_sub(1) / 2).copied()
}

/// The readings in runs without a gap, none of them empty.
pub fn runs(readings: &[Reading]) -> Vec<&[Reading]> {
    let usual = usual_step(readings).unwrap_or(0) as f64;
    let mut runs = Vec::new();
    let mut start = 0;
    for (k, step) in steps(readings).enumerate() {
        if step as f64 > GAP * usual {
            runs.push(&readings[start..=k]);
            start = k + 1;
        }
    }
    if start < readings.len() {
        runs.push(&readings[start..]);
    }
    runs
}

#[cfg(test)]
mod tests {
    use super::*;

    fn lengths(stamps: &[u64]) -> Vec<usize> {
        let reading = |&milliseconds: &u64| Reading {
            milliseconds,
            micrometres: 0,
        };
        let readings: Vec<Reading> = stamps.iter().map(reading).collect();
        let runs = runs(&readings);
        assert_eq!(runs.concat(), readings);
        runs.iter().map(|run| run.len()).collect()
    }

    #[test]
    fn gaps_are_steps_much_larger_than_the_usual_one() {
        assert_eq!(lengths(&[]), []);
        assert_eq!(lengths(&[7]), [1]);
        assert_eq!(lengths(&[7, 1_000_000]), [2]);
        assert_eq!(lengths(&[0, 10, 20, 30, 40]), [5]);
        assert_eq!(lengths(&[0, 10, 30, 40, 50]), [5]); // one is missing
        assert_eq!(lengths(&[0, 10, 20, 45, 55]), [5]);
        assert_eq!(lengths(&[0, 10, 20, 46, 56]), [3, 2]);
        assert_eq!(lengths(&[0, 100, 110, 120, 130, 900, 2_000]), [1, 4, 1, 1]);
    }
}
