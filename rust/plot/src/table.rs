//! Readings from a table.

use crate::date::{days_of_month, Date, HOUR, MINUTE, SECOND};
use crate::Reading;

/// The readings of a table: a line that names its columns, then one for each reading, later and
/// later, with commas between columns. Column `um` has the movement; the stamp is in column `ms` in
/// milliseconds, or, where there is none, in column `t` as `YYYY-MM-DDThh:mm:ss.mmmZ`.
///
/// # Errors
///
/// What is wrong, with the number of its line.
pub fn readings(table: &str) -> Result<Vec<Reading>, String> {
    let mut lines = table.lines();
    let names: Vec<&str> = lines.next().unwrap_or("").split(',').collect();
    let column = |name: &str| names.iter().position(|&known| known == name);
    let (ms, t) = (column("ms"), column("t"));
    let (Some(stamp), Some(um)) = (ms.or(t), column("um")) else {
        return Err("line 1: no columns ms and um, or t and um".to_string());
    };
    let mut readings: Vec<Reading> = Vec::new();
    for (k, line) in lines.enumerate() {
        let wrong = |what: &str| format!("line {}: {what}: {line}", k + 2);
        let values: Vec<&str> = line.split(',').collect();
        if values.len() != names.len() {
            return Err(wrong("not as many columns as in line 1"));
        }
        let milliseconds = match ms {
            Some(_) => values[stamp].parse().ok(),
            None => milliseconds(values[stamp]),
        };
        let reading = Reading {
            milliseconds: milliseconds.ok_or_else(|| wrong("no stamp"))?,
            micrometres: values[um].parse().map_err(|_| wrong("no movement"))?,
        };
        let last = readings.last();
        if last.is_some_and(|last| last.milliseconds >= reading.milliseconds) {
            return Err(wrong("not later than the line before"));
        }
        readings.push(reading);
    }
    Ok(readings)
}

/// The milliseconds of a stamp.
fn milliseconds(stamp: &str) -> Option<u64> {
    let is_digit = |place: usize| !matches!(place, 4 | 7 | 10 | 13 | 16 | 19 | 23);
    let fits = |(place, octet): (usize, u8)| {
        if is_digit(place) {
            octet.is_ascii_digit()
        } else {
            octet == b"    -  -  T  :  :  .   Z"[place]
        }
    };
    if stamp.len() != 24 || !stamp.bytes().enumerate().all(fits) {
        return None;
    }
    let number = |from: usize, to: usize| stamp[from..to].parse::<u64>().ok();
    let (year, month, day) = (number(0, 4)?, number(5, 7)?, number(8, 10)?);
    let (hour, minute, second) = (number(11, 13)?, number(14, 16)?, number(17, 19)?);
    let is_date = (2000..2100).contains(&year)
        && (1..=12).contains(&month)
        && (1..=days_of_month(year, month)).contains(&day);
    if !is_date || hour > 23 || minute > 59 || second > 59 {
        return None;
    }
    let time = hour * HOUR + minute * MINUTE + second * SECOND + number(20, 23)?;
    let date = Date {
        year,
        month,
        day,
        time,
    };
    Some(date.milliseconds())
}

#[cfg(test)]
mod tests {
    use super::*;

    fn reading(milliseconds: u64, micrometres: i32) -> Reading {
        Reading {
            milliseconds,
            micrometres,
        }
    }

    #[test]
    fn columns_go_by_their_names() {
        let both = Ok(vec![
            reading(5_097_600_000, -5),
            reading(5_097_600_001, 20_000),
        ]);
        for table in [
            "ms,um\n5097600000,-5\n5097600001,20000\n",
            "um,ms\n-5,5097600000\n20000,5097600001",
            "t,ms,um\nx,5097600000,-5\ny,5097600001,20000\n",
            "t,um\n2000-02-29T00:00:00.000Z,-5\n2000-02-29T00:00:00.001Z,20000\n",
        ] {
            assert_eq!(readings(table), both);
        }
        assert_eq!(readings("ms,um\n"), Ok(vec![]));
    }

    #[test]
    fn lines_that_are_wrong() {
        for (table, says) in [
            ("", "line 1: no columns"),
            ("ms,x\n", "line 1: no columns"),
            ("ms,um\n1,2\n1,2,3\n", "line 3: not as many columns"),
            ("ms,um\n\n", "line 2: not as many columns"),
            ("ms,um\nx,2\n", "line 2: no stamp"),
            ("ms,um\n1,x\n", "line 2: no movement"),
            ("ms,um\n2,2\n2,2\n", "line 3: not later"),
            ("t,um\n2001-02-29T00:00:00.000Z,2\n", "line 2: no stamp"),
            ("t,um\n2001-01-01T24:00:00.000Z,2\n", "line 2: no stamp"),
            ("t,um\n2001-01-01T00:00:00.000z,2\n", "line 2: no stamp"),
            ("t,um\n2001-01-01T00:00:00.00\u{e9},2\n", "line 2: no stamp"),
        ] {
            let error = readings(table).unwrap_err();
            assert!(error.starts_with(says), "{table:?}: {error}");
        }
    }
}
