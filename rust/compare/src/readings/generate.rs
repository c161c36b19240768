//! Random readings, and lists of them with a fault.

use std::collections::BTreeSet;
use std::sync::OnceLock;

use super::{
    list, Reading, BAD_MOVEMENT, BAD_STAMP, LAST_STAMP, MAX_MOVEMENT, NOT_LATER, STRUCTURE,
};
use crate::event::{attribute, characters, comment, element, instruction, Event, XSI_URI};
use crate::prng::Prng;

pub const DAY: u64 = 86_400_000;

/// Year, month and day of each day of 2000 to 2099, one after the other.
pub fn days() -> &'static [(u32, u32, u32)] {
    static DAYS: OnceLock<Vec<(u32, u32, u32)>> = OnceLock::new();
    DAYS.get_or_init(|| {
        let mut days = Vec::new();
        for year in 2000..2100 {
            // The only full century, 2000, is a leap year too.
            let february = if year % 4 == 0 { 29 } else { 28 };
            let months = [31, february, 31, 30, 31, 30, 31, 31, 30, 31, 30, 31];
            for (month, length) in (1..).zip(months) {
                days.extend((1..=length).map(|day| (year, month, day)));
            }
        }
        days
    })
}

/// The text of a stamp that is in range.
pub fn stamp_text(milliseconds: u64) -> String {
    let (year, month, day) = days()[(milliseconds / DAY) as usize];
    let (seconds, milli) = (milliseconds % DAY / 1_000, milliseconds % 1_000);
    let (hour, minute, second) = (seconds / 3_600, seconds / 60 % 60, seconds % 60);
    format!("{year}-{month:02}-{day:02}T{hour:02}:{minute:02}:{second:02}.{milli:03}Z")
}

/// The texts of readings that are in range.
pub fn texts(readings: &[Reading]) -> Vec<(String, String)> {
    let texts = |&(stamp, movement): &Reading| (stamp_text(stamp), movement.to_string());
    readings.iter().map(texts).collect()
}

/// A stamp in range.
pub fn stamp(rng: &mut Prng) -> u64 {
    rng.below(LAST_STAMP as usize + 1) as u64
}

/// A movement in range.
pub fn movement(rng: &mut Prng) -> i32 {
    rng.below(2 * MAX_MOVEMENT as usize + 1) as i32 - MAX_MOVEMENT
}

/// So many readings in range and in order. Their list may be past the sizes.
pub fn readings(rng: &mut Prng, count: usize) -> Vec<Reading> {
    let stamps = stamps(rng, count);
    let movements = movements(rng, count);
    stamps.into_iter().zip(movements).collect()
}

/// Later and later ones: spread over the century, or one step after the other.
fn stamps(rng: &mut Prng, count: usize) -> Vec<u64> {
    if rng.one_in(3) {
        let mut all = BTreeSet::new();
        while all.len() < count {
            all.insert(stamp(rng));
        }
        return all.into_iter().collect();
    }
    let step = *rng.pick(&[1, 999, 1_000, 60_000, 1_800_000, 3_599_999, DAY, DAY + 1]);
    let span = step * count as u64;
    let first = match rng.below(3) {
        0 => 0,
        1 => LAST_STAMP + step - span.max(step),
        _ => rng.below((LAST_STAMP - span) as usize) as u64,
    };
    (0..count as u64).map(|k| first + k * step).collect()
}

/// One, a few, or many different ones.
fn movements(rng: &mut Prng, count: usize) -> Vec<i32> {
    let edges = [
        0, 1, -1, 9, 10, -9, -10, 999, 1_000, 9_999, 10_000, -9_999, 19_999, -19_999,
    ];
    let ends = [MAX_MOVEMENT, -MAX_MOVEMENT];
    let kind = rng.below(5);
    let some: Vec<i32> = (0..rng.between(1, 6)).map(|_| movement(rng)).collect();
    let one = |k: usize, rng: &mut Prng| match kind {
        0 => some[0],
        1 => *rng.pick(&some),
        2 => *rng.pick(&edges),
        3 => movement(rng),
        _ if rng.one_in(9) => *rng.pick(&ends),
        _ => k as i32,
    };
    (0..count).map(|k| one(k, rng)).collect()
}

pub const BAD_STAMPS: [&str; 30] = [
    "",
    "2026-03-01",
    "2026-03-01T00:00:00Z",
    "2026-03-01T00:00:00.000",
    "2026-03-01T00:00:00.000ZZ",
    "2026-03-01T00:00:00.000z",
    "2026-03-01t00:00:00.000Z",
    "2026-03-01 00:00:00.000Z",
    "2026-03-01T00:00:00,000Z",
    "2026-03-01T00:00:00.00aZ",
    "2026-03-01T00:00:00.0 0Z",
    "2026/03/01T00:00:00.000Z",
    "+026-03-01T00:00:00.000Z",
    " 026-03-01T00:00:00.000Z",
    "1999-12-31T23:59:59.999Z",
    "2100-01-01T00:00:00.000Z",
    "2000-00-01T00:00:00.000Z",
    "2000-13-01T00:00:00.000Z",
    "2000-01-00T00:00:00.000Z",
    "2000-01-32T00:00:00.000Z",
    "2000-02-30T00:00:00.000Z",
    "2001-02-29T00:00:00.000Z",
    "2098-02-29T00:00:00.000Z",
    "2000-04-31T00:00:00.000Z",
    "2000-01-01T24:00:00.000Z",
    "2000-01-01T00:60:00.000Z",
    "2000-01-01T00:00:60.000Z",
    "2000-01-01T99:99:99.999Z",
    "200\u{ff10}-01-01T00:00:00.000Z",
    "2000-01-01T00:00:00.00\u{660}Z",
];

pub const BAD_MOVEMENTS: [&str; 22] = [
    "",
    "-",
    "+",
    "-0",
    "+0",
    "+1",
    "00",
    "01",
    "-01",
    "007",
    "20001",
    "-20001",
    "99999",
    "100000",
    "4294967296",
    "1 ",
    " 1",
    "1.0",
    "1e3",
    "--1",
    "x",
    "\u{661}",
];

const OTHER_ELEMENTS: [&str; 6] = ["", "R", "rr", "reading", "readingss", "t"];
const OTHER_ATTRIBUTES: [&str; 6] = ["", "T", "u", "umm", "tt", "r"];

/// What is wrong with a list of readings.
#[derive(Clone, Copy, Debug, PartialEq, Eq, PartialOrd, Ord)]
pub enum Fault {
    Root,
    Child,
    After,
    Stamp,
    Movement,
    Order,
}

impl Fault {
    pub const ALL: [Fault; 6] = [
        Fault::Root,
        Fault::Child,
        Fault::After,
        Fault::Stamp,
        Fault::Movement,
        Fault::Order,
    ];
}

/// A list with a fault, and the number and index that have to be answered.
pub struct FaultyList {
    pub fault: Fault,
    pub list: Vec<Event>,
    pub number: u32,
    pub index: u32,
}

/// Puts a fault into the list of readings that are inside the sizes; none where the one drawn has
/// no place in it. What is wrong with readings after it, or comes later in the order, does not
/// count.
pub fn faulty_list(rng: &mut Prng, readings: &[Reading]) -> Option<FaultyList> {
    let fault = *rng.pick(&Fault::ALL);
    let (list, number, index) = match fault {
        Fault::Root => {
            let mut list = list(&texts(readings));
            let at = rng.below(2);
            damage_event(rng, &mut list, at);
            (list, STRUCTURE, 0)
        }
        Fault::After => {
            let mut list = list(&texts(readings));
            let at = list.len() - rng.below(3);
            list.insert(at, other_event(rng, Event::EndElement));
            (list, STRUCTURE, readings.len())
        }
        _ if readings.is_empty() => return None,
        _ => faulty_child(rng, readings, fault)?,
    };
    Some(FaultyList {
        fault,
        list,
        number,
        index: index as u32,
    })
}

fn faulty_child(
    rng: &mut Prng,
    readings: &[Reading],
    fault: Fault,
) -> Option<(Vec<Event>, u32, usize)> {
    let at = rng.below(readings.len());
    let mut children = texts(readings);
    for child in children.iter_mut().skip(at + 1) {
        if rng.one_in(8) {
            child.0 = rng.pick(&BAD_STAMPS).to_string();
        }
        if rng.one_in(8) {
            child.1 = rng.pick(&BAD_MOVEMENTS).to_string();
        }
    }
    if fault == Fault::Order {
        let before = at.checked_sub(1)?;
        children[at].0 = match rng.below(3) {
            0 => children[rng.between(0, before)].0.clone(),
            1 if readings[before].0 > 0 => stamp_text(readings[before].0 - 1),
            _ => children[before].0.clone(),
        };
        return Some((list(&children), NOT_LATER, at));
    }
    if fault == Fault::Movement || rng.one_in(4) {
        children[at].1 = rng.pick(&BAD_MOVEMENTS).to_string();
    }
    if fault == Fault::Stamp || fault == Fault::Child && rng.one_in(4) {
        children[at].0 = rng.pick(&BAD_STAMPS).to_string();
    }
    let mut list = list(&children);
    Some(match fault {
        Fault::Stamp => (list, BAD_STAMP, at),
        Fault::Movement => (list, BAD_MOVEMENT, at),
        _ => {
            let event = 2 + 4 * at + rng.below(3);
            damage_event(rng, &mut list, event);
            (list, STRUCTURE, at)
        }
    })
}

/// Takes an event out, puts another in its place, or another or itself before it.
fn damage_event(rng: &mut Prng, list: &mut Vec<Event>, at: usize) {
    let other = other_event(rng, list[at].clone());
    match rng.below(4) {
        0 => {
            list.remove(at);
        }
        1 => list[at] = other,
        2 => list.insert(at, list[at].clone()),
        _ => list.insert(at, other),
    }
}

/// An event that differs from one of a list of readings in its kind, its name or its URI.
fn other_event(rng: &mut Prng, event: Event) -> Event {
    let other = match rng.below(8) {
        0 => characters(""),
        1 => comment("c"),
        2 => instruction("p", ""),
        3 => element("", rng.pick::<&str>(&OTHER_ELEMENTS)),
        4 => attribute("", rng.pick::<&str>(&OTHER_ATTRIBUTES), "1"),
        5 => attribute(XSI_URI, "type", "r"),
        6 => Event::StartDocument,
        _ => match event.clone() {
            Event::StartElement { name, .. } => Event::StartElement {
                uri: vec![117],
                name,
            },
            Event::Attribute { name, value, .. } => Event::Attribute {
                uri: vec![117],
                name,
                value,
            },
            _ => characters("x"),
        },
    };
    if other == event {
        return characters("x");
    }
    other
}

/// Puts a fault into readings, not none, that are inside the sizes; the number and index that have
/// to be answered. What is wrong with readings after it, or comes later in the order, does not
/// count.
pub fn faulty_readings(rng: &mut Prng, readings: &mut [Reading]) -> (u32, u32) {
    let at = rng.below(readings.len());
    let stamps = [LAST_STAMP + 1, LAST_STAMP + DAY, 1 << 42, 1 << 63, u64::MAX];
    let far = [
        MAX_MOVEMENT + 1,
        -MAX_MOVEMENT - 1,
        99_999,
        65_536,
        i32::MAX,
        i32::MIN,
    ];
    let number = match rng.below(3) {
        0 => {
            readings[at].0 = *rng.pick(&stamps);
            BAD_STAMP
        }
        1 if at > 0 => {
            let before = readings[rng.below(at)].0;
            readings[at].0 = before - u64::from(before > 0 && rng.one_in(2));
            NOT_LATER
        }
        _ => BAD_MOVEMENT,
    };
    if number == BAD_MOVEMENT || number == BAD_STAMP && rng.one_in(4) {
        readings[at].1 = *rng.pick(&far);
    }
    for later in readings.iter_mut().skip(at + 1) {
        if rng.one_in(8) {
            later.0 = *rng.pick(&stamps);
        }
        if rng.one_in(8) {
            later.1 = *rng.pick(&far);
        }
    }
    (number, at as u32)
}

/// A few code points of the store changed to others that stamps and movements have.
pub fn damage_text(rng: &mut Prng, store: &mut [u32]) {
    if store.is_empty() {
        return;
    }
    for _ in 0..rng.between(1, 3) {
        let at = rng.below(store.len());
        store[at] = u32::from(*rng.pick(b"0012345678999-:.TZz+ "));
    }
}
