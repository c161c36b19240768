//! Readings from lists and streams, and back: the library against the ordinary implementation and
//! against a calendar counted day by day.
//!
//! Random requests are put by seeded generators, so that a run puts the same ones each time;
//! `COMPARE_SEED` asks for others. What fails is told by its request line, which the batch program
//! takes.

#![forbid(unsafe_code)]

use std::collections::BTreeMap;

use compare::damage::damaged_list;
use compare::encode::encode;
use compare::event::{attribute, characters, events, Event, Stored, CELLS};
use compare::generate;
use compare::lent::{
    ReadReply, ReaderMemory, ReaderPart, ReaderSizes, Settings, WriterMemory, WriterPart,
    WriterSizes, BOTH, ENDED, LIMIT, LONG, ROOM, SETTINGS, SHAPE,
};
use compare::prng::Prng;
use compare::readings::check::ReadingsComparison;
use compare::readings::generate::{
    damage_text, days, faulty_list, faulty_readings, movement, readings, stamp, stamp_text, texts,
    Fault, BAD_MOVEMENTS, BAD_STAMPS, DAY,
};
use compare::readings::{
    list, ListMemory, ListPart, ListSizes, Reading, ReadingsMemory, ReadingsReply, ReadingsSizes,
    BAD_MOVEMENT, BAD_STAMP, LAST_STAMP, MAX_MOVEMENT, NOT_LATER, STRUCTURE,
};
use compare::sizes::{MAX_READINGS, MAX_STREAM};

fn rng(test: u64) -> Prng {
    let seed = std::env::var("COMPARE_SEED").map_or(1, |seed| seed.parse().expect("a number"));
    Prng::new(1_000 * seed + test)
}

/// The answer of both to a list.
#[track_caller]
fn of_list(both: &mut ReadingsComparison, list: &[Event]) -> (u32, u32) {
    let reply = both.of_list_and_back(&Stored::plain(list));
    let reply = reply.unwrap_or_else(|error| panic!("{error}"));
    (reply.number, reply.index)
}

/// The answer of both to readings.
#[track_caller]
fn to_list(both: &mut ReadingsComparison, readings: &[Reading]) -> (u32, u32) {
    let reply = both.to_list_and_back(readings);
    let reply = reply.unwrap_or_else(|error| panic!("{error}"));
    (reply.number, reply.index)
}

/// Readings are accepted both ways, with the texts that the calendar gives them.
#[track_caller]
fn stand_for_each_other(both: &mut ReadingsComparison, readings: &[Reading]) {
    let list = list(&texts(readings));
    let reply = both.of_list(&Stored::plain(&list), ReadingsSizes::usual());
    let reply = reply.unwrap_or_else(|error| panic!("{error}"));
    let taken = both.readings_taken(&reply);
    assert_eq!((reply.number, taken.as_deref()), (0, Some(readings)));
    let reply = both.to_list(readings, ListSizes::usual());
    let reply = reply.unwrap_or_else(|error| panic!("{error}"));
    let made = both.list_made(&reply).and_then(|made| made.events());
    assert_eq!((reply.number, made), (0, Some(list)));
}

/// How many readings go in one call where movements are at most two code points long.
const AT_ONCE: usize = 600;

#[test]
fn every_day_of_the_century() {
    let mut both = ReadingsComparison::new();
    assert_eq!(days().len() as u64 * DAY, LAST_STAMP + 1);
    let times = [0, 1, 45_296_789, 46_800_000, DAY - 1];
    let stamps = (0..days().len() as u64).flat_map(|day| times.map(|time| day * DAY + time));
    let all: Vec<Reading> = stamps.map(|stamp| (stamp, 0)).collect();
    for part in all.chunks(AT_ONCE) {
        stand_for_each_other(&mut both, part);
    }
}

/// A million random stamps, in order, both ways; fewer where the build is not for release.
#[test]
fn random_stamps() {
    let mut rng = rng(1);
    let count = if cfg!(debug_assertions) {
        50_000
    } else {
        1_000_000
    };
    let mut all: Vec<u64> = (0..count).map(|_| stamp(&mut rng)).collect();
    all.sort_unstable();
    all.dedup();
    let mut both = ReadingsComparison::new();
    for part in all.chunks(AT_ONCE) {
        let moved = rng.below(20) as i32 - 10;
        let part: Vec<Reading> = part.iter().map(|&stamp| (stamp, moved)).collect();
        stand_for_each_other(&mut both, &part);
    }
}

/// Each movement in range, and the first ones out of it.
#[test]
fn every_movement() {
    let mut both = ReadingsComparison::new();
    let all: Vec<i32> = (-MAX_MOVEMENT..=MAX_MOVEMENT).collect();
    for part in all.chunks(500) {
        let part: Vec<Reading> = (7..).zip(part.iter().copied()).collect();
        stand_for_each_other(&mut both, &part);
    }
    for far in [20_001, 20_002, 32_767, 65_536, 99_999, i32::MAX] {
        for far in [far, -far] {
            let um = far.to_string();
            let list = list(&[(&stamp_text(0), &um)]);
            assert_eq!(of_list(&mut both, &list), (BAD_MOVEMENT, 0), "{um}");
            assert_eq!(to_list(&mut both, &[(0, far)]), (BAD_MOVEMENT, 0), "{um}");
        }
    }
    assert_eq!(to_list(&mut both, &[(0, i32::MIN)]), (BAD_MOVEMENT, 0));
}

/// Around the last stamp, the days that some years have, and the order of two.
#[test]
fn both_sides_of_the_bounds_of_stamps() {
    let mut both = ReadingsComparison::new();
    for (stamp, number) in [
        (LAST_STAMP, 0),
        (LAST_STAMP + 1, BAD_STAMP),
        (u64::from(u32::MAX), 0),
        (u64::from(u32::MAX) + 1, 0),
        (1 << 42, BAD_STAMP),
        (1 << 63, BAD_STAMP),
        ((1 << 63) - 1, BAD_STAMP),
        (u64::MAX, BAD_STAMP),
    ] {
        assert_eq!(to_list(&mut both, &[(stamp, 0)]), (number, 0), "{stamp}");
    }
    for (before, after, number) in [
        (7, 8, 0),
        (7, 7, NOT_LATER),
        (7, 6, NOT_LATER),
        (0, LAST_STAMP, 0),
        (LAST_STAMP, 0, NOT_LATER),
        (LAST_STAMP, LAST_STAMP, NOT_LATER),
        (u64::from(u32::MAX), u64::from(u32::MAX) + 1, 0),
        (u64::from(u32::MAX) + 1, 1, NOT_LATER),
    ] {
        let readings = [(before, 5), (after, 5)];
        let answer = (number, u32::from(number != 0));
        assert_eq!(to_list(&mut both, &readings), answer);
        assert_eq!(of_list(&mut both, &list(&texts(&readings))), answer);
    }
    // Each year's Februaries, and the first and last of each part of a stamp.
    let mut judged = |text: &str| of_list(&mut both, &list(&[(text, "0")]));
    for year in 1998..=2101 {
        for day in 28..=30 {
            let exists = (2000..=2099).contains(&year) && (day == 28 || day == 29 && year % 4 == 0);
            let number = if exists { 0 } else { BAD_STAMP };
            let text = format!("{year}-02-{day}T00:00:00.000Z");
            assert_eq!(judged(&text), (number, 0), "{text}");
        }
    }
    for month in 0..=13 {
        for day in 0..=32 {
            let exists = days().contains(&(2026, month, day));
            let number = if exists { 0 } else { BAD_STAMP };
            let text = format!("2026-{month:02}-{day:02}T12:00:00.000Z");
            assert_eq!(judged(&text), (number, 0), "{text}");
        }
    }
    for part in 0..100 {
        for (time, most) in [
            (format!("{part:02}:00:00"), 23),
            (format!("00:{part:02}:00"), 59),
            (format!("00:00:{part:02}"), 59),
        ] {
            let number = if part <= most { 0 } else { BAD_STAMP };
            let text = format!("2026-03-01T{time}.999Z");
            assert_eq!(judged(&text), (number, 0), "{text}");
        }
    }
    for text in BAD_STAMPS {
        assert_eq!(judged(text), (BAD_STAMP, 0), "{text}");
    }
    for text in BAD_MOVEMENTS {
        let list = list(&[(&stamp_text(0)[..], text)]);
        assert_eq!(of_list(&mut both, &list), (BAD_MOVEMENT, 0), "{text}");
    }
}

/// Each place of a stamp with each octet, and with code points whose low octets are its own.
#[test]
fn every_place_of_a_stamp() {
    let mut both = ReadingsComparison::new();
    let good = Stored::plain(&list(&[(stamp_text(825_638_400_000), "-1024")]));
    let place = good.cells[3 * CELLS + 7] as usize;
    let end = good.store.len();
    let mut numbers = BTreeMap::new();
    for at in (place..place + 24).chain(end - 5..end) {
        let own = good.store[at];
        let more = [own + 0x100, own + 0x1_0000, own | 1 << 31, u32::MAX];
        for code_point in (0..=255).chain(more) {
            let mut list = good.clone();
            list.store[at] = code_point;
            let reply = both.of_list_and_back(&list);
            let reply = reply.unwrap_or_else(|error| panic!("{error}"));
            *numbers.entry(reply.number).or_insert(0) += 1;
        }
    }
    // Of 24 * 260 stamps few exist, and of 5 * 260 movements.
    let expected = [(0, 168), (BAD_STAMP, 6_113), (BAD_MOVEMENT, 1_259)];
    assert_eq!(numbers, expected.into());
}

/// A reading with two stamps: its list is none of readings, and its stream has no list.
#[test]
fn two_stamps_on_one_reading() {
    let mut both = ReadingsComparison::new();
    let good = list(&[(stamp_text(0), "1"), (stamp_text(1), "2")]);
    for (at, name) in [(8, "t"), (9, "t"), (9, "um")] {
        let mut events = good.clone();
        events.insert(at, attribute("", name, &stamp_text(2)));
        assert_eq!(of_list(&mut both, &events), (STRUCTURE, 1));
        for settings in [Settings::BIT_PACKED, Settings::BYTE_ALIGNED] {
            let octets = encode(settings, &events).octets();
            let usual = (ReadingsSizes::usual(), ReaderSizes::usual());
            let reply = both.from_stream(settings, &octets, usual).unwrap();
            assert_eq!((reply.number, reply.index), (SHAPE, at as u32));
        }
    }
}

/// As many readings as the text store holds, and one more; a fault in the one past it.
#[test]
fn as_many_as_the_text_store_holds() {
    type Movement = fn(usize) -> i32;
    let zero: Movement = |_| 0;
    let mut both = ReadingsComparison::new();
    for (movement, most) in [
        (zero, MAX_READINGS),
        (|_| 10, 677),
        (|k| k as i32, 606),
        (|k| -(k as i32) - 1, 585),
        (|k| k as i32 - 20_000, 542),
        (|k| (k % 2) as i32, 677),
        (|_| -20_000, 677),
        (|k| (k % 50) as i32 + 100, 671),
    ] {
        let all: Vec<Reading> = (0..most + 2).map(|k| (7 * k as u64, movement(k))).collect();
        stand_for_each_other(&mut both, &all[..most]);
        let limit = (LIMIT, most as u32);
        for count in [most + 1, most + 2] {
            assert_eq!(to_list(&mut both, &all[..count]), limit);
            let list = list(&texts(&all[..count]));
            assert_eq!(of_list(&mut both, &list), limit);
        }

        // Faults of this reading come before LIMIT; what follows it comes after.
        let whole = list(&texts(&all));
        let past = 2 + 4 * most;
        let mut faulty = whole.clone();
        faulty.insert(past + 4, characters("x"));
        assert_eq!(of_list(&mut both, &faulty), limit);
        faulty.insert(past + 3, characters("x"));
        assert_eq!(of_list(&mut both, &faulty), (STRUCTURE, most as u32));
        let mut faulty = all.clone();
        faulty[most + 1] = (LAST_STAMP + 1, 20_001);
        assert_eq!(to_list(&mut both, &faulty), limit);
        faulty[most].0 = 0;
        assert_eq!(to_list(&mut both, &faulty), (NOT_LATER, most as u32));
        faulty[most].1 = 20_001;
        assert_eq!(to_list(&mut both, &faulty), (BAD_MOVEMENT, most as u32));
        faulty[most].0 = LAST_STAMP + 1;
        assert_eq!(to_list(&mut both, &faulty), (BAD_STAMP, most as u32));
    }
}

/// How often each number was answered.
#[derive(Default, Debug)]
struct Seen {
    taken: BTreeMap<u32, usize>,
    made: BTreeMap<u32, usize>,
    faults: BTreeMap<Fault, usize>,
}

fn count<K: Ord>(map: &mut BTreeMap<K, usize>, key: K) {
    *map.entry(key).or_default() += 1;
}

/// Random readings and lists of them, whole, with a fault whose answer is known, and damaged.
#[test]
fn random_readings() {
    let mut rng = rng(2);
    let mut both = ReadingsComparison::new();
    let mut seen = Seen::default();
    for round in 0..3_000 {
        random_round(&mut rng, &mut both, &mut seen).unwrap_or_else(|e| panic!("{round}: {e}"));
    }
    println!("{} requests, {seen:?}", both.requests);
    for number in [0, LIMIT, STRUCTURE, BAD_STAMP, BAD_MOVEMENT, NOT_LATER] {
        assert!(seen.taken.get(&number) >= Some(&20), "taken: {number}");
        let is_possible = number != STRUCTURE;
        assert!(
            !is_possible || seen.made.get(&number) >= Some(&20),
            "made: {number}"
        );
    }
    for fault in Fault::ALL {
        assert!(seen.faults.get(&fault) >= Some(&100), "{fault:?}");
    }
}

fn random_round(
    rng: &mut Prng,
    both: &mut ReadingsComparison,
    seen: &mut Seen,
) -> Result<(), String> {
    let count_of = match rng.below(20) {
        0 => rng.between(540, 690),
        1..=4 => rng.between(0, 3),
        _ => rng.between(1, 60),
    };
    let all = readings(rng, count_of);
    let laid = Stored::scattered(&list(&texts(&all)), rng);
    let taken = both.of_list_and_back(&laid)?;
    let made = both.to_list_and_back(&all)?;
    count(&mut seen.taken, taken.number);
    count(&mut seen.made, made.number);
    if (taken.number, taken.index) != (made.number, made.index) {
        return Err(format!("{taken:?} and {made:?}"));
    }
    if count_of < 500 && made.number != 0 {
        return Err(format!("{made:?} for {all:?}"));
    }

    for _ in 0..2 {
        let mut damaged = damaged_list(rng, &laid);
        if rng.one_in(2) {
            damaged = laid.clone();
            damage_text(rng, &mut damaged.store);
        }
        count(&mut seen.taken, both.of_list_and_back(&damaged)?.number);
    }
    if made.number != 0 {
        return Ok(());
    }
    if let Some(faulty) = faulty_list(rng, &all) {
        let list = Stored::scattered(&faulty.list, rng);
        let reply = both.of_list_and_back(&list)?;
        let answer = (faulty.number, faulty.index);
        if (reply.number, reply.index) != answer {
            return Err(format!(
                "{:?}: {reply:?}, not {answer:?}\n{list:?}",
                faulty.fault
            ));
        }
        count(&mut seen.faults, faulty.fault);
        count(&mut seen.taken, reply.number);
    }
    let mut faulty = all;
    if !faulty.is_empty() {
        let answer = faulty_readings(rng, &mut faulty);
        let reply = both.to_list_and_back(&faulty)?;
        if (reply.number, reply.index) != answer {
            return Err(format!("{reply:?}, not {answer:?}\n{faulty:?}"));
        }
        count(&mut seen.made, reply.number);
    }
    Ok(())
}

/// Dirty memory of any length, longer than asked for or shorter: in each part, and in all.
#[test]
fn longer_and_shorter_memory() {
    let mut rng = rng(3);
    let mut both = ReadingsComparison::new();
    let (most, most_list) = (ReadingsSizes::most(), ListSizes::most());
    let stated = ListSizes::stated();
    let mut rooms = [0, 0];
    for _ in 0..400 {
        let mut length = |stated: usize, most: usize| match rng.below(8) {
            0 => stated - 1,
            1 => rng.below(stated),
            2 => stated,
            3 => most,
            _ => rng.between(stated, most),
        };
        let sizes = ReadingsSizes {
            stamps: length(MAX_READINGS, most.stamps),
            movements: length(MAX_READINGS, most.movements),
        };
        let list_sizes = ListSizes {
            events: length(stated.events, most_list.events),
            text: length(stated.text, most_list.text),
        };
        let count = rng.below(40);
        let mut all = readings(&mut rng, count);
        let mut list = list(&texts(&all));
        let mut answer = (0, 0);
        if rng.one_in(3) {
            list.pop();
            all.push((u64::MAX, 0));
            answer = (1, count as u32);
        }
        let of = |reply: ReadingsReply| (reply.number, reply.index);
        let to = |reply: ReadReply| (reply.number, reply.index);
        let has_room = sizes.stamps.min(sizes.movements) >= MAX_READINGS;
        let expected = if has_room {
            (STRUCTURE * answer.0, answer.1)
        } else {
            (ROOM, 0)
        };
        assert_eq!(
            of(both.of_list(&Stored::plain(&list), sizes).unwrap()),
            expected
        );
        let has_list_room = list_sizes.events >= stated.events && list_sizes.text >= stated.text;
        let expected = if has_list_room {
            (BAD_STAMP * answer.0, answer.1)
        } else {
            (ROOM, 0)
        };
        assert_eq!(to(both.to_list(&all, list_sizes).unwrap()), expected);
        rooms[0] += u32::from(!has_room);
        rooms[1] += u32::from(!has_list_room);
    }
    assert!(
        rooms.iter().all(|&rooms| (50..350).contains(&rooms)),
        "{rooms:?}"
    );
}

/// Stamps and movements of two lengths: as many readings as both have.
#[test]
fn parts_of_two_lengths() {
    let (stamps, movements) = ([1, 2, 3, u64::MAX], [4, 5, 6, i32::MAX]);
    for a in 0..=4 {
        for b in 0..=4 {
            let mut memories = [ListMemory::new(), ListMemory::new()];
            let mut replies = [None, None];
            for ((memory, reply), codec) in memories.iter_mut().zip(&mut replies).zip(BOTH) {
                *reply = Some(memory.of_readings(codec, &stamps[..a], &movements[..b]));
            }
            let reply = replies[0].expect("an answer");
            assert_eq!(replies[1], Some(reply));
            assert!(memories[0] == memories[1]);
            assert_eq!(memories[0].fault(&reply), None);
            let count = a.min(b) as u32;
            if count < 4 {
                assert_eq!((reply.number, reply.events), (0, 4 + 4 * count));
            } else {
                assert_eq!((reply.number, reply.index), (BAD_STAMP, 3));
            }
        }
    }
}

/// What is lent for reading may be empty, one part may be the other, and cells any numbers.
#[test]
fn cells_that_are_no_list() {
    let mut rng = rng(4);
    let mut both = ReadingsComparison::new();
    for _ in 0..300 {
        let cell = |rng: &mut Prng| match rng.below(4) {
            0 => rng.number() as u32,
            _ => rng.below(12) as u32,
        };
        let cells: Vec<u32> = (0..rng.below(60)).map(|_| cell(&mut rng)).collect();
        let store = (0..rng.below(60)).map(|_| cell(&mut rng)).collect();
        let list = Stored { cells, store };
        let reply = both.of_list(&list, ReadingsSizes::usual()).unwrap();
        assert_eq!((reply.number, reply.index), (STRUCTURE, 0));
    }
    let (cells, mut memory) = ([1, 0, 0, 0, 0, 0, 0, 0, 0, 3], ReadingsMemory::new());
    for codec in BOTH {
        let reply = memory.of_list(codec, &cells, &cells);
        assert_eq!(
            (reply.number, reply.index, memory.fault(&reply)),
            (STRUCTURE, 0, None)
        );
    }
}

// ---- streams

/// Random readings to streams and back, with all settings; streams of lists with a fault.
#[test]
fn readings_in_streams() {
    let mut rng = rng(5);
    let mut both = ReadingsComparison::new();
    let usual = (ReadingsSizes::usual(), ReaderSizes::usual());
    let mut numbers = [BTreeMap::new(), BTreeMap::new()];
    for round in 0..1_500 {
        let settings = generate::settings(&mut rng);
        let count_of = if round % 10 == 0 {
            rng.between(400, 680)
        } else {
            rng.below(40)
        };
        let mut all = readings(&mut rng, count_of);
        if rng.one_in(4) && !all.is_empty() && count_of < 400 {
            faulty_readings(&mut rng, &mut all);
        }
        let reply = both
            .to_stream_and_back(settings, &all)
            .unwrap_or_else(|e| panic!("{e}"));
        count(&mut numbers[0], reply.number);
        if reply.number != 0 {
            continue;
        }

        let mut octets = both.octets_written(&reply).expect("octets").to_vec();
        let mut expected = None;
        match rng.below(4) {
            0 => octets.truncate(rng.below(octets.len())),
            1 => octets.push(0),
            2 => {
                let at = rng.below(octets.len());
                octets[at] ^= 1 << rng.below(8);
            }
            _ => {
                if let Some(faulty) = faulty_list(&mut rng, &all) {
                    let list = Stored::plain(&faulty.list);
                    let mut writer = WriterMemory::new();
                    let reply = writer.write(BOTH[0], settings, &list.cells, &list.store);
                    octets = writer.octets(&reply).expect("octets").to_vec();
                    if reply.number == 0 {
                        expected = Some((faulty.number, faulty.index));
                    }
                }
            }
        }
        let reply = both
            .from_stream(settings, &octets, usual)
            .unwrap_or_else(|e| panic!("{e}"));
        count(&mut numbers[1], reply.number);
        let answer = (reply.number, reply.index);
        assert_eq!(answer, expected.unwrap_or(answer));
    }
    println!("{numbers:?}");
    for number in [0, LONG, LIMIT, BAD_STAMP, BAD_MOVEMENT, NOT_LATER] {
        assert!(numbers[0].get(&number) >= Some(&3), "written: {number}");
    }
    for number in [0, ENDED, STRUCTURE, BAD_STAMP, BAD_MOVEMENT, NOT_LATER] {
        assert!(numbers[1].get(&number) >= Some(&10), "read: {number}");
    }
}

/// ROOM of each part comes first, then what the settings or the readings are refused for.
#[test]
fn refusals_in_their_order() {
    let mut both = ReadingsComparison::new();
    let bad = Settings::BIT_PACKED.with(4, 2);
    let (all, faulty) = ([(1, 2), (3, 4)], [(1, 2), (1, 4)]);
    let usual = (ListSizes::usual(), WriterSizes::usual());
    let written = both.to_stream(Settings::BIT_PACKED, &all, usual).unwrap();
    let stream = both.octets_written(&written).expect("octets").to_vec();

    let mut to = |settings, readings: &[Reading], sizes| {
        let reply = both.to_stream(settings, readings, sizes).unwrap();
        (reply.number, reply.index)
    };
    let lists = [ListPart::Events, ListPart::Text].map(ListSizes::short);
    let writers = [WriterPart::Octets, WriterPart::Work].map(WriterSizes::short);
    for readings in [&all, &faulty] {
        for settings in [Settings::BIT_PACKED, bad] {
            for sizes in lists {
                assert_eq!(to(settings, readings, (sizes, usual.1)), (ROOM, 0));
            }
            for sizes in writers {
                assert_eq!(to(settings, readings, (usual.0, sizes)), (ROOM, 0));
            }
        }
    }
    assert_eq!(to(bad, &faulty, usual), (NOT_LATER, 1));
    assert_eq!(to(bad, &all, usual), (SETTINGS, 0));

    let mut from = |settings, stream: &[u8], sizes| {
        let reply = both.from_stream(settings, stream, sizes).unwrap();
        (reply.number, reply.index)
    };
    let usual = (ReadingsSizes::usual(), ReaderSizes::usual());
    let parts = [ReaderPart::Events, ReaderPart::Text, ReaderPart::Work];
    for stream in [&stream[..], &[], &[0; MAX_STREAM + 1]] {
        for settings in [Settings::BIT_PACKED, bad] {
            for sizes in parts.map(ReaderSizes::short) {
                assert_eq!(from(settings, stream, (usual.0, sizes)), (ROOM, 0));
            }
            for part in 0..2 {
                let mut sizes = usual.0;
                let short = if part == 0 {
                    &mut sizes.stamps
                } else {
                    &mut sizes.movements
                };
                *short = MAX_READINGS - 1;
                assert_eq!(from(settings, stream, (sizes, usual.1)), (ROOM, 0));
            }
        }
        assert_eq!(from(bad, stream, usual), (SETTINGS, 0));
    }
    assert_eq!(
        from(Settings::BIT_PACKED, &[0; MAX_STREAM + 1], usual),
        (LONG, 0)
    );
    assert_eq!(from(Settings::BIT_PACKED, &[], usual), (ENDED, 0));
    assert_eq!(from(Settings::BIT_PACKED, &stream, usual), (0, 0));
}

/// A list of readings that was read lies as the list that is made of them. (Under bounds of the
/// value tables a value may be laid again.)
#[test]
fn lists_lie_as_the_reader_lays_them() {
    let mut rng = rng(6);
    let mut both = ReadingsComparison::new();
    for _ in 0..200 {
        let settings = Settings {
            value_length: 0,
            value_capacity: 0,
            ..generate::settings(&mut rng)
        };
        let count = rng.below(300);
        let all: Vec<Reading> = (0..count as u64)
            .map(|k| (k * DAY, movement(&mut rng)))
            .collect();
        let written = both.to_stream_and_back(settings, &all).unwrap();
        assert_eq!(written.number, 0);
        let octets = both.octets_written(&written).expect("octets").to_vec();
        let made = both.to_list(&all, ListSizes::usual()).unwrap();
        let made = both.list_made(&made).expect("a list");
        for codec in BOTH {
            let mut memory = ReaderMemory::new();
            let reply = memory.read(codec, settings, &octets);
            assert_eq!(memory.events(&reply), Some(&made.cells[..]));
            assert_eq!(memory.text(&reply), Some(&made.store[..]));
        }
        assert_eq!(events(&made.cells, &made.store), Some(list(&texts(&all))));
    }
}
