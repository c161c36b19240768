use super::{
    at, at_in, ch, cm, lay, octets, pi, se, se_in, Ed, Ee, Sd, BYTES, CELLS, E, WORK, XSI,
};
use crate::sizes::{MAX_EVENTS, MAX_READINGS, MAX_STORE, MAX_STREAM};
use crate::{list_of_readings, read, readings_of_list, write, ReadReply, ReadingsReply};

type Readings = Vec<(u64, i32)>;

/// Takes readings out of a list with more memory than asked for, none of it zero, and checks what
/// is left in it.
fn take(cells: &[u32], store: &[u32]) -> Result<Readings, (u32, u32)> {
    let (mut stamps, mut movements) = ([7; MAX_READINGS + 3], [-7; MAX_READINGS + 5]);
    let reply = readings_of_list(cells, store, &mut stamps, &mut movements);
    let count = reply.readings as usize;
    assert!(stamps[count..].iter().all(|&stamp| stamp == 0));
    assert!(movements[count..].iter().all(|&movement| movement == 0));
    if reply.number != 0 {
        assert_eq!(count, 0);
        return Err((reply.number, reply.index));
    }
    assert_eq!(reply.index, 0);
    Ok(stamps.into_iter().zip(movements).take(count).collect())
}

fn of_list(list: &[E]) -> Result<Readings, (u32, u32)> {
    let (cells, store) = lay(list);
    take(&cells, &store)
}

/// Lays the list of readings with more memory than asked for, none of it zero, and checks what is
/// left in it.
fn list_of(readings: &[(u64, i32)]) -> Result<(Vec<u32>, Vec<u32>), (u32, u32)> {
    let (stamps, movements): (Vec<u64>, Vec<i32>) = readings.iter().copied().unzip();
    let mut cells = vec![7; CELLS * MAX_EVENTS + 3];
    let mut store = vec![7; MAX_STORE + 5];
    let reply = list_of_readings(&stamps, &movements, &mut cells, &mut store);
    let (count, used) = (CELLS * reply.events as usize, reply.code_points as usize);
    assert!(cells[count..].iter().all(|&cell| cell == 0));
    assert!(store[used..].iter().all(|&cell| cell == 0));
    if reply.number != 0 {
        assert_eq!((count, used), (0, 0));
        return Err((reply.number, reply.index));
    }
    assert_eq!(reply.index, 0);
    cells.truncate(count);
    store.truncate(used);
    Ok((cells, store))
}

/// A list of readings with these texts.
fn list(children: &[(&str, &str)]) -> Vec<E> {
    let mut list = vec![Sd, se("readings")];
    for (t, um) in children {
        list.extend([se("r"), at("t", t), at("um", um), Ee]);
    }
    list.extend([Ee, Ed]);
    list
}

const FIRST: &str = "2000-01-01T00:00:00.000Z";
const LEAP: &str = "2000-02-29T00:00:00.000Z";
const LAST: &str = "2099-12-31T23:59:59.999Z";

/// The texts of readings one millisecond after the other.
fn texts(movements: &[i32]) -> Vec<(String, String)> {
    let stamp = |k: usize| format!("2000-01-01T00:00:00.{k:03}Z");
    let text = |(k, um): (usize, &i32)| (stamp(k), um.to_string());
    movements.iter().enumerate().map(text).collect()
}

#[test]
fn readings_of_lists() {
    assert_eq!(of_list(&list(&[])), Ok(vec![]));
    assert_eq!(
        of_list(&list(&[(LEAP, "-20000")])),
        Ok(vec![(5_097_600_000, -20_000)])
    );
    let all = [(FIRST, "0"), (LEAP, "0"), (LAST, "20000")];
    assert_eq!(
        of_list(&list(&all)),
        Ok(vec![
            (0, 0),
            (5_097_600_000, 0),
            (3_155_759_999_999, 20_000)
        ])
    );
}

#[test]
fn the_list_of_one_reading() {
    let (cells, store) = list_of(&[(5_097_600_000, -5)]).unwrap();
    #[rustfmt::skip]
    assert_eq!(cells, [
        1, 0, 0, 0, 0, 0, 0, 0, 0,
        3, 0, 0, 99, 8, 0, 0, 0, 0,
        3, 0, 0, 107, 1, 0, 0, 0, 0,
        4, 0, 0, 108, 1, 0, 0, 109, 24,
        4, 0, 0, 133, 2, 0, 0, 135, 2,
        5, 0, 0, 0, 0, 0, 0, 0, 0,
        5, 0, 0, 0, 0, 0, 0, 0, 0,
        2, 0, 0, 0, 0, 0, 0, 0, 0,
    ]);
    let said: String = store[99..]
        .iter()
        .filter_map(|&p| char::from_u32(p))
        .collect();
    assert_eq!(said, format!("readingsrt{LEAP}um-5"));
}

/// The list is laid as the reader lays it: writing it and reading that gives the same cells. And
/// the readings come back.
#[test]
fn lists_are_laid_as_the_reader_lays_them() {
    let step = |k: usize, movement: fn(i32) -> i32| (86_399_999 * k as u64, movement(k as i32));
    let mut all: Vec<Readings> = vec![vec![], vec![(3_155_759_999_999, 20_000)]];
    for movement in [|_| 0, |k| 9 - k % 20, |k| k - 200, |k| k / 3 * 77 - 20_000] {
        all.push((0..400).map(|k| step(k, movement)).collect());
    }
    let mut octets = vec![0; MAX_STREAM];
    let (mut cells, mut store) = (vec![0; CELLS * MAX_EVENTS], vec![0; MAX_STORE]);
    let mut work = [0; WORK];
    for readings in all {
        let (laid, text) = list_of(&readings).unwrap();
        assert_eq!(take(&laid, &text), Ok(readings));
        let written = write(BYTES, &mut octets, &laid, &text, &mut work, WORK);
        assert_eq!(written.number, 0);
        let stream = &octets[..written.octets as usize];
        let reply = read(BYTES, stream, &mut cells, &mut store, &mut work, WORK);
        assert_eq!((reply.number, reply.code_points as usize), (0, text.len()));
        assert_eq!(cells[..laid.len()], laid);
        assert_eq!(store[..text.len()], text);
    }
}

#[test]
fn other_structures() {
    let good = list(&[(FIRST, "1"), (LEAP, "2")]);
    assert_eq!(of_list(&good), Ok(vec![(0, 1), (5_097_600_000, 2)]));
    assert_eq!(of_list(&[]), Err((16, 0)));
    // Cut anywhere, one event left out, one more anywhere: by the readings that are whole before
    // what differs.
    let whole = |event: usize| {
        if event < 6 {
            0
        } else {
            u32::from(event >= 10) + 1
        }
    };
    for k in 0..good.len() {
        assert_eq!(of_list(&good[..k]), Err((16, whole(k))), "cut at {k}");
        let less = [&good[..k], &good[k + 1..]].concat();
        let from = (k..).find(|&at| good.get(at) != good.get(at + 1));
        let from = from.unwrap_or(good.len());
        assert_eq!(of_list(&less), Err((16, whole(from))), "without {k}");
    }
    let others = [
        Sd,
        Ed,
        Ee,
        se("r"),
        se("readings"),
        at("t", FIRST),
        at("um", "1"),
        at_in(XSI, "type", "x"),
        ch(""),
        ch("x"),
        cm("c"),
        pi("p", ""),
    ];
    for k in 0..=good.len() {
        for other in &others {
            let mut more = good.clone();
            more.insert(k, other.clone());
            let from = (k..good.len()).find(|&at| good[at] != *other);
            let from = from.unwrap_or(good.len());
            assert_eq!(of_list(&more), Err((16, whole(from))), "{other:?} at {k}");
        }
    }
}

#[test]
fn other_names() {
    let with = |k: usize, event: E| {
        let mut list = list(&[(FIRST, "1"), (LEAP, "2")]);
        list[k] = event;
        of_list(&list)
    };
    for root in [
        se("reading"),
        se("readingss"),
        se("Readings"),
        se_in("u", "readings"),
    ] {
        assert_eq!(with(1, root), Err((16, 0)));
    }
    for child in [se("R"), se("rr"), se(""), se_in("u", "r"), se_in(XSI, "r")] {
        assert_eq!(with(6, child), Err((16, 1)));
    }
    for t in [
        at("um", LEAP),
        at("T", LEAP),
        at("", LEAP),
        at_in("u", "t", LEAP),
    ] {
        assert_eq!(with(7, t), Err((16, 1)));
    }
    for um in [
        at("t", "2"),
        at("u", "2"),
        at("umm", "2"),
        at_in("u", "um", "2"),
    ] {
        assert_eq!(with(8, um), Err((16, 1)));
    }
}

/// Whatever its length, a string outside the store is no part of a reading; nor is an event of no
/// kind, with data that its kind does not use, or of fewer cells.
#[test]
fn stored_events_that_are_none() {
    let (cells, store) = lay(&list(&[(FIRST, "1"), (LEAP, "2")]));
    let outside = store.len() as u32 + 1;
    let with = |cell: usize, number: u32| {
        let mut cells = cells.clone();
        cells[cell] = number;
        take(&cells, &store)
    };
    for (event, index) in [(1, 0), (2, 0), (3, 0), (4, 0), (6, 1), (7, 1), (8, 1)] {
        let is_attribute = cells[CELLS * event] == 4;
        for cell in [1, 3, 7] {
            if cell != 7 || is_attribute {
                assert_eq!(with(CELLS * event + cell, outside), Err((16, index)));
                assert_eq!(with(CELLS * event + cell, u32::MAX), Err((16, index)));
                assert_eq!(with(CELLS * event + cell + 1, u32::MAX), Err((16, index)));
            }
        }
    }
    // An empty URI may lie at the store's end.
    assert!(with(CELLS * 6 + 1, outside - 1).is_ok());
    for (event, index) in [
        (0, 0),
        (1, 0),
        (2, 0),
        (5, 0),
        (6, 1),
        (9, 1),
        (10, 2),
        (11, 2),
    ] {
        for kind in [0, 9, u32::MAX] {
            assert_eq!(with(CELLS * event, kind), Err((16, index)));
        }
        assert_eq!(with(CELLS * event + 5, 1), Err((16, index)));
    }
    for rest in 1..CELLS {
        let more = [&cells[..], &[0; CELLS][..rest]].concat();
        assert_eq!(take(&more, &store), Err((16, 2)));
        let less = &cells[..cells.len() - rest];
        assert_eq!(take(less, &store), Err((16, 2)));
    }
}

#[test]
fn movements() {
    for um in -20_000..=20_000 {
        assert_eq!(
            of_list(&list(&[(FIRST, &um.to_string())])),
            Ok(vec![(0, um)])
        );
    }
    for um in [
        "",
        "-",
        "-0",
        "+0",
        "+1",
        "00",
        "01",
        "-01",
        "007",
        "20001",
        "-20001",
        "99999",
        "100000",
        "-100000",
        "4294967296",
        "4294967297",
        "1 ",
        " 1",
        "1.",
        "1.0",
        "1e3",
        "--1",
        "1-",
        "x",
        "0x1",
        "\u{0661}",
        "1\u{ff10}",
        "-\u{ff11}",
        "/",
        ":",
        "1/",
        "1:",
    ] {
        assert_eq!(of_list(&list(&[(FIRST, um)])), Err((18, 0)), "{um}");
    }
}

/// Of what is wrong with a reading the first is told, and of readings the first: its structure, its
/// stamp, its movement, its order.
#[test]
fn one_after_the_other() {
    let none = "2001-02-29T00:00:00.000Z";
    assert_eq!(of_list(&list(&[(none, "x")])), Err((17, 0)));
    assert_eq!(of_list(&list(&[(FIRST, "x")])), Err((18, 0)));
    assert_eq!(of_list(&list(&[(LEAP, "1"), (none, "x")])), Err((17, 1)));
    assert_eq!(of_list(&list(&[(LEAP, "1"), (FIRST, "x")])), Err((18, 1)));
    assert_eq!(of_list(&list(&[(LEAP, "1"), (FIRST, "1")])), Err((19, 1)));
    assert_eq!(
        of_list(&list(&[(LEAP, "1"), (LEAP, "1"), (none, "x")])),
        Err((19, 1))
    );
    assert_eq!(
        of_list(&list(&[(FIRST, "x"), (LEAP, "1"), (LEAP, "1")])),
        Err((18, 0))
    );
    // A child that is not whole comes before its stamp.
    let mut cut = list(&[(LEAP, "1"), (none, "x")]);
    cut.remove(8);
    assert_eq!(of_list(&cut), Err((16, 1)));
    // The rest of the list comes after the readings before it.
    cut[3] = at("t", none);
    assert_eq!(of_list(&cut), Err((17, 0)));

    let last = 3_155_759_999_999;
    for (readings, refused) in [
        (&[(last + 1, 99_999)][..], (17, 0)),
        (&[(u64::MAX, 0)], (17, 0)),
        (&[(last, 20_001)], (18, 0)),
        (&[(0, -20_001)], (18, 0)),
        (&[(0, i32::MIN)], (18, 0)),
        (&[(0, i32::MAX)], (18, 0)),
        (&[(5, 0), (5, 20_001)], (18, 1)),
        (&[(5, 0), (last + 1, 0)], (17, 1)),
        (&[(5, 0), (5, 1)], (19, 1)),
        (&[(5, 0), (6, 0), (4, 0), (last + 1, 0)], (19, 2)),
    ] {
        assert_eq!(list_of(readings), Err(refused));
    }
    assert!(list_of(&[(0, 20_000), (1, -20_000), (last, 0)]).is_ok());
}

/// 111 code points, 24 for each stamp, each distinct movement once.
#[test]
fn as_many_as_the_text_store_holds() {
    type Movement = fn(i32) -> i32;
    let zero: Movement = |_| 0;
    let all = [
        (zero, 678),
        (|_| 10, 677),
        (|k| k, 606),
        (|k| 10_000 + k, 561),
    ];
    for (movement, most) in all {
        let movements: Vec<i32> = (0..most as i32 + 2).map(movement).collect();
        let texts = texts(&movements);
        let children: Vec<(&str, &str)> = texts.iter().map(|(t, um)| (&t[..], &um[..])).collect();
        let readings: Readings = (0..).zip(movements).collect();

        assert_eq!(
            of_list(&list(&children[..most])),
            Ok(readings[..most].to_vec())
        );
        let laid = list_of(&readings[..most]).unwrap();
        assert_eq!(take(&laid.0, &laid.1), Ok(readings[..most].to_vec()));
        for count in [most + 1, most + 2] {
            let refused = (12, most as u32);
            assert_eq!(of_list(&list(&children[..count])), Err(refused));
            assert_eq!(list_of(&readings[..count]), Err(refused));
        }
        // Before any fault of later readings, and after those of this one.
        let mut faulty = readings.clone();
        faulty[most + 1].1 = 20_001;
        assert_eq!(list_of(&faulty), Err((12, most as u32)));
        faulty[most].0 = 0;
        assert_eq!(list_of(&faulty), Err((19, most as u32)));

        // The writer passes the text store in the same reading.
        let mut stream = vec![0; MAX_STREAM];
        let mut work = [0; WORK];
        let mut answer = |count: usize| {
            let (cells, store) = lay(&list(&children[..count]));
            let reply = write(BYTES, &mut stream, &cells, &store, &mut work, WORK);
            (reply.number, (reply.index.saturating_sub(2)) / 4)
        };
        assert_ne!(answer(most).0, 12);
        assert_eq!(answer(most + 1), (12, most as u32));
    }
}

#[test]
fn room_comes_first() {
    let nothing = |number| ReadingsReply {
        number,
        index: 0,
        readings: 0,
    };
    let (cells, store) = lay(&list(&[(LEAP, "x")]));
    for (a, b) in [
        (MAX_READINGS - 1, MAX_READINGS),
        (MAX_READINGS, MAX_READINGS - 1),
        (0, 900),
    ] {
        let (mut stamps, mut movements) = (vec![7; a], vec![7; b]);
        let reply = readings_of_list(&cells, &store, &mut stamps, &mut movements);
        assert_eq!(reply, nothing(1));
        assert!(stamps.iter().all(|&s| s == 0) && movements.iter().all(|&m| m == 0));
    }
    let (mut stamps, mut movements) = ([7; MAX_READINGS], [7; MAX_READINGS]);
    let reply = readings_of_list(&cells, &store, &mut stamps, &mut movements);
    assert_eq!(reply, nothing(18));

    let nothing = |number| ReadReply {
        number,
        index: 0,
        events: 0,
        code_points: 0,
    };
    let (most, points) = (CELLS * MAX_EVENTS, MAX_STORE);
    for (a, b) in [
        (most - 1, points),
        (most, points - 1),
        (0, points),
        (most, 0),
    ] {
        let (mut cells, mut store) = (vec![7; a], vec![7; b]);
        let reply = list_of_readings(&[u64::MAX], &[0], &mut cells, &mut store);
        assert_eq!(reply, nothing(1));
        assert!(cells.iter().chain(&store).all(|&cell| cell == 0));
    }
    let (mut cells, mut store) = (vec![7; most], vec![7; points]);
    let reply = list_of_readings(&[u64::MAX], &[0], &mut cells, &mut store);
    assert_eq!(reply, nothing(17));
}

#[test]
fn as_many_readings_as_both_parts_have() {
    let (mut cells, mut store) = (vec![7; CELLS * MAX_EVENTS], vec![7; MAX_STORE]);
    for (stamps, movements, count) in [
        (&[1, 2, 0][..], &[3, 4][..], 2),
        (&[1], &[3, 99_999], 1),
        (&[], &[3], 0),
    ] {
        let reply = list_of_readings(stamps, movements, &mut cells, &mut store);
        assert_eq!((reply.number, reply.events), (0, 4 + 4 * count));
    }
}

/// A list that was read from a stream, K7 with other names.
#[test]
fn a_stream_that_has_no_readings() {
    let stream = octets("80 01 02 61 00");
    let (mut cells, mut store) = (vec![0; CELLS * MAX_EVENTS], vec![0; MAX_STORE]);
    let reply = read(BYTES, &stream, &mut cells, &mut store, &mut [0; WORK], WORK);
    assert_eq!(reply.number, 0);
    let cells = &cells[..CELLS * reply.events as usize];
    assert_eq!(take(cells, &store), Err((16, 0)));
}
