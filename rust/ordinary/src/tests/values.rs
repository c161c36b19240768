use super::{
    at, both_ways, ch, do_read, do_write, document, octets, read_refused, round_trip, se, settings,
    write_refused, Ed, Ee, Sd, E,
};
use crate::sizes::MAX_VALUES;
use crate::{Refusal, Settings};

const BYTES: Settings = settings(1, 0, 0, 0);
const BITS: Settings = settings(0, 0, 0, 0);

/// At most so many values in the tables.
const fn vcap(s: Settings, capacity: u32) -> Settings {
    Settings {
        value_capacity: capacity + 1,
        ..s
    }
}

/// Only values of at most so many code points in the tables.
const fn vmax(s: Settings, length: u32) -> Settings {
    Settings {
        value_length: length + 1,
        ..s
    }
}

fn in_a(texts: &[&str]) -> Vec<E> {
    let mut list = vec![se("a")];
    list.extend(texts.iter().map(|text| ch(text)));
    list.push(Ee);
    list
}

fn a(rest: &str) -> String {
    format!("80 01 02 61 {rest}")
}

#[test]
fn settings_numbers() {
    for capacity in [2_049, 2_050, u32::MAX - 1] {
        let s = vcap(BYTES, capacity);
        read_refused(s, "", Refusal::Settings, 0);
        write_refused(s, &[], Refusal::Settings, 0);
    }
    for length in [0, 1, 4_096, 4_097, u32::MAX - 1] {
        for capacity in [0, 1, 2_047, 2_048] {
            let s = vmax(vcap(BYTES, capacity), length);
            read_refused(s, "", Refusal::Ended, 0);
        }
    }
}

#[test]
fn values_that_join_no_table() {
    let twice = || in_a(&["x", "x"]);
    for s in [vcap(BYTES, 0), vmax(BYTES, 0), vmax(vcap(BYTES, 0), 9)] {
        both_ways(s, &a("03 03 78 01 01 03 78 01"), twice());
    }
    both_ways(
        vmax(BYTES, 1),
        &a("03 04 78 79 01 01 04 78 79 00 03 78 00 00 01"),
        in_a(&["xy", "xy", "x", "x"]),
    );
    // Laid in the store each time.
    let read = do_read(vcap(BYTES, 0), &octets(&a("03 03 78 01 01 03 78 01")));
    assert_eq!(read.store[99..], [97, 120, 120]);
    // The empty value stays what it is.
    both_ways(vmax(BYTES, 0), &a("03 02 01 01 02 01"), in_a(&["", ""]));
}

#[test]
fn numbers_that_were_taken_away() {
    let s = vcap(BYTES, 2);
    let xyz = "03 03 78 01 01 03 79 00 03 7A 00";
    both_ways(
        s,
        &a(&format!("{xyz} 00 02 01")),
        in_a(&["x", "y", "z", "z"]),
    );
    both_ways(
        s,
        &a(&format!("{xyz} 00 01 01")),
        in_a(&["x", "y", "z", "y"]),
    );
    read_refused(s, &a(&format!("{xyz} 00 00")), Refusal::Reference, 5);
    read_refused(s, &a(&format!("{xyz} 00 03")), Refusal::Reference, 5);
    both_ways(
        vcap(BITS, 1),
        "80 40 98 70 37 8C 0D E4 03 7A 00 24",
        in_a(&["x", "y", "z", "z"]),
    );
    // The replaced value is of another name.
    let k = || {
        vec![
            se("a"),
            at("k", "x"),
            ch("y"),
            se("b"),
            at("k", "x"),
            Ee,
            Ee,
        ]
    };
    let stream = do_write(vcap(BYTES, 1), &document(k())).1;
    let read = do_read(vcap(BYTES, 1), &stream);
    assert_eq!(read.reply.number, 0);
    assert_eq!(read.store.len(), 99 + "akxybx".len());
}

#[test]
fn loose_by_present_entries() {
    let s = vcap(BYTES, 1);
    read_refused(s, &a("03 03 78 01 01 03 78"), Refusal::Loose, 3);
    both_ways(
        s,
        &a("03 03 78 01 01 03 79 00 03 78 01"),
        in_a(&["x", "y", "x"]),
    );
    let read = do_read(s, &octets(&a("03 03 78 01 01 03 79 00 03 78 01")));
    let places: Vec<u32> = read.cells.chunks(9).map(|event| event[1]).collect();
    assert_eq!(places[2..5], [100, 101, 102]);
    // A global hit where a present local entry has the text.
    read_refused(s, &a("03 03 78 01 01 01"), Refusal::Loose, 3);
    read_refused(vcap(BYTES, 2), &a("03 03 78 01 01 01"), Refusal::Loose, 3);
}

/// Global numbers start again at 0, and their choice is among those that are present.
#[test]
fn global_numbers_start_again() {
    // x, y, z as values of three names, then each of those that are present as one of a fourth.
    let list = |last: &[&str]| {
        let mut list = vec![se("a"), at("k", "x"), at("l", "y"), at("m", "z"), se("b")];
        list.extend(last.iter().map(|text| ch(text)));
        list.extend([Ee, Ee]);
        document(list)
    };
    let s = vcap(BYTES, 2);
    let tail = |last: &[&str]| {
        let stream = round_trip(s, &list(last));
        stream[octets(&a(
            "01 01 02 6B 03 78 01 01 01 02 6C 03 79 02 01 01 02 6D 03 7A",
        ))
        .len()..]
            .to_vec()
    };
    assert_eq!(tail(&["z"]), octets("03 02 01 02 62 03 01 00 00 00"));
    assert_eq!(tail(&["y"]), octets("03 02 01 02 62 03 01 01 00 00"));
    assert_eq!(tail(&["x"]), octets("03 02 01 02 62 03 03 78 00 00"));
}

fn many(from: usize, to: usize) -> Vec<String> {
    (from..to).map(|k| format!("v{k:x}")).collect()
}

fn in_a_all(texts: &[String]) -> Vec<E> {
    let texts: Vec<&str> = texts.iter().map(|text| text.as_str()).collect();
    document(in_a(&texts))
}

/// Unbounded the 2,049th value is one too many, with capacity 2,048 it replaces the first.
#[test]
fn sizes() {
    for s in [BITS, BYTES] {
        round_trip(s, &in_a_all(&many(0, MAX_VALUES)));
        write_refused(
            s,
            &in_a_all(&many(0, MAX_VALUES + 1)),
            Refusal::Limit,
            2_050,
        );
        let unbounded = vmax(s, 4_096);
        let list = in_a_all(&many(0, MAX_VALUES + 1));
        write_refused(unbounded, &list, Refusal::Limit, 2_050);
        round_trip(vcap(s, 2_048), &list);
        round_trip(vcap(s, 2_047), &list);
        let long: Vec<String> = (0..2_100).map(|k| format!("{k:04}")).collect();
        round_trip(vmax(s, 2), &in_a_all(&long));
        write_refused(vmax(s, 4), &in_a_all(&long), Refusal::Limit, 2_050);
    }
}

/// After many turns the tables still find what is there, and nothing else.
#[test]
fn many_turns() {
    for capacity in [1, 2, 3, 7, 64, 100] {
        let s = vcap(BYTES, capacity);
        let mut texts = Vec::new();
        for k in 0..1_500usize {
            texts.push(format!("v{:x}", k * k % 211));
            texts.push(format!("v{:x}", k % 97));
        }
        round_trip(s, &in_a_all(&texts));
    }
    write_refused(vcap(BYTES, 1), &[Sd, Ed], Refusal::Shape, 1);
}
