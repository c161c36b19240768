//! Bounded value tables: values that join no table, tables that turn over, and numbers that were
//! taken away. Both implementations are put to the examples of their reading, to both sides of the
//! sizes, and to damaged streams and lists.

#![forbid(unsafe_code)]

use compare::check::{
    hex, is_strict_form, list_is_accepted, list_is_refused, read_is_refused, write_is_refused,
    Comparison,
};
use compare::damage::{damaged_fields, damaged_list, damaged_stream};
use compare::encode::{encode, Encoded, Form, Role, Shape};
use compare::event::{attribute, characters, document, element, text, Event, Stored, CELLS};
use compare::generate::{self, Profile};
use compare::lent::{
    ReaderMemory, Settings, BOTH, ENDED, LIMIT, LONG, LOOSE, REFERENCE, SETTINGS, SHAPE,
};
use compare::prng::Prng;
use compare::sizes::{MAX_EVENTS, MAX_STORE, MAX_STRING, MAX_VALUES};

const BYTES: Settings = Settings::BYTE_ALIGNED;
const BITS: Settings = Settings::BIT_PACKED;
const END: Event = Event::EndElement;
const CAPACITY: u32 = MAX_VALUES as u32;

/// The two alignments, with nothing and with all kept.
fn all_settings() -> [Settings; 4] {
    [BITS, BYTES, BITS.keeping(), BYTES.keeping()]
}

/// `<a>` with characters in it; the first has index 2.
fn in_a(texts: &[&str]) -> Vec<Event> {
    let mut all = vec![element("", "a")];
    all.extend(texts.iter().map(|it| characters(it)));
    all.push(END);
    document(all)
}

/// `<a` and the rest of a stream.
fn a(rest: &str) -> Vec<u8> {
    hex(&format!("80 01 02 61 {rest}"))
}

/// The field of this role with which an event's content ends.
fn last_choice(strict: &Encoded, role: Role) -> Option<(usize, usize)> {
    let field = strict.fields.iter().rfind(|field| field.role == role)?;
    match field.shape {
        Shape::Choice { value, among } => Some((value, among)),
        _ => None,
    }
}

#[test]
fn numbers_without_a_meaning() {
    let list = Stored::plain(&in_a(&["x"]));
    for settings in all_settings() {
        for capacity in [CAPACITY + 1, CAPACITY + 2, 1 << 31, u32::MAX - 1] {
            let bad = settings.with_capacity(capacity);
            read_is_refused(bad, &[0; 16_385], SETTINGS, 0);
            write_is_refused(bad, &list, SETTINGS, 0);
        }
        for length in [0, 1, 4_095, 4_096, 4_097, u32::MAX - 1] {
            for capacity in [0, 1, CAPACITY - 1, CAPACITY] {
                let good = settings.with_value_length(length).with_capacity(capacity);
                read_is_refused(good, &[0; 16_385], LONG, 0);
                list_is_accepted(good, &in_a(&["x", "y", "x", "y"]));
            }
        }
    }
}

/// Literals each time, never LOOSE, and laid in the store each time.
#[test]
fn values_that_join_no_table() {
    let twice = a("03 03 78 01 01 03 78 01");
    for settings in [
        BYTES.with_capacity(0),
        BYTES.with_value_length(0),
        BYTES.with_value_length(7).with_capacity(0),
    ] {
        is_strict_form(settings, &twice, &in_a(&["x", "x"]));
        read_is_refused(settings, &a("03 03 78 01 01 00"), REFERENCE, 3);
        read_is_refused(settings, &a("03 03 78 01 01 01"), REFERENCE, 3);
    }
    is_strict_form(
        BYTES.with_value_length(1),
        &a("03 04 78 79 01 01 04 78 79 00 03 78 00 00 01"),
        &in_a(&["xy", "xy", "x", "x"]),
    );
    // The empty value joins none whatever the bounds.
    is_strict_form(
        BYTES.with_capacity(1),
        &a("03 02 01 01 02 01"),
        &in_a(&["", ""]),
    );
}

/// Length, store and characters are judged as those of any literal.
#[test]
fn strings_outside_the_tables() {
    for settings in all_settings().map(|it| it.with_value_length(2)) {
        let most = "x".repeat(MAX_STRING);
        list_is_accepted(settings, &in_a(&[&most, &most]));
        let more = "x".repeat(MAX_STRING + 1);
        list_is_refused(settings, &in_a(&[&most, &more]), LIMIT, 3);
        let rest = "y".repeat(MAX_STORE - 100 - 3 * MAX_STRING);
        list_is_accepted(settings, &in_a(&[&most, &most, &most, &rest]));
        list_is_refused(
            settings,
            &in_a(&[&most, &most, &most, &rest, "zz"]),
            LIMIT,
            6,
        );
    }
}

/// The width of a local choice is that of all numbers ever given, and those taken away are none.
#[test]
fn numbers_that_were_taken_away() {
    let two = BYTES.with_capacity(2);
    let xyz = |rest: &str| a(&format!("03 03 78 01 01 03 79 00 03 7A {rest}"));
    is_strict_form(two, &xyz("00 00 02 01"), &in_a(&["x", "y", "z", "z"]));
    is_strict_form(two, &xyz("00 00 01 01"), &in_a(&["x", "y", "z", "y"]));
    read_is_refused(two, &xyz("00 00 00"), REFERENCE, 5);
    read_is_refused(two, &xyz("00 00 03"), REFERENCE, 5);
    read_is_refused(two, &xyz("00 00"), ENDED, 5);
    is_strict_form(
        BITS.with_capacity(1),
        &hex("80 40 98 70 37 8C 0D E4 03 7A 00 24"),
        &in_a(&["x", "y", "z", "z"]),
    );
    // All of a name's numbers are taken away: one is a choice without bits, and still none.
    let other = vec![
        element("", "a"),
        attribute("", "k", "x"),
        characters("y"),
        element("", "b"),
        attribute("", "k", "x"),
        END,
        END,
    ];
    for settings in all_settings() {
        let one = settings.with_capacity(1);
        let list = document(other.clone());
        list_is_accepted(one, &list);
        let mut strict = encode(one, &list);
        let is_length = |field: &&mut compare::encode::Field| {
            field.event == 5 && field.role == Role::ValueLength
        };
        let length = strict.fields.iter_mut().find(is_length).expect("a literal");
        length.shape = Shape::Unsigned(0);
        read_is_refused(one, &strict.octets(), REFERENCE, 5);
    }
}

/// Where the texts of values lie that come again: a hit where its entry lies, a literal anew.
#[test]
fn places() {
    let one = BYTES.with_capacity(1);
    let octets = a("03 03 78 01 01 03 79 00 03 78 00 00 02 01");
    for codec in BOTH {
        let mut memory = ReaderMemory::new();
        let reply = memory.read(codec, one, &octets);
        assert_eq!((reply.number, reply.code_points), (0, 103), "{codec:?}");
        let cells = memory.events(&reply).expect("events");
        let places: Vec<u32> = cells.chunks(CELLS).map(|event| event[1]).collect();
        assert_eq!(places[2..6], [100, 101, 102, 102]);
        assert_eq!(memory.text(&reply).expect("texts")[99..], text("axyx"));
    }
}

/// A literal is LOOSE if its text is present, a global number if a local entry of the name is.
#[test]
fn loose_by_present_entries() {
    let one = BYTES.with_capacity(1);
    read_is_refused(one, &a("03 03 78 01 01 03 78"), LOOSE, 3);
    read_is_refused(one, &a("03 03 78 01 01 01"), LOOSE, 3);
    let replaced = a("03 03 78 01 01 03 79 00 03 78 01");
    is_strict_form(one, &replaced, &in_a(&["x", "y", "x"]));
    read_is_refused(BYTES.with_capacity(2), &replaced, LOOSE, 4);
    read_is_refused(BYTES, &replaced, LOOSE, 4);
}

/// After a turn the other entries are still hits, local and global, under numbers that started
/// again at 0.
#[test]
fn other_entries_after_a_turn() {
    for settings in all_settings() {
        let four = settings.with_capacity(4);
        let first = ["v", "w", "x", "y", "z"];
        for (text, local, global) in [("w", 1, 1), ("x", 2, 2), ("y", 3, 3), ("z", 4, 0)] {
            let again = in_a(&[&first[..], &[text]].concat());
            list_is_accepted(four, &again);
            let choice = last_choice(&encode(four, &again), Role::LocalValue);
            assert_eq!(choice, Some((local, 5)));

            let mut other = in_a(&first);
            other.splice(7..7, [element("", "b"), characters(text), END]);
            list_is_accepted(four, &other);
            let choice = last_choice(&encode(four, &other), Role::GlobalValue);
            assert_eq!(choice, Some((global, 4)));
        }
        // The replaced one is a literal again, and replaces the next.
        let again = in_a(&[&first[..], &["v", "w"]].concat());
        list_is_accepted(four, &again);
        let replaced = encode(four, &again).forms;
        let replaced = replaced.iter().filter(|form| **form == Form::Replacing);
        assert_eq!(replaced.count(), 3);
    }
}

/// So many different texts of three code points or less.
fn different(count: usize) -> Vec<String> {
    let letter = |n: usize| char::from(b'A' + n as u8);
    let texts = (0..count).map(|k| [letter(k / 2_500), letter(k / 50 % 50), letter(k % 50)]);
    texts.map(|it| it.iter().collect()).collect()
}

fn in_a_all(texts: &[String]) -> Vec<Event> {
    let texts: Vec<&str> = texts.iter().map(|it| it.as_str()).collect();
    in_a(&texts)
}

/// Unbounded the 2,049th value is one too many; with capacity 2,048 it replaces number 0.
#[test]
fn the_most_values() {
    let most = in_a_all(&different(MAX_VALUES));
    let more = in_a_all(&different(MAX_VALUES + 1));
    for settings in [BITS, BYTES] {
        for unbounded in [settings, settings.with_value_length(3)] {
            list_is_accepted(unbounded, &most);
            list_is_refused(unbounded, &more, LIMIT, 2_050);
        }
        for capacity in [CAPACITY, CAPACITY - 1, 1_000] {
            list_is_accepted(settings.with_capacity(capacity), &more);
        }
        let full = settings.with_capacity(CAPACITY);
        let texts = different(MAX_VALUES + 1);
        let second: Vec<String> = [&texts[..], &texts[1..2]].concat();
        list_is_accepted(full, &in_a_all(&second));
        let choice = last_choice(&encode(full, &in_a_all(&second)), Role::LocalValue);
        assert_eq!(choice, Some((1, 2_049)));
        let first: Vec<String> = [&texts[..], &texts[..1]].concat();
        list_is_accepted(full, &in_a_all(&first));
        let forms = encode(full, &in_a_all(&first)).forms;
        assert!(forms.contains(&Form::ReplacedAgain));
    }
}

/// Values that join no table are not counted.
#[test]
fn values_over_the_length() {
    let texts: Vec<String> = (0..2_100).map(|k| format!("{k:04}")).collect();
    for settings in [BITS, BYTES] {
        list_is_accepted(settings.with_value_length(2), &in_a_all(&texts));
        list_is_accepted(settings.with_value_length(3), &in_a_all(&texts));
        let joining = settings.with_value_length(4);
        list_is_refused(joining, &in_a_all(&texts), LIMIT, 2_050);
        list_is_accepted(settings.with_capacity(0), &in_a_all(&texts));
        // Full tables take no more, but what joins none still goes.
        let mut full = different(MAX_VALUES);
        full.extend_from_slice(&texts[..20]);
        let long = settings.with_value_length(3);
        list_is_accepted(long, &in_a_all(&full));
        full.push("new".to_string());
        list_is_refused(long, &in_a_all(&full), LIMIT, 2_070);
    }
}

/// Local numbers are never given again: a name may have as many as there are events.
#[test]
fn local_numbers_of_one_name() {
    let letters = ["x", "y", "z"];
    let turning = |count: usize| -> Vec<String> {
        let texts = (0..count).map(|k| letters[k % 3].to_string());
        texts.collect()
    };
    for settings in [BITS, BYTES] {
        for capacity in [1, 2] {
            let few = settings.with_capacity(capacity);
            for count in [256, 257, 2_048, 2_049, 4_091] {
                let mut texts = turning(count);
                texts.push(letters[(count - 1) % 3].to_string());
                let list = in_a_all(&texts);
                list_is_accepted(few, &list);
                let strict = encode(few, &list);
                let choice = last_choice(&strict, Role::LocalValue);
                assert_eq!(choice, Some((count - 1, count)));
                // Number 0 was taken away long ago.
                let mut taken = strict;
                let is_local = |field: &compare::encode::Field| field.role == Role::LocalValue;
                let at = taken.fields.iter().rposition(is_local).expect("a hit");
                taken.fields[at].shape = Shape::Choice {
                    value: 0,
                    among: count,
                };
                let index = count as u32 + 2;
                read_is_refused(few, &taken.octets(), REFERENCE, index);
            }
            let most = in_a_all(&turning(4_092));
            assert_eq!(most.len(), MAX_EVENTS);
            list_is_accepted(few, &most);
            list_is_refused(few, &in_a_all(&turning(4_093)), LIMIT, 4_096);
        }
    }
}

/// With the length as large as any string, and the capacity as large as any table, nothing differs
/// from no bound but the 2,049th value.
#[test]
fn bounds_that_do_not_bind() {
    let mut rng = Prng::new(3);
    for _ in 0..300 {
        let settings = Settings {
            value_length: 0,
            value_capacity: 0,
            ..generate::settings(&mut rng)
        };
        let list = generate::list(&mut rng, settings, Profile::Small);
        let octets = encode(settings, &list).octets();
        let length = MAX_STRING as u32 + rng.below(3) as u32;
        is_strict_form(settings.with_value_length(length), &octets, &list);
        is_strict_form(settings.with_capacity(CAPACITY), &octets, &list);
    }
}

/// Texts and capacities with which the tables turn over many times: each list's strict form is read
/// and written, and damage is answered alike.
#[test]
fn tables_that_turn_over() {
    let mut rng = Prng::new(4);
    let mut both = Comparison::new();
    let mut before = vec![0x80];
    let mut seen = [0; 3];
    let rounds = if cfg!(debug_assertions) { 40 } else { 1_000 };
    for round in 0..rounds {
        let settings = Settings {
            value_length: if rng.one_in(4) { 3 } else { 0 },
            ..generate::settings(&mut rng)
        };
        let settings = Settings {
            fragment: 0,
            ..settings.with_capacity(rng.between(1, 12) as u32)
        };
        let texts = settings.value_capacity as usize + rng.between(0, 4);
        let count = if round % 20 == 0 {
            1_500
        } else {
            rng.between(20, 200)
        };
        let list = turning_list(&mut rng, texts, count);
        let strict = encode(settings, &list);
        let octets = strict.octets();
        let reply = both.read_and_back(settings, &octets).expect("the same");
        assert_eq!((reply.number, reply.events as usize), (0, list.len()));
        let stored = Stored::scattered(&list, &mut rng);
        let reply = both.write_and_back(settings, &stored).expect("the same");
        assert_eq!(both.octets_written(&reply), Some(&octets[..]));
        for (times, form) in seen.iter_mut().zip([
            Form::Replacing,
            Form::ReplacedAgain,
            Form::LocalHitBesideTaken,
        ]) {
            *times += strict.forms.iter().filter(|it| **it == form).count();
        }
        for _ in 0..3 {
            let damaged = match rng.below(3) {
                0 => damaged_stream(&mut rng, &octets, &before),
                _ => damaged_fields(&mut rng, &strict),
            };
            both.read_and_back(settings, &damaged).expect("the same");
            let damaged = damaged_list(&mut rng, &stored);
            both.write_and_back(settings, &damaged).expect("the same");
        }
        before = octets;
    }
    assert!(seen.iter().all(|times| *times > 10 * rounds), "{seen:?}");
}

/// Elements of three names in a root, with few attributes and characters of so many texts.
fn turning_list(rng: &mut Prng, texts: usize, count: usize) -> Vec<Event> {
    let value = |rng: &mut Prng| {
        let number = rng.below(texts);
        // Some over the length.
        format!("{}{number}", if number < 2 { "long" } else { "" })
    };
    let mut all = vec![element("", "r")];
    while all.len() < count {
        let name = *rng.pick(&["r", "s", "t"]);
        all.push(element("", name));
        for name in ["k", "s"] {
            if rng.one_in(2) {
                all.push(attribute("", name, &value(rng)));
            }
        }
        for _ in 0..rng.below(4) {
            all.push(characters(&value(rng)));
        }
        all.push(END);
    }
    all.push(END);
    document(all)
}

/// The second attribute of a name stays SHAPE, whether or not its value joins a table.
#[test]
fn equal_attributes() {
    let k = |value: &str| attribute("", "k", value);
    for settings in all_settings() {
        for bounded in [settings.with_capacity(0), settings.with_capacity(1)] {
            let list = document(vec![element("", "a"), k("x"), k("y"), END]);
            list_is_refused(bounded, &list, SHAPE, 3);
            let list = document(vec![element("", "a"), k("x"), k("x"), END]);
            list_is_refused(bounded, &list, SHAPE, 3);
        }
    }
}
