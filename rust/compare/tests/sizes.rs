//! Both sides of every size, in both alignments. The indices are those of the scope, and the sizes
//! are held to it, and to document 02, by a test of their own.

#![forbid(unsafe_code)]

use compare::check::{
    hex, is_strict_form, list_is_accepted, list_is_refused, read_is_refused, write_is_refused,
};
use compare::encode::{encode, encode_loosely, unsigned_octets, Encoded, Loose, Role, Shape};
use compare::event::{
    attribute, characters, comment, document, element, events as events_of, text, Event, Stored,
    Text, CELLS,
};
use compare::lent::{
    ReaderMemory, ReaderSizes, Settings, WriterMemory, WriterSizes, BOTH, CHARACTER, ENDED, HEADER,
    LIMIT, LONG, LOOSE, NAME, ROOM, SETTINGS, SHAPE, TAIL,
};
use compare::names::{class, Class};
use compare::sizes::{
    CELLS_PER_EVENT, MAX_EVENTS, MAX_GRAMMARS, MAX_LEARNED, MAX_NAMES, MAX_OPEN, MAX_STORE,
    MAX_STREAM, MAX_STRING, MAX_URIS, MAX_VALUES,
};

const END: Event = Event::EndElement;
const ALIGNMENTS: [Settings; 2] = [Settings::BIT_PACKED, Settings::BYTE_ALIGNED];

/// The two alignments, with nothing and with all kept.
fn all_settings() -> Vec<Settings> {
    let mut all = ALIGNMENTS.to_vec();
    all.extend(ALIGNMENTS.map(Settings::keeping));
    all
}

fn numbered(prefix: &str, number: usize) -> String {
    format!("{prefix}{number}")
}

/// `<r>` with `inner` in it; the first event of `inner` has index 2.
fn in_root(inner: Vec<Event>) -> Vec<Event> {
    let mut all = vec![element("", "r")];
    all.extend(inner);
    all.push(END);
    document(all)
}

/// Both implementations answer these counts of events and code points.
fn counts_are(settings: Settings, list: &[Event], events: usize, code_points: usize) {
    let octets = encode(settings, list).octets();
    for codec in BOTH {
        let reply = ReaderMemory::new().read(codec, settings, &octets);
        assert_eq!(reply.number, 0, "{codec:?}");
        let counts = (reply.events as usize, reply.code_points as usize);
        assert_eq!(counts, (events, code_points));
    }
}

/// The strict form up to the last code point of a literal in this role.
fn cut_after(mut strict: Encoded, role: Role, event: usize) -> Vec<u8> {
    let length = strict
        .fields
        .iter()
        .position(|field| field.event == event && field.role == role)
        .expect("a length");
    let rest = strict.fields[length + 1..]
        .iter()
        .position(|field| field.role != Role::CodePoint)
        .expect("a field behind the literal");
    strict.fields.truncate(length + 1 + rest);
    strict.octets()
}

#[test]
fn sizes_are_as_agreed() {
    let streams = [MAX_STREAM, MAX_EVENTS, MAX_OPEN, MAX_STRING, MAX_STORE];
    assert_eq!(streams, [16_384, 4_096, 100, 4_096, 16_384]);
    let tables = [MAX_URIS, MAX_NAMES, MAX_VALUES, MAX_GRAMMARS, MAX_LEARNED];
    assert_eq!(tables, [16, 128, 2_048, 64, 512]);
    assert_eq!(CELLS, CELLS_PER_EVENT);
}

/// The library asks for what the scope says, and for work memory that it may choose up to 1,048,576
/// octets; the writer's is as long as the reader's.
#[test]
fn lent_sizes_follow_from_the_scopes() {
    let stated = ReaderSizes::stated();
    assert_eq!(stated.events, CELLS * MAX_EVENTS);
    assert_eq!(stated.text, MAX_STORE);
    assert!(4 * stated.work <= 1_048_576);
    assert_eq!(stated.work, 18_432);
    let reader = stated;
    let stated = WriterSizes::stated();
    assert_eq!(stated.octets, MAX_STREAM);
    assert!(4 * stated.work <= 1_048_576);
    assert_eq!(stated.work, reader.work);
}

#[test]
fn open_elements() {
    let nested = |depth: usize| {
        let mut inner = vec![element("", "a"); depth];
        inner.extend(vec![END; depth]);
        document(inner)
    };
    for settings in all_settings() {
        list_is_accepted(settings, &nested(MAX_OPEN));
        counts_are(settings, &nested(MAX_OPEN), 2 * MAX_OPEN + 2, 100);
        list_is_refused(settings, &nested(MAX_OPEN + 1), LIMIT, MAX_OPEN as u32 + 1);
        let mut again = nested(MAX_OPEN);
        again.splice(MAX_OPEN + 1..MAX_OPEN + 1, [END, element("", "a")]);
        list_is_accepted(settings, &again);
    }
}

/// Each place of a string, as event 2 of a list, with this string in it. Comments and instructions
/// are kept.
fn with_string(string: &[u32]) -> Vec<(&'static str, Vec<Event>)> {
    let s = || string.to_vec();
    let one = |event: Event| in_root(vec![event]);
    let child = |uri: Text, name: Text| in_root(vec![Event::StartElement { uri, name }, END]);
    let a = || text("a");
    vec![
        ("element URI", child(s(), a())),
        ("element name", child(a(), s())),
        (
            "attribute URI",
            one(Event::Attribute {
                uri: s(),
                name: a(),
                value: a(),
            }),
        ),
        (
            "attribute name",
            one(Event::Attribute {
                uri: a(),
                name: s(),
                value: a(),
            }),
        ),
        (
            "attribute value",
            one(Event::Attribute {
                uri: a(),
                name: a(),
                value: s(),
            }),
        ),
        ("characters", one(Event::Characters(s()))),
        ("comment", one(Event::Comment(s()))),
        (
            "target",
            one(Event::Instruction {
                target: s(),
                text: a(),
            }),
        ),
        (
            "instruction text",
            one(Event::Instruction {
                target: a(),
                text: s(),
            }),
        ),
    ]
}

#[test]
fn string_lengths() {
    for settings in ALIGNMENTS.map(Settings::keeping) {
        // In one, two and three octets.
        for code_point in [97, 255, 983_039] {
            for (place, list) in with_string(&vec![code_point; MAX_STRING]) {
                println!("{place}");
                list_is_accepted(settings, &list);
            }
            for (place, list) in with_string(&vec![code_point; MAX_STRING + 1]) {
                println!("{place}");
                list_is_refused(settings, &list, LIMIT, 2);
            }
        }
        // The length is judged before any character.
        for (place, list) in with_string(&[0; MAX_STRING + 1]) {
            println!("{place}");
            list_is_refused(settings, &list, LIMIT, 2);
        }
    }
    // A literal's length alone, with what is added for a URI, a name and a value.
    for (before, added, index) in [("80 00", 0, 1), ("80 01", 1, 1), ("80 01 02 61 03", 2, 2)] {
        for (length, number) in [(MAX_STRING, ENDED), (MAX_STRING + 1, LIMIT)] {
            let mut octets = hex(before);
            octets.extend(unsigned_octets((length + added) as u32));
            read_is_refused(Settings::BYTE_ALIGNED, &octets, number, index);
        }
    }
}

/// The list of event 2 with `length` code points in this place.
fn with_length(place: &str, length: usize) -> Vec<Event> {
    let all = with_string(&vec![97; length]);
    let (_, list) = all.into_iter().find(|(it, _)| *it == place).expect(place);
    list
}

/// Both implementations read a string of the longest length in this place, and refuse one more.
fn read_at_the_length(settings: Settings, place: &str) {
    let longest = with_length(place, MAX_STRING);
    let octets = encode(settings, &longest).octets();
    for codec in BOTH {
        let mut memory = ReaderMemory::new();
        let reply = memory.read(codec, settings, &octets);
        assert_eq!((reply.number, reply.index), (0, 0), "{codec:?}");
        assert_eq!(memory.fault(&reply), None, "{codec:?}");
        let (cells, store) = (memory.events(&reply), memory.text(&reply));
        let list = cells.zip(store).and_then(|(c, s)| events_of(c, s));
        assert_eq!(list.as_deref(), Some(&longest[..]), "{codec:?}");
    }
    let over = encode(settings, &with_length(place, MAX_STRING + 1)).octets();
    read_is_refused(settings, &over, LIMIT, 2);
}

/// Both implementations write a string of the longest length in this place, and refuse one more.
fn write_at_the_length(settings: Settings, place: &str) {
    let longest = with_length(place, MAX_STRING);
    let octets = encode(settings, &longest).octets();
    let list = Stored::plain(&longest);
    for codec in BOTH {
        let mut memory = WriterMemory::new();
        let reply = memory.write(codec, settings, &list.cells, &list.store);
        assert_eq!((reply.number, reply.index), (0, 0), "{codec:?}");
        assert_eq!(memory.octets(&reply), Some(&octets[..]), "{codec:?}");
        assert_eq!(memory.fault(&reply), None, "{codec:?}");
    }
    let over = Stored::plain(&with_length(place, MAX_STRING + 1));
    write_is_refused(settings, &over, LIMIT, 2);
}

/// A test for each place of a string, reading and writing, in both alignments: 4,096 code points
/// and 4,097.
macro_rules! at_the_length {
    ($($module:ident: $place:literal),*) => {
        $(mod $module {
            use super::*;

            #[test]
            fn read_bit_packed() {
                read_at_the_length(Settings::BIT_PACKED.keeping(), $place);
            }

            #[test]
            fn read_byte_aligned() {
                read_at_the_length(Settings::BYTE_ALIGNED.keeping(), $place);
            }

            #[test]
            fn written_bit_packed() {
                write_at_the_length(Settings::BIT_PACKED.keeping(), $place);
            }

            #[test]
            fn written_byte_aligned() {
                write_at_the_length(Settings::BYTE_ALIGNED.keeping(), $place);
            }
        })*
    };
}

at_the_length! {
    uri_of_4096: "element URI",
    local_name_of_4096: "element name",
    value_of_4096: "characters",
    comment_of_4096: "comment",
    target_of_4096: "target",
    instruction_text_of_4096: "instruction text"
}

#[test]
fn code_points() {
    let good = [
        9, 10, 13, 32, 33, 127, 128, 55_294, 55_295, 57_344, 57_345, 65_532, 65_533, 65_536,
        65_537, 1_114_110, 1_114_111,
    ];
    let bad = [
        0,
        1,
        8,
        11,
        12,
        14,
        31,
        55_296,
        55_297,
        57_342,
        57_343,
        65_534,
        65_535,
        1_114_112,
        2_147_483_647,
    ];
    for settings in ALIGNMENTS.map(Settings::keeping) {
        for code_point in good {
            for (place, list) in with_string(&[97, code_point]) {
                println!("{place}: {code_point}");
                let is_name = place.ends_with("name") || place == "target";
                if is_name && class(code_point) == Class::NoName {
                    list_is_refused(settings, &list, NAME, 2);
                } else {
                    list_is_accepted(settings, &list);
                }
            }
        }
        for code_point in bad {
            for (place, list) in with_string(&[97, code_point, 98]) {
                println!("{place}: {code_point}");
                list_is_refused(settings, &list, CHARACTER, 2);
            }
        }
        for code_point in [1 << 31, u32::MAX] {
            for (place, list) in with_string(&[code_point]) {
                println!("{place}: {code_point}");
                write_is_refused(settings, &Stored::plain(&list), CHARACTER, 2);
            }
        }
    }
}

#[test]
fn uris() {
    // Three at the start.
    const NEW: usize = MAX_URIS - 3;
    const LAST: u32 = NEW as u32;
    let by_elements = |new: usize| {
        let children = (0..new).flat_map(|k| [element(&numbered("u", k), "n"), END]);
        in_root(children.collect())
    };
    let by_attributes = |new: usize| {
        let all = (0..new).map(|k| attribute(&numbered("u", k), "n", "x"));
        in_root(all.collect())
    };
    for settings in all_settings() {
        list_is_accepted(settings, &by_elements(NEW));
        list_is_refused(settings, &by_elements(NEW + 1), LIMIT, 2 + 2 * LAST);
        list_is_accepted(settings, &by_attributes(NEW));
        list_is_refused(settings, &by_attributes(NEW + 1), LIMIT, 2 + LAST);
        let mut again = by_attributes(NEW);
        let more = [attribute("u0", "m", "x"), attribute("", "m", "y")];
        again.splice(2 + NEW..2 + NEW, more);
        list_is_accepted(settings, &again);
        // The limit comes with the URI, before the local name.
        let strict = encode(settings, &by_elements(NEW + 1));
        let cut = cut_after(strict, Role::UriLength, 2 + 2 * NEW);
        read_is_refused(settings, &cut, LIMIT, 2 + 2 * LAST);
        let strict = encode(settings, &by_elements(NEW));
        let cut = cut_after(strict, Role::UriLength, 2 * NEW);
        if settings.byte_aligned() {
            read_is_refused(settings, &cut, ENDED, 2 * LAST);
        }
        let mut unnamed = by_elements(NEW + 1);
        unnamed[2 + 2 * NEW] = element(&numbered("u", NEW), "");
        write_is_refused(settings, &Stored::plain(&unnamed), LIMIT, 2 + 2 * LAST);
        unnamed = by_elements(NEW);
        unnamed[2 * NEW] = element(&numbered("u", NEW - 1), "");
        write_is_refused(settings, &Stored::plain(&unnamed), NAME, 2 * LAST);
    }
}

#[test]
fn local_names() {
    // Six at the start, and the root's.
    const NEW: usize = MAX_NAMES - 7;
    const LAST: u32 = 2 + NEW as u32;
    let list = |new: usize, uri_of: fn(usize) -> &'static str| {
        let all = (0..new).map(|k| attribute(uri_of(k), &numbered("n", k), "x"));
        in_root(all.collect())
    };
    let one_uri = |_| "";
    let three_uris = |k| ["", "u", "v"][k % 3];
    for settings in all_settings() {
        for uri_of in [one_uri, three_uris] {
            list_is_accepted(settings, &list(NEW, uri_of));
            list_is_refused(settings, &list(NEW + 1, uri_of), LIMIT, LAST);
            let mut again = list(NEW, uri_of);
            let child = [element("", "r"), attribute(uri_of(5), "n5", "y"), END];
            again.splice(2 + NEW..2 + NEW, child);
            list_is_accepted(settings, &again);
        }
        let strict = encode(settings, &list(NEW + 1, one_uri));
        let cut = cut_after(strict, Role::NameLength, 2 + NEW);
        read_is_refused(settings, &cut, LIMIT, LAST);
    }
}

/// Distinct values, all of one element.
fn values(count: usize) -> Vec<Event> {
    let all = (0..count).map(|k| characters(&numbered("v", k)));
    in_root(all.collect())
}

#[test]
fn distinct_values() {
    const LAST: u32 = 2 + MAX_VALUES as u32;
    let code_points: usize = (0..MAX_VALUES).map(|k| numbered("v", k).len()).sum();
    for settings in all_settings() {
        list_is_accepted(settings, &values(MAX_VALUES));
        let full = values(MAX_VALUES);
        counts_are(settings, &full, MAX_VALUES + 4, 100 + code_points);
        list_is_refused(settings, &values(MAX_VALUES + 1), LIMIT, LAST);
        // Values that are there already, and empty ones, pass nothing.
        let mut again = values(MAX_VALUES);
        let newest = numbered("v", MAX_VALUES - 1);
        let more = ["v0", "", &newest, "v258", ""].map(characters);
        again.splice(2 + MAX_VALUES..2 + MAX_VALUES, more);
        list_is_accepted(settings, &again);
        // A value of another name counts the same.
        let mut other = values(MAX_VALUES);
        let child = [element("", "s"), characters("v7"), END];
        other.splice(2 + MAX_VALUES..2 + MAX_VALUES, child);
        list_is_accepted(settings, &other);
        other[2 + MAX_VALUES + 1] = characters("w");
        list_is_refused(settings, &other, LIMIT, LAST + 1);
        // Values of attributes do, too.
        let (full, _) = values_of_attributes(MAX_VALUES);
        list_is_accepted(settings, &full);
        let (over, last) = values_of_attributes(MAX_VALUES + 1);
        list_is_refused(settings, &over, LIMIT, last as u32);
    }
}

/// Distinct values of attributes, 100 to each of nested elements, which all but the first have
/// learned productions for; and the index of the last attribute.
fn values_of_attributes(count: usize) -> (Vec<Event>, usize) {
    let mut all = Vec::new();
    let mut open = 0;
    for k in 0..count {
        if k % 100 == 0 {
            all.push(element("", "r"));
            open += 1;
        }
        all.push(attribute("", &numbered("n", k % 100), &numbered("v", k)));
    }
    let last = all.len();
    all.extend(vec![END; open]);
    (document(all), last)
}

#[test]
fn value_numbers_of_two_octets() {
    let settings = Settings::BYTE_ALIGNED;
    let mut list = values(512);
    list.insert(2 + 512, characters("v258"));
    let octets = encode(settings, &list).octets();
    // A learned CH, a local hit, its number with the least significant octet first, and the end.
    assert!(octets.ends_with(&hex("00 00 02 01 01")));
    is_strict_form(settings, &octets, &list);
    let mut other = values(512);
    let child = [element("", "s"), characters("v258"), END];
    other.splice(2 + 512..2 + 512, child);
    let octets = encode(settings, &other).octets();
    // CH in the start tag, a global hit, its number, and the two ends; the root has learned CH and
    // SE.
    assert!(octets.ends_with(&hex("03 01 02 01 00 02")));
    is_strict_form(settings, &octets, &other);
    // From 257 values on, and not before.
    for (count, tail) in [(256, "00 00 00 01"), (257, "00 00 00 00 01")] {
        let mut list = values(count);
        list.insert(2 + count, characters("v0"));
        let octets = encode(settings, &list).octets();
        assert!(octets.ends_with(&hex(tail)));
        is_strict_form(settings, &octets, &list);
    }
}

/// From 1,025 values on a number has 11 bits: one bit more than before, and still two octets.
#[test]
fn value_numbers_of_eleven_bits() {
    let with_hit = |count: usize, value: &str| {
        let mut list = values(count);
        list.insert(2 + count, characters(value));
        list
    };
    let hit_bits = |count: usize| {
        let bits = |list: &[Event]| encode(Settings::BIT_PACKED, list).octets_and_bits().1;
        bits(&with_hit(count, "v0")) - bits(&values(count))
    };
    let ten = hit_bits(1_024);
    assert_eq!(hit_bits(513), ten);
    assert_eq!(hit_bits(1_025), ten + 1);
    assert_eq!(hit_bits(MAX_VALUES), ten + 1);
    for settings in ALIGNMENTS {
        for count in [1_024, 1_025, MAX_VALUES] {
            list_is_accepted(settings, &with_hit(count, "v0"));
            list_is_accepted(settings, &with_hit(count, &numbered("v", count - 1)));
        }
        // Of the name's own values, and of all.
        let mut list = with_hit(MAX_VALUES, "v1027");
        let child = [element("", "s"), characters("v2047"), END];
        list.splice(3 + MAX_VALUES..3 + MAX_VALUES, child);
        list_is_accepted(settings, &list);
    }
    let octets = encode(Settings::BYTE_ALIGNED, &with_hit(MAX_VALUES, "v1027")).octets();
    assert!(octets.ends_with(&hex("00 00 03 04 01")));
}

/// Three strings of 4,096 fit into the store, and a fourth does not: <a> with four of them.
#[test]
fn four_strings_of_4096() {
    let list = |count: usize| in_root(literals(&vec![MAX_STRING; count]));
    for settings in all_settings() {
        list_is_accepted(settings, &list(3));
        write_is_refused(settings, &Stored::plain(&list(4)), LIMIT, 5);
        // As a stream it is too long, but up to there it is judged alike, by the fourth's length.
        let octets = encode(settings, &list(4)).octets();
        read_is_refused(settings, &octets, LONG, 0);
        read_is_refused(settings, &octets[..MAX_STREAM], LIMIT, 5);
    }
}

#[test]
fn element_grammars() {
    // The root's, and one for each child.
    const NEW: usize = MAX_GRAMMARS - 1;
    const LAST: u32 = NEW as u32;
    let children = |count: usize| {
        let all = (0..count).flat_map(|k| [element("", &numbered("e", k)), END]);
        in_root(all.collect())
    };
    for settings in all_settings() {
        list_is_accepted(settings, &children(NEW));
        list_is_refused(settings, &children(NEW + 1), LIMIT, 2 + 2 * LAST);
        let mut again = children(NEW);
        let more = [element("", "e0"), element("", "r"), END, END];
        again.splice(2 + 2 * NEW..2 + 2 * NEW, more);
        list_is_accepted(settings, &again);
        // An attribute's name needs no grammar.
        let mut named = children(NEW);
        named.insert(3, attribute("", "e99", "x"));
        list_is_accepted(settings, &named);
        // The name is in the table already, as an attribute's: still a grammar more.
        named.splice(3 + 2 * NEW..3 + 2 * NEW, [element("", "e99"), END]);
        list_is_refused(settings, &named, LIMIT, 3 + 2 * LAST);
    }
}

/// Learned productions up to four: 100 attributes of the root; four children, each with 100
/// attributes, an SE in the root and an EE.
fn learned_all_but_four() -> Vec<Event> {
    assert_eq!(MAX_LEARNED, 4 + 100 + 4 * 102);
    let attributes = || (0..100).map(|k| attribute("", &numbered("n", k), "x"));
    let mut inner: Vec<Event> = attributes().collect();
    for child in ["c1", "c2", "c3", "c4"] {
        inner.push(element("", child));
        inner.extend(attributes());
        inner.push(END);
    }
    inner
}

#[test]
fn learned_productions() {
    let with = |more: Vec<Event>| {
        let mut inner = learned_all_but_four();
        inner.extend(more);
        in_root(inner)
    };
    let at = |k: usize| attribute("", &numbered("n", k), "x");
    let child = |attributes: usize| {
        let mut all = vec![element("", "c5")];
        all.extend((0..attributes).map(at));
        all.push(END);
        all
    };
    let first = 2 + learned_all_but_four().len() as u32;
    for settings in all_settings() {
        // SE, two AT and EE are the last four.
        list_is_accepted(settings, &with(child(2)));
        // One too many is an EE, an AT, an SE, a CH.
        list_is_refused(settings, &with(child(3)), LIMIT, first + 4);
        list_is_refused(settings, &with(child(4)), LIMIT, first + 4);
        let mut another = child(2);
        another.extend([element("", "c6"), END]);
        list_is_refused(settings, &with(another), LIMIT, first + 4);
        let mut text_behind = child(2);
        text_behind.push(characters("x"));
        list_is_refused(settings, &with(text_behind), LIMIT, first + 4);
        let mut text_inside = child(3);
        text_inside.insert(4, characters("x"));
        list_is_refused(settings, &with(text_inside), LIMIT, first + 4);
        // Learned ones go on serving.
        let mut again = child(2);
        again.extend(child(2));
        list_is_accepted(settings, &with(again));
    }
}

#[test]
fn events() {
    const LAST: u32 = MAX_EVENTS as u32;
    let texts = |count: usize| document_of_texts(count, "x");
    // Start and end document, and the root's start and end.
    let full = MAX_EVENTS - 4;
    for settings in all_settings() {
        list_is_accepted(settings, &texts(full));
        counts_are(settings, &texts(full), MAX_EVENTS, 101);
        list_is_refused(settings, &texts(full + 1), LIMIT, LAST);
        list_is_refused(settings, &texts(full + 2), LIMIT, LAST);
        list_is_accepted(settings, &document_of_texts(full, ""));
        // An octet behind the last event.
        let mut tail = encode(settings, &texts(full)).octets();
        tail.push(0);
        read_is_refused(settings, &tail, TAIL, LAST);
        // All events and no end document: one more is not looked for in the stream.
        let strict = encode(settings, &texts(full + 2));
        for cut in strict.octets().len() - 3..strict.octets().len() {
            if strict.event_at(cut) >= MAX_EVENTS {
                read_is_refused(settings, &strict.octets()[..cut], LIMIT, LAST);
            }
        }
        let mut list = Stored::plain(&texts(full + 1));
        list.cells.truncate(MAX_EVENTS * CELLS);
        write_is_refused(settings, &list, SHAPE, LAST);
        // One event more, behind a complete list, of any kind or of none.
        for kind in [2, 9, 0] {
            let mut more = [0; CELLS];
            more[0] = kind;
            let mut list = Stored::plain(&texts(full));
            list.cells.extend(more);
            write_is_refused(settings, &list, LIMIT, LAST);
        }
        let mut list = Stored::plain(&texts(full));
        list.cells.push(5);
        write_is_refused(settings, &list, LIMIT, LAST);
    }
}

fn document_of_texts(count: usize, value: &str) -> Vec<Event> {
    in_root(vec![characters(value); count])
}

/// Values of these lengths, all distinct, behind the 99 code points at the start and the root's
/// name.
fn literals(lengths: &[usize]) -> Vec<Event> {
    let value = |(k, &length): (usize, &usize)| {
        let mut value = text(&((b'a' + k as u8) as char).to_string());
        value.resize(length, 97);
        Event::Characters(value)
    };
    lengths.iter().enumerate().map(value).collect()
}

#[test]
fn text_store() {
    // As many as fit: all but the last are as long as a string may be.
    const COUNT: usize = MAX_STORE / MAX_STRING;
    const REST: usize = MAX_STORE - 100 - (COUNT - 1) * MAX_STRING;
    const LAST: u32 = COUNT as u32 + 1;
    let mut lengths = [MAX_STRING; COUNT];
    lengths[COUNT - 1] = REST;
    let full = literals(&lengths);
    lengths[COUNT - 1] += 1;
    let over = literals(&lengths);
    for settings in all_settings() {
        list_is_accepted(settings, &in_root(full.clone()));
        counts_are(settings, &in_root(full.clone()), COUNT + 4, MAX_STORE);
        list_is_refused(settings, &in_root(over.clone()), LIMIT, LAST);
        // A hit and an empty literal need no room; one code point more has none, wherever it
        // stands.
        let mut more = full.clone();
        more.extend([full[3].clone(), characters(""), element("", "r"), END]);
        list_is_accepted(settings, &in_root(more.clone()));
        for event in [
            characters("z"),
            element("", "z"),
            element("z", "r"),
            attribute("", "z", ""),
            attribute("", "r", "z"),
        ] {
            let mut inner = full.clone();
            inner.push(element("", "r"));
            inner.push(event.clone());
            if matches!(event, Event::StartElement { .. }) {
                inner.push(END);
            }
            inner.push(END);
            list_is_refused(settings, &in_root(inner), LIMIT, LAST + 2);
        }
        // A bad character in a literal that does not fit: the store's limit comes first.
        let mut bad = full.clone();
        bad.push(Event::Characters(vec![0]));
        list_is_refused(settings, &in_root(bad), LIMIT, LAST + 1);
        // Nor does a loose literal fit.
        let mut hit = full.clone();
        hit.push(characters(""));
        let mut strict = encode(settings, &in_root(hit));
        for field in &mut strict.fields {
            if field.event == 2 + COUNT && field.role == Role::ValueLength {
                field.shape = Shape::Unsigned(3);
            }
        }
        read_is_refused(settings, &strict.octets(), LIMIT, LAST + 1);
    }
    for settings in ALIGNMENTS.map(Settings::keeping) {
        let mut commented: Vec<Event> = full[..COUNT - 1].to_vec();
        commented.push(Event::Comment(vec![97; REST]));
        list_is_accepted(settings, &in_root(commented.clone()));
        counts_are(settings, &in_root(commented.clone()), COUNT + 4, MAX_STORE);
        // Comments and instructions are literals each time.
        commented.push(comment(""));
        list_is_accepted(settings, &in_root(commented.clone()));
        commented.push(comment("a"));
        list_is_refused(settings, &in_root(commented), LIMIT, LAST + 2);
        let mut instructed: Vec<Event> = full[..COUNT - 1].to_vec();
        let instruction = |text: usize| Event::Instruction {
            target: vec![97; 10],
            text: vec![97; text],
        };
        instructed.push(instruction(REST - 10));
        list_is_accepted(settings, &in_root(instructed.clone()));
        instructed[COUNT - 1] = instruction(REST - 9);
        list_is_refused(settings, &in_root(instructed), LIMIT, LAST);
    }
}

/// A list whose strict form has exactly so many octets: values of code points that take two, and
/// one to fill up.
fn of_octets(settings: Settings, octets: usize) -> Vec<Event> {
    let mut inner: Vec<Event> = (0..8)
        .map(|k| Event::Characters([vec![65 + k], vec![233; 1_010]].concat()))
        .collect();
    let short = encode(settings, &in_root(inner.clone())).octets().len();
    inner.push(Event::Characters(vec![120; octets - short - 3]));
    while encode(settings, &in_root(inner.clone())).octets().len() < octets {
        if let Some(Event::Characters(value)) = inner.last_mut() {
            value.push(120);
        }
    }
    let list = in_root(inner);
    assert_eq!(encode(settings, &list).octets().len(), octets);
    list
}

#[test]
fn stream_octets() {
    for settings in all_settings() {
        let full = of_octets(settings, MAX_STREAM);
        list_is_accepted(settings, &full);
        let over = of_octets(settings, MAX_STREAM + 1);
        list_is_refused(settings, &over, LONG, 0);
        // The writer's comes last: an unfinished list is that first.
        let mut open = over.clone();
        open.pop();
        let index = open.len() as u32;
        write_is_refused(settings, &Stored::plain(&open), SHAPE, index);
        // The reader's comes before the header.
        read_is_refused(settings, &[0; MAX_STREAM + 1], LONG, 0);
        read_is_refused(settings, &[0; MAX_STREAM], HEADER, 0);
        let mut tail = encode(settings, &of_octets(settings, MAX_STREAM - 1)).octets();
        tail.push(0);
        read_is_refused(settings, &tail, TAIL, full.len() as u32);
        tail.push(0);
        read_is_refused(settings, &tail, LONG, 0);
    }
}

#[test]
fn writer_far_past_the_stream() {
    let value = |k: u32| Event::Characters([vec![65 + k], vec![1_114_111; 1_023]].concat());
    let inner: Vec<Event> = (0..15).map(value).collect();
    for settings in all_settings() {
        list_is_refused(settings, &in_root(inner.clone()), LONG, 0);
    }
}

#[test]
fn lent_memory() {
    let stated = ReaderSizes::stated();
    let short = [
        ReaderSizes {
            events: stated.events - 1,
            ..stated
        },
        ReaderSizes {
            text: stated.text - 1,
            ..stated
        },
        ReaderSizes {
            work: stated.work - 1,
            ..stated
        },
        ReaderSizes {
            events: 0,
            text: 0,
            work: 0,
        },
    ];
    let no_settings = Settings {
        alignment: 2,
        ..Settings::BYTE_ALIGNED
    };
    let a = hex("80 01 02 61 00");
    for codec in BOTH {
        let mut memory = ReaderMemory::new();
        let reply = memory.read_with(stated, |events, text, work| {
            codec.read(Settings::BYTE_ALIGNED, &a, events, text, work)
        });
        assert_eq!((reply.number, reply.events, reply.code_points), (0, 4, 100));
        assert_eq!(memory.fault(&reply), None);
        for sizes in short {
            for settings in [Settings::BYTE_ALIGNED, no_settings] {
                for stream in [&a[..], &[0; MAX_STREAM + 1]] {
                    let reply = memory.read_with(sizes, |events, text, work| {
                        codec.read(settings, stream, events, text, work)
                    });
                    assert_eq!(
                        (reply.number, reply.index),
                        (ROOM, 0),
                        "{codec:?} {sizes:?}"
                    );
                    assert_eq!(memory.fault(&reply), None, "{codec:?} {sizes:?}");
                }
            }
        }
        let reply = memory.read(codec, no_settings, &[0; MAX_STREAM + 1]);
        assert_eq!((reply.number, reply.index), (SETTINGS, 0));
    }
    let stated = WriterSizes::stated();
    let short = [
        WriterSizes {
            octets: stated.octets - 1,
            ..stated
        },
        WriterSizes {
            work: stated.work - 1,
            ..stated
        },
        WriterSizes { octets: 0, work: 0 },
    ];
    let list = Stored::plain(&document(vec![element("", "a"), END]));
    for codec in BOTH {
        let mut memory = WriterMemory::new();
        let reply = memory.write_with(stated, |octets, work| {
            codec.write(
                Settings::BYTE_ALIGNED,
                octets,
                &list.cells,
                &list.store,
                work,
            )
        });
        assert_eq!((reply.number, reply.index), (0, 0));
        assert_eq!(memory.octets(&reply), Some(&a[..]));
        assert_eq!(memory.fault(&reply), None);
        for sizes in short {
            for settings in [Settings::BYTE_ALIGNED, no_settings] {
                for cells in [&list.cells[..], &[]] {
                    let reply = memory.write_with(sizes, |octets, work| {
                        codec.write(settings, octets, cells, &list.store, work)
                    });
                    assert_eq!(
                        (reply.number, reply.index),
                        (ROOM, 0),
                        "{codec:?} {sizes:?}"
                    );
                    assert_eq!(memory.fault(&reply), None, "{codec:?} {sizes:?}");
                }
            }
        }
    }
}

/// The strict form of `list` with a loose production at `event`.
fn with_loose_production(settings: Settings, list: &[Event], event: usize) -> Vec<u8> {
    let strict = encode(settings, list);
    let productions = [Loose::StartElementProduction, Loose::AttributeProduction];
    let at = strict
        .loose
        .iter()
        .position(|(form, index)| productions.contains(form) && *index == event)
        .expect("a learned production");
    encode_loosely(settings, list, &[at]).octets()
}

#[test]
fn a_loose_production_comes_between_content_and_limits() {
    for settings in all_settings() {
        // One open element too many by SE(*), though a production is learned.
        let count = MAX_OPEN + 1;
        let mut deep = vec![element("", "a"); count];
        deep.extend(vec![END; count]);
        let deep = document(deep);
        let octets = with_loose_production(settings, &deep, count);
        read_is_refused(settings, &octets, LOOSE, count as u32);
        list_is_refused(settings, &deep, LIMIT, count as u32);
        // One value too many in an attribute by AT(*), though a production is learned.
        let (values, last) = values_of_attributes(MAX_VALUES + 1);
        let octets = with_loose_production(settings, &values, last);
        read_is_refused(settings, &octets, LIMIT, last as u32);
        let octets = with_loose_production(settings, &values, last - 1);
        read_is_refused(settings, &octets, LOOSE, last as u32 - 1);
    }
}
