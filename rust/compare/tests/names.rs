//! Names, targets, and the texts of comments and instructions, to reader and writer: which are
//! refused, with which number, and where that stands among other faults.

#![forbid(unsafe_code)]

use compare::check::{
    hex, is_strict_form, list_is_accepted, list_is_refused, read_is_refused, write_is_refused,
};
use compare::encode::encode;
use compare::event::{
    attribute, characters, comment, document, element, instruction, text, Event, Stored, Text,
    CELLS, XML_URI, XSI_URI,
};
use compare::lent::{Settings, CHARACTER, ENDED, LIMIT, LOOSE, NAME, NUMBER, PLACE};
use compare::names::{class, edges, Class};
use compare::prng::Prng;
use compare::sizes::{MAX_GRAMMARS, MAX_NAMES, MAX_OPEN, MAX_STORE, MAX_STRING, MAX_URIS};

const BYTES: Settings = Settings::BYTE_ALIGNED;
const BITS: Settings = Settings::BIT_PACKED;
const END: Event = Event::EndElement;

/// The two alignments, with comments and instructions kept.
fn keeping() -> [Settings; 2] {
    [BITS.keeping(), BYTES.keeping()]
}

/// `<a>` with `inner` in it; the first event of `inner` has index 2.
fn in_a(inner: Vec<Event>) -> Vec<Event> {
    let mut all = vec![element("", "a")];
    all.extend(inner);
    all.push(END);
    document(all)
}

/// List and stream are accepted in both alignments.
#[track_caller]
fn is_accepted(list: &[Event]) {
    keeping()
        .iter()
        .for_each(|settings| list_is_accepted(*settings, list));
}

/// List and stream are refused in both alignments.
#[track_caller]
fn is_refused(list: &[Event], number: u32, index: u32) {
    let refused = |settings: &Settings| list_is_refused(*settings, list, number, index);
    keeping().iter().for_each(refused);
}

/// List and stream are accepted, or refused with this number and index.
#[track_caller]
fn is_answered(settings: Settings, list: &[Event], number: u32, index: u32) {
    if number == 0 {
        list_is_accepted(settings, list);
    } else {
        list_is_refused(settings, list, number, index);
    }
}

/// A string as the name of an element, of an attribute, in no namespace and in one, and as a
/// target; the event has index 2.
fn with_name(name: &[u32]) -> [Vec<Event>; 4] {
    let (uri, name) = (text("u"), name.to_vec());
    let attribute = |uri| Event::Attribute {
        uri,
        name: name.clone(),
        value: text("x"),
    };
    let start = Event::StartElement {
        uri: Vec::new(),
        name: name.clone(),
    };
    let instruction = Event::Instruction {
        target: name.clone(),
        text: text("x"),
    };
    [
        in_a(vec![start, END]),
        in_a(vec![attribute(Vec::new())]),
        in_a(vec![attribute(uri)]),
        in_a(vec![instruction]),
    ]
}

/// What names with this code point are answered: as the first, and as a further one.
fn answers(code_point: u32) -> [u32; 2] {
    match class(code_point) {
        Class::NoChar => [CHARACTER, CHARACTER],
        Class::NoName => [NAME, NAME],
        Class::Further => [NAME, 0],
        Class::First => [0, 0],
    }
}

#[test]
fn each_end_of_each_range() {
    for c in edges().chain([0x7FFF_FFFF]) {
        let [first, further] = answers(c);
        for settings in keeping() {
            for (name, number) in [
                (&[c][..], first),
                (&[c, 0x61], first),
                (&[c, c], first),
                (&[0x61, c], further),
                (&[0x61, c, 0x62], further),
                (&[0x5F, 0x2D, 0x2E, 0x39, c, c], further),
            ] {
                println!("{name:X?}: {number}");
                for list in with_name(name) {
                    is_answered(settings, &list, number, 2);
                }
            }
        }
    }
    for code_point in [1 << 31, u32::MAX] {
        for list in with_name(&[0x61, code_point]) {
            write_is_refused(BYTES.keeping(), &Stored::plain(&list), CHARACTER, 2);
        }
    }
}

/// Where a table may have them, and beyond.
#[test]
fn every_code_point_below_1024() {
    for c in 0..1_024 {
        let [first, further] = answers(c);
        println!("{c:X}");
        for list in with_name(&[c]) {
            is_answered(BYTES.keeping(), &list, first, 2);
        }
        for list in with_name(&[0x61, c]) {
            is_answered(BYTES.keeping(), &list, further, 2);
        }
    }
}

#[test]
fn code_points_at_random() {
    let mut rng = Prng::new(6);
    for _ in 0..1_500 {
        let bits = rng.between(10, 21);
        let c = rng.below(1 << bits) as u32;
        let [first, further] = answers(c);
        println!("{c:X}");
        is_answered(BITS.keeping(), &with_name(&[c])[rng.below(4)], first, 2);
        let list = &with_name(&[0x62, 0x61, c])[rng.below(4)];
        is_answered(BYTES.keeping(), list, further, 2);
    }
}

#[test]
fn targets_that_are_xml_in_any_case() {
    for name in ["xml", "xmL", "xMl", "xML", "Xml", "XmL", "XMl", "XML"] {
        let [start, at, in_u, target] = with_name(&text(name));
        is_accepted(&start);
        is_accepted(&at);
        is_accepted(&in_u);
        is_refused(&target, NAME, 2);
    }
    let others = [
        "xmlx",
        "xml-",
        "xml.",
        "xml1",
        "xmlns",
        "xm",
        "ml",
        "x",
        "lmx",
        "xmk",
        "wml",
        "\u{445}ml",
        "_xml",
        "xxml",
        "X\u{41C}L",
    ];
    for name in others {
        for list in with_name(&text(name)) {
            is_accepted(&list);
        }
    }
}

/// Empty ones, and what is no name in a namespace, as the scope and the readings have them.
#[test]
fn names_of_several_code_points() {
    for name in [
        "", ":", "a:b", ":a", "a:", "1a", "-a", ".a", "a b", " a", "a\n", "a/b", "a\u{D7}",
    ] {
        for list in with_name(&text(name)) {
            is_refused(&list, NAME, 2);
        }
    }
    for name in ["a-b.c_1", "_", "\u{EFFFF}", "é·", "名前"] {
        for list in with_name(&text(name)) {
            is_accepted(&list);
        }
    }
    let mut long: Text = vec![0x61; MAX_STRING];
    for (at, c) in [(0, 0x2D), (1, 0x3A), (2_048, 0x3A), (MAX_STRING - 1, 0x2F)] {
        let letter = std::mem::replace(&mut long[at], c);
        for list in with_name(&long) {
            is_refused(&list, NAME, 2);
        }
        long[at] = letter;
    }
}

/// URIs and values are no names, and no comments.
#[test]
fn other_strings_are_not_judged_so() {
    for string in [":", "1", "-", "--", "a-", "?>", "xml", " "] {
        let list = in_a(vec![
            attribute(string, "k", string),
            element(string, "b"),
            characters(string),
            END,
        ]);
        for settings in [BITS, BYTES].into_iter().chain(keeping()) {
            list_is_accepted(settings, &list);
        }
    }
}

/// Names that are hits: those that every stream begins with, and those that came before.
#[test]
fn hits() {
    for name in ["base", "id", "lang", "space"] {
        let inner = vec![attribute(XML_URI, name, ""), element(XML_URI, name), END];
        is_accepted(&in_a(inner));
    }
    for name in ["nil", "type"] {
        is_accepted(&in_a(vec![element(XSI_URI, name), END]));
        is_refused(&in_a(vec![attribute(XSI_URI, name, "")]), NAME, 2);
    }
    let twice = vec![
        element("", "b·"),
        attribute("", "c", ""),
        END,
        element("", "b·"),
        attribute("", "b·", ""),
        attribute("", "c", ""),
        END,
    ];
    is_accepted(&in_a(twice));
}

/// A comment, or an instruction with this text, in each place where one may stand, and its index.
fn with_event(event: &Event) -> [(u32, Vec<Event>); 4] {
    let (a, x) = (element("", "a"), characters("x"));
    let event = || event.clone();
    [
        (1, document(vec![event(), a.clone(), END])),
        (2, document(vec![a.clone(), event(), END])),
        (3, document(vec![a.clone(), x, event(), END])),
        (3, document(vec![a, END, event()])),
    ]
}

/// What a comment of this text, and an instruction, are answered.
#[track_caller]
fn judge_text(settings: Settings, string: &str) {
    let is_comment = !string.contains("--") && !string.ends_with('-');
    let number = |is_good| if is_good { 0 } else { CHARACTER };
    for (index, list) in with_event(&comment(string)) {
        is_answered(settings, &list, number(is_comment), index);
    }
    for (index, list) in with_event(&instruction("t", string)) {
        is_answered(settings, &list, number(!string.contains("?>")), index);
    }
}

/// All texts of up to four of these code points.
#[test]
fn short_comments_and_instruction_texts() {
    let mut texts = vec![String::new()];
    let mut from = 0;
    for _ in 0..4 {
        let to = texts.len();
        for k in from..to {
            for mark in ['a', '-', '?', '>'] {
                texts.push(format!("{}{mark}", texts[k]));
            }
        }
        from = to;
    }
    assert_eq!(texts.len(), 341);
    for string in &texts {
        println!("{string:?}");
        judge_text(BYTES.keeping(), string);
    }
    for string in &texts[..85] {
        judge_text(BITS.keeping(), string);
    }
}

/// A pair, or one mark, at every position.
#[test]
fn pairs_at_every_position() {
    for marks in ["--", "?>", "-", "?", ">", "- -", "? >", ">?"] {
        for before in 0..=12 {
            for after in [0, 1, 12 - before] {
                let string = "a".repeat(before) + marks + &"é".repeat(after);
                println!("{string}");
                judge_text(BYTES.keeping(), &string);
            }
        }
    }
}

#[test]
fn texts_as_long_as_a_string_may_be() {
    for place in [0, 1, 2_047, MAX_STRING - 3, MAX_STRING - 2] {
        let mut string = vec!['a'; MAX_STRING];
        string[place..place + 2].copy_from_slice(&['-', '-']);
        judge_text(BYTES.keeping(), &string.iter().collect::<String>());
        string[place..place + 2].copy_from_slice(&['?', '>']);
        judge_text(BITS.keeping(), &string.iter().collect::<String>());
    }
    let last = "a".repeat(MAX_STRING - 1) + "-";
    judge_text(BYTES.keeping(), &last);
    // The length comes first.
    for event in [
        comment(&"-".repeat(MAX_STRING + 1)),
        instruction("t", &"?>".repeat(MAX_STRING / 2 + 1)),
        instruction(&":".repeat(MAX_STRING + 1), "?>"),
    ] {
        is_refused(&in_a(vec![event]), LIMIT, 2);
    }
}

/// The readings' own streams.
#[test]
fn streams_of_the_readings() {
    let kept = BYTES.keeping();
    for (stream, number) in [
        ("80 01 05 62 61 73 3A", NAME),
        ("80 01 02 B7 01", NAME),
        ("80 01 02 80 80 3C", NAME),
        ("80 01 03 3A 00", CHARACTER),
        ("80 01 03 3A", ENDED),
        ("80 01 03 3A 80 00", NUMBER),
    ] {
        read_is_refused(BYTES, &hex(stream), number, 1);
    }
    is_strict_form(
        BYTES,
        &hex("80 01 03 61 B7 01 00"),
        &document(vec![element("", "a\u{B7}"), END]),
    );
    is_strict_form(
        BYTES,
        &hex("80 01 02 FF FF 3B 00"),
        &document(vec![element("", "\u{EFFFF}"), END]),
    );
    let comments = Settings {
        instructions: 0,
        ..kept
    };
    for (stream, number) in [
        ("80 01 01 2D", CHARACTER),
        ("80 01 02 2D 2D", CHARACTER),
        ("80 01 03 2D 2D", ENDED),
        ("80 01 03 2D 2D 00", CHARACTER),
        ("80 01 03 2D 2D 80 00", NUMBER),
        ("80 01 03 2D 2D 61", CHARACTER),
        ("80 01 02 61 2D", CHARACTER),
    ] {
        read_is_refused(comments, &hex(stream), number, 1);
    }
    let instructions = Settings {
        comments: 0,
        ..kept
    };
    for (stream, number) in [
        ("80 01 01 74 02 3F 3E", CHARACTER),
        ("80 01 01 74 02 3F", ENDED),
        ("80 01 01 74 03 3F 3E", ENDED),
        ("80 01 01 74 03 3F 3E 00", CHARACTER),
        // A target is judged before its text is read.
        ("80 01 01 3A", NAME),
        ("80 01 03 58 6D 4C", NAME),
        ("80 01 00", NAME),
        ("80 01 03 58 6D", ENDED),
        ("80 01 02 3A 00", CHARACTER),
    ] {
        read_is_refused(instructions, &hex(stream), number, 1);
    }
    // A name is judged before its value, and a known one as a literal is LOOSE.
    for (rest, number) in [
        ("01 01 02 3A", NAME),
        ("01 01 02 3A FF FF FF FF FF", NAME),
        ("01 01 02 61", LOOSE),
        ("01 03 04 6E 69 6C", LOOSE),
        ("01 03 00 00", NAME),
        ("01 00 01 3A 02 31", NAME),
    ] {
        read_is_refused(BYTES, &hex(&format!("80 01 02 61 {rest}")), number, 2);
    }
}

/// Two faults in one event of a list: the one that comes first.
#[test]
fn faults_beside_a_name_in_lists() {
    let zero = "\0";
    for (event, number) in [
        (attribute("", ":\0", "x"), CHARACTER),
        (attribute("", ":", zero), NAME),
        (attribute(zero, ":", "x"), CHARACTER),
        (element("", "1\0"), CHARACTER),
        (element(zero, "1"), CHARACTER),
        (instruction("xml", zero), NAME),
        (instruction("xml", "?>"), NAME),
        (instruction(":", "?>"), NAME),
        (instruction(":\0", "?>"), CHARACTER),
        (instruction("t", "?>\0"), CHARACTER),
        (comment("--\0"), CHARACTER),
    ] {
        is_refused(&in_a(vec![event]), number, 2);
    }
    // PLACE of all strings comes first.
    for (event, cell) in [
        (attribute("", ":", "x"), 7),
        (instruction("xml", "x"), 3),
        (instruction("t", "?>"), 1),
        (element("u", ":"), 1),
    ] {
        let mut list = Stored::plain(&in_a(vec![event]));
        list.cells[2 * CELLS + cell] = list.store.len() as u32 + 1;
        for settings in keeping() {
            write_is_refused(settings, &list, PLACE, 2);
        }
    }
}

/// NAME comes before the limit of its table, and of what follows the content; behind the limits of
/// the URI and of the store.
#[test]
fn names_and_limits() {
    let all = |inner: Vec<Event>, last: Event, number| {
        let index = inner.len() as u32 + 2;
        let mut all = inner;
        all.push(last);
        let list = in_a(all);
        write_is_refused(BYTES, &Stored::plain(&list), number, index);
        let stream = encode(BYTES, &list).octets();
        read_is_refused(BYTES, &stream, number, index);
    };
    let names: Vec<Event> = (0..MAX_NAMES - 7)
        .map(|k| attribute("", &format!("n{k}"), ""))
        .collect();
    all(names.clone(), attribute("", "n", ""), LIMIT);
    all(names.clone(), attribute("", "1", ""), NAME);
    all(names, element("", "1"), NAME);

    let uris: Vec<Event> = (0..MAX_URIS - 3)
        .map(|k| attribute(&format!("u{k}"), "n", ""))
        .collect();
    all(uris.clone(), attribute("u", ":", ""), LIMIT);
    all(uris, attribute("u0", ":", ""), NAME);

    let open: Vec<Event> = vec![element("", "a"); MAX_OPEN - 1];
    all(open.clone(), element("", "a"), LIMIT);
    all(open, element("", ":"), NAME);

    let grammars = (0..MAX_GRAMMARS - 1).flat_map(|k| [element("", &format!("n{k}")), END]);
    let grammars: Vec<Event> = grammars.collect();
    all(grammars.clone(), element("", "m"), LIMIT);
    all(grammars, element("", ":"), NAME);

    // 99 and `a`, then literals up to one code point less than the store has.
    let mut left = MAX_STORE - 100 - 1;
    let mut values = Vec::new();
    while left > 0 {
        let length = left.min(4_000);
        let value = format!("{:04}", values.len()) + &"v".repeat(length.max(4) - 4);
        values.push(characters(&value));
        left -= length;
    }
    all(values.clone(), element("", ":"), NAME);
    all(values, element("", "::"), LIMIT);
}
