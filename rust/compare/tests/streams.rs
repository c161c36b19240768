//! The streams that the scope lists, and streams and lists that tell its readings from others.

#![forbid(unsafe_code)]

use compare::check::{hex, is_strict_form, read_is_refused, write_is_refused};
use compare::encode::encode;
use compare::event::{
    attribute, characters, comment, document, element, events, instruction, text, unused_cells,
    Event, Stored, CELLS, XML_URI, XSI_URI,
};
use compare::lent::{
    ReaderMemory, Settings, BOTH, CHARACTER, CODE, ENDED, HEADER, LIMIT, LOOSE, NAME, NUMBER,
    PLACE, REFERENCE, SETTINGS, SHAPE, TAIL,
};

const BYTES: Settings = Settings::BYTE_ALIGNED;
const BITS: Settings = Settings::BIT_PACKED;
const END: Event = Event::EndElement;

type Cells = [u32; CELLS];

fn strict(settings: Settings, octets: &str, inner: Vec<Event>) {
    let list = document(inner);
    is_strict_form(settings, &hex(octets), &list);
    assert_eq!(encode(settings, &list).octets(), hex(octets));
}

fn refused(settings: Settings, octets: &str, number: u32, index: u32) {
    read_is_refused(settings, &hex(octets), number, index);
}

#[test]
fn k1_to_k7_are_strict_forms() {
    let a = || element("", "a");
    strict(BYTES, "80 01 02 61 00", vec![a(), END]);
    strict(BITS, "80 40 98 40", vec![a(), END]);
    let with_text = || vec![a(), characters("b"), END];
    strict(BYTES, "80 01 02 61 03 03 62 00", with_text());
    strict(BITS, "80 40 98 70 36 20", with_text());
    strict(
        BYTES,
        "80 01 02 61 01 01 02 6B 03 78 01 00",
        vec![a(), attribute("", "k", "x"), END],
    );
    strict(
        BYTES,
        "80 01 02 61 02 01 00 01 00 00",
        vec![a(), a(), END, END],
    );
    let p = || element("", "p");
    let t = || attribute("", "t", "1");
    strict(
        BYTES,
        "80 01 02 72 02 01 02 70 01 01 02 74 03 31 01 00 01 00 01 00 01 01 00 00 01",
        vec![element("", "r"), p(), t(), END, p(), t(), END, END],
    );
}

#[test]
fn k8_to_k12_are_refused() {
    refused(BYTES, "80 01 02 61 04", CODE, 2);
    refused(BYTES, "80 01 82 00 61 00", NUMBER, 1);
    refused(BYTES, "80 00 00", LOOSE, 1);
    refused(BYTES, "80 01 00", REFERENCE, 1);
    refused(BYTES, "80 01 02 61 00 00", TAIL, 4);
}

#[test]
fn the_other_listed_streams_are_refused() {
    refused(BYTES, "", ENDED, 0);
    refused(BYTES, "80", ENDED, 1);
    refused(BYTES, "A0", HEADER, 0);
    refused(BYTES, "80 01 01", NAME, 1);
    refused(BITS, "80 40 98 41", TAIL, 4);
    refused(BYTES, "80 01 02 61 01 03 00 01", NAME, 2);
}

#[test]
fn a_global_hit_joins_no_local_table() {
    let (a, b, r) = (element("", "a"), element("", "b"), element("", "r"));
    strict(
        BYTES,
        "80 01 02 72 02 01 02 61 03 03 78 00 01 00 01 02 62 03 01 00 00 00 03 79 00 00 00 00 00 01",
        vec![
            r,
            a,
            characters("x"),
            END,
            b.clone(),
            characters("x"),
            END,
            b.clone(),
            characters("y"),
            END,
            b,
            characters("y"),
            END,
            END,
        ],
    );
}

#[test]
fn the_empty_value_joins_no_table() {
    strict(
        BYTES,
        "80 01 02 61 01 01 02 6B 02 01 01 01 02 6A 03 78 02 02 01 00 00 02 01 03 00 00",
        vec![
            element("", "a"),
            attribute("", "k", ""),
            attribute("", "j", "x"),
            element("", "a"),
            attribute("", "k", "x"),
            END,
            END,
        ],
    );
}

#[test]
fn a_uri_is_a_choice_among_one_more_than_there_are() {
    strict(
        BITS,
        "80 00 5D 40 98 68 04 C4 00",
        vec![element("u", "a"), element("u", "b"), END, END],
    );
}

#[test]
fn a_production_is_learned_before_the_child_is_read() {
    let a = || element("", "a");
    strict(BITS, "80 40 98 64 02 00", vec![a(), a(), END, END]);
    // Each 00 opens one more element by the production that the outer one has just learned.
    refused(BYTES, "80 01 02 61 02 01 00 00 00 00", ENDED, 6);
}

#[test]
fn start_tag_and_content_learn_apart() {
    strict(
        BYTES,
        "80 01 02 61 01 01 02 6B 03 78 01 03 03 79 01 01 00 01",
        vec![
            element("", "a"),
            attribute("", "k", "x"),
            characters("y"),
            characters("y"),
            END,
        ],
    );
}

#[test]
fn a_choice_among_one_takes_no_bits() {
    let comments = Settings {
        comments: 1,
        ..BYTES
    };
    let instructions = Settings {
        instructions: 1,
        ..BYTES
    };
    let root = || vec![element("", "a"), END];
    let mut with_comment = vec![comment("c")];
    with_comment.extend(root());
    strict(comments, "80 01 01 63 00 01 02 61 00 00", with_comment);
    let mut with_instruction = vec![instruction("t", "d")];
    with_instruction.extend(root());
    strict(
        instructions,
        "80 01 01 74 01 64 00 01 02 61 00 00",
        with_instruction,
    );
    let mut with_both = vec![comment("c"), instruction("t", "d")];
    with_both.extend(root());
    strict(
        BYTES.keeping(),
        "80 01 00 01 63 01 01 01 74 01 64 00 01 02 61 00 00",
        with_both,
    );
}

#[test]
fn comments_and_instructions_stand_in_every_state() {
    for settings in [BYTES.keeping(), BITS.keeping()] {
        let list = document(vec![
            comment("c"),
            instruction("t", ""),
            element("", "a"),
            instruction("t", "d"),
            comment("c"),
            element("", "a"),
            comment(""),
            END,
            instruction("t", "d"),
            END,
            comment("c"),
            instruction("t", "d"),
        ]);
        is_strict_form(settings, &encode(settings, &list).octets(), &list);
    }
    strict(
        BYTES.keeping(),
        "80 00 01 02 61 04 00 01 63 01 02 01 01 74 00 00 01 01 01 74 01 64 00",
        vec![
            element("", "a"),
            comment("c"),
            instruction("t", ""),
            END,
            instruction("t", "d"),
        ],
    );
}

#[test]
fn a_zero_pad_bit_can_be_the_end_document() {
    // <a/>: the last bit but one is the end document, the last one a pad bit.
    let settings = BITS.keeping();
    strict(settings, "80 20 4C 20", vec![element("", "a"), END]);
    refused(settings, "80 20 4C 21", TAIL, 4);
    refused(settings, "80 20 4C 22", ENDED, 3);
}

#[test]
fn of_hits_only_a_global_value_hit_is_loose_by_itself() {
    // <a k="x"><a, and in it k by AT(*), though AT(k) is learned: by a hit, by a literal, by a hit
    // and with its value.
    let child = "80 01 02 61 01 01 02 6B 03 78 01 02 01 00 00";
    refused(BYTES, &format!("{child} 02 01 01 00 01"), ENDED, 4);
    refused(BYTES, &format!("{child} 02 01 01 02 6B"), LOOSE, 4);
    refused(BYTES, &format!("{child} 02 01 01 00 01 00"), LOOSE, 4);
    // By AT(k), with x by a global number and as a literal.
    refused(BYTES, &format!("{child} 01 01"), LOOSE, 4);
    refused(BYTES, &format!("{child} 01 03 78"), LOOSE, 4);
    // <a k="x" j="y"><a, and in it k by a global number: x is local to k, y is not.
    let two = "80 01 02 61 01 01 02 6B 03 78 01 01 01 02 6A 03 79 02 02 01 00 00 02 01";
    refused(BYTES, &format!("{two} 00"), LOOSE, 5);
    refused(BYTES, &format!("{two} 02"), REFERENCE, 5);
    strict(
        BYTES,
        &format!("{two} 01 03 00 00"),
        vec![
            element("", "a"),
            attribute("", "k", "x"),
            attribute("", "j", "y"),
            element("", "a"),
            attribute("", "k", "y"),
            END,
            END,
        ],
    );
}

#[test]
fn a_loose_event_code_is_refused_behind_its_content() {
    // <a>bcd</a> in three character events, the third by the two-part code though one is learned.
    refused(BYTES, "80 01 02 61 03 03 62 01 01 03 63 00", ENDED, 4);
    strict(
        BYTES,
        "80 01 02 61 03 03 62 01 01 03 63 01",
        vec![element("", "a"), characters("b"), characters("c"), END],
    );
    refused(
        BYTES,
        "80 01 02 61 03 03 62 01 01 03 63 02 01 03 64",
        LOOSE,
        4,
    );
    refused(BYTES, "80 01 02 61 03 03 62 01 01 03 63 02 01 03", ENDED, 4);
    refused(BYTES, "80 01 02 61 03 03 62 01 01 03 63 02 02", CODE, 4);
    refused(BYTES, "80 01 02 61 03 03 62 01 01 03 63 03", CODE, 4);
    // <r><p/><p/></r>: the end of the second p by its learned production, and by the two-part code.
    let two = "80 01 02 72 02 01 02 70 00 01 00 01 00 01";
    let (r, p) = (element("", "r"), element("", "p"));
    strict(
        BYTES,
        &format!("{two} 00 01"),
        vec![r, p.clone(), END, p, END, END],
    );
    refused(BYTES, &format!("{two} 01 00"), LOOSE, 5);
}

#[test]
fn each_code_point_is_judged_as_it_is_read() {
    refused(BYTES, "80 01 03 08", CHARACTER, 1);
    refused(BYTES, "80 01 03 61", ENDED, 1);
    refused(BYTES, "80 01 03 61 80", ENDED, 1);
    refused(BYTES, "80 01 03 61 80 00", NUMBER, 1);
    refused(BYTES, "80 01 02 FF FF FF FF 07", CHARACTER, 1);
    refused(BYTES, "80 01 02 FF FF FF FF 08", NUMBER, 1);
}

#[test]
fn a_number_is_judged_as_it_stands() {
    refused(BYTES, "80 01 FF FF FF FF 07", LIMIT, 1);
    refused(BYTES, "80 01 FF FF FF FF 08", NUMBER, 1);
    refused(BYTES, "80 01 FF FF FF FF", ENDED, 1);
    refused(BYTES, "80 01 80 80 80 80 80", NUMBER, 1);
    refused(BYTES, "80 01 80 80 80 80 00", NUMBER, 1);
    refused(BYTES, "80 01 80 80 80 80", ENDED, 1);
    refused(BYTES, "80 01 80 00", NUMBER, 1);
    refused(BYTES, "80 01 80", ENDED, 1);
}

#[test]
fn all_octets_of_a_choice_are_its_number() {
    refused(BYTES, "80 04", REFERENCE, 1);
    refused(BYTES, "80 FF", REFERENCE, 1);
    refused(BYTES, "80 01 02 61 84", CODE, 2);
    refused(BYTES, "80 03 00 02", REFERENCE, 1);
    refused(BYTES, "80 02 00 FF", REFERENCE, 1);
}

#[test]
fn initial_names_and_the_names_that_are_refused() {
    strict(BYTES, "80 03 00 00 00", vec![element(XSI_URI, "nil"), END]);
    strict(BYTES, "80 03 00 01 00", vec![element(XSI_URI, "type"), END]);
    strict(
        BYTES,
        "80 02 00 02 01 02 00 01 03 78 01 00",
        vec![element(XML_URI, "lang"), attribute(XML_URI, "id", "x"), END],
    );
    refused(BYTES, "80 01 02 61 01 03 00 00", NAME, 2);
    refused(BYTES, "80 01 02 61 01 03 04 6E 69 6C", LOOSE, 2);
    refused(BYTES, "80 01 02 61 01 03 05 74 79 70 65", LOOSE, 2);
    refused(BYTES, "80 02 05 62 61 73 65", LOOSE, 1);
    strict(
        BYTES,
        "80 01 02 61 01 03 03 6E 69 03 78 01 00",
        vec![element("", "a"), attribute(XSI_URI, "ni", "x"), END],
    );
    strict(
        BYTES,
        "80 01 02 61 01 02 04 6E 69 6C 03 78 01 00",
        vec![element("", "a"), attribute(XML_URI, "nil", "x"), END],
    );
}

#[test]
fn an_empty_target_is_refused_before_the_text() {
    refused(BYTES.keeping(), "80 01 01 00", NAME, 1);
    refused(BYTES.keeping(), "80 01 01 01", ENDED, 1);
}

#[test]
fn headers() {
    let cookie = Settings { cookie: 1, ..BYTES };
    let list = document(vec![element("", "a"), END]);
    is_strict_form(cookie, &hex("24 45 58 49 80 01 02 61 00"), &list);
    is_strict_form(
        Settings { cookie: 1, ..BITS },
        &hex("24 45 58 49 80 40 98 40"),
        &list,
    );
    refused(cookie, "80 01 02 61 00", HEADER, 0);
    refused(BYTES, "24 45 58 49 80 01 02 61 00", HEADER, 0);
    for cut in ["", "24", "24 45", "24 45 58", "24 45 58 49"] {
        refused(cookie, cut, ENDED, 0);
    }
    refused(cookie, "24 45 58 48", HEADER, 0);
    refused(cookie, "24 45 58 49 80", ENDED, 1);
    for octet in 0..=255u8 {
        if octet != 0x80 {
            read_is_refused(BYTES, &[octet, 1, 2, 0x61, 0], HEADER, 0);
        }
    }
}

/// Each number in its place, from the first on that has none: behind ROOM, before LONG and anything
/// of the stream or the list.
#[test]
fn settings_without_a_meaning() {
    let list = Stored::plain(&document(vec![element("", "a"), END]));
    for (place, first) in Settings::FIRST_WITHOUT_MEANING.into_iter().enumerate() {
        let Some(first) = first else { continue };
        let numbers = [first, 2, 3, 255, 256, 513, 2_049, 2_050, 1 << 31, u32::MAX];
        for bad in numbers.into_iter().filter(|number| *number >= first) {
            for settings in [BYTES, BITS.keeping()].map(|settings| settings.with(place, bad)) {
                refused(settings, "80 01 02 61 00", SETTINGS, 0);
                read_is_refused(settings, &[0; 16_385], SETTINGS, 0);
                write_is_refused(settings, &list, SETTINGS, 0);
                write_is_refused(settings, &stored(&[], ""), SETTINGS, 0);
            }
        }
    }
}

/// The initial entries in the store, and then the literals.
fn initial_text() -> Vec<u32> {
    let names = ["base", "id", "lang", "space", "nil", "type"];
    text(&format!("{XML_URI}{XSI_URI}{}", names.concat()))
}

/// Both implementations put exactly these cells and code points into the lent memory.
fn lies_as(settings: Settings, octets: &str, cells: &[Cells], literals: &str) {
    let mut store = initial_text();
    assert_eq!(store.len(), 99);
    store.extend(text(literals));
    for codec in BOTH {
        let mut memory = ReaderMemory::new();
        let reply = memory.read(codec, settings, &hex(octets));
        assert_eq!((reply.number, reply.index), (0, 0), "{codec:?}: {octets}");
        assert_eq!(
            memory.events(&reply),
            Some(&cells.concat()[..]),
            "{codec:?}: {octets}"
        );
        assert_eq!(memory.text(&reply), Some(&store[..]), "{codec:?}: {octets}");
        assert_eq!(memory.fault(&reply), None, "{codec:?}: {octets}");
    }
}

#[test]
fn where_strings_lie_in_the_readers_store() {
    let (start, end, close) = (
        [1, 0, 0, 0, 0, 0, 0, 0, 0],
        [2, 0, 0, 0, 0, 0, 0, 0, 0],
        [5, 0, 0, 0, 0, 0, 0, 0, 0],
    );
    let root = [3, 0, 0, 99, 1, 0, 0, 0, 0];
    lies_as(BYTES, "80 01 02 61 00", &[start, root, close, end], "a");
    // An empty literal lies at the end of the store so far.
    lies_as(
        BYTES,
        "80 01 02 61 03 02 00",
        &[start, root, [6, 100, 0, 0, 0, 0, 0, 0, 0], close, end],
        "a",
    );
    // A hit lies where its entry lies, and so does a name that a learned production carries.
    lies_as(
        BYTES,
        "80 01 02 72 02 01 02 70 01 01 02 74 03 31 01 00 01 00 01 00 01 01 00 00 01",
        &[
            start,
            root,
            [3, 0, 0, 100, 1, 0, 0, 0, 0],
            [4, 0, 0, 101, 1, 0, 0, 102, 1],
            close,
            [3, 0, 0, 100, 1, 0, 0, 0, 0],
            [4, 0, 0, 101, 1, 0, 0, 102, 1],
            close,
            close,
            end,
        ],
        "rpt1",
    );
    lies_as(
        BYTES,
        "80 02 00 03 01 03 02 62 02 01 00",
        &[
            start,
            [3, 0, 36, 87, 5, 0, 0, 0, 0],
            [4, 36, 41, 99, 1, 0, 0, 100, 0],
            close,
            end,
        ],
        "b",
    );
    // Comments and instructions are laid anew each time.
    lies_as(
        BYTES.keeping(),
        "80 00 01 02 61 04 00 01 61 01 02 00 01 61 01 02 01 01 61 00 00 00",
        &[
            start,
            root,
            [7, 100, 1, 0, 0, 0, 0, 0, 0],
            [7, 101, 1, 0, 0, 0, 0, 0, 0],
            [8, 102, 1, 103, 0, 0, 0, 0, 0],
            close,
            end,
        ],
        "aaaa",
    );
    lies_as(
        BITS,
        "80 00 5D 40 98 68 04 C4 00",
        &[
            start,
            [3, 99, 1, 100, 1, 0, 0, 0, 0],
            [3, 99, 1, 101, 1, 0, 0, 0, 0],
            close,
            close,
            end,
        ],
        "uab",
    );
}

fn stored(cells: &[Cells], store: &str) -> Stored {
    Stored {
        cells: cells.concat(),
        store: text(store),
    }
}

const SD: Cells = [1, 0, 0, 0, 0, 0, 0, 0, 0];
const ED: Cells = [2, 0, 0, 0, 0, 0, 0, 0, 0];
const EE: Cells = [5, 0, 0, 0, 0, 0, 0, 0, 0];
const SE: Cells = [3, 0, 0, 0, 1, 0, 0, 0, 0];
const AT: Cells = [4, 0, 0, 0, 1, 0, 0, 0, 1];
const CH: Cells = [6, 0, 1, 0, 0, 0, 0, 0, 0];
const CM: Cells = [7, 0, 1, 0, 0, 0, 0, 0, 0];
const PI: Cells = [8, 0, 1, 0, 1, 0, 0, 0, 0];

#[test]
fn lists_that_break_the_rules_of_order() {
    let shape = |settings: Settings, cells: &[Cells], index: u32| {
        write_is_refused(settings, &stored(cells, "a"), SHAPE, index);
    };
    for settings in [BYTES, BITS, BYTES.keeping()] {
        shape(settings, &[], 0);
        shape(settings, &[SD], 1);
        shape(settings, &[SD, SE], 2);
        shape(settings, &[SD, SE, EE], 3);
        shape(settings, &[SE, EE, ED], 0);
        shape(settings, &[SD, SD, SE, EE, ED], 1);
        shape(settings, &[SD, ED], 1);
        shape(settings, &[SD, EE, ED], 1);
        shape(settings, &[SD, CH, SE, EE, ED], 1);
        shape(settings, &[SD, AT, SE, EE, ED], 1);
        shape(settings, &[SD, SE, ED], 2);
        shape(settings, &[SD, SE, SD, EE, ED], 2);
        shape(settings, &[SD, SE, CH, AT, EE, ED], 3);
        shape(settings, &[SD, SE, SE, EE, AT, EE, ED], 4);
        shape(settings, &[SD, SE, EE, EE, ED], 3);
        shape(settings, &[SD, SE, EE, SE, EE, ED], 3);
        shape(settings, &[SD, SE, EE, CH, ED], 3);
        shape(settings, &[SD, SE, EE, ED, ED], 4);
        shape(settings, &[SD, SE, EE, ED, SE], 4);
    }
    shape(BYTES, &[SD, CM, SE, EE, ED], 1);
    shape(BYTES, &[SD, SE, PI, EE, ED], 2);
    let comments = Settings {
        comments: 1,
        ..BYTES
    };
    shape(comments, &[SD, CM, SE, CM, PI, EE, ED], 4);
    let instructions = Settings {
        instructions: 1,
        ..BYTES
    };
    shape(instructions, &[SD, PI, SE, PI, CM, EE, ED], 4);
    shape(BYTES.keeping(), &[SD, SE, CM, AT, EE, ED], 3);
    shape(BYTES.keeping(), &[SD, SE, PI, AT, EE, ED], 3);
    shape(BYTES.keeping(), &[SD, SE, EE, CM, SE, EE, ED], 4);
    shape(BYTES.keeping(), &[SD, SE, EE, ED, CM], 4);
}

#[test]
fn stored_events_that_are_no_events() {
    for number in [0, 9, 10, 255, 256, 0x0100_0003, u32::MAX] {
        let list = stored(&[SD, SE, [number, 0, 0, 0, 0, 0, 0, 0, 0], EE, ED], "a");
        write_is_refused(BYTES, &list, SHAPE, 2);
    }
    let good = [SD, CM, SE, AT, CH, PI, EE, ED];
    let all = BYTES.keeping();
    is_written(all, &stored(&good, "a"));
    let mut tried = 0;
    for (at, event) in good.iter().enumerate() {
        for cell in unused_cells(event[0]).expect("a kind") {
            for data in [1, 1 << 31] {
                let mut cells = good;
                cells[at][cell] = data;
                write_is_refused(all, &stored(&cells, "a"), SHAPE, at as u32);
                tried += 1;
            }
        }
    }
    assert_eq!(tried, 2 * (8 + 6 + 4 + 2 + 6 + 4 + 8 + 8));
    for rest in 1..CELLS {
        let mut list = stored(&good, "a");
        list.cells.truncate(list.cells.len() - rest);
        write_is_refused(all, &list, SHAPE, 7);
        let mut list = stored(&good, "a");
        list.cells.resize(list.cells.len() + rest, 0);
        write_is_refused(all, &list, SHAPE, 8);
    }
}

/// No prefixes are kept, so that any number in a prefix's cells is data in a place which the kind
/// does not use: before the faults of its strings, and even where the event is out of order.
#[test]
fn stored_prefixes_are_no_events() {
    for settings in [BYTES, BITS, BYTES.keeping()] {
        for prefix in [[0, 1], [1, 0], [1, 1], [0, 9], [u32::MAX, u32::MAX]] {
            let with_prefix = |event: Cells| {
                let mut event = event;
                event[5..7].copy_from_slice(&prefix);
                event
            };
            let shape = |cells: &[Cells], index: u32| {
                write_is_refused(settings, &stored(cells, "a"), SHAPE, index);
            };
            shape(&[SD, with_prefix(SE), EE, ED], 1);
            shape(&[SD, SE, with_prefix(AT), EE, ED], 2);
            shape(&[SD, SE, CH, with_prefix(AT), EE, ED], 3);
            shape(&[SD, SE, with_prefix(CH), EE, ED], 2);
            shape(&[SD, SE, with_prefix(EE), ED], 2);
            shape(&[SD, with_prefix([3, 9, 9, 0, 0, 0, 0, 0, 0]), EE, ED], 1);
        }
    }
}

fn is_written(settings: Settings, list: &Stored) {
    let events = events(&list.cells, &list.store).expect("well stored");
    is_strict_form(settings, &encode(settings, &events).octets(), &events);
}

#[test]
fn strings_outside_the_store() {
    let place = |cells: &[Cells], store: &str, number: u32, index: u32| {
        write_is_refused(BYTES, &stored(cells, store), number, index);
    };
    is_written(
        BYTES,
        &stored(&[SD, [3, 1, 0, 0, 1, 0, 0, 0, 0], EE, ED], "a"),
    );
    place(&[SD, [3, 2, 0, 0, 1, 0, 0, 0, 0], EE, ED], "a", PLACE, 1);
    place(&[SD, [3, 0, 2, 0, 1, 0, 0, 0, 0], EE, ED], "a", PLACE, 1);
    place(&[SD, [3, 0, 0, 1, 1, 0, 0, 0, 0], EE, ED], "a", PLACE, 1);
    place(
        &[SD, [3, 0, 0, u32::MAX, 1, 0, 0, 0, 0], EE, ED],
        "a",
        PLACE,
        1,
    );
    place(
        &[SD, [3, 0, 0, 1, u32::MAX, 0, 0, 0, 0], EE, ED],
        "a",
        PLACE,
        1,
    );
    place(
        &[SD, [3, u32::MAX, u32::MAX, 0, 1, 0, 0, 0, 0], EE, ED],
        "a",
        PLACE,
        1,
    );
    place(
        &[SD, SE, [4, 0, 0, 0, 1, 0, 0, 1, 1], EE, ED],
        "a",
        PLACE,
        2,
    );
    place(
        &[SD, SE, [4, 0, 0, 0, 1, 0, 0, 2, 0], EE, ED],
        "a",
        PLACE,
        2,
    );
    place(&[SD, SE, EE, ED], "", PLACE, 1);
    // Before the faults of any of its strings, but behind the event's own.
    place(&[SD, [3, 0, 0, 0, 0, 0, 0, 0, 0], EE, ED], "a", NAME, 1);
    place(&[SD, [3, 2, 0, 0, 0, 0, 0, 0, 0], EE, ED], "a", PLACE, 1);
    place(
        &[SD, SE, [4, 0, 0, 0, 0, 0, 0, 2, 0], EE, ED],
        "a",
        PLACE,
        2,
    );
    place(&[SD, [3, 2, 0, 0, 0, 1, 0, 0, 0], EE, ED], "a", SHAPE, 1);
    place(
        &[SD, SE, [7, 5, 5, 0, 0, 0, 0, 0, 0], EE, ED],
        "a",
        SHAPE,
        2,
    );
}

#[test]
fn strings_are_judged_one_after_the_other() {
    let refused = |cells: &[Cells], store: Vec<u32>, number: u32, index: u32| {
        let list = Stored {
            cells: cells.concat(),
            store,
        };
        for settings in [BYTES, BITS] {
            write_is_refused(settings, &list, number, index);
        }
    };
    let with_bad = vec![97, 0];
    refused(
        &[SD, [3, 1, 1, 0, 0, 0, 0, 0, 0], EE, ED],
        with_bad.clone(),
        CHARACTER,
        1,
    );
    refused(
        &[SD, [3, 0, 1, 1, 0, 0, 0, 0, 0], EE, ED],
        with_bad.clone(),
        NAME,
        1,
    );
    refused(
        &[SD, [3, 0, 1, 1, 1, 0, 0, 0, 0], EE, ED],
        with_bad.clone(),
        CHARACTER,
        1,
    );
    refused(
        &[SD, SE, [4, 0, 0, 0, 0, 0, 0, 1, 1], EE, ED],
        with_bad.clone(),
        NAME,
        2,
    );
    refused(
        &[SD, SE, [4, 0, 0, 0, 1, 0, 0, 1, 1], EE, ED],
        with_bad.clone(),
        CHARACTER,
        2,
    );
    let mut long = vec![97; 4_097];
    long.push(0);
    refused(
        &[SD, [3, 0, 4_097, 0, 0, 0, 0, 0, 0], EE, ED],
        long.clone(),
        LIMIT,
        1,
    );
    refused(
        &[SD, [3, 4_097, 1, 0, 4_097, 0, 0, 0, 0], EE, ED],
        long.clone(),
        CHARACTER,
        1,
    );
    refused(
        &[SD, [3, 1, 4_097, 0, 1, 0, 0, 0, 0], EE, ED],
        long,
        LIMIT,
        1,
    );
    // Code points of no string are not judged.
    let spare = Stored {
        cells: [SD, SE, EE, ED].concat(),
        store: vec![97, 0, u32::MAX, 55_296],
    };
    is_written(BYTES, &spare);
    // nil and type in the XMLSchema-instance URI, as attribute and as element.
    let mut store = text(XSI_URI);
    store.extend(text("niltype"));
    let uri = XSI_URI.len() as u32;
    for (place, length) in [(uri, 3), (uri + 3, 4)] {
        let element = [3, 0, uri, place, length, 0, 0, 0, 0];
        let attribute = [4, 0, uri, place, length, 0, 0, 0, 1];
        refused(&[SD, element, attribute, EE, ED], store.clone(), NAME, 2);
        let list = Stored {
            cells: [SD, element, EE, ED].concat(),
            store: store.clone(),
        };
        is_written(BYTES, &list);
    }
}
