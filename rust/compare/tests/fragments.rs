//! Fragments: any number of elements beside each other, none too. Both implementations are put to
//! the examples of their reading, to both sides of the sizes, and to damaged streams and lists.

#![forbid(unsafe_code)]

use compare::check::{
    hex, is_strict_form, list_is_accepted, list_is_refused, read_is_refused, write_is_refused,
    Comparison,
};
use compare::damage::{damaged_fields, damaged_list, damaged_stream};
use compare::encode::{encode, encode_loosely, Loose};
use compare::event::{
    attribute, characters, comment, document, element, instruction, Event, Stored,
};
use compare::generate::{self, Profile};
use compare::lent::{
    ReadReply, ReaderSizes, Settings, CHARACTER, CODE, ENDED, LIMIT, LOOSE, SETTINGS, SHAPE, TAIL,
};
use compare::prng::Prng;
use compare::sizes::{MAX_GRAMMARS, MAX_LEARNED, MAX_OPEN};

const BYTES: Settings = Settings {
    fragment: 1,
    ..Settings::BYTE_ALIGNED
};
const BITS: Settings = Settings {
    fragment: 1,
    ..Settings::BIT_PACKED
};
const COMMENTS: Settings = Settings {
    comments: 1,
    ..BYTES
};
const INSTRUCTIONS: Settings = Settings {
    instructions: 1,
    ..BYTES
};
const END: Event = Event::EndElement;

/// The two alignments, with nothing and with all kept.
fn all_settings() -> [Settings; 4] {
    [BITS, BYTES, BITS.keeping(), BYTES.keeping()]
}

fn a() -> Event {
    element("", "a")
}

fn numbered(prefix: &str, number: usize) -> String {
    format!("{prefix}{number}")
}

#[track_caller]
fn is(settings: Settings, octets: &str, inner: Vec<Event>) {
    is_strict_form(settings, &hex(octets), &document(inner));
}

#[track_caller]
fn refused(settings: Settings, octets: &str, number: u32, index: u32) {
    read_is_refused(settings, &hex(octets), number, index);
}

#[test]
fn no_element_and_one() {
    is(BYTES, "80 01", vec![]);
    is(BITS, "80 80", vec![]);
    is(BYTES, "80 00 01 02 61 00 02", vec![a(), END]);
    is(BITS, "80 20 4C 24", vec![a(), END]);
    let cookie = Settings { cookie: 1, ..BYTES };
    is(cookie, "24 45 58 49 80 01", vec![]);
}

/// With one of comments and instructions kept the second part has no bits.
#[test]
fn comments_and_instructions() {
    is(COMMENTS, "80 02 01 63 01", vec![comment("c")]);
    is(
        INSTRUCTIONS,
        "80 02 01 74 00 01",
        vec![instruction("t", "")],
    );
    let all = BYTES.keeping();
    is(all, "80 02 00 01 63 01", vec![comment("c")]);
    is(all, "80 02 01 01 74 00 01", vec![instruction("t", "")]);
    is(
        all,
        "80 00 01 02 61 00 03 00 01 63 00 00 03 01 01 74 00 02",
        vec![a(), END, comment("c"), a(), END, instruction("t", "")],
    );
    for (settings, octets) in [
        (all, "80 03"),
        (all, "80 02 02"),
        (COMMENTS, "80 03"),
        (INSTRUCTIONS, "80 03"),
        (BYTES, "80 02"),
    ] {
        refused(settings, octets, CODE, 1);
    }
}

/// SE(*) learns before the child is read; SE(*) for a learned name is LOOSE behind its content.
#[test]
fn names_that_come_again() {
    let b = || element("", "b");
    let list = vec![a(), END, b(), END, a(), END];
    is(
        BYTES,
        "80 00 01 02 61 00 01 01 02 62 00 01 00 03",
        list.clone(),
    );
    refused(BYTES, "80 00 01 02 61 00 01 01 00", LOOSE, 3);
    refused(BYTES, "80 00 01 02 61 00 01 01", ENDED, 3);
    let nested = vec![a(), a(), END, END, a(), END];
    is(BYTES, "80 00 01 02 61 02 01 00 01 00 00 00 00 02", nested);
    for settings in all_settings() {
        let list = document(list.clone());
        let strict = encode(settings, &list);
        let again = (Loose::TopElementProduction, 5);
        let place = strict.loose.iter().position(|it| *it == again);
        let loose = encode_loosely(settings, &list, &[place.expect("a learned name")]);
        read_is_refused(settings, &loose.octets(), LOOSE, 5);
    }
}

/// End document always has a code, so nothing is complete without it.
#[test]
fn streams_that_end_early_or_go_on() {
    refused(BYTES, "80", ENDED, 1);
    refused(BYTES, "80 01 00", TAIL, 2);
    refused(BYTES, "80 00 01 02 61 00", ENDED, 3);
    refused(BYTES, "80 00 01 02 61 00 02 00", TAIL, 4);
    refused(BYTES, "80 00 01 02 61 00 03", CODE, 3);
    refused(BITS, "80 C0", TAIL, 2);
    refused(BITS, "80 81", TAIL, 2);
    // Without the setting SE(*) takes no bits: a URI of one code point, which is no Char.
    refused(Settings::BYTE_ALIGNED, "80 00 01 02", CHARACTER, 1);
}

#[test]
fn shapes() {
    let (x, k) = (|| characters("x"), || attribute("", "k", ""));
    let lists = [
        (vec![x(), Event::EndDocument], 1),
        (vec![k(), Event::EndDocument], 1),
        (vec![END, Event::EndDocument], 1),
        (vec![Event::StartDocument], 1),
        (vec![], 1),
        (vec![a(), Event::EndDocument], 2),
        (vec![Event::EndDocument, Event::EndDocument], 2),
        (vec![Event::EndDocument, a()], 2),
        (vec![a(), END, x()], 3),
        (vec![a(), END, k()], 3),
        (vec![a(), END, END], 3),
        (vec![a(), END], 3),
        (vec![a(), END, a(), Event::EndDocument], 4),
    ];
    for settings in all_settings() {
        for (inner, index) in &lists {
            let list = [&[Event::StartDocument], &inner[..]].concat();
            write_is_refused(settings, &Stored::plain(&list), SHAPE, *index);
        }
        write_is_refused(settings, &Stored::plain(&[]), SHAPE, 0);
    }
    for settings in [BITS, BYTES] {
        for kept in [comment("c"), instruction("t", "")] {
            let list = document(vec![a(), END, kept]);
            write_is_refused(settings, &Stored::plain(&list), SHAPE, 3);
        }
    }
}

/// Without the setting there is just one root.
#[test]
fn one_root_without_the_setting() {
    let twice = document(vec![a(), END, a(), END]);
    for settings in all_settings() {
        list_is_accepted(settings, &twice);
        list_is_accepted(settings, &document(vec![]));
        let root = Settings {
            fragment: 0,
            ..settings
        };
        write_is_refused(root, &Stored::plain(&twice), SHAPE, 3);
        write_is_refused(root, &Stored::plain(&document(vec![])), SHAPE, 1);
    }
}

#[test]
fn numbers_without_a_meaning() {
    for fragment in [2, 3, 256, u32::MAX] {
        let settings = Settings { fragment, ..BYTES };
        read_is_refused(settings, &hex("80 01"), SETTINGS, 0);
        read_is_refused(settings, &[0; 16_385], SETTINGS, 0);
        write_is_refused(settings, &Stored::plain(&document(vec![])), SETTINGS, 0);
    }
}

/// So many elements beside each other, each of its own name, with the same in each.
fn beside_each_other(count: usize, inner: &[Event]) -> Vec<Event> {
    let mut all = Vec::new();
    for k in 0..count {
        all.push(element("", &numbered("e", k)));
        all.extend_from_slice(inner);
        all.push(END);
    }
    all
}

/// 64 names one after the other, and the 65th: fragment content is no element grammar. Names that
/// come again are none more.
#[test]
fn element_grammars() {
    for settings in all_settings() {
        let most = beside_each_other(MAX_GRAMMARS, &[]);
        list_is_accepted(settings, &document(most.clone()));
        list_is_accepted(settings, &document([most.clone(), most.clone()].concat()));
        let more = document(beside_each_other(MAX_GRAMMARS + 1, &[]));
        list_is_refused(settings, &more, LIMIT, 129);
        let inside = [most, vec![element("", "e0"), element("", "f")]].concat();
        let inside = document([inside, vec![END, END]].concat());
        list_is_refused(settings, &inside, LIMIT, 130);
    }
}

/// What fragment content learns is counted: 22 productions an element with 20 attributes make 506
/// after 23 elements, and five attributes of the 24th are the most that go.
#[test]
fn learned_productions() {
    let attributes: Vec<Event> = (0..20)
        .map(|k| attribute("", &numbered("k", k), ""))
        .collect();
    for settings in all_settings() {
        let before = document(beside_each_other(23, &attributes));
        list_is_accepted(settings, &before);
        assert_eq!(encode(settings, &before).counts.productions, 506);
        let all = document(beside_each_other(24, &attributes));
        list_is_refused(settings, &all, LIMIT, 513);

        // Four attributes and the end: 512. A known name goes by what was learned; a new one, or
        // an event that teaches, is one too many.
        let mut full = beside_each_other(23, &attributes);
        full.push(element("", "e23"));
        full.extend_from_slice(&attributes[..4]);
        full.push(END);
        let most = document(full.clone());
        assert_eq!(encode(settings, &most).counts.productions, MAX_LEARNED);
        list_is_accepted(settings, &most);
        let index = full.len() as u32 + 1;
        let known = [full.clone(), vec![element("", "e0"), END]].concat();
        list_is_accepted(settings, &document(known));
        let new = [full.clone(), vec![element("", "e24"), END]].concat();
        list_is_refused(settings, &document(new), LIMIT, index);
        let teaching = [element("", "e0"), characters("x"), END];
        let taught = document([&full[..], &teaching].concat());
        list_is_refused(settings, &taught, LIMIT, index + 1);
    }
}

/// 100 open inside each element.
#[test]
fn open_elements() {
    let nested = |depth: usize| [vec![a(); depth], vec![END; depth]].concat();
    for settings in all_settings() {
        let most = [nested(MAX_OPEN), nested(1), nested(MAX_OPEN)].concat();
        list_is_accepted(settings, &document(most));
        let more = [nested(MAX_OPEN), nested(MAX_OPEN + 1)].concat();
        list_is_refused(settings, &document(more), LIMIT, 301);
        list_is_refused(settings, &document(nested(MAX_OPEN + 1)), LIMIT, 101);
    }
}

/// Elements of few names, until there are no more events.
#[test]
fn many_elements() {
    for settings in all_settings() {
        let mut all = Vec::new();
        for k in 0..2_047 {
            all.extend([element("", &numbered("e", k % 64)), END]);
        }
        list_is_accepted(settings, &document(all.clone()));
        all.extend([element("", "e0"), END]);
        list_is_refused(settings, &document(all), LIMIT, 4_096);
    }
}

/// Names, values and grammars are those of the whole stream.
#[test]
fn tables_over_all_elements() {
    let x = || characters("x");
    let list = vec![a(), x(), END, a(), x(), END];
    let octets = "80 00 01 02 61 03 03 78 00 00 00 00 00 02";
    is(BYTES, octets, list);
    for settings in all_settings() {
        let k = || attribute("u", "k", "x");
        let list = vec![
            a(),
            k(),
            END,
            element("u", "a"),
            k(),
            x(),
            END,
            a(),
            k(),
            END,
        ];
        list_is_accepted(settings, &document(list));
    }
}

/// Both answer the same to damaged fragments, and what is accepted goes round.
#[test]
fn damaged_fragments() {
    let mut rng = Prng::new(1);
    let mut both = Comparison::new();
    let mut before = vec![0x80];
    let mut numbers = [0; 16];
    let rounds = if cfg!(debug_assertions) { 100 } else { 4_000 };
    for _ in 0..rounds {
        let settings = Settings {
            fragment: 1,
            ..generate::settings(&mut rng)
        };
        let list = generate::list(&mut rng, settings, Profile::Small);
        let strict = encode(settings, &list);
        let octets = strict.octets();
        let reply = both.read_and_back(settings, &octets).expect("the same");
        assert_eq!((reply.number, reply.events as usize), (0, list.len()));
        for _ in 0..3 {
            let damaged = if rng.one_in(2) {
                damaged_fields(&mut rng, &strict)
            } else {
                damaged_stream(&mut rng, &octets, &before)
            };
            let reply = both.read_and_back(settings, &damaged).expect("the same");
            numbers[reply.number as usize] += 1;
            let stored = damaged_list(&mut rng, &Stored::plain(&list));
            both.write_and_back(settings, &stored).expect("the same");
        }
        before = octets;
    }
    for number in [0, CODE, ENDED, LOOSE, TAIL] {
        assert!(
            numbers[number as usize] > rounds / 100,
            "{number}: {numbers:?}"
        );
    }
}

/// A fragment read as a document, and a document as a fragment: the same from both.
#[test]
fn the_other_setting() {
    let mut rng = Prng::new(2);
    let mut both = Comparison::new();
    for _ in 0..200 {
        let settings = generate::settings(&mut rng);
        let list = generate::list(&mut rng, settings, Profile::Small);
        let other = Settings {
            fragment: 1 - settings.fragment,
            ..settings
        };
        let octets = encode(settings, &list).octets();
        let reply: Result<ReadReply, String> = both.read(other, &octets, ReaderSizes::usual());
        reply.expect("the same");
        let written = both.write_and_back(other, &Stored::plain(&list));
        let number = written.expect("the same").number;
        assert!(number == 0 || number == SHAPE && other.fragment == 0);
    }
}
