//! Equal attributes: the second of one URI and local name in a start tag is SHAPE at its index, to
//! reader and writer, behind what its content is refused for and before LOOSE of its production.

#![forbid(unsafe_code)]

use compare::check::{
    hex, is_strict_form, list_is_accepted, list_is_refused, read_is_refused, write_is_refused,
    Comparison,
};
use compare::damage::EqualAttribute;
use compare::encode::{encode, encode_loosely, width, Encoded, Field, Loose, Role, Shape};
use compare::event::{
    attribute, characters, comment, document, element, text, Event, Stored, CELLS, XML_URI, XSI_URI,
};
use compare::lent::{
    ReaderSizes, Settings, WriterSizes, CHARACTER, CODE, ENDED, LIMIT, LONG, LOOSE, NAME, NUMBER,
    PLACE, REFERENCE, SHAPE,
};
use compare::sizes::{
    MAX_EVENTS, MAX_LEARNED, MAX_NAMES, MAX_OPEN, MAX_STORE, MAX_STREAM, MAX_STRING, MAX_URIS,
    MAX_VALUES,
};

const BYTES: Settings = Settings::BYTE_ALIGNED;
const BITS: Settings = Settings::BIT_PACKED;
const END: Event = Event::EndElement;

/// The two alignments, with nothing and with all kept.
fn all_settings() -> [Settings; 4] {
    [BITS, BYTES, BITS.keeping(), BYTES.keeping()]
}

fn a() -> Event {
    element("", "a")
}

fn k(value: &str) -> Event {
    attribute("", "k", value)
}

fn j(value: &str) -> Event {
    attribute("", "j", value)
}

/// `<a>` with `inner` in it; the first event of `inner` has index 2.
fn in_a(inner: Vec<Event>) -> Vec<Event> {
    let mut all = vec![a()];
    all.extend(inner);
    all.push(END);
    document(all)
}

/// The list is SHAPE at this index, and so is its stream: with the attribute by the learned code,
/// and by AT(*).
#[track_caller]
fn is_shape(list: Vec<Event>, index: usize) {
    let equal = EqualAttribute {
        events: list,
        index,
    };
    for settings in all_settings() {
        list_is_refused(settings, &equal.events, SHAPE, index as u32);
        let by_any = equal.stream(settings, true).octets();
        read_is_refused(settings, &by_any, SHAPE, index as u32);
    }
}

#[track_caller]
fn is_accepted(list: Vec<Event>) {
    for settings in all_settings() {
        list_is_accepted(settings, &list);
    }
}

#[test]
fn equal_is_uri_and_local_name() {
    is_shape(in_a(vec![k("x"), k("x")]), 3);
    is_shape(in_a(vec![k("x"), k("y")]), 3);
    is_shape(in_a(vec![k(""), k("")]), 3);
    is_shape(in_a(vec![k("x"), k("")]), 3);
    is_shape(in_a(vec![k("x"), j("x"), k("")]), 4);
    is_shape(in_a(vec![k("x"), j("x"), k(""), j("x"), k("x")]), 4);
    // What follows is not looked at.
    is_shape(in_a(vec![k("x"), k("x"), a(), k("x"), k("x"), END]), 3);
}

/// Names that are alike and not equal stand in one tag; then each of them once more does not.
#[test]
fn names_that_are_alike() {
    let names = [
        ("", "k"),
        ("u", "k"),
        ("v", "k"),
        ("", "kk"),
        ("", "kkk"),
        ("", "K"),
        ("", "u"),
        ("u", "vk"),
        ("uv", "k"),
        ("k", "k"),
        ("", "a"),
        ("", "base"),
        (XML_URI, "base"),
        (XML_URI, "id"),
        (XSI_URI, "id"),
        ("", "nil"),
        ("", "type"),
        (XML_URI, "type"),
    ];
    let all = || names.map(|(uri, name)| attribute(uri, name, "x")).to_vec();
    is_accepted(in_a(all()));
    for (uri, name) in names {
        let mut again = all();
        again.push(attribute(uri, name, ""));
        is_shape(in_a(again), 2 + names.len());
    }
    // Texts that lie apart in the store are one name, and an empty URI lies anywhere.
    let shared = Stored {
        cells: [
            [1, 0, 0, 0, 0, 0, 0, 0, 0],
            [3, 0, 0, 0, 1, 0, 0, 0, 0],
            [4, 0, 0, 1, 1, 0, 0, 0, 1],
            [4, 3, 0, 2, 1, 0, 0, 2, 1],
            [5, 0, 0, 0, 0, 0, 0, 0, 0],
            [2, 0, 0, 0, 0, 0, 0, 0, 0],
        ]
        .concat(),
        store: text("akk"),
    };
    write_is_refused(BYTES, &shared, SHAPE, 3);
}

#[test]
fn the_next_element_starts_anew() {
    let b = || element("", "b");
    is_strict_form(
        BYTES,
        &hex("80 01 02 61 01 01 02 6B 03 78 01 02 01 00 00 01 00 02 00 00"),
        &in_a(vec![k("x"), a(), k("x"), END]),
    );
    let two = |last: Event| in_a(vec![k("x"), b(), k("x"), END, b(), k("x"), last, END]);
    is_accepted(two(j("x")));
    is_shape(two(k("x")), 8);
    is_shape(in_a(vec![k("x"), a(), k("x"), k("x"), END]), 5);
    is_shape(in_a(vec![k("x"), a(), END, a(), k("x"), k("x"), END]), 7);
    let swapped = vec![j(""), k("x"), a(), j("x"), k("x"), j(""), END];
    is_shape(in_a(swapped), 7);
    let inside = vec![a(), a(), k(""), END, a(), k(""), k(""), END, END];
    is_shape(in_a(inside), 8);

    // Elements in one another, each with the attribute; then once more in the innermost.
    let mut nested = Vec::new();
    for _ in 0..MAX_OPEN {
        nested.extend([a(), k("x")]);
    }
    let close = |mut list: Vec<Event>| {
        list.extend(vec![END; MAX_OPEN]);
        document(list)
    };
    is_accepted(close(nested.clone()));
    nested.push(k("y"));
    is_shape(close(nested), 2 * MAX_OPEN + 1);
}

/// Comments and character events lie between elements, and nothing of the tag before is left.
#[test]
fn elements_with_other_content_between() {
    for settings in [BITS.keeping(), BYTES.keeping()] {
        let mut inner = vec![k("x"), comment("c"), a(), k("x"), characters("x"), END];
        inner.extend([characters("x"), a(), k("x"), j("x"), END, comment("")]);
        list_is_accepted(settings, &in_a(inner.clone()));
        inner.insert(10, k("x"));
        list_is_refused(settings, &in_a(inner), SHAPE, 12);
    }
}

/// As many start tags as a list has room for, each with the same attribute.
#[test]
fn many_start_tags() {
    let count = (MAX_EVENTS - 4) / 3;
    let mut inner: Vec<Event> = (0..count).flat_map(|_| [a(), k("x"), END]).collect();
    is_accepted(in_a(inner.clone()));
    // In the last, and in one in the middle.
    for tag in [count - 1, count / 2] {
        let at = 3 * tag + 2;
        inner.insert(at, k("x"));
        is_shape(in_a(inner.clone()), 2 + at);
    }
}

/// 120 different attributes in one tag are fine, in each order of those that are learned; each of
/// them once more is not.
#[test]
fn many_attributes() {
    let one = |number: usize| attribute("", &format!("k{number}"), "x");
    let all: Vec<Event> = (0..120).map(one).collect();
    is_accepted(in_a(all.clone()));
    let mut children = all.clone();
    for step in [1, 7, 119] {
        children.push(a());
        children.extend((0..120).map(|number| one(number * step % 120)));
        children.push(END);
    }
    is_accepted(in_a(children));
    for number in 0..120 {
        let mut again = all.clone();
        again.push(one(number));
        let list = in_a(again);
        for settings in [BITS, BYTES] {
            list_is_refused(settings, &list, SHAPE, 122);
        }
    }
    // A name early and in its place, and in its place and right behind.
    for number in (1..120).step_by(17) {
        let mut again = all.clone();
        again.insert(1, one(number));
        is_shape(in_a(again), 2 + number + 1);
        let mut again = all.clone();
        again.insert(number + 1, one(number));
        is_shape(in_a(again), 2 + number + 1);
    }
}

/// By the learned code and by AT(*), cut, and with loose strings.
#[test]
fn streams_with_equal_attributes() {
    let first = "80 01 02 61 01 01 02 6B 03 78";
    let refused = |behind: &str, number: u32| {
        read_is_refused(BYTES, &hex(&format!("{first} {behind}")), number, 3);
    };
    // The learned code.
    refused("00 02", SHAPE);
    refused("00 02 00", SHAPE);
    refused("00 00", SHAPE);
    refused("00 03 79", SHAPE);
    // The learned code once and twice: <a><b k=""/><b k="" and k again.
    let b = element("", "b");
    let once = "80 01 02 61 02 01 02 62 01 01 02 6B 02 01 00 01 00 01 00 01 01 02";
    let list = in_a(vec![b.clone(), k(""), END, b, k(""), END]);
    is_strict_form(BYTES, &hex(&format!("{once} 00 01")), &list);
    let twice = hex(&format!("{once} 01 02"));
    read_is_refused(BYTES, &twice, SHAPE, 7);
    // AT(*) though AT(k) is learned: before its LOOSE, and not before the value.
    refused("01 01 01 00 01 02", SHAPE);
    refused("01 01 01 00 01 00", SHAPE);
    refused("01 01 01 00 01", ENDED);
    refused("01 01 01 00 01 03", ENDED);
    // LOOSE of its strings comes first.
    refused("00 03 78", LOOSE);
    refused("00 01", LOOSE);
    refused("01 01 01 02 6B", LOOSE);
    refused("01 01 00 00", LOOSE);
    refused("01 01 01 00 01 03 78", LOOSE);
    // So far a stream to show that the empty value joins no table: <a k="" j="x" k="x"/>.
    let mistake = "80 01 02 61 01 01 02 6B 02 01 01 01 02 6A 03 78 01 01 02 00";
    read_is_refused(BYTES, &hex(mistake), SHAPE, 4);
    read_is_refused(BITS, &hex("80 40 98 54 09 AC 0D E0 01 00"), SHAPE, 3);
}

/// The event limit is before, and LONG of the reader; LONG of the writer comes last.
#[test]
fn an_equal_attribute_at_the_ends_of_sizes() {
    for settings in all_settings() {
        let filled = |count: usize| {
            let mut inner = vec![characters("x"); count];
            inner.extend([a(), k("x"), k("x"), END]);
            in_a(inner)
        };
        let last = MAX_EVENTS - 1;
        list_is_refused(settings, &filled(last - 4), SHAPE, last as u32);
        list_is_refused(settings, &filled(last - 3), LIMIT, MAX_EVENTS as u32);

        let wide = |first: u32| Event::Characters([vec![first], vec![233; 1_010]].concat());
        let mut long: Vec<Event> = vec![k("x"), k("x")];
        long.extend((65..75).map(wide));
        let octets = encode(settings, &in_a(long.clone())).octets();
        assert!(octets.len() > MAX_STREAM);
        write_is_refused(settings, &Stored::plain(&in_a(long)), SHAPE, 3);
        read_is_refused(settings, &octets, LONG, 0);
        read_is_refused(settings, &octets[..MAX_STREAM], SHAPE, 3);
    }
}

// ---- every pair of faults in one event

/// What is full before the attribute that is judged.
#[derive(Clone, Copy, Debug, PartialEq, Eq)]
enum Full {
    Nothing,
    Store,
    Uris,
    Names,
    Values,
    Productions,
}

const FULL: [Full; 6] = [
    Full::Nothing,
    Full::Store,
    Full::Uris,
    Full::Names,
    Full::Values,
    Full::Productions,
];

/// Each with a tag that has no k before the attribute that is judged, and one that has; few in
/// builds that are not for release.
fn all_full() -> impl Iterator<Item = (Full, bool)> {
    let count = if cfg!(debug_assertions) {
        2
    } else {
        FULL.len()
    };
    let full = FULL.into_iter().take(count);
    full.flat_map(|it| [(it, false), (it, true)])
}

/// The events before the attribute that is judged, which is one of `<a>`. Of its attributes k and j
/// are learned, with three values each, which are the first six; with `has_k` the tag has a k.
fn before(full: Full, has_k: bool) -> Vec<Event> {
    let mut all = vec![Event::StartDocument, element("", "r")];
    for number in 0..3 {
        let (x, y) = (format!("x{number}"), format!("y{number}"));
        all.extend([a(), k(&x), j(&y), END]);
    }
    all.push(characters("c"));
    fill(full, &mut all);
    all.push(a());
    if has_k {
        all.push(k(""));
    }
    all
}

fn fill(full: Full, all: &mut Vec<Event>) {
    let numbered = |prefix: &str, number: usize| format!("{prefix}{number}");
    let new = |number: usize| attribute("", &numbered("n", number), "");
    let f = || element("", "f");
    let counts = encode(BITS, all).counts;
    match full {
        Full::Nothing => {}
        Full::Store => {
            let mut room = MAX_STORE - counts.code_points;
            while room > 0 {
                let length = room.min(MAX_STRING);
                let mut value = vec![65 + (room / MAX_STRING) as u32];
                value.resize(length, 120);
                all.push(Event::Characters(value));
                room -= length;
            }
        }
        Full::Uris => {
            let room = MAX_URIS - counts.uris;
            all.push(f());
            all.extend((0..room).map(|number| attribute(&numbered("u", number), "k", "")));
            all.push(END);
        }
        Full::Names => {
            let room = MAX_NAMES - counts.names - 1;
            all.push(f());
            all.extend((0..room).map(new));
            all.push(END);
        }
        Full::Values => {
            let room = MAX_VALUES - counts.values;
            all.extend((0..room).map(|number| characters(&numbered("v", number))));
        }
        Full::Productions => {
            // A child has one for itself, one for each attribute and one for its end.
            let mut room = MAX_LEARNED - counts.productions;
            while room > 0 {
                let attributes = if room > 104 { 100 } else { room - 2 };
                all.push(element("", &numbered("f", room)));
                all.extend((0..attributes).map(new));
                all.push(END);
                room -= attributes + 2;
            }
        }
    }
    let counts = encode(BITS, all).counts;
    let is_full = [
        counts.code_points == MAX_STORE,
        counts.uris == MAX_URIS,
        counts.names == MAX_NAMES,
        counts.values == MAX_VALUES,
        counts.productions == MAX_LEARNED,
    ];
    let expected = FULL[1..].iter().map(|it| *it == full);
    assert!(expected.eq(is_full), "{full:?}: {counts:?}");
}

/// A string of an attribute to be written.
#[derive(Clone, Copy, Debug, PartialEq, Eq)]
enum Written {
    /// One that is in the table, and for a name: k.
    Known,
    /// The name j.
    Other,
    New,
    Empty,
    /// The name nil, with the URI of XMLSchema-instance.
    Nil,
    NoChar,
    TooLong,
    Outside,
}

use Written::{Empty, Known, New, Nil, NoChar, Other, Outside, TooLong};

impl Written {
    fn text(self, known: &str) -> Vec<u32> {
        match self {
            Known => text(known),
            Other => text("j"),
            New => text("m"),
            Empty | Outside => Vec::new(),
            Nil => text("nil"),
            NoChar => vec![109, 0],
            TooLong => vec![0; MAX_STRING + 1],
        }
    }

    /// Why a string is refused that is a literal if it is not `known`: length, store, characters.
    fn as_literal(self, full: Full, known: bool) -> Option<u32> {
        match self {
            TooLong => Some(LIMIT),
            Empty => None,
            _ if !known && full == Full::Store => Some(LIMIT),
            NoChar => Some(CHARACTER),
            _ => None,
        }
    }
}

/// What the writer answers, in the scope's order and P3's; none where it is not refused at this
/// event.
fn written_answer(full: Full, has_k: bool, [uri, name, value]: [Written; 3]) -> Option<u32> {
    if [uri, name, value].contains(&Outside) {
        return Some(PLACE);
    }
    let is_known = [
        uri == Known,
        uri == Known && [Known, Other, Nil].contains(&name),
        value == Known,
    ];
    if let Some(number) = uri.as_literal(full, is_known[0]) {
        return Some(number);
    }
    if uri == New && full == Full::Uris {
        return Some(LIMIT);
    }
    if let Some(number) = name.as_literal(full, is_known[1]) {
        return Some(number);
    }
    if name == Empty || name == Nil && uri == Known {
        return Some(NAME);
    }
    if !is_known[1] && full == Full::Names {
        return Some(LIMIT);
    }
    if let Some(number) = value.as_literal(full, is_known[2]) {
        return Some(number);
    }
    if value == New && full == Full::Values {
        return Some(LIMIT);
    }
    if has_k && uri == Known && name == Known {
        return Some(SHAPE);
    }
    (!is_known[1] && full == Full::Productions).then_some(LIMIT)
}

/// An attribute with each combination of faults of its strings, where something is full and where
/// nothing is, equal to another of its tag and not.
#[test]
fn every_pair_of_faults_in_an_attribute_written() {
    let uris = [Known, New, NoChar, TooLong, Outside];
    let names = [Known, Other, New, Empty, Nil, NoChar, TooLong, Outside];
    let values = [Known, New, Empty, NoChar, TooLong, Outside];
    let mut both = Comparison::new();
    let mut answers = [0; 16];
    for (full, has_k) in all_full() {
        let events = before(full, has_k);
        let index = events.len();
        for uri in uris {
            for name in names {
                for value in values {
                    let strings = [uri, name, value];
                    let list = written(&events, strings);
                    let answer = written_answer(full, has_k, strings);
                    let what = format!("{full:?}, with k {has_k}, {strings:?}");
                    for settings in [BITS, BYTES] {
                        let reply = match answer {
                            Some(_) => both.write(settings, &list, WriterSizes::usual()),
                            None => both.write_and_back(settings, &list),
                        };
                        let reply = reply.unwrap_or_else(|error| panic!("{what}: {error}"));
                        let expected = answer.map_or((0, 0), |number| (number, index as u32));
                        assert_eq!((reply.number, reply.index), expected, "{what}");
                        answers[reply.number as usize] += 1;
                    }
                }
            }
        }
    }
    for number in [0, CHARACTER, NAME, LIMIT, SHAPE, PLACE] {
        assert!(answers[number as usize] >= 10, "{number}: {answers:?}");
    }
}

/// The list with an attribute of these strings behind `events`.
fn written(events: &[Event], [uri, name, value]: [Written; 3]) -> Stored {
    let index = events.len();
    let mut all = events.to_vec();
    all.push(Event::Attribute {
        uri: match (uri, name) {
            (Known, Nil) => text(XSI_URI),
            _ => uri.text(""),
        },
        name: name.text("k"),
        value: value.text("x1"),
    });
    all.extend([END, END, Event::EndDocument]);
    let mut list = Stored::plain(&all);
    for (string, cell) in [(uri, 1), (name, 3), (value, 7)] {
        if string == Outside {
            list.cells[index * CELLS + cell] = list.store.len() as u32;
            list.cells[index * CELLS + cell + 1] = 1;
        }
    }
    list
}

/// Fields of an attribute that is read, and what they are refused for by themselves.
#[derive(Clone)]
struct Part {
    what: &'static str,
    fields: Vec<(Role, Shape)>,
    fault: Option<u32>,
}

fn part(what: &'static str, fields: &[(Role, Shape)], fault: Option<u32>) -> Part {
    let fields = fields.to_vec();
    Part {
        what,
        fields,
        fault,
    }
}

/// A field that asks for one more than there is, where its bits hold such a number.
fn beyond(settings: Settings, among: usize) -> Option<Shape> {
    let bits = width(among);
    let room = if settings.byte_aligned() {
        1usize << (bits.div_ceil(8) * 8)
    } else {
        1 << bits
    };
    (bits > 0 && among < room).then_some(Shape::Choice {
        value: among,
        among,
    })
}

/// A name that is read under AT(*).
#[derive(Clone, Copy, Debug, PartialEq, Eq)]
enum Read {
    K,
    J,
    New,
}

/// An attribute that is read, in parts, with each fault of each of them.
struct Parts {
    settings: Settings,
    full: Full,
    /// The events before, their bits in few fields.
    before: Encoded,
    index: usize,
    /// By AT(k), AT(j) and AT(*).
    learned: [Vec<(Role, Shape)>; 2],
    any: Vec<(Role, Shape)>,
    /// The choices among URIs, among names (of k and j), among k's or j's values and among all.
    uris: usize,
    names: [Shape; 2],
    local: usize,
    global: usize,
}

/// The fields of an event in these roles.
fn fields_of(encoded: &Encoded, index: usize, roles: &[Role]) -> Vec<(Role, Shape)> {
    let all = encoded.fields.iter();
    all.filter(|field| field.event == index && roles.contains(&field.role))
        .map(|field| (field.role, field.shape.clone()))
        .collect()
}

fn among(fields: &[(Role, Shape)]) -> usize {
    match fields {
        [(_, Shape::Choice { among, .. })] => *among,
        other => panic!("no choice: {other:?}"),
    }
}

/// The same bits as octets, and a choice of those of the last one.
fn in_few_fields(encoded: Encoded) -> Encoded {
    let (mut octets, bits) = encoded.octets_and_bits();
    let field = |shape: Shape| Field {
        event: 0,
        role: Role::Header,
        shape,
        empty_tables: Vec::new(),
        taken_numbers: Vec::new(),
    };
    let rest = bits % 8;
    let mut fields = Vec::new();
    if rest > 0 {
        let last = octets.pop().expect("bits");
        let value = usize::from(last) >> (8 - rest);
        let among = 1 << rest;
        fields.push(field(Shape::Choice { value, among }));
    }
    fields.insert(0, field(Shape::Octets(octets)));
    Encoded { fields, ..encoded }
}

impl Parts {
    fn new(settings: Settings, full: Full, has_k: bool) -> Parts {
        let events = before(full, has_k);
        let index = events.len();
        let encoded = |event: Event, by_any: bool| {
            let all = [&events[..], &[event]].concat();
            let strict = encode(settings, &all);
            let production = (Loose::AttributeProduction, index);
            let place = strict.loose.iter().position(|it| *it == production);
            let taken = [place.expect("k and j are learned")];
            encode_loosely(settings, &all, if by_any { &taken } else { &[] })
        };
        let code = |encoded: Encoded| fields_of(&encoded, index, &[Role::Code]);
        let any = encoded(k("x1"), true);
        let other = encoded(k("y1"), true);
        let name = |event: Event| {
            let name = fields_of(&encoded(event, true), index, &[Role::Name]);
            name[0].1.clone()
        };
        Parts {
            settings,
            full,
            before: in_few_fields(encode(settings, &events)),
            index,
            learned: [code(encoded(k(""), false)), code(encoded(j(""), false))],
            uris: among(&fields_of(&any, index, &[Role::Uri])),
            names: [name(k("")), name(j(""))],
            local: among(&fields_of(&any, index, &[Role::LocalValue])),
            global: among(&fields_of(&other, index, &[Role::GlobalValue])),
            any: code(any),
        }
    }

    /// A literal's characters, one of which may be none: LIMIT where they have no room.
    fn literal(&self, fault: Option<u32>) -> Option<u32> {
        if self.full == Full::Store {
            Some(LIMIT)
        } else {
            fault
        }
    }

    /// The code of an attribute, with it the faults of each part.
    fn codes(&self, code: &[(Role, Shape)]) -> Vec<Part> {
        let mut all = vec![part("code", code, None)];
        for at in 0..code.len() {
            let mut wrong = code.to_vec();
            let (_, Shape::Choice { among, .. }) = &code[at] else {
                panic!("a code is a choice");
            };
            if let Some(shape) = beyond(self.settings, *among) {
                wrong[at].1 = shape;
                all.push(part("code beyond", &wrong, Some(CODE)));
            }
        }
        all
    }

    fn uris(&self) -> Vec<Part> {
        let among = self.uris;
        let choice = |value| (Role::Uri, Shape::Choice { value, among });
        let length = |length| (Role::UriLength, Shape::Unsigned(length));
        let nul = (Role::CodePoint, Shape::Unsigned(0));
        let number = (Role::UriLength, Shape::Octets(vec![0x81, 0x00]));
        let long = length(MAX_STRING as u32 + 1);
        let no_char = [choice(0), length(1), nul];
        let mut all = vec![
            part("URI", &[choice(1)], None),
            part("URI literal", &[choice(0), length(0)], Some(LOOSE)),
            part("URI no Char", &no_char, self.literal(Some(CHARACTER))),
            part("URI too long", &[choice(0), long], Some(LIMIT)),
            part("URI number", &[choice(0), number], Some(NUMBER)),
        ];
        if let Some(shape) = beyond(self.settings, among) {
            all.push(part("URI beyond", &[(Role::Uri, shape)], Some(REFERENCE)));
        }
        all
    }

    /// Local names of no URI.
    fn names(&self) -> Vec<(Part, Read)> {
        let length = |length| (Role::NameLength, Shape::Unsigned(length));
        let letter = |letter: u8| (Role::CodePoint, Shape::Unsigned(u32::from(letter)));
        let number = (Role::NameLength, Shape::Octets(vec![0x82, 0x00]));
        let hit = |shape: &Shape| [length(0), (Role::Name, shape.clone())];
        let new = match self.full {
            Full::Names => Some(LIMIT),
            _ => self.literal(None),
        };
        let wrong = |what, fields: &[_], fault| (part(what, fields, Some(fault)), Read::New);
        let loose = self.literal(Some(LOOSE)).unwrap_or(LOOSE);
        let character = self.literal(Some(CHARACTER)).unwrap_or(CHARACTER);
        let mut all = vec![
            (part("k", &hit(&self.names[0]), None), Read::K),
            (part("j", &hit(&self.names[1]), None), Read::J),
            (part("new", &[length(2), letter(b'm')], new), Read::New),
            wrong("name literal", &[length(2), letter(b'k')], loose),
            wrong("name empty", &[length(1)], NAME),
            wrong("name no Char", &[length(2), letter(0)], character),
            wrong("name too long", &[length(MAX_STRING as u32 + 2)], LIMIT),
            wrong("name number", &[number], NUMBER),
        ];
        let Shape::Choice { among, .. } = self.names[0] else {
            panic!("a hit is a choice");
        };
        if let Some(shape) = beyond(self.settings, among) {
            all.push(wrong("name beyond", &hit(&shape), REFERENCE));
        }
        all
    }

    fn values(&self, name: Read) -> Vec<Part> {
        let length = |length| (Role::ValueLength, Shape::Unsigned(length));
        let letter = |letter: u8| (Role::CodePoint, Shape::Unsigned(u32::from(letter)));
        let number = (Role::ValueLength, Shape::Octets(vec![0x83, 0x00]));
        let local = |value: usize| {
            let among = self.local;
            (Role::LocalValue, Shape::Choice { value, among })
        };
        let global = |value: usize| {
            let among = self.global;
            (Role::GlobalValue, Shape::Choice { value, among })
        };
        let known = [length(4), letter(b'y'), letter(b'1')];
        let new = match self.full {
            Full::Values => Some(LIMIT),
            _ => self.literal(None),
        };
        let no_char = self.literal(Some(CHARACTER));
        let long = length(MAX_STRING as u32 + 3);
        let mut all = vec![
            part("value empty", &[length(2)], None),
            part("value new", &[length(3), letter(b'm')], new),
            part("value literal", &known, self.literal(Some(LOOSE))),
            part("value no Char", &[length(3), letter(0)], no_char),
            part("value too long", &[long], Some(LIMIT)),
            part("value number", &[number], Some(NUMBER)),
        ];
        // Values 0, 2 and 4 are k's, 1, 3 and 5 are j's.
        let (own, other) = match name {
            Read::K => (Some(2), 3),
            Read::J => (Some(3), 2),
            Read::New => (None, 2),
        };
        all.push(part("value global", &[length(1), global(other)], None));
        if let Some(own) = own {
            all.push(part("value local", &[length(0), local(1)], None));
            let loose = [length(1), global(own)];
            all.push(part("value loose", &loose, Some(LOOSE)));
            if let Some(shape) = beyond(self.settings, self.local) {
                let fields = [length(0), (Role::LocalValue, shape)];
                all.push(part("value local beyond", &fields, Some(REFERENCE)));
            }
        } else {
            all.push(part("value local, none", &[length(0)], Some(REFERENCE)));
        }
        if let Some(shape) = beyond(self.settings, self.global) {
            let fields = [length(1), (Role::GlobalValue, shape)];
            all.push(part("value global beyond", &fields, Some(REFERENCE)));
        }
        all
    }

    /// The octets of the events before, and of these parts behind.
    fn octets(&self, parts: &[&Part]) -> Vec<u8> {
        let mut encoded = self.before.clone();
        for (role, shape) in parts.iter().flat_map(|part| part.fields.clone()) {
            encoded.fields.push(Field {
                event: self.index,
                role,
                shape,
                empty_tables: Vec::new(),
                taken_numbers: Vec::new(),
            });
        }
        encoded.octets()
    }
}

/// Reads streams with both, and counts the answers.
struct Reads {
    both: Comparison,
    answers: [usize; 16],
}

impl Reads {
    /// The answer is this number at the attribute, or it is not refused there. More than two faults
    /// are not tried.
    fn has(&mut self, parts: &Parts, read: &[&Part], answer: Option<u32>) {
        if read.iter().filter(|part| part.fault.is_some()).count() > 2 {
            return;
        }
        let octets = parts.octets(read);
        let sizes = ReaderSizes::usual();
        let reply = self.both.read(parts.settings, &octets, sizes);
        let what = || {
            let read: Vec<&str> = read.iter().map(|part| part.what).collect();
            format!("{:?}, {read:?}", parts.full)
        };
        let reply = reply.unwrap_or_else(|error| panic!("{}: {error}", what()));
        match answer {
            Some(number) => {
                let expected = (number, parts.index as u32);
                assert_eq!((reply.number, reply.index), expected, "{}", what());
                self.answers[number as usize] += 1;
            }
            None => {
                let is_behind = reply.number == 0 || reply.index > parts.index as u32;
                assert!(is_behind, "{reply:?}: {}", what());
                self.answers[0] += 1;
            }
        }
    }

    /// Where the stream ends behind these parts, the first fault of them or ENDED. Pad bits of a
    /// bit-packed one would be read as what follows.
    fn cut(&mut self, parts: &Parts, read: &[&Part]) {
        if parts.settings.byte_aligned() {
            let fault = read.iter().find_map(|part| part.fault);
            self.has(parts, read, fault.or(Some(ENDED)));
        }
    }

    /// The attribute with each of these values, if it is refused for `behind` once its content is
    /// not.
    fn with_values(&mut self, parts: &Parts, read: &[&Part], name: Read, behind: Option<u32>) {
        self.cut(parts, read);
        for value in parts.values(name) {
            let all = [read, &[&value]].concat();
            let fault = all.iter().find_map(|part| part.fault);
            self.has(parts, &all, fault.or(behind));
        }
    }
}

/// An attribute with each one and each two faults of its fields, where something is full and where
/// nothing is, equal to another of its tag and not, by a learned production and by AT(*).
#[test]
fn every_pair_of_faults_in_an_attribute_read() {
    let mut reads = Reads {
        both: Comparison::new(),
        answers: [0; 16],
    };
    for (full, has_k) in all_full() {
        for settings in [BITS, BYTES] {
            let parts = Parts::new(settings, full, has_k);
            let shape = |name: Read| (has_k && name == Read::K).then_some(SHAPE);
            for (code, name) in parts.learned.iter().zip([Read::K, Read::J]) {
                for code in parts.codes(code) {
                    reads.with_values(&parts, &[&code], name, shape(name));
                }
            }
            let (codes, names) = (parts.codes(&parts.any), parts.names());
            let uris = parts.uris();
            for (code, uri) in codes
                .iter()
                .flat_map(|it| uris.iter().map(move |u| (it, u)))
            {
                reads.cut(&parts, &[code]);
                reads.cut(&parts, &[code, uri]);
                for (part, name) in &names {
                    let production = match name {
                        Read::K | Read::J => Some(LOOSE),
                        Read::New if full == Full::Productions => Some(LIMIT),
                        Read::New => None,
                    };
                    let behind = shape(*name).or(production);
                    reads.with_values(&parts, &[code, uri, part], *name, behind);
                }
            }
        }
    }
    for number in [
        0, ENDED, CODE, NUMBER, CHARACTER, REFERENCE, LOOSE, NAME, LIMIT, SHAPE,
    ] {
        let found = reads.answers[number as usize];
        assert!(found >= 10, "{number}: {:?}", reads.answers);
    }
}
