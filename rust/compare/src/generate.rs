//! Random well-formed event lists; with the setting, fragments.

use crate::encode::encode;
use crate::event::{tag_has, text, Event, Text, XML_URI, XSI_URI};
use crate::lent::Settings;
use crate::names;
use crate::prng::Prng;
use crate::sizes::{
    MAX_EVENTS, MAX_GRAMMARS, MAX_LEARNED, MAX_NAMES, MAX_OPEN, MAX_STORE, MAX_STREAM, MAX_STRING,
    MAX_URIS, MAX_VALUES,
};

/// What a list is made for: small ones pass no size; each other profile comes near one size and
/// passes it at times.
#[derive(Clone, Copy, Debug, PartialEq, Eq, Hash, PartialOrd, Ord)]
pub enum Profile {
    Small,
    Open,
    StringLength,
    Uris,
    Names,
    Values,
    Grammars,
    Productions,
    Events,
    Store,
    Octets,
}

impl Profile {
    pub const NEAR_A_SIZE: [Profile; 10] = [
        Profile::Open,
        Profile::StringLength,
        Profile::Uris,
        Profile::Names,
        Profile::Values,
        Profile::Grammars,
        Profile::Productions,
        Profile::Events,
        Profile::Store,
        Profile::Octets,
    ];
}

/// Settings that have a meaning. What has not landed stays as it is in the base.
pub fn settings(rng: &mut Prng) -> Settings {
    let bits = rng.below(32) as u32;
    Settings {
        alignment: bits & 1,
        cookie: bits >> 1 & 1,
        comments: bits >> 2 & 1,
        instructions: bits >> 3 & 1,
        fragment: bits >> 4,
        value_length: value_length(rng),
        value_capacity: value_capacity(rng),
        ..Settings::BIT_PACKED
    }
}

/// A bound of the values' length, one more in the number; most often none, or one that strings of
/// [`random_text`] pass or meet.
fn value_length(rng: &mut Prng) -> u32 {
    match rng.below(12) {
        0..=6 => 0,
        7..=10 => rng.between(1, 5) as u32,
        _ => *rng.pick(&[MAX_STRING as u32, MAX_STRING as u32 + 1, 1 << 31, u32::MAX]),
    }
}

/// A bound of how many values there are, one more in the number; every other time none, or most
/// often one that few texts turn over.
fn value_capacity(rng: &mut Prng) -> u32 {
    match rng.below(12) {
        0..=5 => 0,
        6..=9 => rng.between(1, 5) as u32,
        10 => rng.between(6, 70) as u32,
        _ => *rng.pick(&[
            MAX_VALUES as u32 - 1,
            MAX_VALUES as u32,
            MAX_VALUES as u32 + 1,
        ]),
    }
}

pub fn list(rng: &mut Prng, settings: Settings, profile: Profile) -> Vec<Event> {
    let list = document(rng, settings, profile);
    if settings.fragment == 1 && profile != Profile::Small {
        return as_fragment(rng, list);
    }
    list
}

/// A list with one root; a small one is a fragment where the settings say so.
fn document(rng: &mut Prng, settings: Settings, profile: Profile) -> Vec<Event> {
    match profile {
        Profile::Small if settings.fragment == 1 => fragment(rng, settings),
        Profile::Small => small(rng, settings),
        Profile::Open => open(rng),
        Profile::StringLength => string_length(rng, settings),
        Profile::Uris => uris(rng),
        Profile::Names => names(rng),
        Profile::Values => values(rng),
        Profile::Grammars => grammars(rng),
        Profile::Productions => productions(rng),
        Profile::Events => events(rng),
        Profile::Store => store(rng, settings),
        Profile::Octets => octets(rng, settings),
    }
}

/// XML Chars at the ends of their ranges, and where an Unsigned Integer gets longer.
const EDGE_CHARS: [u32; 14] = [
    9, 10, 13, 32, 127, 128, 16_383, 16_384, 55_295, 57_344, 65_533, 65_536, 131_071, 1_114_111,
];

/// Numbers that are no XML Char, up to the largest Unsigned Integer that is taken.
pub const NO_CHARS: [u32; 14] = [
    0,
    1,
    8,
    11,
    12,
    14,
    31,
    55_296,
    56_320,
    57_343,
    65_534,
    65_535,
    1_114_112,
    2_147_483_647,
];

struct Pools {
    uris: Vec<Text>,
    names: Vec<Text>,
    /// Those of the names that may be targets, and others.
    targets: Vec<Text>,
    values: Vec<Text>,
}

fn random_text(rng: &mut Prng, from: usize, to: usize) -> Text {
    let length = rng.between(from, to);
    (0..length)
        .map(|_| {
            if rng.one_in(12) {
                *rng.pick(&EDGE_CHARS)
            } else {
                b'a' as u32 + rng.below(4) as u32
            }
        })
        .collect()
}

fn pools(rng: &mut Prng) -> Pools {
    let mut uris = vec![text("")];
    for _ in 0..rng.below(4) {
        uris.push(match rng.below(6) {
            0 => text(XML_URI),
            1 => text(XSI_URI),
            _ => random_text(rng, 1, 3),
        });
    }
    let mut names = Vec::new();
    for _ in 0..rng.between(1, 6) {
        names.push(match rng.below(12) {
            0 => text("nil"),
            1 => text("type"),
            2 => text("id"),
            3 => text("lang"),
            4 => names::xml(rng),
            _ => names::name(rng, 2),
        });
    }
    let mut targets = names.clone();
    targets.retain(|name| !names::is_xml(name));
    targets.extend([text("xmlx"), text("xml-")]);
    let mut values = Vec::new();
    for _ in 0..rng.between(1, 7) {
        values.push(match rng.below(12) {
            0 => names::no_name(rng),
            1 => names::no_comment(rng),
            2 => names::no_instruction_text(rng),
            _ => random_text(rng, 0, 3),
        });
    }
    Pools {
        uris,
        names,
        targets,
        values,
    }
}

/// At most some 80 events with few names and values, so that hits and learned productions are
/// frequent.
fn small(rng: &mut Prng, settings: Settings) -> Vec<Event> {
    let pools = pools(rng);
    let budget = match rng.below(4) {
        // So that small tables turn over many times.
        0 | 1 if settings.value_capacity > 0 => rng.between(60, 200),
        0 => rng.between(2, 6),
        1 => rng.between(6, 20),
        _ => rng.between(10, 60),
    };
    let depth = rng.between(1, 8);
    let mut all = vec![Event::StartDocument];
    misc(rng, settings, &pools, &mut all);
    element(rng, &pools, &mut all);
    inside(rng, settings, &pools, (budget, depth), &mut all);
    misc(rng, settings, &pools, &mut all);
    all.push(Event::EndDocument);
    all
}

/// The most top elements of a fragment, and what else goes into small ones: so that with every
/// event a production they are no more than may be.
const MOST_TOPS: usize = MAX_GRAMMARS;
const SMALL_FRAGMENT: usize = 300;

/// Up to 64 elements beside each other, most of them small, with comments and instructions between.
/// Every other fragment has few names, which come again; in the others each has one of its own, and
/// these are also the names inside of them.
fn fragment(rng: &mut Prng, settings: Settings) -> Vec<Event> {
    let mut pools = pools(rng);
    let names_again = rng.one_in(2);
    let tops = match rng.below(8) {
        0 => 0,
        1..=5 => rng.between(1, 8),
        _ => rng.between(9, MOST_TOPS),
    };
    if !names_again {
        pools.uris.truncate(1);
        pools.names = (0..tops).map(|k| numbered("t", k)).collect();
    }
    let mut all = vec![Event::StartDocument];
    misc(rng, settings, &pools, &mut all);
    for k in 0..tops {
        if names_again {
            element(rng, &pools, &mut all);
        } else {
            let (uri, name) = (text(""), pools.names[k].clone());
            all.push(Event::StartElement { uri, name });
        }
        let events = match rng.below(4) {
            _ if all.len() > SMALL_FRAGMENT - 2 * MOST_TOPS => 0,
            0 => rng.between(4, 24),
            _ => rng.below(4),
        };
        let bounds = (all.len() + events, rng.between(1, 5));
        inside(rng, settings, &pools, bounds, &mut all);
        misc(rng, settings, &pools, &mut all);
    }
    all.push(Event::EndDocument);
    all
}

/// A list with a root as it is, or what is in the root in its place, if that is elements only, or
/// all twice.
fn as_fragment(rng: &mut Prng, list: Vec<Event>) -> Vec<Event> {
    let inner = &list[2..list.len() - 2];
    let mut open = 0;
    let elements_only = inner.iter().all(|event| {
        match event {
            Event::StartElement { .. } => open += 1,
            Event::EndElement => open -= 1,
            _ => return open > 0,
        }
        true
    });
    match rng.below(4) {
        0 | 1 if elements_only => crate::event::document(inner.to_vec()),
        2 => {
            let whole = &list[1..list.len() - 1];
            crate::event::document([whole, whole].concat())
        }
        _ => list,
    }
}

/// What is in the element with which `all` ends, and its end: until there are so many events, and
/// with so many open at once.
fn inside(
    rng: &mut Prng,
    settings: Settings,
    pools: &Pools,
    (budget, depth): (usize, usize),
    all: &mut Vec<Event>,
) {
    let mut open = vec![all.len() - 1];
    let mut in_tag = true;
    let mut closed: Option<(usize, usize)> = None;
    while let Some(&start) = open.last() {
        if all.len() >= budget {
            all.push(Event::EndElement);
            open.pop();
            continue;
        }
        match rng.below(12) {
            0..=2 if in_tag => attribute(rng, pools, all),
            0..=3 if open.len() < depth => {
                element(rng, pools, all);
                open.push(all.len() - 1);
                in_tag = true;
            }
            4..=5 => {
                all.push(Event::Characters(rng.pick(&pools.values).clone()));
                in_tag = false;
            }
            6 if settings.kept() > 0 => {
                one_misc(rng, settings, pools, all);
                in_tag = false;
            }
            7..=8 if closed.is_some() => {
                let (from, to) = closed.unwrap_or_default();
                let again: Vec<Event> = all[from..to].to_vec();
                let fits = all.len() + again.len() <= budget + 20;
                if fits && open.len() + opened(&again) <= 12 {
                    all.extend(again);
                    in_tag = false;
                }
            }
            9..=10 if open.len() > 1 || rng.one_in(4) => {
                all.push(Event::EndElement);
                open.pop();
                in_tag = false;
                closed = Some((start, all.len()));
            }
            _ => {}
        }
    }
}

fn opened(events: &[Event]) -> usize {
    events
        .iter()
        .filter(|event| matches!(event, Event::StartElement { .. }))
        .count()
}

fn element(rng: &mut Prng, pools: &Pools, all: &mut Vec<Event>) {
    let uri = rng.pick(&pools.uris).clone();
    let name = rng.pick(&pools.names).clone();
    all.push(Event::StartElement { uri, name });
}

/// An attribute, unless the start tag has one of its name.
fn attribute(rng: &mut Prng, pools: &Pools, all: &mut Vec<Event>) {
    let mut uri = rng.pick(&pools.uris).clone();
    let name = rng.pick(&pools.names).clone();
    let value = rng.pick(&pools.values).clone();
    if uri == text(XSI_URI) && (name == text("nil") || name == text("type")) {
        uri = text("");
    }
    if !tag_has(all, &uri, &name) {
        all.push(Event::Attribute { uri, name, value });
    }
}

fn misc(rng: &mut Prng, settings: Settings, pools: &Pools, all: &mut Vec<Event>) {
    if settings.kept() > 0 && rng.one_in(3) {
        for _ in 0..rng.between(1, 2) {
            one_misc(rng, settings, pools, all);
        }
    }
}

fn one_misc(rng: &mut Prng, settings: Settings, pools: &Pools, all: &mut Vec<Event>) {
    let comment = settings.comments == 1 && (settings.instructions == 0 || rng.one_in(2));
    let is_plain = rng.one_in(3);
    all.push(if comment && is_plain {
        Event::Comment(random_text(rng, 0, 3))
    } else if comment {
        Event::Comment(names::comment(rng))
    } else {
        Event::Instruction {
            target: rng.pick(&pools.targets).clone(),
            text: if is_plain {
                random_text(rng, 0, 3)
            } else {
                names::instruction_text(rng)
            },
        }
    });
}

fn start(name: &str) -> Event {
    Event::StartElement {
        uri: text(""),
        name: text(name),
    }
}

fn numbered(prefix: &str, number: usize) -> Text {
    text(&format!("{prefix}{number}"))
}

fn whole(inner: Vec<Event>) -> Vec<Event> {
    let mut all = vec![Event::StartDocument, start("r")];
    all.extend(inner);
    all.push(Event::EndElement);
    all.push(Event::EndDocument);
    all
}

/// Nested elements of a few names.
fn open(rng: &mut Prng) -> Vec<Event> {
    let depth = rng.between(MAX_OPEN - 6, MAX_OPEN + 4);
    let names = rng.between(1, 5);
    let mut inner = Vec::new();
    for _ in 1..depth {
        inner.push(Event::StartElement {
            uri: text(""),
            name: numbered("e", rng.below(names)),
        });
        if rng.one_in(10) {
            inner.push(Event::Characters(numbered("v", rng.below(3))));
        }
    }
    for _ in 1..depth {
        inner.push(Event::EndElement);
    }
    whole(inner)
}

fn string_length(rng: &mut Prng, settings: Settings) -> Vec<Event> {
    let length = rng.between(MAX_STRING - 4, MAX_STRING + 3);
    let code_point = *rng.pick(&[97, 97, 233, 20_013, 131_071]);
    let long: Text = vec![code_point; length];
    let event = match rng.below(7) {
        0 => Event::StartElement {
            uri: long,
            name: text("a"),
        },
        1 => Event::StartElement {
            uri: text(""),
            name: long,
        },
        2 => Event::Attribute {
            uri: long,
            name: text("k"),
            value: text("x"),
        },
        3 => Event::Attribute {
            uri: text(""),
            name: long,
            value: text("x"),
        },
        4 => Event::Attribute {
            uri: text(""),
            name: text("k"),
            value: long,
        },
        5 if settings.comments == 1 => Event::Comment(long),
        5 if settings.instructions == 1 => Event::Instruction {
            target: long,
            text: text("x"),
        },
        6 if settings.instructions == 1 => Event::Instruction {
            target: text("t"),
            text: long,
        },
        _ => Event::Characters(long),
    };
    let again = rng.one_in(2);
    let mut inner = Vec::new();
    for _ in 0..if again { 2 } else { 1 } {
        inner.push(start("s"));
        let is_element = matches!(event, Event::StartElement { .. });
        inner.push(event.clone());
        if is_element {
            inner.push(Event::EndElement);
        }
        inner.push(Event::EndElement);
    }
    whole(inner)
}

fn uris(rng: &mut Prng) -> Vec<Event> {
    let count = rng.between(MAX_URIS - 7, MAX_URIS);
    let mut inner = Vec::new();
    for k in 0..count {
        for number in [k, rng.below(k + 1)] {
            let uri = numbered("u", number);
            let name = numbered("n", rng.below(3));
            if inner.is_empty() || rng.one_in(3) {
                inner.push(Event::StartElement { uri, name });
            } else {
                inner.push(start("s"));
                inner.push(Event::Attribute {
                    uri,
                    name,
                    value: text("x"),
                });
            }
            inner.push(Event::EndElement);
        }
    }
    whole(inner)
}

/// New names, and names again, as attributes: all in one start tag, where those again have no
/// place, or in nested elements of two names.
fn names(rng: &mut Prng) -> Vec<Event> {
    let count = rng.between(MAX_NAMES - 17, MAX_NAMES - 2);
    let in_a_tag = *rng.pick(&[3, 20, 1_000]);
    let mut all = vec![Event::StartDocument, start("r")];
    let mut open = 1;
    for k in 0..count {
        if rng.one_in(in_a_tag) && open < MAX_OPEN {
            all.push(start(if rng.one_in(2) { "r" } else { "s" }));
            open += 1;
        }
        for number in [k, rng.below(k + 1)] {
            let uri = if number % 7 == 0 { text("u") } else { text("") };
            let name = numbered("n", number);
            let value = numbered("v", rng.below(4));
            if !tag_has(&all, &uri, &name) {
                all.push(Event::Attribute { uri, name, value });
            }
        }
    }
    all.extend(vec![Event::EndElement; open]);
    all.push(Event::EndDocument);
    all
}

/// Some ten values an element, and one in eight looked up again: more of either is too many events
/// or too long a stream.
fn values(rng: &mut Prng) -> Vec<Event> {
    let count = rng.between(MAX_VALUES - 12, MAX_VALUES + 6);
    let names = rng.between(1, 3);
    let mut inner = Vec::new();
    for k in 0..count {
        if k == 0 || rng.one_in(10) {
            if k > 0 {
                inner.push(Event::EndElement);
            }
            inner.push(Event::StartElement {
                uri: text(""),
                name: numbered("n", rng.below(names)),
            });
        }
        inner.push(Event::Characters(numbered("v", k)));
        if rng.one_in(8) {
            inner.push(Event::Characters(numbered("v", rng.below(k + 1))));
        }
    }
    inner.push(Event::EndElement);
    whole(inner)
}

fn grammars(rng: &mut Prng) -> Vec<Event> {
    let count = rng.between(MAX_GRAMMARS - 6, MAX_GRAMMARS + 3);
    let mut inner = Vec::new();
    for k in 0..count {
        for number in [k, rng.below(k + 1)] {
            inner.push(Event::StartElement {
                uri: text(""),
                name: numbered("n", number),
            });
            inner.push(Event::EndElement);
        }
    }
    whole(inner)
}

fn productions(rng: &mut Prng) -> Vec<Event> {
    let target = rng.between(MAX_LEARNED - 17, MAX_LEARNED + 13);
    let elements = rng.between(6, 12);
    let names = rng.between(80, 105);
    let mut learned = std::collections::HashSet::new();
    let mut inner = Vec::new();
    while learned.len() < target && inner.len() < 3_000 {
        let element = rng.below(elements);
        inner.push(Event::StartElement {
            uri: text(""),
            name: numbered("e", element),
        });
        learned.insert((element, usize::MAX));
        for _ in 0..rng.between(0, 60) {
            let number = rng.below(names);
            if learned.len() < target && learned.insert((element, number)) {
                inner.push(Event::Attribute {
                    uri: text(""),
                    name: numbered("n", number),
                    value: numbered("v", rng.below(4)),
                });
            }
        }
        inner.push(Event::EndElement);
    }
    whole(inner)
}

fn events(rng: &mut Prng) -> Vec<Event> {
    let count = rng.between(MAX_EVENTS - 6, MAX_EVENTS + 5);
    let mut inner = Vec::new();
    while inner.len() + 4 < count {
        if inner.len() + 6 < count && rng.one_in(3) {
            inner.push(start("s"));
            inner.push(Event::EndElement);
        } else {
            inner.push(Event::Characters(numbered("v", rng.below(5))));
        }
    }
    whole(inner)
}

/// Literals that come near the end of the text store.
fn store(rng: &mut Prng, settings: Settings) -> Vec<Event> {
    let target = MAX_STORE + rng.between(0, 5) - 3;
    let mut inner = Vec::new();
    let mut count = 99 + 1;
    let mut number = 0;
    while count < target {
        let length = (target - count).min(rng.between(700, MAX_STRING));
        let mut value = numbered("", number);
        value.resize(length.max(value.len()), 97);
        if length < value.len() {
            value = text("#######")[..length.min(7)].to_vec();
        }
        count += value.len();
        number += 1;
        inner.push(if settings.comments == 1 && rng.one_in(3) {
            Event::Comment(value)
        } else {
            Event::Characters(value)
        });
        if rng.one_in(3) {
            inner.push(Event::Characters(Vec::new()));
        }
    }
    whole(inner)
}

/// Code points of two or three octets, so that the stream comes near its largest size.
fn octets(rng: &mut Prng, settings: Settings) -> Vec<Event> {
    let target = MAX_STREAM + rng.between(0, 6) - 3;
    let wide = rng.one_in(2);
    let code_point = if wide { 20_013 } else { 233 };
    let mut inner = Vec::new();
    let mut number = 0;
    let mut left = target - 200;
    while left > 0 {
        let per_code_point = if wide { 3 } else { 2 };
        let length = (left / per_code_point).clamp(4, MAX_STRING.min(1_024));
        let mut value = numbered("", number);
        value.resize(length, code_point);
        left = left.saturating_sub(length * per_code_point);
        number += 1;
        inner.push(Event::Characters(value));
    }
    let length = encode(settings, &whole(inner.clone())).octets().len();
    if length + 4 < target {
        let mut value = text("~");
        value.resize(target - length - 2, 98);
        inner.push(Event::Characters(value));
    }
    whole(inner)
}
