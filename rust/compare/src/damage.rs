//! Faults in streams and lists: some whose answer the scope determines, and damage at random.

use crate::encode::{
    encode, encode_loosely, unsigned_octets, width, Encoded, Field, Loose, Role, Shape,
};
use crate::event::{
    strings_of, text, unused_cells, Event, Stored, ATTRIBUTE, CELLS, CHARACTERS, COMMENT,
    END_DOCUMENT, END_ELEMENT, INSTRUCTION, START_ELEMENT, XSI_URI,
};
use crate::generate::NO_CHARS;
use crate::lent::{
    Settings, CHARACTER, CODE, ENDED, HEADER, LIMIT, LOOSE, NAME, NUMBER, PLACE, REFERENCE, SHAPE,
    TAIL,
};
use crate::names;
use crate::prng::Prng;
use crate::sizes::MAX_STRING;

/// A list that would be well-formed, but that a start tag has an attribute twice.
pub struct EqualAttribute {
    pub events: Vec<Event>,
    /// The index of the second.
    pub index: usize,
}

impl EqualAttribute {
    /// Puts an attribute of a list once more into its start tag, somewhere behind the first; none
    /// where the list has no attribute. The value is the first's or empty, or, with `any_value`,
    /// any other.
    pub fn new(rng: &mut Prng, events: &[Event], any_value: bool) -> Option<EqualAttribute> {
        let is_attribute = |k: &usize| matches!(events[*k], Event::Attribute { .. });
        let all: Vec<usize> = (0..events.len()).filter(is_attribute).collect();
        if all.is_empty() {
            return None;
        }
        let first = *rng.pick(&all);
        let mut index = first + 1;
        while is_attribute(&index) && !rng.one_in(3) {
            index += 1;
        }
        let mut again = events[first].clone();
        if let Event::Attribute { uri, name, value } = &mut again {
            match rng.below(if any_value { 7 } else { 2 }) {
                0 => {}
                1 => value.clear(),
                2 => value.push(97),
                // One that this name has had, or any other string.
                3..=5 => {
                    let of_name = events.iter().filter_map(|event| match event {
                        Event::Attribute {
                            uri: u,
                            name: n,
                            value,
                        } if u == uri && n == name => Some(value),
                        _ => None,
                    });
                    let values: Vec<_> = of_name.collect();
                    *value = rng.pick(&values).to_vec();
                }
                _ => {
                    let strings = rng.pick(events).strings();
                    *value = strings.last().map_or(text("w"), |it| it.to_vec());
                }
            }
        }
        let mut events = events.to_vec();
        events.insert(index, again);
        Some(EqualAttribute { events, index })
    }

    /// Its stream, the second attribute by the learned production, or by AT(*).
    pub fn stream(&self, settings: Settings, by_any: bool) -> Encoded {
        let strict = encode(settings, &self.events);
        if !by_any {
            return strict;
        }
        let production = (Loose::AttributeProduction, self.index);
        let place = strict.loose.iter().position(|it| *it == production);
        let taken = [place.expect("the first has taught it")];
        encode_loosely(settings, &self.events, &taken)
    }
}

/// A fault in the strict form of a list that is inside the limits.
#[derive(Clone, Copy, Debug, PartialEq, Eq, Hash, PartialOrd, Ord)]
pub enum StreamFault {
    Header,
    Code,
    UriNumber,
    NameNumber,
    LocalNumber,
    /// A local number that was taken away.
    TakenNumber,
    GlobalNumber,
    EmptyTable,
    NotFewestOctets,
    NumberTooLarge,
    SixOctets,
    NoChar,
    StringTooLong,
    EmptyName,
    EmptyTarget,
    NoName,
    NoTarget,
    NoComment,
    NoInstructionText,
    PadBit,
    Tail,
    Ended,
    EqualAttribute,
    Loose(Loose),
}

impl StreamFault {
    pub fn all() -> Vec<StreamFault> {
        let mut all = vec![
            StreamFault::Header,
            StreamFault::Code,
            StreamFault::UriNumber,
            StreamFault::NameNumber,
            StreamFault::LocalNumber,
            StreamFault::TakenNumber,
            StreamFault::GlobalNumber,
            StreamFault::EmptyTable,
            StreamFault::NotFewestOctets,
            StreamFault::NumberTooLarge,
            StreamFault::SixOctets,
            StreamFault::NoChar,
            StreamFault::StringTooLong,
            StreamFault::EmptyName,
            StreamFault::EmptyTarget,
            StreamFault::NoName,
            StreamFault::NoTarget,
            StreamFault::NoComment,
            StreamFault::NoInstructionText,
            StreamFault::PadBit,
            StreamFault::Tail,
            StreamFault::Ended,
            StreamFault::EqualAttribute,
        ];
        all.extend(Loose::ALL.map(StreamFault::Loose));
        all
    }

    /// Those that an attribute can have beside being equal to another.
    pub fn of_an_attribute() -> Vec<StreamFault> {
        let mut all = vec![
            StreamFault::Code,
            StreamFault::UriNumber,
            StreamFault::NameNumber,
            StreamFault::LocalNumber,
            StreamFault::GlobalNumber,
            StreamFault::EmptyTable,
            StreamFault::NotFewestOctets,
            StreamFault::NumberTooLarge,
            StreamFault::SixOctets,
            StreamFault::NoChar,
            StreamFault::StringTooLong,
            StreamFault::EmptyName,
            StreamFault::NoName,
            StreamFault::Ended,
        ];
        let loose = [
            Loose::UriLiteral,
            Loose::NameLiteral,
            Loose::ValueLiteralLocal,
            Loose::ValueLiteralGlobal,
            Loose::ValueGlobal,
            Loose::AttributeProduction,
        ];
        all.extend(loose.map(StreamFault::Loose));
        all
    }
}

/// Octets with a fault, and the number and index that the reader has to answer.
pub struct FaultyStream {
    pub fault: StreamFault,
    pub octets: Vec<u8>,
    pub number: u32,
    pub index: u32,
    /// Whether the fault stands in the very event of an equal attribute.
    pub is_pair: bool,
}

/// Puts one fault into the strict form of a list inside the limits; none where the one drawn has no
/// place in it.
///
/// If the list has an equal attribute, at index `equal`, and else no fault, there are two faults
/// then, every other time in the same event.
pub fn faulty_stream(
    rng: &mut Prng,
    strict: &Encoded,
    events: &[Event],
    equal: Option<usize>,
) -> Option<FaultyStream> {
    let within = equal.filter(|_| rng.one_in(2));
    let (fault, octets, number, index) = match rng.below(8) {
        0 => loose_stream(rng, strict, events, within)?,
        1 => end_fault(rng, strict, within)?,
        2 => text_fault(rng, strict, events, within)?,
        3 => taken_number(rng, strict, within)?,
        _ => field_fault(rng, strict, within)?,
    };
    let is_pair = equal == Some(index);
    let (number, index) = match equal {
        Some(equal) if index > equal => (SHAPE, equal),
        // Behind the faults of its content, before LOOSE of its production.
        Some(_) if is_pair && fault == StreamFault::Loose(Loose::AttributeProduction) => {
            (SHAPE, index)
        }
        _ => (number, index),
    };
    Some(FaultyStream {
        fault,
        octets,
        number,
        index: index as u32,
        is_pair,
    })
}

type Drawn = (StreamFault, Vec<u8>, u32, usize);

/// One of the places that are those of event `within`, if one is named.
fn place<T>(
    rng: &mut Prng,
    all: &[T],
    within: Option<usize>,
    event: impl Fn(&T) -> usize,
) -> Option<usize> {
    let Some(within) = within else {
        return (!all.is_empty()).then(|| rng.below(all.len()));
    };
    let inside: Vec<usize> = (0..all.len())
        .filter(|&k| event(&all[k]) == within)
        .collect();
    (!inside.is_empty()).then(|| *rng.pick(&inside))
}

fn loose_stream(
    rng: &mut Prng,
    strict: &Encoded,
    events: &[Event],
    within: Option<usize>,
) -> Option<Drawn> {
    let at = place(rng, &strict.loose, within, |(_, event)| *event)?;
    let (form, index) = strict.loose[at];
    let mut taken = strict.taken.clone();
    taken.push(at);
    let loose = encode_loosely(strict.settings, events, &taken);
    Some((StreamFault::Loose(form), loose.octets(), LOOSE, index))
}

/// Another string in place of a name, a target, or the text of a comment or an instruction.
fn text_fault(
    rng: &mut Prng,
    strict: &Encoded,
    events: &[Event],
    within: Option<usize>,
) -> Option<Drawn> {
    let mut events = events.to_vec();
    let index = within.unwrap_or_else(|| rng.below(events.len()));
    let (fault, number) = match &mut events[index] {
        Event::StartElement { name, .. } | Event::Attribute { name, .. } => {
            *name = names::no_name(rng);
            (StreamFault::NoName, NAME)
        }
        Event::Comment(text) => {
            *text = names::no_comment(rng);
            (StreamFault::NoComment, CHARACTER)
        }
        Event::Instruction { target, text } => {
            let is_target = rng.one_in(2);
            if !is_target || rng.one_in(2) {
                *text = names::no_instruction_text(rng);
            }
            if is_target {
                *target = names::no_target(rng);
                (StreamFault::NoTarget, NAME)
            } else {
                (StreamFault::NoInstructionText, CHARACTER)
            }
        }
        _ => return None,
    };
    // The event may have other places for loose forms now.
    let mut taken = strict.taken.clone();
    taken.retain(|&place| strict.loose[place].1 < index);
    let stream = encode_loosely(strict.settings, &events, &taken);
    Some((fault, stream.octets(), number, index))
}

fn end_fault(rng: &mut Prng, strict: &Encoded, within: Option<usize>) -> Option<Drawn> {
    let (mut octets, bits) = strict.octets_and_bits();
    if let Some(event) = within {
        // The octets at whose ends the event is not whole yet.
        let from = strict.bits_before(event).div_ceil(8);
        let to = strict.bits_before(event + 1).div_ceil(8);
        if from == to {
            return None;
        }
        octets.truncate(rng.between(from, to - 1));
        return Some((StreamFault::Ended, octets, ENDED, event));
    }
    match rng.below(3) {
        0 => {
            let pads = octets.len() * 8 - bits;
            if pads == 0 {
                return None;
            }
            *octets.last_mut()? |= 1 << rng.below(pads);
            Some((StreamFault::PadBit, octets, TAIL, strict.events))
        }
        1 => {
            for _ in 0..rng.between(1, 3) {
                octets.push(if rng.one_in(2) { 0 } else { rng.octet() });
            }
            Some((StreamFault::Tail, octets, TAIL, strict.events))
        }
        _ => {
            let length = rng.below(octets.len());
            octets.truncate(length);
            let index = strict.event_at(length);
            Some((StreamFault::Ended, octets, ENDED, index))
        }
    }
}

/// A number from `among` on that a field of a choice among so many can still hold.
fn beyond(rng: &mut Prng, among: usize, byte_aligned: bool) -> Option<usize> {
    let mut bits = width(among);
    if byte_aligned {
        bits = bits.div_ceil(8) * 8;
    }
    let end = 1usize << bits;
    if bits == 0 || among >= end {
        return None;
    }
    Some(match rng.below(3) {
        0 => among,
        1 => end - 1,
        _ => rng.between(among, end - 1),
    })
}

fn field_fault(rng: &mut Prng, strict: &Encoded, within: Option<usize>) -> Option<Drawn> {
    let mut faulty = strict.clone();
    let at = place(rng, &faulty.fields, within, |field| field.event)?;
    let field = &mut faulty.fields[at];
    let index = field.event;
    let (fault, shape, number) = match field.shape.clone() {
        Shape::Octets(octets) => {
            let octet = octets[0] ^ (1 << rng.below(8));
            (StreamFault::Header, Shape::Octets(vec![octet]), HEADER)
        }
        Shape::Choice { among, .. } => {
            let value = beyond(rng, among, strict.settings.byte_aligned())?;
            let (fault, number) = match field.role {
                Role::Code => (StreamFault::Code, CODE),
                Role::Uri => (StreamFault::UriNumber, REFERENCE),
                Role::Name => (StreamFault::NameNumber, REFERENCE),
                Role::LocalValue => (StreamFault::LocalNumber, REFERENCE),
                _ => (StreamFault::GlobalNumber, REFERENCE),
            };
            (fault, Shape::Choice { value, among }, number)
        }
        Shape::Unsigned(value) => match rng.below(4) {
            0 => not_a_number(rng, value),
            1 if !field.empty_tables.is_empty() => {
                let value = *rng.pick(&field.empty_tables);
                (StreamFault::EmptyTable, Shape::Unsigned(value), REFERENCE)
            }
            _ => string_fault(rng, field.role)?,
        },
    };
    field.shape = shape;
    Some((fault, faulty.octets(), number, index))
}

/// A local number that was taken away in place of one that is present.
fn taken_number(rng: &mut Prng, strict: &Encoded, within: Option<usize>) -> Option<Drawn> {
    let mut faulty = strict.clone();
    let has_taken = |field: &&mut Field| {
        !field.taken_numbers.is_empty() && within.is_none_or(|event| field.event == event)
    };
    let mut fields: Vec<&mut Field> = faulty.fields.iter_mut().filter(has_taken).collect();
    if fields.is_empty() {
        return None;
    }
    let at = rng.below(fields.len());
    let field = &mut fields[at];
    let index = field.event;
    let number = *rng.pick(&field.taken_numbers);
    if let Shape::Choice { value, .. } = &mut field.shape {
        *value = number;
    }
    Some((StreamFault::TakenNumber, faulty.octets(), REFERENCE, index))
}

fn not_a_number(rng: &mut Prng, value: u32) -> (StreamFault, Shape, u32) {
    let (fault, octets) = match rng.below(3) {
        0 => {
            let mut octets = unsigned_octets(value);
            let longer = rng.between(octets.len() + 1, 5);
            if let Some(last) = octets.last_mut() {
                *last |= 0x80;
            }
            octets.resize(longer - 1, 0x80);
            octets.push(0);
            (StreamFault::NotFewestOctets, octets)
        }
        1 => {
            let mut octets: Vec<u8> = (0..4).map(|_| rng.octet() | 0x80).collect();
            octets.push(rng.between(8, 127) as u8);
            (StreamFault::NumberTooLarge, octets)
        }
        _ => {
            let mut octets: Vec<u8> = (0..5).map(|_| rng.octet() | 0x80).collect();
            octets.push(rng.octet() & 0x7F);
            (StreamFault::SixOctets, octets)
        }
    };
    (fault, Shape::Octets(octets), NUMBER)
}

fn string_fault(rng: &mut Prng, role: Role) -> Option<(StreamFault, Shape, u32)> {
    let length = match rng.below(3) {
        0 => MAX_STRING as u32 + 1,
        1 => rng.between(MAX_STRING + 1, 70_000) as u32,
        _ => 2_147_483_645,
    };
    let (fault, value, number) = match role {
        Role::CodePoint => (StreamFault::NoChar, *rng.pick(&NO_CHARS), CHARACTER),
        Role::NameLength if rng.one_in(2) => (StreamFault::EmptyName, 1, NAME),
        Role::TargetLength if rng.one_in(2) => (StreamFault::EmptyTarget, 0, NAME),
        Role::NameLength => (StreamFault::StringTooLong, length + 1, LIMIT),
        Role::ValueLength => (StreamFault::StringTooLong, length + 2, LIMIT),
        Role::UriLength | Role::TargetLength | Role::TextLength => {
            (StreamFault::StringTooLong, length, LIMIT)
        }
        _ => return None,
    };
    Some((fault, Shape::Unsigned(value), number))
}

/// A letter, or a Char that a name or a text may not have in some place.
fn other_code_point(rng: &mut Prng) -> u32 {
    let marks = [0x2D, 0x2E, 0x30, 0x3A, 0x3E, 0x3F, 0xB7, 0xD7, 0x300, 0x37E];
    if rng.one_in(2) {
        97 + rng.below(4) as u32
    } else {
        *rng.pick(&marks)
    }
}

/// A few changes at random; `other` is another stream to take parts from.
pub fn damaged_stream(rng: &mut Prng, stream: &[u8], other: &[u8]) -> Vec<u8> {
    let mut octets = stream.to_vec();
    for _ in 0..rng.between(1, 3) {
        let at = rng.below(octets.len() + 1);
        match rng.below(11) {
            0..=2 if at < octets.len() => octets[at] ^= 1 << rng.below(8),
            3 if at < octets.len() => octets[at] = rng.octet(),
            4 if at < octets.len() => {
                octets[at] = octets[at].wrapping_add(if rng.one_in(2) { 1 } else { 255 })
            }
            5 => octets.insert(at, rng.octet() >> rng.below(8)),
            6 if at < octets.len() => {
                octets.remove(at);
            }
            7 => octets.truncate(at),
            8 => {
                octets.truncate(at);
                octets.extend(&other[rng.below(other.len() + 1)..]);
            }
            9 if at < octets.len() => {
                let end = rng.between(at, octets.len().min(at + 8));
                let part = octets[at..end].to_vec();
                octets.splice(at..at, part);
            }
            10 => {
                for _ in 0..rng.between(1, 4) {
                    octets.push(rng.octet() >> rng.below(8));
                }
            }
            _ => {}
        }
    }
    octets
}

/// A few fields at random changed, left out or doubled, so that what follows them is still read as
/// it was meant.
pub fn damaged_fields(rng: &mut Prng, strict: &Encoded) -> Vec<u8> {
    let mut damaged = strict.clone();
    for _ in 0..rng.between(1, 3) {
        let at = rng.below(damaged.fields.len());
        let event = damaged.fields[at].event;
        match rng.below(5) {
            0..=2 => {
                let role = damaged.fields[at].role;
                match &mut damaged.fields[at].shape {
                    Shape::Choice { value, among } => *value = rng.below(*among + 1),
                    Shape::Unsigned(value) if role == Role::CodePoint => {
                        *value = other_code_point(rng);
                    }
                    Shape::Unsigned(value) => *value = rng.below(5) as u32,
                    Shape::Octets(_) => {}
                }
            }
            3 => {
                damaged.fields.retain(|field| field.event != event);
                if damaged.fields.is_empty() {
                    return Vec::new();
                }
            }
            _ => {
                let all = damaged.fields.iter();
                let of_event: Vec<Field> = all.filter(|f| f.event == event).cloned().collect();
                damaged.fields.splice(at..at, of_event);
            }
        }
    }
    damaged.octets()
}

/// The header, and octets at random, small numbers the more frequent.
pub fn random_stream(rng: &mut Prng, strict: &Encoded) -> Vec<u8> {
    let mut octets = Vec::new();
    if strict.settings.cookie == 1 {
        octets.extend([0x24, 0x45, 0x58, 0x49]);
    }
    octets.push(0x80);
    for _ in 0..rng.below(40) {
        octets.push(rng.octet() >> rng.below(8));
    }
    octets
}

/// A fault in a well-formed list that is inside the limits.
#[derive(Clone, Copy, Debug, PartialEq, Eq, Hash, PartialOrd, Ord)]
pub enum ListFault {
    NoKind,
    UnusedCell,
    PartOfAnEvent,
    MissingEnd,
    AfterTheEnd,
    NoStart,
    OpenElement,
    OneEndMore,
    LateAttribute,
    OutsideAnElement,
    SecondRoot,
    DroppedKind,
    OutsideTheStore,
    NoChar,
    StringTooLong,
    EmptyName,
    NoName,
    NoTarget,
    NoComment,
    NoInstructionText,
    NilOrType,
    EqualAttribute,
}

impl ListFault {
    /// Those that an attribute can have beside being equal to another.
    pub const OF_AN_ATTRIBUTE: [ListFault; 10] = [
        ListFault::NoKind,
        ListFault::UnusedCell,
        ListFault::PartOfAnEvent,
        ListFault::MissingEnd,
        ListFault::OutsideTheStore,
        ListFault::NoChar,
        ListFault::StringTooLong,
        ListFault::EmptyName,
        ListFault::NoName,
        ListFault::NilOrType,
    ];

    pub const ALL: [ListFault; 22] = [
        ListFault::NoKind,
        ListFault::UnusedCell,
        ListFault::PartOfAnEvent,
        ListFault::MissingEnd,
        ListFault::AfterTheEnd,
        ListFault::NoStart,
        ListFault::OpenElement,
        ListFault::OneEndMore,
        ListFault::LateAttribute,
        ListFault::OutsideAnElement,
        ListFault::SecondRoot,
        ListFault::DroppedKind,
        ListFault::OutsideTheStore,
        ListFault::NoChar,
        ListFault::StringTooLong,
        ListFault::EmptyName,
        ListFault::NoName,
        ListFault::NoTarget,
        ListFault::NoComment,
        ListFault::NoInstructionText,
        ListFault::NilOrType,
        ListFault::EqualAttribute,
    ];
}

/// A list with a fault, and the number and index that the writer has to answer.
pub struct FaultyList {
    pub fault: ListFault,
    pub list: Stored,
    pub number: u32,
    pub index: u32,
    /// Whether the fault stands in the very event of an equal attribute.
    pub is_pair: bool,
}

/// Puts one fault into a well-formed list inside the limits; none where the one drawn has no place
/// in it.
///
/// If the list has an equal attribute, at index `equal`, and else no fault, there are two faults
/// then, every other time in the same event. All of the writer's come before SHAPE of the equal
/// attribute, or are SHAPE, too.
pub fn faulty_list(
    rng: &mut Prng,
    settings: Settings,
    list: &Stored,
    equal: Option<usize>,
) -> Option<FaultyList> {
    let mut list = list.clone();
    let fault = *rng.pick(&ListFault::ALL);
    let count = list.cells.len() / CELLS;
    let within = equal.filter(|_| rng.one_in(2));
    let wanted = match fault {
        ListFault::NoComment => Some(COMMENT),
        ListFault::NoTarget | ListFault::NoInstructionText => Some(INSTRUCTION),
        _ => None,
    };
    let at = match (within, wanted) {
        (Some(at), _) => at,
        (None, Some(kind)) => list.any_of(rng, kind)?,
        (None, None) => rng.below(count),
    };
    let kind = list.cells[at * CELLS];
    let (number, index) = match fault {
        ListFault::NoKind => {
            list.cells[at * CELLS] = *rng.pick(&[0, 9, 256, 0x103, 0x8000_0003, u32::MAX]);
            (SHAPE, at)
        }
        ListFault::UnusedCell => {
            let unused: Vec<usize> = unused_cells(kind)?.collect();
            let cell = *rng.pick(&unused);
            list.cells[at * CELLS + cell] = *rng.pick(&[1, 2, 1 << 16, 1 << 31, u32::MAX]);
            (SHAPE, at)
        }
        ListFault::PartOfAnEvent => {
            if rng.one_in(2) {
                let cells = rng.between(1, CELLS - 1);
                let filling = *rng.pick(&[0, 5, 9]);
                list.cells.resize(count * CELLS + cells, filling);
                (SHAPE, count)
            } else {
                list.cells.truncate(at * CELLS + rng.between(1, CELLS - 1));
                (SHAPE, at)
            }
        }
        ListFault::MissingEnd => {
            list.cells.truncate(at * CELLS);
            (SHAPE, at)
        }
        ListFault::AfterTheEnd => {
            let event = list.cells[at * CELLS..(at + 1) * CELLS].to_vec();
            list.cells.extend(event);
            (SHAPE, count)
        }
        ListFault::NoStart => {
            list.cells.drain(..CELLS);
            (SHAPE, 0)
        }
        ListFault::OpenElement => {
            let root_ends = list.root_ends()?;
            list.cells.drain(root_ends * CELLS..(root_ends + 1) * CELLS);
            (SHAPE, count - 2)
        }
        ListFault::OneEndMore => {
            let root_ends = list.root_ends()?;
            list.insert(root_ends, END_ELEMENT, &[]);
            (SHAPE, root_ends + 1)
        }
        ListFault::LateAttribute => {
            if kind == START_ELEMENT || kind == ATTRIBUTE {
                return None;
            }
            list.insert(at + 1, ATTRIBUTE, &[&[], &[97], &[98]]);
            (SHAPE, at + 1)
        }
        ListFault::OutsideAnElement => {
            let index = *rng.pick(&list.outside());
            let (kind, strings) = *rng.pick(&[(END_ELEMENT, 0), (CHARACTERS, 1), (ATTRIBUTE, 3)]);
            let texts: [&[u32]; 3] = [&[97], &[97], &[98]];
            list.insert(index, kind, &texts[..strings]);
            (SHAPE, index)
        }
        // In a fragment it is one element more.
        ListFault::SecondRoot if settings.fragment == 1 => return None,
        ListFault::SecondRoot => {
            let root_ends = list.root_ends()?;
            list.insert(root_ends + 1, START_ELEMENT, &[&[], &[97]]);
            (SHAPE, root_ends + 1)
        }
        // The caller draws the settings: see `dropped_kind`.
        ListFault::DroppedKind => return None,
        // The caller has put it in: see `EqualAttribute`.
        ListFault::EqualAttribute => return None,
        ListFault::OutsideTheStore => {
            let strings = strings_of(kind)?;
            if strings.is_empty() {
                return None;
            }
            let first = at * CELLS + rng.pick(strings);
            let end = list.store.len() as u32;
            let (place, length) = match rng.below(6) {
                0 => (end + 1, 0),
                1 => (end, 1),
                2 => (u32::MAX, 1),
                3 => (1, u32::MAX),
                4 => (u32::MAX, u32::MAX),
                _ => (list.cells[first], end - list.cells[first].min(end) + 1),
            };
            list.cells[first] = place;
            list.cells[first + 1] = length;
            (PLACE, at)
        }
        ListFault::NoChar => {
            let mut string: Vec<u32> = vec![97; rng.below(4)];
            let bad = if rng.one_in(8) {
                u32::MAX - rng.below(3) as u32
            } else {
                *rng.pick(&NO_CHARS)
            };
            string.insert(rng.below(string.len() + 1), bad);
            list.replace_string(rng, at, &string)?;
            (CHARACTER, at)
        }
        ListFault::StringTooLong => {
            let length = rng.between(MAX_STRING + 1, MAX_STRING + 6);
            let code_point = *rng.pick(&[97, 0]);
            list.replace_string(rng, at, &vec![code_point; length])?;
            (LIMIT, at)
        }
        ListFault::EmptyName => {
            let name = match kind {
                START_ELEMENT | ATTRIBUTE => 3,
                INSTRUCTION => 1,
                _ => return None,
            };
            list.cells[at * CELLS + name + 1] = 0;
            (NAME, at)
        }
        ListFault::NoName if [START_ELEMENT, ATTRIBUTE].contains(&kind) => {
            list.set_string(at, 3, &names::no_name(rng));
            (NAME, at)
        }
        ListFault::NoTarget if kind == INSTRUCTION => {
            list.set_string(at, 1, &names::no_target(rng));
            if rng.one_in(2) {
                list.set_string(at, 3, &names::no_instruction_text(rng));
            }
            (NAME, at)
        }
        ListFault::NoComment if kind == COMMENT => {
            list.set_string(at, 1, &names::no_comment(rng));
            (CHARACTER, at)
        }
        ListFault::NoInstructionText if kind == INSTRUCTION => {
            list.set_string(at, 3, &names::no_instruction_text(rng));
            (CHARACTER, at)
        }
        ListFault::NoName
        | ListFault::NoTarget
        | ListFault::NoComment
        | ListFault::NoInstructionText => return None,
        ListFault::NilOrType => {
            if kind != ATTRIBUTE {
                return None;
            }
            let name = if rng.one_in(2) { "nil" } else { "type" };
            list.set_string(at, 1, &text(XSI_URI));
            list.set_string(at, 3, &text(name));
            (NAME, at)
        }
    };
    let is_pair = equal == Some(index);
    let (number, index) = match equal {
        Some(equal) if index > equal => (SHAPE, equal),
        _ => (number, index),
    };
    Some(FaultyList {
        fault,
        list,
        number,
        index: index as u32,
        is_pair,
    })
}

/// The index of the first comment or instruction in a list, and whether it is a comment.
pub fn dropped_kind(list: &Stored) -> Option<(usize, bool)> {
    list.cells.chunks(CELLS).enumerate().find_map(|(k, event)| {
        let kind = event[0];
        (kind == COMMENT || kind == INSTRUCTION).then_some((k, kind == COMMENT))
    })
}

impl Stored {
    /// The index of the event that ends the root.
    fn root_ends(&self) -> Option<usize> {
        self.cells
            .chunks(CELLS)
            .rposition(|event| event[0] == END_ELEMENT)
    }

    /// The indices from the first event's on at which no element is open, but for that behind all.
    fn outside(&self) -> Vec<usize> {
        let mut open = 0;
        let mut all = Vec::new();
        for (k, kind) in self.cells.iter().step_by(CELLS).enumerate() {
            if open == 0 && k > 0 {
                all.push(k);
            }
            match *kind {
                START_ELEMENT => open += 1,
                END_ELEMENT => open -= 1,
                _ => {}
            }
        }
        all
    }

    /// The index of an event of this kind.
    fn any_of(&self, rng: &mut Prng, kind: u32) -> Option<usize> {
        let kinds = self.cells.iter().step_by(CELLS).enumerate();
        let all: Vec<usize> = kinds
            .filter(|(_, it)| **it == kind)
            .map(|(k, _)| k)
            .collect();
        (!all.is_empty()).then(|| *rng.pick(&all))
    }

    /// Puts an event before another. Strings that the kind does not have are laid in the cells
    /// behind those of its own.
    fn insert(&mut self, at: usize, kind: u32, strings: &[&[u32]]) {
        let own = strings_of(kind).unwrap_or(&[]);
        let others = [1, 3, 5, 7].into_iter().filter(|cell| !own.contains(cell));
        let mut event = [0; CELLS];
        event[0] = kind;
        for (cell, string) in own.iter().copied().chain(others).zip(strings) {
            event[cell] = self.store.len() as u32;
            event[cell + 1] = string.len() as u32;
            self.store.extend(*string);
        }
        self.cells.splice(at * CELLS..at * CELLS, event);
    }

    /// Lays a string anew, whose place is in this cell of an event.
    fn set_string(&mut self, event: usize, cell: usize, text: &[u32]) {
        let first = event * CELLS + cell;
        self.cells[first] = self.store.len() as u32;
        self.cells[first + 1] = text.len() as u32;
        self.store.extend(text);
    }

    fn replace_string(&mut self, rng: &mut Prng, event: usize, text: &[u32]) -> Option<()> {
        let strings = strings_of(self.cells[event * CELLS])?;
        if strings.is_empty() {
            return None;
        }
        let cell = *rng.pick(strings);
        self.set_string(event, cell, text);
        Some(())
    }
}

/// A few changes of a list at random.
pub fn damaged_list(rng: &mut Prng, list: &Stored) -> Stored {
    let mut list = list.clone();
    for _ in 0..rng.between(1, 3) {
        let count = list.cells.len() / CELLS;
        let at = rng.below(count + 1);
        match rng.below(10) {
            0 if at < count => {
                list.cells.drain(at * CELLS..(at + 1) * CELLS);
            }
            1 if at < count => {
                let other = rng.below(count);
                for k in 0..CELLS {
                    list.cells.swap(at * CELLS + k, other * CELLS + k);
                }
            }
            2 if at < count => {
                let event = list.cells[at * CELLS..(at + 1) * CELLS].to_vec();
                let to = rng.between(0, count) * CELLS;
                list.cells.splice(to..to, event);
            }
            3 if at < count => list.cells[at * CELLS] = rng.between(0, 9) as u32,
            4 if at < count => {
                let cell = at * CELLS + rng.between(1, CELLS - 1);
                list.cells[cell] = match rng.below(3) {
                    0 => 0,
                    1 => rng.below(list.store.len() + 2) as u32,
                    _ => list.cells[cell].wrapping_add(1),
                };
            }
            5 if !list.store.is_empty() => {
                let place = rng.below(list.store.len());
                list.store[place] = if rng.one_in(3) {
                    *rng.pick(&NO_CHARS)
                } else {
                    other_code_point(rng)
                };
            }
            6 if !list.store.is_empty() => list.store.truncate(rng.below(list.store.len())),
            7 => list.insert(at, END_DOCUMENT, &[]),
            8 => list.insert(at, rng.between(1, 8) as u32, &[&[], &[97], &[98, 99]]),
            9 => {
                let kind = rng.between(1, 8) as u32;
                let strings = strings_of(kind).unwrap_or(&[]);
                let texts: [&[u32]; 3] = [&[97], &[97], &[98, 99]];
                list.insert(at, kind, &texts[..strings.len()]);
            }
            _ => {}
        }
    }
    list
}
