//! The worked examples of the EXI Primer: the notebook's schema-less column and the questionnaire,
//! field by field as they stand there.
//!
//! The Primer numbers the global value "EXI" as 2. By the recommendation values are numbered in the
//! order of insertion, so it is 1.

#![forbid(unsafe_code)]

use compare::check::is_strict_form;
use compare::event::{attribute, characters, document, element, events, Event};
use compare::lent::{ReaderMemory, Settings, BOTH};

const END: Event = Event::EndElement;

enum Field {
    /// A value in so many bits.
    Bits(u32, u32),
    Unsigned(u8),
    /// Characters without a length.
    Raw(&'static str),
    /// A string behind its length, which has so much added.
    Text(&'static str, u8),
}
use Field::{Bits, Raw, Text, Unsigned};

/// The body in the given alignment, behind the header without options.
fn laid(settings: Settings, fields: &[Field]) -> Vec<u8> {
    let mut bits: Vec<bool> = Vec::new();
    let mut push = |value: u32, width: u32| {
        bits.extend((0..width).rev().map(|k| value >> k & 1 == 1));
    };
    push(0x80, 8);
    for field in fields {
        match field {
            Bits(_, 0) => {}
            Bits(value, _) if settings.byte_aligned() => push(*value, 8),
            Bits(value, width) => push(*value, *width),
            Unsigned(value) => push(u32::from(*value), 8),
            Raw(string) => string.bytes().for_each(|octet| push(u32::from(octet), 8)),
            Text(string, added) => {
                push(string.len() as u32 + u32::from(*added), 8);
                string.bytes().for_each(|octet| push(u32::from(octet), 8));
            }
        }
    }
    bits.chunks(8)
        .map(|octet| {
            let value = octet.iter().fold(0u8, |all, &bit| all << 1 | u8::from(bit));
            value << (8 - octet.len())
        })
        .collect()
}

fn notebook_column(number_of_exi: u32) -> Vec<Field> {
    vec![
        Bits(0, 0),
        Bits(0, 0),
        Bits(1, 2),
        Text("notebook", 1),
        Bits(0, 0),
        Bits(1, 2),
        Bits(1, 2),
        Text("date", 1),
        Text("2007-09-12", 2),
        Bits(1, 1),
        Bits(2, 2),
        Bits(1, 2),
        Text("note", 1),
        Bits(0, 0),
        Bits(1, 2),
        Bits(1, 2),
        Text("category", 1),
        Text("EXI", 2),
        Bits(1, 1),
        Bits(1, 2),
        Bits(1, 2),
        Unsigned(0),
        Bits(1, 2),
        Text("2007-07-23", 2),
        Bits(2, 2),
        Bits(2, 2),
        Bits(1, 2),
        Text("subject", 1),
        Bits(0, 0),
        Bits(3, 2),
        Unsigned(1),
        Bits(number_of_exi, 2),
        Bits(0, 1),
        Bits(1, 1),
        Bits(0, 1),
        Bits(1, 2),
        Text("body", 1),
        Bits(0, 0),
        Bits(3, 2),
        Text("Do not forget it!", 2),
        Bits(0, 1),
        Bits(1, 2),
        Bits(1, 1),
        Bits(0, 1),
        Bits(1, 2),
        Unsigned(0),
        Bits(2, 3),
        Bits(1, 2),
        Unsigned(0),
        Bits(0, 1),
        Bits(0, 2),
        Bits(0, 1),
        Text("Shopping List", 2),
        Bits(0, 1),
        Bits(0, 2),
        Bits(0, 1),
        Text("milk, honey", 2),
        Bits(0, 1),
        Bits(1, 2),
        Bits(1, 2),
        Bits(0, 0),
    ]
}

fn notebook(subject: &str) -> Vec<Event> {
    document(vec![
        element("", "notebook"),
        attribute("", "date", "2007-09-12"),
        element("", "note"),
        attribute("", "category", "EXI"),
        attribute("", "date", "2007-07-23"),
        element("", "subject"),
        characters(subject),
        END,
        element("", "body"),
        characters("Do not forget it!"),
        END,
        END,
        element("", "note"),
        attribute("", "date", "2007-09-12"),
        element("", "subject"),
        characters("Shopping List"),
        END,
        element("", "body"),
        characters("milk, honey"),
        END,
        END,
        END,
    ])
}

#[test]
fn the_notebook() {
    for settings in [Settings::BIT_PACKED, Settings::BYTE_ALIGNED] {
        is_strict_form(
            settings,
            &laid(settings, &notebook_column(1)),
            &notebook("EXI"),
        );
    }
}

#[test]
fn the_notebook_with_the_primers_number_is_another() {
    for settings in [Settings::BIT_PACKED, Settings::BYTE_ALIGNED] {
        let octets = laid(settings, &notebook_column(2));
        for codec in BOTH {
            let mut memory = ReaderMemory::new();
            let reply = memory.read(codec, settings, &octets);
            let list = memory.events(&reply).zip(memory.text(&reply));
            let list = list.and_then(|(cells, store)| events(cells, store));
            assert_eq!(list, Some(notebook("2007-07-23")), "{codec:?}");
        }
    }
}

#[test]
fn the_questionnaire() {
    let column = [
        Bits(0, 0),
        Bits(0, 0),
        Bits(1, 2),
        Unsigned(14),
        Raw("questionnaire"),
        Bits(0, 0),
        Bits(2, 2),
        Bits(1, 2),
        Unsigned(9),
        Raw("question"),
        Bits(0, 0),
        Bits(3, 2),
        Unsigned(29),
        Raw("Is EXI difficult to decode?"),
        Bits(0, 1),
        Bits(1, 1),
        Bits(0, 1),
        Bits(1, 2),
        Unsigned(8),
        Raw("choices"),
        Bits(0, 0),
        Bits(2, 2),
        Bits(1, 2),
        Unsigned(7),
        Raw("choice"),
        Bits(0, 0),
        Bits(3, 2),
        Unsigned(5),
        Raw("Yes"),
        Bits(0, 1),
        Bits(1, 1),
        Bits(0, 1),
        Bits(1, 2),
        Unsigned(0),
        Bits(3, 2),
        Bits(0, 1),
        Unsigned(4),
        Raw("No"),
        Bits(0, 1),
        Bits(1, 2),
        Bits(1, 2),
        Bits(0, 0),
    ];
    let list = document(vec![
        element("", "questionnaire"),
        element("", "question"),
        characters("Is EXI difficult to decode?"),
        END,
        element("", "choices"),
        element("", "choice"),
        characters("Yes"),
        END,
        element("", "choice"),
        characters("No"),
        END,
        END,
        END,
    ]);
    for settings in [Settings::BIT_PACKED, Settings::BYTE_ALIGNED] {
        is_strict_form(settings, &laid(settings, &column), &list);
    }
}
