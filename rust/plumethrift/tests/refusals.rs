//! Refusals of reader and writer, each with its index, and the refusals' numbers and names.

use plumethrift::{
    lent, Alignment, Event, EventList, Reader, Refusal, Refused, Settings, Text, Writer,
};

const BIT_PACKED: Settings = Settings {
    alignment: Alignment::BitPacked,
    cookie: false,
    comments: false,
    instructions: false,
    fragment: false,
    value_length: None,
    value_capacity: None,
    loose: false,
    prefixes: false,
    grammar_cap: None,
};
const BYTE_ALIGNED: Settings = Settings {
    alignment: Alignment::ByteAligned,
    ..BIT_PACKED
};
const KEEPING: Settings = Settings {
    comments: true,
    instructions: true,
    ..BYTE_ALIGNED
};

#[track_caller]
fn not_read(settings: Settings, stream: &[u8], refusal: Refusal, index: u32) {
    assert_eq!(
        Reader::new().read(&settings, stream).unwrap_err(),
        Refused { refusal, index }
    );
}

#[track_caller]
fn not_written(settings: Settings, list: &EventList, refusal: Refusal, index: u32) {
    assert_eq!(
        Writer::new().write(&settings, list).unwrap_err(),
        Refused { refusal, index }
    );
}

/// A whole document around `<a>`, with what `inside` adds.
fn inside_a(inside: impl Fn(&mut EventList)) -> EventList {
    let mut list = EventList::new();
    list.start_document().start_element("", "a");
    inside(&mut list);
    list.end_element().end_document();
    list
}

#[test]
fn the_scopes_refused_streams() {
    use Refusal::*;
    not_read(BYTE_ALIGNED, &[0x80, 0x01, 0x02, 0x61, 0x04], Code, 2); // K8
    not_read(
        BYTE_ALIGNED,
        &[0x80, 0x01, 0x82, 0x00, 0x61, 0x00],
        Number,
        1,
    ); // K9
    not_read(BYTE_ALIGNED, &[0x80, 0x00, 0x00], Loose, 1); // K10
    not_read(BYTE_ALIGNED, &[0x80, 0x01, 0x00], Reference, 1); // K11
    not_read(BYTE_ALIGNED, &[0x80, 0x01, 0x02, 0x61, 0x00, 0x00], Tail, 4); // K12
    not_read(BYTE_ALIGNED, &[], Ended, 0);
    not_read(BYTE_ALIGNED, &[0x80], Ended, 1);
    not_read(BYTE_ALIGNED, &[0xA0], Header, 0);
    not_read(BYTE_ALIGNED, &[0x80, 0x01, 0x01], Name, 1);
    not_read(BIT_PACKED, &[0x80, 0x40, 0x98, 0x41], Tail, 4);
    not_read(
        BYTE_ALIGNED,
        &[0x80, 0x01, 0x02, 0x61, 0x01, 0x03, 0x00, 0x01],
        Name,
        2,
    );
}

#[test]
fn streams_that_are_too_long_or_have_a_bad_character() {
    not_read(BYTE_ALIGNED, &[0x80; 16_385], Refusal::Long, 0);
    not_read(
        BYTE_ALIGNED,
        &[0x80, 0x01, 0x03, 0x08],
        Refusal::Character,
        1,
    );
    not_read(
        BYTE_ALIGNED,
        &[0x80, 0x01, 0xFF, 0xFF, 0xFF, 0xFF, 0x07],
        Refusal::Limit,
        1,
    );
}

/// What this version does not do is refused, by itself and before anything else, whatever the
/// bound; so is a capacity that the tables never have.
#[test]
fn settings_that_are_not_done() {
    let mut all = vec![
        Settings {
            loose: true,
            ..BYTE_ALIGNED
        },
        Settings {
            prefixes: true,
            ..BYTE_ALIGNED
        },
    ];
    for grammar_cap in [0, 1, 2_048, u32::MAX - 1, u32::MAX].map(Some) {
        all.push(Settings {
            grammar_cap,
            ..BYTE_ALIGNED
        });
    }
    for value_capacity in [2_049, 2_050, u32::MAX - 1, u32::MAX].map(Some) {
        all.push(Settings {
            value_capacity,
            ..BYTE_ALIGNED
        });
    }
    for settings in all {
        for stream in [&[0x80, 0x01, 0x02, 0x61, 0x00][..], &[], &[0x80; 16_385]] {
            not_read(settings, stream, Refusal::Settings, 0);
        }
        not_written(settings, &inside_a(|_| {}), Refusal::Settings, 0);
        not_written(settings, &EventList::new(), Refusal::Settings, 0);
    }
}

#[test]
fn lists_out_of_shape() {
    let mut list = EventList::new();
    not_written(BIT_PACKED, &list, Refusal::Shape, 0);
    list.start_document().start_element("", "a").characters("b");
    not_written(BIT_PACKED, &list, Refusal::Shape, 3);
    list.attribute("", "k", "x").end_element().end_document();
    not_written(BIT_PACKED, &list, Refusal::Shape, 3);

    let mut after = inside_a(|_| {});
    after.end_document();
    not_written(BIT_PACKED, &after, Refusal::Shape, 4);
}

/// The second attribute of one name in a start tag, to writer and reader; the next element starts
/// anew.
#[test]
fn equal_attributes() {
    let equal = inside_a(|list| {
        list.attribute("", "k", "x").attribute("", "j", "x");
        list.attribute("", "k", "");
    });
    not_written(BIT_PACKED, &equal, Refusal::Shape, 4);
    not_written(BYTE_ALIGNED, &equal, Refusal::Shape, 4);
    let other = inside_a(|list| {
        list.attribute("", "k", "x").attribute("u", "k", "x");
        list.start_element("", "a").attribute("", "k", "x");
        list.end_element();
    });
    let (mut reader, mut writer) = (Reader::new(), Writer::new());
    let stream = writer.write(&BIT_PACKED, &other).unwrap();
    assert_eq!(reader.read(&BIT_PACKED, stream).unwrap(), other);

    // <a k="x" and k again: by the learned code, and by AT(*), also cut before its value.
    let first = [0x80, 0x01, 0x02, 0x61, 0x01, 0x01, 0x02, 0x6B, 0x03, 0x78];
    for (again, refusal) in [
        (&[0x00, 0x02][..], Refusal::Shape),
        (&[0x01, 0x01, 0x01, 0x00, 0x01, 0x02], Refusal::Shape),
        (&[0x01, 0x01, 0x01, 0x00, 0x01], Refusal::Ended),
        (&[0x00, 0x03, 0x78], Refusal::Loose),
    ] {
        let stream = [&first[..], again].concat();
        not_read(BYTE_ALIGNED, &stream, refusal, 3);
        let refused = Refused { refusal, index: 3 };
        let readings = reader.read_readings(&BYTE_ALIGNED, &stream);
        assert_eq!(readings.unwrap_err(), refused);
    }
}

#[test]
fn kinds_that_the_settings_drop() {
    let comment = inside_a(|list| {
        list.comment("c");
    });
    not_written(
        Settings {
            instructions: true,
            ..BIT_PACKED
        },
        &comment,
        Refusal::Shape,
        2,
    );
    assert!(Writer::new()
        .write(
            &Settings {
                comments: true,
                ..BIT_PACKED
            },
            &comment
        )
        .is_ok());

    let instruction = inside_a(|list| {
        list.instruction("t", "d");
    });
    not_written(
        Settings {
            comments: true,
            ..BIT_PACKED
        },
        &instruction,
        Refusal::Shape,
        2,
    );
    assert!(Writer::new()
        .write(
            &Settings {
                instructions: true,
                ..BIT_PACKED
            },
            &instruction
        )
        .is_ok());
}

#[test]
fn names_that_are_refused() {
    let empty = inside_a(|list| {
        list.attribute("", "", "x");
    });
    not_written(BIT_PACKED, &empty, Refusal::Name, 2);

    let nil = inside_a(|list| {
        list.attribute("http://www.w3.org/2001/XMLSchema-instance", "nil", "true");
    });
    not_written(BIT_PACKED, &nil, Refusal::Name, 2);

    for name in ["1", "-a", "a:b", "a b", "\u{B7}", "\u{F0000}"] {
        let element = inside_a(|list| {
            list.start_element("", name).end_element();
        });
        not_written(BIT_PACKED, &element, Refusal::Name, 2);
        let attribute = inside_a(|list| {
            list.attribute("u", name, "x");
        });
        not_written(BIT_PACKED, &attribute, Refusal::Name, 2);
        let target = inside_a(|list| {
            list.instruction(name, "");
        });
        not_written(KEEPING, &target, Refusal::Name, 2);
    }
    not_read(BYTE_ALIGNED, b"\x80\x01\x05bas:", Refusal::Name, 1);
    not_read(BYTE_ALIGNED, b"\x80\x01\x03:\0", Refusal::Character, 1);
    not_read(KEEPING, b"\x80\x01\x01\x03XmL", Refusal::Name, 1);
    goes_round(&inside_a(|list| {
        list.start_element(":", "xml").attribute("1", "xmlns", ":");
        list.start_element("", "a\u{B7}-1.é").end_element();
        list.instruction("xmlx", "").end_element();
    }));
}

/// What XML would not have in a comment or an instruction.
#[test]
fn comments_and_instructions_that_are_refused() {
    for text in ["-", "a-", "--", "a--b"] {
        let comment = inside_a(|list| {
            list.comment(text);
        });
        not_written(KEEPING, &comment, Refusal::Character, 2);
    }
    for (target, refusal) in [("t", Refusal::Character), ("xml", Refusal::Name)] {
        let instruction = inside_a(|list| {
            list.instruction(target, "a?>b");
        });
        not_written(KEEPING, &instruction, refusal, 2);
    }
    not_read(KEEPING, b"\x80\x01\x00\x02--", Refusal::Character, 1);
    not_read(KEEPING, b"\x80\x01\x00\x03--", Refusal::Ended, 1);
    not_read(KEEPING, b"\x80\x01\x01\x01t\x02?>", Refusal::Character, 1);
    goes_round(&inside_a(|list| {
        list.comment("- -a?>")
            .instruction("t", "--?")
            .characters("--?>");
    }));
}

/// The list is written, and read back.
#[track_caller]
fn goes_round(list: &EventList) {
    let (mut reader, mut writer) = (Reader::new(), Writer::new());
    let stream = writer.write(&KEEPING, list).unwrap();
    assert_eq!(reader.read(&KEEPING, stream).unwrap(), *list);
}

/// Both sides of the sizes of strings, code points and open elements.
#[test]
fn both_sides_of_a_size() {
    let string = |length: usize| {
        inside_a(|list| {
            list.characters(&"x".repeat(length));
        })
    };
    assert!(Writer::new().write(&BIT_PACKED, &string(4_096)).is_ok());
    not_written(BIT_PACKED, &string(4_097), Refusal::Limit, 2);

    let point = |point: u32| {
        inside_a(|list| {
            list.push(Event::Characters {
                text: Text::new(&[point]),
            });
        })
    };
    assert!(Writer::new().write(&BIT_PACKED, &point(0xD7FF)).is_ok());
    not_written(BIT_PACKED, &point(0xD800), Refusal::Character, 2);

    let open = |elements: usize| {
        let mut list = EventList::new();
        list.start_document();
        for _ in 0..elements {
            list.start_element("", "a");
        }
        for _ in 0..elements {
            list.end_element();
        }
        list.end_document();
        list
    };
    assert!(Writer::new().write(&BIT_PACKED, &open(100)).is_ok());
    not_written(BIT_PACKED, &open(101), Refusal::Limit, 101);
}

/// A stream that would be over 16,384 octets: 16 strings of 1,010 code points that take 2 octets
/// each.
#[test]
fn a_list_whose_stream_would_be_too_long() {
    let list = inside_a(|list| {
        for i in 0..16 {
            let first = char::from(b'a' + i);
            list.characters(&format!("{first}{}", "é".repeat(1_009)));
        }
    });
    not_written(BYTE_ALIGNED, &list, Refusal::Long, 0);
}

#[test]
fn numbers_and_names_are_the_librarys() {
    assert_eq!(Refusal::ALL.len(), 19);
    for (&refusal, number) in Refusal::ALL.iter().zip(1..) {
        assert_eq!(refusal.number(), number);
        assert_eq!(Refusal::from_number(number), Some(refusal));

        let mut name = [0; 16];
        name[..refusal.name().len()].copy_from_slice(refusal.name().as_bytes());
        assert_eq!(lent::refusal_name(number), name);
        let plain = refusal.name().replace('_', "");
        assert_eq!(format!("{refusal:?}").to_uppercase(), plain);
    }
    for number in [0, 20, 256, 65_537, u32::MAX] {
        assert_eq!(Refusal::from_number(number), None);
        assert_eq!(lent::refusal_name(number), [0; 16]);
    }
}

#[test]
fn a_refusal_says_what_it_is() {
    let refused = Refused {
        refusal: Refusal::Loose,
        index: 3,
    };
    let says = "refused: 10 LOOSE at event 3: \
                a literal, hit or production stands where the strict form has another";
    assert_eq!(refused.to_string(), says);
    let error: Box<dyn std::error::Error + Send + Sync> = Box::new(refused);
    assert_eq!(error.to_string(), says);

    let says = |refusal, index| Refused { refusal, index }.to_string();
    assert_eq!(
        says(Refusal::NotLater, 7),
        "refused: 19 NOT_LATER at reading 7: a stamp is not later than the one before"
    );
    assert_eq!(
        says(Refusal::Limit, 678),
        "refused: 12 LIMIT at index 678: a size would be passed"
    );
    assert_eq!(
        says(Refusal::Long, 0),
        "refused: 3 LONG: the stream is, or would be, over 16384 octets"
    );
    let error = std::io::Error::from(refused);
    assert_eq!(error.kind(), std::io::ErrorKind::InvalidData);
}

#[test]
fn refusals_by_name_and_number() {
    for &refusal in Refusal::ALL {
        assert_eq!(refusal.name().parse(), Ok(refusal));
        assert_eq!(Refusal::try_from(u32::from(refusal)), Ok(refusal));
    }
    for name in ["", "OK", "room", "ROOM ", "ROOM\0"] {
        assert!(name.parse::<Refusal>().is_err());
    }
    for number in [0, 20, u32::MAX] {
        assert!(Refusal::try_from(number).is_err());
    }
    assert_eq!(
        format!("{:>7}|{:<6}|", Refusal::Tail, Refusal::Room),
        "   TAIL|ROOM  |"
    );
    for alignment in [Alignment::BitPacked, Alignment::ByteAligned] {
        assert_eq!(alignment.to_string().parse(), Ok(alignment));
    }
    assert_eq!(format!("{:>13}", Alignment::ByteAligned), " byte-aligned");
}
