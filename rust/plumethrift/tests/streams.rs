//! The scope's sample streams K1 to K7, and what the settings change: read, compared with a list,
//! and written again.

use plumethrift::{Alignment, Event, EventList, Reader, Settings, Writer};

const BIT_PACKED: Settings = Settings {
    alignment: Alignment::BitPacked,
    cookie: false,
    comments: false,
    instructions: false,
    fragment: false,
    value_length: None,
    value_capacity: None,
    loose: false,
    prefixes: false,
    grammar_cap: None,
};
const BYTE_ALIGNED: Settings = Settings {
    alignment: Alignment::ByteAligned,
    ..BIT_PACKED
};

/// Reads the stream as the list that `inside` fills, between start and end document, and writes
/// that list as the stream.
fn both_ways(settings: Settings, stream: &[u8], inside: impl Fn(&mut EventList)) {
    let mut list = EventList::new();
    list.start_document();
    inside(&mut list);
    list.end_document();

    let (mut reader, mut writer) = (Reader::new(), Writer::new());
    let document = reader.read(&settings, stream).unwrap();
    assert_eq!(document, list);
    assert_eq!(document.len(), list.len());
    assert_eq!(writer.write(&settings, &list).unwrap(), stream);

    // the list that was read is written as the same stream: with its store as it lies, and laid
    // down anew
    assert_eq!(
        writer.write(&settings, &EventList::from(document)).unwrap(),
        stream
    );
    assert_eq!(
        writer
            .write(&settings, &document.events().collect())
            .unwrap(),
        stream
    );
}

fn empty_a(list: &mut EventList) {
    list.start_element("", "a").end_element();
}

fn a_with_b(list: &mut EventList) {
    list.start_element("", "a").characters("b").end_element();
}

#[test]
fn k1_and_k2_an_empty_element() {
    both_ways(BYTE_ALIGNED, &[0x80, 0x01, 0x02, 0x61, 0x00], empty_a);
    both_ways(BIT_PACKED, &[0x80, 0x40, 0x98, 0x40], empty_a);
}

#[test]
fn k3_and_k4_characters() {
    both_ways(
        BYTE_ALIGNED,
        &[0x80, 0x01, 0x02, 0x61, 0x03, 0x03, 0x62, 0x00],
        a_with_b,
    );
    both_ways(BIT_PACKED, &[0x80, 0x40, 0x98, 0x70, 0x36, 0x20], a_with_b);
}

/// No element, one, and the same once more, which goes by what was learned; `<a/><b/><a/>`, where
/// SE(b) and SE(a) are learned and the second a is 1.
#[test]
fn fragments() {
    let fragment = |settings| Settings {
        fragment: true,
        ..settings
    };
    let aligned = fragment(BYTE_ALIGNED);
    both_ways(aligned, &[0x80, 0x01], |_| ());
    both_ways(fragment(BIT_PACKED), &[0x80, 0x80], |_| ());
    both_ways(
        aligned,
        &[0x80, 0x00, 0x01, 0x02, 0x61, 0x00, 0x02],
        empty_a,
    );
    both_ways(fragment(BIT_PACKED), &[0x80, 0x20, 0x4C, 0x24], empty_a);
    let twice = [0x80, 0x00, 0x01, 0x02, 0x61, 0x00, 0x00, 0x00, 0x02];
    both_ways(aligned, &twice, |list| {
        empty_a(list);
        empty_a(list);
    });
    let stream = [
        0x80, 0x00, 0x01, 0x02, 0x61, 0x00, 0x01, 0x01, 0x02, 0x62, 0x00, 0x01, 0x00, 0x03,
    ];
    both_ways(aligned, &stream, |list| {
        for name in ["a", "b", "a"] {
            list.start_element("", name).end_element();
        }
    });
}

/// A table of two values, whose third replaces the first; and values that join none.
#[test]
fn bounded_values() {
    let all = |texts: &[&str], list: &mut EventList| {
        list.start_element("", "a");
        for text in texts {
            list.characters(text);
        }
        list.end_element();
    };
    let two = Settings {
        value_capacity: Some(2),
        ..BYTE_ALIGNED
    };
    let stream = [
        0x80, 0x01, 0x02, 0x61, 0x03, 0x03, 0x78, 0x01, 0x01, 0x03, 0x79, 0x00, 0x03, 0x7A, 0x00,
        0x00, 0x02, 0x01,
    ];
    both_ways(two, &stream, |list| all(&["x", "y", "z", "z"], list));
    let short = Settings {
        value_length: Some(1),
        ..BYTE_ALIGNED
    };
    let stream = [
        0x80, 0x01, 0x02, 0x61, 0x03, 0x04, 0x78, 0x79, 0x01, 0x01, 0x04, 0x78, 0x79, 0x00, 0x03,
        0x78, 0x00, 0x00, 0x01,
    ];
    both_ways(short, &stream, |list| all(&["xy", "xy", "x", "x"], list));
}

#[test]
fn k5_an_attribute() {
    let stream = [
        0x80, 0x01, 0x02, 0x61, 0x01, 0x01, 0x02, 0x6B, 0x03, 0x78, 0x01, 0x00,
    ];
    both_ways(BYTE_ALIGNED, &stream, |list| {
        list.start_element("", "a")
            .attribute("", "k", "x")
            .end_element();
    });
}

#[test]
fn k6_an_element_inside_itself() {
    let stream = [0x80, 0x01, 0x02, 0x61, 0x02, 0x01, 0x00, 0x01, 0x00, 0x00];
    both_ways(BYTE_ALIGNED, &stream, |list| {
        list.start_element("", "a")
            .start_element("", "a")
            .end_element()
            .end_element();
    });
}

#[test]
fn k7_two_equal_readings() {
    let stream = [
        0x80, 0x01, 0x02, 0x72, 0x02, 0x01, 0x02, 0x70, 0x01, 0x01, 0x02, 0x74, 0x03, 0x31, 0x01,
        0x00, 0x01, 0x00, 0x01, 0x00, 0x01, 0x01, 0x00, 0x00, 0x01,
    ];
    both_ways(BYTE_ALIGNED, &stream, |list| {
        list.start_element("", "r");
        for _ in 0..2 {
            list.start_element("", "p")
                .attribute("", "t", "1")
                .end_element();
        }
        list.end_element();
    });
}

#[test]
fn the_cookie_stands_before_the_header() {
    let settings = Settings {
        cookie: true,
        ..BYTE_ALIGNED
    };
    both_ways(
        settings,
        &[0x24, 0x45, 0x58, 0x49, 0x80, 0x01, 0x02, 0x61, 0x00],
        empty_a,
    );
}

/// `<!--c--><a/><?t d?>`: document content CM 1.0, SE(*) 0; the start tag's EE 0.0; after the root
/// PI 1.1, ED 0.
#[test]
fn comments_and_instructions_that_are_kept() {
    let settings = Settings {
        comments: true,
        instructions: true,
        ..BYTE_ALIGNED
    };
    let stream = [
        0x80, 0x01, 0x00, 0x01, 0x63, 0x00, 0x01, 0x02, 0x61, 0x00, 0x01, 0x01, 0x01, 0x74, 0x01,
        0x64, 0x00,
    ];
    both_ways(settings, &stream, |list| {
        list.comment("c")
            .start_element("", "a")
            .end_element()
            .instruction("t", "d");
    });
}

#[test]
fn every_kind_of_event_comes_out_as_it_went_in() {
    let settings = Settings {
        cookie: true,
        comments: true,
        instructions: true,
        ..BIT_PACKED
    };
    let mut list = EventList::new();
    list.start_document()
        .instruction("before", "")
        .start_element("urn:bridge", "reading")
        .attribute("http://www.w3.org/XML/1998/namespace", "lang", "de")
        .attribute("", "t", "2026-11-16T03:53:00Z")
        .comment("Brücke \u{1F309}")
        .start_element("urn:bridge", "span")
        .characters("")
        .characters("0.25\n")
        .characters("0.25\n")
        .end_element()
        .end_element()
        .comment("")
        .end_document();

    let (mut reader, mut writer) = (Reader::new(), Writer::new());
    let stream = writer.write(&settings, &list).unwrap();
    let document = reader.read(&settings, stream).unwrap();
    assert_eq!(document, list);

    let events: Vec<Event<'_>> = document.events().collect();
    assert_eq!(events.len(), 14);
    assert!(matches!(events[1], Event::Instruction { target, text }
        if target == "before" && text.is_empty()));
    assert!(matches!(events[3], Event::Attribute { uri, name, value }
        if uri == "http://www.w3.org/XML/1998/namespace" && name == "lang" && value == "de"));
    assert!(matches!(events[5], Event::Comment { text } if text == "Brücke \u{1F309}"));
    assert!(matches!(events[8], Event::Characters { text } if text == "0.25\n"));
    assert_eq!(document.events().next_back(), Some(Event::EndDocument));
}

/// A reader's answer is its own: nothing of a longer document, or of a refusal, is left for the
/// next.
#[test]
fn memory_is_used_again() {
    let (mut reader, mut writer) = (Reader::new(), Writer::new());
    let mut list = EventList::new();
    list.start_document();
    a_with_b(&mut list);
    list.end_document();
    let long = writer.write(&BIT_PACKED, &list).unwrap().to_vec();
    assert_eq!(reader.read(&BIT_PACKED, &long).unwrap().len(), 5);
    assert!(reader.read(&BIT_PACKED, &long[..3]).is_err());

    list.clear();
    assert!(list.is_empty());
    assert!(writer.write(&BIT_PACKED, &list).is_err());

    list.start_document();
    empty_a(&mut list);
    list.end_document();
    let short = writer.write(&BIT_PACKED, &list).unwrap();
    assert_eq!(short, [0x80, 0x40, 0x98, 0x40]);
    let document = reader.read(&BIT_PACKED, short).unwrap();
    assert_eq!(document, list);
    assert_eq!((document.cells().len(), document.store().len()), (36, 100));
}

#[test]
fn readers_and_writers_go_to_other_threads() {
    fn sends<T: Send + Sync>() {}
    sends::<Reader>();
    sends::<Writer>();
    sends::<EventList>();

    std::thread::scope(|scope| {
        for _ in 0..4 {
            scope.spawn(|| both_ways(BIT_PACKED, &[0x80, 0x40, 0x98, 0x70, 0x36, 0x20], a_with_b));
        }
    });
}
