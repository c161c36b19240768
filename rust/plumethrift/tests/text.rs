//! Strings of code points.

use plumethrift::Text;

#[test]
fn equal_to_a_str_by_code_points() {
    let points = [0x61, 0x20AC, 0x1F309];
    let text = Text::new(&points);
    assert_eq!(text, "a€🌉");
    assert_eq!("a€🌉", text);
    assert_eq!(text, *"a€🌉");
    assert_ne!(text, "a€");
    assert_ne!(text, "a€🌉 ");
    assert_eq!(text, Text::new(&[0x61, 0x20AC, 0x1F309]));
    assert_eq!((text.len(), text.is_empty()), (3, false));
    assert_eq!(Text::default(), "");
}

#[test]
fn shown_as_a_str_is() {
    let text = Text::new(&[0x22, 0x0A, 0x65]);
    assert_eq!(text.to_string(), "\"\ne");
    assert_eq!(format!("{text:?}"), format!("{:?}", "\"\ne"));
    assert_eq!(text.chars().rev().collect::<String>(), "e\n\"");
}

/// A code point that is no `char` is shown as U+FFFD, but is not equal to it.
#[test]
fn code_points_that_are_no_char() {
    for point in [0xD800, 0x110000, u32::MAX] {
        let points = [point];
        let text = Text::new(&points);
        assert_eq!(text.to_string(), "\u{FFFD}");
        assert_ne!(text, "\u{FFFD}");
        assert_eq!(text.code_points(), points);
    }
}

/// By width, fill and precision, too.
#[test]
fn padded_as_a_str_is() {
    for string in ["", "T\u{FC}r", "a\"b'c\n\u{301}\u{FEFF}"] {
        let points: Vec<u32> = string.chars().map(u32::from).collect();
        let text = Text::from(&points[..]);
        assert_eq!(String::from(text), string);
        assert_eq!(format!("{text:?}"), format!("{string:?}"));
        assert_eq!(format!("{text:2}"), format!("{string:2}"));
        assert_eq!(format!("{text:9}"), format!("{string:9}"));
        assert_eq!(format!("{text:>9}"), format!("{string:>9}"));
        assert_eq!(format!("{text:*^8}"), format!("{string:*^8}"));
        assert_eq!(format!("{text:.2}"), format!("{string:.2}"));
        assert_eq!(format!("{text:-<7.1}"), format!("{string:-<7.1}"));
    }
}
