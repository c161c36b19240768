//! P6: local names, targets, and the texts of comments and instructions.

use super::E::{Ee, Sd};
use super::*;
use crate::names::{is_comment, is_instruction_text, is_ncname, is_target};
use crate::sizes::MAX_NAMES;

/// Which code points a name may have, each up to the next: N none, F not as the first, S any.
const CLASSES: &str = "0 N 2D F 2F N 30 F 3A N 41 S 5B N 5F S 60 N 61 S 7B N B7 F B8 N C0 S D7 N \
                       D8 S F7 N F8 S 300 F 370 S 37E N 37F S 2000 N 200C S 200E N 203F F 2041 N \
                       2070 S 2190 N 2C00 S 2FF0 N 3001 S D800 N F900 S FDD0 N FDF0 S FFFE N \
                       10000 S F0000 N";

/// The class of every code point, and of some numbers that are none.
fn classes() -> impl Iterator<Item = (u32, &'static str)> {
    let words: Vec<&str> = CLASSES.split(' ').collect();
    let starts: Vec<(u32, &str)> = words
        .chunks(2)
        .map(|pair| (u32::from_str_radix(pair[0], 16).unwrap(), pair[1]))
        .collect();
    (0..=0x11_0010)
        .chain([0x7FFF_FFFF, u32::MAX])
        .map(move |c| {
            let at = starts.partition_point(|&(start, _)| start <= c);
            (c, starts[at - 1].1)
        })
}

#[test]
fn every_code_point() {
    for (c, class) in classes() {
        assert_eq!(is_ncname(&[c]), class == "S", "{c:X}");
        assert_eq!(is_ncname(&[0x61, c]), class != "N", "{c:X}");
        assert_eq!(is_ncname(&[0x61, c, 0x62]), class != "N", "{c:X}");
        assert_eq!(is_target(&[c]), class == "S", "{c:X}");
    }
    assert!(!is_ncname(&[]));
}

#[test]
fn targets_that_are_xml() {
    let code_points = |text: &str| text.chars().map(u32::from).collect::<Vec<u32>>();
    for text in ["xml", "XML", "Xml", "xMl", "xmL", "XMl", "XmL", "xML"] {
        assert!(is_ncname(&code_points(text)) && !is_target(&code_points(text)));
        let kept = settings(1, 0, 0, 1);
        write_refused(kept, &[Sd, pi(text, "")], Refusal::Name, 1);
        round_trip(kept, &document(vec![se(text), at(text, text), Ee]));
    }
    for text in ["xmlx", "xml-", "xm", "x", "ml", "lmx", "\u{445}ml", "xmlns"] {
        assert!(is_target(&code_points(text)), "{text}");
    }
}

#[test]
fn texts_of_comments_and_instructions() {
    let code_points = |text: &str| text.chars().map(u32::from).collect::<Vec<u32>>();
    for text in ["", "a", "-a", "a-b", "- -a", "-?>", "?>", "->"] {
        assert!(is_comment(&code_points(text)), "{text}");
    }
    for text in ["-", "--", "a-", "--a", "a--b", "a---", "- -"] {
        assert!(!is_comment(&code_points(text)), "{text}");
    }
    for text in ["", "?", ">", "a?", ">?", "? >", "--", "??"] {
        assert!(is_instruction_text(&code_points(text)), "{text}");
    }
    for text in ["?>", "a?>", "?>a", "??>", "?>>"] {
        assert!(!is_instruction_text(&code_points(text)), "{text}");
    }
}

#[test]
fn names_in_streams_and_lists() {
    both_ways(BYTES, "80 01 03 61 B7 01 00", vec![se("a\u{B7}"), Ee]);
    read_refused(BYTES, "80 01 02 B7 01", Refusal::Name, 1);
    both_ways(BYTES, "80 01 02 FF FF 3B 00", vec![se("\u{EFFFF}"), Ee]);
    read_refused(BYTES, "80 01 02 80 80 3C", Refusal::Name, 1);
    both_ways(
        BYTES,
        "80 01 04 78 6D 6C 01 01 06 78 6D 6C 6E 73 02 01 00",
        vec![se("xml"), at("xmlns", ""), Ee],
    );
    for name in ["", ":", "a:b", "1", "-a", ".a", "a b", "a/b", "\u{D7}"] {
        write_refused(BYTES, &[Sd, se(name)], Refusal::Name, 1);
        write_refused(BYTES, &[Sd, se("a"), at(name, "")], Refusal::Name, 2);
        let kept = settings(1, 0, 0, 1);
        write_refused(kept, &[Sd, pi(name, "")], Refusal::Name, 1);
    }
    // URIs and values are no names.
    round_trip(
        BITS,
        &document(vec![se_in(":", "a"), at_in("1", "b", "--?>"), ch(":"), Ee]),
    );
}

#[test]
fn a_names_place_among_the_faults() {
    read_refused(BYTES, "80 01 05 62 61 73 3A", Refusal::Name, 1);
    read_refused(BYTES, "80 01 03 3A", Refusal::Ended, 1);
    read_refused(BYTES, "80 01 03 3A 00", Refusal::Character, 1);
    write_refused(BYTES, &[Sd, se(":\0")], Refusal::Character, 1);
    // A target's comes before anything of its text.
    let kept = settings(1, 0, 0, 1);
    read_refused(kept, "80 01 01 3A", Refusal::Name, 1);
    read_refused(kept, "80 01 01 74 01", Refusal::Ended, 1);
    write_refused(kept, &[Sd, pi(":", "\0")], Refusal::Name, 1);
    write_refused(kept, &[Sd, pi(":\0", "?>")], Refusal::Character, 1);

    let kept = settings(1, 0, 1, 0);
    read_refused(kept, "80 01 01 2D", Refusal::Character, 1);
    read_refused(kept, "80 01 02 2D 2D", Refusal::Character, 1);
    read_refused(kept, "80 01 03 2D 2D", Refusal::Ended, 1);
    read_refused(kept, "80 01 03 2D 2D 00", Refusal::Character, 1);
    read_refused(kept, "80 01 03 2D 2D 80 00", Refusal::Number, 1);
    both_ways(
        kept,
        "80 01 02 2D 61 00 01 02 61 00 00",
        vec![cm("-a"), se("a"), Ee],
    );
    write_refused(kept, &[Sd, cm("a-")], Refusal::Character, 1);

    let kept = settings(1, 0, 0, 1);
    read_refused(kept, "80 01 01 74 02 3F 3E", Refusal::Character, 1);
    read_refused(kept, "80 01 01 74 03 3F 3E", Refusal::Ended, 1);
    write_refused(kept, &[Sd, pi("t", "?>")], Refusal::Character, 1);
    round_trip(kept, &document(vec![pi("t", "--?"), se("a"), Ee]));
}

/// A name that is none comes before the limit of the names.
#[test]
fn names_when_their_table_is_full() {
    let names: Vec<E> = (0..MAX_NAMES - 7)
        .map(|k| at(&format!("n{k}"), ""))
        .collect();
    let full = [vec![Sd, se("a")], names].concat();
    let with = |name: &str| [full.clone(), vec![at(name, "")]].concat();
    let index = full.len() as u32;
    write_refused(BYTES, &with("m"), Refusal::Limit, index);
    write_refused(BYTES, &with("1"), Refusal::Name, index);
}
