//! What names, comments and instructions may hold, apart from either implementation: by the code
//! points at which it changes.

use crate::event::Text;
use crate::prng::Prng;

/// What a code point may be in a local name or target.
#[derive(Clone, Copy, Debug, PartialEq, Eq)]
pub enum Class {
    /// No XML Char.
    NoChar,
    /// A Char that stands in no name.
    NoName,
    /// In a name, but not first.
    Further,
    /// Anywhere in a name.
    First,
}

use Class::{First, Further, NoChar, NoName};

/// Where each class begins; it goes on to the next.
pub const BEGINNINGS: [(u32, Class); 46] = [
    (0x0, NoChar),
    (0x9, NoName),
    (0xB, NoChar),
    (0xD, NoName),
    (0xE, NoChar),
    (0x20, NoName),
    (0x2D, Further),
    (0x2F, NoName),
    (0x30, Further),
    (0x3A, NoName),
    (0x41, First),
    (0x5B, NoName),
    (0x5F, First),
    (0x60, NoName),
    (0x61, First),
    (0x7B, NoName),
    (0xB7, Further),
    (0xB8, NoName),
    (0xC0, First),
    (0xD7, NoName),
    (0xD8, First),
    (0xF7, NoName),
    (0xF8, First),
    (0x300, Further),
    (0x370, First),
    (0x37E, NoName),
    (0x37F, First),
    (0x2000, NoName),
    (0x200C, First),
    (0x200E, NoName),
    (0x203F, Further),
    (0x2041, NoName),
    (0x2070, First),
    (0x2190, NoName),
    (0x2C00, First),
    (0x2FF0, NoName),
    (0x3001, First),
    (0xD800, NoChar),
    (0xE000, NoName),
    (0xF900, First),
    (0xFDD0, NoName),
    (0xFDF0, First),
    (0xFFFE, NoChar),
    (0x1_0000, First),
    (0xF_0000, NoName),
    (0x11_0000, NoChar),
];

pub fn class(code_point: u32) -> Class {
    let at = BEGINNINGS.partition_point(|&(begins, _)| begins <= code_point);
    BEGINNINGS[at - 1].1
}

/// The two code points at each change of class.
pub fn edges() -> impl Iterator<Item = u32> {
    let changes = BEGINNINGS[1..].iter();
    changes.flat_map(|&(begins, _)| [begins - 1, begins])
}

/// The first and the last code point of each range of a class.
fn ranges(of: Class) -> Vec<(u32, u32)> {
    let all = BEGINNINGS.windows(2).filter(|pair| pair[0].1 == of);
    all.map(|pair| (pair[0].0, pair[1].0 - 1)).collect()
}

/// A code point of a class, each range as often, its ends more often than others.
fn of_class(rng: &mut Prng, of: Class) -> u32 {
    let (from, to) = *rng.pick(&ranges(of));
    match rng.below(3) {
        0 => from,
        1 => to,
        _ => rng.between(from as usize, to as usize) as u32,
    }
}

/// A name: letters of few, or code points of every range.
pub fn name(rng: &mut Prng, longest: usize) -> Text {
    let any = rng.one_in(6);
    let length = rng.between(1, longest);
    let one = |k: usize, rng: &mut Prng| match rng.below(3) {
        0 if any && k > 0 => of_class(rng, Further),
        0 | 1 if any => of_class(rng, First),
        _ => 97 + rng.below(4) as u32,
    };
    (0..length).map(|k| one(k, rng)).collect()
}

/// A string of Chars that is not empty and no name.
pub fn no_name(rng: &mut Prng) -> Text {
    let mut text = name(rng, 3);
    match rng.below(4) {
        0 => text.insert(0, of_class(rng, Further)),
        1 => text.insert(0, of_class(rng, NoName)),
        k => {
            let bad = if k == 2 { 0x3A } else { of_class(rng, NoName) };
            text.insert(rng.below(text.len() + 1), bad);
        }
    }
    text
}

/// The three letters, each in either case.
pub fn xml(rng: &mut Prng) -> Text {
    let cases = rng.below(8);
    let letters = [0x78, 0x6D, 0x6C].into_iter().enumerate();
    letters
        .map(|(k, letter)| letter - 0x20 * (cases as u32 >> k & 1))
        .collect()
}

/// A string that is no target: no name, or XML.
pub fn no_target(rng: &mut Prng) -> Text {
    if rng.one_in(3) {
        xml(rng)
    } else {
        no_name(rng)
    }
}

pub fn is_xml(text: &[u32]) -> bool {
    text.len() == 3
        && text
            .iter()
            .zip([0x78, 0x6D, 0x6C])
            .all(|(c, x)| c | 0x20 == x)
}

const HYPHEN: u32 = 0x2D;
const QUESTION_MARK: u32 = 0x3F;
const GREATER: u32 = 0x3E;

/// Letters and marks at random.
fn marks(rng: &mut Prng) -> Text {
    let length = rng.below(6);
    let all = [97, 98, HYPHEN, HYPHEN, QUESTION_MARK, GREATER];
    (0..length).map(|_| *rng.pick(&all)).collect()
}

/// The text of a comment, hyphens in it.
pub fn comment(rng: &mut Prng) -> Text {
    let mut text = marks(rng);
    for k in 1..text.len() {
        if text[k - 1] == HYPHEN && text[k] == HYPHEN {
            text[k] = 97;
        }
    }
    if text.last() == Some(&HYPHEN) {
        text.pop();
    }
    text
}

/// The text of an instruction, question marks in it.
pub fn instruction_text(rng: &mut Prng) -> Text {
    let mut text = marks(rng);
    for k in 1..text.len() {
        if text[k - 1] == QUESTION_MARK && text[k] == GREATER {
            text[k] = 97;
        }
    }
    text
}

/// A text that no comment has.
pub fn no_comment(rng: &mut Prng) -> Text {
    let mut text = comment(rng);
    if rng.one_in(2) {
        text.push(HYPHEN);
    } else {
        let at = rng.below(text.len() + 1);
        text.splice(at..at, [HYPHEN, HYPHEN]);
    }
    text
}

/// A text that no instruction has.
pub fn no_instruction_text(rng: &mut Prng) -> Text {
    let mut text = instruction_text(rng);
    let at = rng.below(text.len() + 1);
    text.splice(at..at, [QUESTION_MARK, GREATER]);
    text
}

#[cfg(test)]
mod tests {
    use super::*;

    /// NameStartChar and what NameChar adds, without the colon, as in XML 1.0 (Fifth Edition).
    const NAME_START_CHAR: &str = "[A-Z] | \"_\" | [a-z] | [#xC0-#xD6] | [#xD8-#xF6] | \
        [#xF8-#x2FF] | [#x370-#x37D] | [#x37F-#x1FFF] | [#x200C-#x200D] | [#x2070-#x218F] | \
        [#x2C00-#x2FEF] | [#x3001-#xD7FF] | [#xF900-#xFDCF] | [#xFDF0-#xFFFD] | [#x10000-#xEFFFF]";
    const NAME_CHAR: &str = "\"-\" | \".\" | [0-9] | #xB7 | [#x0300-#x036F] | [#x203F-#x2040]";
    const CHAR: &str = "#x9 | #xA | #xD | [#x20-#xD7FF] | [#xE000-#xFFFD] | [#x10000-#x10FFFF]";

    fn code_point(word: &str) -> u32 {
        match word.strip_prefix("#x") {
            Some(digits) => u32::from_str_radix(digits, 16).unwrap(),
            None => u32::from(word.chars().next().unwrap()),
        }
    }

    fn has(production: &str, c: u32) -> bool {
        production.split(" | ").any(|word| {
            if let Some(range) = word.strip_prefix('[') {
                let (from, to) = range.trim_end_matches(']').split_once('-').unwrap();
                return (code_point(from)..=code_point(to)).contains(&c);
            }
            code_point(word.trim_matches('"')) == c
        })
    }

    #[test]
    fn classes_are_those_of_xml() {
        for c in (0..=0x11_0001).chain([u32::MAX]) {
            let wanted = if has(NAME_START_CHAR, c) {
                First
            } else if has(NAME_CHAR, c) {
                Further
            } else if has(CHAR, c) {
                NoName
            } else {
                NoChar
            };
            assert_eq!(class(c), wanted, "{c:X}");
        }
    }

    #[test]
    fn strings_are_what_they_are_called() {
        let mut rng = Prng::new(6);
        let is_name = |text: &[u32]| {
            matches!(text, [first, further @ ..] if class(*first) == First
                && further.iter().all(|&c| matches!(class(c), First | Further)))
        };
        let has = |text: &[u32], pair: [u32; 2]| text.windows(2).any(|two| two == pair);
        let is_comment =
            |text: &[u32]| !has(text, [HYPHEN, HYPHEN]) && text.last() != Some(&HYPHEN);
        let is_text = |text: &[u32]| !has(text, [QUESTION_MARK, GREATER]);
        for _ in 0..20_000 {
            assert!(is_name(&name(&mut rng, 4)));
            let bad = no_name(&mut rng);
            assert!(!is_name(&bad) && bad.iter().all(|&c| class(c) != NoChar));
            let xml = xml(&mut rng);
            assert!(is_name(&xml) && is_xml(&xml));
            let bad = no_target(&mut rng);
            assert!(!is_name(&bad) || is_xml(&bad));
            assert!(is_comment(&comment(&mut rng)));
            assert!(!is_comment(&no_comment(&mut rng)));
            assert!(is_text(&instruction_text(&mut rng)));
            assert!(!is_text(&no_instruction_text(&mut rng)));
        }
        for text in ["xmlx", "xml-", "xm", "xlm", "xMl ", "\u{78}\u{4D}\u{2C}"] {
            assert!(!is_xml(&crate::event::text(text)), "{text}");
        }
    }
}
