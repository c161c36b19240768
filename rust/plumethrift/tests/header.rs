//! `include/plumethrift.h` says the same numbers, sentences and version as this crate.

use std::collections::BTreeMap;
use std::fs;
use std::path::Path;

use plumethrift::{lent, Refusal};

fn header() -> String {
    let path = Path::new(env!("CARGO_MANIFEST_DIR")).join("../../include/plumethrift.h");
    fs::read_to_string(path).unwrap()
}

/// The header's `#define PLUMETHRIFT_X number` and `PLUMETHRIFT_X = number` lines; not what takes
/// an argument, and not the version.
fn numbers() -> BTreeMap<String, usize> {
    let mut numbers = BTreeMap::new();
    for line in header().lines() {
        let words: Vec<&str> = line
            .split([' ', ','])
            .filter(|word| !word.is_empty())
            .collect();
        let (name, number) = match words[..] {
            ["#define", "PLUMETHRIFT_VERSION", ..] => continue,
            ["#define", name, number, ..] if !name.contains('(') => (name, number),
            [name, "=", number, ..] => (name, number),
            _ => continue,
        };
        if let Some(name) = name.strip_prefix("PLUMETHRIFT_") {
            assert_eq!(
                numbers.insert(name.to_string(), number.parse().unwrap()),
                None
            );
        }
    }
    numbers
}

#[test]
fn the_header_has_these_numbers_and_no_others() {
    let mut expected: BTreeMap<String, usize> = [
        ("CELLS_PER_EVENT", lent::CELLS_PER_EVENT),
        ("EVENT_CELLS", lent::EVENT_CELLS),
        ("TEXT_CELLS", lent::TEXT_CELLS),
        ("STREAM_OCTETS", lent::STREAM_OCTETS),
        ("READER_WORK_CELLS", lent::READER_WORK_CELLS),
        ("WRITER_WORK_CELLS", lent::WRITER_WORK_CELLS),
        ("HELD_OCTETS", lent::HELD_OCTETS),
        ("RECEIVER_WORDS", lent::RECEIVER_WORDS),
        ("MAX_READINGS", lent::MAX_READINGS),
        ("LAST_STAMP", lent::LAST_STAMP as usize),
        ("MAX_MOVEMENT", lent::MAX_MOVEMENT as usize),
        ("BIT_PACKED", 0),
        ("BYTE_ALIGNED", 1),
        ("UNBOUNDED", 0),
        ("START_DOCUMENT", 1),
        ("END_DOCUMENT", 2),
        ("START_ELEMENT", 3),
        ("ATTRIBUTE", 4),
        ("END_ELEMENT", 5),
        ("CHARACTERS", 6),
        ("COMMENT", 7),
        ("INSTRUCTION", 8),
        ("URI", 0),
        ("LOCAL_NAME", 1),
        ("PREFIX", 2),
        ("VALUE", 3),
        ("OK", 0),
    ]
    .map(|(name, number)| (name.to_string(), number))
    .into();
    let refusals = Refusal::ALL.iter();
    expected.extend(refusals.map(|it| (it.name().to_string(), it.number() as usize)));
    assert_eq!(numbers(), expected);
}

#[test]
fn the_header_has_this_version() {
    let version = env!("CARGO_PKG_VERSION");
    let line = format!("#define PLUMETHRIFT_VERSION \"{version}\"\n");
    assert!(header().contains(&line), "{line}");
}
