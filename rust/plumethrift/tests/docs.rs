//! The numbers that the documents say are the library's.

use std::fs;
use std::path::{Path, PathBuf};

use plumethrift::lent::{
    ReceiverRecord, EVENT_CELLS, HELD_OCTETS, MAX_READINGS, READER_WORK_CELLS, STREAM_OCTETS,
    TEXT_CELLS, WRITER_WORK_CELLS,
};

fn path(name: &str) -> PathBuf {
    Path::new(env!("CARGO_MANIFEST_DIR"))
        .join("../..")
        .join(name)
}

/// A document below the repository's root, with spaces for its line ends.
fn document(name: &str) -> String {
    let text = fs::read_to_string(path(name)).unwrap();
    text.replace("\n/// ", " ").replace('\n', " ")
}

fn kibibytes(cells: usize, octets: usize) -> String {
    let all = 4 * cells + octets;
    assert_eq!(all % 1_024, 0);
    format!("{} KiB", all / 1_024)
}

/// A number with a comma before the last three digits.
fn grouped(number: usize) -> String {
    match number {
        0..1_000 => number.to_string(),
        _ => format!("{},{:03}", number / 1_000, number % 1_000),
    }
}

#[test]
fn how_much_the_owning_types_allocate() {
    let list = EVENT_CELLS + TEXT_CELLS;
    let reader = kibibytes(list + READER_WORK_CELLS, 0);
    let receiver = kibibytes(list + READER_WORK_CELLS, HELD_OCTETS);
    let writer = kibibytes(WRITER_WORK_CELLS, STREAM_OCTETS);
    let readings = kibibytes(list, 0);
    for (file, says) in [
        (
            "reader",
            format!("in memory of its own: {reader}, allocated once"),
        ),
        (
            "receiver",
            format!("in memory of its own: {receiver}, allocated once"),
        ),
        (
            "writer",
            format!("in memory of its own: {writer}, allocated once"),
        ),
        ("writer", format!("it is {readings} more")),
    ] {
        let text = document(&format!("rust/plumethrift/src/{file}.rs"));
        assert!(text.contains(&says), "{file}.rs: {says}");
    }
}

#[test]
fn how_much_is_lent() {
    let memory = fs::read_to_string(path("docs/MEMORY.md")).unwrap();
    let says = |what: &str, number: usize| {
        let mut rows = memory.lines().filter(|row| row.starts_with(what));
        let number = format!(" {} ", grouped(number));
        assert!(rows.any(|row| row.contains(&number)), "{what}:{number}");
    };
    says("| event cells | reader, to write |", EVENT_CELLS);
    says("| text store | reader, to write |", TEXT_CELLS);
    says("| octets | writer, to write |", STREAM_OCTETS);
    says("| work memory | reader, writer", READER_WORK_CELLS);
    says("| stamps, movements | readings of", MAX_READINGS);
    let record = format!("{} octets", size_of::<ReceiverRecord>());
    assert!(document("docs/PACKETS.md").contains(&record));
    assert!(document("docs/READINGS.md").contains(&format!("at most {MAX_READINGS} readings")));
}

/// A size of the proved source.
fn size(name: &str) -> usize {
    let source = fs::read_to_string(path("crates/sizes/src/lib.rt")).unwrap();
    let begin = format!("pub const {name}: usize = ");
    let line = source.lines().find_map(|line| line.strip_prefix(&begin));
    line.and_then(|rest| rest.trim_end_matches(';').parse().ok())
        .expect(name)
}

/// What LIMIT speaks of, in the header, in this crate, and in the README's table.
#[test]
fn sizes_that_are_told() {
    let of = |name: &str| grouped(size(name));
    let sizes = [
        format!("{} events", of("MAX_EVENTS")),
        format!("{} elements open at once", of("MAX_OPEN")),
        format!(
            "{} URIs and {} local names",
            of("MAX_URIS"),
            of("MAX_NAMES")
        ),
        format!("{} distinct values", of("MAX_VALUES")),
        format!("{} element grammars", of("MAX_GRAMMARS")),
        format!("{} learned productions", of("MAX_LEARNED")),
        format!("{} code points in a string", of("MAX_STRING")),
        format!("{} in the reader's text store", of("MAX_STORE")),
    ];
    for file in ["include/plumethrift.h", "rust/plumethrift/src/refusal.rs"] {
        let text = document(file).replace(" * ", "").replace("    /// ", "");
        for says in &sizes {
            assert!(text.contains(says), "{file}: {says}");
        }
    }
    let readme = fs::read_to_string(path("README.md")).unwrap();
    let reader = 4 * (EVENT_CELLS + TEXT_CELLS + READER_WORK_CELLS);
    let writer = STREAM_OCTETS + 4 * WRITER_WORK_CELLS;
    for (what, numbers) in [
        ("readings in a list", format!("{MAX_READINGS}, fewer")),
        ("octets of a stream", of("MAX_STREAM")),
        (
            "code points of one string; of all",
            format!("{}; {} ", of("MAX_STRING"), of("MAX_STORE")),
        ),
        (
            "events; distinct values",
            format!("{}; {} ", of("MAX_EVENTS"), of("MAX_VALUES")),
        ),
        (
            "local names; URIs",
            format!("{}; {} ", of("MAX_NAMES"), of("MAX_URIS")),
        ),
        (
            "open elements; element grammars; learned productions",
            format!(
                "{}; {}; {} ",
                of("MAX_OPEN"),
                of("MAX_GRAMMARS"),
                of("MAX_LEARNED")
            ),
        ),
        (
            "memory to lend: reader; writer",
            format!("{}; {} octets", grouped(reader), grouped(writer)),
        ),
    ] {
        let begin = format!("| {what}");
        let mut rows = readme.lines().filter(|row| row.starts_with(&begin));
        let cell = format!(" | {numbers}");
        assert!(rows.any(|row| row.contains(&cell)), "{what}:{cell}");
    }
}
