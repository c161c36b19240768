//! The header and the programs in C, compiled and linked with the archive.

use std::fs;
use std::io::Write;
use std::path::{Path, PathBuf};
use std::process::{Command, Output, Stdio};

use plumethrift::{EventList, Reader, Refusal, Settings};

/// K3, `<a>b</a>`, byte-aligned.
const STREAM: [u8; 8] = [0x80, 0x01, 0x02, 0x61, 0x03, 0x03, 0x62, 0x00];

fn root() -> PathBuf {
    Path::new(env!("CARGO_MANIFEST_DIR")).join("../..")
}

/// The C compiler, with the header in its path and no patience.
fn compiler(standard: &str) -> Command {
    let mut command = Command::new("cc");
    command
        .args([standard, "-Wall", "-Wextra", "-Werror", "-pedantic", "-I"])
        .arg(root().join("include"));
    command
}

/// A source in C beside these tests.
fn of_tests(name: &str) -> PathBuf {
    Path::new(env!("CARGO_MANIFEST_DIR"))
        .join("tests/c")
        .join(name)
}

/// The sample streams.
fn samples() -> Vec<PathBuf> {
    let entries = fs::read_dir(root().join("samples")).unwrap();
    let mut all: Vec<PathBuf> = entries.map(|entry| entry.unwrap().path()).collect();
    all.retain(|path| path.extension().is_some_and(|it| it == "exi"));
    all.sort();
    all
}

/// Compiles a program and links it with the archive.
fn program(source: &Path) -> PathBuf {
    compiled(source, &[])
}

/// The same, with the sanitizers for addresses and for undefined behaviour.
fn sanitized(source: &Path) -> PathBuf {
    let sanitizers = ["-fsanitize=address,undefined", "-fno-sanitize-recover=all"];
    compiled(source, &sanitizers)
}

fn compiled(source: &Path, words: &[&str]) -> PathBuf {
    let name = source.file_stem().expect("a source has a name");
    let program = Path::new(env!("CARGO_TARGET_TMPDIR")).join(name);
    let status = compiler("-std=c99")
        .args(words)
        .args([source, Path::new(env!("PLUMETHRIFT_ARCHIVE"))])
        .arg("-o")
        .arg(&program)
        .status()
        .expect("a C compiler");
    assert!(status.success(), "{}", source.display());
    program
}

fn run(command: &mut Command, input: &[u8]) -> Output {
    let mut child = command
        .stdin(Stdio::piped())
        .stdout(Stdio::piped())
        .stderr(Stdio::piped())
        .spawn()
        .expect("a program that runs");
    let mut stdin = child.stdin.take().expect("its input");
    // a program that refuses its words takes no input
    let _ = stdin.write_all(input);
    drop(stdin);
    child.wait_with_output().expect("its output")
}

fn text(octets: &[u8]) -> &str {
    std::str::from_utf8(octets).expect("text")
}

#[test]
fn the_example_decodes() {
    let decode = program(&root().join("examples/decode.c"));
    let output = run(Command::new(&decode).args(["1", "-"]), &STREAM);
    assert_eq!(
        text(&output.stdout),
        "start document\n  start element \"\" \"a\"\n    characters \"b\"\n  end element\n\
         end document\n"
    );
    assert_eq!(output.status.code(), Some(0));

    let attribute = [
        0x80, 0x01, 0x02, 0x61, 0x01, 0x01, 0x02, 0x6B, 0x03, 0x78, 0x01, 0x00,
    ];
    let output = run(Command::new(&decode).args(["1000000000", "-"]), &attribute);
    assert!(text(&output.stdout).contains("    attribute \"\" \"k\" \"x\"\n"));

    for words in [&["10000000000", "-"][..], &["", "-"], &["1"]] {
        let output = run(Command::new(&decode).args(words), &STREAM);
        assert_eq!(output.status.code(), Some(2));
    }

    // each settings number at the first without a meaning, which for the bounds is no digit
    for place in (0..5).chain(7..10) {
        let mut digits = *b"1000000000";
        digits[place] = if place < 5 { b'2' } else { b'1' };
        let output = run(Command::new(&decode).args([text(&digits), "-"]), &STREAM);
        assert_eq!(text(&output.stderr), "refused: 2 SETTINGS at event 0\n");
        assert_eq!(output.status.code(), Some(1));
    }
}

#[test]
fn the_example_prints_readings() {
    let readings = program(&root().join("examples/readings.c"));
    // The readings of samples/day.csv: every 30 minutes of one day.
    let table = fs::read_to_string(root().join("samples/day.csv")).unwrap();
    let mut expected = String::from("t,ms,um\n");
    for (k, row) in table.lines().skip(1).enumerate() {
        let (t, um) = row.split_once(',').expect("two columns");
        let ms = 825_638_400_000 + 1_800_000 * k as u64;
        expected += &format!("{t},{ms},{um}\n");
    }
    for (sample, word) in [
        ("day-bit-packed.exi", None),
        ("day-byte-aligned.exi", Some("--byte-aligned")),
    ] {
        let sample = root().join("samples").join(sample);
        let output = run(Command::new(&readings).arg(sample).args(word), &[]);
        assert_eq!(text(&output.stdout), expected);
        assert_eq!(output.status.code(), Some(0));
    }

    for (sample, says) in [
        ("refused-tail.exi", "refused: 13 TAIL at event 196\n"),
        ("refused-header.exi", "refused: 4 HEADER at event 0\n"),
    ] {
        let output = run(
            Command::new(&readings).arg(root().join("samples").join(sample)),
            &[],
        );
        assert_eq!(text(&output.stderr), says);
        assert_eq!(output.status.code(), Some(1));
    }
    let other = Path::new(env!("CARGO_TARGET_TMPDIR")).join("other.exi");
    fs::write(&other, [0x80, 0x40, 0x98, 0x40]).unwrap(); // <a/>
    let output = run(Command::new(&readings).arg(other), &[]);
    assert_eq!(text(&output.stderr), "refused: 16 STRUCTURE at reading 0\n");
    for words in [&[][..], &["x", "--bit-packed"], &["no such file"]] {
        let output = run(Command::new(&readings).args(words), &[]);
        assert_eq!(output.status.code(), Some(2));
    }
}

/// The program of README.md does what it says there.
#[test]
fn the_program_of_the_readme() {
    let readme = fs::read_to_string(root().join("README.md")).unwrap();
    let (_, rest) = readme.split_once("```c\n").expect("a program in C");
    let (source, rest) = rest.split_once("```").expect("its end");
    let says = rest.split('`').nth(1).expect("what it prints");

    let file = Path::new(env!("CARGO_TARGET_TMPDIR")).join("count.c");
    fs::write(&file, source).unwrap();
    let output = run(&mut Command::new(program(&file)), &[]);
    assert_eq!(text(&output.stdout), format!("{says}\n"));
    assert_eq!(output.status.code(), Some(0));
}

/// Bounds are one more, the largest but for that; the struct is ten numbers; all zero is no bound.
#[test]
fn bounds_and_settings() {
    let facts = [
        "PLUMETHRIFT_BOUND(0) == 1",
        "PLUMETHRIFT_BOUND(2048) == 2049",
        "PLUMETHRIFT_BOUND(UINT32_MAX - 1) == UINT32_MAX",
        "PLUMETHRIFT_BOUND(UINT32_MAX) == UINT32_MAX",
        "PLUMETHRIFT_UNBOUNDED == 0",
        "sizeof(plumethrift_settings) == 10 * sizeof(uint32_t)",
        "offsetof(plumethrift_settings, grammar_cap) == 9 * sizeof(uint32_t)",
        "PLUMETHRIFT_EVENT_CELLS == 4096 * PLUMETHRIFT_CELLS_PER_EVENT",
        "2 + 2 * PLUMETHRIFT_VALUE == PLUMETHRIFT_CELLS_PER_EVENT - 1",
        "sizeof(plumethrift_readings_reply) == 3 * sizeof(uint32_t)",
        "offsetof(plumethrift_readings_reply, readings) == 2 * sizeof(uint32_t)",
        "sizeof(plumethrift_list_reply) == 4 * sizeof(uint32_t)",
        "offsetof(plumethrift_list_reply, code_points) == 3 * sizeof(uint32_t)",
        "PLUMETHRIFT_LAST_STAMP < INT64_MAX",
    ];
    let mut source = String::from("#include \"plumethrift.h\"\n");
    for fact in facts {
        source += &format!("_Static_assert({fact}, \"{fact}\");\n");
    }
    let words = ["-fsyntax-only", "-x", "c", "-"];
    let output = run(compiler("-std=c11").args(words), source.as_bytes());
    assert!(output.status.success(), "{}", text(&output.stderr));
}

/// Reader and writer, called from C by designated members: each settings number at the first that
/// has no meaning, and bounds up to the largest, are SETTINGS; before LONG, and before SHAPE.
#[test]
fn settings_without_a_meaning() {
    const CALLS: &str = r#"
#include <stdio.h>
#include "plumethrift.h"

static uint32_t events[PLUMETHRIFT_EVENT_CELLS];
static uint32_t text[PLUMETHRIFT_TEXT_CELLS];
static uint32_t work[PLUMETHRIFT_WRITER_WORK_CELLS];
static uint8_t octets[PLUMETHRIFT_STREAM_OCTETS + 1];

static void ask(plumethrift_settings settings) {
  const plumethrift_read_reply read = plumethrift_read(
      settings, octets, sizeof octets, events, PLUMETHRIFT_EVENT_CELLS, text,
      PLUMETHRIFT_TEXT_CELLS, work, PLUMETHRIFT_READER_WORK_CELLS);
  const plumethrift_write_reply write = plumethrift_write(
      settings, octets, PLUMETHRIFT_STREAM_OCTETS, NULL, 0, NULL, 0, work,
      PLUMETHRIFT_WRITER_WORK_CELLS);
  printf("%d %d\n", (int)read.number, (int)write.number);
}

int main(void) {
"#;
    let members = [
        "alignment = 2",
        "cookie = 2",
        "comments = 2",
        "instructions = 2",
        "fragment = 2",
        "value_capacity = PLUMETHRIFT_BOUND(2049)",
        "value_capacity = PLUMETHRIFT_BOUND(UINT32_MAX)",
        "loose = 1",
        "prefixes = 1",
        "grammar_cap = PLUMETHRIFT_BOUND(0)",
        "grammar_cap = PLUMETHRIFT_BOUND(UINT32_MAX)",
    ];
    let good = [
        "value_length = PLUMETHRIFT_BOUND(0)",
        "value_length = PLUMETHRIFT_BOUND(UINT32_MAX)",
        "value_capacity = PLUMETHRIFT_BOUND(0)",
        "value_capacity = PLUMETHRIFT_BOUND(2048)",
        "value_capacity = PLUMETHRIFT_UNBOUNDED",
    ];
    let mut source = String::from(CALLS);
    for member in members.iter().chain(&good) {
        source += &format!("  ask((plumethrift_settings){{.{member}}});\n");
    }
    source += "  return 0;\n}\n";

    let file = Path::new(env!("CARGO_TARGET_TMPDIR")).join("settings.c");
    fs::write(&file, source).unwrap();
    let output = run(&mut Command::new(program(&file)), &[]);
    let expected = "2 2\n".repeat(members.len()) + &"3 14\n".repeat(good.len());
    assert_eq!(text(&output.stdout), expected);
    assert_eq!(output.status.code(), Some(0));
}

/// The example that reads packets: what each completes, whatever their size.
#[test]
fn the_example_reads_packets() {
    let packets = program(&root().join("examples/packets.c"));
    for size in ["1", "2", "3", "240"] {
        let output = run(
            Command::new(&packets).args([size, "--byte-aligned"]),
            &STREAM,
        );
        let said = text(&output.stdout);
        assert!(
            said.ends_with("closed: 5 events, 101 code points\n"),
            "{said}"
        );
        assert_eq!(output.status.code(), Some(0));
    }
    let output = run(
        Command::new(&packets).args(["3", "--byte-aligned"]),
        &STREAM,
    );
    assert_eq!(
        text(&output.stdout),
        "packet 1, 3 octets: 1 events complete\npacket 2, 3 octets: 2 events complete\n\
         packet 3, 2 octets: 5 events complete\nclosed: 5 events, 101 code points\n"
    );
    let tail = [&STREAM[..], &[0, 0]].concat();
    let output = run(Command::new(&packets).args(["8", "--byte-aligned"]), &tail);
    assert_eq!(
        text(&output.stderr),
        "refused: 13 TAIL at event 5, in packet 2\n"
    );
    assert_eq!(output.status.code(), Some(1));
    let output = run(
        Command::new(&packets).args(["4", "--byte-aligned"]),
        &STREAM[..7],
    );
    assert_eq!(
        text(&output.stderr),
        "refused: 5 ENDED at event 3, at the close\n"
    );
    let restarted = fs::read(root().join("samples/restarted.exi")).unwrap();
    let output = run(
        Command::new(&packets).args(["24", "--fragment"]),
        &restarted,
    );
    assert!(text(&output.stdout).contains("\nclosed: "));
    assert_eq!(output.status.code(), Some(0));
    let kinds = fs::read(root().join("samples/kinds.exi")).unwrap();
    let flags = ["7", "--instructions", "--cookie", "--comments"];
    let output = run(Command::new(&packets).args(flags), &kinds);
    assert_eq!(output.status.code(), Some(0));
    for words in [
        &[][..],
        &["0"],
        &["241"],
        &["x"],
        &["1", "--bit-packed"],
        &["1", "--fragment", "x"],
    ] {
        let output = run(Command::new(&packets).args(words), &STREAM);
        assert_eq!(output.status.code(), Some(2));
    }
}

/// Sizes and fields of all structs, against what the archive reads and writes.
#[test]
fn the_structs_are_the_archives() {
    let output = run(&mut Command::new(program(&of_tests("layout.c"))), &[]);
    let octets = size_of::<plumethrift::lent::ReceiverRecord>();
    assert_eq!(
        text(&output.stdout),
        format!("a record of {octets} octets\n")
    );
    assert_eq!(output.status.code(), Some(0));
}

/// Record and memory changed between the calls, each part beside a page that cannot be touched.
#[test]
fn changed_records_and_memory() {
    let mut changed = Command::new(sanitized(&of_tests("changed.c")));
    let output = run(changed.args(["1000", "8"]).args(samples()), &[]);
    assert_eq!(text(&output.stderr), "");
    assert!(text(&output.stdout).ends_with(" refused\n"));
    assert_eq!(output.status.code(), Some(0));
}

/// Lists from UTF-8, and UTF-8 both ways, with the sanitizers.
#[test]
fn the_header_for_lists() {
    let output = run(&mut Command::new(sanitized(&of_tests("list.c"))), &[]);
    assert_eq!((text(&output.stdout), text(&output.stderr)), ("", ""));
    assert_eq!(output.status.code(), Some(0));
}

/// The sentences of refusals are this crate's.
#[test]
fn the_sentences_of_the_header() {
    const SENTENCES: &str = r#"
#include <stdio.h>
#include "plumethrift.h"

int main(void) {
  for (uint32_t number = 0; number < 22; number++)
    printf("%s\n", plumethrift_refusal_sentence(number));
  printf("%s\n", plumethrift_refusal_sentence(UINT32_MAX));
  return 0;
}
"#;
    let file = Path::new(env!("CARGO_TARGET_TMPDIR")).join("sentences.c");
    fs::write(&file, SENTENCES).unwrap();
    let output = run(&mut Command::new(program(&file)), &[]);
    let sentence = |number| Refusal::from_number(number).map_or("", Refusal::sentence);
    let expected: Vec<&str> = (0..22).chain([u32::MAX]).map(sentence).collect();
    assert_eq!(text(&output.stdout).lines().collect::<Vec<_>>(), expected);
}

/// The example that writes: its stream has the lines.
#[test]
fn the_example_writes() {
    let write = program(&root().join("examples/write.c"));
    let input = "eins\n\nT\u{FC}r".as_bytes();
    for words in [
        "",
        "byte-aligned",
        "cookie comments",
        "fragment",
        "instructions byte-aligned fragment",
        "capacity=1 byte-aligned",
        "max-length=0 capacity=2048",
    ] {
        let settings: Settings = words.parse().unwrap();
        let flags = words.split_whitespace().flat_map(|word| word.split('='));
        let flags = flags.map(|word| match word.parse::<u32>() {
            Ok(number) => number.to_string(),
            Err(_) => format!("--{word}"),
        });
        let output = run(Command::new(&write).args(flags), input);
        assert_eq!(output.status.code(), Some(0));
        let mut list = EventList::new();
        list.start_document();
        if !settings.fragment {
            list.start_element("", "lines");
        }
        for (n, line) in [("1", "eins"), ("2", ""), ("3", "T\u{FC}r")] {
            list.start_element("", "line").attribute("", "n", n);
            list.characters(line).end_element();
        }
        if !settings.fragment {
            list.end_element();
        }
        list.end_document();
        let mut reader = Reader::new();
        assert_eq!(reader.read(&settings, &output.stdout).unwrap(), list);
    }

    let many = "x\n".repeat(3_000);
    let long = format!("{}\n", "x".repeat(4_096));
    let control = "\u{1}\n";
    for (input, says) in [
        (&b"a\n\xC3\n"[..], "line 2 is not UTF-8\n"),
        (many.as_bytes(), "line 1024 has no room\n"),
        (long.as_bytes(), "line 1 is too long, or has a zero\n"),
        (b"\0\n", "line 1 is too long, or has a zero\n"),
        (
            control.as_bytes(),
            "refused: 8 CHARACTER at event 4: a code point is no XML 1.0 Char, or a comment has \
             -- or ends in -, or an instruction has ?>\n",
        ),
    ] {
        let output = run(&mut Command::new(&write), input);
        assert_eq!((text(&output.stdout), text(&output.stderr)), ("", says));
        assert_eq!(output.status.code(), Some(1));
    }
    for words in [&["--bit-packed"][..], &["--byte-aligned", "x"]] {
        let output = run(Command::new(&write).args(words), input);
        assert_eq!(output.status.code(), Some(2));
    }
}

/// The stack that the calls take is what the header says, at most.
#[test]
fn the_stack() {
    let stack = compiled(&of_tests("stack.c"), &["-std=c11", "-pthread"]);
    let output = run(Command::new(stack).args(samples()), &[]);
    assert_eq!(output.status.code(), Some(0));
    let said = text(&output.stdout);
    assert_eq!(said.lines().count(), 9);
    for line in said.lines() {
        let (_, octets) = line.split_once(' ').expect("a call and its octets");
        assert!(octets.parse::<usize>().unwrap() <= 8 * 1024, "{line}");
    }
}
