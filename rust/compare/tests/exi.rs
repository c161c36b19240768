//! The command line, on the samples and on words that it does not take. Where the program is not
//! built yet, the script proves and builds it first.

#![forbid(unsafe_code)]

use std::fs;
use std::io::Write;
use std::path::{Path, PathBuf};
use std::process::{Command, Stdio};

fn root() -> PathBuf {
    Path::new(env!("CARGO_MANIFEST_DIR")).join("../..")
}

/// Status, standard output and standard error of `exi` with these words, separated by spaces, in
/// the folder of samples.
fn exi(words: &str, input: &[u8]) -> (Option<i32>, String, String) {
    let words: Vec<&str> = words.split(' ').filter(|word| !word.is_empty()).collect();
    exi_in(&root().join("samples"), &words, input)
}

fn exi_in(folder: &Path, words: &[&str], input: &[u8]) -> (Option<i32>, String, String) {
    let mut child = Command::new(root().join("exi"))
        .args(words)
        .current_dir(folder)
        .stdin(Stdio::piped())
        .stdout(Stdio::piped())
        .stderr(Stdio::piped())
        .spawn()
        .expect("the script");
    let mut stdin = child.stdin.take().expect("its input");
    // words that are not understood take no input
    let _ = stdin.write_all(input);
    drop(stdin);
    let output = child.wait_with_output().expect("its output");
    let text = |octets: Vec<u8>| String::from_utf8(octets).expect("text");
    let (stdout, stderr) = (text(output.stdout), text(output.stderr));
    (output.status.code(), stdout, stderr)
}

fn refused(words: &str, input: &[u8], says: &str) {
    let (status, stdout, stderr) = exi(words, input);
    let expected = format!("exi: refused: {says}");
    assert!(stderr.starts_with(&expected), "{words}: {stderr}");
    assert_eq!((status, stdout.as_str()), (Some(1), ""), "{words}");
}

#[test]
fn samples_that_are_accepted() {
    for words in [
        "check day-bit-packed.exi",
        "check --bit-packed day-bit-packed.exi",
        "check --byte-aligned day-byte-aligned.exi",
        "check day-of-500.exi",
        "check kinds.exi --cookie --comments --instructions",
    ] {
        let (status, stdout, stderr) = exi(words, b"");
        assert!(stdout.starts_with("accepted: "), "{words}: {stderr}");
        assert_eq!((status, stderr.as_str()), (Some(0), ""), "{words}");
    }
    let (_, stdout, _) = exi("show --byte-aligned -", b"\x80\x01\x02\x61\x00");
    let expected = "start document\n  start element \"a\"\n  end element\nend document\n\
                    accepted: 4 events, 100 code points, 5 octets\n";
    assert_eq!(stdout, expected);
    let (_, stdout, _) = exi(
        "show --byte-aligned -",
        b"\x80\x01\x02a\x01\x01\x02k\x03x\x01\x00",
    );
    assert!(stdout.contains("    attribute \"k\" = \"x\"\n"));
}

#[test]
fn samples_that_are_refused() {
    refused(
        "check --byte-aligned refused-header.exi",
        b"",
        "4 HEADER, event 0: ",
    );
    refused(
        "check --byte-aligned refused-ended.exi",
        b"",
        "5 ENDED, event ",
    );
    refused(
        "check --byte-aligned refused-loose.exi",
        b"",
        "10 LOOSE, event 60: ",
    );
    refused(
        "check --byte-aligned refused-name.exi",
        b"",
        "11 NAME, event 1: ",
    );
    refused("check refused-tail.exi", b"", "13 TAIL, event 196: ");
    refused("check -", &[0x80; 16_385], "3 LONG, event 0: ");
    // <a k="x" k=""/>
    let equal = b"\x80\x01\x02a\x01\x01\x02k\x03x\x00\x02\x01\x00";
    refused("check --byte-aligned -", equal, "14 SHAPE, event 3: ");
    // <!-- - -->
    let hyphen = b"\x80\x01\x03 - ";
    let hyphen_at_the_end = b"\x80\x01\x02 -";
    let words = "check --byte-aligned --comments -";
    refused(words, hyphen, "5 ENDED, event 2: ");
    refused(words, hyphen_at_the_end, "8 CHARACTER, event 1: ");
}

/// Numbers out of range are SETTINGS, and flags that there are none of no words.
#[test]
fn settings_without_a_meaning() {
    for word in ["--loose", "--prefixes", "--grammar-cap", "--cookie=2", "-x"] {
        let words = format!("check --byte-aligned day-byte-aligned.exi {word}");
        let (status, stdout, stderr) = exi(&words, b"");
        let expected = format!("exi: word 4 is not understood: {word};");
        assert!(stderr.starts_with(&expected), "{stderr}");
        assert_eq!((status, stdout.as_str()), (Some(2), ""), "{word}");
    }
    refused(
        "check --capacity 2049 day-bit-packed.exi",
        b"",
        "2 SETTINGS, event 0: ",
    );
    let (status, _, stderr) = exi("check --bit-packed --byte-aligned -", b"");
    assert!(stderr.contains("exclude each other"), "{stderr}");
    assert_eq!(status, Some(2));
}

/// Bounds of the value tables, 0 among them, and what is told where others are right.
#[test]
fn bounded_values() {
    // <a> x y x, where each value takes the place of the one before.
    let turning = b"\x80\x01\x02a\x03\x03x\x01\x01\x03y\x00\x03x\x01";
    // <a> x x, where none joins a table.
    let alone = b"\x80\x01\x02a\x03\x03x\x01\x01\x03x\x01";
    let accepts = |words: &str, stream: &[u8]| {
        let (status, stdout, stderr) = exi(&format!("check --byte-aligned {words} -"), stream);
        assert!(stdout.starts_with("accepted: "), "{words}: {stderr}");
        assert_eq!((status, stderr.as_str()), (Some(0), ""), "{words}");
    };
    accepts("--capacity 1", turning);
    accepts("--capacity 0", alone);
    accepts("--max-length 0", alone);
    accepts("--max-length 0 --capacity 2048", alone);
    // <a> x x, where the second is found in a table.
    let found = b"\x80\x01\x02a\x03\x03x\x01\x01\x00\x01";
    accepts("", found);
    refused("check --byte-aligned -", turning, "10 LOOSE, event 4: ");
    refused(
        "check --byte-aligned --capacity 2 -",
        turning,
        "10 LOOSE, event 4: ",
    );
    refused(
        "check --byte-aligned --max-length 1 -",
        alone,
        "10 LOOSE, event 3: ",
    );
    let (_, _, stderr) = exi("check --capacity 1 -", turning);
    assert!(
        stderr.contains("\n  accepted with --byte-aligned --capacity 1\n"),
        "{stderr}"
    );
    let (status, stdout, stderr) = exi("check --byte-aligned --capacity one -", turning);
    assert!(stderr.starts_with("exi: word 4 is no number of 1 to 9 digits: one;"));
    assert_eq!((status, stdout.as_str()), (Some(2), ""));
    let (_, _, stderr) = exi("check --max-length 0 -", found);
    assert!(
        stderr.ends_with("\n  accepted with --byte-aligned\n"),
        "{stderr}"
    );
}

/// Words that do not fit, each with one line that says why.
#[test]
fn words_that_do_not_fit() {
    let day = "day-bit-packed.exi";
    for (words, says) in [
        (
            "".to_string(),
            "exi: no command: it is show, check, readings, write-readings or plot\n",
        ),
        ("sho".to_string(), "exi: word 1 is not understood: sho;"),
        ("check".to_string(), "exi: no FILE is named;"),
        (
            format!("check --packets x {day}"),
            "exi: word 3 is no number of 1 to 9 digits: x;",
        ),
        (
            format!("check --capacity -1 {day}"),
            "exi: word 3 is no number of 1 to 9 digits: -1;",
        ),
        (
            format!("check {day} --max-length 1234567890"),
            "exi: word 4 is no number of 1 to 9 digits: 1234567890;",
        ),
        (
            format!("check {day} --packets"),
            "exi: no number follows the last flag;",
        ),
        (
            format!("check {day} --packets 0"),
            "exi: a packet has at least 1 octet;",
        ),
        (
            format!("show {day} --packets 1"),
            "exi: --packets goes with exi check alone;",
        ),
        (
            format!("check {day} --utf8"),
            "exi: --utf8 goes with exi show alone;",
        ),
        (
            format!("show {day} --ms"),
            "exi: --ms goes with exi readings alone;",
        ),
        (
            format!("readings {day} {day}"),
            "exi: readings wants one FILE;",
        ),
        (
            format!("write-readings {day}"),
            "exi: write-readings wants CSV and OUT;",
        ),
        (
            format!("check - {day} -"),
            "exi: FILE is - for standard input once alone;",
        ),
        (
            "show -- - -".to_string(),
            "exi: FILE is - for standard input once alone;",
        ),
        (
            "check -- --x".to_string(),
            "exi: cannot read --x: No such file",
        ),
        ("check .".to_string(), "exi: cannot read .: Is a directory"),
    ] {
        let (status, stdout, stderr) = exi(&words, b"");
        assert!(stderr.starts_with(says), "{words}: {stderr}");
        assert_eq!((status, stdout.as_str()), (Some(2), ""), "{words}");
    }
}

#[test]
fn help_and_version() {
    for word in ["help", "--help", "-h", "show -h", "check --help day.exi"] {
        let (status, stdout, stderr) = exi(word, b"");
        assert!(stdout.starts_with("Reads EXI 1.0 streams"), "{word}");
        assert!(stdout.contains("Status 0: "), "{word}");
        assert!(stdout.contains("\n  exi --build "), "{word}");
        assert_eq!((status, stderr.as_str()), (Some(0), ""), "{word}");
    }
    let (status, stdout, stderr) = exi("--version", b"");
    assert!(
        stdout.starts_with("exi of Plumethrift, commit "),
        "{stdout}"
    );
    assert!(stdout.contains("\nkit: rattle-kit"), "{stdout}");
    assert_eq!((status, stderr.as_str()), (Some(0), ""));
}

// ---- verdicts

/// Several files have a verdict each, with their names; the status is that of the worst.
#[test]
fn several_files() {
    let (status, stdout, stderr) = exi("check day-bit-packed.exi day-with-gap.exi", b"");
    assert_eq!(
        stdout,
        "day-bit-packed.exi: accepted: 196 events, 1459 code points, 1515 octets\n\
         day-with-gap.exi: accepted: 152 events, 1147 code points, 1170 octets\n"
    );
    assert_eq!((status, stderr.as_str()), (Some(0), ""));
    let (status, stdout, stderr) = exi("check refused-tail.exi day-bit-packed.exi", b"");
    assert!(stdout.starts_with("day-bit-packed.exi: accepted: "));
    assert!(stderr.starts_with("exi: refused: refused-tail.exi: 13 TAIL, event 196: "));
    assert_eq!(status, Some(1));
    let (status, stdout, stderr) = exi("show refused-tail.exi none day-bit-packed.exi", b"");
    assert!(stdout
        .ends_with("day-bit-packed.exi: accepted: 196 events, 1459 code points, 1515 octets\n"));
    assert!(
        stderr.contains("\nexi: cannot read none: No such file"),
        "{stderr}"
    );
    assert_eq!(status, Some(2));
}

/// Of a stream that is refused the complete events are shown, with their indexes.
#[test]
fn events_before_the_fault() {
    let (status, stdout, stderr) = exi("show --byte-aligned refused-loose.exi", b"");
    let lines: Vec<&str> = stdout.lines().collect();
    assert_eq!(lines.len(), 60);
    assert_eq!(lines[0], "   0  start document");
    assert_eq!(lines[1], "   1    start element \"readings\"");
    assert!(
        lines[59].starts_with("  59        attribute \"t\" = \"2026-"),
        "{}",
        lines[59]
    );
    let told = "\n  the event begins at octet 536\n  the fault shows at octet 542\n";
    assert!(stderr.ends_with(told), "{stderr}");
    assert_eq!(status, Some(1));
    let (_, stdout, stderr) = exi("show --byte-aligned refused-ended.exi", b"");
    assert_eq!(stdout.lines().count(), 95);
    assert!(
        stderr.ends_with("\n  the event begins at octet 809\n  octets in all: 834\n"),
        "{stderr}"
    );
    let (_, stdout, stderr) = exi("show refused-tail.exi", b"");
    assert!(!stdout.contains("accepted"));
    assert!(
        stderr.ends_with("\n  the fault shows at octet 1514\n"),
        "{stderr}"
    );
}

/// Number, index and the rest of the lines of a refusal.
fn refusal(stderr: &str) -> (usize, usize, &str) {
    let line = stderr.strip_prefix("exi: refused: ").expect(stderr);
    let (number, rest) = line.split_once(' ').expect(stderr);
    let (_, rest) = rest.split_once(", event ").expect(stderr);
    let (index, _) = rest.split_once(':').expect(stderr);
    let (_, more) = rest.split_once('\n').expect(stderr);
    (number.parse().unwrap(), index.parse().unwrap(), more)
}

/// Of a bit-packed stream those events are shown, too, that end inside the octet of the fault.
#[test]
fn events_inside_the_octet_of_the_fault() {
    // <a/> with a pad bit that is 1
    let (status, stdout, stderr) = exi("show -", b"\x80\x40\x98\x41");
    let expected = "   0  start document\n   1    start element \"a\"\n   2    end element\n   \
                    3  end document\n";
    assert_eq!((status, stdout.as_str()), (Some(1), expected));
    assert_eq!(refusal(&stderr), (13, 4, "  the fault shows at octet 3\n"));

    let day = sample("day-bit-packed.exi");
    let (mut refused, mut inside) = (0, 0);
    for bit in (8..8 * day.len()).step_by(61) {
        let mut damaged = day.clone();
        damaged[bit / 8] ^= 0x80 >> (bit % 8);
        let (status, stdout, stderr) = exi("show -", &damaged);
        if status == Some(0) {
            continue;
        }
        let (number, index, more) = refusal(&stderr);
        assert_eq!(stdout.lines().count(), index, "bit {bit}: {stderr}");
        refused += 1;
        let Some(more) = more.strip_prefix("  the event begins at octet ") else {
            assert_eq!(number, 13, "bit {bit}: {stderr}");
            continue;
        };
        // the events before are complete with its octet, and not without it unless it begins there
        let place = more.lines().next().unwrap();
        let (octet, in_octet) = match place.split_once(", bit ") {
            Some((octet, _)) => (octet.parse::<usize>().unwrap(), 1),
            None => (place.parse().unwrap(), 0),
        };
        let complete = |octets: usize| {
            let mut receiver = plumethrift::Receiver::new(&plumethrift::Settings::default());
            let fed = receiver.feed(&damaged[..octets]);
            fed.map(|document| document.len())
        };
        if in_octet == 0 {
            assert_eq!(complete(octet), Ok(index), "bit {bit}: {stderr}");
            continue;
        }
        assert!(
            complete(octet).is_ok_and(|n| n < index),
            "bit {bit}: {stderr}"
        );
        match complete(octet + 1) {
            Ok(n) => assert_eq!(n, index, "bit {bit}: {stderr}"),
            Err(_) => inside += 1,
        }
    }
    assert!(refused > 50 && inside > 10, "{refused} {inside}");
}

/// A stream with more events than there may be: those that end in the octet of the fault are not
/// known, and that is said.
#[test]
fn more_events_than_there_may_be() {
    use plumethrift::{EventList, Settings, Writer};
    for (flag, words) in [("--bit-packed", ""), ("--byte-aligned", "byte-aligned")] {
        let settings: Settings = words.parse().unwrap();
        let stream = |children: usize| {
            let mut list = EventList::new();
            list.start_document().start_element("", "a");
            for _ in 0..children {
                list.start_element("", "b").end_element();
            }
            list.end_element().end_document();
            Writer::new().write(&settings, &list).unwrap().to_vec()
        };
        // octets that stand for whole children, as often as there is room
        let (some, more) = (stream(64), stream(96));
        let common = some.iter().zip(&more).take_while(|(x, y)| x == y).count();
        let mut long = some[..common - 8].to_vec();
        while long.len() < 16_000 {
            long.extend(&some[common - 16..common - 8]);
        }
        let (status, stdout, stderr) = exi(&format!("show {flag} -"), &long);
        let (number, index, told) = refusal(&stderr);
        assert_eq!((status, number, index), (Some(1), 12, 4_096), "{stderr}");
        let shown = stdout.lines().count();
        let says = format!(
            "  events from {shown} on end in the octet of the fault, and are not known\n  the \
             fault shows at octet "
        );
        assert!(
            (4_088..4_096).contains(&shown) && told.starts_with(&says),
            "{told}"
        );
        assert!(told.ends_with("\n  full: 4096 events\n"), "{told}");
    }
}

/// Where other flags accept the stream, that is said, of two sets of flags at most.
#[test]
fn flags_that_would_accept() {
    for (words, says) in [
        (
            "check day-byte-aligned.exi",
            "\n  accepted with --byte-aligned\n",
        ),
        (
            "check --byte-aligned day-bit-packed.exi",
            "\n  accepted without flags\n",
        ),
        (
            "readings --cookie day-byte-aligned.exi",
            "\n  accepted with --byte-aligned\n",
        ),
        (
            "check kinds.exi",
            "\n  accepted with --cookie --comments --instructions\n",
        ),
        (
            "check --packets 7 day-byte-aligned.exi",
            "\n  accepted with --byte-aligned\n",
        ),
    ] {
        let (status, _, stderr) = exi(words, b"");
        assert!(stderr.ends_with(says), "{words}: {stderr}");
        assert_eq!(status, Some(1), "{words}");
    }
    let (_, _, stderr) = exi("check refused-tail.exi", b"");
    assert!(!stderr.contains("accepted"), "{stderr}");
}

/// What stands where the header should be.
#[test]
fn headers() {
    for (words, octets, says) in [
        ("check -", &b"<a/>"[..], "  found: XML text, not EXI\n"),
        (
            "check -",
            b"\xEF\xBB\xBF<a/>",
            "  found: text with a byte order mark, not EXI\n",
        ),
        (
            "check -",
            b"$EXI\x80",
            "  found: the cookie $EXI, which --cookie asks for\n",
        ),
        (
            "check --cookie -",
            b"\x80\x40\x98\x40",
            "  found: no cookie $EXI\n  accepted without flags\n",
        ),
        (
            "check --cookie -",
            b"$EXI\xA0",
            "  found: options in the header, which are not read\n",
        ),
        (
            "check -",
            b"\xA0",
            "  found: options in the header, which are not read\n",
        ),
        ("check -", b"\x81", "  found: a version other than 1\n"),
        (
            "check -",
            b"t,um",
            "  found: no EXI header, which begins with the bits 10\n",
        ),
    ] {
        let (status, _, stderr) = exi(words, octets);
        assert!(
            stderr.starts_with("exi: refused: 4 HEADER, event 0: "),
            "{stderr}"
        );
        assert!(stderr.ends_with(says), "{words}: {stderr}");
        assert_eq!(status, Some(1), "{words}");
    }
}

/// LIMIT tells which size is used up.
#[test]
fn sizes_that_are_passed() {
    // elements a in each other, one more than may be open
    let mut deep = b"\x80\x01\x02a\x02\x01\x00".to_vec();
    deep.extend([0; 99]);
    let (status, _, stderr) = exi("check --byte-aligned -", &deep);
    assert!(
        stderr.starts_with("exi: refused: 12 LIMIT, event 101: "),
        "{stderr}"
    );
    assert!(stderr.contains("\n  full: 100 open elements\n"), "{stderr}");
    assert!(!stderr.contains("too long"), "{stderr}");
    assert_eq!(status, Some(1));
}

/// LIMIT of a string that is too long says so; where it may be the text store's, that is said, too.
#[test]
fn strings_that_are_too_long() {
    use plumethrift::{EventList, Settings, Writer};
    let one = b"\x80\x01\x02a\x03\x83\x20"; // <a> and the length of 4,097 code points
    let (status, _, stderr) = exi("check --byte-aligned -", one);
    let says = "\n  code points so far: 100 of 16384; a string has at most 4096\n  too long: a \
                string of the event has over 4096 code points\n";
    assert!(stderr.contains(says), "{stderr}");
    assert_eq!(refusal(&stderr).0, 12);
    assert_eq!(status, Some(1));

    // three values of 4,096 code points, and the length of a fourth
    let mut list = EventList::new();
    list.start_document().start_element("", "a");
    for name in ["x", "y", "z"] {
        list.attribute("", name, &name.repeat(4_096));
    }
    list.attribute("", "w", "wwww").end_element().end_document();
    let settings: Settings = "byte-aligned".parse().unwrap();
    let mut stream = Writer::new().write(&settings, &list).unwrap().to_vec();
    let place = stream.windows(5).position(|part| part == b"\x06wwww");
    stream.truncate(place.expect("the value"));
    stream.extend(b"\x82\x20");
    let (_, _, stderr) = exi("check --byte-aligned -", &stream);
    let says = "\n  too long: a string of the event has over 4096 code points, or all have over \
                16384 with it\n";
    assert!(stderr.contains(says), "{stderr}");
    assert_eq!(refusal(&stderr).0, 12);
}

/// NAME tells the name and why it is none.
#[test]
fn names_that_are_refused() {
    for (words, octets, says) in [
        (
            "check --byte-aligned -",
            &b"\x80\x01\x04a:b\x00"[..],
            "  the name, by its octets: a:b; it has a colon\n",
        ),
        (
            "check --byte-aligned -",
            b"\x80\x01\x031a\x00",
            "  the name, by its octets: 1a; it is no XML name\n",
        ),
        (
            "check --byte-aligned -",
            b"\x80\x01\x03\xD7\x01a\x00",
            "  the name, by its octets: \\u{d7}a; it is no XML name\n",
        ),
        (
            "check --byte-aligned -",
            b"\x80\x01\x02a\x01\x01\x03k \x03x",
            "  the name, by its octets: k\\u{20}; it is no XML name\n",
        ),
        (
            "check --byte-aligned -",
            b"\x80\x00\x05urn:x\x04a:b\x00",
            "  the name, by its octets: a:b; it has a colon\n",
        ),
        (
            "check --byte-aligned --instructions -",
            b"\x80\x01\x03xMl\x00",
            "  the name, by its octets: xMl; no target is xml, in any case\n",
        ),
        // <1a/>, bit-packed
        (
            "check -",
            b"\x80\x40\xCC\x58\x40",
            "  the name, by its octets: 1a; it is no XML name\n",
        ),
        // <a xsi:nil, <a xsi:type, and the first bit-packed
        (
            "check --byte-aligned -",
            b"\x80\x01\x02a\x01\x03\x00\x00",
            "  the name is nil or type of XMLSchema-instance, which no attribute may have\n",
        ),
        (
            "check --byte-aligned -",
            b"\x80\x01\x02a\x01\x03\x00\x01",
            "  the name is nil or type of XMLSchema-instance, which no attribute may have\n",
        ),
        (
            "check -",
            b"\x80\x40\x98\x5C\x00",
            "  the name is empty, or nil or type of XMLSchema-instance, which no attribute may",
        ),
        // an element, an attribute and a target without a name, and the first bit-packed
        (
            "check --byte-aligned -",
            b"\x80\x01\x01\x00",
            "  the name is empty\n",
        ),
        (
            "check --byte-aligned -",
            b"\x80\x01\x02a\x01\x03\x01\x00",
            "  the name is empty\n",
        ),
        (
            "check --byte-aligned --instructions -",
            b"\x80\x01\x00\x00",
            "  the name is empty\n",
        ),
        (
            "check -",
            b"\x80\x40\x40",
            "  the name is empty, or nil or type of XMLSchema-instance, which no attribute may",
        ),
        // <a:b in urn:x, bit-packed
        (
            "check -",
            b"\x80\x01\x5D\x5C\x9B\x8E\x9E\x01\x18\x4E\x98\x80",
            "which no attribute may have, or stands behind a new URI\n",
        ),
    ] {
        let (status, _, stderr) = exi(words, octets);
        assert!(
            stderr.starts_with("exi: refused: 11 NAME, event "),
            "{words}: {stderr}"
        );
        assert!(stderr.contains(says), "{words}: {stderr}");
        assert_eq!(status, Some(1), "{words}");
    }
    let (_, _, stderr) = exi("check --byte-aligned refused-name.exi", b"");
    assert!(
        stderr.ends_with("  the name, by its octets: reading:; it has a colon\n"),
        "{stderr}"
    );
}

/// In packets the verdict is that of the whole stream, and events are told on the way.
#[test]
fn packets() {
    for size in ["1", "24", "240", "99999"] {
        for (flags, stream) in [
            ("", "day-bit-packed.exi"),
            ("--byte-aligned", "day-byte-aligned.exi"),
            ("--cookie --comments --instructions", "kinds.exi"),
            ("", "refused-tail.exi"),
            ("--byte-aligned", "refused-header.exi"),
            ("--byte-aligned", "refused-ended.exi"),
            ("--byte-aligned", "refused-loose.exi"),
        ] {
            let whole = exi(&format!("check {flags} {stream}"), b"");
            let (status, stdout, stderr) =
                exi(&format!("check --packets {size} {flags} {stream}"), b"");
            let (told, verdict) = stdout.split_once('\n').expect("a line");
            assert!(
                told.starts_with(&format!("packets of {size} octet")),
                "{told}"
            );
            assert_eq!(
                (status, verdict, stderr.as_str()),
                (whole.0, whole.1.as_str(), whole.2.as_str())
            );
        }
    }
    let (_, stdout, _) = exi("check --packets 24 day-bit-packed.exi", b"");
    let told = "packets of 24 octets, events complete: 47 after packet 16, 99 after packet 32, \
                147 after packet 48, 196 after packet 64\n";
    assert!(stdout.starts_with(told), "{stdout}");
    let (_, stdout, _) = exi("check --packets 24 refused-tail.exi", b"");
    assert!(
        stdout.ends_with(", 147 after packet 48, refused with packet 64\n"),
        "{stdout}"
    );
    let (_, stdout, _) = exi("check --packets 1000 -", &[0x80; 16_385]);
    assert!(
        stdout.starts_with("packets of 1000 octets, events complete: refused with packet "),
        "{stdout}"
    );
}

#[test]
fn code_points_in_utf8() {
    let flags = "--cookie --comments --instructions kinds.exi";
    let (_, escaped, _) = exi(&format!("show {flags}"), b"");
    let (_, plain, _) = exi(&format!("show --utf8 {flags}"), b"");
    assert!(escaped.contains("7\\u{b5}m") && escaped.contains("\\u{1f309}") && escaped.is_ascii());
    assert!(plain.contains("7\u{b5}m") && plain.contains('\u{1f309}'));
    assert!(plain.contains("\\\"closed\\\"\\tby"));
}

/// Output that cannot be written is said in one line.
#[test]
fn output_that_is_closed_or_full() {
    let folder = root().join("samples");
    for (words, says) in [
        (
            "show day-bit-packed.exi >&-",
            "exi: standard output is closed",
        ),
        (
            "show day-bit-packed.exi >/dev/full",
            "exi: cannot write standard output: No space left",
        ),
        (
            "readings day-bit-packed.exi >/dev/full",
            "exi: cannot write standard output: No space left",
        ),
        (
            "write-readings day.csv - >/dev/full",
            "exi: cannot write -: No space left",
        ),
        (
            "show day-bit-packed.exi day-with-gap.exi >/dev/full",
            "exi: cannot write standard output: No space left",
        ),
        (
            "--help >/dev/full",
            "exi: cannot write standard output: No space left",
        ),
        (
            "--version >/dev/full",
            "exi: cannot write standard output: No space left",
        ),
        (
            "plot --help >/dev/full",
            "exi: cannot write standard output: No space left",
        ),
        (
            "write-readings day.csv no/such/folder",
            "exi: cannot write no/such/folder: No such file",
        ),
    ] {
        let script = format!("../exi {words}");
        let output = Command::new("sh")
            .args(["-c", &script])
            .current_dir(&folder)
            .output()
            .unwrap();
        let stderr = String::from_utf8(output.stderr).unwrap();
        assert!(stderr.starts_with(says), "{words}: {stderr}");
        assert_eq!(
            (output.status.code(), stderr.lines().count()),
            (Some(2), 1),
            "{words}"
        );
    }
}

/// A pipe that nothing reads any more is said in one line, too.
#[test]
fn output_that_is_a_closed_pipe() {
    let folder = root().join("samples");
    for words in [
        "show day-of-500.exi day-bit-packed.exi",
        "readings day-bit-packed.exi",
        "check day-bit-packed.exi",
        "--help",
        "--version",
        "plot --help",
        "plot day-bit-packed.exi -",
    ] {
        // the reader is gone before the script is asked to write
        let script = format!("{{ sleep 1; ../exi {words}; echo \"status $?\" >&2; }} | :",);
        let output = Command::new("sh")
            .args(["-c", &script])
            .current_dir(&folder)
            .output()
            .unwrap();
        let stderr = String::from_utf8(output.stderr).unwrap();
        let lines: Vec<&str> = stderr.lines().collect();
        assert_eq!(lines.len(), 2, "{words}: {stderr}");
        assert!(lines[0].contains("Broken pipe"), "{words}: {stderr}");
        assert_eq!(lines[1], "status 2", "{words}");
    }
}

/// A folder that goes with the test. It has a source, which `rt ci` refuses anywhere in this
/// repository but among its crates.
struct Scripted(PathBuf);

impl std::ops::Deref for Scripted {
    type Target = Path;

    fn deref(&self) -> &Path {
        &self.0
    }
}

impl Drop for Scripted {
    fn drop(&mut self) {
        let _ = fs::remove_dir_all(&self.0);
    }
}

/// A repository of its own with the script and a kit that proves nothing: `rt run` says of one of
/// two crates that it is proved, nothing of the other, which has not changed, and makes a program
/// that prints its words.
fn scripted(test: &str) -> Scripted {
    let name = format!("plumethrift-{test}-{}", std::process::id());
    let folder = std::env::temp_dir().join(name);
    let _ = fs::remove_dir_all(&folder);
    for inner in ["bin", ".ci", "crates/exi/src"] {
        fs::create_dir_all(folder.join(inner)).unwrap();
    }
    fs::copy(root().join("exi"), folder.join("exi")).unwrap();
    fs::write(folder.join(".ci/kit"), "kit 1\n").unwrap();
    fs::write(
        folder.join("crates.txt"),
        "# NAME: ..\ntext:\nexi: text io\nother: text\n",
    )
    .unwrap();
    fs::write(folder.join("crates/exi/src/main.rt"), "").unwrap();
    let rt = folder.join("bin/rt");
    let made = "#!/bin/sh\ntop=$(dirname \"$0\")/..\n\
                if [ $1 = version ]; then cat \"$top/kit\"; exit; fi\n\
                echo 'crate exi: modules loaded=0 checked=2' >&2\n\
                [ ! -e \"$top/fails\" ] || { echo 'fn exi::main: not proved' >&2; exit 1; }\n\
                mkdir -p out\nprintf '#!/bin/sh\\necho \"$@\"\\n' >out/exi\n\
                chmod +x out/exi\necho 'logic=proved functions=1' >&2\n\
                [ \"$1 $2\" != 'run --' ] || { shift 2; exec out/exi \"$@\"; }\n";
    fs::write(&rt, made).unwrap();
    fs::set_permissions(&rt, std::os::unix::fs::PermissionsExt::from_mode(0o755)).unwrap();
    fs::write(folder.join("kit"), "kit 1\n").unwrap();
    Scripted(folder)
}

fn run_scripted(folder: &Path, word: &str) -> (Option<i32>, String, String) {
    let path = format!(
        "{}:{}",
        folder.join("bin").display(),
        std::env::var("PATH").unwrap()
    );
    let output = Command::new(folder.join("exi"))
        .arg(word)
        .current_dir(folder)
        .env("PATH", path)
        .output()
        .expect("the script");
    let text = |octets: Vec<u8>| String::from_utf8(octets).expect("text");
    (
        output.status.code(),
        text(output.stdout),
        text(output.stderr),
    )
}

/// The first use shows each crate as it is proved; the kit is told where it is another.
#[test]
fn first_use() {
    let folder = scripted("first");
    fs::write(folder.join("fails"), "").unwrap();
    let (status, _, stderr) = run_scripted(&folder, "show");
    assert!(stderr.contains("fn exi::main: not proved"), "{stderr}");
    assert!(
        stderr.ends_with("exi: the program was not built\n"),
        "{stderr}"
    );
    assert_eq!(status, Some(2));
    fs::remove_file(folder.join("fails")).unwrap();
    fs::write(folder.join("kit"), "kit 2\n").unwrap();
    let (status, stdout, stderr) = run_scripted(&folder, "show");
    let (said, seconds) = stderr.split_once("exi, ").expect("the last crate");
    assert_eq!(
        said,
        "exi: note: this kit is 'kit 2'; the repository is proved with 'kit 1'\n\
         exi: proving and building the program, once\n\
         exi: crate 1 of 2: text, unchanged since it was last proved\n\
         exi: crate 2 of 2: "
    );
    assert!(seconds.ends_with(" s\n") && seconds.len() < 6, "{stderr}");
    assert_eq!((status, stdout.as_str()), (Some(0), "show\n"));
    let (status, _, stderr) = run_scripted(&folder, "show");
    assert_eq!((status, stderr.as_str()), (Some(0), ""));
}

/// A program that is older than a source says so, and is built again where that is asked for.
#[test]
fn a_program_that_is_stale() {
    let folder = scripted("stale");
    run_scripted(&folder, "show");
    let source = fs::File::options()
        .append(true)
        .open(folder.join("crates/exi/src/main.rt"))
        .unwrap();
    let later = std::time::SystemTime::now() + std::time::Duration::from_secs(60);
    source.set_modified(later).unwrap();
    let (status, stdout, stderr) = run_scripted(&folder, "show");
    assert!(
        stderr.starts_with("exi: note: the program is older than crates/exi/src/main.rt;"),
        "{stderr}"
    );
    assert_eq!((status, stdout.as_str()), (Some(0), "show\n"));
    source
        .set_modified(later - std::time::Duration::from_secs(120))
        .unwrap();
    assert_eq!(run_scripted(&folder, "--build").0, Some(0));
    assert_eq!(run_scripted(&folder, "show").2, "");
}

// ---- readings

fn sample(name: &str) -> Vec<u8> {
    fs::read(root().join("samples").join(name)).expect(name)
}

/// A folder of its own for what a test writes, empty.
fn folder(test: &str) -> PathBuf {
    let folder = Path::new(env!("CARGO_TARGET_TMPDIR")).join(test);
    let _ = fs::remove_dir_all(&folder);
    fs::create_dir_all(&folder).expect("a folder");
    folder
}

const DAYS: [(&str, &str, &str); 3] = [
    ("--bit-packed", "day-bit-packed.exi", "day.csv"),
    ("--byte-aligned", "day-byte-aligned.exi", "day.csv"),
    ("--bit-packed", "day-with-gap.exi", "day-with-gap.csv"),
];

#[test]
fn readings_of_the_sample_days() {
    for (flag, stream, table) in DAYS {
        let (status, stdout, stderr) = exi(&format!("readings {flag} {stream}"), b"");
        assert_eq!((status, stderr.as_str()), (Some(0), ""), "{stream}");
        assert!(stdout.as_bytes() == sample(table), "{stream}");
        let (_, from_input, _) = exi(&format!("readings - {flag}"), &sample(stream));
        assert!(from_input == stdout, "{stream}");
    }
    let (_, stdout, _) = exi("readings --ms day-with-gap.exi", b"");
    assert!(stdout.starts_with("ms,um\n825638400000,3700\n825640200000,4750\n"));
    assert!(stdout.ends_with("\n825723000000,1500\n"));
}

/// What is made of a table is the sample's stream, octet for octet.
#[test]
fn streams_of_the_sample_days() {
    let folder = folder("streams");
    for (flag, stream, table) in DAYS {
        let table = root().join("samples").join(table);
        let words = ["write-readings", flag, table.to_str().unwrap(), "made.exi"];
        let (status, _, stderr) = exi_in(&folder, &words, b"");
        assert_eq!((status, stderr.as_str()), (Some(0), ""), "{stream}");
        assert!(
            fs::read(folder.join("made.exi")).unwrap() == sample(stream),
            "{stream}"
        );
    }
}

/// Every reading of a day of 500 goes round.
#[test]
fn a_day_of_500() {
    let folder = folder("500");
    let (_, table, _) = exi("readings day-of-500.exi", b"");
    assert_eq!(table.lines().count(), 501);
    fs::write(folder.join("500.csv"), table).unwrap();
    let words = ["write-readings", "500.csv", "500.exi"];
    assert_eq!(exi_in(&folder, &words, b"").0, Some(0));
    assert!(fs::read(folder.join("500.exi")).unwrap() == sample("day-of-500.exi"));
}

/// A table is never written over, and may begin with a byte order mark.
#[test]
fn tables_in_files() {
    let folder = folder("files");
    let table = "\u{feff}t,um\n2026-03-01T00:00:00.000Z,1\n";
    fs::write(folder.join("a.csv"), table).unwrap();
    fs::hard_link(folder.join("a.csv"), folder.join("b.csv")).unwrap();
    let words = ["a.csv", "./a.csv", "b.csv"].map(|out| vec!["a.csv", out]);
    let bounded = [
        vec!["--capacity", "64", "a.csv", "./a.csv"],
        vec!["a.csv", "--max-length", "9", "b.csv"],
        vec!["a.csv", "./a.csv", "--capacity", "64"],
    ];
    for words in words.into_iter().chain(bounded) {
        let words = [&["write-readings"], &words[..]].concat();
        let (status, stdout, stderr) = exi_in(&folder, &words, b"");
        assert!(
            stderr.starts_with("exi: CSV and OUT are one file"),
            "{stderr}"
        );
        assert_eq!((status, stdout.as_str()), (Some(2), ""));
        assert_eq!(fs::read_to_string(folder.join("a.csv")).unwrap(), table);
    }
    let (status, stdout, stderr) = exi_in(&folder, &["write-readings", "a.csv", "a.exi"], b"");
    assert!(
        stdout.starts_with("written: 1 reading, "),
        "{stdout}{stderr}"
    );
    assert_eq!(status, Some(0));
}

#[test]
fn streams_that_have_no_readings() {
    refused("readings refused-tail.exi", b"", "13 TAIL, event 196: ");
    refused(
        "readings -",
        b"\x80\x40\x98\x40",
        "16 STRUCTURE, reading 0: ",
    ); // <a/>
}

/// Tables with a bad line: it is told by its number, and nothing is written.
#[test]
fn tables_that_are_refused() {
    let folder = folder("tables");
    let good = "2026-03-01T00:00:00.000Z,1";
    for (lines, says) in [
        (vec![], "16 STRUCTURE, line 1: "),
        (vec!["um,t", good], "16 STRUCTURE, line 1: "),
        (
            vec!["t,um", "2026-02-29T00:00:00.000Z,1"],
            "17 BAD_STAMP, line 2: ",
        ),
        (
            vec!["t,um", good, "2026-03-01T00:30:00.000Z"],
            "16 STRUCTURE, line 3: ",
        ),
        (
            vec!["t,um", good, "2026-03-01T00:30:00.000Z,20001"],
            "18 BAD_MOVEMENT, line 3: ",
        ),
        (
            vec!["t,um", good, "2026-03-01T00:30:00.000Z,+1"],
            "18 BAD_MOVEMENT, line 3: ",
        ),
        (vec!["t,um", good, good], "19 NOT_LATER, line 3: "),
        (
            vec!["ms,um", "0,0", "1,-20000", "1,0"],
            "19 NOT_LATER, line 4: ",
        ),
        (
            vec!["ms,um", "3155759999999,0", "3155760000000,0"],
            "17 BAD_STAMP, line 3: ",
        ),
    ] {
        fs::write(folder.join("bad.csv"), lines.join("\n") + "\n").unwrap();
        let words = ["write-readings", "bad.csv", "bad.exi"];
        let (status, stdout, stderr) = exi_in(&folder, &words, b"");
        let says = format!("exi: refused: {says}");
        assert!(stderr.starts_with(&says), "{lines:?}: {stderr}");
        assert_eq!((status, stdout.as_str()), (Some(1), ""), "{lines:?}");
        assert!(!folder.join("bad.exi").exists(), "{lines:?}");
    }
}

/// As many readings as a stream holds, one more, and more than a list may have; whatever follows.
#[test]
fn tables_with_many_lines() {
    let folder = folder("many");
    let table = |count: u32| {
        let lines = (0..count).map(|k| format!("{},0\r\n", 86_400_000 * u64::from(k)));
        format!("ms,um\r\n{}", lines.collect::<String>())
    };
    let made = |table: String| {
        fs::write(folder.join("many.csv"), table).unwrap();
        exi_in(&folder, &["write-readings", "many.csv", "many.exi"], b"")
    };
    let (status, stdout, stderr) = made(table(606));
    assert_eq!(stdout, "written: 606 readings, 16384 octets\n", "{stderr}");
    assert_eq!(status, Some(0));
    for (table, says) in [
        (table(607), "3 LONG: "),
        (table(678), "3 LONG: "),
        (table(679), "12 LIMIT, line 680: "),
        (table(2_000), "12 LIMIT, line 680: "),
        (table(679) + "x", "12 LIMIT, line 680: "),
        (table(678) + "x", "16 STRUCTURE, line 680: "),
    ] {
        let (status, stdout, stderr) = made(table);
        let says = format!("exi: refused: {says}");
        assert!(stderr.starts_with(&says), "{stderr}");
        assert_eq!((status, stdout.as_str()), (Some(1), ""));
    }
}

/// Under bounds of values movements are laid again: what passes the text store is told by its line.
#[test]
fn tables_under_bounds() {
    let folder = folder("bounds");
    let lines = (0..600).map(|k| format!("{},-20000\n", 86_400_000 * u64::from(k as u32)));
    let table = format!("ms,um\n{}", lines.collect::<String>());
    fs::write(folder.join("a.csv"), table).unwrap();
    let words = ["write-readings", "a.csv", "a.exi"];
    let (status, stdout, stderr) = exi_in(&folder, &words, b"");
    assert!(stdout.starts_with("written: 600 readings, "), "{stderr}");
    assert_eq!(status, Some(0));
    // 111 code points and 30 for each reading: the 543rd stamp is too many
    for bound in [["--max-length", "0"], ["--capacity", "0"]] {
        let words = [&words[..], &bound[..]].concat();
        let (status, stdout, stderr) = exi_in(&folder, &words, b"");
        assert!(
            stderr.starts_with("exi: refused: 12 LIMIT, line 544: "),
            "{stderr}"
        );
        assert_eq!((status, stdout.as_str()), (Some(1), ""));
    }
}

/// The pictures of the documents are those of the samples.
#[test]
fn plots() {
    let document = |name: &str| fs::read(root().join("docs").join(name)).expect(name);
    for (words, kept) in [
        ("plot day-bit-packed.exi -", "day.svg"),
        (
            "plot --capacity 2048 day-bit-packed.exi --max-length 99 -",
            "day.svg",
        ),
        ("plot day-with-gap.exi --bit-packed -", "day-with-gap.svg"),
    ] {
        let (status, stdout, stderr) = exi(words, b"");
        assert_eq!((status, stderr.as_str()), (Some(0), ""), "{words}");
        assert!(stdout.as_bytes() == document(kept), "{words}");
    }

    // Without a name of its own the picture has the stream's, in the current folder.
    let folder = folder("plots");
    let day = root().join("samples/day-byte-aligned.exi");
    let day = day.to_str().unwrap();
    let (status, stdout, stderr) = exi_in(&folder, &["plot", "--byte-aligned", day], b"");
    assert_eq!((status, stderr.as_str()), (Some(0), ""));
    assert_eq!(stdout, "plotted: 48 readings, day-byte-aligned.svg\n");
    let made = fs::read_to_string(folder.join("day-byte-aligned.svg")).unwrap();
    assert_eq!(made.matches("<circle ").count(), 48);
    for said in [
        "Movement (µm)",
        "Date and time (UTC)",
        "day-byte-aligned.exi",
    ] {
        assert!(made.contains(&format!("{said}</text>")), "{said}");
    }
    let words = ["plot", "-", "a name.svg"];
    let (status, _, _) = exi_in(&folder, &words, &sample("day-with-gap.exi"));
    let made = fs::read_to_string(folder.join("a name.svg")).unwrap();
    assert_eq!((status, made.matches("<circle ").count()), (Some(0), 37));
    assert!(made.contains("standard input</text>"));
}

#[test]
fn plots_that_are_not_made() {
    let folder = folder("no-plots");
    let sample = |name: &str| {
        root()
            .join("samples")
            .join(name)
            .to_str()
            .unwrap()
            .to_string()
    };
    let (day, tail) = (sample("day-bit-packed.exi"), sample("refused-tail.exi"));
    for (words, status, says) in [
        (vec!["plot"], 2, "exi: no FILE is named"),
        (
            vec!["plot", &day, "a.exi"],
            2,
            "exi: the picture's name has to end in .svg",
        ),
        (
            vec!["plot", &day, "a.svg", "b.svg"],
            2,
            "exi: a FILE and an OUT are enough",
        ),
        (
            vec!["plot", &day, "no folder/a.svg"],
            2,
            "plot: cannot write ",
        ),
        (vec!["plot", "no file"], 2, "exi: cannot read "),
        (
            vec!["plot", &day, "a.svg", "--loose"],
            2,
            "exi: word 4 is not understood: --loose;",
        ),
        (vec!["plot", &tail], 1, "exi: refused: 13 TAIL, event 196: "),
        (vec!["plot", &day, "--byte-aligned"], 1, "exi: refused: "),
    ] {
        let (got, stdout, stderr) = exi_in(&folder, &words, b"");
        assert!(stderr.starts_with(says), "{words:?}: {stderr}");
        assert_eq!((got, stdout.as_str()), (Some(status), ""), "{words:?}");
    }
    assert_eq!(fs::read_dir(&folder).unwrap().count(), 0);
    let (status, stdout, _) = exi_in(&folder, &["plot", "--help"], b"");
    assert!(stdout.contains("exi plot [FLAG..] FILE [OUT.svg]"));
    assert_eq!(status, Some(0));
}
