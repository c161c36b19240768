//! Requests with their answers, from files: both sides of every size, memory that is too short,
//! settings without a meaning, and random lists and streams, good and damaged.

#![forbid(unsafe_code)]

use std::collections::HashMap;

use compare::lent::BOTH;
use compare::protocol::{Asker, Request};

const EDGES: &str = include_str!("../vectors/edges.txt");
const RANDOM: &str = include_str!("../vectors/random.txt");
const ROOM: &str = include_str!("../vectors/room.txt");
const CROSS: &str = include_str!("../vectors/cross.txt");
const P1_ALL: &str = include_str!("../vectors/p1-all.txt");
const P1_EDGES: &str = include_str!("../vectors/p1-edges.txt");
const P1_RANDOM: &str = include_str!("../vectors/p1-random.txt");
const P2_ALL: &str = include_str!("../vectors/p2-all.txt");
const P2_BASE: &str = include_str!("../vectors/p2-base.txt");
const P2_EDGES: &str = include_str!("../vectors/p2-edges.txt");
const P2_RANDOM: &str = include_str!("../vectors/p2-random.txt");
const P3_ALL: &str = include_str!("../vectors/p3-all.txt");
const P3_BASE: &str = include_str!("../vectors/p3-base.txt");
const P3_EDGES: &str = include_str!("../vectors/p3-edges.txt");
const P3_RANDOM: &str = include_str!("../vectors/p3-random.txt");
const P5_EDGES: &str = include_str!("../vectors/p5-edges.txt");
const P5_RANDOM: &str = include_str!("../vectors/p5-random.txt");
const P6_ALL: &str = include_str!("../vectors/p6-all.txt");
const P6_BASE: &str = include_str!("../vectors/p6-base.txt");
const P6_EDGES: &str = include_str!("../vectors/p6-edges.txt");
const P6_RANDOM: &str = include_str!("../vectors/p6-random.txt");
const P8_EDGES: &str = include_str!("../vectors/p8-edges.txt");
const P8_RANDOM: &str = include_str!("../vectors/p8-random.txt");
const P12_EDGES: &str = include_str!("../vectors/p12-edges.txt");
const P12_RANDOM: &str = include_str!("../vectors/p12-random.txt");

/// Lines of the base whose answers changed, in the order of landing: the last that has a line
/// holds.
const CHANGED: [&str; 3] = [P2_BASE, P3_BASE, P6_BASE];

/// The requests of document 02 that have landed, by their numbers. Each landing adds its own.
const LANDED: [u32; 7] = [1, 2, 3, 5, 6, 8, 12];

/// The lines of a file, each as a request and its answer.
fn lines(file: &str) -> impl Iterator<Item = (&str, &str)> {
    file.lines()
        .map(|line| line.split_once(" => ").expect("a request and its answer"))
}

/// The lines of a file of the base, with the answers that hold now, and how many of these changed.
fn base(file: &'static str) -> (Vec<(&'static str, &'static str)>, usize) {
    let changed: HashMap<_, _> = CHANGED.into_iter().flat_map(lines).collect();
    let now = |(request, answer)| (request, *changed.get(request).unwrap_or(&answer));
    let all: Vec<_> = lines(file).map(now).collect();
    let count = all.iter().zip(lines(file)).filter(|(a, b)| *a != b).count();
    (all, count)
}

/// Both implementations answer these requests as they have to.
fn run<'a>(lines: impl Iterator<Item = (&'a str, &'a str)>, count: usize) {
    let mut askers = BOTH.map(Asker::new);
    let mut asked = 0;
    for (request, answer) in lines {
        for (asker, codec) in askers.iter_mut().zip(BOTH) {
            let got = asker.answer_line(request);
            assert!(
                got == answer,
                "{codec:?}: {request}\nanswered {got}\nand not  {answer}"
            );
        }
        asked += 1;
    }
    assert_eq!(asked, count);
}

#[test]
fn both_sides_of_every_size() {
    let (all, changed) = base(EDGES);
    assert_eq!(changed, 30);
    run(all.into_iter(), 400);
}

#[test]
fn random_lists_and_streams() {
    let (all, changed) = base(RANDOM);
    assert_eq!(changed, 235);
    run(all.into_iter(), 1_500);
}

/// P1: fragments.
#[test]
fn fragments() {
    run(lines(P1_EDGES), 160);
    run(lines(P1_RANDOM), 600);
    run(lines(P1_ALL), 41);
}

/// P2: strings of 4,096 code points and 2,048 values.
#[test]
fn longer_strings_and_more_values() {
    let (all, changed) = base(P2_BASE);
    assert_eq!(changed, 6);
    run(all.into_iter(), 74);
    run(lines(P2_EDGES), 109);
    run(lines(P2_RANDOM), 472);
    run(lines(P2_ALL), 33);
}

/// P3: equal attributes in one start tag.
#[test]
fn equal_attributes() {
    let (all, changed) = base(P3_BASE);
    assert_eq!(changed, 12);
    run(all.into_iter(), 32);
    run(lines(P3_EDGES), 136);
    run(lines(P3_RANDOM), 600);
    run(lines(P3_ALL), 28);
}

/// P5: bounded value tables.
#[test]
fn bounded_values() {
    run(lines(P5_EDGES), 258);
    run(lines(P5_RANDOM), 600);
}

/// P6: names, targets, and texts of comments and instructions.
#[test]
fn names() {
    run(lines(P6_BASE), 167);
    run(lines(P6_EDGES), 285);
    run(lines(P6_RANDOM), 600);
    run(lines(P6_ALL), 1);
}

/// P8: streams in pieces.
#[test]
fn packets() {
    run(lines(P8_EDGES), 129);
    run(lines(P8_RANDOM), 600);
}

/// P12: readings of lists, and lists of readings.
#[test]
fn readings() {
    run(lines(P12_EDGES), 249);
    run(lines(P12_RANDOM), 600);
}

/// ROOM and SETTINGS of the base.
#[test]
fn too_little_memory_and_settings_without_a_meaning() {
    run(lines(ROOM), 70);
}

/// What has to have landed for the answer to a line of `cross.txt` to hold: what its letter and its
/// words name, and P2, P3 and P6.
fn asks_for(request: &str) -> Vec<u32> {
    let mut all = vec![2, 3, 6];
    let mut words = request.split(' ');
    all.extend(match words.next() {
        Some("r" | "w") => None,
        Some("f") => Some(8),
        Some("m" | "l") => Some(12),
        Some("x" | "u") => Some(13),
        other => panic!("no request: {other:?}"),
    });
    for (name, _) in words.filter_map(|word| word.split_once('=')) {
        all.extend(match name {
            "fragment" => Some(1),
            "vmax" | "vcap" => Some(5),
            "loose" => Some(7),
            "prefixes" => Some(11),
            "cap" => Some(14),
            "short" | "room" | "events" => None,
            other => panic!("no word: {other:?}"),
        });
    }
    all
}

/// Whether all that a line of `cross.txt` asks for has landed: what it names, and its events, which
/// may have prefixes (P11) without the setting.
fn has_landed(request: &str) -> bool {
    let is_landed = |it: &u32| LANDED.contains(it);
    Request::parse(request).is_ok() && asks_for(request).iter().all(is_landed)
}

/// Settings of several requests in one line: each line is put once all that it names has landed.
/// ROOM and SETTINGS are the answers before that, too.
#[test]
fn settings_of_several_requests() {
    let at_once = |request: &str, answer: &str| {
        Request::parse(request).is_ok()
            && (answer.starts_with("1 0 ") || answer.starts_with("2 0 "))
    };
    let (now, later): (Vec<_>, Vec<_>) =
        lines(CROSS).partition(|(request, answer)| at_once(request, answer) || has_landed(request));
    assert_eq!((now.len(), later.len()), (80, 710));
    run(now.into_iter(), 80);
}

/// The requests of `cross.txt` that are understood, whatever settings they name: those to read,
/// whole or in pieces, and those to write events without prefixes.
fn understood() -> impl Iterator<Item = &'static str> {
    let requests = lines(CROSS).map(|(request, _)| request);
    requests.filter(|request| Request::parse(request).is_ok())
}

const MOST: &str = "18446744073709551615";

#[test]
fn requests_are_printed_as_they_stand() {
    let files = [
        EDGES, RANDOM, ROOM, P1_EDGES, P1_RANDOM, P1_ALL, P2_EDGES, P2_RANDOM, P2_ALL, P3_EDGES,
        P3_RANDOM, P3_ALL, P5_EDGES, P5_RANDOM, P6_EDGES, P6_RANDOM, P6_ALL, P8_EDGES, P8_RANDOM,
        P12_EDGES, P12_RANDOM,
    ];
    let all = files.into_iter().flat_map(lines);
    let mut printed = 0;
    for request in all.map(|(request, _)| request).chain(understood()) {
        // What fits no cell has another in its place: a number over 32 bits, a stamp below 0, an
        // event that lacks a string.
        let parsed = Request::parse(request).expect(request).to_string();
        let is_other = |word| parsed.contains(word) && !request.contains(word);
        if !parsed.contains(MOST) && !request.contains(MOST) && !is_other("BAD") {
            assert_eq!(parsed, request);
            printed += 1;
        }
    }
    assert_eq!(printed, 8_061);
}

/// What a setting asks for that has not landed is SETTINGS before anything else; but ROOM comes
/// first.
#[test]
fn settings_that_have_not_landed() {
    let mut askers = BOTH.map(Asker::new);
    let mut asked = 0;
    for request in understood().filter(|it| !has_landed(it)) {
        let number = if request.contains("short=") { 1 } else { 2 };
        let answer = match Request::parse(request) {
            Ok(Request::Packets { calls, .. }) => {
                let number = if calls[0].short.is_some() { 1 } else { 2 };
                vec![format!("{number} 0 0 0 - -"); calls.len()].join(" | ")
            }
            Ok(Request::Read { .. }) => format!("{number} 0 - -"),
            _ => format!("{number} 0 -"),
        };
        for asker in &mut askers {
            assert_eq!(asker.answer_line(request), answer);
        }
        asked += 1;
    }
    assert_eq!(asked, 547);
}
