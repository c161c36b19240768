//! Streams in pieces: both implementations against the ordinary reader on the octets so far.
//!
//! A run puts 6,000 random streams in a release build and 300 otherwise; `COMPARE_REQUESTS` and
//! `COMPARE_SEED` ask for others, the first as one stream for 60 requests. What fails is told by
//! its request line, which the batch program takes.

#![forbid(unsafe_code)]

use std::collections::BTreeMap;

use compare::check::hex;
use compare::damage::{damaged_fields, damaged_stream, random_stream};
use compare::encode::encode;
use compare::event::{attribute, characters, document, element, Event};
use compare::generate::{self, Profile};
use compare::lent::{
    ReaderPart, Settings, BOTH, CODE, ENDED, HEADER, LIMIT, LONG, REFERENCE, ROOM, SETTINGS, TAIL,
};
use compare::packets::check::run_changed;
use compare::packets::check::PacketComparison;
use compare::packets::cut::{after_the_close, at_random, by_octets, filled_up, short_once};
use compare::packets::{Call, PacketMemory, PacketSizes, Receiver};
use compare::prng::Prng;
use compare::protocol::Request;
use compare::sizes::{MAX_EVENTS, MAX_STREAM, MAX_STRING};

const ALIGNED: Settings = Settings::BYTE_ALIGNED;

fn asked(name: &str, usual: u64) -> u64 {
    std::env::var(name).map_or(usual, |number| number.parse().expect("a number"))
}

fn seed() -> u64 {
    asked("COMPARE_SEED", 8)
}

fn rounds() -> u64 {
    let usual = if cfg!(debug_assertions) {
        18_000
    } else {
        360_000
    };
    asked("COMPARE_REQUESTS", usual) / 60
}

/// The last answer's number and index, to pieces as hexadecimal digits; `.` is the close.
fn last(settings: Settings, pieces: &[&str]) -> (u32, u32) {
    let call = |piece: &&str| match *piece {
        "." => Call::close(),
        digits => Call::feed(&hex(digits)),
    };
    let calls: Vec<Call> = pieces.iter().map(call).collect();
    let reply = PacketComparison::new().run(settings, &calls);
    let reply = reply.unwrap_or_else(|error| panic!("{error}"));
    (reply.number, reply.index)
}

#[test]
fn answers_that_the_request_names() {
    assert_eq!(last(ALIGNED, &["80 01 02 61 00", "", "00"]), (TAIL, 4));
    assert_eq!(last(ALIGNED, &["80 01 02 61 00", "", "00", "."]), (TAIL, 4));
    assert_eq!(last(ALIGNED, &["80 01 00"]), (REFERENCE, 1));
    assert_eq!(last(ALIGNED, &["80 01 02 61", "04", "."]), (CODE, 2));
    assert_eq!(last(ALIGNED, &["80 01 02 61 01 01 02 6B"]), (0, 0));
    assert_eq!(last(ALIGNED, &["80 01 02 61 01 01 02 6B", "."]), (ENDED, 2));
    assert_eq!(last(ALIGNED, &["."]), (ENDED, 0));
    assert_eq!(last(ALIGNED, &["80", "", "."]), (ENDED, 1));
    assert_eq!(last(ALIGNED, &["80 01 02 61 00", ".", "00", "."]), (0, 0));
    assert_eq!(last(Settings::BIT_PACKED, &["80 40 98", "41"]), (TAIL, 4));
    let settings = ALIGNED.with(0, 2);
    assert_eq!(last(settings, &["", "."]), (SETTINGS, 0));
    assert_eq!(last(settings, &["."]), (SETTINGS, 0));
}

/// The event past the last one is refused with the octet that completes the one before it.
#[test]
fn the_event_limit() {
    let mut events = vec![element("", "a")];
    events.extend((0..MAX_EVENTS - 2).map(|_| characters("")));
    events.push(Event::EndElement);
    let stream = encode(ALIGNED, &document(events)).octets();
    let mut both = PacketComparison::new();
    let calls = by_octets(&stream);
    let reply = both.run_some(ALIGNED, &calls, 701).expect("as due");
    assert_eq!((reply.number, reply.index), (LIMIT, MAX_EVENTS as u32));
}

/// A literal as long as one may be, octet by octet: the store shows nothing of it until its end.
#[test]
fn a_long_literal() {
    let text = "\u{20AC}".repeat(MAX_STRING);
    let list = document(vec![element("", "a"), characters(&text), Event::EndElement]);
    for settings in [ALIGNED, Settings::BIT_PACKED] {
        let stream = encode(settings, &list).octets();
        let mut both = PacketComparison::new();
        let reply = both
            .run_some(settings, &by_octets(&stream), 97)
            .expect("as due");
        assert_eq!((reply.number, reply.events), (0, 5));
    }
}

/// The value of an attribute whose name comes by its numbers, octet by octet: short, judged at each
/// octet, and as long as one may be.
#[test]
fn a_value_of_a_known_name() {
    let named = |uri, points| {
        document(vec![
            element(uri, "a"),
            attribute(uri, "k", "1"),
            element("", "b"),
            attribute(uri, "k", &"\u{20AC}".repeat(points)),
            Event::EndElement,
            Event::EndElement,
        ])
    };
    let mut both = PacketComparison::new();
    for settings in [ALIGNED, Settings::BIT_PACKED] {
        for (uri, points, every) in [("", 70, 1), ("u", 70, 1), ("u", MAX_STRING, 97)] {
            let stream = encode(settings, &named(uri, points)).octets();
            let reply = both
                .run_some(settings, &by_octets(&stream), every)
                .expect("as due");
            assert_eq!((reply.number, reply.events), (0, 8));
        }
    }
}

#[test]
fn past_the_length_of_a_stream() {
    let mut both = PacketComparison::new();
    let mut run = |settings: Settings, pieces: &[usize], first: u8| {
        let mut stream = vec![0; pieces.iter().sum()];
        stream[0] = first;
        let mut calls = Vec::new();
        let mut rest = &stream[..];
        for &size in pieces {
            let (piece, behind) = rest.split_at(size);
            calls.push(Call::feed(piece));
            rest = behind;
        }
        calls.push(Call::close());
        both.run(settings, &calls).expect("as due").number
    };
    assert_eq!(run(ALIGNED, &[1, MAX_STREAM - 1], 0x81), HEADER);
    assert_eq!(run(ALIGNED, &[1, MAX_STREAM - 1, 1], 0x81), LONG);
    assert_eq!(run(ALIGNED, &[MAX_STREAM, 0, 1, 0], 0x81), LONG);
    assert_eq!(run(ALIGNED, &[MAX_STREAM + 1], 0x81), LONG);
    assert_eq!(run(ALIGNED, &[MAX_STREAM + 1, 70_000], 0x81), LONG);
    assert_eq!(run(ALIGNED.with(0, 2), &[1, MAX_STREAM, 1], 0x80), SETTINGS);
    assert_eq!(run(ALIGNED.with(9, 1), &[MAX_STREAM + 1], 0x80), SETTINGS);

    // a good stream that becomes too long
    let text = "x".repeat(MAX_STRING);
    let long = document(vec![
        element("", "a"),
        Event::Characters(text.chars().map(u32::from).collect()),
    ]);
    let stream = encode(ALIGNED, &long[..3]).octets();
    let mut calls: Vec<Call> = stream.chunks(240).map(Call::feed).collect();
    calls.push(Call::feed(&vec![0; MAX_STREAM]));
    calls.push(Call::close());
    let reply = both.run(ALIGNED, &calls).expect("as due");
    assert_eq!((reply.number, reply.index), (LONG, 0));
}

/// ROOM at any call, of any part: the octets for the stream too.
#[test]
fn too_little_memory() {
    let short = [ReaderPart::Events, ReaderPart::Text, ReaderPart::Work];
    let mut all: Vec<PacketSizes> = short.into_iter().map(PacketSizes::short).collect();
    all.push(PacketSizes::short_of_octets());
    for codec in BOTH {
        for &sizes in &all {
            for at in 0..3 {
                let mut receiver = Receiver::start(codec, ALIGNED);
                let mut memory = PacketMemory::new();
                for k in 0..5 {
                    let piece = [Some(&[0x80][..]), Some(&[0x01]), None, Some(&[]), None][k];
                    let sizes = if k == at { sizes } else { PacketSizes::usual() };
                    let (reply, fault) = memory.call_with(sizes, &mut receiver, piece);
                    assert_eq!(fault, None, "{codec:?}, {sizes:?}, call {k}");
                    let number = if k < at { 0 } else { ROOM };
                    assert_eq!(
                        (reply.number, reply.index),
                        (number, 0),
                        "{codec:?}, call {k}"
                    );
                }
            }
            // after the close nothing is judged, and as much as is lent is cleared after a refusal
            for (stream, number) in [(&hex("80 01 02 61 00")[..], 0), (&[0xA0], HEADER)] {
                let mut receiver = Receiver::start(codec, ALIGNED);
                let mut memory = PacketMemory::new();
                for piece in [Some(stream), None, Some(&[0]), None] {
                    let closed = piece.is_none() || piece == Some(&[0]);
                    let sizes = if closed && number != 0 {
                        sizes
                    } else {
                        PacketSizes::usual()
                    };
                    let (reply, fault) = memory.call_with(sizes, &mut receiver, piece);
                    assert_eq!((reply.number, fault), (number, None), "{codec:?}");
                }
            }
        }
    }
}

/// The streams of the vectors: those to read, and those in pieces put together.
fn streams() -> Vec<(Settings, Vec<u8>)> {
    const FILES: [&str; 20] = [
        include_str!("../vectors/edges.txt"),
        include_str!("../vectors/random.txt"),
        include_str!("../vectors/room.txt"),
        include_str!("../vectors/cross.txt"),
        include_str!("../vectors/p1-all.txt"),
        include_str!("../vectors/p1-edges.txt"),
        include_str!("../vectors/p1-random.txt"),
        include_str!("../vectors/p2-all.txt"),
        include_str!("../vectors/p2-edges.txt"),
        include_str!("../vectors/p2-random.txt"),
        include_str!("../vectors/p3-all.txt"),
        include_str!("../vectors/p3-edges.txt"),
        include_str!("../vectors/p3-random.txt"),
        include_str!("../vectors/p5-edges.txt"),
        include_str!("../vectors/p5-random.txt"),
        include_str!("../vectors/p6-all.txt"),
        include_str!("../vectors/p6-edges.txt"),
        include_str!("../vectors/p6-random.txt"),
        include_str!("../vectors/p8-edges.txt"),
        include_str!("../vectors/p8-random.txt"),
    ];
    let lines = FILES.into_iter().flat_map(str::lines);
    let mut all = Vec::new();
    for line in lines.map(|line| line.split(" => ").next().expect("a request")) {
        match Request::parse(line) {
            Ok(Request::Read {
                settings, stream, ..
            }) => all.push((settings, stream)),
            Ok(Request::Packets { settings, calls }) => {
                let pieces = calls.into_iter().map_while(|call| call.piece);
                all.push((settings, pieces.flatten().collect()));
            }
            _ => {}
        }
    }
    all
}

/// Streams up to this length are judged after each octet, longer ones after every so many.
const SHORT_STREAM: usize = 400;

fn every(stream: &[u8]) -> usize {
    if stream.len() <= SHORT_STREAM {
        1
    } else {
        stream.len() / 40
    }
}

#[test]
fn every_stream_of_the_vectors() {
    let mut rng = Prng::new(seed());
    let mut both = PacketComparison::new();
    let streams = streams();
    assert!(streams.len() > 5_000);
    let step = if cfg!(debug_assertions) { 20 } else { 1 };
    for (settings, stream) in streams.into_iter().step_by(step) {
        let mut calls = at_random(&mut rng, &stream);
        after_the_close(&mut rng, &mut calls);
        let cut = both.run(settings, &calls);
        let octets = both.run_some(settings, &by_octets(&stream), every(&stream));
        for answer in [cut, octets] {
            answer.unwrap_or_else(|error| panic!("{error}"));
        }
    }
}

/// Random streams, good and damaged, cut anyhow; some past 16,384 octets, some lent too little.
#[test]
fn random_streams() {
    let mut rng = Prng::new(seed());
    let mut both = PacketComparison::new();
    let mut seen: BTreeMap<u32, usize> = BTreeMap::new();
    let mut before = vec![0x80];
    for _ in 0..rounds() {
        let settings = generate::settings(&mut rng);
        let strict = encode(
            settings,
            &generate::list(&mut rng, settings, Profile::Small),
        );
        let stream = match rng.below(4) {
            0 => damaged_stream(&mut rng, &strict.octets(), &before),
            1 => damaged_fields(&mut rng, &strict),
            2 => random_stream(&mut rng, &strict),
            _ => strict.octets(),
        };
        let mut calls = at_random(&mut rng, &stream);
        match rng.below(8) {
            0 => short_once(&mut rng, &mut calls),
            1 => filled_up(&mut rng, &mut calls),
            2 => calls = by_octets(&stream),
            _ => {}
        }
        if rng.one_in(3) {
            after_the_close(&mut rng, &mut calls);
        }
        let reply = both.run(settings, &calls);
        let reply = reply.unwrap_or_else(|error| panic!("{error}"));
        *seen.entry(reply.number).or_default() += 1;
        before = strict.octets();
    }
    if rounds() >= 5_000 {
        for number in (0..=13).filter(|number| *number != SETTINGS) {
            assert!(seen.contains_key(&number), "{number} among {seen:?}");
        }
    }
}

/// Record and memory changed at random between calls.
#[test]
fn changed_records_and_memory() {
    let mut rng = Prng::new(seed());
    let mut memory = PacketMemory::new();
    for _ in 0..rounds() {
        let settings = generate::settings(&mut rng);
        let list = generate::list(&mut rng, settings, Profile::Small);
        let stream = damaged_fields(&mut rng, &encode(settings, &list));
        let calls = at_random(&mut rng, &stream);
        let changed = run_changed(&mut rng, &mut memory, settings, &calls);
        changed.unwrap_or_else(|error| panic!("{error}"));
    }
}
