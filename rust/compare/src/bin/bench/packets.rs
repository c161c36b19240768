//! Streams in packets: what the library takes for them, by its own read of the whole.

use std::hint::black_box;
use std::time::Instant;

use compare::encode::encode;
use compare::event::{attribute, document, element, text, Event};
use compare::lent::{Codec, ReadReply, ReaderSizes, Settings};
use compare::packets::Receiver;
use compare::prng::Prng;
use compare::sizes::{MAX_STREAM, MAX_STRING};

use super::{letters, long_documents, Lists, Score, BITS, BYTES, END, ROUNDS};

/// How many streams a row has.
const STREAMS: usize = 4;

/// Packets of 240 octets may take this many times the time of the whole read.
const PACKETS_OF_240: f64 = 1.5;

/// A row: the same streams whole, and in packets of so many octets.
pub struct Row {
    pub name: &'static str,
    lists: Lists,
    settings: Settings,
    pub packets: &'static [usize],
}

pub fn rows() -> [Row; 6] {
    let row = |name, lists, settings, packets| Row {
        name,
        lists,
        settings,
        packets,
    };
    const SIZES: &[usize] = &[240, 20, 1];
    [
        row("packets, long, byte-aligned", long_documents, BYTES, SIZES),
        row("packets, long, bit-packed", long_documents, BITS, SIZES),
        row("packets, literal, byte-aligned", one_literal, BYTES, &[1]),
        row("packets, literal, bit-packed", one_literal, BITS, &[1]),
        row("packets, known name, byte-aligned", known_name, BYTES, &[1]),
        row("packets, known name, bit-packed", known_name, BITS, &[1]),
    ]
}

/// One literal as long as a string may be.
fn one_literal(count: usize) -> Vec<Vec<Event>> {
    let mut rng = Prng::new(19);
    let mut one = || {
        let literal = Event::Characters(letters(&mut rng, MAX_STRING, MAX_STRING));
        document(vec![element("", "a"), literal, END])
    };
    (0..count).map(|_| one()).collect()
}

/// The same as the value of an attribute whose name comes by its numbers.
fn known_name(count: usize) -> Vec<Vec<Event>> {
    let mut rng = Prng::new(20);
    let mut one = || {
        let literal = Event::Attribute {
            uri: text(""),
            name: text("k"),
            value: letters(&mut rng, MAX_STRING, MAX_STRING),
        };
        let first = attribute("", "k", "1");
        let tags = vec![element("", "a"), first, element("", "b"), literal, END, END];
        document(tags)
    };
    (0..count).map(|_| one()).collect()
}

/// What is lent.
#[derive(Clone, PartialEq)]
struct Memory {
    held: Vec<u8>,
    events: Vec<u32>,
    text: Vec<u32>,
    work: Vec<u32>,
}

impl Memory {
    fn new() -> Memory {
        let sizes = ReaderSizes::stated();
        Memory {
            held: vec![0; MAX_STREAM],
            events: vec![0; sizes.events],
            text: vec![0; sizes.text],
            work: vec![0; sizes.work],
        }
    }

    /// Reads a stream: whole, or in packets of so many octets.
    fn read(&mut self, settings: Settings, stream: &[u8], packet: Option<usize>) -> ReadReply {
        let Memory {
            held,
            events,
            text,
            work,
        } = self;
        let Some(size) = packet else {
            let stream = black_box(stream);
            return black_box(Codec::Library.read(settings, stream, events, text, work));
        };
        let mut receiver = Receiver::start(Codec::Library, settings);
        for piece in black_box(stream).chunks(size) {
            black_box(receiver.call(Some(piece), held, events, text, work));
        }
        black_box(receiver.call(None, held, events, text, work))
    }
}

fn streams(row: &Row, count: usize) -> Vec<Vec<u8>> {
    let lists = (row.lists)(count);
    let encoded = lists.iter().map(|list| encode(row.settings, list).octets());
    encoded.collect()
}

/// Nanoseconds a stream, whole and in each size of packets: of each stream the fastest time of each
/// counts. All have the same answer and leave the same memory.
fn times(row: &Row, streams: &[Vec<u8>], memory: &mut Memory) -> Vec<f64> {
    let mut ways = vec![None];
    ways.extend(row.packets.iter().copied().map(Some));
    let mut all = vec![0.0; ways.len()];
    for stream in streams {
        let reply = memory.read(row.settings, stream, None);
        assert_eq!(reply.number, 0, "{}", row.name);
        let left = memory.clone();
        let mut fastest = vec![f64::INFINITY; ways.len()];
        for round in 0..ROUNDS {
            for turn in 0..ways.len() {
                let which = (turn + round) % ways.len();
                let begin = Instant::now();
                let again = memory.read(row.settings, stream, ways[which]);
                let time = begin.elapsed().as_nanos() as f64;
                fastest[which] = fastest[which].min(time);
                assert!(again == reply && *memory == left, "{}", row.name);
            }
        }
        for (sum, time) in all.iter_mut().zip(fastest) {
            *sum += time / streams.len() as f64;
        }
    }
    all
}

pub fn time_rows(rows: &[Row], score: &mut Score) {
    let mut memory = Memory::new();
    for row in rows {
        let streams = streams(row, STREAMS);
        let octets = streams.iter().map(Vec::len).sum::<usize>() / STREAMS;
        let all = times(row, &streams, &mut memory);
        println!("{}, {octets} octets: whole {:.0} ns", row.name, all[0]);
        for (size, time) in row.packets.iter().zip(&all[1..]) {
            let ratio = time / all[0];
            let verdict = match size {
                240 => score.judge(ratio, PACKETS_OF_240),
                _ => String::from("-"),
            };
            println!("  in packets of {size}: {time:.0} ns, {ratio:.2} times  {verdict}");
        }
    }
}

/// Reads one stream of a row once, whole or in packets, for a counter of instructions.
pub fn once(row: &Row, packet: Option<usize>) {
    let stream = streams(row, 1).swap_remove(0);
    let reply = Memory::new().read(row.settings, &stream, packet);
    assert_eq!(reply.number, 0, "{}", row.name);
    println!("{} octets", stream.len());
}
