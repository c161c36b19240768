//! Times the library and the ordinary implementation on the same streams, in one run.
//!
//! Both get the same lent memory, of the stated sizes, which each leaves zero but for what it
//! counts. A row's streams are put in slices to the library, to the ordinary implementation and to
//! a clearing of the same memory, by turns, in many rounds; of each slice the fastest time of each
//! counts, since that was disturbed least by other programs. A ratio is the library's time by the
//! ordinary one's; net of clearing, the clearing is taken off both. In the row of one bucket each
//! of the two has values that were crafted for its own hash.
//!
//! Streams in packets are timed against the library's own read of the whole.
//!
//! `bench WORD..` takes only rows whose names have one of the words. For a counter of instructions
//! (see `instructions`), `bench --once ROW WAY WHICH` puts a few streams of a row once to one of
//! the two, and `bench --packets ROW SIZE` reads one stream in packets, or `whole`. `bench --rows`
//! and `bench --packet-rows` tell the names of the rows, the latter with the sizes. `bench --table
//! PAGE..` takes all rows and puts the table of their ratios and goals into each page, whole
//! (docs/SPEED.md) or in short (README.md), as the page has it.

#![forbid(unsafe_code)]

mod packets;
mod table;

use std::hint::black_box;
use std::ops::Range;
use std::path::Path;
use std::process::ExitCode;
use std::time::Instant;

use compare::encode::{encode, Form};
use compare::event::{document, element, events, text, Event, Stored, Text, CELLS};
use compare::lent::{Codec, ReaderSizes, Settings, WriterSizes};
use compare::prng::Prng;
use compare::sizes::{MAX_STORE, MAX_STREAM, MAX_STRING, MAX_VALUES};
use ordinary::value_bucket;

const END: Event = Event::EndElement;
const ROUNDS: usize = 15;

/// What the library may take of the ordinary implementation's time.
#[derive(Clone, Copy)]
struct Goals {
    read: Option<f64>,
    write: Option<f64>,
    /// The reader's, with the clearing taken off both.
    read_net: Option<f64>,
}

const GOALS: Goals = Goals {
    read: Some(1.0),
    write: Some(1.0),
    read_net: None,
};
const SMALL: Goals = Goals {
    read: Some(0.95),
    write: Some(0.9),
    read_net: Some(0.75),
};
/// P10 allows the reader 2.0.
const NAMES: Goals = Goals {
    write: None,
    ..GOALS
};
/// Where each has values that were crafted for its own hash.
const CRAFTED: Goals = Goals {
    read: Some(1.2),
    write: Some(1.2),
    read_net: None,
};
/// Where the writer looks much up and writes little.
const LOOK_UPS: Goals = Goals {
    write: Some(1.25),
    ..GOALS
};

/// Eight times the octets may take this many times the time.
const GROWTH: f64 = 9.0;

/// 120 attributes in one start tag may take this many times the time of 120 elements with one each,
/// net of clearing.
const ONE_TAG: f64 = 1.2;

/// Milliseconds that the library may take for 2,048 values that all fall into one bucket.
const ONE_BUCKET: f64 = 10.0;

/// What streams are made of: so many lists.
type Lists = fn(usize) -> Vec<Vec<Event>>;

struct Row {
    name: &'static str,
    lists: Lists,
    /// Others for the ordinary implementation.
    others: Option<Lists>,
    settings: Settings,
    /// How many streams there are, and how many in a slice.
    streams: usize,
    slice: usize,
    goals: Goals,
}

const BITS: Settings = Settings::BIT_PACKED;
const BYTES: Settings = Settings::BYTE_ALIGNED;

/// A row in each alignment, the name with it behind.
macro_rules! both {
    ($name:literal, $lists:expr, $streams:literal, $slice:literal, $goals:expr) => {
        [
            Row {
                name: concat!($name, ", byte-aligned"),
                lists: $lists,
                others: None,
                settings: BYTES,
                streams: $streams,
                slice: $slice,
                goals: $goals,
            },
            Row {
                name: concat!($name, ", bit-packed"),
                lists: $lists,
                others: None,
                settings: BITS,
                streams: $streams,
                slice: $slice,
                goals: $goals,
            },
        ]
    };
}

impl Row {
    fn with_capacity(self, capacity: u32) -> Row {
        Row {
            settings: self.settings.with_capacity(capacity),
            ..self
        }
    }
}

fn rows() -> Vec<Row> {
    let growth = |name, lists| Row {
        name,
        lists,
        others: None,
        settings: BYTES,
        streams: 10,
        slice: 1,
        goals: GOALS,
    };
    let mut rows = Vec::new();
    rows.extend(both!("K7", readings, 10_000, 200, SMALL));
    rows.extend(both!("K7, many names", other_names, 10_000, 200, NAMES));
    rows.extend(both!("long", long_documents, 20, 1, GOALS));
    rows.extend(both!("512 values", unlike_values, 10, 1, GOALS));
    rows.extend(both!("512 alike", alike_values, 10, 1, GOALS));
    rows.extend(both!("100 deep", deep, 20, 1, LOOK_UPS));
    rows.extend(both!("128 names", many_names, 20, 1, LOOK_UPS));
    rows.extend(both!("120 attributes", in_one_tag, 200, 20, LOOK_UPS));
    rows.extend(both!("120 elements", in_elements, 200, 20, LOOK_UPS));
    rows.extend(both!("local hits", local_hits, 10, 1, LOOK_UPS));
    rows.extend(both!("long notes", long_notes, 10, 1, GOALS));
    rows.extend(both!("500 readings", day, 10, 1, GOALS));
    rows.extend(both!("2,048 short", short_values, 10, 1, GOALS));
    let bounded = both!("capacity 64", long_day, 10, 1, GOALS);
    rows.extend(bounded.map(|row| row.with_capacity(64)));
    let bounded = both!("capacity 512", long_day, 10, 1, GOALS);
    rows.extend(bounded.map(|row| row.with_capacity(512)));
    rows.push(growth("growth, 2 KB", |count| records(count, 32)));
    rows.push(growth("growth, 4 KB", |count| records(count, 64)));
    rows.push(growth("growth, 8 KB", |count| records(count, 128)));
    rows.push(growth("growth, 16 KB", |count| records(count, 256)));
    rows.push(Row {
        name: "one bucket, byte-aligned",
        lists: |count| crafted(count, library_bucket),
        others: Some(|count| crafted(count, value_bucket)),
        settings: BYTES,
        streams: 4,
        slice: 1,
        goals: CRAFTED,
    });
    rows
}

/// Lists, and their streams.
struct Inputs {
    streams: Vec<Vec<u8>>,
    lists: Vec<Stored>,
}

impl Inputs {
    fn new(row: &Row, lists: Vec<Vec<Event>>) -> Inputs {
        let encoded = lists.iter().map(|list| encode(row.settings, list).octets());
        let streams: Vec<Vec<u8>> = encoded.collect();
        let longest = streams.iter().map(Vec::len).max();
        assert!(longest <= Some(MAX_STREAM), "{}: {longest:?}", row.name);
        Inputs {
            streams,
            lists: lists.iter().map(|list| Stored::plain(list)).collect(),
        }
    }
}

struct Case {
    row: Row,
    inputs: Inputs,
    others: Option<Inputs>,
}

impl Case {
    fn new(row: Row, streams: usize) -> Case {
        let inputs = |lists: Lists| Inputs::new(&row, lists(streams));
        Case {
            inputs: inputs(row.lists),
            others: row.others.map(inputs),
            row,
        }
    }

    /// What is put to an implementation.
    fn of(&self, codec: Codec) -> &Inputs {
        match &self.others {
            Some(others) if codec == Codec::Ordinary => others,
            _ => &self.inputs,
        }
    }

    fn streams(&self) -> usize {
        self.inputs.streams.len()
    }

    fn events(&self) -> usize {
        let cells: usize = self.inputs.lists.iter().map(|list| list.cells.len()).sum();
        cells / CELLS
    }

    fn octets(&self) -> usize {
        self.inputs.streams.iter().map(Vec::len).sum()
    }
}

fn attribute(name: &[u32], value: Text) -> Event {
    Event::Attribute {
        uri: Vec::new(),
        name: name.to_vec(),
        value,
    }
}

fn start(name: &[u32]) -> Event {
    Event::StartElement {
        uri: Vec::new(),
        name: name.to_vec(),
    }
}

fn letters(rng: &mut Prng, from: usize, to: usize) -> Text {
    let length = rng.between(from, to);
    (0..length).map(|_| 97 + rng.below(26) as u32).collect()
}

fn digits(rng: &mut Prng, from: usize, to: usize) -> Text {
    let length = rng.between(from, to);
    (0..length).map(|_| 48 + rng.below(10) as u32).collect()
}

/// `<r><p t="1"/><p t="1"/></r>` with these names and this value.
fn k7(r: &[u32], p: &[u32], t: &[u32], value: Text) -> Vec<Event> {
    document(vec![
        start(r),
        start(p),
        attribute(t, value.clone()),
        END,
        start(p),
        attribute(t, value),
        END,
        END,
    ])
}

/// K7 with other names and values.
fn readings(count: usize) -> Vec<Vec<Event>> {
    let mut rng = Prng::new(7);
    let mut one = || {
        let mut name = |first: u32| [vec![first], letters(&mut rng, 0, 7)].concat();
        let (r, p, t) = (name(114), name(112), name(116));
        k7(&r, &p, &t, digits(&mut rng, 1, 6))
    };
    (0..count).map(|_| one()).collect()
}

/// A name of up to 12 code points: every tenth has some that are not ASCII.
fn nth_name(rng: &mut Prng, n: usize) -> Text {
    let mut name = letters(rng, 1, 12);
    if n.is_multiple_of(10) {
        let others = [0xE9, 0x17E, 0x3B1, 0x416, 0x4E2D, 0x1_2000];
        for _ in 0..rng.between(1, name.len()) {
            let at = rng.below(name.len());
            name[at] = *rng.pick(&others);
        }
    }
    name
}

/// P10: K7 with 1,500 names; values are like names, or of digits.
fn other_names(count: usize) -> Vec<Vec<Event>> {
    let mut rng = Prng::new(17);
    let mut names: Vec<Text> = Vec::new();
    while names.len() < 1_500 {
        let name = nth_name(&mut rng, names.len());
        if !names.contains(&name) {
            names.push(name);
        }
    }
    let mut one = |k: usize| {
        let mut unlike = |others: &[&Text]| loop {
            let name = rng.pick(&names);
            if !others.contains(&name) {
                return name;
            }
        };
        let r = unlike(&[]);
        let p = unlike(&[r]);
        let t = unlike(&[r, p]);
        let value = if rng.one_in(2) {
            nth_name(&mut rng, k)
        } else {
            digits(&mut rng, 1, 12)
        };
        k7(r, p, t, value)
    };
    (0..count).map(&mut one).collect()
}

/// Records with a time and a reading each.
fn records(count: usize, records: usize) -> Vec<Vec<Event>> {
    let mut rng = Prng::new(8);
    let (record, time, value) = (text("record"), text("time"), text("value"));
    let mut one = || {
        let mut inner = vec![element("", "log")];
        for _ in 0..records {
            inner.push(start(&record));
            inner.push(attribute(&time, digits(&mut rng, 24, 26)));
            inner.push(start(&value));
            inner.push(Event::Characters(digits(&mut rng, 24, 26)));
            inner.extend([END, END]);
        }
        inner.push(END);
        document(inner)
    };
    (0..count).map(|_| one()).collect()
}

/// Nearly as long as a stream can be.
fn long_documents(count: usize) -> Vec<Vec<Event>> {
    records(count, 255)
}

/// 512 values of 25 code points, half of them of one name and half of another; then each is looked
/// up under the name that it is not local to. They differ in the last code points, or in the first.
fn many_values(count: usize, differ_at_the_end: bool) -> Vec<Vec<Event>> {
    let mut rng = Prng::new(9);
    let mut one = || {
        let common = letters(&mut rng, 22, 22);
        let value = |k: usize| {
            let number = text(&format!("{k:03}"));
            Event::Characters(if differ_at_the_end {
                [common.clone(), number].concat()
            } else {
                [number.into_iter().rev().collect(), common.clone()].concat()
            })
        };
        let (a, b) = (element("", "a"), element("", "b"));
        let mut inner = vec![element("", "r"), a.clone()];
        inner.extend((0..256).map(value));
        inner.extend([END, b.clone()]);
        inner.extend((256..512).map(value));
        inner.extend([END, a]);
        inner.extend((256..512).map(value));
        inner.extend([END, b]);
        inner.extend((0..256).map(value));
        inner.extend([END, END]);
        document(inner)
    };
    (0..count).map(|_| one()).collect()
}

fn unlike_values(count: usize) -> Vec<Vec<Event>> {
    many_values(count, false)
}

fn alike_values(count: usize) -> Vec<Vec<Event>> {
    many_values(count, true)
}

/// Elements 100 deep, twenty times.
fn deep(count: usize) -> Vec<Vec<Event>> {
    let mut rng = Prng::new(10);
    let mut one = || {
        let names: Vec<Text> = (0..8).map(|_| letters(&mut rng, 4, 8)).collect();
        let mut inner = vec![start(&names[0])];
        for _ in 0..20 {
            inner.extend((1..100).map(|k| start(&names[k % 8])));
            inner.extend(vec![END; 99]);
        }
        inner.push(END);
        document(inner)
    };
    (0..count).map(|_| one()).collect()
}

/// 128 names: attributes, learned by four elements and used again.
fn many_names(count: usize) -> Vec<Vec<Event>> {
    let mut rng = Prng::new(11);
    let mut one = || {
        let prefix = letters(&mut rng, 5, 5);
        let names: Vec<Text> = (0..117)
            .map(|k| [prefix.clone(), text(&format!("{k:03}"))].concat())
            .collect();
        let mut inner = vec![element("", "r")];
        for round in 0..8 {
            for parent in ["a", "b", "c", "d"] {
                inner.push(element("", parent));
                let value = digits(&mut rng, 2, 2);
                let all = names.iter().map(|name| attribute(name, value.clone()));
                inner.extend(all.take(if round == 0 { 117 } else { 110 }));
                inner.push(END);
            }
        }
        inner.push(END);
        document(inner)
    };
    (0..count).map(|_| one()).collect()
}

/// 120 attributes of different names.
fn many_attributes(rng: &mut Prng) -> Vec<Event> {
    let prefix = letters(rng, 5, 5);
    let mut one = |k: usize| {
        let name = [prefix.clone(), text(&format!("{k:03}"))].concat();
        attribute(&name, digits(rng, 4, 4))
    };
    (0..120).map(&mut one).collect()
}

/// All of them in one start tag.
fn in_one_tag(count: usize) -> Vec<Vec<Event>> {
    let mut rng = Prng::new(16);
    let mut one = || {
        let mut inner = vec![element("", "r")];
        inner.extend(many_attributes(&mut rng));
        inner.push(END);
        document(inner)
    };
    (0..count).map(|_| one()).collect()
}

/// Each of the same in an element of its own.
fn in_elements(count: usize) -> Vec<Vec<Event>> {
    let mut rng = Prng::new(16);
    let mut one = || {
        let mut inner = vec![element("", "r")];
        for attribute in many_attributes(&mut rng) {
            inner.extend([element("", "e"), attribute, END]);
        }
        inner.push(END);
        document(inner)
    };
    (0..count).map(|_| one()).collect()
}

/// 512 values of one name, and 3,000 times one of them again.
fn local_hits(count: usize) -> Vec<Vec<Event>> {
    let mut rng = Prng::new(12);
    let mut one = || {
        let values: Vec<Text> = (0..512)
            .map(|k| [letters(&mut rng, 1, 3), text(&format!("{k}"))].concat())
            .collect();
        let mut inner = vec![element("", "r")];
        inner.extend(values.iter().cloned().map(Event::Characters));
        let hits = (0..3_000).map(|_| Event::Characters(rng.pick(&values).clone()));
        inner.extend(hits);
        inner.push(END);
        document(inner)
    };
    (0..count).map(|_| one()).collect()
}

/// Notes nearly as long as a string may be, as many as the text store holds.
fn long_notes(count: usize) -> Vec<Vec<Event>> {
    let mut rng = Prng::new(13);
    let length = MAX_STRING - 24;
    let mut one = || {
        let mut inner = vec![element("", "notes")];
        for _ in 0..(MAX_STORE - 384) / length {
            inner.push(element("", "note"));
            inner.push(Event::Characters(letters(&mut rng, length, length)));
            inner.push(END);
        }
        inner.push(END);
        document(inner)
    };
    (0..count).map(|_| one()).collect()
}

/// A day of 500 readings: all stamps differ, and so do as many movements as there is room for.
fn day(count: usize) -> Vec<Vec<Event>> {
    let mut rng = Prng::new(14);
    let (r, t, um) = (text("r"), text("t"), text("um"));
    let movements = (MAX_VALUES - 500).min(100);
    let mut one = || {
        let first = rng.below(15_000);
        let mut inner = vec![element("", "readings")];
        for k in 0..500 {
            let (hour, minute, second) = (k * 172 / 3_600, k * 172 / 60 % 60, k * 172 % 60);
            let milli = rng.below(1_000);
            let stamp = format!("2026-03-01T{hour:02}:{minute:02}:{second:02}.{milli:03}Z");
            let movement = text(&format!("{}", first + rng.below(movements)));
            inner.push(start(&r));
            inner.push(attribute(&t, text(&stamp)));
            inner.push(attribute(&um, movement));
            inner.push(END);
        }
        inner.push(END);
        document(inner)
    };
    (0..count).map(|_| one()).collect()
}

/// 1,000 readings with short stamps and 300 movements: a table of 64 values turns over 20 times.
fn long_day(count: usize) -> Vec<Vec<Event>> {
    let mut rng = Prng::new(16);
    let (r, t, um) = (text("r"), text("t"), text("um"));
    let mut one = || {
        let first = rng.below(10_000);
        let mut inner = vec![element("", "readings")];
        for k in 0..1_000 {
            let stamp = text(&format!("{:04}", (first + 7 * k) % 10_000));
            let movement = text(&format!("{}", rng.below(300)));
            inner.push(start(&r));
            inner.push(attribute(&t, stamp));
            inner.push(attribute(&um, movement));
            inner.push(END);
        }
        inner.push(END);
        let list = document(inner);
        let forms = encode(BYTES.with_capacity(64), &list).forms;
        let replaced = forms.iter().filter(|form| **form == Form::Replacing);
        assert!(replaced.count() >= 20 * 64);
        list
    };
    (0..count).map(|_| one()).collect()
}

/// 2,048 values of three code points, and 1,200 hits: one in two under the name that they are local
/// to.
fn short_values(count: usize) -> Vec<Vec<Event>> {
    let mut rng = Prng::new(15);
    let values = MAX_VALUES.min(2_048);
    let mut one = || {
        let letter = 97 + rng.below(26) as u32;
        let value = |k: usize| {
            let digits = [k / 46, k % 46].map(|digit| 48 + digit as u32);
            Event::Characters([&[letter][..], &digits].concat())
        };
        let mut inner = vec![element("", "r"), element("", "a")];
        inner.extend((0..values).map(value));
        let hits = values * 1_200 / 2_048;
        inner.extend((0..hits / 2).map(|_| value(rng.below(values))));
        inner.extend([END, element("", "b")]);
        inner.extend((0..hits / 2).map(|_| value(rng.below(values))));
        inner.extend([END, END]);
        document(inner)
    };
    (0..count).map(|_| one()).collect()
}

/// The bucket in which the library looks for a value (`mem_entries::hash`, and the buckets of
/// `mem_layout`).
fn library_bucket(text: &[u32]) -> usize {
    let mix = |hash: u32, &c: &u32| hash.wrapping_mul(16_777_619).wrapping_add(c);
    text.iter().fold(0, mix) as usize % 1_024
}

/// 2,048 values of four code points that begin alike, all of one bucket. Each is sought along those
/// before.
fn crafted(count: usize, bucket: fn(&[u32]) -> usize) -> Vec<Vec<Event>> {
    let mut rng = Prng::new(18);
    let digits = |k: u32| [k / 94 / 94 / 94, k / 94 / 94, k / 94, k].map(|digit| 33 + digit % 94);
    let mut one = || {
        let wanted = rng.below(1_024);
        let values = (0..).map(digits).filter(|value| bucket(value) == wanted);
        let mut inner = vec![element("", "r")];
        inner.extend(
            values
                .take(MAX_VALUES)
                .map(|value| Event::Characters(value.to_vec())),
        );
        inner.push(END);
        document(inner)
    };
    (0..count).map(|_| one()).collect()
}

#[derive(Clone, PartialEq)]
struct Memory {
    events: Vec<u32>,
    text: Vec<u32>,
    reader_work: Vec<u32>,
    octets: Vec<u8>,
    writer_work: Vec<u32>,
}

impl Memory {
    fn new() -> Memory {
        let (reader, writer) = (ReaderSizes::stated(), WriterSizes::stated());
        Memory {
            events: vec![0; reader.events],
            text: vec![0; reader.text],
            reader_work: vec![0; reader.work],
            octets: vec![0; writer.octets],
            writer_work: vec![0; writer.work],
        }
    }

    fn read(&mut self, codec: Codec, settings: Settings, stream: &[u8]) -> [u32; 4] {
        let reply = codec.read(
            settings,
            black_box(stream),
            &mut self.events,
            &mut self.text,
            &mut self.reader_work,
        );
        black_box([reply.number, reply.index, reply.events, reply.code_points])
    }

    fn write(&mut self, codec: Codec, settings: Settings, list: &Stored) -> [u32; 3] {
        let reply = codec.write(
            settings,
            &mut self.octets,
            black_box(&list.cells),
            &list.store,
            &mut self.writer_work,
        );
        black_box([reply.number, reply.index, reply.octets])
    }

    fn clear_reader(&mut self) {
        black_box(&mut self.events).fill(0);
        black_box(&mut self.text).fill(0);
        black_box(&mut self.reader_work).fill(0);
        black_box(&self.events);
        black_box(&self.text);
        black_box(&self.reader_work);
    }

    fn clear_writer(&mut self) {
        black_box(&mut self.octets).fill(0);
        black_box(&mut self.writer_work).fill(0);
        black_box(&self.octets);
        black_box(&self.writer_work);
    }

    /// Puts the streams or lists of a slice to one implementation.
    fn run(&mut self, case: &Case, way: Way, codec: Codec, slice: Range<usize>) {
        let settings = case.row.settings;
        let inputs = case.of(codec);
        match way {
            Way::Read => inputs.streams[slice].iter().for_each(|stream| {
                self.read(codec, settings, stream);
            }),
            Way::Write => inputs.lists[slice].iter().for_each(|list| {
                self.write(codec, settings, list);
            }),
        }
    }

    fn clear(&mut self, way: Way, times: usize) {
        for _ in 0..times {
            match way {
                Way::Read => self.clear_reader(),
                Way::Write => self.clear_writer(),
            }
        }
    }
}

#[derive(Clone, Copy, PartialEq, Eq)]
enum Way {
    Read,
    Write,
}

/// Nanoseconds a stream.
struct Times {
    library: f64,
    ordinary: f64,
    clearing: f64,
}

impl Times {
    fn ratio(&self) -> f64 {
        self.library / self.ordinary
    }

    fn net(&self) -> f64 {
        self.library_net() / (self.ordinary - self.clearing)
    }

    fn library_net(&self) -> f64 {
        self.library - self.clearing
    }
}

/// Of each slice the fastest time of each of the three, which go by turns.
fn times(case: &Case, way: Way, memory: &mut Memory) -> Times {
    let count = case.streams();
    let slices: Vec<Range<usize>> = (0..count)
        .step_by(case.row.slice)
        .map(|from| from..count.min(from + case.row.slice))
        .collect();
    let mut fastest = vec![[f64::INFINITY; 3]; slices.len()];
    for round in 0..ROUNDS {
        for (k, slice) in slices.iter().enumerate() {
            for turn in 0..3 {
                let which = (turn + round + k) % 3;
                let begin = Instant::now();
                match which {
                    0 => memory.run(case, way, Codec::Library, slice.clone()),
                    1 => memory.run(case, way, Codec::Ordinary, slice.clone()),
                    _ => memory.clear(way, slice.len()),
                }
                let time = begin.elapsed().as_nanos() as f64;
                fastest[k][which] = fastest[k][which].min(time);
            }
        }
    }
    let [library, ordinary, clearing] =
        [0, 1, 2].map(|which| fastest.iter().map(|all| all[which]).sum::<f64>() / count as f64);
    Times {
        library,
        ordinary,
        clearing,
    }
}

/// Both implementations read and write all of the case, with the same result and the same memory.
fn check(case: &Case, memory: &mut Memory) {
    let (name, settings) = (case.row.name, case.row.settings);
    let all = [Some(&case.inputs), case.others.as_ref()];
    let all = all.into_iter().flatten();
    for (stream, list) in all.flat_map(|it| it.streams.iter().zip(&it.lists)) {
        let mut left = None;
        for codec in [Codec::Library, Codec::Ordinary] {
            let [number, _, count, code_points] = memory.read(codec, settings, stream);
            assert_eq!(number, 0, "{name}");
            let cells = &memory.events[..count as usize * CELLS];
            let read = events(cells, &memory.text[..code_points as usize]);
            assert!(read.is_some() && read == list.events(), "{name}");
            let [number, _, octets] = memory.write(codec, settings, list);
            assert_eq!(number, 0, "{name}");
            assert_eq!(&memory.octets[..octets as usize], stream, "{name}");
            match &left {
                None => left = Some(memory.clone()),
                Some(left) => assert!(memory == left, "{name}"),
            }
        }
    }
}

/// How many goals were looked at, and how many were missed.
#[derive(Default)]
struct Score {
    goals: usize,
    missed: usize,
}

impl Score {
    fn judge(&mut self, value: f64, goal: f64) -> String {
        self.goals += 1;
        if value <= goal {
            return format!("<= {goal}");
        }
        self.missed += 1;
        format!("OVER {goal}")
    }
}

fn print_head() {
    println!("Nanoseconds for a stream, the fastest of each slice in {ROUNDS} rounds.");
    println!(
        "{:<28} {:>5} {:>7} {:>6} {:>9} {:>9} {:>6} {:>10} {:>8} {:>6} {:>10}",
        "row",
        "way",
        "streams",
        "octets",
        "library",
        "ordinary",
        "ratio",
        "goal",
        "clearing",
        "net",
        "goal"
    );
}

fn print(case: &Case, way: Way, times: &Times, score: &mut Score) {
    let goals = case.row.goals;
    let (word, goal, net_goal) = match way {
        Way::Read => ("read", goals.read, goals.read_net),
        Way::Write => ("write", goals.write, None),
    };
    let mut judge =
        |value, goal: Option<f64>| goal.map_or("-".to_string(), |goal| score.judge(value, goal));
    let verdict = judge(times.ratio(), goal);
    let net_verdict = judge(times.net(), net_goal);
    println!(
        "{:<28} {:>5} {:>7} {:>6} {:>9.0} {:>9.0} {:>6.2} {:>10} {:>8.0} {:>6.2} {:>10}",
        case.row.name,
        word,
        case.streams(),
        case.octets() / case.streams(),
        times.library,
        times.ordinary,
        times.ratio(),
        verdict,
        times.clearing,
        times.net(),
        net_verdict,
    );
}

/// A row that was timed: the octets of a stream, and the times to read and to write.
struct Timed {
    name: &'static str,
    goals: Goals,
    octets: f64,
    times: [Times; 2],
}

const WAYS: [&str; 2] = ["read", "write"];

/// What eight times the octets cost, by the first and the last row of growth: times the time.
fn growth(timed: &[Timed], way: usize) -> Option<f64> {
    let mut grown = timed.iter().filter(|row| row.name.starts_with("growth"));
    let (first, last) = (grown.next()?, grown.next_back()?);
    let times = last.times[way].library / first.times[way].library;
    Some(8.0 * times / (last.octets / first.octets))
}

fn print_growth(timed: &[Timed], score: &mut Score) {
    for (k, way) in WAYS.into_iter().enumerate() {
        let Some(eight) = growth(timed, k) else {
            continue;
        };
        let verdict = score.judge(eight, GROWTH);
        println!("growth, {way}: eight times the octets take {eight:.1} times the time  {verdict}");
    }
}

/// What 120 attributes in one start tag cost, by those in elements of their own, net.
fn one_tag(timed: &[Timed], alignment: &str, way: usize) -> Option<f64> {
    let row = |name: &str| {
        let name = format!("{name}, {alignment}");
        timed.iter().find(|row| row.name == name)
    };
    let (tag, elements) = (row("120 attributes")?, row("120 elements")?);
    Some(tag.times[way].library_net() / elements.times[way].library_net())
}

fn print_one_tag(timed: &[Timed], score: &mut Score) {
    for alignment in ["byte-aligned", "bit-packed"] {
        for (k, way) in WAYS.into_iter().enumerate() {
            let Some(ratio) = one_tag(timed, alignment, k) else {
                continue;
            };
            let verdict = score.judge(ratio, ONE_TAG);
            println!(
                "120 attributes, {alignment}, {way}: one start tag takes {ratio:.2} times the time \
                 of 120 elements, net  {verdict}"
            );
        }
    }
}

/// What values that all fall into one bucket cost the library.
fn print_one_bucket(timed: &[Timed], score: &mut Score) {
    for row in timed
        .iter()
        .filter(|row| row.name.starts_with("one bucket"))
    {
        for (times, way) in row.times.iter().zip(WAYS) {
            let milliseconds = times.library / 1e6;
            let verdict = score.judge(milliseconds, ONE_BUCKET);
            println!("{}, {way}: {milliseconds:.1} ms  {verdict}", row.name);
        }
    }
}

fn time_rows(rows: Vec<Row>) -> (Score, Vec<Timed>) {
    let mut memory = Memory::new();
    let mut score = Score::default();
    let mut timed: Vec<Timed> = Vec::new();
    if !rows.is_empty() {
        print_head();
    }
    for row in rows {
        let streams = row.streams;
        let case = Case::new(row, streams);
        check(&case, &mut memory);
        let both = [Way::Read, Way::Write].map(|way| {
            let times = times(&case, way, &mut memory);
            print(&case, way, &times, &mut score);
            times
        });
        timed.push(Timed {
            name: case.row.name,
            goals: case.row.goals,
            octets: case.octets() as f64 / case.streams() as f64,
            times: both,
        });
    }
    print_growth(&timed, &mut score);
    print_one_tag(&timed, &mut score);
    print_one_bucket(&timed, &mut score);
    (score, timed)
}

/// Puts a few streams of a row once to one implementation.
fn once(row: Row, way: Way, codec: Codec) {
    let streams = (row.streams / 10).max(2);
    let case = Case::new(row, streams);
    Memory::new().run(&case, way, codec, 0..streams);
    println!("{} events of {streams} streams", case.events());
}

fn main() -> ExitCode {
    let words: Vec<String> = std::env::args().skip(1).collect();
    let words: Vec<&str> = words.iter().map(String::as_str).collect();
    let mut rows = rows();
    match words[..] {
        ["--rows"] => rows.iter().for_each(|row| println!("{}", row.name)),
        ["--packet-rows"] => packets::rows().iter().for_each(|row| {
            let sizes: Vec<String> = row.packets.iter().map(usize::to_string).collect();
            println!("{}: whole {}", row.name, sizes.join(" "));
        }),
        ["--packets", name, size] => {
            let Some(row) = packets::rows().into_iter().find(|row| row.name == name) else {
                eprintln!("bench: no row {name:?}");
                return ExitCode::from(2);
            };
            packets::once(&row, size.parse().ok());
        }
        ["--once", name, way, which] => {
            let way = if way == "read" { Way::Read } else { Way::Write };
            let codec = if which == "library" {
                Codec::Library
            } else {
                Codec::Ordinary
            };
            let Some(at) = rows.iter().position(|row| row.name == name) else {
                eprintln!("bench: no row {name:?}");
                return ExitCode::from(2);
            };
            once(rows.swap_remove(at), way, codec);
        }
        ["--table", ref pages @ ..] if !pages.is_empty() => {
            let (score, timed) = time_rows(rows);
            println!("{} of {} goals missed", score.missed, score.goals);
            for page in pages {
                if let Err(error) = table::put(Path::new(page), &timed) {
                    eprintln!("bench: {page}: {error}");
                    return ExitCode::from(2);
                }
            }
        }
        _ => {
            let is_asked =
                |name: &str| words.is_empty() || words.iter().any(|word| name.contains(word));
            rows.retain(|row| is_asked(row.name));
            let mut in_packets = Vec::from(packets::rows());
            in_packets.retain(|row| is_asked(row.name));
            let (mut score, _) = time_rows(rows);
            packets::time_rows(&in_packets, &mut score);
            println!("{} of {} goals missed", score.missed, score.goals);
        }
    }
    ExitCode::SUCCESS
}
