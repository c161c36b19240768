//! The text form of requests and answers: one request a line, one answer line for each.

use std::fmt;
use std::fmt::Write;

use crate::event::{
    stored_strings, strings_of, Stored, ATTRIBUTE, CELLS, CHARACTERS, COMMENT, END_DOCUMENT,
    END_ELEMENT, INSTRUCTION, START_DOCUMENT, START_ELEMENT,
};
use crate::lent::{
    Codec, ReadReply, ReaderMemory, ReaderPart, ReaderSizes, Settings, WriteReply, WriterMemory,
    WriterPart, WriterSizes,
};
use crate::packets::{Call, PacketMemory, Receiver};
use crate::readings::{
    ListMemory, ListPart, ListSizes, Reading, ReadingsMemory, ReadingsReply, ReadingsSizes,
};

/// What is asked for. `short` names the part that is lent one less than its stated size.
#[derive(Clone, Debug, PartialEq, Eq)]
pub enum Request {
    Read {
        settings: Settings,
        short: Option<ReaderPart>,
        stream: Vec<u8>,
    },
    Write {
        settings: Settings,
        short: Option<WriterPart>,
        list: Stored,
    },
    /// The calls of one receiver.
    Packets {
        settings: Settings,
        calls: Vec<Call>,
    },
    /// The readings of a list.
    Readings {
        short: Option<ReadingsPart>,
        list: Stored,
    },
    /// The list of readings.
    List {
        short: Option<ListPart>,
        readings: Vec<Reading>,
    },
}

/// What is lent where readings are taken out: stamps, and as many movements.
#[derive(Clone, Copy, Debug, PartialEq, Eq)]
pub enum ReadingsPart {
    Readings,
}

const KINDS: [(&str, u32); 8] = [
    ("SD", START_DOCUMENT),
    ("ED", END_DOCUMENT),
    ("SE", START_ELEMENT),
    ("AT", ATTRIBUTE),
    ("EE", END_ELEMENT),
    ("CH", CHARACTERS),
    ("CM", COMMENT),
    ("PI", INSTRUCTION),
];

const READER_PARTS: [(&str, ReaderPart); 3] = [
    ("events", ReaderPart::Events),
    ("text", ReaderPart::Text),
    ("work", ReaderPart::Work),
];

/// The marks of a call that lends a part one short.
const SHORT_MARKS: [(&str, ReaderPart); 3] = [
    ("e<", ReaderPart::Events),
    ("t<", ReaderPart::Text),
    ("w<", ReaderPart::Work),
];

const WRITER_PARTS: [(&str, WriterPart); 2] =
    [("octets", WriterPart::Octets), ("work", WriterPart::Work)];

const READINGS_PARTS: [(&str, ReadingsPart); 1] = [("readings", ReadingsPart::Readings)];

const LIST_PARTS: [(&str, ListPart); 2] = [("events", ListPart::Events), ("text", ListPart::Text)];

/// The words for settings, for the last six of their numbers, in their order; and whether the word
/// has a bound, which is one more in the number.
const SETTING_WORDS: [(&str, bool); 6] = [
    ("fragment", false),
    ("vmax", true),
    ("vcap", true),
    ("loose", false),
    ("prefixes", false),
    ("cap", true),
];

/// A stored event of a kind that has no meaning.
pub const BAD: [u32; CELLS] = [9, 0, 0, 0, 0, 0, 0, 0, 0];
/// An end element with data in a cell that it does not use.
pub const BAD2: [u32; CELLS] = [END_ELEMENT, 0, 0, 0, 0, 0, 0, 0, 1];

impl Request {
    /// To read, with the usual memory.
    pub fn read(settings: Settings, stream: &[u8]) -> Request {
        Request::Read {
            settings,
            short: None,
            stream: stream.to_vec(),
        }
    }

    /// To write, with the usual memory.
    pub fn write(settings: Settings, list: &Stored) -> Request {
        Request::Write {
            settings,
            short: None,
            list: list.clone(),
        }
    }

    /// For the calls of a receiver.
    pub fn packets(settings: Settings, calls: &[Call]) -> Request {
        Request::Packets {
            settings,
            calls: calls.to_vec(),
        }
    }

    /// For the readings of a list, with the usual memory.
    pub fn readings(list: &Stored) -> Request {
        Request::Readings {
            short: None,
            list: list.clone(),
        }
    }

    /// For the list of readings, with the usual memory.
    pub fn list(readings: &[Reading]) -> Request {
        Request::List {
            short: None,
            readings: readings.to_vec(),
        }
    }

    /// A request line without its line end; or why it can't be understood.
    pub fn parse(line: &str) -> Result<Request, String> {
        let mut words = Words::new(line);
        Ok(match words.next().unwrap_or("") {
            "r" => Request::Read {
                settings: words.settings()?,
                short: part(words.short(1)?, &READER_PARTS)?,
                stream: parse_octets(words.next().unwrap_or(""))?,
            },
            "w" => Request::Write {
                settings: words.settings()?,
                short: part(words.short(2)?, &WRITER_PARTS)?,
                list: words.list()?,
            },
            "f" => Request::Packets {
                settings: words.settings()?,
                calls: parse_calls(words.last()?)?,
            },
            "m" => Request::Readings {
                short: part(words.short(2)?, &READINGS_PARTS)?,
                list: words.list()?,
            },
            "l" => Request::List {
                short: part(words.short(1)?, &LIST_PARTS)?,
                readings: parse_readings(words.next().unwrap_or(""))?,
            },
            other => return Err(format!("none of r, w, f, m and l: {other:?}")),
        })
    }
}

/// The words of a request line, from left to right.
struct Words<'a> {
    words: Vec<&'a str>,
    at: usize,
}

impl<'a> Words<'a> {
    fn new(line: &'a str) -> Words<'a> {
        let words = line.split(' ').collect();
        Words { words, at: 0 }
    }

    fn next(&mut self) -> Option<&'a str> {
        let word = self.words.get(self.at).copied();
        self.at += 1;
        word
    }

    fn left(&self) -> usize {
        self.words.len().saturating_sub(self.at)
    }

    /// What stands behind `name=` in the next word, if this is there.
    fn named(&mut self, name: &str) -> Option<&'a str> {
        let (found, value) = self.words.get(self.at)?.split_once('=')?;
        (found == name).then(|| {
            self.at += 1;
            value
        })
    }

    /// Four numbers, and the named ones that are not at their base.
    fn settings(&mut self) -> Result<Settings, String> {
        let mut numbers = [0; 10];
        for number in &mut numbers[..4] {
            *number = decimal(self.next().unwrap_or(""))?;
        }
        for (number, (name, is_bound)) in numbers[4..].iter_mut().zip(SETTING_WORDS) {
            if let Some(value) = self.named(name) {
                let value = decimal(value)?;
                *number = value.saturating_add(u32::from(is_bound));
            }
        }
        Ok(Settings::from_numbers(numbers))
    }

    /// What stands behind `short=`, if it is there; so many words have to follow.
    fn short(&mut self, rest: usize) -> Result<Option<&'a str>, String> {
        let short = self.named("short");
        if self.left() != rest {
            return Err(self.not_so_many(rest));
        }
        Ok(short)
    }

    /// The only word that is left.
    fn last(&mut self) -> Result<&'a str, String> {
        if self.left() != 1 {
            return Err(self.not_so_many(1));
        }
        Ok(self.next().unwrap_or(""))
    }

    /// Events and their store.
    fn list(&mut self) -> Result<Stored, String> {
        Ok(Stored {
            cells: parse_events(self.next().unwrap_or(""))?,
            store: parse_store(self.next().unwrap_or(""))?,
        })
    }

    /// Why the line can't be understood, where this many words should be left.
    fn not_so_many(&self, rest: usize) -> String {
        match self.words.get(self.at) {
            Some(word) if word.contains('=') => format!("no such word here: {word:?}"),
            _ => format!("{} words left and not {rest}", self.left()),
        }
    }
}

/// The part that a word names, if there is one.
fn part<P: Copy>(name: Option<&str>, parts: &[(&str, P)]) -> Result<Option<P>, String> {
    let Some(name) = name else { return Ok(None) };
    match parts.iter().find(|(known, _)| *known == name) {
        Some(&(_, part)) => Ok(Some(part)),
        None => Err(format!("no part that is lent: {name:?}")),
    }
}

/// A part's word, with a space behind it.
fn print_short<P: PartialEq>(line: &mut String, short: Option<P>, parts: &[(&str, P)]) {
    for (name, part) in parts {
        if short.as_ref() == Some(part) {
            write!(line, "short={name} ").expect("a string takes all");
        }
    }
}

/// The numbers and words of settings, with a space behind each.
fn print_settings(line: &mut String, settings: Settings) {
    let numbers = settings.numbers();
    for number in &numbers[..4] {
        write!(line, "{number} ").expect("a string takes all");
    }
    for (number, (name, is_bound)) in numbers[4..].iter().zip(SETTING_WORDS) {
        if *number != 0 {
            let number = number - u32::from(is_bound);
            write!(line, "{name}={number} ").expect("a string takes all");
        }
    }
}

impl fmt::Display for Request {
    fn fmt(&self, f: &mut fmt::Formatter) -> fmt::Result {
        let mut line = String::new();
        match self {
            Request::Read {
                settings,
                short,
                stream,
            } => {
                line.push_str("r ");
                print_settings(&mut line, *settings);
                print_short(&mut line, *short, &READER_PARTS);
                print_octets(&mut line, stream);
            }
            Request::Write {
                settings,
                short,
                list,
            } => {
                line.push_str("w ");
                print_settings(&mut line, *settings);
                print_short(&mut line, *short, &WRITER_PARTS);
                print_list(&mut line, list);
            }
            Request::Packets { settings, calls } => {
                line.push_str("f ");
                print_settings(&mut line, *settings);
                print_calls(&mut line, calls);
            }
            Request::Readings { short, list } => {
                line.push_str("m ");
                print_short(&mut line, *short, &READINGS_PARTS);
                print_list(&mut line, list);
            }
            Request::List { short, readings } => {
                line.push_str("l ");
                print_short(&mut line, *short, &LIST_PARTS);
                print_readings(&mut line, readings);
            }
        }
        f.write_str(&line)
    }
}

/// Puts requests to one implementation, with memory that is lent anew for each.
pub struct Asker {
    codec: Codec,
    reader: ReaderMemory,
    writer: WriterMemory,
    packets: PacketMemory,
    readings: ReadingsMemory,
    list: ListMemory,
}

impl Asker {
    pub fn new(codec: Codec) -> Asker {
        Asker {
            codec,
            reader: ReaderMemory::new(),
            writer: WriterMemory::new(),
            packets: PacketMemory::new(),
            readings: ReadingsMemory::new(),
            list: ListMemory::new(),
        }
    }

    /// The answer line to a request line, both without line ends.
    pub fn answer_line(&mut self, line: &str) -> String {
        match Request::parse(line) {
            Ok(request) => self.answer(&request),
            Err(why) => format!("? {why}"),
        }
    }

    pub fn answer(&mut self, request: &Request) -> String {
        match request {
            Request::Read {
                settings,
                short,
                stream,
            } => {
                let sizes = short.map_or_else(ReaderSizes::usual, ReaderSizes::short);
                let reply = self.reader.read_with(sizes, |events, text, work| {
                    self.codec.read(*settings, stream, events, text, work)
                });
                let (events, text) = (self.reader.events(&reply), self.reader.text(&reply));
                print_read(&reply, events, text, self.reader.fault(&reply))
            }
            Request::Write {
                settings,
                short,
                list,
            } => {
                let sizes = short.map_or_else(WriterSizes::usual, WriterSizes::short);
                let reply = self.writer.write_with(sizes, |octets, work| {
                    self.codec
                        .write(*settings, octets, &list.cells, &list.store, work)
                });
                print_write(&reply, &self.writer)
            }
            Request::Packets { settings, calls } => self.answer_calls(*settings, calls),
            Request::Readings { short, list } => {
                let sizes = short.map_or_else(ReadingsSizes::usual, |_| ReadingsSizes::short());
                let reply = self.readings.lend(sizes, |stamps, movements| {
                    self.codec
                        .readings_of_list(&list.cells, &list.store, stamps, movements)
                });
                print_taken(&reply, &self.readings)
            }
            Request::List { short, readings } => {
                let (stamps, movements): (Vec<u64>, Vec<i32>) = readings.iter().copied().unzip();
                let sizes = short.map_or_else(ListSizes::usual, ListSizes::short);
                let reply = self.list.lend(sizes, |events, text| {
                    self.codec
                        .list_of_readings(&stamps, &movements, events, text)
                });
                let (events, text) = (self.list.events(&reply), self.list.text(&reply));
                print_read(&reply, events, text, self.list.fault(&reply))
            }
        }
    }
}

impl Asker {
    /// The answers to a receiver's calls, with what each of them added.
    fn answer_calls(&mut self, settings: Settings, calls: &[Call]) -> String {
        let mut receiver = Receiver::start(self.codec, settings);
        self.packets.start();
        let mut line = String::new();
        for (k, call) in calls.iter().enumerate() {
            let (reply, fault) = self.packets.call(&mut receiver, call);
            let bar = if k == 0 { "" } else { " | " };
            write!(
                line,
                "{bar}{} {} {} {} ",
                reply.number, reply.index, reply.events, reply.code_points
            )
            .expect("a string takes all");
            let (events, text) = self.packets.added();
            print_events(&mut line, events);
            line.push(' ');
            print_store(&mut line, text);
            if fault.is_some() {
                line.push_str(" DIRTY");
            }
        }
        line
    }
}

/// The answer line of a list, with the cells and the store that its reply counts.
fn print_read(
    reply: &ReadReply,
    events: Option<&[u32]>,
    text: Option<&[u32]>,
    fault: Option<&str>,
) -> String {
    let mut line = format!("{} {} ", reply.number, reply.index);
    let events = events.filter(|_| reply.number == 0);
    let text = text.filter(|_| reply.number == 0);
    print_events(&mut line, events.unwrap_or(&[]));
    line.push(' ');
    print_store(&mut line, text.unwrap_or(&[]));
    if fault.is_some() {
        line.push_str(" DIRTY");
    }
    line
}

fn print_taken(reply: &ReadingsReply, memory: &ReadingsMemory) -> String {
    let mut line = format!("{} {} ", reply.number, reply.index);
    let readings = memory.readings(reply).filter(|_| reply.number == 0);
    print_readings(&mut line, &readings.unwrap_or_default());
    if memory.fault(reply).is_some() {
        line.push_str(" DIRTY");
    }
    line
}

fn print_write(reply: &WriteReply, memory: &WriterMemory) -> String {
    let mut line = format!("{} {} ", reply.number, reply.index);
    let octets = memory.octets(reply).filter(|_| reply.number == 0);
    print_octets(&mut line, octets.unwrap_or(&[]));
    if memory.fault(reply).is_some() {
        line.push_str(" DIRTY");
    }
    line
}

/// A number over 32 bits fits no cell; the largest that does stands for it, outside any store and
/// no setting either.
fn decimal(word: &str) -> Result<u32, String> {
    if word.is_empty() || !word.bytes().all(|b| b.is_ascii_digit()) {
        return Err(format!("no number: {word:?}"));
    }
    Ok(word.parse().unwrap_or(u32::MAX))
}

fn parse_octets(word: &str) -> Result<Vec<u8>, String> {
    if word == "-" {
        return Ok(Vec::new());
    }
    let digit = |b: u8| char::from(b).to_digit(16).map(|d| d as u8);
    if word.is_empty() || word.len() % 2 == 1 {
        return Err("no whole octets".to_string());
    }
    word.as_bytes()
        .chunks(2)
        .map(|two| Some(digit(two[0])? << 4 | digit(two[1])?))
        .collect::<Option<Vec<u8>>>()
        .ok_or_else(|| "no hexadecimal digits".to_string())
}

fn parse_store(word: &str) -> Result<Vec<u32>, String> {
    if word == "-" {
        return Ok(Vec::new());
    }
    let code_point = |part: &str| {
        if part.is_empty() || !part.bytes().all(|b| b.is_ascii_hexdigit()) {
            return Err(format!("no code point: {part:?}"));
        }
        u32::from_str_radix(part, 16).map_err(|_| format!("a number over 32 bits: {part:?}"))
    };
    word.split(',').map(code_point).collect()
}

/// Calls of a receiver: pieces, `.` for the close, each with its marks.
fn parse_calls(word: &str) -> Result<Vec<Call>, String> {
    let mut calls: Vec<Call> = Vec::new();
    for part in word.split(',') {
        let (fresh, part) = match part.strip_prefix('!') {
            Some(rest) => (true, rest),
            None => (false, part),
        };
        if fresh && calls.iter().all(|call| call.piece.is_some()) {
            return Err(String::from("other memory before the close"));
        }
        let marked = |(mark, short)| part.strip_prefix(mark).map(|rest| (Some(short), rest));
        let (short, part) = SHORT_MARKS
            .into_iter()
            .find_map(marked)
            .unwrap_or((None, part));
        let piece = match part {
            "." => None,
            octets => Some(parse_octets(octets)?),
        };
        calls.push(Call {
            fresh,
            short,
            piece,
        });
    }
    Ok(calls)
}

/// A number that fits no cell, as a stamp below 0, has another in its place, also out of range.
fn parse_readings(word: &str) -> Result<Vec<Reading>, String> {
    if word == "-" {
        return Ok(Vec::new());
    }
    let is_number = |number: &str| {
        let digits = number.strip_prefix('-').unwrap_or(number);
        !digits.is_empty() && digits.bytes().all(|b| b.is_ascii_digit())
    };
    let reading = |part: &str| {
        let wrong = || format!("no reading: {part:?}");
        let (stamp, movement) = part.split_once(':').ok_or_else(wrong)?;
        if !is_number(stamp) || !is_number(movement) {
            return Err(wrong());
        }
        let is_below_zero = movement.starts_with('-');
        let far = if is_below_zero { i32::MIN } else { i32::MAX };
        Ok((
            stamp.parse().unwrap_or(u64::MAX),
            movement.parse().unwrap_or(far),
        ))
    };
    word.split(',').map(reading).collect()
}

fn parse_events(word: &str) -> Result<Vec<u32>, String> {
    let mut cells = Vec::new();
    if word == "-" {
        return Ok(cells);
    }
    for event in word.split(',') {
        let mut parts = event.split(':');
        let kind = parts.next().unwrap_or("");
        let numbers = parts.map(decimal).collect::<Result<Vec<u32>, String>>()?;
        if kind == "BAD" || kind == "BAD2" {
            if !numbers.is_empty() {
                return Err(format!("{kind} has no strings"));
            }
            cells.extend(if kind == "BAD" { BAD } else { BAD2 });
            continue;
        }
        let Some(&(_, number)) = KINDS.iter().find(|(name, _)| *name == kind) else {
            return Err(format!("no kind: {kind:?}"));
        };
        let strings = strings_of(number).unwrap_or(&[]);
        if numbers.len() % 2 == 1 || numbers.len() > 2 * strings.len() {
            return Err(format!("not the strings of {kind}: {event:?}"));
        }
        if numbers.len() < 2 * strings.len() {
            cells.extend(BAD); // a string is missing: no event
            continue;
        }
        let mut event = [0; CELLS];
        event[0] = number;
        for (at, string) in strings.iter().zip(numbers.chunks(2)) {
            event[*at..at + 2].copy_from_slice(string);
        }
        cells.extend(event);
    }
    Ok(cells)
}

fn print_octets(line: &mut String, octets: &[u8]) {
    if octets.is_empty() {
        line.push('-');
    }
    for octet in octets {
        for half in [octet >> 4, octet & 15] {
            line.push(char::from(b"0123456789abcdef"[usize::from(half)]));
        }
    }
}

fn print_calls(line: &mut String, calls: &[Call]) {
    for (k, call) in calls.iter().enumerate() {
        line.push_str(if k == 0 { "" } else { "," });
        line.push_str(if call.fresh { "!" } else { "" });
        for (mark, part) in SHORT_MARKS {
            line.push_str(if call.short == Some(part) { mark } else { "" });
        }
        match &call.piece {
            Some(piece) => print_octets(line, piece),
            None => line.push('.'),
        }
    }
}

fn print_store(line: &mut String, store: &[u32]) {
    if store.is_empty() {
        line.push('-');
    }
    for (k, code_point) in store.iter().enumerate() {
        let comma = if k == 0 { "" } else { "," };
        write!(line, "{comma}{code_point:x}").expect("a string takes all");
    }
}

fn print_list(line: &mut String, list: &Stored) {
    print_events(line, &list.cells);
    line.push(' ');
    print_store(line, &list.store);
}

fn print_readings(line: &mut String, readings: &[Reading]) {
    if readings.is_empty() {
        line.push('-');
    }
    for (k, (stamp, movement)) in readings.iter().enumerate() {
        let comma = if k == 0 { "" } else { "," };
        write!(line, "{comma}{stamp}:{movement}").expect("a string takes all");
    }
}

fn print_events(line: &mut String, cells: &[u32]) {
    if cells.is_empty() {
        line.push('-');
    }
    for (k, event) in cells.chunks(CELLS).enumerate() {
        if k > 0 {
            line.push(',');
        }
        let Some(strings) = stored_strings(event) else {
            let known = event.len() == CELLS && strings_of(event[0]).is_some();
            line.push_str(if known { "BAD2" } else { "BAD" });
            continue;
        };
        let kind = KINDS.iter().find(|(_, number)| *number == event[0]);
        line.push_str(kind.map_or("", |(name, _)| name));
        for &at in strings {
            write!(line, ":{}:{}", event[at], event[at + 1]).expect("a string takes all");
        }
    }
}
