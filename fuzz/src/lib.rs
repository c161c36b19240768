//! How an input of the fuzzer stands for a request.
//!
//! The first octet has the first four settings in its low four bits; with 16 set, other settings'
//! numbers follow; with 32 set, a part is lent short; with 64 set, the alignment has no meaning;
//! with 128 set, the request is to write, else to read. Numbers take 7 bits an octet, the least
//! significant group first, the top bit set on all but the last. The other settings are an octet
//! whose low six bits say which of the six are not 0, and their numbers. A part is an octet: its
//! remainder by how many parts there are. To read, the rest is the stream. To write, the rest is
//! numbers: how many code points, the code points, then the events. An event is its kind and a
//! place and a length for each of its strings; a kind without meaning is followed by nothing;
//! [`RAW`] is followed by how many cells, at most nine, and the cells; [`AGAIN`] is the newest
//! attribute once more, and is followed by the place and the length of its value.
//!
//! With both 64 and 1 set the request is about readings: with 128 set for the list of readings,
//! else for the readings of a list, which follows as to write. Of the other bits only 32 counts.
//! Readings are numbers up to the end: by how much a stamp is above the one before, and the
//! movement, twice its size, and one more below 0.
//!
//! With 2 set there, too, the request is the calls of a receiver. An octet follows with the
//! settings as above, then calls up to the end. A call is an octet, up to 240 as many octets of a
//! piece; [`CLOSE`] is the close, [`LONG_PIECE`] a piece with its length as a number before it,
//! [`ZEROS`] one of zeros, given by its length. Before these may stand [`OTHER_MEMORY`], which
//! counts after the close alone, and one of the octets from [`SHORT_CALL`] on, which lend a part
//! short.

#![forbid(unsafe_code)]

use compare::event::{stored_strings, strings_of, Stored, ATTRIBUTE, CELLS};
use compare::lent::{ReaderPart, Settings, WriterPart};
use compare::packets::Call;
use compare::protocol::{ReadingsPart, Request};
use compare::readings::{ListPart, Reading};

const OTHER_SETTINGS: u8 = 16;
const SHORT: u8 = 32;
const NO_ALIGNMENT: u8 = 64;
const WRITE: u8 = 128;

const READER_PARTS: [ReaderPart; 3] = [ReaderPart::Events, ReaderPart::Text, ReaderPart::Work];
const WRITER_PARTS: [WriterPart; 2] = [WriterPart::Octets, WriterPart::Work];
const LIST_PARTS: [ListPart; 2] = [ListPart::Events, ListPart::Text];

/// In the first octet: about readings.
const READINGS: u8 = NO_ALIGNMENT | 1;

/// In the first octet: calls of a receiver.
const PACKETS: u8 = READINGS | 2;

/// In place of a piece's length, at most 240: the close.
pub const CLOSE: u8 = 241;
/// In place of a piece's length: this follows as a number.
pub const LONG_PIECE: u8 = 242;
/// In place of a piece: zeros, as many as the number that follows says.
pub const ZEROS: u8 = 243;
/// Before a call: other memory is lent to it.
pub const OTHER_MEMORY: u8 = 244;
/// Before a call: events are lent short; with the next two octets text and work.
pub const SHORT_CALL: u8 = 245;

/// The most zeros in one piece.
const MAX_ZEROS: u32 = 20_000;

/// In place of a kind: cells as they are.
pub const RAW: u32 = 127;

/// In place of a kind: an attribute of the name that the newest one has.
pub const AGAIN: u32 = 126;

pub fn request(input: &[u8]) -> Option<Request> {
    let (&first, rest) = input.split_first()?;
    let mut numbers = Numbers { octets: rest };
    if first & PACKETS == PACKETS {
        let settings = settings(numbers.octet(), &mut numbers);
        let calls = calls(&mut numbers);
        return Some(Request::Packets { settings, calls });
    }
    if first & READINGS == READINGS {
        return Some(request_of_readings(first, &mut numbers));
    }
    let settings = settings(first, &mut numbers);
    let short = if first & SHORT == 0 {
        None
    } else {
        Some(usize::from(numbers.octet()))
    };
    Some(if first & WRITE == 0 {
        Request::Read {
            settings,
            short: short.map(|part| READER_PARTS[part % READER_PARTS.len()]),
            stream: numbers.octets.to_vec(),
        }
    } else {
        Request::Write {
            settings,
            short: short.map(|part| WRITER_PARTS[part % WRITER_PARTS.len()]),
            list: list(&mut numbers),
        }
    })
}

fn calls(numbers: &mut Numbers) -> Vec<Call> {
    let mut calls: Vec<Call> = Vec::new();
    let mut next = Call::default();
    while let Some((&first, rest)) = numbers.octets.split_first() {
        numbers.octets = rest;
        next.piece = match first {
            CLOSE => None,
            LONG_PIECE => {
                let length = numbers.next().unwrap_or(0) as usize;
                Some(numbers.taken(length))
            }
            ZEROS => Some(vec![0; numbers.next().unwrap_or(0).min(MAX_ZEROS) as usize]),
            OTHER_MEMORY => {
                next.fresh = calls.iter().any(|call| call.piece.is_none());
                continue;
            }
            SHORT_CALL.. => {
                let part = usize::from(first - SHORT_CALL) % READER_PARTS.len();
                next.short = Some(READER_PARTS[part]);
                continue;
            }
            length => Some(numbers.taken(usize::from(length))),
        };
        calls.push(std::mem::take(&mut next));
    }
    calls
}

fn put_calls(input: &mut Vec<u8>, calls: &[Call]) {
    for call in calls {
        if call.fresh {
            input.push(OTHER_MEMORY);
        }
        if let Some(part) = call.short {
            let place = READER_PARTS.iter().position(|known| *known == part);
            input.push(SHORT_CALL + place.unwrap_or(0) as u8);
        }
        let Some(piece) = &call.piece else {
            input.push(CLOSE);
            continue;
        };
        let length = piece.len() as u32;
        if length <= 240 {
            input.push(length as u8);
            input.extend(piece);
        } else if length <= MAX_ZEROS && piece.iter().all(|&octet| octet == 0) {
            input.push(ZEROS);
            put(input, length);
        } else {
            input.push(LONG_PIECE);
            put(input, length);
            input.extend(piece);
        }
    }
}

fn request_of_readings(first: u8, numbers: &mut Numbers) -> Request {
    let short = (first & SHORT != 0).then(|| usize::from(numbers.octet()));
    if first & WRITE == 0 {
        return Request::Readings {
            short: short.map(|_| ReadingsPart::Readings),
            list: list(numbers),
        };
    }
    Request::List {
        short: short.map(|part| LIST_PARTS[part % LIST_PARTS.len()]),
        readings: readings(numbers),
    }
}

fn settings(first: u8, numbers: &mut Numbers) -> Settings {
    let mut all = [0; 10];
    for (k, number) in all[..4].iter_mut().enumerate() {
        *number = u32::from(first >> k & 1);
    }
    if first & NO_ALIGNMENT != 0 {
        all[0] = 2;
    }
    if first & OTHER_SETTINGS != 0 {
        let which = numbers.octet();
        for (k, number) in all[4..].iter_mut().enumerate() {
            if which >> k & 1 == 1 {
                *number = numbers.next().unwrap_or(0);
            }
        }
    }
    Settings::from_numbers(all)
}

/// The input that stands for a request, if there is one.
pub fn input(request: &Request) -> Option<Vec<u8>> {
    let (settings, short) = match request {
        Request::Packets { settings, calls } => {
            let mut behind = vec![0];
            put_settings(&mut behind, *settings)?;
            put_calls(&mut behind, calls);
            return Some([vec![PACKETS], behind].concat());
        }
        Request::Readings { short, list } => {
            let mut input = vec![READINGS];
            put_short(&mut input, short.map(|_| 0));
            put_list(&mut input, list);
            return Some(input);
        }
        Request::List { short, readings } => {
            let place = |part| LIST_PARTS.iter().position(|known| *known == part);
            let mut input = vec![READINGS | WRITE];
            put_short(&mut input, short.and_then(place));
            put_readings(&mut input, readings);
            return Some(input);
        }
        Request::Read {
            settings, short, ..
        } => {
            let place = |part| READER_PARTS.iter().position(|known| *known == part);
            (settings, short.and_then(place))
        }
        Request::Write {
            settings, short, ..
        } => {
            let place = |part| WRITER_PARTS.iter().position(|known| *known == part);
            (settings, short.and_then(place))
        }
    };
    let mut input = vec![0];
    put_settings(&mut input, *settings)?;
    put_short(&mut input, short);
    match request {
        Request::Read { stream, .. } => input.extend(stream),
        Request::Write { list, .. } => {
            input[0] |= WRITE;
            put_list(&mut input, list);
        }
        Request::Packets { .. } | Request::Readings { .. } | Request::List { .. } => {}
    }
    Some(input)
}

fn put_short(input: &mut Vec<u8>, part: Option<usize>) {
    if let Some(part) = part {
        input[0] |= SHORT;
        input.push(part as u8);
    }
}

fn put_settings(input: &mut Vec<u8>, settings: Settings) -> Option<()> {
    let numbers = settings.numbers();
    for (k, &number) in numbers[..4].iter().enumerate() {
        match number {
            0 | 1 => input[0] |= (number as u8) << k,
            _ if k == 0 => input[0] |= NO_ALIGNMENT,
            _ => return None,
        }
    }
    let others = &numbers[4..];
    if others.iter().any(|&number| number != 0) {
        input[0] |= OTHER_SETTINGS;
        let which = |which: u8, (k, &number): (usize, &u32)| which | u8::from(number != 0) << k;
        input.push(others.iter().enumerate().fold(0, which));
        let given = others.iter().filter(|&&number| number != 0);
        given.for_each(|&number| put(input, number));
    }
    Some(())
}

fn list(numbers: &mut Numbers) -> Stored {
    let count = numbers.next().unwrap_or(0) as usize;
    let mut list = Stored {
        cells: Vec::new(),
        store: Vec::new(),
    };
    while list.store.len() < count {
        let Some(code_point) = numbers.next() else {
            break;
        };
        list.store.push(code_point);
    }
    while let Some(kind) = numbers.next() {
        if kind == RAW {
            let cells = (numbers.next().unwrap_or(0) as usize).min(CELLS);
            for _ in 0..cells {
                list.cells.push(numbers.next().unwrap_or(0));
            }
            continue;
        }
        let mut event = [0; CELLS];
        event[0] = kind;
        let mut strings = strings_of(kind).unwrap_or(&[]);
        if kind == AGAIN {
            event = newest_attribute(&list.cells);
            strings = &[7];
        }
        for &at in strings {
            event[at] = numbers.next().unwrap_or(0);
            event[at + 1] = numbers.next().unwrap_or(0);
        }
        list.cells.extend(event);
    }
    list
}

/// The newest attribute of whole events; where there is none, one of empty strings.
fn newest_attribute(cells: &[u32]) -> [u32; CELLS] {
    let mut event = [0; CELLS];
    event[0] = ATTRIBUTE;
    let newest = cells
        .chunks_exact(CELLS)
        .rfind(|cells| cells[0] == ATTRIBUTE);
    if let Some(newest) = newest {
        event.copy_from_slice(newest);
    }
    event
}

fn put_list(input: &mut Vec<u8>, list: &Stored) {
    put(input, list.store.len() as u32);
    list.store.iter().for_each(|&number| put(input, number));
    for cells in list.cells.chunks(CELLS) {
        match stored_strings(cells) {
            Some(strings) => {
                put(input, cells[0]);
                for &at in strings {
                    put(input, cells[at]);
                    put(input, cells[at + 1]);
                }
            }
            None => {
                put(input, RAW);
                put(input, cells.len() as u32);
                cells.iter().for_each(|&number| put(input, number));
            }
        }
    }
}

fn readings(numbers: &mut Numbers) -> Vec<Reading> {
    let mut readings = Vec::new();
    let mut stamp = 0u64;
    while let Some(step) = numbers.next_long() {
        stamp = stamp.wrapping_add(step);
        let twice = numbers.next().unwrap_or(0);
        let below = (twice & 1) as i32;
        readings.push((stamp, (twice >> 1) as i32 ^ -below));
    }
    readings
}

fn put_readings(input: &mut Vec<u8>, readings: &[Reading]) {
    let mut before = 0u64;
    for &(stamp, movement) in readings {
        put_long(input, stamp.wrapping_sub(before));
        put(input, (movement << 1 ^ movement >> 31) as u32);
        before = stamp;
    }
}

fn put(input: &mut Vec<u8>, number: u32) {
    put_long(input, u64::from(number));
}

fn put_long(input: &mut Vec<u8>, number: u64) {
    let mut rest = number;
    while rest >= 128 {
        input.push(rest as u8 | 128);
        rest >>= 7;
    }
    input.push(rest as u8);
}

struct Numbers<'a> {
    octets: &'a [u8],
}

impl Numbers<'_> {
    /// The next octet as it is; 0 at the end.
    fn octet(&mut self) -> u8 {
        let Some((&octet, rest)) = self.octets.split_first() else {
            return 0;
        };
        self.octets = rest;
        octet
    }

    /// The next octets, at most as many as there are.
    fn taken(&mut self, length: usize) -> Vec<u8> {
        let (taken, rest) = self.octets.split_at(length.min(self.octets.len()));
        self.octets = rest;
        taken.to_vec()
    }

    /// The low 32 bits of the next number.
    fn next(&mut self) -> Option<u32> {
        self.next_long().map(|number| number as u32)
    }

    fn next_long(&mut self) -> Option<u64> {
        let mut number = 0u64;
        let mut shift = 0;
        loop {
            let (&octet, rest) = self.octets.split_first()?;
            self.octets = rest;
            if shift < 64 {
                number |= u64::from(octet & 127) << shift;
            }
            if octet < 128 {
                return Some(number);
            }
            shift += 7;
        }
    }
}

#[cfg(test)]
mod tests {
    use super::*;

    #[test]
    fn requests_come_back_from_their_inputs() {
        let requests = [
            "r 1 0 1 0 8001026100",
            "r 2 1 0 1 -",
            "w 0 1 1 1 SD,SE:0:0:0:1,AT:4294967295:1:2:3:4:5,BAD2,BAD,CM:300:7,PI:1:1:1:1,EE,ED \
             61,ffffffff,0",
            "w 1 0 0 0 - -",
            "w 1 0 0 0 SD,SE:0:0:0:1,AT:0:0:0:1:0:1,AT:0:0:0:1:0:0,EE,ED 61",
            "w 1 0 1 1 SD,CM:0:2,PI:2:3:5:2,SE:0:0:7:2,EE,ED 2d,2d,58,6d,4c,3f,3e,f0000,3a",
            "r 1 0 1 1 800100022d2d",
            "r 1 0 0 0 800102610101026b03780002",
            "r 2 0 0 0 fragment=1 vmax=0 vcap=4294967294 loose=7 prefixes=300 cap=5 short=work 80",
            "r 1 0 0 0 cap=0 short=events -",
            "r 1 0 1 0 fragment=1 800200000102610002",
            "r 1 0 0 0 vcap=2 800102610303780101037900037a00000201",
            "w 0 0 0 0 vmax=1 vcap=1 SD,SE:0:0:0:1,CH:0:1,CH:0:2,CH:1:1,EE,ED 61,62",
            "w 0 0 0 0 fragment=1 SD,SE:0:0:0:1,EE,SE:0:0:0:1,EE,ED 61",
            "w 1 1 0 0 vmax=70000 short=octets BAD 61",
            "m SD,SE:0:0:0:8,EE,ED 72,65,61,64,69,6e,67,73",
            "m short=readings BAD -",
            "l -",
            "l 0:0,5097600000:-5,7:20000,18446744073709551615:-2147483648,0:2147483647",
            "l short=events 3155759999999:-1",
            "l short=text -",
            "f 1 0 0 0 -,80,0102,61,00,-,.,00",
            "f 2 1 1 0 vcap=3 e<80,t<-,w<.,!.,!e<00",
        ];
        let zeros = format!("f 0 0 0 1 a0,{},.", "00".repeat(16_384));
        let long = format!("f 0 0 0 1 80{},.", "ff".repeat(300));
        for line in requests.into_iter().chain([&*zeros, &*long]) {
            let wanted = Request::parse(line).expect(line);
            let octets = input(&wanted).expect(line);
            assert_eq!(request(&octets), Some(wanted));
        }
    }

    /// The dictionary has the code points at which names change, in octets as here.
    #[test]
    fn words_of_the_dictionary() {
        let dictionary = include_str!("../names.dict");
        let words: Vec<&str> = dictionary
            .lines()
            .filter(|it| !it.starts_with('#'))
            .collect();
        assert!(words
            .iter()
            .all(|it| it.len() > 2 && it.starts_with('"') && it.ends_with('"')));
        for code_point in compare::names::edges() {
            let mut octets = Vec::new();
            put(&mut octets, code_point);
            let word: String = octets
                .iter()
                .map(|octet| format!("\\x{octet:02x}"))
                .collect();
            assert!(
                words.contains(&&*format!("\"{word}\"")),
                "{code_point:X}: {word}"
            );
        }
        for word in ["--", "?>", "xml", "XML", "XmL"] {
            assert!(words.contains(&&*format!("\"{word}\"")), "{word}");
        }
    }

    #[test]
    fn attributes_once_more() {
        let again = AGAIN as u8;
        let head = [WRITE | 1, 2, 0x61, 0x62, 1, 3, 0, 0, 0, 1];
        for (behind, line) in [
            (
                &[4, 0, 0, 1, 1, 0, 1, again, 0, 0, 5, 2][..],
                "AT:0:0:1:1:0:1,AT:0:0:1:1:0:0,EE,ED",
            ),
            (
                &[
                    4, 0, 0, 0, 1, 0, 1, 4, 0, 1, 1, 1, 0, 1, 3, 0, 0, 0, 1, again, 1, 1,
                ],
                "AT:0:0:0:1:0:1,AT:0:1:1:1:0:1,SE:0:0:0:1,AT:0:1:1:1:1:1",
            ),
            (&[again, 0, 1, 5, 2], "AT:0:0:0:0:0:1,EE,ED"),
        ] {
            let line = format!("w 1 0 0 0 SD,SE:0:0:0:1,{line} 61,62");
            let wanted = Request::parse(&line).expect("a request");
            assert_eq!(request(&[&head[..], behind].concat()), Some(wanted));
        }
    }
}
