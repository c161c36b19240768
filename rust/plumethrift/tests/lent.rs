//! The calls over lent memory: sizes, what is left in every cell, and every argument in its place.

use plumethrift::lent::{self, ReadReply, SettingNumbers, Sizes, WriteReply, CELLS_PER_EVENT};
use plumethrift::Event;

/// The ten numbers in their order.
fn settings(numbers: [u32; 10]) -> SettingNumbers {
    let [alignment, cookie, comments, instructions, fragment, bounds @ ..] = numbers;
    let [value_length, value_capacity, loose, prefixes, grammar_cap] = bounds;
    SettingNumbers {
        alignment,
        cookie,
        comments,
        instructions,
        fragment,
        value_length,
        value_capacity,
        loose,
        prefixes,
        grammar_cap,
    }
}

fn byte_aligned() -> SettingNumbers {
    settings([1, 0, 0, 0, 0, 0, 0, 0, 0, 0])
}

/// K3, `<a>b</a>`, byte-aligned.
const STREAM: [u8; 8] = [0x80, 0x01, 0x02, 0x61, 0x03, 0x03, 0x62, 0x00];

/// Its events: the name lies behind the 99 code points of the initial entries, the characters
/// behind the name.
const EVENTS: [u32; 45] = [
    1, 0, 0, 0, 0, 0, 0, 0, 0, //
    3, 0, 0, 99, 1, 0, 0, 0, 0, //
    6, 100, 1, 0, 0, 0, 0, 0, 0, //
    5, 0, 0, 0, 0, 0, 0, 0, 0, //
    2, 0, 0, 0, 0, 0, 0, 0, 0,
];

fn read_reply(number: u32, index: u32, events: u32, code_points: u32) -> ReadReply {
    ReadReply {
        number,
        index,
        events,
        code_points,
    }
}

fn write_reply(number: u32, index: u32, octets: u32) -> WriteReply {
    WriteReply {
        number,
        index,
        octets,
    }
}

/// Memory that is lent, full of what a call must not leave.
fn dirty<T: Clone + From<u8>>(length: usize) -> Vec<T> {
    vec![T::from(0xA5); length]
}

fn all_zero<T: PartialEq + From<u8>>(cells: &[T]) -> bool {
    cells.iter().all(|cell| *cell == T::from(0))
}

/// Reads into dirty memory of these lengths, and hands it back with the reply.
fn read(s: SettingNumbers, stream: &[u8], lengths: [usize; 3]) -> (ReadReply, [Vec<u32>; 3]) {
    let [mut events, mut text, mut work] = lengths.map(dirty);
    let reply = lent::read(s, stream, &mut events, &mut text, &mut work);
    (reply, [events, text, work])
}

/// Writes into dirty memory of these lengths, and hands it back with the reply.
fn write(
    s: SettingNumbers,
    events: &[u32],
    text: &[u32],
    lengths: [usize; 2],
) -> (WriteReply, Vec<u8>, Vec<u32>) {
    let (mut octets, mut work) = (dirty(lengths[0]), dirty(lengths[1]));
    let reply = lent::write(s, &mut octets, events, text, &mut work);
    (reply, octets, work)
}

const READER: [usize; 3] = [lent::EVENT_CELLS, lent::TEXT_CELLS, lent::READER_WORK_CELLS];
const WRITER: [usize; 2] = [lent::STREAM_OCTETS, lent::WRITER_WORK_CELLS];

#[test]
fn sizes_are_the_librarys() {
    let constants = Sizes {
        event_cells: lent::EVENT_CELLS,
        text_cells: lent::TEXT_CELLS,
        stream_octets: lent::STREAM_OCTETS,
        reader_work_cells: lent::READER_WORK_CELLS,
        writer_work_cells: lent::WRITER_WORK_CELLS,
        max_readings: lent::MAX_READINGS,
    };
    assert_eq!(lent::sizes(), constants);
    assert_eq!(lent::EVENT_CELLS, 4_096 * CELLS_PER_EVENT);
}

/// After success every cell is said; also where more is lent than asked for.
#[test]
fn what_reading_leaves() {
    for lengths in [READER, READER.map(|length| length + 5)] {
        let (reply, [events, text, work]) = read(byte_aligned(), &STREAM, lengths);
        assert_eq!(reply, read_reply(0, 0, 5, 101));
        assert_eq!(events[..45], EVENTS);
        assert!(all_zero(&events[45..]));
        let initial = "http://www.w3.org/XML/1998/namespace\
                       http://www.w3.org/2001/XMLSchema-instance\
                       baseidlangspaceniltype";
        assert!(text[..99]
            .iter()
            .copied()
            .eq(initial.chars().map(u32::from)));
        assert_eq!(text[99..101], [0x61, 0x62]);
        assert!(all_zero(&text[101..]));
        assert!(all_zero(&work));
    }
}

#[test]
fn what_writing_leaves() {
    // the same texts elsewhere, in a store that has more
    let mut events = EVENTS;
    (events[12], events[19]) = (1, 0);
    let store = [0x62, 0x61, 0, u32::MAX];
    for lengths in [WRITER, WRITER.map(|length| length + 5)] {
        let (reply, octets, work) = write(byte_aligned(), &events, &store, lengths);
        assert_eq!(reply, write_reply(0, 0, 8));
        assert_eq!(octets[..8], STREAM);
        assert!(all_zero(&octets[8..]));
        assert!(all_zero(&work));
    }
}

/// Slices that are only read may be the same. The name is the cell that says where the first of the
/// empty characters lie, an `A`.
#[test]
fn a_list_that_is_its_own_store() {
    let events = [
        1, 0, 0, 0, 0, 0, 0, 0, 0, //
        3, 0, 0, 19, 1, 0, 0, 0, 0, //
        6, 65, 0, 0, 0, 0, 0, 0, 0, //
        6, 0, 0, 0, 0, 0, 0, 0, 0, //
        6, 0, 0, 0, 0, 0, 0, 0, 0, //
        6, 0, 0, 0, 0, 0, 0, 0, 0, //
        5, 0, 0, 0, 0, 0, 0, 0, 0, //
        2, 0, 0, 0, 0, 0, 0, 0, 0,
    ];
    let (reply, octets, _) = write(byte_aligned(), &events, &events, WRITER);
    let stream = b"\x80\x01\x02A\x03\x02\x01\x01\x02\x00\x02\x00\x02\x01";
    assert_eq!((reply.number, reply.octets), (0, 14));
    assert_eq!(octets[..14], stream[..]);
}

#[test]
fn a_refusal_leaves_zeros() {
    let (reply, memory) = read(byte_aligned(), &STREAM[..7], READER);
    assert_eq!(reply, read_reply(5, 3, 0, 0));
    assert!(memory.iter().all(|part| all_zero(part)));

    let (reply, octets, work) = write(byte_aligned(), &EVENTS[..36], &[0x62; 101], WRITER);
    assert_eq!(reply, write_reply(14, 4, 0));
    assert!(all_zero(&octets) && all_zero(&work));
}

/// Each part that is one cell or octet short, or empty, is ROOM: so the lengths arrive in their
/// places.
#[test]
fn room_is_judged_part_by_part() {
    for part in 0..3 {
        for short in [READER[part] - 1, 0] {
            let mut lengths = READER;
            lengths[part] = short;
            let (reply, memory) = read(byte_aligned(), &STREAM, lengths);
            assert_eq!(reply, read_reply(1, 0, 0, 0));
            assert!(memory.iter().all(|part| all_zero(part)));
        }
    }
    for part in 0..2 {
        for short in [WRITER[part] - 1, 0] {
            let mut lengths = WRITER;
            lengths[part] = short;
            let (reply, octets, work) = write(byte_aligned(), &EVENTS, &[0x61; 101], lengths);
            assert_eq!(reply, write_reply(1, 0, 0));
            assert!(all_zero(&octets) && all_zero(&work));
        }
    }
}

/// Each settings number is judged in its place, before the length of the stream: the first five
/// are at most 1, a capacity at most 2,048, with 1 added, the last three 0. All lengths have a
/// meaning.
#[test]
fn settings_without_a_meaning() {
    for place in 0..10 {
        let first = match place {
            0..5 => 2,
            5 => continue,
            6 => 2_050,
            _ => 1,
        };
        for bad in [first, 2, 3, 256, 65_536, u32::MAX].map(|bad| bad.max(first)) {
            let mut numbers = [1, 0, 0, 0, 0, 0, 0, 0, 0, 0];
            numbers[place] = bad;
            let s = settings(numbers);
            for stream in [&STREAM[..], &[0x80; lent::STREAM_OCTETS + 1]] {
                assert_eq!(read(s, stream, READER).0, read_reply(2, 0, 0, 0));
            }
            assert_eq!(
                write(s, &EVENTS, &[0x61; 101], WRITER).0,
                write_reply(2, 0, 0)
            );
        }
    }
}

/// Each settings number has its meaning in its place: the same list, and what each adds to K1.
#[test]
fn settings_in_their_places() {
    let events: Vec<u32> = EVENTS
        .chunks(CELLS_PER_EVENT)
        .filter(|event| event[0] != 6)
        .flatten()
        .copied()
        .collect();
    let stream = |a, k, c, p| {
        let s = settings([a, k, c, p, 0, 0, 0, 0, 0, 0]);
        let (reply, octets, _) = write(s, &events, &[0x61; 100], WRITER);
        assert_eq!(reply.number, 0);
        octets[..reply.octets as usize].to_vec()
    };
    assert_eq!(stream(1, 0, 0, 0), [0x80, 0x01, 0x02, 0x61, 0x00]);
    assert_eq!(stream(0, 0, 0, 0), [0x80, 0x40, 0x98, 0x40]);
    assert_eq!(
        stream(1, 1, 0, 0),
        [0x24, 0x45, 0x58, 0x49, 0x80, 0x01, 0x02, 0x61, 0x00]
    );
    assert_eq!(
        stream(1, 0, 1, 0),
        [0x80, 0x00, 0x01, 0x02, 0x61, 0x00, 0x00]
    );
    assert_eq!(
        stream(1, 0, 0, 1),
        [0x80, 0x00, 0x01, 0x02, 0x61, 0x00, 0x00]
    );
}

/// What an `EventList` cannot have: strings outside the store, kinds without a meaning, cells that
/// a kind does not use, a rest.
#[test]
fn stored_events_that_are_refused() {
    let refused = |events: &[u32], store: &[u32]| {
        let (reply, octets, work) = write(byte_aligned(), events, store, WRITER);
        assert!(reply.octets == 0 && all_zero(&octets) && all_zero(&work));
        (reply.number, reply.index)
    };
    let with = |cell: usize, number: u32| {
        let mut events = EVENTS;
        events[cell] = number;
        events
    };
    assert_eq!(refused(&EVENTS, &[0x61; 100]), (15, 2)); // the characters pass the store's end
    assert_eq!(refused(&with(10, 102), &[0x61; 101]), (15, 1)); // an empty URI does
    assert_eq!(refused(&with(20, u32::MAX), &[0x61; 101]), (15, 2)); // place and length do not wrap
    assert_eq!(refused(&EVENTS, &[]), (15, 1));
    assert_eq!(refused(&with(18, 0), &[0x61; 101]), (14, 2));
    assert_eq!(refused(&with(18, 9), &[0x61; 101]), (14, 2));
    assert_eq!(refused(&with(26, 1), &[0x61; 101]), (14, 2));
    assert_eq!(refused(&EVENTS[..26], &[0x61; 101]), (14, 2));
    assert_eq!(refused(&[], &[]), (14, 0));
}

/// No prefixes are kept: a prefix's cells that are not 0 are no event, wherever it would lie. Nor
/// does a start element have a value.
#[test]
fn stored_prefixes_are_refused() {
    let attribute = [4, 0, 0, 0, 1, 0, 0, 0, 1];
    let list = [&EVENTS[..18], &attribute, &EVENTS[27..]].concat();
    let store = [0x61; 101];
    assert_eq!(
        write(byte_aligned(), &list, &store, WRITER).0,
        write_reply(0, 0, 11)
    );
    for (event, cells) in [(1, 5..9), (2, 5..7)] {
        for cell in cells {
            for data in [1, u32::MAX] {
                let mut list = list.clone();
                list[CELLS_PER_EVENT * event + cell] = data;
                let cells = &list[CELLS_PER_EVENT * event..CELLS_PER_EVENT * (event + 1)];
                assert_eq!(Event::from_cells(cells, &store), None);
                assert_eq!(
                    write(byte_aligned(), &list, &store, WRITER).0,
                    write_reply(14, event as u32, 0)
                );
            }
        }
    }
}
