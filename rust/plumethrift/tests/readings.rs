//! Readings from lists and streams, and back: every argument in its place, and what is left in
//! every cell.

use plumethrift::lent::{
    self, ListReply, ReadingsReply, SettingNumbers, WriteReply, CELLS_PER_EVENT, EVENT_CELLS,
    LAST_STAMP, MAX_MOVEMENT, MAX_READINGS, READER_WORK_CELLS, STREAM_OCTETS, TEXT_CELLS,
    WRITER_WORK_CELLS,
};
use plumethrift::{
    Alignment, EventList, Reader, Reading, Readings, Refusal, Refused, Settings, Writer,
};

const FIRST: &str = "2000-01-01T00:00:00.000Z";
const LEAP: &str = "2000-02-29T00:00:00.000Z";
const LAST: &str = "2099-12-31T23:59:59.999Z";
const LEAP_NUMBER: u64 = 5_097_600_000;

fn list(children: &[(&str, &str)]) -> EventList {
    let mut list = EventList::new();
    list.start_document().start_element("", "readings");
    for (t, um) in children {
        list.start_element("", "r")
            .attribute("", "t", t)
            .attribute("", "um", um)
            .end_element();
    }
    list.end_element().end_document();
    list
}

fn readings(all: &[(u64, i32)]) -> Readings {
    let reading = |&(milliseconds, micrometres): &(u64, i32)| Reading {
        milliseconds,
        micrometres,
    };
    all.iter().map(reading).collect()
}

fn refused<T>(refusal: Refusal, index: u32) -> Result<T, Refused> {
    Err(Refused { refusal, index })
}

#[test]
fn lists_and_readings_stand_for_each_other() {
    for (children, all) in [
        (&[][..], &[][..]),
        (&[(LEAP, "-5")], &[(LEAP_NUMBER, -5)]),
        (
            &[(FIRST, "20000"), (LEAP, "0"), (LAST, "-20000")],
            &[
                (0, MAX_MOVEMENT),
                (LEAP_NUMBER, 0),
                (LAST_STAMP, -MAX_MOVEMENT),
            ],
        ),
    ] {
        let all = readings(all);
        assert_eq!(Readings::of_list(&list(children)), Ok(all.clone()));
        assert_eq!(all.to_list(), Ok(list(children)));
    }
}

#[test]
fn lists_that_are_refused() {
    use Refusal::*;
    let of = |children: &[(&str, &str)]| Readings::of_list(&list(children));
    let none = "2100-01-01T00:00:00.000Z";
    assert_eq!(Readings::of_list(&EventList::new()), refused(Structure, 0));
    assert_eq!(of(&[(none, "x")]), refused(BadStamp, 0));
    assert_eq!(of(&[(FIRST, "0"), (LEAP, "-0")]), refused(BadMovement, 1));
    assert_eq!(of(&[(FIRST, "20001")]), refused(BadMovement, 0));
    assert_eq!(of(&[(LEAP, "1"), (LEAP, "1")]), refused(NotLater, 1));

    let mut more = list(&[(FIRST, "0")]);
    more.end_document();
    assert_eq!(Readings::of_list(&more), refused(Structure, 1));
}

#[test]
fn readings_that_are_refused() {
    use Refusal::*;
    let to = |all| readings(all).to_list();
    assert_eq!(to(&[(LAST_STAMP + 1, 99_999)]), refused(BadStamp, 0));
    assert_eq!(to(&[(u64::MAX, 0)]), refused(BadStamp, 0));
    assert_eq!(
        to(&[(0, 0), (0, MAX_MOVEMENT + 1)]),
        refused(BadMovement, 1)
    );
    assert_eq!(to(&[(0, -MAX_MOVEMENT - 1)]), refused(BadMovement, 0));
    assert_eq!(to(&[(0, i32::MIN)]), refused(BadMovement, 0));
    assert_eq!(to(&[(1, 0), (2, 0), (2, 0)]), refused(NotLater, 2));
}

/// 678 readings of movement 0 fill the text store; longer movements, and more of them, leave less.
#[test]
fn as_many_as_the_text_store_holds() {
    let zero: fn(u64) -> i32 = |_| 0;
    for (movement, most) in [(zero, MAX_READINGS), (|_| 10, 677), (|k| k as i32, 606)] {
        let all: Vec<(u64, i32)> = (0..900).map(|k| (k, movement(k))).collect();
        let list = readings(&all[..most]).to_list().unwrap();
        assert_eq!(list.len(), 4 + 4 * most);
        assert_eq!(Readings::of_list(&list), Ok(readings(&all[..most])));
        let limit = refused(Refusal::Limit, most as u32);
        assert_eq!(readings(&all[..most + 1]).to_list(), limit);
        assert_eq!(readings(&all).to_list(), limit);
    }
    assert_eq!(readings(&[(0, 0)]).to_list().unwrap().store().len(), 136);
}

/// Under bounds of values movements are laid again, and the writer may refuse: over lent memory
/// with the index of an event, which is above that of any reading, else with the reading's.
#[test]
fn text_that_bounds_make_too_long() {
    let all: Vec<(u64, i32)> = (0..600).map(|k| (k, -MAX_MOVEMENT)).collect();
    let all = readings(&all);
    assert!(Writer::new()
        .write_readings(&Settings::default(), &all)
        .is_ok());
    // 111 code points and 30 for each reading: the stamp of reading 542 is too many
    for (length, capacity) in [(Some(0), None), (None, Some(0)), (Some(0), Some(2_048))] {
        let settings = Settings {
            value_length: length,
            value_capacity: capacity,
            ..Settings::default()
        };
        let limit = refused(Refusal::Limit, 542);
        assert_eq!(Writer::new().write_readings(&settings, &all), limit);
        let reply = lent::write_readings(
            settings.numbers(),
            &mut [0; STREAM_OCTETS],
            all.stamps(),
            all.movements(),
            &mut vec![0; EVENT_CELLS],
            &mut vec![0; TEXT_CELLS],
            &mut vec![0; WRITER_WORK_CELLS],
        );
        assert_eq!((reply.number, reply.index), (12, 2 + 4 * 542 + 1));
        assert!(reply.index as usize > MAX_READINGS);
    }
}

#[test]
fn readings_as_a_collection() {
    let mut all = Readings::new();
    assert!(all.is_empty());
    all.push(3, -1).push(4, 2);
    assert_eq!(
        (all.len(), all.stamps(), all.movements()),
        (2, &[3, 4][..], &[-1, 2][..])
    );
    let last = all.iter().next_back().unwrap();
    assert_eq!((last.milliseconds, last.micrometres), (4, 2));
    assert_eq!(all.iter().collect::<Readings>(), all);
    let mut twice = all.clone();
    twice.extend(all.iter());
    assert_eq!(twice.len(), 4);
    twice.clear();
    assert_eq!(twice, Readings::default());
}

/// Takes readings out with dirty memory of these lengths, and hands it back with the reply.
fn take(list: &EventList, lengths: [usize; 2]) -> (ReadingsReply, Vec<u64>, Vec<i32>) {
    let (mut stamps, mut movements) = (vec![!0; lengths[0]], vec![-1; lengths[1]]);
    let reply = lent::readings_of_list(list.cells(), list.store(), &mut stamps, &mut movements);
    (reply, stamps, movements)
}

/// Lays a list in dirty memory of these lengths, and hands it back with the reply.
fn lay(all: &Readings, lengths: [usize; 2]) -> (ListReply, [Vec<u32>; 2]) {
    let [mut events, mut text] = lengths.map(|length| vec![!0; length]);
    let reply = lent::list_of_readings(all.stamps(), all.movements(), &mut events, &mut text);
    (reply, [events, text])
}

fn all_zero<T: Default + PartialEq>(cells: &[T]) -> bool {
    cells.iter().all(|cell| *cell == T::default())
}

#[test]
fn what_the_calls_leave() {
    let all = readings(&[(0, 20_000), (LEAP_NUMBER, -20_000)]);
    let list = all.to_list().unwrap();
    for more in [[0, 0], [5, 0], [0, 5], [1_000, 2_000]] {
        let (reply, stamps, movements) = take(&list, more.map(|more| MAX_READINGS + more));
        assert_eq!((reply.number, reply.index, reply.readings), (0, 0, 2));
        assert_eq!(stamps[..2], *all.stamps());
        assert_eq!(movements[..2], *all.movements());
        assert!(all_zero(&stamps[2..]) && all_zero(&movements[2..]));

        let lengths = [EVENT_CELLS + more[0], TEXT_CELLS + more[1]];
        let (reply, [events, text]) = lay(&all, lengths);
        let (cells, points) = (
            CELLS_PER_EVENT * reply.events as usize,
            reply.code_points as usize,
        );
        assert_eq!((reply.number, reply.index), (0, 0));
        assert_eq!(events[..cells], *list.cells());
        assert_eq!(text[..points], *list.store());
        assert!(all_zero(&events[cells..]) && all_zero(&text[points..]));
    }

    let (reply, stamps, movements) = take(&EventList::new(), [700, 700]);
    assert_eq!((reply.number, reply.index, reply.readings), (16, 0, 0));
    assert!(all_zero(&stamps) && all_zero(&movements));
    let (reply, parts) = lay(&readings(&[(7, 0), (7, 0)]), [EVENT_CELLS, TEXT_CELLS]);
    assert_eq!(
        (reply.number, reply.index, reply.events, reply.code_points),
        (19, 1, 0, 0)
    );
    assert!(parts.iter().all(|part| all_zero(part)));
}

/// Each part that is one cell short, or empty, is ROOM, before anything else.
#[test]
fn room_is_judged_part_by_part() {
    let good = readings(&[(0, 1)]);
    for part in 0..2 {
        for list in [good.to_list().unwrap(), EventList::new()] {
            for short in [MAX_READINGS - 1, 0] {
                let mut lengths = [MAX_READINGS; 2];
                lengths[part] = short;
                let (reply, stamps, movements) = take(&list, lengths);
                assert_eq!((reply.number, reply.index, reply.readings), (1, 0, 0));
                assert!(all_zero(&stamps) && all_zero(&movements));
            }
        }
        for all in [&good, &readings(&[(u64::MAX, 0)])] {
            for short in [[EVENT_CELLS, TEXT_CELLS][part] - 1, 0] {
                let mut lengths = [EVENT_CELLS, TEXT_CELLS];
                lengths[part] = short;
                let (reply, parts) = lay(all, lengths);
                assert_eq!((reply.number, reply.index, reply.events), (1, 0, 0));
                assert!(parts.iter().all(|part| all_zero(part)));
            }
        }
    }
}

/// As many readings as both parts have.
#[test]
fn parts_of_two_lengths() {
    let (mut events, mut text) = (vec![0; EVENT_CELLS], vec![0; TEXT_CELLS]);
    for (stamps, movements, count) in [
        (&[1, 2, 0][..], &[3, 4][..], 2),
        (&[1], &[3, 99_999], 1),
        (&[], &[3], 0),
    ] {
        let reply = lent::list_of_readings(stamps, movements, &mut events, &mut text);
        assert_eq!((reply.number, reply.events), (0, 4 + 4 * count));
    }
}

// ---- streams

const BIT_PACKED: SettingNumbers = Settings::numbers(&Settings {
    alignment: Alignment::BitPacked,
    cookie: false,
    comments: false,
    instructions: false,
    fragment: false,
    value_length: None,
    value_capacity: None,
    loose: false,
    prefixes: false,
    grammar_cap: None,
});

#[test]
fn streams_and_readings_stand_for_each_other() {
    let all = readings(&[
        (0, 20_000),
        (LEAP_NUMBER, -5),
        (LEAP_NUMBER + 1, -5),
        (LAST_STAMP, 0),
    ]);
    let (mut reader, mut writer) = (Reader::new(), Writer::new());
    for alignment in [Alignment::BitPacked, Alignment::ByteAligned] {
        for (cookie, fragment) in [(false, false), (true, false), (false, true), (true, true)] {
            let settings = Settings {
                alignment,
                cookie,
                comments: cookie,
                fragment,
                ..Settings::default()
            };
            for all in [&Readings::new(), &all] {
                let list = all.to_list().unwrap();
                let stream = writer.write(&settings, &list).unwrap().to_vec();
                assert_eq!(writer.write_readings(&settings, all), Ok(&stream[..]));
                assert_eq!(reader.read_readings(&settings, &stream).as_ref(), Ok(all));
                let document = reader.read(&settings, &stream).unwrap();
                assert_eq!(document.cells(), list.cells());
                assert_eq!(document.store(), list.store());
                assert_eq!(Readings::of_document(&document).as_ref(), Ok(all));
            }
        }
    }
}

/// The stream's size is passed before the text store's, also where all movements are 0.
#[test]
fn readings_whose_stream_would_be_too_long() {
    let all: Vec<(u64, i32)> = (0..678).map(|k| (k * 86_400_000, 0)).collect();
    let byte_aligned = Settings {
        alignment: Alignment::ByteAligned,
        ..Settings::default()
    };
    let fragment = |settings| Settings {
        fragment: true,
        ..settings
    };
    let mut writer = Writer::new();
    for (settings, most) in [
        (Settings::default(), 606),
        (byte_aligned, 545),
        (fragment(Settings::default()), 606),
        (fragment(byte_aligned), 545),
    ] {
        let mut octets = |count: usize| {
            let written = writer.write_readings(&settings, &readings(&all[..count]));
            written.map(<[u8]>::len)
        };
        assert!(octets(most).is_ok_and(|octets| octets <= STREAM_OCTETS));
        assert_eq!(octets(most + 1), refused(Refusal::Long, 0));
        assert_eq!(octets(678), refused(Refusal::Long, 0));
    }
}

#[test]
fn streams_that_are_refused() {
    use Refusal::{BadMovement, BadStamp, Ended, Long, NotLater, Structure, Tail};
    let mut reader = Reader::new();
    let mut read = |stream: &[u8]| reader.read_readings(&Settings::default(), stream);
    assert_eq!(read(&[]), refused(Ended, 0));
    assert_eq!(read(&[0x80, 0x40, 0x98, 0x41]), refused(Tail, 4));
    assert_eq!(read(&[0x80, 0x40, 0x98, 0x40]), refused(Structure, 0));
    assert_eq!(read(&[0x80; STREAM_OCTETS + 1]), refused(Long, 0));
    for (children, answer) in [
        (&[(FIRST, "0"), ("x", "0")][..], refused(BadStamp, 1)),
        (&[(FIRST, "x"), ("x", "0")], refused(BadMovement, 0)),
        (
            &[(FIRST, "0"), (LEAP, "0"), (LEAP, "0")],
            refused(NotLater, 2),
        ),
    ] {
        let mut writer = Writer::new();
        let stream = writer.write(&Settings::default(), &list(children)).unwrap();
        assert_eq!(read(stream), answer);
    }

    // a fragment of two lists of readings, and of none
    let fragment = Settings {
        fragment: true,
        ..Settings::default()
    };
    let mut several = EventList::new();
    several.start_document();
    let mut writer = Writer::new();
    for count in [0, 2] {
        for _ in 0..count {
            several.start_element("", "readings").end_element();
        }
        let mut list = several.clone();
        list.end_document();
        let stream = writer.write(&fragment, &list).unwrap();
        assert_eq!(
            reader.read_readings(&fragment, stream),
            refused(Structure, 0)
        );
    }

    let capped = Settings {
        grammar_cap: Some(1),
        ..Settings::default()
    };
    let good = readings(&[(0, 0)]);
    assert_eq!(
        writer.write_readings(&capped, &good),
        refused(Refusal::Settings, 0)
    );
    // What is wrong with readings comes before the settings.
    let bad = readings(&[(0, 0), (0, 0)]);
    assert_eq!(writer.write_readings(&capped, &bad), refused(NotLater, 1));
    assert_eq!(
        reader.read_readings(&capped, &[]),
        refused(Refusal::Settings, 0)
    );
}

/// Dirty memory of these lengths, and the reply: stamps, movements, events, text, work.
type FromStream = (ReadingsReply, Vec<u64>, Vec<i32>, [Vec<u32>; 3]);

fn read(stream: &[u8], lengths: [usize; 5]) -> FromStream {
    let (mut stamps, mut movements) = (vec![!0; lengths[0]], vec![-1; lengths[1]]);
    let [mut events, mut text, mut work] =
        [lengths[2], lengths[3], lengths[4]].map(|length| vec![!0; length]);
    let reply = lent::read_readings(
        BIT_PACKED,
        stream,
        &mut stamps,
        &mut movements,
        &mut events,
        &mut text,
        &mut work,
    );
    (reply, stamps, movements, [events, text, work])
}

/// Dirty memory of these lengths, and the reply: octets, events, text, work.
fn write(all: &Readings, lengths: [usize; 4]) -> (WriteReply, Vec<u8>, [Vec<u32>; 3]) {
    let mut octets = vec![!0; lengths[0]];
    let [mut events, mut text, mut work] =
        [lengths[1], lengths[2], lengths[3]].map(|length| vec![!0; length]);
    let reply = lent::write_readings(
        BIT_PACKED,
        &mut octets,
        all.stamps(),
        all.movements(),
        &mut events,
        &mut text,
        &mut work,
    );
    (reply, octets, [events, text, work])
}

const FROM: [usize; 5] = [
    MAX_READINGS,
    MAX_READINGS,
    EVENT_CELLS,
    TEXT_CELLS,
    READER_WORK_CELLS,
];
const TO: [usize; 4] = [STREAM_OCTETS, EVENT_CELLS, TEXT_CELLS, WRITER_WORK_CELLS];

#[test]
fn what_the_calls_over_streams_leave() {
    let all = readings(&[(0, 20_000), (LEAP_NUMBER, -20_000)]);
    let list = all.to_list().unwrap();
    let (cells, points) = (list.cells().len(), list.store().len());
    for more in [0, 7] {
        let (reply, octets, [events, text, work]) = write(&all, TO.map(|size| size + more));
        let count = reply.octets as usize;
        assert_eq!((reply.number, reply.index), (0, 0));
        assert!(all_zero(&octets[count..]));
        assert_eq!(
            (&events[..cells], &text[..points]),
            (list.cells(), list.store())
        );
        assert!(all_zero(&events[cells..]) && all_zero(&text[points..]) && all_zero(&work));

        let (reply, stamps, movements, [events, text, work]) =
            read(&octets[..count], FROM.map(|size| size + more));
        assert_eq!((reply.number, reply.index, reply.readings), (0, 0, 2));
        assert_eq!(
            (&stamps[..2], &movements[..2]),
            (all.stamps(), all.movements())
        );
        assert!(all_zero(&stamps[2..]) && all_zero(&movements[2..]));
        assert_eq!(
            (&events[..cells], &text[..points]),
            (list.cells(), list.store())
        );
        assert!(all_zero(&events[cells..]) && all_zero(&text[points..]) && all_zero(&work));
    }

    // A refusal by the reader, then one after it.
    for (stream, answer) in [(&[][..], (5, 0)), (&[0x80, 0x40, 0x98, 0x40], (16, 0))] {
        let (reply, stamps, movements, parts) = read(stream, FROM);
        assert_eq!(
            (reply.number, reply.index, reply.readings),
            (answer.0, answer.1, 0)
        );
        assert!(all_zero(&stamps) && all_zero(&movements));
        assert!(parts.iter().all(|part| all_zero(part)));
    }
    // One of the readings, then one by the writer.
    let long: Vec<(u64, i32)> = (0..670).map(|k| (k * 86_400_000, 0)).collect();
    for (all, answer) in [
        (readings(&[(7, 0), (7, 0)]), (19, 1)),
        (readings(&long), (3, 0)),
    ] {
        let (reply, octets, parts) = write(&all, TO);
        assert_eq!(
            (reply.number, reply.index, reply.octets),
            (answer.0, answer.1, 0)
        );
        assert!(all_zero(&octets) && parts.iter().all(|part| all_zero(part)));
    }
}

/// Each part that is one cell or octet short, or empty, is ROOM, before anything else.
#[test]
fn room_comes_first_for_streams() {
    let good = readings(&[(0, 1)]);
    let mut writer = Writer::new();
    let stream = writer.write_readings(&Settings::default(), &good).unwrap();
    for part in 0..5 {
        for stream in [stream, &[]] {
            for short in [FROM[part] - 1, 0] {
                let mut lengths = FROM;
                lengths[part] = short;
                let (reply, stamps, movements, parts) = read(stream, lengths);
                assert_eq!((reply.number, reply.index, reply.readings), (1, 0, 0));
                assert!(all_zero(&stamps) && all_zero(&movements));
                assert!(parts.iter().all(|part| all_zero(part)));
            }
        }
    }
    for part in 0..4 {
        for all in [&good, &readings(&[(u64::MAX, 0)])] {
            for short in [TO[part] - 1, 0] {
                let mut lengths = TO;
                lengths[part] = short;
                let (reply, octets, parts) = write(all, lengths);
                assert_eq!((reply.number, reply.index, reply.octets), (1, 0, 0));
                assert!(all_zero(&octets) && parts.iter().all(|part| all_zero(part)));
            }
        }
    }
}
