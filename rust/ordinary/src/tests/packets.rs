use super::{settings, WORK};
use crate::sizes::{CELLS_PER_EVENT as CELLS, MAX_EVENTS, MAX_STORE, MAX_STREAM};
use crate::{read, Lent, ReadReply, Receiver, Refusal, Settings};

const ALIGNED: Settings = settings(1, 0, 0, 0);
const DIRT: u32 = 0xA5A5_A5A5;

/// A receiver and the memory that is lent to it.
struct Fed {
    receiver: Receiver,
    held: Vec<u8>,
    events: Vec<u32>,
    text: Vec<u32>,
    work: Vec<u32>,
}

impl Fed {
    fn new(settings: Settings) -> Fed {
        Fed {
            receiver: Receiver::start(settings),
            held: vec![0xA5; MAX_STREAM],
            events: vec![DIRT; MAX_EVENTS * CELLS],
            text: vec![DIRT; MAX_STORE],
            work: vec![DIRT; WORK],
        }
    }

    /// The next piece, or the close.
    fn call(&mut self, piece: Option<&[u8]>) -> ReadReply {
        let lent = Lent {
            held: &mut self.held,
            events: &mut self.events,
            text: &mut self.text,
            work: &mut self.work,
            least_work: WORK,
        };
        match piece {
            Some(piece) => self.receiver.feed(piece, lent),
            None => self.receiver.close(lent),
        }
    }

    fn feed(&mut self, piece: &[u8]) -> (u32, u32, u32, u32) {
        numbers(self.call(Some(piece)))
    }

    fn close(&mut self) -> (u32, u32, u32, u32) {
        numbers(self.call(None))
    }

    fn is_clear(&self) -> bool {
        let zero = |cells: &[u32]| cells.iter().all(|&cell| cell == 0);
        zero(&self.events)
            && zero(&self.text)
            && zero(&self.work)
            && self.held.iter().all(|&octet| octet == 0)
    }

    fn stain(&mut self) {
        self.events.fill(DIRT);
        self.text.fill(DIRT);
        self.work.fill(DIRT);
        self.held.fill(0xA5);
    }
}

fn numbers(reply: ReadReply) -> (u32, u32, u32, u32) {
    (reply.number, reply.index, reply.events, reply.code_points)
}

#[test]
fn events_are_shown_once_they_are_complete() {
    let mut fed = Fed::new(ALIGNED);
    assert_eq!(fed.feed(&[]), (0, 0, 0, 99));
    assert_eq!(fed.feed(&[0x80, 0x01, 0x02]), (0, 0, 1, 99));
    assert_eq!(fed.feed(&[0x61, 0x03, 0x04]), (0, 0, 2, 100));
    assert_eq!(fed.feed(&[0x62]), (0, 0, 2, 100));
    assert_eq!(fed.text[100..], vec![0; MAX_STORE - 100]);
    assert_eq!(fed.feed(&[0x62]), (0, 0, 3, 102));
    assert_eq!(fed.text[98..103], [0x65, 0x61, 0x62, 0x62, 0]);
    assert_eq!(fed.feed(&[0x00]), (0, 0, 5, 102));
    assert_eq!(fed.events[4 * CELLS], 2);
    assert_eq!(fed.events[5 * CELLS..], vec![0; (MAX_EVENTS - 5) * CELLS]);
    assert_eq!(fed.close(), (0, 0, 5, 102));
}

/// The name of an attribute whose value is to come is not in the store.
#[test]
fn literals_of_an_incomplete_event_are_not_shown() {
    let mut fed = Fed::new(ALIGNED);
    let octets = [0x80, 0x01, 0x02, 0x61, 0x01, 0x01, 0x02, 0x6B];
    assert_eq!(fed.feed(&octets), (0, 0, 2, 100));
    assert_eq!(fed.text[99..102], [0x61, 0, 0]);
    assert_eq!(fed.feed(&[0x03, 0x78]), (0, 0, 3, 102));
    assert_eq!(fed.text[99..103], [0x61, 0x6B, 0x78, 0]);
    assert_eq!(fed.close(), (5, 3, 0, 0));
    assert!(fed.is_clear());
}

#[test]
fn a_refusal_stays_and_becomes_long() {
    let mut fed = Fed::new(ALIGNED);
    let mut piece = vec![0; MAX_STREAM];
    piece[0] = 0x81;
    assert_eq!(fed.feed(&piece), (4, 0, 0, 0));
    assert!(fed.is_clear());
    fed.stain();
    assert_eq!(fed.feed(&[]), (4, 0, 0, 0));
    assert!(fed.is_clear());
    assert_eq!(fed.feed(&[0]), (3, 0, 0, 0));
    assert_eq!(fed.feed(&[]), (3, 0, 0, 0));
    assert_eq!(fed.close(), (3, 0, 0, 0));

    let mut fed = Fed::new(settings(2, 0, 0, 0));
    assert_eq!(fed.feed(&piece), (2, 0, 0, 0));
    assert_eq!(fed.feed(&piece), (2, 0, 0, 0));
    assert_eq!(fed.close(), (2, 0, 0, 0));
    assert_eq!(Fed::new(settings(2, 0, 0, 0)).close(), (2, 0, 0, 0));
}

#[test]
fn calls_after_the_close() {
    let mut fed = Fed::new(ALIGNED);
    assert_eq!(fed.feed(&[0x80, 0x01, 0x02, 0x61, 0x00]), (0, 0, 4, 100));
    assert_eq!(fed.feed(&[]), (0, 0, 4, 100));
    assert_eq!(fed.close(), (0, 0, 4, 100));
    fed.stain();
    fed.events.truncate(7);
    assert_eq!(fed.feed(&[0; MAX_STREAM + 1]), (0, 0, 4, 100));
    assert_eq!(fed.close(), (0, 0, 4, 100));
    assert_eq!((fed.events[6], fed.text[0]), (DIRT, DIRT));
    assert_eq!((fed.work[0], fed.held[0]), (DIRT, 0xA5));

    let mut fed = Fed::new(ALIGNED);
    assert_eq!(fed.feed(&[0xA0]), (4, 0, 0, 0));
    assert_eq!(fed.close(), (4, 0, 0, 0));
    fed.stain();
    assert_eq!(fed.feed(&[0; MAX_STREAM]), (4, 0, 0, 0));
    assert!(fed.is_clear());
    assert_eq!(Fed::new(ALIGNED).close(), (5, 0, 0, 0));
}

#[test]
fn every_part_is_judged_for_room() {
    let shorter: [fn(&mut Fed); 4] = [
        |fed| fed.held.truncate(MAX_STREAM - 1),
        |fed| fed.events.truncate(MAX_EVENTS * CELLS - 1),
        |fed| fed.text.truncate(MAX_STORE - 1),
        |fed| fed.work.truncate(WORK - 1),
    ];
    for shorten in shorter {
        for piece in [None, Some(&[0x80][..]), Some(&[])] {
            let mut fed = Fed::new(settings(2, 0, 0, 0));
            shorten(&mut fed);
            assert_eq!(numbers(fed.call(piece)), (1, 0, 0, 0));
            assert!(fed.is_clear());
        }
        let mut fed = Fed::new(ALIGNED);
        assert_eq!(fed.feed(&[0x80]), (0, 0, 1, 99));
        let whole = fed.text.len();
        shorten(&mut fed);
        assert_eq!(fed.feed(&[0x01]), (1, 0, 0, 0));
        assert!(fed.is_clear());
        fed.text.resize(whole, DIRT);
        assert_eq!(fed.feed(&[0; MAX_STREAM]), (1, 0, 0, 0));
        assert_eq!(fed.close(), (1, 0, 0, 0));
    }
}

/// K7, octet by octet, against the reader on each prefix.
#[test]
fn each_prefix_is_read_whole() {
    let stream = [
        0x80, 0x01, 0x02, 0x72, 0x02, 0x01, 0x02, 0x70, 0x01, 0x01, 0x02, 0x74, 0x03, 0x31, 0x01,
        0x00, 0x01, 0x00, 0x01, 0x00, 0x01, 0x01, 0x00, 0x00, 0x01, 0x07,
    ];
    let mut fed = Fed::new(ALIGNED);
    for n in 1..=stream.len() {
        let (mut events, mut text) = (vec![0; MAX_EVENTS * CELLS], vec![0; MAX_STORE]);
        let work = &mut [0; WORK];
        let whole = read(ALIGNED, &stream[..n], &mut events, &mut text, work, WORK);
        let reply = fed.call(Some(&stream[n - 1..n]));
        if whole.number == Refusal::Ended.number() {
            assert_eq!(
                (reply.number, reply.index, reply.events),
                (0, 0, whole.index)
            );
        } else {
            assert_eq!(reply, whole);
            assert!(fed.events == events && fed.text == text);
        }
    }
}
