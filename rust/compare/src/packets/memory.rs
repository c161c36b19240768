//! The memory lent to a receiver, which goes from call to call as it is.

use super::{Call, Receiver};
use crate::event::{stored_strings, CELLS};
use crate::lent::{stain, ReadReply, ReaderPart, ReaderSizes, BEYOND, FILL, FILL_OCTET, GUARD};
use crate::sizes::MAX_STREAM;

/// How much is lent to a receiver.
#[derive(Clone, Copy, Debug, PartialEq, Eq)]
pub struct PacketSizes {
    /// Octets, for the stream so far.
    pub held: usize,
    pub reader: ReaderSizes,
}

impl PacketSizes {
    pub fn usual() -> PacketSizes {
        PacketSizes {
            held: MAX_STREAM + BEYOND,
            reader: ReaderSizes::usual(),
        }
    }

    /// The usual sizes, but one part has one less than is stated.
    pub fn short(part: ReaderPart) -> PacketSizes {
        PacketSizes {
            reader: ReaderSizes::short(part),
            ..PacketSizes::usual()
        }
    }

    /// The usual sizes, but of the octets for the stream one less than a stream may have.
    pub fn short_of_octets() -> PacketSizes {
        PacketSizes {
            held: MAX_STREAM - 1,
            ..PacketSizes::usual()
        }
    }
}

/// One part: all of it now, and what was kept of it from before the last call.
struct Part<T> {
    cells: Vec<T>,
    before: Vec<T>,
    fill: T,
    lent: usize,
}

impl<T: Copy + Default + PartialEq> Part<T> {
    fn new(usual: usize, fill: T) -> Part<T> {
        let cells = vec![fill; usual + GUARD];
        Part {
            before: cells.clone(),
            cells,
            fill,
            lent: usual,
        }
    }

    fn refill(&mut self) {
        self.cells.fill(self.fill);
    }

    /// Lends the first cells, and keeps so many of them and all that are not lent, to compare.
    fn lend(&mut self, size: usize, kept: usize) -> &mut [T] {
        for part in [0..kept.min(size), size..self.cells.len()] {
            self.before[part.clone()].copy_from_slice(&self.cells[part]);
        }
        self.lent = size;
        &mut self.cells[..size]
    }

    fn lent(&self) -> &[T] {
        &self.cells[..self.lent]
    }

    /// Whether all that was lent is zero, from a place on.
    fn is_zero_from(&self, from: usize) -> bool {
        let is_zero = |all: bool, cell: &T| all & (*cell == T::default());
        self.lent()[from..].iter().fold(true, is_zero)
    }

    /// Whether nothing changed, where all was kept.
    fn is_as_before(&self) -> bool {
        self.cells == self.before
    }

    fn is_as_before_where_not_lent(&self) -> bool {
        self.cells[self.lent..] == self.before[self.lent..]
    }
}

/// What was answered to a call, and what is wrong with the memory after it, if anything.
pub type Answered = (ReadReply, Option<&'static str>);

/// Filled before a receiver's first call, and then left as the calls leave it.
pub struct PacketMemory {
    held: Part<u8>,
    events: Part<u32>,
    text: Part<u32>,
    work: Part<u32>,
    /// Cells of events and of text that were shown before the last call, and are now.
    before: (usize, usize),
    shown: (usize, usize),
    phase: Phase,
}

#[derive(Clone, Copy, PartialEq, Eq)]
enum Phase {
    GoingOn,
    Refused,
    Accepted,
}

impl Default for PacketMemory {
    fn default() -> PacketMemory {
        PacketMemory::new()
    }
}

impl PacketMemory {
    pub fn new() -> PacketMemory {
        let usual = PacketSizes::usual();
        PacketMemory {
            held: Part::new(usual.held, FILL_OCTET),
            events: Part::new(usual.reader.events, FILL),
            text: Part::new(usual.reader.text, FILL),
            work: Part::new(usual.reader.work, FILL),
            before: (0, 0),
            shown: (0, 0),
            phase: Phase::GoingOn,
        }
    }

    /// Fills all, for a receiver that is started afresh.
    pub fn start(&mut self) {
        self.refill();
        (self.before, self.shown) = ((0, 0), (0, 0));
        self.phase = Phase::GoingOn;
    }

    fn refill(&mut self) {
        self.held.refill();
        self.events.refill();
        self.text.refill();
        self.work.refill();
        stain(&mut self.work.cells);
    }

    /// A call as it says.
    pub fn call(&mut self, receiver: &mut Receiver, call: &Call) -> Answered {
        let sizes = call
            .short
            .map_or_else(PacketSizes::usual, PacketSizes::short);
        if call.fresh {
            self.refill();
        }
        self.call_with(sizes, receiver, call.piece.as_deref())
    }

    /// A call with parts of these sizes, at most the usual ones.
    pub fn call_with(
        &mut self,
        sizes: PacketSizes,
        receiver: &mut Receiver,
        piece: Option<&[u8]>,
    ) -> Answered {
        self.lend(sizes, piece.is_none(), |held, events, text, work| {
            receiver.call(piece, held, events, text, work)
        })
    }

    fn lend(
        &mut self,
        sizes: PacketSizes,
        is_close: bool,
        call: impl FnOnce(&mut [u8], &mut [u32], &mut [u32], &mut [u32]) -> ReadReply,
    ) -> Answered {
        // after an accepted close no cell may change, before it none that is shown
        let (work, (events, text)) = match self.phase {
            Phase::Accepted => (usize::MAX, (usize::MAX, usize::MAX)),
            _ => (0, self.shown),
        };
        let reply = call(
            self.held.lend(sizes.held, work),
            self.events.lend(sizes.reader.events, events),
            self.text.lend(sizes.reader.text, text),
            self.work.lend(sizes.reader.work, work),
        );
        self.before = self.shown;
        let fault = self.fault(&reply, is_close);
        if reply.number != 0 {
            self.phase = Phase::Refused;
            self.shown = (0, 0);
        } else if self.phase == Phase::GoingOn {
            let (events, text) = (self.events.lent().len(), self.text.lent().len());
            let cells = (reply.events as usize).saturating_mul(CELLS);
            self.shown = (cells.min(events), (reply.code_points as usize).min(text));
            if is_close {
                self.phase = Phase::Accepted;
            }
        }
        (reply, fault)
    }

    /// The event cells and the code points that are shown, where the last memory still is.
    pub fn shown(&self) -> (&[u32], &[u32]) {
        (
            &self.events.cells[..self.shown.0],
            &self.text.cells[..self.shown.1],
        )
    }

    /// Those that the last call added.
    pub fn added(&self) -> (&[u32], &[u32]) {
        let (events, text) = self.shown();
        (
            events.get(self.before.0..).unwrap_or(&[]),
            text.get(self.before.1..).unwrap_or(&[]),
        )
    }

    /// What the rules for lent memory do not allow after this reply, if anything.
    fn fault(&self, reply: &ReadReply, is_close: bool) -> Option<&'static str> {
        if !self.rest_is_kept() {
            return Some("a cell changed that was not lent");
        }
        if reply.number != 0 {
            return self.fault_of_a_refusal(reply);
        }
        match self.phase {
            Phase::Refused => Some("a refusal that did not stay"),
            Phase::Accepted if self.is_as_before() => None,
            Phase::Accepted => Some("a cell changed after the close"),
            Phase::GoingOn => self.fault_going_on(reply, is_close),
        }
    }

    fn fault_of_a_refusal(&self, reply: &ReadReply) -> Option<&'static str> {
        if reply.events != 0 || reply.code_points != 0 {
            return Some("counts after a refusal");
        }
        if !(self.events.is_zero_from(0) && self.text.is_zero_from(0)) {
            return Some("events or text that are not zero after a refusal");
        }
        (!self.work_is_zero()).then_some("work memory that is not zero after a refusal")
    }

    fn fault_going_on(&self, reply: &ReadReply, is_close: bool) -> Option<&'static str> {
        let cells = (reply.events as usize).saturating_mul(CELLS);
        let code_points = reply.code_points as usize;
        let (lent_events, lent_text) = (self.events.lent(), self.text.lent());
        let (Some(events), Some(text)) = (lent_events.get(..cells), lent_text.get(..code_points))
        else {
            return Some("a count beyond the lent memory");
        };
        let (cells_before, text_before) = self.before;
        if !events.starts_with(&self.events.before[..cells_before])
            || !text.starts_with(&self.text.before[..text_before])
        {
            return Some("what was shown before is not there");
        }
        let mut new = events[cells_before..].chunks(CELLS);
        if !new.all(|e| stored_strings(e).is_some()) || text.contains(&0) {
            return Some("fewer events or code points than counted");
        }
        if !(self.events.is_zero_from(cells) && self.text.is_zero_from(code_points)) {
            return Some("events or text that are not zero past what is shown");
        }
        (is_close && !self.work_is_zero()).then_some("work memory that is not zero after the close")
    }

    fn work_is_zero(&self) -> bool {
        self.work.is_zero_from(0) && self.held.is_zero_from(0)
    }

    fn is_as_before(&self) -> bool {
        self.held.is_as_before()
            && self.events.is_as_before()
            && self.text.is_as_before()
            && self.work.is_as_before()
    }

    /// Whether every cell that was not lent to the last call is as it was.
    pub fn rest_is_kept(&self) -> bool {
        self.held.is_as_before_where_not_lent()
            && self.events.is_as_before_where_not_lent()
            && self.text.is_as_before_where_not_lent()
            && self.work.is_as_before_where_not_lent()
    }

    /// Changes a cell of what is lent, as `number` says; what is shown has to be forgotten.
    pub fn change(&mut self, part: usize, place: usize, number: u32) {
        match part {
            0 => set(&mut self.held.cells, place, number as u8),
            1 => set(&mut self.events.cells, place, number),
            2 => set(&mut self.text.cells, place, number),
            _ => set(&mut self.work.cells, place, number),
        }
        self.shown = (0, 0);
    }
}

fn set<T>(cells: &mut [T], place: usize, number: T) {
    let lent = cells.len() - GUARD;
    cells[place % lent] = number;
}

#[cfg(test)]
mod tests {
    use super::*;

    const SHOWN: ReadReply = ReadReply {
        number: 0,
        index: 0,
        events: 2,
        code_points: 3,
    };
    const REFUSED: ReadReply = ReadReply {
        number: 4,
        index: 0,
        events: 0,
        code_points: 0,
    };

    /// Leaves what a good call does, and then a cell of a part as it says.
    fn left(
        memory: &mut PacketMemory,
        reply: ReadReply,
        is_close: bool,
        stain: Option<(usize, usize)>,
    ) -> Option<&'static str> {
        let call = |held: &mut [u8], events: &mut [u32], text: &mut [u32], work: &mut [u32]| {
            events.fill(0);
            text.fill(0);
            for event in events.chunks_mut(CELLS).take(reply.events as usize) {
                event[0] = 1;
            }
            text[..reply.code_points as usize].fill(9);
            let rest = u8::from(reply.number == 0 && !is_close);
            held.fill(rest);
            work.fill(u32::from(rest));
            match stain {
                Some((0, at)) => held[at] ^= 2,
                Some((1, at)) => events[at] ^= 2,
                Some((2, at)) => text[at] ^= 2,
                Some((_, at)) => work[at] ^= 2,
                None => {}
            }
            reply
        };
        memory.lend(PacketSizes::usual(), is_close, call).1
    }

    #[test]
    fn what_a_piece_leaves() {
        let more = ReadReply {
            events: 3,
            code_points: 4,
            ..SHOWN
        };
        let second = |reply, stain| {
            let mut memory = PacketMemory::new();
            assert_eq!(left(&mut memory, SHOWN, false, None), None);
            let fault = left(&mut memory, reply, false, stain);
            (fault, memory.added().0.len(), memory.added().1.len())
        };
        assert_eq!(second(SHOWN, None), (None, 0, 0));
        assert_eq!(second(more, None), (None, CELLS, 1));
        // work memory is the receiver's
        assert_eq!(second(more, Some((0, 5))), (None, CELLS, 1));
        assert_eq!(second(more, Some((3, 5))), (None, CELLS, 1));
        let sizes = PacketSizes::usual();
        for at in [0, CELLS, 2 * CELLS + 1, 3 * CELLS, sizes.reader.events - 1] {
            assert!(second(more, Some((1, at))).0.is_some(), "event cell {at}");
        }
        for at in [0, 2, 4, sizes.reader.text - 1] {
            assert!(second(more, Some((2, at))).0.is_some(), "text cell {at}");
        }
        let fewer = ReadReply {
            code_points: 2,
            ..SHOWN
        };
        assert!(second(fewer, None).0.is_some());
    }

    #[test]
    fn what_a_refusal_and_a_close_leave() {
        for (reply, is_close) in [(REFUSED, false), (REFUSED, true), (SHOWN, true)] {
            let mut memory = PacketMemory::new();
            assert_eq!(left(&mut memory, reply, is_close, None), None);
            for part in 0..4 {
                let mut memory = PacketMemory::new();
                let stain = Some((part, 100));
                assert!(left(&mut memory, reply, is_close, stain).is_some());
            }
        }
        let mut memory = PacketMemory::new();
        assert_eq!(left(&mut memory, REFUSED, false, None), None);
        assert!(left(&mut memory, SHOWN, false, None).is_some());
        let counted = ReadReply { number: 4, ..SHOWN };
        assert!(left(&mut PacketMemory::new(), counted, false, None).is_some());
    }

    #[test]
    fn what_calls_after_the_close_leave() {
        let mut memory = PacketMemory::new();
        assert_eq!(left(&mut memory, SHOWN, true, None), None);
        let repeat = |memory: &mut PacketMemory, stain: bool| {
            let call = |_: &mut [u8], _: &mut [u32], _: &mut [u32], work: &mut [u32]| {
                work[7] ^= u32::from(stain);
                SHOWN
            };
            memory.lend(PacketSizes::usual(), false, call).1
        };
        assert_eq!(repeat(&mut memory, false), None);
        memory.refill();
        assert_eq!(repeat(&mut memory, false), None);
        assert!(repeat(&mut memory, true).is_some());
    }
}
