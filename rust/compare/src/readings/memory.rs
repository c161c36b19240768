//! Memory lent where readings are taken out of a list, and where a list is made of them.

use super::{Codec, Reading, ReadingsReply};
use crate::event::{stored_strings, CELLS};
use crate::lent::{sizes, zero, ReadReply, BEYOND, FILL, GUARD};
use crate::sizes::MAX_READINGS;

const FILL_STAMP: u64 = 0xA5A5_A5A5_A5A5_A5A5;
const FILL_MOVEMENT: i32 = FILL as i32;

/// Cells that may be lent beyond the usual ones.
const MORE: usize = 200;

/// How much is lent where readings are taken out.
#[derive(Clone, Copy, Debug, PartialEq, Eq)]
pub struct ReadingsSizes {
    pub stamps: usize,
    pub movements: usize,
}

impl ReadingsSizes {
    pub fn usual() -> ReadingsSizes {
        ReadingsSizes {
            stamps: MAX_READINGS + BEYOND,
            movements: MAX_READINGS + BEYOND,
        }
    }

    /// One reading less than is stated.
    pub fn short() -> ReadingsSizes {
        ReadingsSizes {
            stamps: MAX_READINGS - 1,
            movements: MAX_READINGS - 1,
        }
    }

    /// The most that memory has to lend.
    pub fn most() -> ReadingsSizes {
        let usual = ReadingsSizes::usual();
        ReadingsSizes {
            stamps: usual.stamps + MORE,
            movements: usual.movements + MORE,
        }
    }
}

/// A part lent where a list is made of readings.
#[derive(Clone, Copy, Debug, PartialEq, Eq)]
pub enum ListPart {
    Events,
    Text,
}

/// How much is lent where a list is made of readings.
#[derive(Clone, Copy, Debug, PartialEq, Eq)]
pub struct ListSizes {
    pub events: usize,
    pub text: usize,
}

impl ListSizes {
    pub fn stated() -> ListSizes {
        ListSizes {
            events: sizes().event_cells,
            text: sizes().text_cells,
        }
    }

    pub fn usual() -> ListSizes {
        let stated = ListSizes::stated();
        ListSizes {
            events: stated.events + BEYOND,
            text: stated.text + BEYOND,
        }
    }

    /// The usual sizes, but one part has one less than is stated.
    pub fn short(part: ListPart) -> ListSizes {
        let stated = ListSizes::stated();
        let mut sizes = ListSizes::usual();
        match part {
            ListPart::Events => sizes.events = stated.events - 1,
            ListPart::Text => sizes.text = stated.text - 1,
        }
        sizes
    }

    /// The most that memory has to lend.
    pub fn most() -> ListSizes {
        let usual = ListSizes::usual();
        ListSizes {
            events: usual.events + MORE,
            text: usual.text + MORE,
        }
    }
}

#[derive(Clone, PartialEq, Eq)]
pub struct ReadingsMemory {
    stamps: Vec<u64>,
    movements: Vec<i32>,
    sizes: ReadingsSizes,
}

impl Default for ReadingsMemory {
    fn default() -> ReadingsMemory {
        ReadingsMemory::new()
    }
}

impl ReadingsMemory {
    pub fn new() -> ReadingsMemory {
        let most = ReadingsSizes::most();
        ReadingsMemory {
            stamps: vec![FILL_STAMP; most.stamps + GUARD],
            movements: vec![FILL_MOVEMENT; most.movements + GUARD],
            sizes: ReadingsSizes::usual(),
        }
    }

    pub fn of_list(&mut self, codec: Codec, events: &[u32], text: &[u32]) -> ReadingsReply {
        self.lend(ReadingsSizes::usual(), |stamps, movements| {
            codec.readings_of_list(events, text, stamps, movements)
        })
    }

    /// Fills all, and lends parts of these sizes, at most [`ReadingsSizes::most`], to `call`.
    pub fn lend<R>(
        &mut self,
        sizes: ReadingsSizes,
        call: impl FnOnce(&mut [u64], &mut [i32]) -> R,
    ) -> R {
        self.stamps.fill(FILL_STAMP);
        self.movements.fill(FILL_MOVEMENT);
        self.sizes = sizes;
        call(
            &mut self.stamps[..sizes.stamps],
            &mut self.movements[..sizes.movements],
        )
    }

    /// The readings that a reply counts; none if it counts more than were lent.
    pub fn readings(&self, reply: &ReadingsReply) -> Option<Vec<Reading>> {
        let count = reply.readings as usize;
        let stamps = self.stamps[..self.sizes.stamps].get(..count)?;
        let movements = self.movements[..self.sizes.movements].get(..count)?;
        Some(
            stamps
                .iter()
                .copied()
                .zip(movements.iter().copied())
                .collect(),
        )
    }

    /// What the rules for lent memory do not allow after this reply, if anything.
    pub fn fault(&self, reply: &ReadingsReply) -> Option<&'static str> {
        if reply.number != 0 && reply.readings != 0 {
            return Some("a count after a refusal");
        }
        let Some(readings) = self.readings(reply) else {
            return Some("a count beyond the lent memory");
        };
        if !readings.windows(2).all(|two| two[0].0 < two[1].0) {
            return Some("fewer readings than counted");
        }
        let (lent, not_lent) = self.stamps.split_at(self.sizes.stamps);
        if lent[readings.len()..].iter().any(|&cell| cell != 0) {
            return Some("a stamp that is not zero");
        }
        let stamps_kept = not_lent.iter().all(|&cell| cell == FILL_STAMP);
        let (lent, not_lent) = self.movements.split_at(self.sizes.movements);
        if lent[readings.len()..].iter().any(|&cell| cell != 0) {
            return Some("a movement that is not zero");
        }
        if !stamps_kept || not_lent.iter().any(|&cell| cell != FILL_MOVEMENT) {
            return Some("a cell changed that was not lent");
        }
        None
    }
}

#[derive(Clone, PartialEq, Eq)]
pub struct ListMemory {
    events: Vec<u32>,
    text: Vec<u32>,
    sizes: ListSizes,
}

impl Default for ListMemory {
    fn default() -> ListMemory {
        ListMemory::new()
    }
}

impl ListMemory {
    pub fn new() -> ListMemory {
        let most = ListSizes::most();
        ListMemory {
            events: vec![FILL; most.events + GUARD],
            text: vec![FILL; most.text + GUARD],
            sizes: ListSizes::usual(),
        }
    }

    pub fn of_readings(&mut self, codec: Codec, stamps: &[u64], movements: &[i32]) -> ReadReply {
        self.lend(ListSizes::usual(), |events, text| {
            codec.list_of_readings(stamps, movements, events, text)
        })
    }

    /// Fills all, and lends parts of these sizes, at most [`ListSizes::most`], to `call`.
    pub fn lend<R>(
        &mut self,
        sizes: ListSizes,
        call: impl FnOnce(&mut [u32], &mut [u32]) -> R,
    ) -> R {
        self.events.fill(FILL);
        self.text.fill(FILL);
        self.sizes = sizes;
        call(
            &mut self.events[..sizes.events],
            &mut self.text[..sizes.text],
        )
    }

    /// The event cells that a reply counts; none if it counts more than were lent.
    pub fn events(&self, reply: &ReadReply) -> Option<&[u32]> {
        self.events[..self.sizes.events].get(..reply.events as usize * CELLS)
    }

    /// The code points that a reply counts; none if it counts more than were lent.
    pub fn text(&self, reply: &ReadReply) -> Option<&[u32]> {
        self.text[..self.sizes.text].get(..reply.code_points as usize)
    }

    /// What the rules for lent memory do not allow after this reply, if anything.
    pub fn fault(&self, reply: &ReadReply) -> Option<&'static str> {
        if reply.number != 0 && (reply.events != 0 || reply.code_points != 0) {
            return Some("counts after a refusal");
        }
        let (Some(events), Some(text)) = (self.events(reply), self.text(reply)) else {
            return Some("a count beyond the lent memory");
        };
        if !events.chunks(CELLS).all(|e| stored_strings(e).is_some()) {
            return Some("fewer events than counted");
        }
        if text.contains(&0) {
            return Some("fewer code points than counted");
        }
        if !zero(&self.events[events.len()..self.sizes.events]) {
            return Some("an event cell that is not zero");
        }
        if !zero(&self.text[text.len()..self.sizes.text]) {
            return Some("a text cell that is not zero");
        }
        let kept = |cells: &[u32]| cells.iter().all(|&cell| cell == FILL);
        if !(kept(&self.events[self.sizes.events..]) && kept(&self.text[self.sizes.text..])) {
            return Some("a cell changed that was not lent");
        }
        None
    }
}

#[cfg(test)]
mod tests {
    use super::*;

    const TAKEN: ReadingsReply = ReadingsReply {
        number: 0,
        index: 0,
        readings: 2,
    };

    fn readings_fault(
        change: impl FnOnce(&mut [u64], &mut [i32]) -> ReadingsReply,
    ) -> Option<&'static str> {
        let mut memory = ReadingsMemory::new();
        let reply = memory.lend(ReadingsSizes::usual(), |stamps, movements| {
            stamps.fill(0);
            movements.fill(0);
            stamps[1] = 7;
            movements[..2].fill(-1);
            change(stamps, movements)
        });
        memory.fault(&reply)
    }

    #[test]
    fn readings_are_looked_at() {
        assert_eq!(readings_fault(|_, _| TAKEN), None);
        let most = ReadingsSizes::usual().stamps;
        for readings in [1, 3, most as u32, most as u32 + 1, u32::MAX] {
            let reply = ReadingsReply { readings, ..TAKEN };
            assert!(readings_fault(|_, _| reply).is_some(), "{readings}");
        }
        let counted = ReadingsReply {
            number: 16,
            ..TAKEN
        };
        assert!(readings_fault(|_, _| counted).is_some());
        let refused = ReadingsReply {
            readings: 0,
            ..counted
        };
        assert!(readings_fault(|_, _| refused).is_some());
        for at in [0, 2, most - 1] {
            let stained = |stamps: &mut [u64], _: &mut [i32]| {
                stamps[at] = 1 << 40;
                TAKEN
            };
            assert!(readings_fault(stained).is_some(), "stamp {at}");
        }
        for at in [2, most - 1] {
            let stained = |_: &mut [u64], movements: &mut [i32]| {
                movements[at] = -1;
                TAKEN
            };
            assert!(readings_fault(stained).is_some(), "movement {at}");
        }
    }

    const LAID: ReadReply = ReadReply {
        number: 0,
        index: 0,
        events: 2,
        code_points: 3,
    };

    fn list_fault(
        change: impl FnOnce(&mut [u32], &mut [u32]) -> ReadReply,
    ) -> Option<&'static str> {
        let mut memory = ListMemory::new();
        let reply = memory.lend(ListSizes::usual(), |events, text| {
            events.fill(0);
            text.fill(0);
            (events[0], events[CELLS]) = (1, 2);
            text[..3].fill(9);
            change(events, text)
        });
        memory.fault(&reply)
    }

    #[test]
    fn lists_are_looked_at() {
        assert_eq!(list_fault(|_, _| LAID), None);
        for events in [1, 3, u32::MAX] {
            assert!(list_fault(|_, _| ReadReply { events, ..LAID }).is_some());
        }
        for code_points in [2, 4, u32::MAX] {
            let reply = ReadReply {
                code_points,
                ..LAID
            };
            assert!(list_fault(|_, _| reply).is_some());
        }
        assert!(list_fault(|_, _| ReadReply { number: 17, ..LAID }).is_some());
        for at in [1, 2 * CELLS, ListSizes::usual().events - 1] {
            let stained = |events: &mut [u32], _: &mut [u32]| {
                events[at] = 1;
                LAID
            };
            assert!(list_fault(stained).is_some(), "event cell {at}");
        }
        for at in [3, ListSizes::usual().text - 1] {
            let stained = |_: &mut [u32], text: &mut [u32]| {
                text[at] = 1;
                LAID
            };
            assert!(list_fault(stained).is_some(), "text cell {at}");
        }
    }

    #[test]
    fn memory_that_is_not_lent_is_looked_at() {
        let mut memory = ReadingsMemory::new();
        let reply = memory.lend(ReadingsSizes::short(), |stamps, movements| {
            stamps.fill(0);
            movements.fill(0);
            ReadingsReply {
                readings: 0,
                ..TAKEN
            }
        });
        assert_eq!(memory.fault(&reply), None);
        memory.movements[MAX_READINGS - 1] = 0;
        assert!(memory.fault(&reply).is_some());

        let mut memory = ListMemory::new();
        let reply = memory.lend(ListSizes::stated(), |events, text| {
            events.fill(0);
            text.fill(0);
            ReadReply {
                events: 0,
                code_points: 0,
                ..LAID
            }
        });
        assert_eq!(memory.fault(&reply), None);
        memory.text[sizes().text_cells] = 0;
        assert!(memory.fault(&reply).is_some());
    }
}
