//! Calls of either implementation, and the memory lent to them.
//!
//! Before a call every cell is filled with the octet A5, those of work memory that are lent with
//! small numbers, each of which could be that of a row. Lent are 3 cells more than the sizes that
//! the library states; some cells behind those are not lent and have to keep their fill.

use std::sync::OnceLock;

use plumethrift::lent::Sizes;

use crate::event::{stored_strings, CELLS};
use crate::sizes::MAX_VALUES;

/// The sizes to lend, as the library states them. The ordinary implementation is held to the same.
pub fn sizes() -> &'static Sizes {
    static SIZES: OnceLock<Sizes> = OnceLock::new();
    SIZES.get_or_init(plumethrift::lent::sizes)
}

/// Cells lent beyond the stated sizes.
pub const BEYOND: usize = 3;

pub(crate) const GUARD: usize = 5;
pub(crate) const FILL: u32 = 0xA5A5_A5A5;
pub(crate) const FILL_OCTET: u8 = 0xA5;

pub const ROOM: u32 = 1;
pub const SETTINGS: u32 = 2;
pub const LONG: u32 = 3;
pub const HEADER: u32 = 4;
pub const ENDED: u32 = 5;
pub const CODE: u32 = 6;
pub const NUMBER: u32 = 7;
pub const CHARACTER: u32 = 8;
pub const REFERENCE: u32 = 9;
pub const LOOSE: u32 = 10;
pub const NAME: u32 = 11;
pub const LIMIT: u32 = 12;
pub const TAIL: u32 = 13;
pub const SHAPE: u32 = 14;
pub const PLACE: u32 = 15;

/// Fills work memory with numbers that could be rows'.
pub(crate) fn stain(work: &mut [u32]) {
    for (at, cell) in work.iter_mut().enumerate() {
        *cell = at as u32 % 8;
    }
}

/// The settings' numbers. All zero is the base; of value length, value capacity and grammar cap a
/// bound n is n + 1.
#[derive(Clone, Copy, Debug, PartialEq, Eq)]
pub struct Settings {
    pub alignment: u32,
    pub cookie: u32,
    pub comments: u32,
    pub instructions: u32,
    pub fragment: u32,
    pub value_length: u32,
    pub value_capacity: u32,
    pub loose: u32,
    pub prefixes: u32,
    pub grammar_cap: u32,
}

impl Settings {
    pub const BIT_PACKED: Settings = Settings::from_numbers([0; 10]);
    pub const BYTE_ALIGNED: Settings = Settings {
        alignment: 1,
        ..Settings::BIT_PACKED
    };

    /// For each number, the first that has no meaning; none where all have one. What has not landed
    /// has no meaning but as 0.
    pub const FIRST_WITHOUT_MEANING: [Option<u32>; 10] = [
        Some(2),
        Some(2),
        Some(2),
        Some(2),
        Some(2),
        None,
        Some(MAX_VALUES as u32 + 2),
        Some(1),
        Some(1),
        Some(1),
    ];

    /// The ten numbers in their order.
    pub const fn from_numbers(numbers: [u32; 10]) -> Settings {
        Settings {
            alignment: numbers[0],
            cookie: numbers[1],
            comments: numbers[2],
            instructions: numbers[3],
            fragment: numbers[4],
            value_length: numbers[5],
            value_capacity: numbers[6],
            loose: numbers[7],
            prefixes: numbers[8],
            grammar_cap: numbers[9],
        }
    }

    pub const fn numbers(self) -> [u32; 10] {
        [
            self.alignment,
            self.cookie,
            self.comments,
            self.instructions,
            self.fragment,
            self.value_length,
            self.value_capacity,
            self.loose,
            self.prefixes,
            self.grammar_cap,
        ]
    }

    /// With another number in one place.
    pub fn with(self, place: usize, number: u32) -> Settings {
        let mut numbers = self.numbers();
        numbers[place] = number;
        Settings::from_numbers(numbers)
    }

    /// With a bound of the values' length.
    pub const fn with_value_length(self, length: u32) -> Settings {
        Settings {
            value_length: length + 1,
            ..self
        }
    }

    /// With a bound of how many values the tables hold.
    pub const fn with_capacity(self, capacity: u32) -> Settings {
        Settings {
            value_capacity: capacity + 1,
            ..self
        }
    }

    /// Comments and instructions kept.
    pub fn keeping(self) -> Settings {
        Settings {
            comments: 1,
            instructions: 1,
            ..self
        }
    }

    pub fn byte_aligned(self) -> bool {
        self.alignment == 1
    }

    /// How many of comments and instructions are kept.
    pub fn kept(self) -> usize {
        (self.comments + self.instructions) as usize
    }
}

#[derive(Clone, Copy, Debug, PartialEq, Eq)]
pub struct ReadReply {
    pub number: u32,
    pub index: u32,
    pub events: u32,
    pub code_points: u32,
}

#[derive(Clone, Copy, Debug, PartialEq, Eq)]
pub struct WriteReply {
    pub number: u32,
    pub index: u32,
    pub octets: u32,
}

#[derive(Clone, Copy, Debug, PartialEq, Eq)]
pub enum Codec {
    /// The proved library, through its C boundary.
    Library,
    Ordinary,
}

pub const BOTH: [Codec; 2] = [Codec::Library, Codec::Ordinary];

impl Codec {
    pub fn read(
        self,
        settings: Settings,
        stream: &[u8],
        events: &mut [u32],
        text: &mut [u32],
        work: &mut [u32],
    ) -> ReadReply {
        match self {
            Codec::Library => {
                let s = library_settings(settings);
                let r = plumethrift::lent::read(s, stream, events, text, work);
                ReadReply {
                    number: r.number,
                    index: r.index,
                    events: r.events,
                    code_points: r.code_points,
                }
            }
            Codec::Ordinary => {
                let s = ordinary_settings(settings);
                let least_work = sizes().reader_work_cells;
                let r = ordinary::read(s, stream, events, text, work, least_work);
                ReadReply {
                    number: r.number,
                    index: r.index,
                    events: r.events,
                    code_points: r.code_points,
                }
            }
        }
    }

    pub fn write(
        self,
        settings: Settings,
        octets: &mut [u8],
        events: &[u32],
        text: &[u32],
        work: &mut [u32],
    ) -> WriteReply {
        match self {
            Codec::Library => {
                let s = library_settings(settings);
                let r = plumethrift::lent::write(s, octets, events, text, work);
                WriteReply {
                    number: r.number,
                    index: r.index,
                    octets: r.octets,
                }
            }
            Codec::Ordinary => {
                let s = ordinary_settings(settings);
                let least_work = sizes().writer_work_cells;
                let r = ordinary::write(s, octets, events, text, work, least_work);
                WriteReply {
                    number: r.number,
                    index: r.index,
                    octets: r.octets,
                }
            }
        }
    }
}

pub(crate) fn library_settings(s: Settings) -> plumethrift::lent::SettingNumbers {
    plumethrift::lent::SettingNumbers {
        alignment: s.alignment,
        cookie: s.cookie,
        comments: s.comments,
        instructions: s.instructions,
        fragment: s.fragment,
        value_length: s.value_length,
        value_capacity: s.value_capacity,
        loose: s.loose,
        prefixes: s.prefixes,
        grammar_cap: s.grammar_cap,
    }
}

pub(crate) fn ordinary_settings(s: Settings) -> ordinary::Settings {
    ordinary::Settings {
        alignment: s.alignment,
        cookie: s.cookie,
        comments: s.comments,
        instructions: s.instructions,
        fragment: s.fragment,
        value_length: s.value_length,
        value_capacity: s.value_capacity,
        loose: s.loose,
        prefixes: s.prefixes,
        grammar_cap: s.grammar_cap,
    }
}

/// A part lent to the reader.
#[derive(Clone, Copy, Debug, PartialEq, Eq)]
pub enum ReaderPart {
    Events,
    Text,
    Work,
}

/// A part lent to the writer, to write.
#[derive(Clone, Copy, Debug, PartialEq, Eq)]
pub enum WriterPart {
    Octets,
    Work,
}

/// How much is lent to the reader.
#[derive(Clone, Copy, Debug, PartialEq, Eq)]
pub struct ReaderSizes {
    pub events: usize,
    pub text: usize,
    pub work: usize,
}

impl ReaderSizes {
    pub fn stated() -> ReaderSizes {
        ReaderSizes {
            events: sizes().event_cells,
            text: sizes().text_cells,
            work: sizes().reader_work_cells,
        }
    }

    pub fn usual() -> ReaderSizes {
        let stated = ReaderSizes::stated();
        ReaderSizes {
            events: stated.events + BEYOND,
            text: stated.text + BEYOND,
            work: stated.work + BEYOND,
        }
    }

    /// The usual sizes, but one part has one less than is stated.
    pub fn short(part: ReaderPart) -> ReaderSizes {
        let stated = ReaderSizes::stated();
        let mut sizes = ReaderSizes::usual();
        match part {
            ReaderPart::Events => sizes.events = stated.events - 1,
            ReaderPart::Text => sizes.text = stated.text - 1,
            ReaderPart::Work => sizes.work = stated.work - 1,
        }
        sizes
    }
}

/// How much is lent to the writer, of what it writes.
#[derive(Clone, Copy, Debug, PartialEq, Eq)]
pub struct WriterSizes {
    pub octets: usize,
    pub work: usize,
}

impl WriterSizes {
    pub fn stated() -> WriterSizes {
        WriterSizes {
            octets: sizes().stream_octets,
            work: sizes().writer_work_cells,
        }
    }

    pub fn usual() -> WriterSizes {
        let stated = WriterSizes::stated();
        WriterSizes {
            octets: stated.octets + BEYOND,
            work: stated.work + BEYOND,
        }
    }

    /// The usual sizes, but one part has one less than is stated.
    pub fn short(part: WriterPart) -> WriterSizes {
        let stated = WriterSizes::stated();
        let mut sizes = WriterSizes::usual();
        match part {
            WriterPart::Octets => sizes.octets = stated.octets - 1,
            WriterPart::Work => sizes.work = stated.work - 1,
        }
        sizes
    }
}

#[derive(Clone, PartialEq, Eq)]
pub struct ReaderMemory {
    events: Vec<u32>,
    text: Vec<u32>,
    work: Vec<u32>,
    sizes: ReaderSizes,
}

impl Default for ReaderMemory {
    fn default() -> ReaderMemory {
        ReaderMemory::new()
    }
}

impl ReaderMemory {
    pub fn new() -> ReaderMemory {
        let sizes = ReaderSizes::usual();
        ReaderMemory {
            events: vec![FILL; sizes.events + GUARD],
            text: vec![FILL; sizes.text + GUARD],
            work: vec![FILL; sizes.work + GUARD],
            sizes,
        }
    }

    pub fn read(&mut self, codec: Codec, settings: Settings, stream: &[u8]) -> ReadReply {
        self.read_with(ReaderSizes::usual(), |events, text, work| {
            codec.read(settings, stream, events, text, work)
        })
    }

    /// Fills all, and lends parts of these sizes, at most the usual ones, to `call`.
    pub fn read_with<R>(
        &mut self,
        sizes: ReaderSizes,
        call: impl FnOnce(&mut [u32], &mut [u32], &mut [u32]) -> R,
    ) -> R {
        self.events.fill(FILL);
        self.text.fill(FILL);
        self.work.fill(FILL);
        stain(&mut self.work[..sizes.work]);
        self.sizes = sizes;
        call(
            &mut self.events[..sizes.events],
            &mut self.text[..sizes.text],
            &mut self.work[..sizes.work],
        )
    }

    /// The event cells that a reply counts; none if it counts more than were lent.
    pub fn events(&self, reply: &ReadReply) -> Option<&[u32]> {
        self.events[..self.sizes.events].get(..reply.events as usize * CELLS)
    }

    /// The code points that a reply counts; none if it counts more than were lent.
    pub fn text(&self, reply: &ReadReply) -> Option<&[u32]> {
        self.text[..self.sizes.text].get(..reply.code_points as usize)
    }

    /// What the rules for lent memory do not allow after this reply, if anything.
    pub fn fault(&self, reply: &ReadReply) -> Option<&'static str> {
        if reply.number != 0 && (reply.events != 0 || reply.code_points != 0) {
            return Some("counts after a refusal");
        }
        let (Some(events), Some(text)) = (self.events(reply), self.text(reply)) else {
            return Some("a count beyond the lent memory");
        };
        if !events.chunks(CELLS).all(|e| stored_strings(e).is_some()) {
            return Some("fewer events than counted");
        }
        if text.contains(&0) {
            return Some("fewer code points than counted");
        }
        if !zero(&self.events[events.len()..self.sizes.events]) {
            return Some("an event cell that is not zero");
        }
        if !zero(&self.text[text.len()..self.sizes.text]) {
            return Some("a text cell that is not zero");
        }
        if !zero(&self.work[..self.sizes.work]) {
            return Some("a work cell that is not zero");
        }
        let kept = |cells: &[u32]| cells.iter().all(|&cell| cell == FILL);
        if !(kept(&self.events[self.sizes.events..])
            && kept(&self.text[self.sizes.text..])
            && kept(&self.work[self.sizes.work..]))
        {
            return Some("a cell changed that was not lent");
        }
        None
    }
}

#[derive(Clone, PartialEq, Eq)]
pub struct WriterMemory {
    octets: Vec<u8>,
    work: Vec<u32>,
    sizes: WriterSizes,
}

impl Default for WriterMemory {
    fn default() -> WriterMemory {
        WriterMemory::new()
    }
}

impl WriterMemory {
    pub fn new() -> WriterMemory {
        let sizes = WriterSizes::usual();
        WriterMemory {
            octets: vec![FILL_OCTET; sizes.octets + GUARD],
            work: vec![FILL; sizes.work + GUARD],
            sizes,
        }
    }

    pub fn write(
        &mut self,
        codec: Codec,
        settings: Settings,
        events: &[u32],
        text: &[u32],
    ) -> WriteReply {
        self.write_with(WriterSizes::usual(), |octets, work| {
            codec.write(settings, octets, events, text, work)
        })
    }

    /// Fills all, and lends parts of these sizes, at most the usual ones, to `call`.
    pub fn write_with<R>(
        &mut self,
        sizes: WriterSizes,
        call: impl FnOnce(&mut [u8], &mut [u32]) -> R,
    ) -> R {
        self.octets.fill(FILL_OCTET);
        self.work.fill(FILL);
        stain(&mut self.work[..sizes.work]);
        self.sizes = sizes;
        call(
            &mut self.octets[..sizes.octets],
            &mut self.work[..sizes.work],
        )
    }

    /// The octets that a reply counts; none if it counts more than were lent.
    pub fn octets(&self, reply: &WriteReply) -> Option<&[u8]> {
        self.octets[..self.sizes.octets].get(..reply.octets as usize)
    }

    /// What the rules for lent memory do not allow after this reply, if anything.
    pub fn fault(&self, reply: &WriteReply) -> Option<&'static str> {
        if reply.number != 0 && reply.octets != 0 {
            return Some("counts after a refusal");
        }
        let Some(octets) = self.octets(reply) else {
            return Some("a count beyond the lent memory");
        };
        let rest = &self.octets[octets.len()..self.sizes.octets];
        if rest.iter().fold(0, |all, octet| all | octet) != 0 {
            return Some("an octet that is not zero");
        }
        if !zero(&self.work[..self.sizes.work]) {
            return Some("a work cell that is not zero");
        }
        if !(self.octets[self.sizes.octets..]
            .iter()
            .all(|&octet| octet == FILL_OCTET)
            && self.work[self.sizes.work..]
                .iter()
                .all(|&cell| cell == FILL))
        {
            return Some("a cell changed that was not lent");
        }
        None
    }
}

pub(crate) fn zero(cells: &[u32]) -> bool {
    cells.iter().fold(0, |all, cell| all | cell) == 0
}

#[cfg(test)]
mod tests {
    use super::*;

    const READ: ReadReply = ReadReply {
        number: 0,
        index: 0,
        events: 2,
        code_points: 3,
    };

    fn good_read(events: &mut [u32], text: &mut [u32], work: &mut [u32]) -> ReadReply {
        events.fill(0);
        text.fill(0);
        work.fill(0);
        events[0] = 1;
        events[CELLS] = 2;
        text[..3].fill(9);
        READ
    }

    fn read_fault(
        change: impl FnOnce(&mut [u32], &mut [u32], &mut [u32]) -> ReadReply,
    ) -> Option<&'static str> {
        let mut memory = ReaderMemory::new();
        let reply = memory.read_with(ReaderSizes::usual(), |events, text, work| {
            good_read(events, text, work);
            change(events, text, work)
        });
        memory.fault(&reply)
    }

    #[test]
    fn reader_memory_is_looked_at() {
        assert_eq!(read_fault(|_, _, _| READ), None);
        let refused = ReadReply {
            number: 5,
            index: 1,
            events: 0,
            code_points: 0,
        };
        assert!(read_fault(|_, _, _| refused).is_some());
        let sizes = ReaderSizes::usual();
        let most = (sizes.events / CELLS) as u32;
        for events in [1, 3, most, most + 1, u32::MAX] {
            assert!(read_fault(|_, _, _| ReadReply { events, ..READ }).is_some());
        }
        let most = sizes.text as u32;
        for code_points in [2, 4, most, most + 1, u32::MAX] {
            let reply = ReadReply {
                code_points,
                ..READ
            };
            assert!(read_fault(|_, _, _| reply).is_some());
        }
        let counted = ReadReply {
            number: 5,
            index: 1,
            ..READ
        };
        assert!(read_fault(|_, _, _| counted).is_some());
        for at in [1, CELLS + 1, 2 * CELLS - 1, 2 * CELLS, sizes.events - 1] {
            let stain = |events: &mut [u32], _: &mut [u32], _: &mut [u32]| {
                events[at] = 1;
                READ
            };
            assert!(read_fault(stain).is_some(), "event cell {at}");
        }
        for at in [3, sizes.text - 1] {
            let stain = |_: &mut [u32], text: &mut [u32], _: &mut [u32]| {
                text[at] = 1 << 31;
                READ
            };
            assert!(read_fault(stain).is_some(), "text cell {at}");
        }
        for at in [0, sizes.work - 1] {
            let stain = |_: &mut [u32], _: &mut [u32], work: &mut [u32]| {
                work[at] = 1;
                READ
            };
            assert!(read_fault(stain).is_some(), "work cell {at}");
        }
    }

    #[test]
    fn reader_memory_that_is_not_lent_is_looked_at() {
        let mut memory = ReaderMemory::new();
        let reply = memory.read_with(ReaderSizes::stated(), good_read);
        assert_eq!(memory.fault(&reply), None);
        memory.events[sizes().event_cells] = 0;
        assert!(memory.fault(&reply).is_some());
    }

    #[test]
    fn writer_memory_is_looked_at() {
        let fault = |octets_at: Option<usize>, work_at: Option<usize>, reply: WriteReply| {
            let mut memory = WriterMemory::new();
            let reply = memory.write_with(WriterSizes::usual(), |octets, work| {
                octets.fill(0);
                work.fill(0);
                octets[..2].fill(0x80);
                octets_at.into_iter().for_each(|at| octets[at] = 1);
                work_at.into_iter().for_each(|at| work[at] = 1);
                reply
            });
            memory.fault(&reply)
        };
        let good = WriteReply {
            number: 0,
            index: 0,
            octets: 2,
        };
        assert_eq!(fault(None, None, good), None);
        assert!(fault(None, None, WriteReply { octets: 1, ..good }).is_some());
        let sizes = WriterSizes::usual();
        let octets = sizes.octets as u32 + 1;
        assert!(fault(None, None, WriteReply { octets, ..good }).is_some());
        assert!(fault(None, None, WriteReply { number: 3, ..good }).is_some());
        assert!(fault(Some(2), None, good).is_some());
        assert!(fault(Some(sizes.octets - 1), None, good).is_some());
        assert!(fault(None, Some(0), good).is_some());
        assert!(fault(None, Some(sizes.work - 1), good).is_some());
        let refused = WriteReply {
            number: 3,
            index: 0,
            octets: 0,
        };
        assert!(fault(None, None, refused).is_some());
    }
}
