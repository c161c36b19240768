use std::fmt;

use crate::lent::{self, EVENT_CELLS, MAX_READINGS, STREAM_OCTETS, TEXT_CELLS, WRITER_WORK_CELLS};
use crate::list::EventList;
use crate::readings::Readings;
use crate::refusal::{judge, Refused};
use crate::settings::Settings;

/// Writes lists, in memory of its own: 88 KiB, allocated once and used for each list. For
/// readings it is 208 KiB more, allocated with the first.
///
/// ```
/// use plumethrift::{EventList, Refusal, Settings, Writer};
///
/// let mut list = EventList::new();
/// list.start_document().start_element("", "a").end_element();
/// let mut writer = Writer::new();
/// let refused = writer.write(&Settings::default(), &list).unwrap_err();
/// assert_eq!((refused.refusal, refused.index), (Refusal::Shape, 3)); // it ends early
///
/// list.end_document();
/// assert_eq!(writer.write(&Settings::default(), &list)?, [0x80, 0x40, 0x98, 0x40]);
/// # Ok::<(), plumethrift::Refused>(())
/// ```
pub struct Writer {
    octets: Box<[u8]>,
    work: Box<[u32]>,
    /// For the list of readings; empty before the first.
    events: Vec<u32>,
    text: Vec<u32>,
}

impl Writer {
    /// A writer, with its memory.
    #[must_use]
    pub fn new() -> Self {
        Writer {
            octets: vec![0; STREAM_OCTETS].into_boxed_slice(),
            work: vec![0; WRITER_WORK_CELLS].into_boxed_slice(),
            events: Vec::new(),
            text: Vec::new(),
        }
    }

    /// Writes a list. The answer does not depend on what was written before.
    ///
    /// # Errors
    ///
    /// Refusals 2, 3, 8, 11, 12 and 14.
    pub fn write(&mut self, settings: &Settings, list: &EventList) -> Result<&[u8], Refused> {
        let reply = lent::write(
            settings.numbers(),
            &mut self.octets,
            list.cells(),
            list.store(),
            &mut self.work,
        );
        judge(reply.number, reply.index)?;
        Ok(&self.octets[..reply.octets as usize])
    }

    /// Writes the list of readings.
    ///
    /// ```
    /// use plumethrift::{Readings, Refusal, Settings, Writer};
    ///
    /// let mut readings = Readings::new();
    /// readings.push(825_638_400_000, 3_700).push(825_638_400_000, 4_750);
    /// let refused = Writer::new().write_readings(&Settings::default(), &readings).unwrap_err();
    /// assert_eq!((refused.refusal, refused.index), (Refusal::NotLater, 1));
    /// ```
    ///
    /// # Errors
    ///
    /// Refusals 12 and 17 to 19, with the index of a reading; then 2 and 3.
    pub fn write_readings(
        &mut self,
        settings: &Settings,
        readings: &Readings,
    ) -> Result<&[u8], Refused> {
        self.events.resize(EVENT_CELLS, 0);
        self.text.resize(TEXT_CELLS, 0);
        let reply = lent::write_readings(
            settings.numbers(),
            &mut self.octets,
            readings.stamps(),
            readings.movements(),
            &mut self.events,
            &mut self.text,
            &mut self.work,
        );
        judge(reply.number, reading_of(reply.index))?;
        Ok(&self.octets[..reply.octets as usize])
    }
}

/// The reading that a refusal is of. Under bounds of values the writer's LIMIT is of an event: two
/// come before the first reading, and each has four. The text of so few events always fits.
fn reading_of(index: u32) -> u32 {
    if index as usize <= MAX_READINGS {
        return index;
    }
    (index - 2) / 4
}

impl Default for Writer {
    fn default() -> Self {
        Writer::new()
    }
}

impl fmt::Debug for Writer {
    fn fmt(&self, f: &mut fmt::Formatter<'_>) -> fmt::Result {
        f.debug_struct("Writer").finish_non_exhaustive()
    }
}
