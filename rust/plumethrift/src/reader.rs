use std::fmt;

use crate::document::Document;
use crate::lent::{self, CELLS_PER_EVENT, EVENT_CELLS, READER_WORK_CELLS, TEXT_CELLS};
use crate::readings::Readings;
use crate::refusal::{judge, Refused};
use crate::settings::Settings;

/// Reads streams, in memory of its own: 280 KiB, allocated once and used for each stream.
///
/// ```
/// use plumethrift::{Reader, Refusal, Settings};
///
/// let mut reader = Reader::new();
/// let document = reader.read(&Settings::default(), &[0x80, 0x40, 0x98, 0x40])?; // <a/>
/// assert_eq!(document.len(), 4);
///
/// let refused = reader.read(&Settings::default(), &[0x80, 0x40, 0x98, 0x41]).unwrap_err();
/// assert_eq!((refused.refusal, refused.index), (Refusal::Tail, 4));
/// # Ok::<(), plumethrift::Refused>(())
/// ```
pub struct Reader {
    events: Box<[u32]>,
    text: Box<[u32]>,
    work: Box<[u32]>,
}

impl Reader {
    /// A reader, with its memory.
    #[must_use]
    pub fn new() -> Self {
        Reader {
            events: vec![0; EVENT_CELLS].into_boxed_slice(),
            text: vec![0; TEXT_CELLS].into_boxed_slice(),
            work: vec![0; READER_WORK_CELLS].into_boxed_slice(),
        }
    }

    /// Reads a stream, whatever its octets. The answer does not depend on what was read before.
    ///
    /// # Errors
    ///
    /// Refusals 2 to 14.
    pub fn read(&mut self, settings: &Settings, stream: &[u8]) -> Result<Document<'_>, Refused> {
        let reply = lent::read(
            settings.numbers(),
            stream,
            &mut self.events,
            &mut self.text,
            &mut self.work,
        );
        judge(reply.number, reply.index)?;
        let cells = &self.events[..CELLS_PER_EVENT * reply.events as usize];
        let store = &self.text[..reply.code_points as usize];
        Ok(Document::new(cells, store))
    }

    /// Reads a stream, and takes the [readings](Readings) out of its list.
    ///
    /// ```
    /// use plumethrift::{Reader, Readings, Refusal, Settings, Writer};
    ///
    /// let mut readings = Readings::new();
    /// readings.push(825_638_400_000, 3_700).push(825_640_200_000, 4_750);
    ///
    /// let (mut reader, mut writer) = (Reader::new(), Writer::new());
    /// let stream = writer.write_readings(&Settings::default(), &readings)?;
    /// assert_eq!(reader.read_readings(&Settings::default(), stream)?, readings);
    ///
    /// let a = [0x80, 0x40, 0x98, 0x40]; // <a/>
    /// let refused = reader.read_readings(&Settings::default(), &a).unwrap_err();
    /// assert_eq!((refused.refusal, refused.index), (Refusal::Structure, 0));
    /// # Ok::<(), plumethrift::Refused>(())
    /// ```
    ///
    /// # Errors
    ///
    /// Refusals 2 to 14, as by [`read`](Reader::read), with the index of an event; then 16 to 19,
    /// with that of a reading.
    pub fn read_readings(
        &mut self,
        settings: &Settings,
        stream: &[u8],
    ) -> Result<Readings, Refused> {
        let settings = settings.numbers();
        let (events, text, work) = (&mut self.events, &mut self.text, &mut self.work);
        Readings::taken(|stamps, movements| {
            lent::read_readings(settings, stream, stamps, movements, events, text, work)
        })
    }
}

impl Default for Reader {
    fn default() -> Self {
        Reader::new()
    }
}

impl fmt::Debug for Reader {
    fn fmt(&self, f: &mut fmt::Formatter<'_>) -> fmt::Result {
        f.debug_struct("Reader").finish_non_exhaustive()
    }
}
