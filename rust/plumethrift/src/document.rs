use std::fmt;
use std::iter::FusedIterator;
use std::slice::ChunksExact;

use crate::event::Event;
use crate::lent::CELLS_PER_EVENT;
use crate::list::EventList;

/// A document that was read: the events of a stream, in memory of the [`Reader`](crate::Reader).
///
/// Two documents are the same when their events are. [`EventList::from`] copies one into memory of
/// its own, as to write it with other settings:
///
/// ```
/// use plumethrift::{Alignment, EventList, Reader, Settings, Writer};
///
/// let bit_packed = Settings::default();
/// let byte_aligned = Settings { alignment: Alignment::ByteAligned, ..bit_packed };
///
/// let (mut reader, mut writer) = (Reader::new(), Writer::new());
/// let list = EventList::from(reader.read(&bit_packed, &[0x80, 0x40, 0x98, 0x40])?);
/// assert_eq!(writer.write(&byte_aligned, &list)?, [0x80, 0x01, 0x02, 0x61, 0x00]);
/// # Ok::<(), plumethrift::Refused>(())
/// ```
#[derive(Clone, Copy)]
pub struct Document<'a> {
    cells: &'a [u32],
    store: &'a [u32],
}

impl<'a> Document<'a> {
    pub(crate) fn new(cells: &'a [u32], store: &'a [u32]) -> Self {
        Document { cells, store }
    }

    /// Its events, from start document to end document.
    #[must_use]
    pub fn events(&self) -> Events<'a> {
        Events::new(self.cells, self.store)
    }

    /// How many events it has: at least 4.
    #[allow(clippy::len_without_is_empty)] // none is empty
    #[must_use]
    pub fn len(&self) -> usize {
        self.cells.len() / CELLS_PER_EVENT
    }

    /// Its events as they lie in memory, nine cells each.
    #[must_use]
    pub fn cells(&self) -> &'a [u32] {
        self.cells
    }

    /// Its text store: the 99 code points of the initial table entries, then every literal in
    /// stream order.
    #[must_use]
    pub fn store(&self) -> &'a [u32] {
        self.store
    }
}

impl fmt::Debug for Document<'_> {
    fn fmt(&self, f: &mut fmt::Formatter<'_>) -> fmt::Result {
        f.debug_list().entries(self.events()).finish()
    }
}

impl PartialEq for Document<'_> {
    fn eq(&self, other: &Document<'_>) -> bool {
        self.events().eq(other.events())
    }
}

impl Eq for Document<'_> {}

impl PartialEq<EventList> for Document<'_> {
    fn eq(&self, other: &EventList) -> bool {
        self.events().eq(other.events())
    }
}

impl<'a> IntoIterator for Document<'a> {
    type Item = Event<'a>;
    type IntoIter = Events<'a>;

    fn into_iter(self) -> Events<'a> {
        self.events()
    }
}

/// The events of a [`Document`] or an [`EventList`], in order.
#[derive(Clone, Debug)]
pub struct Events<'a> {
    cells: ChunksExact<'a, u32>,
    store: &'a [u32],
}

impl<'a> Events<'a> {
    /// `cells` are whole events: an `EventList` has laid them down, or the proved reader has.
    pub(crate) fn new(cells: &'a [u32], store: &'a [u32]) -> Self {
        Events {
            cells: cells.chunks_exact(CELLS_PER_EVENT),
            store,
        }
    }

    fn event(&self, cells: &[u32]) -> Event<'a> {
        Event::from_cells(cells, self.store).expect("a list's cells are events")
    }
}

impl<'a> Iterator for Events<'a> {
    type Item = Event<'a>;

    fn next(&mut self) -> Option<Event<'a>> {
        self.cells.next().map(|cells| self.event(cells))
    }

    fn size_hint(&self) -> (usize, Option<usize>) {
        self.cells.size_hint()
    }
}

impl DoubleEndedIterator for Events<'_> {
    fn next_back(&mut self) -> Option<Self::Item> {
        self.cells.next_back().map(|cells| self.event(cells))
    }
}

impl ExactSizeIterator for Events<'_> {}

impl FusedIterator for Events<'_> {}
