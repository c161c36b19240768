use std::iter::{FusedIterator, Zip};
use std::slice::Iter;

use crate::document::Document;
use crate::lent::{self, CELLS_PER_EVENT, EVENT_CELLS, MAX_READINGS, TEXT_CELLS};
use crate::list::EventList;
use crate::refusal::{judge, Refused};

/// A reading: a stamp and a movement.
#[derive(Clone, Copy, Debug, Default, PartialEq, Eq, Hash)]
pub struct Reading {
    /// The stamp in whole milliseconds since 2000-01-01T00:00:00.000Z; at most
    /// [`LAST_STAMP`](lent::LAST_STAMP).
    pub milliseconds: u64,
    /// The movement in micrometres, from -20,000 to 20,000.
    pub micrometres: i32,
}

/// Readings, one after the other.
///
/// A list of readings is a document whose root `readings` has children `r`, one for each, with the
/// attribute `t`, the stamp as `YYYY-MM-DDThh:mm:ss.mmmZ`, then `um`, the movement as a decimal
/// number; no other event, and all names in no namespace. Each stamp is later than the one before.
/// Lists and readings stand for each other one to one: stamps that differ never become the same.
///
/// ```
/// use plumethrift::{EventList, Reading, Readings};
///
/// let mut readings = Readings::new();
/// readings.push(5_097_600_000, -5).push(5_097_600_500, 12);
///
/// let list = readings.to_list()?;
/// let mut same = EventList::new();
/// same.start_document().start_element("", "readings");
/// for (t, um) in [("2000-02-29T00:00:00.000Z", "-5"), ("2000-02-29T00:00:00.500Z", "12")] {
///     same.start_element("", "r").attribute("", "t", t).attribute("", "um", um).end_element();
/// }
/// same.end_element().end_document();
/// assert_eq!(list, same);
///
/// assert_eq!(Readings::of_list(&list)?, readings);
/// # Ok::<(), plumethrift::Refused>(())
/// ```
///
/// Readings take any numbers, in any order; they are judged when they are made into a list or a
/// stream. The text store has room for at most 678 of them, and for fewer where movements differ:
/// 111 code points, 24 for each stamp, and each distinct movement once make at most 16,384. A
/// stream has room for 606 bit-packed, and for 545 byte-aligned, of movement 0.
#[derive(Clone, Debug, Default, PartialEq, Eq, Hash)]
pub struct Readings {
    /// As many as there are movements.
    stamps: Vec<u64>,
    movements: Vec<i32>,
}

impl Readings {
    /// No readings.
    #[must_use]
    pub const fn new() -> Self {
        Readings {
            stamps: Vec::new(),
            movements: Vec::new(),
        }
    }

    /// Takes the readings out of a list.
    ///
    /// ```
    /// use plumethrift::{EventList, Readings, Refusal, Refused};
    ///
    /// let mut list = EventList::new();
    /// list.start_document().start_element("", "readings");
    /// for t in ["2026-03-01T00:00:00.000Z", "2026-02-29T00:00:00.000Z"] {
    ///     list.start_element("", "r").attribute("", "t", t).attribute("", "um", "7");
    ///     list.end_element();
    /// }
    /// list.end_element().end_document();
    ///
    /// let refused = Readings::of_list(&list).unwrap_err(); // no such day
    /// assert_eq!(refused, Refused { refusal: Refusal::BadStamp, index: 1 });
    /// ```
    ///
    /// # Errors
    ///
    /// Refusals 12 and 16 to 19.
    pub fn of_list(list: &EventList) -> Result<Readings, Refused> {
        Readings::taken(|stamps, movements| {
            lent::readings_of_list(list.cells(), list.store(), stamps, movements)
        })
    }

    /// Takes the readings out of a document that was read.
    /// [`Reader::read_readings`](crate::Reader::read_readings) does both in one call.
    ///
    /// # Errors
    ///
    /// Refusals 16 to 19.
    pub fn of_document(document: &Document<'_>) -> Result<Readings, Refused> {
        Readings::taken(|stamps, movements| {
            lent::readings_of_list(document.cells(), document.store(), stamps, movements)
        })
    }

    /// Makes the list of these readings, its text store as a reader leaves it.
    ///
    /// # Errors
    ///
    /// Refusals 12 and 17 to 19.
    pub fn to_list(&self) -> Result<EventList, Refused> {
        let mut cells = vec![0; EVENT_CELLS];
        let mut store = vec![0; TEXT_CELLS];
        let reply = lent::list_of_readings(&self.stamps, &self.movements, &mut cells, &mut store);
        judge(reply.number, reply.index)?;
        cells.truncate(CELLS_PER_EVENT * reply.events as usize);
        store.truncate(reply.code_points as usize);
        Ok(EventList::from_parts(cells, store))
    }

    /// Adds a reading: its stamp in milliseconds, its movement in micrometres.
    pub fn push(&mut self, milliseconds: u64, micrometres: i32) -> &mut Self {
        self.stamps.push(milliseconds);
        self.movements.push(micrometres);
        self
    }

    /// The readings in order.
    pub fn iter(&self) -> ReadingsIter<'_> {
        ReadingsIter(self.stamps.iter().zip(&self.movements))
    }

    /// How many readings there are.
    #[must_use]
    pub fn len(&self) -> usize {
        self.stamps.len()
    }

    /// There are none.
    #[must_use]
    pub fn is_empty(&self) -> bool {
        self.stamps.is_empty()
    }

    /// Takes all readings out. The memory stays, for the next ones.
    pub fn clear(&mut self) {
        self.stamps.clear();
        self.movements.clear();
    }

    /// Their stamps, in milliseconds.
    #[must_use]
    pub fn stamps(&self) -> &[u64] {
        &self.stamps
    }

    /// Their movements, in micrometres.
    #[must_use]
    pub fn movements(&self) -> &[i32] {
        &self.movements
    }

    /// The readings that a call leaves in memory lent to it.
    pub(crate) fn taken(
        call: impl FnOnce(&mut [u64], &mut [i32]) -> lent::ReadingsReply,
    ) -> Result<Readings, Refused> {
        let mut stamps = vec![0; MAX_READINGS];
        let mut movements = vec![0; MAX_READINGS];
        let reply = call(&mut stamps, &mut movements);
        judge(reply.number, reply.index)?;
        stamps.truncate(reply.readings as usize);
        movements.truncate(reply.readings as usize);
        Ok(Readings { stamps, movements })
    }
}

/// The stamp in milliseconds and the movement in micrometres.
impl From<(u64, i32)> for Reading {
    fn from((milliseconds, micrometres): (u64, i32)) -> Self {
        Reading {
            milliseconds,
            micrometres,
        }
    }
}

/// [`Readings`] in order.
#[derive(Clone, Debug)]
#[must_use]
pub struct ReadingsIter<'a>(Zip<Iter<'a, u64>, Iter<'a, i32>>);

impl Iterator for ReadingsIter<'_> {
    type Item = Reading;

    fn next(&mut self) -> Option<Reading> {
        let (&milliseconds, &micrometres) = self.0.next()?;
        Some(Reading::from((milliseconds, micrometres)))
    }

    fn size_hint(&self) -> (usize, Option<usize>) {
        self.0.size_hint()
    }
}

impl DoubleEndedIterator for ReadingsIter<'_> {
    fn next_back(&mut self) -> Option<Reading> {
        let (&milliseconds, &micrometres) = self.0.next_back()?;
        Some(Reading::from((milliseconds, micrometres)))
    }
}

impl ExactSizeIterator for ReadingsIter<'_> {}

impl FusedIterator for ReadingsIter<'_> {}

impl<'a> IntoIterator for &'a Readings {
    type Item = Reading;
    type IntoIter = ReadingsIter<'a>;

    fn into_iter(self) -> ReadingsIter<'a> {
        self.iter()
    }
}

impl Extend<Reading> for Readings {
    fn extend<I: IntoIterator<Item = Reading>>(&mut self, readings: I) {
        for reading in readings {
            self.push(reading.milliseconds, reading.micrometres);
        }
    }
}

impl FromIterator<Reading> for Readings {
    fn from_iter<I: IntoIterator<Item = Reading>>(readings: I) -> Self {
        let mut all = Readings::new();
        all.extend(readings);
        all
    }
}
