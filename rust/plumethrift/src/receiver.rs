use std::fmt;

use crate::document::{Document, Events};
use crate::lent::{
    self, ReadReply, ReceiverRecord, CELLS_PER_EVENT, EVENT_CELLS, HELD_OCTETS, READER_WORK_CELLS,
    TEXT_CELLS,
};
use crate::refusal::{judge, Refused};
use crate::settings::Settings;

/// Reads one stream at a time that comes in pieces, as packets of a radio do, in memory of its own:
/// 296 KiB, allocated once.
///
/// Each piece is answered with the [`Progress`]: the events that are complete from the octets so
/// far. However the stream is cut, empty pieces included, [`close`](Receiver::close) answers as
/// [`Reader::read`](crate::Reader::read) does for the whole.
///
/// ```
/// use plumethrift::{Alignment, Event, Receiver, Settings};
///
/// let settings = Settings { alignment: Alignment::ByteAligned, ..Settings::default() };
/// let mut receiver = Receiver::new(&settings);
///
/// // <a>bb</a>
/// assert_eq!(receiver.feed(&[0x80, 0x01, 0x02])?.len(), 1);
/// assert_eq!(receiver.feed(&[0x61, 0x03, 0x04, 0x62])?.len(), 2);
/// let progress = receiver.feed(&[0x62])?;
/// let Some(Event::Characters { text }) = progress.new_events().next() else { panic!() };
/// assert_eq!(text, "bb");
/// assert_eq!(receiver.feed(&[0x00])?.len(), 5);
/// assert_eq!(receiver.close()?.len(), 5);
/// # Ok::<(), plumethrift::Refused>(())
/// ```
///
/// A piece is refused once the octets so far, read whole, are refused by another number than ENDED.
/// A receiver that has refused stays so until it is [started](Receiver::start) afresh:
///
/// ```
/// use plumethrift::{Receiver, Refusal, Settings};
///
/// let mut receiver = Receiver::new(&Settings::default());
/// assert_eq!(receiver.feed(&[0xA0]).unwrap_err().refusal, Refusal::Header);
/// assert_eq!(receiver.feed(&[0x80]).unwrap_err().refusal, Refusal::Header);
/// receiver.start(&Settings::default());
/// assert!(receiver.feed(&[0x80]).is_ok());
/// assert_eq!(receiver.close().unwrap_err().refusal, Refusal::Ended);
/// ```
pub struct Receiver {
    record: ReceiverRecord,
    held: Box<[u8]>,
    events: Box<[u32]>,
    text: Box<[u32]>,
    work: Box<[u32]>,
    /// How many events were complete after the last call.
    shown: usize,
}

impl Receiver {
    /// A receiver for a stream of these settings, with its memory.
    #[must_use]
    pub fn new(settings: &Settings) -> Self {
        Receiver {
            record: lent::start(settings.numbers()),
            held: vec![0; HELD_OCTETS].into_boxed_slice(),
            events: vec![0; EVENT_CELLS].into_boxed_slice(),
            text: vec![0; TEXT_CELLS].into_boxed_slice(),
            work: vec![0; READER_WORK_CELLS].into_boxed_slice(),
            shown: 0,
        }
    }

    /// Starts afresh, for another stream, in the same memory.
    pub fn start(&mut self, settings: &Settings) {
        self.record = lent::start(settings.numbers());
        self.shown = 0;
    }

    /// Hands over the next piece of the stream, of any length.
    ///
    /// After [`close`](Receiver::close) its answer is repeated, whatever the piece.
    ///
    /// # Errors
    ///
    /// Refusals 2 to 4 and 6 to 14, each as soon as the octets so far, read whole, are refused by
    /// it; then the same for every piece and for the close. Past 16,384 octets in all it is
    /// [`Refusal::Long`](crate::Refusal::Long), unless it was
    /// [`Refusal::Settings`](crate::Refusal::Settings). Never
    /// [`Refusal::Ended`](crate::Refusal::Ended), but after the close.
    pub fn feed(&mut self, piece: &[u8]) -> Result<Progress<'_>, Refused> {
        let reply = lent::feed(
            &mut self.record,
            piece,
            &mut self.held,
            &mut self.events,
            &mut self.text,
            &mut self.work,
        );
        let before = self.shown;
        let so_far = self.show(reply)?;
        Ok(Progress { so_far, before })
    }

    /// Says that the stream has ended, and answers its document.
    ///
    /// # Errors
    ///
    /// Those of [`Reader::read`](crate::Reader::read) for all pieces put together.
    pub fn close(&mut self) -> Result<Document<'_>, Refused> {
        let reply = lent::close(
            &mut self.record,
            &mut self.held,
            &mut self.events,
            &mut self.text,
            &mut self.work,
        );
        self.show(reply)
    }

    /// The events that a reply counts.
    fn show(&mut self, reply: ReadReply) -> Result<Document<'_>, Refused> {
        judge(reply.number, reply.index)?;
        self.shown = reply.events as usize;
        let cells = &self.events[..CELLS_PER_EVENT * self.shown];
        let store = &self.text[..reply.code_points as usize];
        Ok(Document::new(cells, store))
    }
}

impl fmt::Debug for Receiver {
    fn fmt(&self, f: &mut fmt::Formatter<'_>) -> fmt::Result {
        f.debug_struct("Receiver").finish_non_exhaustive()
    }
}

/// How far a stream has come with a piece, in memory of its [`Receiver`].
#[derive(Clone, Copy)]
pub struct Progress<'a> {
    so_far: Document<'a>,
    before: usize,
}

impl<'a> Progress<'a> {
    /// All events that are complete from the octets so far.
    #[must_use]
    pub fn events(&self) -> Events<'a> {
        self.so_far.events()
    }

    /// Those of them that were not complete before this piece.
    #[must_use]
    pub fn new_events(&self) -> Events<'a> {
        let cells = &self.so_far.cells()[CELLS_PER_EVENT * self.before..];
        Events::new(cells, self.so_far.store())
    }

    /// How many events are complete: 0 while the header is not.
    #[must_use]
    pub fn len(&self) -> usize {
        self.so_far.len()
    }

    /// Whether no event is complete yet.
    #[must_use]
    pub fn is_empty(&self) -> bool {
        self.len() == 0
    }

    /// The events as they lie in memory, nine cells each.
    #[must_use]
    pub fn cells(&self) -> &'a [u32] {
        self.so_far.cells()
    }

    /// The text store: the 99 code points of the initial table entries, then every literal of the
    /// complete events in stream order.
    #[must_use]
    pub fn store(&self) -> &'a [u32] {
        self.so_far.store()
    }
}

impl fmt::Debug for Progress<'_> {
    fn fmt(&self, f: &mut fmt::Formatter<'_>) -> fmt::Result {
        f.debug_list().entries(self.events()).finish()
    }
}
