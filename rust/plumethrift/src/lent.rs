//! The calls over memory that the caller lends.
//!
//! Settings and answers are the numbers that cross the boundary, and nothing is allocated. Slices
//! of any length and any contents are safe: a slice that is too short is refused as ROOM, a
//! settings number without a meaning as SETTINGS.
//!
//! After success, every cell or octet past the last one that was written is zero, and all of `work`
//! is. After a refusal the counts are 0, and all that was lent for writing is zero. What it held
//! before the call does not matter.
//!
//! ```
//! use plumethrift::lent::{self, SettingNumbers};
//! use plumethrift::Event;
//!
//! let mut events = vec![0; lent::EVENT_CELLS];
//! let mut text = vec![0; lent::TEXT_CELLS];
//! let mut work = vec![0; lent::READER_WORK_CELLS];
//!
//! let bit_packed = SettingNumbers::default();
//! let stream = [0x80, 0x40, 0x98, 0x40]; // <a/>
//! let reply = lent::read(bit_packed, &stream, &mut events, &mut text, &mut work);
//! assert_eq!((reply.number, reply.index, reply.events, reply.code_points), (0, 0, 4, 100));
//!
//! let second = Event::from_cells(&events[9..18], &text);
//! assert!(matches!(second, Some(Event::StartElement { name, .. }) if name == "a"));
//! ```

use core::{fmt, mem::MaybeUninit};

use crate::boundary;

/// Cells of one event: its kind, then four pairs, each the place and the length of a string. An
/// element or an attribute has its URI in the first pair, its local name in the second, and an
/// attribute its value in the fourth; the third is for a prefix, of which none are kept, and is 0.
/// Characters and comments have their text in the first pair, an instruction has its target there
/// and its text in the second. Cells that a kind does not use are 0.
pub const CELLS_PER_EVENT: usize = 9;

/// Event cells to lend to the reader, at least: for 4,096 events.
pub const EVENT_CELLS: usize = 36_864;

/// Text store to lend to the reader, at least: one code point a cell.
pub const TEXT_CELLS: usize = 16_384;

/// Octets to lend to the writer, at least; also the longest stream that the reader takes.
pub const STREAM_OCTETS: usize = 16_384;

/// Work memory to lend to the reader, at least, in cells.
pub const READER_WORK_CELLS: usize = 18_432;

/// Work memory to lend to the writer, at least, in cells.
pub const WRITER_WORK_CELLS: usize = 18_432;

/// Octets to lend to a receiver, at least, in which it keeps the stream so far.
pub const HELD_OCTETS: usize = 16_384;

/// Words of 64 bits in a [`ReceiverRecord`].
pub const RECEIVER_WORDS: usize = 44;

/// Stamps, and as many movements, to lend where readings are taken out, at least; also the most
/// readings that there are in one list.
pub const MAX_READINGS: usize = 678;

/// The last stamp of a reading, that of 2099-12-31T23:59:59.999Z.
pub const LAST_STAMP: u64 = 3_155_759_999_999;

/// The largest movement of a reading, either way.
pub const MAX_MOVEMENT: i32 = 20_000;

/// Settings of a stream, as numbers. A number other than those named is refused as SETTINGS.
///
/// The default, all zero, is bit-packed, no cookie, nothing kept, no bounds; of the last three
/// numbers no other than 0 has a meaning yet. Value length, value capacity and grammar cap are
/// bounds: 0 is none, and a bound n is n + 1. [`Settings`](crate::Settings) are the same in types.
#[repr(C)]
#[derive(Clone, Copy, Debug, PartialEq, Eq, Default)]
pub struct SettingNumbers {
    /// 0 bit-packed, 1 byte-aligned.
    pub alignment: u32,
    /// 1 where the stream begins with the cookie `$EXI`, 0 where it does not.
    pub cookie: u32,
    /// 1 where comments are kept, 0 where they are dropped.
    pub comments: u32,
    /// 1 where processing instructions are kept, 0 where they are dropped.
    pub instructions: u32,
    /// 1 for a fragment, with elements in any number; 0 for a document, with one root.
    pub fragment: u32,
    /// n + 1, no value of more than n code points joins the tables; 0, values of any length do.
    pub value_length: u32,
    /// n + 1, n at most 2,048: at most n values are in the tables, and the oldest are replaced; 0,
    /// none is.
    pub value_capacity: u32,
    /// 0, the reader takes strict forms alone.
    pub loose: u32,
    /// 0, prefixes are not kept.
    pub prefixes: u32,
    /// 0, element grammars are not capped.
    pub grammar_cap: u32,
}

/// The reader's answer.
#[repr(C)]
#[must_use]
#[derive(Clone, Copy, Debug, PartialEq, Eq, Default)]
pub struct ReadReply {
    /// 0, or the number of a [`Refusal`](crate::Refusal).
    pub number: u32,
    /// The event concerned by a refusal; 0 on success.
    pub index: u32,
    /// Events written.
    pub events: u32,
    /// Code points written to the text store.
    pub code_points: u32,
}

/// A receiver between its calls, as [`start`] answers it: the settings, how many octets were handed
/// over, and where it stands in the stream. What it holds is the library's affair.
///
/// Any record is safe to lend. Where it, or the memory lent with it, does not come back as the call
/// before left it, the answers may be other ones.
#[repr(C)]
#[derive(Clone, Copy)]
pub struct ReceiverRecord {
    words: [MaybeUninit<u64>; RECEIVER_WORDS], // with padding, which has no value
}

impl ReceiverRecord {
    /// Changes the word at a place below [`RECEIVER_WORDS`], to try the library with other records.
    ///
    /// # Panics
    ///
    /// Where there is no such place.
    pub fn set_word(&mut self, place: usize, word: u64) {
        self.words[place] = MaybeUninit::new(word);
    }
}

impl fmt::Debug for ReceiverRecord {
    fn fmt(&self, f: &mut fmt::Formatter<'_>) -> fmt::Result {
        f.debug_struct("ReceiverRecord").finish_non_exhaustive()
    }
}

/// The writer's answer.
#[repr(C)]
#[must_use]
#[derive(Clone, Copy, Debug, PartialEq, Eq, Default)]
pub struct WriteReply {
    /// 0, or the number of a [`Refusal`](crate::Refusal).
    pub number: u32,
    /// The event, or the reading, concerned by a refusal; 0 on success.
    pub index: u32,
    /// Octets written.
    pub octets: u32,
}

/// The answer where readings are taken out of a list or a stream.
#[repr(C)]
#[must_use]
#[derive(Clone, Copy, Debug, PartialEq, Eq, Default)]
pub struct ReadingsReply {
    /// 0, or the number of a [`Refusal`](crate::Refusal).
    pub number: u32,
    /// The reading, or the stream's event, concerned by a refusal; 0 on success.
    pub index: u32,
    /// Readings written.
    pub readings: u32,
}

/// The answer where readings are made into a list.
#[repr(C)]
#[must_use]
#[derive(Clone, Copy, Debug, PartialEq, Eq, Default)]
pub struct ListReply {
    /// 0, or the number of a [`Refusal`](crate::Refusal).
    pub number: u32,
    /// The reading concerned by a refusal; 0 on success.
    pub index: u32,
    /// Events written.
    pub events: u32,
    /// Code points written to the text store.
    pub code_points: u32,
}

/// The sizes to lend, as the library answers them.
#[repr(C)]
#[derive(Clone, Copy, Debug, PartialEq, Eq)]
pub struct Sizes {
    /// [`EVENT_CELLS`].
    pub event_cells: usize,
    /// [`TEXT_CELLS`].
    pub text_cells: usize,
    /// [`STREAM_OCTETS`].
    pub stream_octets: usize,
    /// [`READER_WORK_CELLS`].
    pub reader_work_cells: usize,
    /// [`WRITER_WORK_CELLS`].
    pub writer_work_cells: usize,
    /// [`MAX_READINGS`].
    pub max_readings: usize,
}

/// Reads a stream. Which of several faults is answered stands at [`Refusal`](crate::Refusal).
///
/// The list is the first `9 * reply.events` of `events`, its text store the first
/// `reply.code_points` of `text`. [`Event::from_cells`](crate::Event::from_cells) takes an event
/// out of its cells.
pub fn read(
    s: SettingNumbers,
    stream: &[u8],
    events: &mut [u32],
    text: &mut [u32],
    work: &mut [u32],
) -> ReadReply {
    boundary::read(s, stream, events, text, work)
}

/// Writes the list that is all of `events`, with its strings in all of `text`.
///
/// The stream is the first `reply.octets` of `octets`. Where `events` is no multiple of 9, the rest
/// is one more event, which is SHAPE.
pub fn write(
    s: SettingNumbers,
    octets: &mut [u8],
    events: &[u32],
    text: &[u32],
    work: &mut [u32],
) -> WriteReply {
    boundary::write(s, octets, events, text, work)
}

/// Takes the readings out of the list that is all of `events`, with its strings in all of `text`.
///
/// The readings are the first `reply.readings` of `stamps` and `movements`, of which
/// [`MAX_READINGS`] each are to be lent, at least.
pub fn readings_of_list(
    events: &[u32],
    text: &[u32],
    stamps: &mut [u64],
    movements: &mut [i32],
) -> ReadingsReply {
    boundary::readings_of_list(events, text, stamps, movements)
}

/// Makes the list of readings, as many as both `stamps` and `movements` have.
///
/// The list is the first `9 * reply.events` of `events`, its text store the first
/// `reply.code_points` of `text`, as the reader leaves it for the stream that is written of it
/// where values have no bounds.
pub fn list_of_readings(
    stamps: &[u64],
    movements: &[i32],
    events: &mut [u32],
    text: &mut [u32],
) -> ListReply {
    boundary::list_of_readings(stamps, movements, events, text)
}

/// Reads a stream, and takes the readings out of its list.
///
/// Lent are [`MAX_READINGS`] of `stamps` and `movements`, at least, and `events`, `text` and `work`
/// as to [`read`]; the list is left in `events` and `text` as that leaves it. ROOM of any part
/// comes first, then what the reader refuses, its index counting events, then what is refused of
/// the readings.
pub fn read_readings(
    s: SettingNumbers,
    stream: &[u8],
    stamps: &mut [u64],
    movements: &mut [i32],
    events: &mut [u32],
    text: &mut [u32],
    work: &mut [u32],
) -> ReadingsReply {
    boundary::read_readings(s, stream, stamps, movements, events, text, work)
}

/// Makes the list of readings, as many as both `stamps` and `movements` have, and writes it.
///
/// Lent are `events` and `text` as to [`list_of_readings`], where the list is left as by that, and
/// `octets` and `work` as to [`write`]. ROOM of any part comes first, then what is refused of the
/// readings, the index counting these, then what the writer refuses: SETTINGS, LONG, and under
/// bounds of values LIMIT, its index counting events. That index is always above [`MAX_READINGS`],
/// and a reading's never: event `i` is one of reading `(i - 2) / 4`.
pub fn write_readings(
    s: SettingNumbers,
    octets: &mut [u8],
    stamps: &[u64],
    movements: &[i32],
    events: &mut [u32],
    text: &mut [u32],
    work: &mut [u32],
) -> WriteReply {
    boundary::write_readings(s, octets, stamps, movements, events, text, work)
}

/// Starts a receiver for one stream: a record to lend to [`feed`] and [`close`]. Settings without a
/// meaning are refused by these.
#[must_use]
pub fn start(s: SettingNumbers) -> ReceiverRecord {
    boundary::start(s)
}

/// Hands over the next piece of the stream, of any length, and shows the events that are complete.
///
/// Lent are [`HELD_OCTETS`] of `held`, at least, and `events`, `text` and `work` as to [`read`];
/// the same to each call of one receiver, as the call before left them. Before the first call they
/// may hold anything. Number 0 says that the stream goes on: the events so far are the first
/// `9 * reply.events` of `events`, their text store the first `reply.code_points` of `text`, and
/// cells past both are zero. `held` and `work` are then the receiver's.
///
/// A piece is refused once the octets so far, read whole, are refused otherwise than as ENDED. The
/// refusal stays; but past 16,384 octets, those of refused pieces counted, it is LONG, unless it is
/// ROOM or SETTINGS. From a refusal on each call leaves all that is lent zero. After [`close`] its
/// answer is repeated.
pub fn feed(
    receiver: &mut ReceiverRecord,
    piece: &[u8],
    held: &mut [u8],
    events: &mut [u32],
    text: &mut [u32],
    work: &mut [u32],
) -> ReadReply {
    boundary::feed(receiver, piece, held, events, text, work)
}

/// Says that the stream has ended: the answer, and what is left in `events`, `text` and `work`, is
/// that of [`read`] for all pieces put together, however they were cut. `held` is zero, too.
///
/// Calls after this one repeat the answer, whatever they are given; they leave what is lent as it
/// is, or zero where the answer is a refusal.
pub fn close(
    receiver: &mut ReceiverRecord,
    held: &mut [u8],
    events: &mut [u32],
    text: &mut [u32],
    work: &mut [u32],
) -> ReadReply {
    boundary::close(receiver, held, events, text, work)
}

/// Asks the library for the sizes. They are this module's constants.
#[must_use]
pub fn sizes() -> Sizes {
    boundary::sizes()
}

/// Asks the library for a refusal's name, in ASCII padded with zeros; all zeros for a number that
/// is not 1 to 19. [`Refusal::name`](crate::Refusal::name) is the same as a string.
#[must_use]
pub fn refusal_name(number: u32) -> [u8; 16] {
    boundary::refusal_name(number)
}
