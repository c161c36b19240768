//! Streams in pieces, put to both implementations, and judged by the ordinary reader on the octets
//! so far.

use super::{Call, PacketMemory, Receiver};
use crate::event::CELLS;
use crate::lent::{Codec, ReadReply, ReaderSizes, Settings, BOTH, ENDED, LONG, ROOM, SETTINGS};
use crate::prng::Prng;
use crate::protocol::Request;
use crate::sizes::MAX_STREAM;

/// The receivers side by side, and what they are judged by. An error is what differs, after the
/// request line.
pub struct PacketComparison {
    memories: [PacketMemory; 2],
    whole: Cells,
    so_far: Cells,
    /// How many calls were put to all.
    pub calls: usize,
}

impl Default for PacketComparison {
    fn default() -> PacketComparison {
        PacketComparison::new()
    }
}

/// What the ordinary implementation is lent to judge by; its own tests look at all of it.
struct Cells {
    held: Vec<u8>,
    events: Vec<u32>,
    text: Vec<u32>,
    work: Vec<u32>,
}

impl Cells {
    fn new() -> Cells {
        let sizes = ReaderSizes::stated();
        Cells {
            held: vec![0; MAX_STREAM],
            events: vec![0; sizes.events],
            text: vec![0; sizes.text],
            work: vec![0; sizes.work],
        }
    }

    /// The reader, on all octets.
    fn read(&mut self, settings: Settings, octets: &[u8]) -> ReadReply {
        let Cells {
            events, text, work, ..
        } = self;
        Codec::Ordinary.read(settings, octets, events, text, work)
    }

    /// A receiver, on all octets as its first piece.
    fn receive(&mut self, settings: Settings, octets: &[u8]) -> ReadReply {
        let Cells {
            held,
            events,
            text,
            work,
        } = self;
        let mut receiver = Receiver::start(Codec::Ordinary, settings);
        receiver.call(Some(octets), held, events, text, work)
    }

    fn shown(&self, reply: &ReadReply) -> (&[u32], &[u32]) {
        let cells = reply.events as usize * CELLS;
        (
            &self.events[..cells],
            &self.text[..reply.code_points as usize],
        )
    }
}

/// What the octets so far come to.
struct Expected {
    settings: Settings,
    octets: Vec<u8>,
    /// The answer of a refusal, or of the close.
    kept: Option<ReadReply>,
    is_closed: bool,
}

const fn refused(number: u32) -> ReadReply {
    ReadReply {
        number,
        index: 0,
        events: 0,
        code_points: 0,
    }
}

impl PacketComparison {
    pub fn new() -> PacketComparison {
        PacketComparison {
            memories: BOTH.map(|_| PacketMemory::new()),
            whole: Cells::new(),
            so_far: Cells::new(),
            calls: 0,
        }
    }

    /// All calls, each judged. Answers the last reply.
    pub fn run(&mut self, settings: Settings, calls: &[Call]) -> Result<ReadReply, String> {
        let receivers = BOTH.map(|codec| Some(Receiver::start(codec, settings)));
        self.run_with(receivers, settings, calls, 1)
    }

    /// All calls of the library alone; of those that go on every so many are judged, and the memory
    /// after each.
    pub fn run_some(
        &mut self,
        settings: Settings,
        calls: &[Call],
        every: usize,
    ) -> Result<ReadReply, String> {
        let library = Receiver::start(Codec::Library, settings);
        self.run_with([Some(library), None], settings, calls, every)
    }

    fn run_with(
        &mut self,
        mut receivers: [Option<Receiver>; 2],
        settings: Settings,
        calls: &[Call],
        every: usize,
    ) -> Result<ReadReply, String> {
        let mut expected = Expected {
            settings,
            octets: Vec::new(),
            kept: None,
            is_closed: false,
        };
        self.memories.iter_mut().for_each(PacketMemory::start);
        let mut last = refused(ENDED);
        for (k, call) in calls.iter().enumerate() {
            let judged = k % every == 0 || k + 4 > calls.len() || call.piece.is_none();
            let failed = |what: String| {
                let request = Request::packets(settings, calls);
                Err(format!("{request}\ncall {k}: {what}"))
            };
            match self.call(&mut expected, &mut receivers, call, judged) {
                Ok(Some(reply)) => last = reply,
                Ok(None) => {}
                Err(what) => return failed(what),
            }
        }
        Ok(last)
    }

    fn call(
        &mut self,
        expected: &mut Expected,
        receivers: &mut [Option<Receiver>],
        call: &Call,
        judged: bool,
    ) -> Result<Option<ReadReply>, String> {
        self.calls += 1;
        expected.take(call);
        let due = if judged {
            Some(self.due(expected, call)?)
        } else {
            None
        };
        let so_far = &self.so_far;
        for ((receiver, memory), codec) in receivers.iter_mut().zip(&mut self.memories).zip(BOTH) {
            let Some(receiver) = receiver else { continue };
            let (reply, fault) = memory.call(receiver, call);
            if let Some(fault) = fault {
                return Err(format!("{codec:?}: {fault}; {reply:?}"));
            }
            let Some(due) = due else { continue };
            if reply != due {
                return Err(format!("{codec:?}: {reply:?}\nand not {due:?}"));
            }
            let goes_on = reply.number == 0 && !expected.is_closed;
            if goes_on && memory.shown() != so_far.shown(&reply) {
                return Err(format!("{codec:?}: other events or text are shown"));
            }
        }
        if call.piece.is_none() {
            expected.is_closed = true;
        }
        Ok(due)
    }

    /// The answer that is due, and what it shows left in `so_far`.
    fn due(&mut self, expected: &mut Expected, call: &Call) -> Result<ReadReply, String> {
        if let Some(kept) = expected.kept {
            if expected.is_closed || call.piece.is_none() {
                return Ok(kept);
            }
        }
        let reply = match expected.kept {
            Some(kept) => kept,
            None if call.short.is_some() => refused(ROOM),
            None => self.defined(expected, call.piece.is_none())?,
        };
        let is_long = expected.octets.len() > MAX_STREAM;
        let reply = if reply.number > SETTINGS && is_long {
            refused(LONG)
        } else {
            reply
        };
        if reply.number != 0 || call.piece.is_none() {
            expected.kept = Some(reply);
        }
        Ok(reply)
    }

    /// What the octets so far, read whole, come to: ENDED is no refusal before the close.
    fn defined(&mut self, expected: &Expected, is_close: bool) -> Result<ReadReply, String> {
        let Expected {
            settings, octets, ..
        } = expected;
        let whole = self.whole.read(*settings, octets);
        let shown = self.so_far.receive(*settings, octets);
        let goes_on = whole.number == 0 || whole.number == ENDED;
        let events = if whole.number == ENDED {
            whole.index
        } else {
            whole.events
        };
        let agrees = if goes_on {
            (shown.number, shown.index, shown.events) == (0, 0, events)
                && (whole.number != 0 || shown == whole)
        } else {
            shown == whole
        };
        if !agrees {
            return Err(format!(
                "the ordinary receiver: {shown:?}, reader: {whole:?}"
            ));
        }
        if whole.number == 0 && self.whole.shown(&whole) != self.so_far.shown(&shown) {
            return Err("the ordinary receiver shows other events than the reader".into());
        }
        Ok(if is_close { whole } else { shown })
    }
}

impl Expected {
    /// Counts the octets of a piece, up to one more than a stream may have.
    fn take(&mut self, call: &Call) {
        if let (Some(piece), false) = (&call.piece, self.is_closed) {
            let left = (MAX_STREAM + 1).saturating_sub(self.octets.len());
            self.octets.extend(&piece[..piece.len().min(left)]);
        }
    }
}

/// The library's receiver, with its record and the lent memory changed at random between calls:
/// every call has to return, and nothing may be touched that was not lent.
pub fn run_changed(
    rng: &mut Prng,
    memory: &mut PacketMemory,
    settings: Settings,
    calls: &[Call],
) -> Result<(), String> {
    let mut receiver = Receiver::start(Codec::Library, settings);
    memory.start();
    for call in calls {
        memory.call(&mut receiver, call);
        if !memory.rest_is_kept() {
            let request = Request::packets(settings, calls);
            return Err(format!("{request}\na cell changed that was not lent"));
        }
        if let (Receiver::Library(record), true) = (&mut receiver, rng.one_in(2)) {
            let word = u64::from(number(rng)) << 32 | u64::from(number(rng));
            record.set_word(rng.below(plumethrift::lent::RECEIVER_WORDS), word);
        }
        for _ in 0..rng.below(4) {
            let (part, place) = (rng.below(4), rng.below(40_000));
            memory.change(part, place, number(rng));
        }
    }
    Ok(())
}

/// A number as counts, places and positions are, or any.
fn number(rng: &mut Prng) -> u32 {
    match rng.below(6) {
        0 => 0,
        1 => rng.below(8) as u32,
        2 => rng.below(200) as u32,
        3 => rng.below(140_000) as u32,
        4 => u32::MAX - rng.below(3) as u32,
        _ => rng.number() as u32,
    }
}
