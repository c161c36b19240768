use crate::reader::{read_so_far, Complete};
use crate::refusal::Refusal;
use crate::settings::Settings;
use crate::sizes::{CELLS_PER_EVENT, MAX_EVENTS, MAX_STORE, MAX_STREAM};
use crate::{checked, read, show, Failure, ReadReply};

/// A stream that is handed over in pieces, by the simplest definition: after each piece the octets
/// so far are read whole. Octets that end are no refusal before the close.
///
/// It keeps the octets itself; the memory that each call lends for them it only judges and clears.
#[derive(Clone, Debug)]
pub struct Receiver {
    settings: Settings,
    /// The octets handed over, up to one more than a stream may have.
    octets: Vec<u8>,
    phase: Phase,
}

#[derive(Clone, Copy, Debug)]
enum Phase {
    GoingOn,
    Refused(ReadReply),
    Closed(ReadReply),
}

/// What is lent to each call of a [`Receiver`], and how much work memory it has to be.
pub struct Lent<'a> {
    /// For the octets of the stream so far.
    pub held: &'a mut [u8],
    pub events: &'a mut [u32],
    pub text: &'a mut [u32],
    pub work: &'a mut [u32],
    pub least_work: usize,
}

impl Receiver {
    pub fn start(settings: Settings) -> Receiver {
        Receiver {
            settings,
            octets: Vec::new(),
            phase: Phase::GoingOn,
        }
    }

    /// Takes the next piece of the stream, which may be empty.
    ///
    /// Shows the events that are complete and their store, zeros past both. From a refusal on all
    /// that is lent is zero.
    pub fn feed(&mut self, piece: &[u8], mut lent: Lent<'_>) -> ReadReply {
        if let Phase::Closed(reply) = self.phase {
            return lent.repeated(reply);
        }
        let room = (MAX_STREAM + 1).saturating_sub(self.octets.len());
        self.octets
            .extend_from_slice(&piece[..piece.len().min(room)]);
        let reply = match self.phase {
            Phase::Refused(reply) => reply,
            _ => match lent.read_so_far(self.settings, &self.octets) {
                Ok(complete) => {
                    lent.clear_work();
                    return show(complete, lent.events, lent.text);
                }
                Err(failure) => ReadReply::refused(failure),
            },
        };
        let reply = self.longer(reply);
        self.phase = Phase::Refused(reply);
        lent.repeated(reply)
    }

    /// Says that the stream has ended. Calls after this one repeat its answer.
    pub fn close(&mut self, mut lent: Lent<'_>) -> ReadReply {
        let reply = match self.phase {
            Phase::Closed(reply) | Phase::Refused(reply) => lent.repeated(reply),
            Phase::GoingOn => lent.read(self.settings, &self.octets),
        };
        self.phase = Phase::Closed(reply);
        reply
    }

    /// A refusal becomes LONG once the stream is, unless it is ROOM or SETTINGS.
    fn longer(&self, reply: ReadReply) -> ReadReply {
        let stays = [Refusal::Room.number(), Refusal::Settings.number()];
        if self.octets.len() > MAX_STREAM && !stays.contains(&reply.number) {
            return ReadReply::refused((Refusal::Long, 0));
        }
        reply
    }
}

impl Lent<'_> {
    fn has_room(&self) -> bool {
        self.held.len() >= MAX_STREAM
            && self.events.len() >= MAX_EVENTS * CELLS_PER_EVENT
            && self.text.len() >= MAX_STORE
            && self.work.len() >= self.least_work
    }

    fn read_so_far(&mut self, settings: Settings, octets: &[u8]) -> Result<Complete, Failure> {
        let options = checked(self.has_room(), settings)?;
        read_so_far(options, octets, self.events, self.text)
    }

    /// The whole reader's answer, and what it leaves.
    fn read(&mut self, settings: Settings, octets: &[u8]) -> ReadReply {
        if !self.has_room() {
            return self.repeated(ReadReply::refused((Refusal::Room, 0)));
        }
        self.held.fill(0);
        let (events, text) = (&mut *self.events, &mut *self.text);
        read(settings, octets, events, text, self.work, self.least_work)
    }

    /// A known answer once more; after a refusal all that is lent is cleared.
    fn repeated(&mut self, reply: ReadReply) -> ReadReply {
        if reply.number != 0 {
            self.events.fill(0);
            self.text.fill(0);
            self.clear_work();
        }
        reply
    }

    fn clear_work(&mut self) {
        self.held.fill(0);
        self.work.fill(0);
    }
}
