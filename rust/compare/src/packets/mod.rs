//! Streams in pieces: receivers of either implementation, and their calls.

pub mod check;
pub mod cut;
mod memory;

pub use memory::{PacketMemory, PacketSizes};

use crate::lent::{
    library_settings, ordinary_settings, sizes, Codec, ReadReply, ReaderPart, Settings,
};

/// A call of a receiver.
#[derive(Clone, Debug, Default, PartialEq, Eq)]
pub struct Call {
    /// Other memory is lent than before.
    pub fresh: bool,
    /// A part that is lent one less than its stated size.
    pub short: Option<ReaderPart>,
    /// The piece that is handed over; none in the closing call.
    pub piece: Option<Vec<u8>>,
}

impl Call {
    pub fn feed(piece: &[u8]) -> Call {
        Call {
            piece: Some(piece.to_vec()),
            ..Call::default()
        }
    }

    pub fn close() -> Call {
        Call::default()
    }
}

/// A receiver of one implementation.
#[derive(Clone, Debug)]
pub enum Receiver {
    Library(Box<plumethrift::lent::ReceiverRecord>),
    Ordinary(ordinary::Receiver),
}

impl Receiver {
    pub fn start(codec: Codec, settings: Settings) -> Receiver {
        match codec {
            Codec::Library => {
                let s = library_settings(settings);
                Receiver::Library(Box::new(plumethrift::lent::start(s)))
            }
            Codec::Ordinary => {
                let s = ordinary_settings(settings);
                Receiver::Ordinary(ordinary::Receiver::start(s))
            }
        }
    }

    /// Hands over a piece, or closes where there is none.
    pub fn call(
        &mut self,
        piece: Option<&[u8]>,
        held: &mut [u8],
        events: &mut [u32],
        text: &mut [u32],
        work: &mut [u32],
    ) -> ReadReply {
        match self {
            Receiver::Library(record) => {
                let r = match piece {
                    Some(piece) => plumethrift::lent::feed(record, piece, held, events, text, work),
                    None => plumethrift::lent::close(record, held, events, text, work),
                };
                ReadReply {
                    number: r.number,
                    index: r.index,
                    events: r.events,
                    code_points: r.code_points,
                }
            }
            Receiver::Ordinary(receiver) => {
                let lent = ordinary::Lent {
                    held,
                    events,
                    text,
                    work,
                    least_work: sizes().reader_work_cells,
                };
                let r = match piece {
                    Some(piece) => receiver.feed(piece, lent),
                    None => receiver.close(lent),
                };
                ReadReply {
                    number: r.number,
                    index: r.index,
                    events: r.events,
                    code_points: r.code_points,
                }
            }
        }
    }
}
