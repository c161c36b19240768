//! Readings, the lists that they stand for, and calls of either implementation for them.

pub mod check;
pub mod generate;
mod memory;

pub use memory::{ListMemory, ListPart, ListSizes, ReadingsMemory, ReadingsSizes};

use crate::event::{attribute, document, element, Event};
use crate::lent::{
    library_settings, ordinary_settings, sizes, Codec, ReadReply, Settings, WriteReply,
};

/// A stamp in whole milliseconds, and a movement in micrometres.
pub type Reading = (u64, i32);

pub const STRUCTURE: u32 = 16;
pub const BAD_STAMP: u32 = 17;
pub const BAD_MOVEMENT: u32 = 18;
pub const NOT_LATER: u32 = 19;

/// The last stamp, and the largest movement either way, as the request names them.
pub const LAST_STAMP: u64 = 3_155_759_999_999;
pub const MAX_MOVEMENT: i32 = 20_000;

/// The events of a list of readings with these texts of stamps and movements.
pub fn list<T: AsRef<str>, U: AsRef<str>>(children: &[(T, U)]) -> Vec<Event> {
    let mut events = vec![element("", "readings")];
    for (t, um) in children {
        events.push(element("", "r"));
        events.push(attribute("", "t", t.as_ref()));
        events.push(attribute("", "um", um.as_ref()));
        events.push(Event::EndElement);
    }
    events.push(Event::EndElement);
    document(events)
}

#[derive(Clone, Copy, Debug, PartialEq, Eq)]
pub struct ReadingsReply {
    pub number: u32,
    pub index: u32,
    pub readings: u32,
}

impl Codec {
    pub fn readings_of_list(
        self,
        events: &[u32],
        text: &[u32],
        stamps: &mut [u64],
        movements: &mut [i32],
    ) -> ReadingsReply {
        match self {
            Codec::Library => {
                plumethrift::lent::readings_of_list(events, text, stamps, movements).into()
            }
            Codec::Ordinary => ordinary::readings_of_list(events, text, stamps, movements).into(),
        }
    }

    pub fn list_of_readings(
        self,
        stamps: &[u64],
        movements: &[i32],
        events: &mut [u32],
        text: &mut [u32],
    ) -> ReadReply {
        match self {
            Codec::Library => {
                let r = plumethrift::lent::list_of_readings(stamps, movements, events, text);
                ReadReply {
                    number: r.number,
                    index: r.index,
                    events: r.events,
                    code_points: r.code_points,
                }
            }
            Codec::Ordinary => {
                let r = ordinary::list_of_readings(stamps, movements, events, text);
                ReadReply {
                    number: r.number,
                    index: r.index,
                    events: r.events,
                    code_points: r.code_points,
                }
            }
        }
    }

    #[allow(clippy::too_many_arguments)]
    pub fn read_readings(
        self,
        settings: Settings,
        stream: &[u8],
        stamps: &mut [u64],
        movements: &mut [i32],
        events: &mut [u32],
        text: &mut [u32],
        work: &mut [u32],
    ) -> ReadingsReply {
        match self {
            Codec::Library => {
                let s = library_settings(settings);
                use plumethrift::lent::read_readings;
                read_readings(s, stream, stamps, movements, events, text, work).into()
            }
            Codec::Ordinary => {
                let s = ordinary_settings(settings);
                let least = sizes().reader_work_cells;
                use ordinary::read_readings;
                read_readings(s, stream, stamps, movements, events, text, work, least).into()
            }
        }
    }

    #[allow(clippy::too_many_arguments)]
    pub fn write_readings(
        self,
        settings: Settings,
        octets: &mut [u8],
        stamps: &[u64],
        movements: &[i32],
        events: &mut [u32],
        text: &mut [u32],
        work: &mut [u32],
    ) -> WriteReply {
        match self {
            Codec::Library => {
                let s = library_settings(settings);
                use plumethrift::lent::write_readings;
                let r = write_readings(s, octets, stamps, movements, events, text, work);
                WriteReply {
                    number: r.number,
                    index: r.index,
                    octets: r.octets,
                }
            }
            Codec::Ordinary => {
                let s = ordinary_settings(settings);
                let least = sizes().writer_work_cells;
                use ordinary::write_readings;
                let r = write_readings(s, octets, stamps, movements, events, text, work, least);
                WriteReply {
                    number: r.number,
                    index: r.index,
                    octets: r.octets,
                }
            }
        }
    }
}

impl From<plumethrift::lent::ReadingsReply> for ReadingsReply {
    fn from(r: plumethrift::lent::ReadingsReply) -> ReadingsReply {
        ReadingsReply {
            number: r.number,
            index: r.index,
            readings: r.readings,
        }
    }
}

impl From<ordinary::ReadingsReply> for ReadingsReply {
    fn from(r: ordinary::ReadingsReply) -> ReadingsReply {
        ReadingsReply {
            number: r.number,
            index: r.index,
            readings: r.readings,
        }
    }
}
