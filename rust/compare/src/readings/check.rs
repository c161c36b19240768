//! Requests about readings put to both implementations, and what has to hold of their answers.

use super::{ListMemory, ListSizes, Reading, ReadingsMemory, ReadingsReply, ReadingsSizes};
use crate::event::{stored_strings, Stored, CELLS};
use crate::lent::{
    Codec, ReadReply, ReaderMemory, ReaderSizes, Settings, WriteReply, WriterMemory, WriterSizes,
    BOTH, ROOM,
};
use crate::protocol::Request;

/// The library and the ordinary implementation side by side. An error is what differs, after the
/// request line.
pub struct ReadingsComparison {
    readings: [ReadingsMemory; 2],
    lists: [ListMemory; 2],
    readers: [ReaderMemory; 2],
    writers: [WriterMemory; 2],
    /// How many requests were put to both.
    pub requests: usize,
}

impl Default for ReadingsComparison {
    fn default() -> ReadingsComparison {
        ReadingsComparison::new()
    }
}

impl ReadingsComparison {
    pub fn new() -> ReadingsComparison {
        ReadingsComparison {
            readings: Default::default(),
            lists: Default::default(),
            readers: Default::default(),
            writers: Default::default(),
            requests: 0,
        }
    }

    /// Takes readings out of a list with both: same reply, same memory, and memory as it has to be.
    pub fn of_list(
        &mut self,
        list: &Stored,
        sizes: ReadingsSizes,
    ) -> Result<ReadingsReply, String> {
        self.requests += 1;
        let take = |memory: &mut ReadingsMemory, codec: Codec| {
            memory.lend(sizes, |stamps, movements| {
                codec.readings_of_list(&list.cells, &list.store, stamps, movements)
            })
        };
        let [library, other] = &mut self.readings;
        let replies = [take(library, BOTH[0]), take(other, BOTH[1])];
        let fault = library.fault(&replies[0]);
        let is_same = library == other;
        judge(fault, is_same, replies, |r| (r.number, r.index)).map_err(|problem| {
            // A request line does not tell apart all stored events that are none.
            let mut events = list.cells.chunks(CELLS);
            let cells = if events.all(|event| stored_strings(event).is_some()) {
                String::new()
            } else {
                format!("cells: {:?}\n", list.cells)
            };
            format!(
                "{}\nlent: {sizes:?}\n{cells}{problem}",
                Request::readings(list)
            )
        })
    }

    /// Makes the list of readings with both: same reply, same memory, and memory as it has to be.
    pub fn to_list(&mut self, readings: &[Reading], sizes: ListSizes) -> Result<ReadReply, String> {
        self.requests += 1;
        let (stamps, movements): (Vec<u64>, Vec<i32>) = readings.iter().copied().unzip();
        let lay = |memory: &mut ListMemory, codec: Codec| {
            memory.lend(sizes, |events, text| {
                codec.list_of_readings(&stamps, &movements, events, text)
            })
        };
        let [library, other] = &mut self.lists;
        let replies = [lay(library, BOTH[0]), lay(other, BOTH[1])];
        let fault = library.fault(&replies[0]);
        let is_same = library == other;
        judge(fault, is_same, replies, |r| (r.number, r.index))
            .map_err(|problem| format!("{}\nlent: {sizes:?}\n{problem}", Request::list(readings)))
    }

    /// The readings that the library took out last.
    pub fn readings_taken(&self, reply: &ReadingsReply) -> Option<Vec<Reading>> {
        self.readings[0].readings(reply)
    }

    /// The list that the library made last.
    pub fn list_made(&self, reply: &ReadReply) -> Option<Stored> {
        Some(Stored {
            cells: self.lists[0].events(reply)?.to_vec(),
            store: self.lists[0].text(reply)?.to_vec(),
        })
    }

    /// Takes readings out; the list of those that are accepted has the same events and texts.
    pub fn of_list_and_back(&mut self, list: &Stored) -> Result<ReadingsReply, String> {
        let reply = self.of_list(list, ReadingsSizes::usual())?;
        if reply.number != 0 {
            return Ok(reply);
        }
        let failed = |what: &str| Err(format!("{}\n{what}", Request::readings(list)));
        let Some(readings) = self.readings_taken(&reply) else {
            return failed("counts beyond the memory");
        };
        let laid = self.to_list(&readings, ListSizes::usual())?;
        let again = self.list_made(&laid).and_then(|list| list.events());
        if laid.number != 0 || again.is_none() || again != list.events() {
            return failed("another list when made again");
        }
        Ok(reply)
    }

    /// Makes a list; the readings of one that is accepted are the same.
    pub fn to_list_and_back(&mut self, readings: &[Reading]) -> Result<ReadReply, String> {
        let reply = self.to_list(readings, ListSizes::usual())?;
        if reply.number != 0 {
            return Ok(reply);
        }
        let failed = |what: &str| Err(format!("{}\n{what}", Request::list(readings)));
        let Some(list) = self.list_made(&reply) else {
            return failed("counts beyond the memory");
        };
        let taken = self.of_list(&list, ReadingsSizes::usual())?;
        if taken.number != 0 || self.readings_taken(&taken).as_deref() != Some(readings) {
            return failed("other readings when taken out again");
        }
        Ok(reply)
    }

    /// Reads the readings of a stream with both: same reply, same memory, and memory as it has to
    /// be, the list as the reader leaves it.
    pub fn from_stream(
        &mut self,
        settings: Settings,
        stream: &[u8],
        sizes: (ReadingsSizes, ReaderSizes),
    ) -> Result<ReadingsReply, String> {
        self.requests += 1;
        let read = |readings: &mut ReadingsMemory, reader: &mut ReaderMemory, codec: Codec| {
            readings.lend(sizes.0, |stamps, movements| {
                reader.read_with(sizes.1, |events, text, work| {
                    codec.read_readings(settings, stream, stamps, movements, events, text, work)
                })
            })
        };
        let ([library, other], [reader, other_reader]) = (&mut self.readings, &mut self.readers);
        let replies = [
            read(library, reader, BOTH[0]),
            read(other, other_reader, BOTH[1]),
        ];
        // The reply has no counts of the list: those that the reader answers.
        let list = read_alone(settings, stream, &replies[0]);
        let fault = library.fault(&replies[0]).or(reader.fault(&list));
        let is_same = library == other && reader == other_reader;
        judge(fault, is_same, replies, |r| (r.number, r.index)).map_err(|problem| {
            let request = Request::read(settings, stream);
            format!("readings of {request}\nlent: {sizes:?}\n{problem}")
        })
    }

    /// Writes the stream of readings with both: same reply, same memory, and memory as it has to
    /// be, the list as it is made.
    pub fn to_stream(
        &mut self,
        settings: Settings,
        readings: &[Reading],
        sizes: (ListSizes, WriterSizes),
    ) -> Result<WriteReply, String> {
        self.requests += 1;
        let (stamps, movements): (Vec<u64>, Vec<i32>) = readings.iter().copied().unzip();
        let write = |list: &mut ListMemory, writer: &mut WriterMemory, codec: Codec| {
            list.lend(sizes.0, |events, text| {
                writer.write_with(sizes.1, |octets, work| {
                    codec.write_readings(settings, octets, &stamps, &movements, events, text, work)
                })
            })
        };
        let ([library, other], [writer, other_writer]) = (&mut self.lists, &mut self.writers);
        let replies = [
            write(library, writer, BOTH[0]),
            write(other, other_writer, BOTH[1]),
        ];
        let list = made_alone(&stamps, &movements, &replies[0]);
        let fault = writer.fault(&replies[0]).or(library.fault(&list));
        let is_same = library == other && writer == other_writer;
        judge(fault, is_same, replies, |r| (r.number, r.index)).map_err(|problem| {
            let request = Request::list(readings);
            format!("{settings:?}, stream of {request}\nlent: {sizes:?}\n{problem}")
        })
    }

    /// The octets that the library wrote last.
    pub fn octets_written(&self, reply: &WriteReply) -> Option<&[u8]> {
        self.writers[0].octets(reply)
    }

    /// Writes the stream of readings. It is that of their list; what is accepted is read again,
    /// with the same readings.
    pub fn to_stream_and_back(
        &mut self,
        settings: Settings,
        readings: &[Reading],
    ) -> Result<WriteReply, String> {
        let sizes = (ListSizes::usual(), WriterSizes::usual());
        let reply = self.to_stream(settings, readings, sizes)?;
        let octets = self.octets_written(&reply).map(<[u8]>::to_vec);
        let failed = |what: &str| {
            let request = Request::list(readings);
            Err(format!("{settings:?}, stream of {request}\n{what}"))
        };
        let Some(octets) = octets else {
            return failed("counts beyond the memory");
        };
        let laid = self.to_list(readings, ListSizes::usual())?;
        let Some(list) = self.list_made(&laid) else {
            return failed("counts beyond the memory");
        };
        let alone = if laid.number == 0 {
            let mut writer = WriterMemory::new();
            let alone = writer.write(Codec::Library, settings, &list.cells, &list.store);
            (
                alone.number,
                alone.index,
                writer.octets(&alone).map(<[u8]>::to_vec),
            )
        } else {
            (laid.number, laid.index, Some(Vec::new()))
        };
        if alone != (reply.number, reply.index, Some(octets.clone())) {
            return failed("another answer than for the list");
        }
        if reply.number == 0 {
            let sizes = (ReadingsSizes::usual(), ReaderSizes::usual());
            let read = self.from_stream(settings, &octets, sizes)?;
            if read.number != 0 || self.readings_taken(&read).as_deref() != Some(readings) {
                return failed("other readings when read again");
            }
        }
        Ok(reply)
    }
}

/// What the reader of the library counts of a stream, if readings were taken out of it; else
/// nothing, with this refusal.
fn read_alone(settings: Settings, stream: &[u8], reply: &ReadingsReply) -> ReadReply {
    if reply.number == 0 {
        return ReaderMemory::new().read(Codec::Library, settings, stream);
    }
    ReadReply {
        number: reply.number,
        index: reply.index,
        events: 0,
        code_points: 0,
    }
}

/// What the library counts of the list of readings, if their stream was written; else nothing, with
/// this refusal.
fn made_alone(stamps: &[u64], movements: &[i32], reply: &WriteReply) -> ReadReply {
    if reply.number == 0 {
        return ListMemory::new().of_readings(Codec::Library, stamps, movements);
    }
    ReadReply {
        number: reply.number,
        index: reply.index,
        events: 0,
        code_points: 0,
    }
}

/// The library's reply, if it and memory are as they have to be.
fn judge<R: Copy + PartialEq + std::fmt::Debug>(
    fault: Option<&'static str>,
    is_same_memory: bool,
    replies: [R; 2],
    number_and_index: fn(&R) -> (u32, u32),
) -> Result<R, String> {
    let [library, ordinary] = replies;
    let (number, index) = number_and_index(&library);
    let problem = if let Some(fault) = fault {
        fault
    } else if library != ordinary {
        "replies differ"
    } else if !is_same_memory {
        "memory differs"
    } else if (number == 0 || number == ROOM) && index != 0 {
        "an index where there is none"
    } else {
        return Ok(library);
    };
    Err(format!(
        "{problem}\nlibrary: {library:?}\nordinary: {ordinary:?}"
    ))
}
