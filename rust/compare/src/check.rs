//! Requests put to both implementations, and what has to hold of their answers.

use crate::encode::encode;
use crate::event::{events, stored_strings, Event, Stored, CELLS};
use crate::lent::{
    Codec, ReadReply, ReaderMemory, ReaderSizes, Settings, WriteReply, WriterMemory, WriterSizes,
    BOTH,
};
use crate::protocol::Request;

/// The library and the ordinary implementation side by side. An error is what differs, after the
/// request line.
pub struct Comparison {
    readers: [ReaderMemory; 2],
    writers: [WriterMemory; 2],
    /// How many requests were put to both.
    pub requests: usize,
}

impl Default for Comparison {
    fn default() -> Comparison {
        Comparison::new()
    }
}

impl Comparison {
    pub fn new() -> Comparison {
        Comparison {
            readers: [ReaderMemory::new(), ReaderMemory::new()],
            writers: [WriterMemory::new(), WriterMemory::new()],
            requests: 0,
        }
    }

    /// Reads with both: same reply, same memory, and memory as it has to be.
    pub fn read(
        &mut self,
        settings: Settings,
        stream: &[u8],
        sizes: ReaderSizes,
    ) -> Result<ReadReply, String> {
        self.requests += 1;
        let [library, other] = &mut self.readers;
        let reply = library.read_with(sizes, |events, text, work| {
            Codec::Library.read(settings, stream, events, text, work)
        });
        let other_reply = other.read_with(sizes, |events, text, work| {
            Codec::Ordinary.read(settings, stream, events, text, work)
        });
        let problem = if let Some(fault) = library.fault(&reply) {
            fault
        } else if reply != other_reply {
            "replies differ"
        } else if library != other {
            "memory differs"
        } else if reply.number == 0 && reply.index != 0 {
            "an index after success"
        } else {
            return Ok(reply);
        };
        Err(format!(
            "{}\nlent: {sizes:?}\n{problem}\nlibrary: {reply:?}\nordinary: {other_reply:?}",
            Request::read(settings, stream)
        ))
    }

    /// Writes with both: same reply, same memory, and memory as it has to be.
    pub fn write(
        &mut self,
        settings: Settings,
        list: &Stored,
        sizes: WriterSizes,
    ) -> Result<WriteReply, String> {
        self.requests += 1;
        let [library, other] = &mut self.writers;
        let reply = library.write_with(sizes, |octets, work| {
            Codec::Library.write(settings, octets, &list.cells, &list.store, work)
        });
        let other_reply = other.write_with(sizes, |octets, work| {
            Codec::Ordinary.write(settings, octets, &list.cells, &list.store, work)
        });
        let problem = if let Some(fault) = library.fault(&reply) {
            fault
        } else if reply != other_reply {
            "replies differ"
        } else if library != other {
            "memory differs"
        } else if reply.number == 0 && reply.index != 0 {
            "an index after success"
        } else {
            return Ok(reply);
        };
        // A request line does not tell apart all stored events that are none.
        let well_stored = list
            .cells
            .chunks(CELLS)
            .all(|e| stored_strings(e).is_some());
        let cells = if well_stored {
            String::new()
        } else {
            format!("cells: {:?}\n", list.cells)
        };
        Err(format!(
            "{}\nlent: {sizes:?}\n{cells}{problem}\nlibrary: {reply:?}\nordinary: {other_reply:?}",
            Request::write(settings, list)
        ))
    }

    /// The list that the library read last.
    pub fn list_read(&self, reply: &ReadReply) -> Option<Stored> {
        Some(Stored {
            cells: self.readers[0].events(reply)?.to_vec(),
            store: self.readers[0].text(reply)?.to_vec(),
        })
    }

    /// The octets that the library wrote last.
    pub fn octets_written(&self, reply: &WriteReply) -> Option<&[u8]> {
        self.writers[0].octets(reply)
    }

    /// Reads; what is accepted is written again, octet for octet.
    pub fn read_and_back(
        &mut self,
        settings: Settings,
        stream: &[u8],
    ) -> Result<ReadReply, String> {
        let reply = self.read(settings, stream, ReaderSizes::usual())?;
        if reply.number != 0 {
            return Ok(reply);
        }
        let failed = |what: &str| format!("{}\n{what}", Request::read(settings, stream));
        let list = self
            .list_read(&reply)
            .ok_or_else(|| failed("counts beyond the memory"))?;
        let written = self.write(settings, &list, WriterSizes::usual())?;
        if written.number != 0 {
            return Err(failed(&format!("read and not written again: {written:?}")));
        }
        if self.octets_written(&written) != Some(stream) {
            return Err(failed("other octets when written again"));
        }
        Ok(reply)
    }

    /// Writes; what is accepted is read again, with the same events and texts.
    pub fn write_and_back(
        &mut self,
        settings: Settings,
        list: &Stored,
    ) -> Result<WriteReply, String> {
        let reply = self.write(settings, list, WriterSizes::usual())?;
        if reply.number != 0 {
            return Ok(reply);
        }
        let failed = |what: &str| format!("{}\n{what}", Request::write(settings, list));
        let octets = self
            .octets_written(&reply)
            .ok_or_else(|| failed("counts beyond the memory"))?
            .to_vec();
        let read = self.read(settings, &octets, ReaderSizes::usual())?;
        if read.number != 0 {
            return Err(failed(&format!("written and not read again: {read:?}")));
        }
        let again = self.list_read(&read).and_then(|list| list.events());
        if again.is_none() || again != list.events() {
            return Err(failed("another list when read again"));
        }
        Ok(reply)
    }
}

/// Both implementations answer this number and index to the stream, and leave the lent memory zero.
pub fn read_is_refused(settings: Settings, stream: &[u8], number: u32, index: u32) {
    for codec in BOTH {
        let mut memory = ReaderMemory::new();
        let reply = memory.read(codec, settings, stream);
        let what = format!("{codec:?}: {}", Request::read(settings, stream));
        assert_eq!((reply.number, reply.index), (number, index), "{what}");
        assert_eq!(memory.fault(&reply), None, "{what}");
    }
}

/// Both implementations answer this number and index to the list, and leave the lent memory zero.
pub fn write_is_refused(settings: Settings, list: &Stored, number: u32, index: u32) {
    for codec in BOTH {
        let mut memory = WriterMemory::new();
        let reply = memory.write(codec, settings, &list.cells, &list.store);
        let what = format!("{codec:?}: {}", Request::write(settings, list));
        assert_eq!((reply.number, reply.index), (number, index), "{what}");
        assert_eq!(memory.fault(&reply), None, "{what}");
    }
}

/// Both implementations read the stream as these events, and write them, laid anew or as they were
/// read, as this stream.
pub fn is_strict_form(settings: Settings, stream: &[u8], list: &[Event]) {
    for codec in BOTH {
        let what = format!("{codec:?}: {}", Request::read(settings, stream));
        let mut memory = ReaderMemory::new();
        let reply = memory.read(codec, settings, stream);
        assert_eq!((reply.number, reply.index), (0, 0), "{what}");
        assert_eq!(memory.fault(&reply), None, "{what}");
        let cells = memory.events(&reply).expect("counted events");
        let store = memory.text(&reply).expect("counted code points");
        assert_eq!(reply.events as usize, list.len(), "{what}");
        assert_eq!(events(cells, store).as_deref(), Some(list), "{what}");
        let mut writer = WriterMemory::new();
        let plain = Stored::plain(list);
        for (cells, store) in [(cells, store), (&plain.cells[..], &plain.store[..])] {
            let reply = writer.write(codec, settings, cells, store);
            assert_eq!((reply.number, reply.index), (0, 0), "{what}");
            assert_eq!(writer.octets(&reply), Some(stream), "{what}");
            assert_eq!(writer.fault(&reply), None, "{what}");
        }
    }
}

/// The list's strict form is read and written by both implementations.
pub fn list_is_accepted(settings: Settings, list: &[Event]) {
    is_strict_form(settings, &encode(settings, list).octets(), list);
}

/// Both implementations refuse the list and its strict form with this number and index.
pub fn list_is_refused(settings: Settings, list: &[Event], number: u32, index: u32) {
    write_is_refused(settings, &Stored::plain(list), number, index);
    read_is_refused(settings, &encode(settings, list).octets(), number, index);
}

/// `80 01 02` and so on as octets.
pub fn hex(digits: &str) -> Vec<u8> {
    digits
        .split_whitespace()
        .map(|two| u8::from_str_radix(two, 16).expect("two hexadecimal digits"))
        .collect()
}
