//! Safe Rust over Plumethrift: a proved reader and writer of schema-less EXI 1.0 (W3C Efficient XML
//! Interchange, Second Edition).
//!
//! The reader turns the octets of a stream into a list of events, the writer a list of events into
//! octets. The reader accepts exactly the strict forms of well-formed lists inside fixed sizes:
//! each accepted stream has one list, each such list one stream. Anything else is [`Refused`], with
//! a number and the index of the event concerned. Any octets are safe to read.
//!
//! # Reading
//!
//! A [`Reader`] owns its memory and uses it again for each stream; the [`Document`] that it answers
//! borrows from it.
//!
//! ```
//! use plumethrift::{Alignment, Event, Reader, Settings};
//!
//! // <a k="x"/>, byte-aligned
//! let stream = [0x80, 0x01, 0x02, 0x61, 0x01, 0x01, 0x02, 0x6B, 0x03, 0x78, 0x01, 0x00];
//! let settings = Settings { alignment: Alignment::ByteAligned, ..Settings::default() };
//!
//! let mut reader = Reader::new();
//! for event in reader.read(&settings, &stream)?.events() {
//!     match event {
//!         Event::StartElement { name, .. } => assert_eq!(name, "a"),
//!         Event::Attribute { name, value, .. } => println!("{name} is {value}"),
//!         _ => {}
//!     }
//! }
//! # Ok::<(), plumethrift::Refused>(())
//! ```
//!
//! # Writing
//!
//! An [`EventList`] is built event by event; a [`Writer`] owns the octets that it answers.
//!
//! ```
//! use plumethrift::{EventList, Settings, Writer};
//!
//! let mut list = EventList::new();
//! list.start_document()
//!     .start_element("", "a")
//!     .characters("b")
//!     .end_element()
//!     .end_document();
//!
//! let mut writer = Writer::new();
//! let stream = writer.write(&Settings::default(), &list)?; // <a>b</a>, bit-packed
//! assert_eq!(stream, [0x80, 0x40, 0x98, 0x70, 0x36, 0x20]);
//! # Ok::<(), plumethrift::Refused>(())
//! ```
//!
//! # Readings
//!
//! [`Readings`] are stamps in whole milliseconds and movements in micrometres, as trackers of
//! bridge movements send them: out of a stream by [`Reader::read_readings`], into one by
//! [`Writer::write_readings`], and from and to lists of events.
//!
//! ```
//! use plumethrift::{Reader, Readings, Settings, Writer};
//!
//! let mut readings = Readings::new();
//! readings.push(825_638_400_000, 3_700); // 2026-03-01T00:00:00.000Z, 3.7 mm
//!
//! let (mut reader, mut writer) = (Reader::new(), Writer::new());
//! let stream = writer.write_readings(&Settings::default(), &readings)?;
//! for reading in reader.read_readings(&Settings::default(), stream)?.iter() {
//!     println!("{} ms: {} µm", reading.milliseconds, reading.micrometres);
//! }
//! # Ok::<(), plumethrift::Refused>(())
//! ```
//!
//! # In packets
//!
//! A [`Receiver`] takes a stream in pieces, and tells after each which events are complete.
//!
//! ```
//! use plumethrift::{Receiver, Settings};
//!
//! let mut receiver = Receiver::new(&Settings::default());
//! for packet in [&[0x80, 0x40][..], &[0x98], &[0x40]] { // <a/>
//!     for event in receiver.feed(packet)?.new_events() {
//!         println!("{event:?}");
//!     }
//! }
//! assert_eq!(receiver.close()?.len(), 4);
//! # Ok::<(), plumethrift::Refused>(())
//! ```
//!
//! # Memory of one's own
//!
//! Module [`lent`] has the calls as they cross the boundary: over slices that the caller lends,
//! with settings and answers as numbers. Nothing is allocated there. Without the feature `std`,
//! which is a default, the crate does without the standard library, and has `lent`, [`Event`],
//! [`Text`], [`Settings`], [`Alignment`], [`Refusal`] and [`Refused`] alone.
//!
//! # What is proved, and what is trusted
//!
//! The library behind this crate is proved against the definitions of the format for every input:
//! which answer is given, and what each lent cell holds after it. This crate is ordinary Rust
//! around that library, and is tested, not proved. Its declarations of the library's functions and
//! structs (the private module `boundary`, which has all the `unsafe` there is) are not checked
//! against the library's source; the tests here and the comparison with an ordinary implementation,
//! in `rust/compare`, exercise them. What one has to trust beside the proofs is those declarations,
//! the compilers, and that the archive which is linked is the one that was proved.
//!
//! Where an answer breaks what is proved of it (a refusal's number above 19, a kind of event that
//! does not exist), this crate panics. The proved library gives no such answer.

#![cfg_attr(not(feature = "std"), no_std)]
#![deny(unsafe_code)]
#![deny(missing_docs)]

#[allow(unsafe_code)]
mod boundary;
#[cfg(feature = "std")]
mod document;
mod event;
pub mod lent;
#[cfg(feature = "std")]
mod list;
#[cfg(feature = "std")]
mod reader;
#[cfg(feature = "std")]
mod readings;
#[cfg(feature = "std")]
mod receiver;
mod refusal;
mod settings;
mod text;
#[cfg(feature = "std")]
mod writer;

#[cfg(feature = "std")]
pub use document::{Document, Events};
pub use event::Event;
#[cfg(feature = "std")]
pub use list::EventList;
#[cfg(feature = "std")]
pub use reader::Reader;
#[cfg(feature = "std")]
pub use readings::{Reading, Readings, ReadingsIter};
#[cfg(feature = "std")]
pub use receiver::{Progress, Receiver};
pub use refusal::{Refusal, Refused, Unknown};
pub use settings::{Alignment, Settings};
pub use text::Text;
#[cfg(feature = "std")]
pub use writer::Writer;

/// The programs of README and of pages of docs/.
#[cfg(doctest)]
#[doc = include_str!("../../../README.md")]
#[doc = include_str!("../../../docs/READINGS.md")]
#[doc = include_str!("../../../docs/PACKETS.md")]
pub struct Documents;
