use std::fmt;

use crate::document::{Document, Events};
use crate::event::{kind, Event};
use crate::lent::CELLS_PER_EVENT;
use crate::text::Text;

/// The pair of a prefix, of which none are kept.
const NO_PREFIX: [u32; 2] = [0, 0];

/// A list of events to be written, in memory of its own.
///
/// A well-formed list is: start document; comments and instructions; one element, balanced;
/// comments and instructions; end document; nothing after. Attributes come before any other event
/// in their element, and no two of one start tag have the same URI and local name. Kinds that the
/// settings drop are not allowed. A [fragment](crate::Settings::fragment) has any number of
/// elements, none too, with comments and instructions before, between and after them.
///
/// Strings have only XML 1.0 Chars. Local names are NCNames of Namespaces in XML 1.0: no colon; of
/// ASCII a letter or `_` first, then also digits, `-` and `.`; beyond ASCII most letters and marks
/// of any script. No attribute is `nil` or `type` in the XMLSchema-instance URI.
/// Targets are NCNames, too, but not `xml` in any case. A comment has no two hyphens in a row and
/// none at its end, the text of an instruction no `?>`. URIs and values are free of this.
///
/// The list takes any events with any strings in any order; it is the
/// [`Writer`](crate::Writer) that judges them, as [`Shape`](crate::Refusal::Shape),
/// [`Name`](crate::Refusal::Name) or [`Character`](crate::Refusal::Character).
///
/// Two lists are the same when their events are.
///
/// ```
/// use plumethrift::{EventList, Reader, Settings, Writer};
///
/// let mut list = EventList::new();
/// list.start_document()
///     .start_element("", "a")
///     .attribute("", "k", "x")
///     .end_element()
///     .end_document();
///
/// let (mut reader, mut writer) = (Reader::new(), Writer::new());
/// let stream = writer.write(&Settings::default(), &list)?;
/// assert_eq!(reader.read(&Settings::default(), stream)?, list);
/// # Ok::<(), plumethrift::Refused>(())
/// ```
///
/// # Panics
///
/// Adding an event panics where the list's strings would have more than 4,294,967,295 code points
/// together.
#[derive(Clone, Default)]
pub struct EventList {
    /// Whole events: only `add` writes here, a copy of a document does, and the proved library.
    cells: Vec<u32>,
    store: Vec<u32>,
}

impl EventList {
    /// A list without events.
    #[must_use]
    pub const fn new() -> Self {
        EventList {
            cells: Vec::new(),
            store: Vec::new(),
        }
    }

    /// The list that the proved library has laid down in these cells and this store.
    pub(crate) fn from_parts(cells: Vec<u32>, store: Vec<u32>) -> Self {
        EventList { cells, store }
    }

    /// Adds a start document.
    pub fn start_document(&mut self) -> &mut Self {
        self.add(kind::START_DOCUMENT, &[])
    }

    /// Adds an end document.
    pub fn end_document(&mut self) -> &mut Self {
        self.add(kind::END_DOCUMENT, &[])
    }

    /// Adds a start element. The URI is empty for a name in no namespace; the name is to be an
    /// NCName.
    pub fn start_element(&mut self, uri: &str, name: &str) -> &mut Self {
        let strings = [uri, name].map(|string| self.lay_str(string));
        self.add(kind::START_ELEMENT, &strings)
    }

    /// Adds an attribute. The URI is empty for a name in no namespace; the name is to be an NCName.
    pub fn attribute(&mut self, uri: &str, name: &str, value: &str) -> &mut Self {
        let [uri, name, value] = [uri, name, value].map(|string| self.lay_str(string));
        self.add(kind::ATTRIBUTE, &[uri, name, NO_PREFIX, value])
    }

    /// Adds an end element.
    pub fn end_element(&mut self) -> &mut Self {
        self.add(kind::END_ELEMENT, &[])
    }

    /// Adds characters.
    pub fn characters(&mut self, text: &str) -> &mut Self {
        let strings = [self.lay_str(text)];
        self.add(kind::CHARACTERS, &strings)
    }

    /// Adds a comment: no two hyphens in a row, none at the end.
    pub fn comment(&mut self, text: &str) -> &mut Self {
        let strings = [self.lay_str(text)];
        self.add(kind::COMMENT, &strings)
    }

    /// Adds a processing instruction: the target an NCName other than `xml` in any case,
    /// no `?>` in the text.
    pub fn instruction(&mut self, target: &str, text: &str) -> &mut Self {
        let strings = [target, text].map(|string| self.lay_str(string));
        self.add(kind::INSTRUCTION, &strings)
    }

    /// Adds an event, as of a document that was read. Its strings are copied.
    pub fn push(&mut self, event: Event<'_>) -> &mut Self {
        let mut lay = |string: Text<'_>| self.lay(string.code_points().iter().copied());
        match event {
            Event::StartDocument => self.add(kind::START_DOCUMENT, &[]),
            Event::EndDocument => self.add(kind::END_DOCUMENT, &[]),
            Event::StartElement { uri, name } => {
                let strings = [uri, name].map(lay);
                self.add(kind::START_ELEMENT, &strings)
            }
            Event::Attribute { uri, name, value } => {
                let [uri, name, value] = [uri, name, value].map(lay);
                self.add(kind::ATTRIBUTE, &[uri, name, NO_PREFIX, value])
            }
            Event::EndElement => self.add(kind::END_ELEMENT, &[]),
            Event::Characters { text } => {
                let strings = [lay(text)];
                self.add(kind::CHARACTERS, &strings)
            }
            Event::Comment { text } => {
                let strings = [lay(text)];
                self.add(kind::COMMENT, &strings)
            }
            Event::Instruction { target, text } => {
                let strings = [target, text].map(lay);
                self.add(kind::INSTRUCTION, &strings)
            }
        }
    }

    /// Its events.
    #[must_use]
    pub fn events(&self) -> Events<'_> {
        Events::new(&self.cells, &self.store)
    }

    /// How many events it has.
    #[must_use]
    pub fn len(&self) -> usize {
        self.cells.len() / CELLS_PER_EVENT
    }

    /// It has no events.
    #[must_use]
    pub fn is_empty(&self) -> bool {
        self.cells.is_empty()
    }

    /// Takes all events out. The memory stays, for the next list.
    pub fn clear(&mut self) {
        self.cells.clear();
        self.store.clear();
    }

    /// Its events as they lie in memory, nine cells each.
    #[must_use]
    pub fn cells(&self) -> &[u32] {
        &self.cells
    }

    /// Its text store.
    #[must_use]
    pub fn store(&self) -> &[u32] {
        &self.store
    }

    /// Adds an event of a kind, with its first pairs: places and lengths of strings.
    fn add(&mut self, kind: u32, pairs: &[[u32; 2]]) -> &mut Self {
        let mut cells = [0; CELLS_PER_EVENT];
        cells[0] = kind;
        for (cells, pair) in cells[1..].chunks_exact_mut(2).zip(pairs) {
            cells.copy_from_slice(pair);
        }
        self.cells.extend(cells);
        self
    }

    /// Lays a string down at the end of the store: its place and length.
    fn lay(&mut self, code_points: impl Iterator<Item = u32>) -> [u32; 2] {
        let place = self.store.len();
        self.store.extend(code_points);
        [place, self.store.len() - place]
            .map(|size| u32::try_from(size).expect("a list's text store is below 2^32 code points"))
    }

    fn lay_str(&mut self, string: &str) -> [u32; 2] {
        self.lay(string.chars().map(u32::from))
    }
}

impl fmt::Debug for EventList {
    fn fmt(&self, f: &mut fmt::Formatter<'_>) -> fmt::Result {
        f.debug_list().entries(self.events()).finish()
    }
}

impl PartialEq for EventList {
    fn eq(&self, other: &EventList) -> bool {
        self.events().eq(other.events())
    }
}

impl Eq for EventList {}

impl PartialEq<Document<'_>> for EventList {
    fn eq(&self, other: &Document<'_>) -> bool {
        *other == *self
    }
}

/// A copy of the document, with its text store as it lies.
impl From<Document<'_>> for EventList {
    fn from(document: Document<'_>) -> Self {
        EventList {
            cells: document.cells().to_vec(),
            store: document.store().to_vec(),
        }
    }
}

impl<'a> Extend<Event<'a>> for EventList {
    fn extend<I: IntoIterator<Item = Event<'a>>>(&mut self, events: I) {
        for event in events {
            self.push(event);
        }
    }
}

impl<'a> FromIterator<Event<'a>> for EventList {
    fn from_iter<I: IntoIterator<Item = Event<'a>>>(events: I) -> Self {
        let mut list = EventList::new();
        list.extend(events);
        list
    }
}

impl<'a> IntoIterator for &'a EventList {
    type Item = Event<'a>;
    type IntoIter = Events<'a>;

    fn into_iter(self) -> Events<'a> {
        self.events()
    }
}
