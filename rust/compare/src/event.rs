//! Events over texts, and lists of events as they lie in cells over a text store.

use crate::prng::Prng;

/// Code points, one number each.
pub type Text = Vec<u32>;

#[derive(Clone, Debug, PartialEq, Eq)]
pub enum Event {
    StartDocument,
    EndDocument,
    StartElement { uri: Text, name: Text },
    Attribute { uri: Text, name: Text, value: Text },
    EndElement,
    Characters(Text),
    Comment(Text),
    Instruction { target: Text, text: Text },
}

/// Cells of one event: its kind, then four pairs, each the place and the length of a string.
pub const CELLS: usize = plumethrift::lent::CELLS_PER_EVENT;

pub const START_DOCUMENT: u32 = 1;
pub const END_DOCUMENT: u32 = 2;
pub const START_ELEMENT: u32 = 3;
pub const ATTRIBUTE: u32 = 4;
pub const END_ELEMENT: u32 = 5;
pub const CHARACTERS: u32 = 6;
pub const COMMENT: u32 = 7;
pub const INSTRUCTION: u32 = 8;

pub const XML_URI: &str = "http://www.w3.org/XML/1998/namespace";
pub const XSI_URI: &str = "http://www.w3.org/2001/XMLSchema-instance";

pub fn text(s: &str) -> Text {
    s.chars().map(u32::from).collect()
}

pub fn element(uri: &str, name: &str) -> Event {
    Event::StartElement {
        uri: text(uri),
        name: text(name),
    }
}

pub fn attribute(uri: &str, name: &str, value: &str) -> Event {
    Event::Attribute {
        uri: text(uri),
        name: text(name),
        value: text(value),
    }
}

pub fn characters(s: &str) -> Event {
    Event::Characters(text(s))
}

pub fn comment(s: &str) -> Event {
    Event::Comment(text(s))
}

pub fn instruction(target: &str, data: &str) -> Event {
    Event::Instruction {
        target: text(target),
        text: text(data),
    }
}

/// `events` between a start document and an end document.
pub fn document(events: Vec<Event>) -> Vec<Event> {
    let mut all = vec![Event::StartDocument];
    all.extend(events);
    all.push(Event::EndDocument);
    all
}

/// Whether the start tag with which `events` end has an attribute of this name.
pub fn tag_has(events: &[Event], uri: &[u32], name: &[u32]) -> bool {
    for event in events.iter().rev() {
        match event {
            Event::Attribute {
                uri: u, name: n, ..
            } if u == uri && n == name => return true,
            Event::Attribute { .. } => {}
            _ => break,
        }
    }
    false
}

/// The first of the two cells of each string that a kind has; none for a kind without meaning.
/// Cells 5 and 6 are a prefix's, of which none are kept; behind them is an attribute's value.
pub fn strings_of(kind: u32) -> Option<&'static [usize]> {
    match kind {
        START_DOCUMENT | END_DOCUMENT | END_ELEMENT => Some(&[]),
        CHARACTERS | COMMENT => Some(&[1]),
        START_ELEMENT | INSTRUCTION => Some(&[1, 3]),
        ATTRIBUTE => Some(&[1, 3, 7]),
        _ => None,
    }
}

/// The cells that a kind does not use; none for a kind without meaning.
pub fn unused_cells(kind: u32) -> Option<impl Iterator<Item = usize>> {
    let strings = strings_of(kind)?;
    let uses = |cell: usize| strings.iter().any(|&at| cell == at || cell == at + 1);
    Some((1..CELLS).filter(move |&cell| !uses(cell)))
}

/// The strings of a stored event, as [`strings_of`] its kind; none where it is not well stored by
/// itself.
pub fn stored_strings(cells: &[u32]) -> Option<&'static [usize]> {
    if cells.len() != CELLS {
        return None;
    }
    let strings = strings_of(cells[0])?;
    let mut unused = unused_cells(cells[0])?;
    unused.all(|cell| cells[cell] == 0).then_some(strings)
}

impl Event {
    pub fn kind(&self) -> u32 {
        match self {
            Event::StartDocument => START_DOCUMENT,
            Event::EndDocument => END_DOCUMENT,
            Event::StartElement { .. } => START_ELEMENT,
            Event::Attribute { .. } => ATTRIBUTE,
            Event::EndElement => END_ELEMENT,
            Event::Characters(_) => CHARACTERS,
            Event::Comment(_) => COMMENT,
            Event::Instruction { .. } => INSTRUCTION,
        }
    }

    pub fn strings(&self) -> Vec<&Text> {
        match self {
            Event::StartDocument | Event::EndDocument | Event::EndElement => vec![],
            Event::StartElement { uri, name } => vec![uri, name],
            Event::Attribute { uri, name, value } => vec![uri, name, value],
            Event::Characters(text) | Event::Comment(text) => vec![text],
            Event::Instruction { target, text } => vec![target, text],
        }
    }

    /// Its strings, each with the first of its two cells.
    fn placed_strings(&self) -> impl Iterator<Item = (usize, &Text)> {
        let cells = strings_of(self.kind()).unwrap_or(&[]);
        cells.iter().copied().zip(self.strings())
    }
}

/// Event cells over a text store, as lent to the writer.
#[derive(Clone, Debug, PartialEq, Eq)]
pub struct Stored {
    pub cells: Vec<u32>,
    pub store: Vec<u32>,
}

impl Stored {
    /// Each string laid anew, in list order.
    pub fn plain(events: &[Event]) -> Stored {
        let mut list = Stored {
            cells: Vec::new(),
            store: Vec::new(),
        };
        for event in events {
            let mut cells = [0; CELLS];
            cells[0] = event.kind();
            for (at, string) in event.placed_strings() {
                cells[at] = list.store.len() as u32;
                cells[at + 1] = string.len() as u32;
                list.store.extend(string);
            }
            list.cells.extend(cells);
        }
        list
    }

    /// Strings shared or laid anew by chance, with code points of no string between them, and empty
    /// strings anywhere in the store.
    pub fn scattered(events: &[Event], rng: &mut Prng) -> Stored {
        let mut list = Stored {
            cells: Vec::new(),
            store: Vec::new(),
        };
        let share = rng.below(3);
        let unused = rng.one_in(4);
        for event in events {
            let mut cells = [0; CELLS];
            cells[0] = event.kind();
            for (at, string) in event.placed_strings() {
                if unused && rng.one_in(3) {
                    list.store.push(rng.number() as u32);
                }
                let known = if share > 0 && list.store.len() < 400 {
                    position(&list.store, string)
                } else {
                    None
                };
                let place = known.unwrap_or_else(|| {
                    let place = list.store.len();
                    list.store.extend(string);
                    place
                });
                cells[at] = place as u32;
                cells[at + 1] = string.len() as u32;
            }
            list.cells.extend(cells);
        }
        let end = list.store.len();
        for cells in list.cells.chunks_mut(CELLS) {
            for &at in strings_of(cells[0]).unwrap_or(&[]) {
                if cells[at + 1] == 0 {
                    cells[at] = rng.between(0, end) as u32;
                }
            }
        }
        list
    }

    /// The events with their texts; none where an event is not well stored or a string lies outside
    /// the store.
    pub fn events(&self) -> Option<Vec<Event>> {
        events(&self.cells, &self.store)
    }
}

fn position(store: &[u32], string: &[u32]) -> Option<usize> {
    if string.is_empty() {
        return Some(0);
    }
    store.windows(string.len()).position(|part| part == string)
}

/// The events in `cells` with their texts from `store`; none where an event is not well stored or a
/// string lies outside the store.
pub fn events(cells: &[u32], store: &[u32]) -> Option<Vec<Event>> {
    cells
        .chunks(CELLS)
        .map(|cells| stored_event(cells, store))
        .collect()
}

fn stored_event(cells: &[u32], store: &[u32]) -> Option<Event> {
    let strings = stored_strings(cells)?;
    let string = |k: usize| -> Option<Text> {
        let place = cells[strings[k]] as usize;
        let length = cells[strings[k] + 1] as usize;
        Some(store.get(place..place + length)?.to_vec())
    };
    Some(match cells[0] {
        START_DOCUMENT => Event::StartDocument,
        END_DOCUMENT => Event::EndDocument,
        START_ELEMENT => Event::StartElement {
            uri: string(0)?,
            name: string(1)?,
        },
        ATTRIBUTE => Event::Attribute {
            uri: string(0)?,
            name: string(1)?,
            value: string(2)?,
        },
        END_ELEMENT => Event::EndElement,
        CHARACTERS => Event::Characters(string(0)?),
        COMMENT => Event::Comment(string(0)?),
        _ => Event::Instruction {
            target: string(0)?,
            text: string(1)?,
        },
    })
}
