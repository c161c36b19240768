use crate::sizes::CELLS_PER_EVENT;
use crate::text::Span;

/// An event; its strings lie in a text store.
#[derive(Clone, Copy, Debug, PartialEq, Eq)]
pub enum Event {
    StartDocument,
    EndDocument,
    StartElement { uri: Span, name: Span },
    Attribute { uri: Span, name: Span, value: Span },
    EndElement,
    Characters(Span),
    Comment(Span),
    ProcessingInstruction { target: Span, text: Span },
}

impl Event {
    pub fn to_cells(self) -> [u32; CELLS_PER_EVENT] {
        // The third pair is for a prefix, of which none are kept.
        let cells = |kind: u32, first: Span, second: Span, value: Span| {
            let (a, b, v) = (first, second, value);
            [
                kind, a.place, a.length, b.place, b.length, 0, 0, v.place, v.length,
            ]
        };
        let none = Span::new(0, 0);
        match self {
            Event::StartDocument => cells(1, none, none, none),
            Event::EndDocument => cells(2, none, none, none),
            Event::StartElement { uri, name } => cells(3, uri, name, none),
            Event::Attribute { uri, name, value } => cells(4, uri, name, value),
            Event::EndElement => cells(5, none, none, none),
            Event::Characters(text) => cells(6, text, none, none),
            Event::Comment(text) => cells(7, text, none, none),
            Event::ProcessingInstruction { target, text } => cells(8, target, text, none),
        }
    }

    /// `None` for a kind without meaning, for data in a cell that the kind does not use or that is
    /// a prefix's, and for too few cells.
    pub fn from_cells(cells: &[u32]) -> Option<Event> {
        let span = |place, length| Span { place, length };
        Some(match *cells {
            [1, 0, 0, 0, 0, 0, 0, 0, 0] => Event::StartDocument,
            [2, 0, 0, 0, 0, 0, 0, 0, 0] => Event::EndDocument,
            [3, a, b, c, d, 0, 0, 0, 0] => Event::StartElement {
                uri: span(a, b),
                name: span(c, d),
            },
            [4, a, b, c, d, 0, 0, e, f] => Event::Attribute {
                uri: span(a, b),
                name: span(c, d),
                value: span(e, f),
            },
            [5, 0, 0, 0, 0, 0, 0, 0, 0] => Event::EndElement,
            [6, a, b, 0, 0, 0, 0, 0, 0] => Event::Characters(span(a, b)),
            [7, a, b, 0, 0, 0, 0, 0, 0] => Event::Comment(span(a, b)),
            [8, a, b, c, d, 0, 0, 0, 0] => Event::ProcessingInstruction {
                target: span(a, b),
                text: span(c, d),
            },
            _ => return None,
        })
    }
}
