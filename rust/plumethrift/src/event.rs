use crate::text::Text;

/// The first cell of each kind.
pub(crate) mod kind {
    pub const START_DOCUMENT: u32 = 1;
    pub const END_DOCUMENT: u32 = 2;
    pub const START_ELEMENT: u32 = 3;
    pub const ATTRIBUTE: u32 = 4;
    pub const END_ELEMENT: u32 = 5;
    pub const CHARACTERS: u32 = 6;
    pub const COMMENT: u32 = 7;
    pub const INSTRUCTION: u32 = 8;
}

/// An event of a list. Two events are the same when their kinds and the texts of their strings are,
/// wherever the texts lie. Later versions may have more kinds.
#[derive(Clone, Copy, Debug, PartialEq, Eq, Hash)]
#[non_exhaustive]
pub enum Event<'a> {
    /// The list's first event.
    StartDocument,
    /// The list's last event.
    EndDocument,
    /// An element begins.
    StartElement {
        /// Its namespace's URI; empty for none.
        uri: Text<'a>,
        /// Its local name.
        name: Text<'a>,
    },
    /// An attribute of the element that began last.
    Attribute {
        /// Its namespace's URI; empty for none.
        uri: Text<'a>,
        /// Its local name.
        name: Text<'a>,
        /// Its value.
        value: Text<'a>,
    },
    /// The element that is open, and began last, ends.
    EndElement,
    /// Characters.
    Characters {
        /// The characters.
        text: Text<'a>,
    },
    /// A comment.
    Comment {
        /// What it says.
        text: Text<'a>,
    },
    /// A processing instruction.
    Instruction {
        /// Its target.
        target: Text<'a>,
        /// What it says.
        text: Text<'a>,
    },
}

impl<'a> Event<'a> {
    /// Takes an event out of its nine cells, with its strings from `store`.
    ///
    /// Cells are no event where they are not nine, where the first is not 1 to 8, and where one
    /// that the kind does not use, or one of a prefix, is not 0: what the writer refuses as SHAPE
    /// by itself. A string that lies outside the store is the empty part at its start.
    ///
    /// ```
    /// use plumethrift::Event;
    ///
    /// let store = [0x62, 0x72];
    /// let event = Event::from_cells(&[6, 1, 1, 0, 0, 0, 0, 0, 0], &store);
    /// assert!(matches!(event, Some(Event::Characters { text }) if text == "r"));
    ///
    /// let outside = Event::from_cells(&[6, 1, 9, 0, 0, 0, 0, 0, 0], &store);
    /// assert!(matches!(outside, Some(Event::Characters { text }) if text.is_empty()));
    ///
    /// assert_eq!(Event::from_cells(&[5, 0, 0, 0, 0, 0, 0, 0, 1], &store), None);
    /// assert_eq!(Event::from_cells(&[3, 0, 0, 0, 1, 0, 1, 0, 0], &store), None);
    /// assert_eq!(Event::from_cells(&[0; 9], &store), None);
    /// ```
    #[must_use]
    pub fn from_cells(cells: &[u32], store: &'a [u32]) -> Option<Event<'a>> {
        let string = |place: u32, length: u32| look_up(store, place, length);
        Some(match *cells {
            [kind::START_DOCUMENT, 0, 0, 0, 0, 0, 0, 0, 0] => Event::StartDocument,
            [kind::END_DOCUMENT, 0, 0, 0, 0, 0, 0, 0, 0] => Event::EndDocument,
            [kind::START_ELEMENT, a, b, c, d, 0, 0, 0, 0] => Event::StartElement {
                uri: string(a, b),
                name: string(c, d),
            },
            [kind::ATTRIBUTE, a, b, c, d, 0, 0, e, f] => Event::Attribute {
                uri: string(a, b),
                name: string(c, d),
                value: string(e, f),
            },
            [kind::END_ELEMENT, 0, 0, 0, 0, 0, 0, 0, 0] => Event::EndElement,
            [kind::CHARACTERS, a, b, 0, 0, 0, 0, 0, 0] => Event::Characters { text: string(a, b) },
            [kind::COMMENT, a, b, 0, 0, 0, 0, 0, 0] => Event::Comment { text: string(a, b) },
            [kind::INSTRUCTION, a, b, c, d, 0, 0, 0, 0] => Event::Instruction {
                target: string(a, b),
                text: string(c, d),
            },
            _ => return None,
        })
    }
}

/// The part of the store from `place` on that is `length` long; the empty part at its start if that
/// lies outside.
fn look_up(store: &[u32], place: u32, length: u32) -> Text<'_> {
    let part = store
        .get(place as usize..)
        .and_then(|rest| rest.get(..length as usize));
    Text::new(part.unwrap_or(&store[..0]))
}
