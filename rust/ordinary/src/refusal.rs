/// Why a stream, a list or readings are refused, with the numbers of the scope.
#[derive(Clone, Copy, Debug, PartialEq, Eq)]
#[repr(u32)]
pub enum Refusal {
    /// Lent memory is too short.
    Room = 1,
    /// A settings number has no meaning.
    Settings = 2,
    /// The stream is too long.
    Long = 3,
    /// The header is not the one that the settings ask for.
    Header = 4,
    /// The stream ends inside the header or a field.
    Ended = 5,
    /// An event code part names no production.
    Code = 6,
    /// An Unsigned Integer is too large or not in fewest octets.
    Number = 7,
    /// A code point is no XML 1.0 Char, or a comment or the text of an instruction could not stand
    /// in XML.
    Character = 8,
    /// A compact identifier names no entry.
    Reference = 9,
    /// The strict form has another literal, hit or production here.
    Loose = 10,
    /// A local name or target is no NCName, a target is `xml` in any case, or an attribute is
    /// xsi:nil or xsi:type.
    Name = 11,
    /// A size would be passed.
    Limit = 12,
    /// A pad bit is set, or octets follow the end.
    Tail = 13,
    /// Kinds or order of events break the rules of a list, or a start tag has two attributes of one
    /// name.
    Shape = 14,
    /// A string passes the end of the text store.
    Place = 15,
    /// A list is not one of readings.
    Structure = 16,
    /// A stamp is none, or names no day or time.
    BadStamp = 17,
    /// A movement is none, or too large.
    BadMovement = 18,
    /// A stamp is not later than the one before.
    NotLater = 19,
}

impl Refusal {
    pub fn number(self) -> u32 {
        self as u32
    }
}
