use core::error::Error;
use core::fmt;
use core::str::FromStr;

/// Why a stream, a list or readings were refused. Later versions may have more refusals.
///
/// Of several faults the first is answered: ROOM, SETTINGS, the reader's LONG, then that of the
/// first event that has one. Within an event the reader goes in stream order: the count of events,
/// the event code, then each string: of a literal its length, the text store, its characters,
/// LOOSE, NAME, its table; of a hit REFERENCE, LOOSE, NAME. After the strings: SHAPE for an equal
/// attribute, LOOSE for the production, open elements, element grammars, learned productions. The
/// writer: the count of events, SHAPE, PLACE of any string, then each string (its length, the store
/// if it is a literal, its characters, NAME, its table), SHAPE for an equal attribute, and the same
/// three sizes; its LONG comes last of all.
#[derive(Clone, Copy, Debug, PartialEq, Eq, PartialOrd, Ord, Hash)]
#[non_exhaustive]
#[repr(u32)]
pub enum Refusal {
    /// A lent part is too short. [`Reader`](crate::Reader) and [`Writer`](crate::Writer) lend
    /// enough.
    Room = 1,
    /// A settings number has no meaning: of [`Settings`](crate::Settings), what this version does
    /// not do.
    Settings = 2,
    /// Reader: the input is over 16,384 octets. Writer: the result would be.
    Long = 3,
    /// An octet differs from the header that the settings ask for.
    Header = 4,
    /// The input ends inside the header or a field.
    Ended = 5,
    /// An event code part names no production.
    Code = 6,
    /// An Unsigned Integer is not in fewest octets, over 5 octets, or above 2,147,483,647.
    Number = 7,
    /// A code point is no XML 1.0 Char; a comment has two hyphens in a row or ends in one; the text
    /// of an instruction has `?>`.
    Character = 8,
    /// A URI, name or value number names no entry.
    Reference = 9,
    /// A literal, hit or production stands where the strict form has another for the same text or
    /// event.
    Loose = 10,
    /// A local name or target is no NCName (an empty one is none); a target is `xml` in any case;
    /// an attribute is `nil` or `type` in the XMLSchema-instance URI.
    Name = 11,
    /// A size would be passed: 4,096 events; 100 elements open at once; 16 URIs and 128 local
    /// names, those included that every stream begins with; 2,048 distinct values that are not
    /// empty, where they have no capacity; 64 element grammars; 512 learned productions; 4,096 code
    /// points in a string; 16,384 in the reader's text store.
    Limit = 12,
    /// A pad bit is 1, or octets follow the end.
    Tail = 13,
    /// Reader and writer: a start tag has two attributes of one URI and local name; the index is
    /// the second's. Writer: the kinds or the order of events break the rules of a [well-formed
    /// list](crate::EventList) otherwise.
    Shape = 14,
    /// Writer: a string's place plus length passes the text store's length. An
    /// [`EventList`](crate::EventList) has no such string.
    Place = 15,
    /// Readings: the list is not [one of readings](crate::Readings).
    Structure = 16,
    /// Readings: a stamp is none of the years 2000 to 2099, or there is no such day or time.
    BadStamp = 17,
    /// Readings: a movement is no whole number from -20,000 to 20,000, or is written with a plus, a
    /// leading zero or a minus before 0.
    BadMovement = 18,
    /// Readings: a stamp is not later than the one before.
    NotLater = 19,
}

impl Refusal {
    /// All refusals, by number.
    pub const ALL: &'static [Refusal] = &[
        Refusal::Room,
        Refusal::Settings,
        Refusal::Long,
        Refusal::Header,
        Refusal::Ended,
        Refusal::Code,
        Refusal::Number,
        Refusal::Character,
        Refusal::Reference,
        Refusal::Loose,
        Refusal::Name,
        Refusal::Limit,
        Refusal::Tail,
        Refusal::Shape,
        Refusal::Place,
        Refusal::Structure,
        Refusal::BadStamp,
        Refusal::BadMovement,
        Refusal::NotLater,
    ];

    /// The refusal of a number; none for 0, which is success, and for any above 19.
    ///
    /// ```
    /// use plumethrift::Refusal;
    ///
    /// assert_eq!(Refusal::from_number(13), Some(Refusal::Tail));
    /// assert_eq!(Refusal::from_number(0), None);
    /// ```
    #[must_use]
    pub fn from_number(number: u32) -> Option<Refusal> {
        Refusal::ALL
            .iter()
            .copied()
            .find(|refusal| refusal.number() == number)
    }

    /// Its number, 1 to 19.
    #[must_use]
    pub const fn number(self) -> u32 {
        self as u32
    }

    /// Its name in capitals, as the C header has it.
    #[must_use]
    pub const fn name(self) -> &'static str {
        match self {
            Refusal::Room => "ROOM",
            Refusal::Settings => "SETTINGS",
            Refusal::Long => "LONG",
            Refusal::Header => "HEADER",
            Refusal::Ended => "ENDED",
            Refusal::Code => "CODE",
            Refusal::Number => "NUMBER",
            Refusal::Character => "CHARACTER",
            Refusal::Reference => "REFERENCE",
            Refusal::Loose => "LOOSE",
            Refusal::Name => "NAME",
            Refusal::Limit => "LIMIT",
            Refusal::Tail => "TAIL",
            Refusal::Shape => "SHAPE",
            Refusal::Place => "PLACE",
            Refusal::Structure => "STRUCTURE",
            Refusal::BadStamp => "BAD_STAMP",
            Refusal::BadMovement => "BAD_MOVEMENT",
            Refusal::NotLater => "NOT_LATER",
        }
    }

    /// What it means, in one sentence without a full stop.
    #[must_use]
    pub const fn sentence(self) -> &'static str {
        match self {
            Refusal::Room => "a lent part is too short",
            Refusal::Settings => "a settings number has no meaning",
            Refusal::Long => "the stream is, or would be, over 16384 octets",
            Refusal::Header => "an octet differs from the header that the settings ask for",
            Refusal::Ended => "the input ends inside the header or a field",
            Refusal::Code => "an event code part names no production",
            Refusal::Number => {
                "an Unsigned Integer is not in fewest octets, over 5 octets, or above 2147483647"
            }
            Refusal::Character => {
                "a code point is no XML 1.0 Char, or a comment has -- or ends in -, or an \
                 instruction has ?>"
            }
            Refusal::Reference => "a URI, name or value number names no entry",
            Refusal::Loose => {
                "a literal, hit or production stands where the strict form has another"
            }
            Refusal::Name => {
                "a local name or target is no NCName, a target is xml, or an attribute is xsi:nil \
                 or xsi:type"
            }
            Refusal::Limit => "a size would be passed",
            Refusal::Tail => "a pad bit is 1, or octets follow the end",
            Refusal::Shape => {
                "a start tag has an attribute twice, or the kinds or the order of events are wrong"
            }
            Refusal::Place => "a string lies outside the text store",
            Refusal::Structure => "the list is not one of readings",
            Refusal::BadStamp => {
                "a stamp is none of the years 2000 to 2099, or there is no such day or time"
            }
            Refusal::BadMovement => {
                "a movement is no whole number from -20000 to 20000, or not in its plain form"
            }
            Refusal::NotLater => "a stamp is not later than the one before",
        }
    }
}

/// Its [name](Refusal::name).
impl fmt::Display for Refusal {
    fn fmt(&self, f: &mut fmt::Formatter<'_>) -> fmt::Result {
        f.pad(self.name())
    }
}

/// The refusal of a [name](Refusal::name).
///
/// ```
/// use plumethrift::Refusal;
///
/// assert_eq!("TAIL".parse(), Ok(Refusal::Tail));
/// assert!("tail".parse::<Refusal>().is_err());
/// ```
impl FromStr for Refusal {
    type Err = Unknown;

    fn from_str(name: &str) -> Result<Self, Unknown> {
        let mut all = Refusal::ALL.iter().copied();
        all.find(|refusal| refusal.name() == name).ok_or(Unknown)
    }
}

/// The refusal of a [number](Refusal::number).
impl TryFrom<u32> for Refusal {
    type Error = Unknown;

    fn try_from(number: u32) -> Result<Self, Unknown> {
        Refusal::from_number(number).ok_or(Unknown)
    }
}

impl From<Refusal> for u32 {
    fn from(refusal: Refusal) -> u32 {
        refusal.number()
    }
}

/// A word or a number that names nothing of the kind that was asked for.
#[derive(Clone, Copy, Debug, PartialEq, Eq, Hash)]
pub struct Unknown;

impl fmt::Display for Unknown {
    fn fmt(&self, f: &mut fmt::Formatter<'_>) -> fmt::Result {
        f.pad("no such name or number")
    }
}

impl Error for Unknown {}

/// A refusal, and the event or the reading that it concerns.
///
/// ```
/// use plumethrift::{Reader, Refusal, Refused, Settings};
///
/// let refused = Reader::new().read(&Settings::default(), &[]).unwrap_err();
/// assert_eq!(refused, Refused { refusal: Refusal::Ended, index: 0 });
/// assert_eq!(
///     refused.to_string(),
///     "refused: 5 ENDED at event 0: the input ends inside the header or a field"
/// );
/// ```
#[derive(Clone, Copy, Debug, PartialEq, Eq, Hash)]
pub struct Refused {
    /// Why.
    pub refusal: Refusal,
    /// The number of events before the one concerned. It is 0 for refusals 1 to 4, and counts all
    /// events for [`Refusal::Tail`]. From [`Refusal::Structure`] on it is the number of readings
    /// before; so it is for [`Refusal::Limit`] where readings are written, or taken from a list.
    pub index: u32,
}

impl fmt::Display for Refused {
    fn fmt(&self, f: &mut fmt::Formatter<'_>) -> fmt::Result {
        let Refused { refusal, index } = self;
        write!(f, "refused: {} {refusal}", refusal.number())?;
        match refusal {
            Refusal::Room | Refusal::Settings | Refusal::Long | Refusal::Header => {}
            Refusal::Limit => write!(f, " at index {index}")?, // events or readings, by the call
            _ if *refusal < Refusal::Structure => write!(f, " at event {index}")?,
            _ => write!(f, " at reading {index}")?,
        }
        write!(f, ": {}", refusal.sentence())
    }
}

impl Error for Refused {}

/// As invalid data.
#[cfg(feature = "std")]
impl From<Refused> for std::io::Error {
    fn from(refused: Refused) -> Self {
        std::io::Error::new(std::io::ErrorKind::InvalidData, refused)
    }
}

/// An answer's number and index as a result.
#[cfg(feature = "std")]
pub(crate) fn judge(number: u32, index: u32) -> Result<(), Refused> {
    if number == 0 {
        return Ok(());
    }
    let refusal = Refusal::from_number(number).expect("the library's refusals are 1 to 19");
    Err(Refused { refusal, index })
}
