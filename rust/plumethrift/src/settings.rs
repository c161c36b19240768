use core::fmt;
use core::str::FromStr;

use crate::lent::SettingNumbers;
use crate::refusal::Unknown;

/// How the fields of a stream lie in its octets.
#[derive(Clone, Copy, Debug, Default, PartialEq, Eq, Hash)]
pub enum Alignment {
    /// Fields follow each other bit by bit. EXI's default, and the default here.
    #[default]
    BitPacked = 0,
    /// Each field begins with an octet.
    ByteAligned = 1,
}

/// `bit-packed` or `byte-aligned`.
impl fmt::Display for Alignment {
    fn fmt(&self, f: &mut fmt::Formatter<'_>) -> fmt::Result {
        f.pad(match self {
            Alignment::BitPacked => "bit-packed",
            Alignment::ByteAligned => "byte-aligned",
        })
    }
}

/// As it is displayed.
///
/// ```
/// use plumethrift::Alignment;
///
/// assert_eq!("byte-aligned".parse(), Ok(Alignment::ByteAligned));
/// assert!("aligned".parse::<Alignment>().is_err());
/// ```
impl FromStr for Alignment {
    type Err = Unknown;

    fn from_str(word: &str) -> Result<Self, Unknown> {
        match word {
            "bit-packed" => Ok(Alignment::BitPacked),
            "byte-aligned" => Ok(Alignment::ByteAligned),
            _ => Err(Unknown),
        }
    }
}

/// Settings of a stream. They travel outside it: reader and writer have to be given the same.
///
/// The default is bit-packed, no cookie, nothing kept. Name the fields that differ, and take the
/// others from it:
///
/// ```
/// use plumethrift::{Alignment, Settings};
///
/// let settings = Settings { comments: true, ..Settings::default() };
/// assert_eq!(settings.alignment, Alignment::BitPacked);
/// assert_eq!(settings.numbers().comments, 1);
/// ```
///
/// The last three fields are for what this version does not do: reader and writer refuse any other
/// than the default as [`Refusal::Settings`](crate::Refusal::Settings).
#[derive(Clone, Copy, Debug, Default, PartialEq, Eq, Hash)]
pub struct Settings {
    /// How fields lie in octets.
    pub alignment: Alignment,
    /// The stream begins with the cookie `$EXI`.
    pub cookie: bool,
    /// Comments are kept. Where they are not, no list or stream has any.
    pub comments: bool,
    /// Processing instructions are kept. Where they are not, no list or stream has any.
    pub instructions: bool,
    /// A fragment: any number of elements, none too, and not one root.
    pub fragment: bool,
    /// Values with more code points than this join no table: they go out as literals each time.
    pub value_length: Option<u32>,
    /// How many values the tables hold, at most 2,048; where they are full, the oldest is replaced.
    /// Without a bound there are 2,048, and one more is refused.
    pub value_capacity: Option<u32>,
    /// The reader also takes forms that are not strict. Not in this version.
    pub loose: bool,
    /// Prefixes are kept. Not in this version.
    pub prefixes: bool,
    /// How many element grammars there may be, as the EXI Profile caps them. Not in this version.
    pub grammar_cap: Option<u32>,
}

impl Settings {
    /// The numbers that cross the boundary.
    ///
    /// A bound n is n + 1 there, since 0 is none; the largest stays as it is.
    ///
    /// ```
    /// use plumethrift::Settings;
    ///
    /// let bounded = |n| Settings { value_capacity: Some(n), ..Settings::default() };
    /// assert_eq!(Settings::default().numbers().value_capacity, 0);
    /// assert_eq!(bounded(0).numbers().value_capacity, 1);
    /// assert_eq!(bounded(u32::MAX).numbers().value_capacity, u32::MAX);
    /// ```
    #[must_use]
    pub const fn numbers(&self) -> SettingNumbers {
        SettingNumbers {
            alignment: self.alignment as u32,
            cookie: self.cookie as u32,
            comments: self.comments as u32,
            instructions: self.instructions as u32,
            fragment: self.fragment as u32,
            value_length: bound(self.value_length),
            value_capacity: bound(self.value_capacity),
            loose: self.loose as u32,
            prefixes: self.prefixes as u32,
            grammar_cap: bound(self.grammar_cap),
        }
    }
}

/// The number of a bound.
const fn bound(bound: Option<u32>) -> u32 {
    match bound {
        None => 0,
        Some(n) => n.saturating_add(1),
    }
}

impl From<Settings> for SettingNumbers {
    fn from(settings: Settings) -> Self {
        settings.numbers()
    }
}

/// The words of the settings that differ from the default, with spaces between them, in any order:
/// an alignment, `cookie`, `comments`, `instructions`, `fragment`, `max-length=N`, `capacity=N`. No
/// word is the default.
///
/// ```
/// use plumethrift::{Alignment, Settings};
///
/// let settings: Settings = "byte-aligned fragment".parse()?;
/// assert_eq!(settings.alignment, Alignment::ByteAligned);
/// assert!(settings.fragment && !settings.cookie);
/// assert_eq!("capacity=0".parse::<Settings>()?.value_capacity, Some(0));
/// assert_eq!("".parse(), Ok(Settings::default()));
/// assert!("fragments".parse::<Settings>().is_err());
/// assert!("capacity=+1".parse::<Settings>().is_err());
/// # Ok::<(), plumethrift::Unknown>(())
/// ```
impl FromStr for Settings {
    type Err = Unknown;

    fn from_str(words: &str) -> Result<Self, Unknown> {
        let mut settings = Settings::default();
        for word in words.split_ascii_whitespace() {
            match word {
                "cookie" => settings.cookie = true,
                "comments" => settings.comments = true,
                "instructions" => settings.instructions = true,
                "fragment" => settings.fragment = true,
                _ => match word.split_once('=') {
                    Some(("max-length", n)) => settings.value_length = Some(in_digits(n)?),
                    Some(("capacity", n)) => settings.value_capacity = Some(in_digits(n)?),
                    _ => settings.alignment = word.parse()?,
                },
            }
        }
        Ok(settings)
    }
}

/// A bound, in digits.
fn in_digits(digits: &str) -> Result<u32, Unknown> {
    if digits.starts_with('+') {
        return Err(Unknown);
    }
    digits.parse().map_err(|_| Unknown)
}
