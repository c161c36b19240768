use core::fmt::{self, Write};

/// A string of an event: code points, one 32-bit number each.
///
/// In a document that was read each is an XML 1.0 Char, and so a [`char`]. Before a list is written
/// they may be any numbers; the writer refuses those that are none.
///
/// ```
/// use plumethrift::Text;
///
/// let text = Text::new(&[0x54, 0xFC, 0x72]);
/// assert_eq!(text, "Tür");
/// assert_eq!(text.to_string(), "Tür");
/// assert_eq!(text.chars().next_back(), Some('r'));
/// ```
#[derive(Clone, Copy, Default, PartialEq, Eq, PartialOrd, Ord, Hash)]
pub struct Text<'a>(&'a [u32]);

impl<'a> Text<'a> {
    /// The string of these code points.
    #[must_use]
    pub const fn new(code_points: &'a [u32]) -> Self {
        Text(code_points)
    }

    /// Its code points.
    #[must_use]
    pub const fn code_points(self) -> &'a [u32] {
        self.0
    }

    /// How many code points it has.
    #[must_use]
    pub const fn len(self) -> usize {
        self.0.len()
    }

    /// It has none.
    #[must_use]
    pub const fn is_empty(self) -> bool {
        self.0.is_empty()
    }

    /// Its characters. A code point that is no `char` (there is none in a document that was read)
    /// comes as U+FFFD.
    #[must_use]
    pub fn chars(self) -> impl DoubleEndedIterator<Item = char> + ExactSizeIterator + Clone + 'a {
        self.0
            .iter()
            .map(|&point| char::from_u32(point).unwrap_or(char::REPLACEMENT_CHARACTER))
    }
}

/// As the same `str` would be displayed.
impl fmt::Display for Text<'_> {
    fn fmt(&self, f: &mut fmt::Formatter<'_>) -> fmt::Result {
        let length = f.precision().unwrap_or(usize::MAX).min(self.len());
        let free = f.width().unwrap_or(0).saturating_sub(length);
        let before = match f.align() {
            None | Some(fmt::Alignment::Left) => 0,
            Some(fmt::Alignment::Center) => free / 2,
            Some(fmt::Alignment::Right) => free,
        };
        let fill = f.fill();
        (0..before).try_for_each(|_| f.write_char(fill))?;
        let mut shown = self.chars().take(length);
        shown.try_for_each(|character| f.write_char(character))?;
        (before..free).try_for_each(|_| f.write_char(fill))
    }
}

/// As the same `str` would be shown.
impl fmt::Debug for Text<'_> {
    fn fmt(&self, f: &mut fmt::Formatter<'_>) -> fmt::Result {
        f.write_char('"')?;
        for character in self.chars() {
            match character {
                '\'' => f.write_char(character)?,
                _ => character
                    .escape_debug()
                    .try_for_each(|it| f.write_char(it))?,
            }
        }
        f.write_char('"')
    }
}

impl<'a> From<&'a [u32]> for Text<'a> {
    fn from(code_points: &'a [u32]) -> Self {
        Text::new(code_points)
    }
}

/// Its characters, as [`chars`](Text::chars) has them.
#[cfg(feature = "std")]
impl From<Text<'_>> for String {
    fn from(text: Text<'_>) -> String {
        text.chars().collect()
    }
}

impl PartialEq<str> for Text<'_> {
    fn eq(&self, other: &str) -> bool {
        self.0.iter().copied().eq(other.chars().map(u32::from))
    }
}

impl PartialEq<&str> for Text<'_> {
    fn eq(&self, other: &&str) -> bool {
        *self == **other
    }
}

impl PartialEq<Text<'_>> for str {
    fn eq(&self, other: &Text<'_>) -> bool {
        *other == *self
    }
}

impl PartialEq<Text<'_>> for &str {
    fn eq(&self, other: &Text<'_>) -> bool {
        *other == **self
    }
}
