use crate::refusal::Refusal;
use crate::sizes::MAX_VALUES;

/// The settings as numbers. A bound n is n + 1, and 0 is none.
#[derive(Clone, Copy, Debug, PartialEq, Eq, Default)]
pub struct Settings {
    /// 0 bit-packed, 1 byte-aligned.
    pub alignment: u32,
    /// 1 if the stream begins with the EXI cookie.
    pub cookie: u32,
    /// 1 if comments are kept.
    pub comments: u32,
    /// 1 if processing instructions are kept.
    pub instructions: u32,
    /// 1 for fragments: any number of elements, and not one root.
    pub fragment: u32,
    /// The longest value that joins the tables.
    pub value_length: u32,
    /// How many values the tables hold.
    pub value_capacity: u32,
    /// Whether forms are taken that are not strict; this and all below are not done yet, and have
    /// to be 0.
    pub loose: u32,
    /// Whether prefixes are kept.
    pub prefixes: u32,
    /// How many element grammars there may be.
    pub grammar_cap: u32,
}

#[derive(Clone, Copy, PartialEq, Eq)]
pub enum Alignment {
    BitPacked,
    ByteAligned,
}

/// Settings that have a meaning.
#[derive(Clone, Copy)]
pub struct Options {
    pub alignment: Alignment,
    pub cookie: bool,
    pub comments: bool,
    pub instructions: bool,
    pub fragment: bool,
    pub values: ValueBounds,
}

/// Which values join the tables, and how many of them.
#[derive(Clone, Copy)]
pub struct ValueBounds {
    /// The longest that joins; 0 if none does.
    pub longest: u32,
    /// The most that are present at once.
    pub capacity: u32,
    /// Whether the oldest is replaced where there are so many; else one more is refused.
    pub replaces: bool,
}

impl Options {
    /// The header of a stream: the cookie if asked for, no options, version 1.
    pub fn header(&self) -> &'static [u8] {
        const HEADER: &[u8] = b"$EXI\x80";
        if self.cookie {
            HEADER
        } else {
            &HEADER[4..]
        }
    }
}

impl TryFrom<Settings> for Options {
    type Error = Refusal;

    fn try_from(s: Settings) -> Result<Self, Refusal> {
        if [s.loose, s.prefixes, s.grammar_cap] != [0; 3] {
            return Err(Refusal::Settings);
        }
        let alignment = if flag(s.alignment)? {
            Alignment::ByteAligned
        } else {
            Alignment::BitPacked
        };
        Ok(Options {
            alignment,
            cookie: flag(s.cookie)?,
            comments: flag(s.comments)?,
            instructions: flag(s.instructions)?,
            fragment: flag(s.fragment)?,
            values: value_bounds(s.value_length, s.value_capacity)?,
        })
    }
}

/// From the two numbers: without a bound the longest is longer than any string.
fn value_bounds(length: u32, capacity: u32) -> Result<ValueBounds, Refusal> {
    const MOST: u32 = MAX_VALUES as u32;
    let longest = length.wrapping_sub(1);
    match capacity {
        0 => Ok(ValueBounds {
            longest,
            capacity: MOST,
            replaces: false,
        }),
        1 => Ok(ValueBounds {
            longest: 0,
            capacity: 0,
            replaces: true,
        }),
        n if n - 1 <= MOST => Ok(ValueBounds {
            longest,
            capacity: n - 1,
            replaces: true,
        }),
        _ => Err(Refusal::Settings),
    }
}

fn flag(number: u32) -> Result<bool, Refusal> {
    match number {
        0 => Ok(false),
        1 => Ok(true),
        _ => Err(Refusal::Settings),
    }
}
