/// A string as a part of a text store.
#[derive(Clone, Copy, Debug, PartialEq, Eq)]
pub struct Span {
    pub place: u32,
    pub length: u32,
}

impl Span {
    pub fn new(place: usize, length: usize) -> Self {
        Span {
            place: place as u32,
            length: length as u32,
        }
    }

    /// The code points, if all of them lie inside the store.
    pub fn get(self, store: &[u32]) -> Option<&[u32]> {
        store
            .get(self.place as usize..)?
            .get(..self.length as usize)
    }

    /// The code points of a string that lies inside the store.
    pub fn of(self, store: &[u32]) -> &[u32] {
        let place = self.place as usize;
        &store[place..place + self.length as usize]
    }
}

/// The Char production of XML 1.0.
pub fn is_char(code_point: u32) -> bool {
    matches!(
        code_point,
        0x9 | 0xA | 0xD | 0x20..=0xD7FF | 0xE000..=0xFFFD | 0x1_0000..=0x10_FFFF
    )
}
