//! Entries that are found by hash.

/// For each bucket its newest entry. Entries have numbers from 0 on, below 65,535, and each keeps
/// the [`Link`] to the next older one of its bucket.
pub struct Buckets<const COUNT: usize> {
    newest: [Link; COUNT],
}

/// An entry's number and 1; 0 is none.
#[derive(Clone, Copy, PartialEq, Eq)]
pub struct Link(u16);

impl Link {
    pub const NONE: Link = Link(0);

    fn to(number: usize) -> Link {
        Link(number as u16 + 1)
    }
}

impl<const COUNT: usize> Buckets<COUNT> {
    pub const fn new() -> Self {
        Buckets {
            newest: [Link(0); COUNT],
        }
    }

    /// The bucket of a hash.
    pub const fn bucket(hash: u32) -> usize {
        hash as usize % COUNT
    }

    /// Puts an entry into its bucket. It has to keep the link.
    pub const fn add(&mut self, hash: u32, number: usize) -> Link {
        let bucket = Self::bucket(hash);
        let older = self.newest[bucket];
        self.newest[bucket] = Link(number as u16 + 1);
        older
    }

    /// Takes the oldest entry of a bucket out of it; `link` is the one that an entry keeps. Gives
    /// the entry that is the oldest then, whose link has to be none.
    pub fn remove_oldest(
        &mut self,
        bucket: usize,
        number: usize,
        link: impl Fn(usize) -> Link,
    ) -> Option<usize> {
        let oldest = Link::to(number);
        if self.newest[bucket] == oldest {
            self.newest[bucket] = Link::NONE;
            return None;
        }
        let mut at = usize::from(self.newest[bucket].0 - 1);
        while link(at) != oldest {
            at = usize::from(link(at).0 - 1);
        }
        Some(at)
    }

    /// The newest entry in a bucket for which `is_it` holds; `link` is the one that it keeps.
    #[inline]
    pub fn find(
        &self,
        hash: u32,
        link: impl Fn(usize) -> Link,
        is_it: impl Fn(usize) -> bool,
    ) -> Option<usize> {
        let mut at = self.newest[Self::bucket(hash)];
        while at.0 != 0 {
            let number = usize::from(at.0 - 1);
            if is_it(number) {
                return Some(number);
            }
            at = link(number);
        }
        None
    }
}

/// FNV-1a, a code point at a time.
pub const fn hash(seed: u32, text: &[u32]) -> u32 {
    let mut hash = 0x811C_9DC5 ^ seed;
    let mut i = 0;
    while i < text.len() {
        hash = (hash ^ text[i]).wrapping_mul(0x0100_0193);
        i += 1;
    }
    hash ^ hash >> 16
}
