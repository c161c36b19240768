//! String table partitions for URIs, local names and values (EXI 7.3 and appendix D).
//!
//! Entries are parts of the text store. The functions that compare texts are handed that store.

use crate::buckets::{hash, Buckets, Link};
use crate::refusal::Refusal;
use crate::settings::ValueBounds;
use crate::sizes::{MAX_NAMES, MAX_URIS};
use crate::text::Span;

/// What every text store begins with: the initial URIs, then the initial local names.
pub const INITIAL_TEXT: [u32; 99] = code_points(
    b"http://www.w3.org/XML/1998/namespace\
      http://www.w3.org/2001/XMLSchema-instance\
      baseidlangspaceniltype",
);

/// The initial URIs, each with its length and its local names.
const INITIAL_URIS: [(usize, &[NameId]); 3] = [
    (0, &[]),
    (36, &[NameId(0), NameId(1), NameId(2), NameId(3)]),
    (41, &[XSI_NIL, XSI_TYPE]),
];

/// The lengths of the initial local names.
const INITIAL_NAMES: [usize; 6] = [4, 2, 4, 5, 3, 4];

const XSI_NIL: NameId = NameId(4);
const XSI_TYPE: NameId = NameId(5);

const fn code_points<const N: usize>(ascii: &[u8; N]) -> [u32; N] {
    let mut text = [0; N];
    let mut i = 0;
    while i < N {
        text[i] = ascii[i] as u32;
        i += 1;
    }
    text
}

/// The compact identifier of a URI.
#[derive(Clone, Copy, Debug, PartialEq, Eq)]
pub struct UriId(u8);

impl UriId {
    pub fn index(self) -> usize {
        usize::from(self.0)
    }
}

/// A qualified name: a local name of one URI. Names are numbered over all URIs.
#[derive(Clone, Copy, Debug, PartialEq, Eq)]
pub struct NameId(u8);

impl NameId {
    pub fn index(self) -> usize {
        usize::from(self.0)
    }

    /// xsi:nil and xsi:type are no names for an attribute.
    pub fn is_reserved_attribute(self) -> bool {
        self == XSI_NIL || self == XSI_TYPE
    }
}

struct Uri {
    text: Span,
    /// Its local names: first those that it began with.
    initial_names: &'static [NameId],
    more_names: Vec<NameId>,
}

struct Name {
    uri: UriId,
    /// The compact identifier among the local names of the URI.
    local_id: usize,
    text: Span,
    /// Global identifiers of the values in the local partition of this name, or [`TAKEN`].
    values: Vec<u16>,
    next_in_bucket: Link,
}

/// A value belongs to one local partition: that of the name it was added with.
#[derive(Clone, Copy)]
pub struct Value {
    pub text: Span,
    pub owner: NameId,
    pub local_id: usize,
    bucket: u16,
    next_in_bucket: Link,
}

/// In place of a global identifier: the value has been replaced.
const TAKEN: u16 = u16::MAX;

type ValueBuckets = Buckets<1_024>;

/// The bucket in which a value is looked for. It is for those who want many in one.
pub fn value_bucket(text: &[u32]) -> usize {
    ValueBuckets::bucket(value_hash(text))
}

fn value_hash(text: &[u32]) -> u32 {
    hash(0, text)
}

pub struct StringTable {
    uris: Vec<Uri>,
    names: Vec<Name>,
    names_by_text: Buckets<128>,
    values: Vec<Value>,
    values_by_text: ValueBuckets,
    bounds: ValueBounds,
    /// The oldest value, which is the next to be replaced.
    oldest_value: u32,
}

impl StringTable {
    /// The initial entries, over a store that begins with [`INITIAL_TEXT`].
    pub fn new(bounds: ValueBounds) -> Self {
        let mut table = StringTable {
            uris: Vec::with_capacity(4),
            names: Vec::with_capacity(16),
            names_by_text: Buckets::new(),
            values: Vec::new(),
            values_by_text: ValueBuckets::new(),
            bounds,
            oldest_value: 0,
        };
        let mut place = 0;
        let mut next = |length| {
            place += length;
            Span::new(place - length, length)
        };
        for (length, names) in INITIAL_URIS {
            table.insert_uri(next(length), names);
        }
        for (uri, (_, names)) in INITIAL_URIS.iter().enumerate() {
            for (local_id, name) in names.iter().enumerate() {
                let text = next(INITIAL_NAMES[name.index()]);
                let found_by = INITIAL_HASHES[name.index()];
                table.push_name(UriId(uri as u8), local_id, text, found_by);
            }
        }
        table
    }

    pub fn uri_count(&self) -> usize {
        self.uris.len()
    }

    pub fn uri(&self, index: usize) -> Option<UriId> {
        (index < self.uris.len()).then_some(UriId(index as u8))
    }

    pub fn find_uri(&self, store: &[u32], text: &[u32]) -> Option<UriId> {
        let index = self
            .uris
            .iter()
            .position(|uri| uri.text.of(store) == text)?;
        Some(UriId(index as u8))
    }

    pub fn add_uri(&mut self, text: Span) -> Result<UriId, Refusal> {
        if self.uris.len() == MAX_URIS {
            return Err(Refusal::Limit);
        }
        Ok(self.insert_uri(text, &[]))
    }

    fn insert_uri(&mut self, text: Span, initial_names: &'static [NameId]) -> UriId {
        self.uris.push(Uri {
            text,
            initial_names,
            more_names: Vec::new(),
        });
        UriId((self.uris.len() - 1) as u8)
    }

    /// How many local names a URI has.
    pub fn local_name_count(&self, uri: UriId) -> usize {
        let uri = &self.uris[uri.index()];
        uri.initial_names.len() + uri.more_names.len()
    }

    /// The name with this compact identifier among the local names of a URI.
    pub fn local_name(&self, uri: UriId, local_id: usize) -> Option<NameId> {
        let uri = &self.uris[uri.index()];
        match local_id.checked_sub(uri.initial_names.len()) {
            None => Some(uri.initial_names[local_id]),
            Some(more) => uri.more_names.get(more).copied(),
        }
    }

    /// The name of these texts, or else the hash to hand to [`Self::add_name`].
    pub fn find_name(&self, store: &[u32], uri: UriId, text: &[u32]) -> Result<NameId, u32> {
        let hash = hash(u32::from(uri.0), text);
        let found = self.names_by_text.find(
            hash,
            |id| self.names[id].next_in_bucket,
            |id| self.names[id].uri == uri && self.names[id].text.of(store) == text,
        );
        found.map(|id| NameId(id as u8)).ok_or(hash)
    }

    pub fn add_name(&mut self, uri: UriId, text: Span, hash: u32) -> Result<NameId, Refusal> {
        if self.names.len() == MAX_NAMES {
            return Err(Refusal::Limit);
        }
        let local_id = self.local_name_count(uri);
        let id = self.push_name(uri, local_id, text, hash);
        self.uris[uri.index()].more_names.push(id);
        Ok(id)
    }

    fn push_name(&mut self, uri: UriId, local_id: usize, text: Span, hash: u32) -> NameId {
        let id = self.names.len();
        let next_in_bucket = self.names_by_text.add(hash, id);
        self.names.push(Name {
            uri,
            local_id,
            text,
            values: Vec::new(),
            next_in_bucket,
        });
        NameId(id as u8)
    }

    /// The compact identifier of a name among the local names of its URI.
    pub fn local_name_id(&self, name: NameId) -> usize {
        self.names[name.index()].local_id
    }

    /// URI and local name.
    pub fn name_texts(&self, name: NameId) -> (Span, Span) {
        let name = &self.names[name.index()];
        (self.uris[name.uri.index()].text, name.text)
    }

    /// Whether values of this length join the tables: not empty ones, and none that is too long.
    pub fn takes_value(&self, length: usize) -> bool {
        (length as u32).wrapping_sub(1) < self.bounds.longest
    }

    /// All values that are present, by global identifier.
    pub fn values(&self) -> &[Value] {
        &self.values
    }

    /// Global identifiers of the values local to a name, by local identifier; of one that has been
    /// replaced a number that is none.
    pub fn local_values(&self, name: NameId) -> &[u16] {
        &self.names[name.index()].values
    }

    /// The global identifier of a value, or else the hash to hand to [`Self::add_value`].
    pub fn find_value(&self, store: &[u32], text: &[u32]) -> Result<usize, u32> {
        let hash = value_hash(text);
        let found = self.values_by_text.find(
            hash,
            |id| self.values[id].next_in_bucket,
            |id| self.values[id].text.of(store) == text,
        );
        found.ok_or(hash)
    }

    /// Adds a value to the global partition and to the local one of `owner`. It has to be one that
    /// the tables take, and replaces the oldest where they are full.
    #[inline(always)]
    pub fn add_value(&mut self, owner: NameId, text: Span, hash: u32) -> Result<(), Refusal> {
        let id = self.values.len();
        if id == self.bounds.capacity as usize {
            return self.replace_value(owner, text, hash);
        }
        let value = self.new_value(id, owner, text, hash);
        self.values.push(value);
        Ok(())
    }

    #[inline(never)]
    fn replace_value(&mut self, owner: NameId, text: Span, hash: u32) -> Result<(), Refusal> {
        if !self.bounds.replaces {
            return Err(Refusal::Limit);
        }
        let id = self.oldest_value as usize;
        let old = self.values[id];
        self.names[old.owner.index()].values[old.local_id] = TAKEN;
        let last = self
            .values_by_text
            .remove_oldest(usize::from(old.bucket), id, |id| {
                self.values[id].next_in_bucket
            });
        if let Some(last) = last {
            self.values[last].next_in_bucket = Link::NONE;
        }
        self.values[id] = self.new_value(id, owner, text, hash);
        self.oldest_value += 1;
        if self.oldest_value == self.bounds.capacity {
            self.oldest_value = 0;
        }
        Ok(())
    }

    /// Gives a value the next local number, and puts it into its bucket.
    #[inline(always)]
    fn new_value(&mut self, id: usize, owner: NameId, text: Span, hash: u32) -> Value {
        let local = &mut self.names[owner.index()].values;
        let local_id = local.len();
        local.push(id as u16);
        Value {
            text,
            owner,
            local_id,
            bucket: ValueBuckets::bucket(hash) as u16,
            next_in_bucket: self.values_by_text.add(hash, id),
        }
    }
}

/// The hashes of the initial local names.
const INITIAL_HASHES: [u32; 6] = {
    let mut hashes = [0; 6];
    let mut place = INITIAL_URIS[1].0 + INITIAL_URIS[2].0;
    let mut uri = 0;
    while uri < INITIAL_URIS.len() {
        let names = INITIAL_URIS[uri].1;
        let mut i = 0;
        while i < names.len() {
            let name = names[i].0 as usize;
            let (_, rest) = INITIAL_TEXT.split_at(place);
            let (text, _) = rest.split_at(INITIAL_NAMES[name]);
            hashes[name] = hash(uri as u32, text);
            place += INITIAL_NAMES[name];
            i += 1;
        }
        uri += 1;
    }
    hashes
};
