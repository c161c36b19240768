//! The sizes, each by one name, and how many cells an event takes.

/// Octets in a stream.
pub const MAX_STREAM: usize = 16_384;
/// Events in a list.
pub const MAX_EVENTS: usize = 4_096;
/// Elements open at once.
pub const MAX_OPEN: usize = 100;
/// URIs, those included that every stream begins with.
pub const MAX_URIS: usize = 16;
/// Local names over all URIs, those included that every stream begins with.
pub const MAX_NAMES: usize = 128;
/// Distinct values that are not empty, present at once.
pub const MAX_VALUES: usize = 2_048;
/// Element grammars.
pub const MAX_GRAMMARS: usize = 64;
/// Learned productions in all.
pub const MAX_LEARNED: usize = 512;
/// Code points in one string.
pub const MAX_STRING: usize = 4_096;
/// Code points in the text store.
pub const MAX_STORE: usize = 16_384;

/// Readings in a list: a stamp each, and a movement.
pub const MAX_READINGS: usize = 678;

/// Cells of one event: its kind, then four pairs, each the place and the length of a string.
pub const CELLS_PER_EVENT: usize = 9;
