//! Compares the proved library with an ordinary implementation of the same rules.
//!
//! Nothing here knows the answers of either: [`encode`] lays out strict forms by the scope's own
//! words, [`names`] has what a name is, [`generate`] makes event lists, and [`damage`] puts a fault
//! into a stream or a list and says, where the scope determines it, the number and index to be
//! answered.
//!
//! The tests are in `tests/`: `streams` (those that the scope lists, and more of the kind), `sizes`
//! (both sides of each), `attributes` (equal ones, with every other fault of the event), `names`
//! (each end of each range, targets, texts of comments and instructions), `fragments` (elements
//! beside each other), `values` (bounded tables), `fields` (n-bit fields that end with what is
//! lent, or are cut), `primer` (the EXI Primer's worked examples), `vectors` (requests and answers
//! from files), `differential` (random and damaged lists and streams), `readings` (readings from
//! lists and streams, and back), `packets` (streams in pieces), `batch` (the program of that name),
//! `exi` and `plot` (the command line), `readme` (what the documents show). Run them in a release
//! build. The programs are `batch`, which answers request lines, `bench`, which times both
//! implementations, and `fields`, which times n-bit fields by themselves.

#![forbid(unsafe_code)]

pub mod check;
pub mod damage;
pub mod encode;
pub mod event;
pub mod generate;
pub mod lent;
pub mod names;
pub mod packets;
pub mod prng;
pub mod protocol;
pub mod readings;

/// The sizes; what is to be lent the library says, see [`lent::sizes`].
pub use ordinary::sizes;
