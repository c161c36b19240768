//! Draws readings as one SVG picture: the movement in micrometres over date and time.
//!
//! Readings come as a table that `exi readings --ms` prints. Each is a point; neighbours are joined
//! by a line, but not across a gap. A gap is a step from one reading to the next of more than
//! [`GAP`] times the usual step, which is the median of all steps.
//!
//! This is ordinary code, with no dependencies: what it draws is tested, not proved.

#![forbid(unsafe_code)]
#![deny(missing_docs)]

mod axis;
mod date;
mod gaps;
mod picture;
mod table;

pub use gaps::GAP;
pub use picture::picture;
pub use table::readings;

/// A stamp and a movement.
#[derive(Clone, Copy, Debug, PartialEq, Eq)]
pub struct Reading {
    /// Whole milliseconds since 2000-01-01T00:00:00.000Z.
    pub milliseconds: u64,
    /// The movement in micrometres.
    pub micrometres: i32,
}
