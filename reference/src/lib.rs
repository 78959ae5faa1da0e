//! A second program for sheets, changes and books, written from the rules alone.
//!
//! It is slow and plain on purpose: nothing is kept up as changes come. Whenever it is asked who
//! stands before whom, or what a sheet looks like, it works that out from the set of changes. The
//! proved program is run against it.
//!
//! - [`change`]: what a change is, the limits on it, and the refusals
//! - [`bytes`]: changes, letters and lists of names as bytes
//! - [`order`]: which line stands before which
//! - [`sheet`]: blocks, and how a sheet is shown
//! - [`book`]: taking, waiting, making, taking back and sending
//! - [`command`]: the lines of a script
//! - [`rehearsal`]: playing a script
//! - [`generator`]: scripts made from a seed

pub mod book;
pub mod bytes;
pub mod change;
pub mod command;
pub mod generator;
pub mod order;
pub mod rehearsal;
pub mod sheet;
