//! Scripts made from a seed.
//!
//! - [`random`]: numbers from a seed
//! - `author`: what has been written so far, and what the books then hold
//! - `ordinary`: writers at work, with letters that come late, twice, forged or damaged
//! - `forging`: changes and bytes that nobody made
//! - `limits`: scripts that go to the limits of books and changes

mod author;
mod forging;
mod limits;
mod ordinary;
pub mod random;

use author::Author;

/// One script in so many goes to a limit.
pub const LIMITS_EVERY: u64 = 50;

/// The script of a seed; the same one each time.
pub fn generate(seed: u64) -> Vec<u8> {
    let mut author = Author::new(seed);
    if seed % LIMITS_EVERY == LIMITS_EVERY - 1 {
        limits::write(&mut author, seed / LIMITS_EVERY);
    } else {
        ordinary::write(&mut author);
    }
    author.into_script()
}
