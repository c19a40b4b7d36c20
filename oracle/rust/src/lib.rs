//! The judged Rust file, and around it what it leans on, written from document 01.
//!
//! `trace` is the file as published with one line put behind it, `pub mod probe;`: a child module
//! reaches the private readers, so the readers themselves stay as they are.

pub mod answer;
pub mod book;
pub mod debugfs;
mod device;
pub mod frames;
pub mod linked;
pub mod trace;
pub mod util;

pub use device::{Address, ConfigSpace, Pdf};

/// Mask of the bits from `$low` up to `$high`, both counted.
#[macro_export]
macro_rules! genmask_t {
    ($t:ty, $high:expr, $low:expr) => {
        (<$t>::MAX >> (<$t>::BITS - 1 - $high)) & (<$t>::MAX << $low)
    };
}
