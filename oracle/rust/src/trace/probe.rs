//! What the oracle asks of the judged file. A child of it, so that it reaches the private readers.

pub mod lines;
pub mod packets;
mod stop;

pub use stop::{caught, watch};
