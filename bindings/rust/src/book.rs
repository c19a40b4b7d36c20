//! The book of field descriptions.
use crate::{Refusal, raw};

/// A book that passed the check of its grammar. Packets are described by one ([`crate::Entry::packet`]): its grammar is known to hold before any is asked.
#[derive(Clone, Copy, Debug)]
pub struct Book<'b> {
    bytes: &'b [u8],
}

impl<'b> Book<'b> {
    /// The book of these bytes, or [`Refusal::BadBook`].
    pub fn check(bytes: &'b [u8]) -> Result<Self, Refusal> {
        raw::book_check(bytes).map_err(Refusal::from_number)?;
        Ok(Self { bytes })
    }

    /// Its bytes.
    pub fn bytes(self) -> &'b [u8] {
        self.bytes
    }
}
