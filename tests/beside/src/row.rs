//! The small parts of a row.

use std::fmt::{self, Display};

/// A number or word, `-` for none.
pub struct OrNone<T>(pub Option<T>);

impl<T: Display> Display for OrNone<T> {
    fn fmt(&self, f: &mut fmt::Formatter<'_>) -> fmt::Result {
        match &self.0 {
            Some(value) => value.fmt(f),
            None => f.write_str("-"),
        }
    }
}

/// Two digits a byte.
pub fn put_hex(row: &mut String, text: &str) {
    let digit = |half: u8| char::from(b"0123456789abcdef"[usize::from(half)]);
    for byte in text.bytes() {
        row.push(digit(byte >> 4));
        row.push(digit(byte & 15));
    }
}

pub fn put_hex_or_none(row: &mut String, text: Option<&str>) {
    match text {
        Some(text) => put_hex(row, text),
        None => row.push('-'),
    }
}

/// Items between commas, `-` for an empty list.
pub fn put_list<T>(
    row: &mut String,
    items: impl IntoIterator<Item = T>,
    put: impl Fn(&mut String, T) -> fmt::Result,
) -> fmt::Result {
    let before = row.len();
    for item in items {
        if row.len() > before {
            row.push(',');
        }
        put(row, item)?;
    }
    if row.len() == before {
        row.push('-');
    }
    Ok(())
}
