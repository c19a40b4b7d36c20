//! The small parts that answers are written with.

use std::fmt::Display;

/// A number or word, `-` for none.
pub fn or_none<T: Display>(one: Option<T>) -> String {
    one.map_or("-".into(), |value| value.to_string())
}

/// Bytes in hex.
pub fn hex(bytes: &[u8]) -> String {
    bytes.iter().map(|b| format!("{b:02x}")).collect()
}

pub fn hex_or_none(text: Option<&str>) -> String {
    or_none(text.map(|t| hex(t.as_bytes())))
}

/// Items between separators, `-` for an empty list.
pub fn list<T: Display>(items: impl IntoIterator<Item = T>, separator: &str) -> String {
    let all: Vec<String> = items.into_iter().map(|item| item.to_string()).collect();
    or_none((!all.is_empty()).then(|| all.join(separator)))
}

pub fn bit(value: bool) -> u8 {
    value.into()
}
