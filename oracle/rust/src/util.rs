//! Hex numbers and UUIDs, written from document 01.

use uuid::Uuid;

/// Hex: `0x` at most once, then one or more digits of either case, within the width of `T`.
pub fn parse_hex<T: TryFrom<u64>>(text: &str) -> Option<T> {
    let digits = text.strip_prefix("0x").unwrap_or(text);
    if digits.is_empty() {
        return None;
    }
    let mut value: u64 = 0;
    for c in digits.chars() {
        value = value.checked_mul(16)? + u64::from(c.to_digit(16)?);
    }
    T::try_from(value).ok()
}

/// What a route was that could not be read.
#[derive(Debug)]
pub struct Unreadable;

/// A route is hex of 64 bits.
pub fn parse_route(text: &str) -> Result<u64, Unreadable> {
    parse_hex(text).ok_or(Unreadable)
}

/// Four dwords are a UUID, any other number of them is none.
pub fn u32_to_uuid(dwords: &[u32]) -> Option<Uuid> {
    let four: &[u32; 4] = dwords.try_into().ok()?;
    Some(uuid_of(four))
}

/// The first dword stands highest. Any one-to-one order would do, since book and packet share it.
pub fn uuid_of(dwords: &[u32; 4]) -> Uuid {
    Uuid::from_u128(dwords.iter().fold(0, |sum, &d| (sum << 32) | u128::from(d)))
}

/// The dwords that `uuid_of` took.
pub fn dwords_of(uuid: Uuid) -> [u32; 4] {
    let wide = uuid.as_u128();
    [96, 64, 32, 0].map(|shift| (wide >> shift) as u32)
}
