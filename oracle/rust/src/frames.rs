//! Frames: a length of four bytes, low byte first, then that many bytes.

/// The frames of a file, none if the last one is cut short.
pub fn frames(mut rest: &[u8]) -> Option<Vec<&[u8]>> {
    let mut all = Vec::new();
    while !rest.is_empty() {
        let (length, behind) = rest.split_first_chunk::<4>()?;
        let (body, behind) = behind.split_at_checked(u32::from_le_bytes(*length) as usize)?;
        all.push(body);
        rest = behind;
    }
    Some(all)
}

/// A packet's frame: the kind byte, then whole dwords, low byte first.
pub fn packet(frame: &[u8]) -> Option<(u8, Vec<u32>)> {
    let (&kind, body) = frame.split_first()?;
    let (dwords, rest) = body.as_chunks::<4>();
    if !rest.is_empty() {
        return None;
    }
    Some((
        kind,
        dwords.iter().map(|d| u32::from_le_bytes(*d)).collect(),
    ))
}
