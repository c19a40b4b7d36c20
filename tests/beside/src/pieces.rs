//! Whether a line has a bad piece, from document 01's words alone: neither reader is asked.

/// Is a piece of the line's `data` no hex number of 32 bits? Where `data` is missing or not in brackets, none is.
pub fn any_bad(line: &[u8]) -> bool {
    let text = str::from_utf8(line).unwrap_or_default();
    let payload = text.rsplit_once(':').map_or("", |(_, behind)| behind);
    last_data(payload).is_some_and(|inner| inner.split(", ").any(|piece| !is_dword(piece)))
}

/// `0x` at most once, then digits of either case; zeros in front do not count.
fn is_dword(piece: &str) -> bool {
    let digits = piece.strip_prefix("0x").unwrap_or(piece);
    let hex = !digits.is_empty() && digits.bytes().all(|byte| byte.is_ascii_hexdigit());
    hex && digits.trim_start_matches('0').len() <= 8
}

/// What stands in the brackets of the last pair of `data`.
fn last_data(payload: &str) -> Option<&str> {
    let (mut rest, mut last) = (payload, None);
    while !rest.is_empty() {
        let key = word(rest);
        let value = value(&rest[key.len()..]).filter(|_| !key.is_empty());
        if key == "data" {
            last = value.or(last);
        }
        // A later start in the same word run would be given up at the same byte.
        let next = value.map_or(key.len().max(1), |value| key.len() + 1 + value.len());
        rest = rest.get(next..).unwrap_or_default();
    }
    last?.strip_prefix('[')?.strip_suffix(']')
}

/// The word run that the text starts with.
fn word(text: &str) -> &str {
    let is_word = |byte: u8| byte.is_ascii_alphanumeric() || byte == b'_';
    let len = text.bytes().take_while(|&byte| is_word(byte)).count();
    &text[..len]
}

/// The value behind `=`: a word run, or brackets with a byte in them.
fn value(text: &str) -> Option<&str> {
    let behind = text.strip_prefix('=')?;
    let run = word(behind);
    if !run.is_empty() {
        return Some(run);
    }
    let close = behind.strip_prefix('[')?.find(']')?;
    (close > 0).then(|| &behind[..close + 2])
}
