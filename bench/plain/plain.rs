//! A line reader as one writes it in Rust by hand, to hold the proved one to: no proof, no regex, no allocation, no vector code, and nothing unsafe but
//! the C entry at the end. It answers what `ck_parse_lenient` answers; bench/lines.c compares the two before it times them.

const LONGEST: usize = 4096;
const MOST_DWORDS: usize = 256;

/// What an absent optional field says.
const NONE: u32 = u32::MAX;

/// `ck_entry`, field for field, so that the C entry has nothing to convert.
#[derive(Default)]
#[repr(C)]
pub struct Entry {
    pub task_at: usize,
    pub task_len: usize,
    pub pid: u32,
    pub cpu: u16,
    pub seconds: u64,
    pub microseconds: u64,
    pub function_at: usize,
    pub function_len: usize,
    pub kind: u8,
    pub size: u16,
    pub dropped: u8,
    pub domain: u32,
    pub route: u64,
    pub offset: u32,
    pub code: u32,
    pub len: u32,
    pub port: u32,
    pub config: u32,
    pub seq: u32,
    pub unplug: u32,
    pub dwords: usize,
}

/// The entry of a line, its dwords in the first slots; or the number that refuses the line, and then no slot changes. A piece of `data` that is no dword
/// is left out.
pub fn read(line: &[u8], slots: &mut [u32]) -> Result<Entry, u8> {
    if line.is_empty() || line == b"\n" || line[0] == b'#' {
        return Err(1);
    }
    if line.len() > LONGEST {
        return Err(2);
    }
    if !line.is_ascii() {
        return Err(3);
    }
    let colon = line.iter().rposition(|&byte| byte == b':').ok_or(4)?;
    let header_at = line[..colon].iter().position(|&byte| !is_blank(byte)).unwrap_or(colon);
    let header = Header::read(stripped(&line[header_at..colon]))?;
    let pairs = Pairs::read(stripped(&line[colon + 1..]));

    let kind = kind(pairs.kind.ok_or(11)?, header.function);
    let size = pairs.size.and_then(|text| decimal(text, u16::MAX.into())).ok_or(12)?;
    let domain = pairs.domain.and_then(|text| decimal(text, u32::MAX.into())).ok_or(13)?;
    let route = pairs.route.and_then(|text| hex(text, 64)).ok_or(14)?;
    let data = pairs.data.and_then(bracketed).ok_or(15)?;
    let dwords = read_dwords(data, slots)?;

    Ok(Entry {
        task_at: header_at,
        task_len: header.task_len,
        pid: header.pid,
        cpu: header.cpu,
        seconds: header.seconds,
        microseconds: header.microseconds,
        function_at: header_at + header.function_at,
        function_len: header.function.len(),
        kind,
        size: size as u16,
        dropped: (pairs.dropped.and_then(|text| decimal(text, u8::MAX.into())) == Some(1)).into(),
        domain: domain as u32,
        route,
        offset: optional(pairs.offset, |text| hex(text, 16)),
        code: optional(pairs.error, |text| hex(text, 8)),
        len: optional(pairs.len, |text| decimal(text, u16::MAX.into())),
        port: optional(pairs.port, |text| decimal(text, u8::MAX.into())),
        config: optional(pairs.config, |text| hex(text, 8)),
        seq: optional(pairs.seq, |text| decimal(text, u8::MAX.into())),
        unplug: optional(pairs.unplug, |text| hex(text, 8)),
        dwords,
    })
}

/// All before the payload. Places count from its start.
struct Header<'a> {
    task_len: usize,
    pid: u32,
    cpu: u16,
    seconds: u64,
    microseconds: u64,
    function_at: usize,
    function: &'a [u8],
}

impl<'a> Header<'a> {
    fn read(header: &'a [u8]) -> Result<Self, u8> {
        let end = header.iter().position(|&byte| byte == b' ').unwrap_or(header.len());
        let task_len = task_len(&header[..end]).ok_or(5)?;
        let pid = pid(&header[..end]).ok_or(6)?;
        let cpu = cpu(header).ok_or(7)?;
        let (seconds, microseconds) = timestamp(header).ok_or(8)?;
        let function_at = function_at(header).ok_or(9)?;
        Ok(Header { task_len, pid, cpu, seconds, microseconds, function_at, function: &header[function_at..] })
    }
}

/// The last dash ends the task, which is never empty.
fn task_len(run: &[u8]) -> Option<usize> {
    run.iter().rposition(|&byte| byte == b'-').filter(|&dash| dash > 0)
}

/// The digits behind the last dash that has a byte before it and a digit behind it. That may be an earlier dash than the task's.
fn pid(run: &[u8]) -> Option<u32> {
    let dash = (1..run.len().saturating_sub(1)).rev().find(|&at| run[at] == b'-' && run[at + 1].is_ascii_digit())?;
    let digits = &run[dash + 1..];
    decimal(&digits[..run_len(digits, is_digit)], u32::MAX.into()).map(|pid| pid as u32)
}

/// Three digits in brackets, the first such.
fn cpu(header: &[u8]) -> Option<u16> {
    let found = header.windows(5).find(|five| five[0] == b'[' && five[4] == b']' && five[1..4].iter().all(u8::is_ascii_digit))?;
    decimal(&found[1..4], 999).map(|cpu| cpu as u16)
}

/// The first whole digit run that goes on with a dot, digits, a colon and a blank. A run that does not is left behind as a whole, so that each digit is
/// looked at twice at most.
fn timestamp(header: &[u8]) -> Option<(u64, u64)> {
    let mut rest = header;
    loop {
        rest = &rest[rest.iter().position(|&byte| is_digit(byte))?..];
        let (seconds, behind) = rest.split_at(run_len(rest, is_digit));
        if let [b'.', behind @ ..] = behind {
            let (microseconds, behind) = behind.split_at(run_len(behind, is_digit));
            if !microseconds.is_empty() && matches!(*behind, [b':', blank, ..] if is_blank(blank)) {
                let most = i64::MAX as u64;
                return Some((decimal(seconds, most)?, decimal(microseconds, most)?));
            }
        }
        rest = behind;
    }
}

/// Where the word that ends the header starts. Blanks stand before it, and a colon before them.
fn function_at(header: &[u8]) -> Option<usize> {
    let at = header.iter().rposition(|&byte| !is_word(byte))? + 1;
    let colon = header[..at].iter().rposition(|&byte| !is_blank(byte))?;
    (at < header.len() && colon + 1 < at && header[colon] == b':').then_some(at)
}

/// The last value of each key that an entry knows.
#[derive(Default)]
struct Pairs<'a> {
    kind: Option<&'a [u8]>,
    size: Option<&'a [u8]>,
    dropped: Option<&'a [u8]>,
    domain: Option<&'a [u8]>,
    route: Option<&'a [u8]>,
    offset: Option<&'a [u8]>,
    error: Option<&'a [u8]>,
    len: Option<&'a [u8]>,
    port: Option<&'a [u8]>,
    config: Option<&'a [u8]>,
    seq: Option<&'a [u8]>,
    unplug: Option<&'a [u8]>,
    data: Option<&'a [u8]>,
}

impl<'a> Pairs<'a> {
    /// One walk over the payload.
    fn read(payload: &'a [u8]) -> Self {
        let mut pairs = Pairs::default();
        // No bracket behind this place closes, and knowing it keeps a line of open brackets from being searched to its end for each.
        let last_close = payload.iter().rposition(|&byte| byte == b']').unwrap_or(0);
        let mut at = 0;
        while at < payload.len() {
            let equals = at + run_len(&payload[at..], is_word);
            if equals == at {
                at += 1;
                continue;
            }
            let key = &payload[at..equals];
            // Any later start in this word meets the same fault, so the search goes on behind all of it.
            at = equals;
            if payload.get(equals) == Some(&b'=')
                && let Some(end) = value_end(payload, equals + 1, last_close)
            {
                pairs.put(key, &payload[equals + 1..end]);
                at = end;
            }
        }
        pairs
    }

    fn put(&mut self, key: &[u8], value: &'a [u8]) {
        let place = match key {
            b"type" => &mut self.kind,
            b"size" => &mut self.size,
            b"dropped" => &mut self.dropped,
            b"domain" => &mut self.domain,
            b"route" => &mut self.route,
            b"offset" => &mut self.offset,
            b"error" => &mut self.error,
            b"len" => &mut self.len,
            b"port" => &mut self.port,
            b"config" => &mut self.config,
            b"seq" => &mut self.seq,
            b"unplug" => &mut self.unplug,
            b"data" => &mut self.data,
            _ => return,
        };
        *place = Some(value);
    }
}

/// Where the value at a place ends: a word, or brackets with something in them.
fn value_end(payload: &[u8], at: usize, last_close: usize) -> Option<usize> {
    if payload.get(at) != Some(&b'[') {
        let len = run_len(&payload[at..], is_word);
        return (len > 0).then_some(at + len);
    }
    if at > last_close {
        return None;
    }
    let inside = payload[at + 1..].iter().position(|&byte| byte == b']')?;
    (inside > 0).then_some(at + inside + 2)
}

/// What stands in the brackets of a value that has them.
fn bracketed(value: &[u8]) -> Option<&[u8]> {
    value.strip_prefix(b"[")?.strip_suffix(b"]")
}

/// The dwords into the first slots, and how many they are. They are gathered aside first, since a line with too many of them leaves the slots alone.
fn read_dwords(data: &[u8], slots: &mut [u32]) -> Result<usize, u8> {
    let mut dwords = [0; MOST_DWORDS];
    let mut count = 0;
    let mut rest = Some(data);
    while let Some(text) = rest {
        let (piece, behind) = next_piece(text);
        rest = behind;
        if let Some(dword) = hex(piece, 32) {
            *dwords.get_mut(count).ok_or(16)? = dword as u32;
            count += 1;
        }
    }
    slots.get_mut(..count).ok_or(17)?.copy_from_slice(&dwords[..count]);
    Ok(count)
}

/// The text before the first comma-space, and what stands behind that if there is one.
fn next_piece(text: &[u8]) -> (&[u8], Option<&[u8]>) {
    match text.windows(2).position(|two| two == b", ") {
        Some(comma) => (&text[..comma], Some(&text[comma + 2..])),
        None => (text, None),
    }
}

/// The packet's kind. What is read and written goes by its direction too.
fn kind(name: &[u8], function: &[u8]) -> u8 {
    match (name.strip_prefix(b"TB_CFG_PKG_"), function) {
        (Some(b"READ"), b"tb_tx") => 1,
        (Some(b"READ"), b"tb_rx") => 2,
        (Some(b"WRITE"), b"tb_tx") => 3,
        (Some(b"WRITE"), b"tb_rx") => 4,
        (Some(b"ERROR"), _) => 5,
        (Some(b"NOTIFY_ACK"), _) => 6,
        (Some(b"EVENT"), _) => 7,
        (Some(b"XDOMAIN_REQ"), _) => 8,
        (Some(b"XDOMAIN_RESP"), _) => 9,
        (Some(b"ICM_EVENT"), _) => 10,
        (Some(b"ICM_CMD"), _) => 11,
        (Some(b"ICM_RESP"), _) => 12,
        _ => 0,
    }
}

/// An optional field, whose number is narrower than 32 bits.
fn optional(text: Option<&[u8]>, number: impl Fn(&[u8]) -> Option<u64>) -> u32 {
    text.and_then(number).map_or(NONE, |value| value as u32)
}

/// A decimal number, digits alone.
fn decimal(text: &[u8], most: u64) -> Option<u64> {
    let mut value = 0u64;
    for &byte in text {
        let digit = (byte as char).to_digit(10)?;
        value = value.checked_mul(10)?.checked_add(digit.into())?;
    }
    (!text.is_empty() && value <= most).then_some(value)
}

/// A hex number of so many bits, with `0x` before it or not.
fn hex(text: &[u8], bits: u32) -> Option<u64> {
    let digits = text.strip_prefix(b"0x").unwrap_or(text);
    let mut value = 0u64;
    for &byte in digits {
        let digit = (byte as char).to_digit(16)?;
        if value >> (bits - 4) != 0 {
            return None;
        }
        value = value << 4 | u64::from(digit);
    }
    (!digits.is_empty()).then_some(value)
}

/// Without the blanks at both ends. `trim_ascii` would leave a vertical tab.
fn stripped(text: &[u8]) -> &[u8] {
    let Some(last) = text.iter().rposition(|&byte| !is_blank(byte)) else { return &[] };
    let first = text.iter().position(|&byte| !is_blank(byte)).unwrap_or(0);
    &text[first..=last]
}

/// How many bytes at the start are of a sort.
fn run_len(text: &[u8], sort: impl Fn(u8) -> bool) -> usize {
    text.iter().position(|&byte| !sort(byte)).unwrap_or(text.len())
}

fn is_blank(byte: u8) -> bool {
    matches!(byte, 9..=13 | b' ')
}

fn is_digit(byte: u8) -> bool {
    byte.is_ascii_digit()
}

fn is_word(byte: u8) -> bool {
    byte.is_ascii_alphanumeric() || byte == b'_'
}

/// `ck_entry_answer`.
#[repr(C)]
pub struct Answer {
    number: u8,
    entry: Entry,
}

/// `read` for C, called as `ck_parse_lenient` is.
///
/// # Safety
/// Both pointers are valid for as many elements as their counts say, and the slots overlap nothing.
#[unsafe(no_mangle)]
pub unsafe extern "C" fn plain_parse(line: *const u8, length: usize, slots: *mut u32, count: usize) -> Answer {
    let (line, slots) = unsafe { (std::slice::from_raw_parts(line, length), std::slice::from_raw_parts_mut(slots, count)) };
    match read(line, slots) {
        Ok(entry) => Answer { number: 0, entry },
        Err(number) => Answer {
            number,
            entry: Entry { offset: NONE, code: NONE, len: NONE, port: NONE, config: NONE, seq: NONE, unplug: NONE, ..Entry::default() },
        },
    }
}
