//! The judged readers as calls of a static library, to be timed beside ours in one process.

use crate::{
    book,
    debugfs::DATA_DIR,
    frames::{frames, packet},
    trace::probe::{lines, packets, watch},
};

/// Lines made ready beforehand, so that a timed call does nothing but read them.
pub struct Lines(Vec<String>);

/// Packets made ready beforehand.
pub struct Packets(Vec<(u8, Vec<u32>)>);

impl Lines {
    /// Lines that are not UTF-8 are left out: the judged reader cannot be given them.
    pub fn new(bytes: &[u8]) -> Option<Self> {
        let texts = frames(bytes)?
            .into_iter()
            .filter_map(|f| std::str::from_utf8(f).ok());
        Some(Self(texts.map(String::from).collect()))
    }

    pub fn count(&self) -> usize {
        self.0.len()
    }

    pub fn bytes(&self) -> usize {
        self.0.iter().map(String::len).sum()
    }

    pub fn run(&self) -> u64 {
        self.0
            .iter()
            .fold(0, |sum, line| sum.wrapping_add(lines::sum(line)))
    }
}

impl Packets {
    pub fn new(bytes: &[u8]) -> Option<Self> {
        frames(bytes)?
            .into_iter()
            .map(packet)
            .collect::<Option<_>>()
            .map(Self)
    }

    /// Without those that the judged reader refuses, by a panic mostly, which is not its reading.
    pub fn answered(self) -> Self {
        let answered = |(kind, dwords): &(u8, Vec<u32>)| packets::sum(*kind, dwords) > 0;
        Self(self.0.into_iter().filter(answered).collect())
    }

    pub fn count(&self) -> usize {
        self.0.len()
    }

    pub fn dwords(&self) -> usize {
        self.0.iter().map(|(_, dwords)| dwords.len()).sum()
    }

    pub fn run(&self) -> u64 {
        self.0.iter().fold(0, |sum, (kind, dwords)| {
            sum.wrapping_add(packets::sum(*kind, dwords))
        })
    }
}

/// Gives the process its one book. Answers false if the book is broken or not the first.
pub fn put_book(bytes: &[u8]) -> bool {
    watch();
    book::read(bytes).is_some_and(|book| DATA_DIR.put(&book))
}

/// Lines made ready from frames, to be given to `oracle_run_lines`; null if a frame is cut short.
///
/// # Safety
/// `bytes` points to `length` bytes.
#[unsafe(no_mangle)]
pub unsafe extern "C" fn oracle_make_lines(bytes: *const u8, length: usize) -> *const Lines {
    let bytes = unsafe { std::slice::from_raw_parts(bytes, length) };
    Lines::new(bytes).map_or(std::ptr::null(), |lines| Box::into_raw(Box::new(lines)))
}

/// Reads every line once and answers the sum.
///
/// # Safety
/// `lines` came from `oracle_make_lines` and is not null.
#[unsafe(no_mangle)]
pub unsafe extern "C" fn oracle_run_lines(lines: *const Lines) -> u64 {
    unsafe { &*lines }.run()
}

/// Both in one: frames to sum.
///
/// # Safety
/// `bytes` points to `length` bytes.
#[unsafe(no_mangle)]
pub unsafe extern "C" fn oracle_parse_lines(bytes: *const u8, length: usize) -> u64 {
    let bytes = unsafe { std::slice::from_raw_parts(bytes, length) };
    Lines::new(bytes).map_or(0, |lines| lines.run())
}

/// Gives the process its one book: 1, or 0 if it is broken or not the first.
///
/// # Safety
/// `bytes` points to `length` bytes.
#[unsafe(no_mangle)]
pub unsafe extern "C" fn oracle_put_book(bytes: *const u8, length: usize) -> u8 {
    put_book(unsafe { std::slice::from_raw_parts(bytes, length) }).into()
}

/// Packets made ready from frames; null if a frame is cut short.
///
/// # Safety
/// `bytes` points to `length` bytes.
#[unsafe(no_mangle)]
pub unsafe extern "C" fn oracle_make_packets(bytes: *const u8, length: usize) -> *const Packets {
    let bytes = unsafe { std::slice::from_raw_parts(bytes, length) };
    Packets::new(bytes).map_or(std::ptr::null(), |packets| Box::into_raw(Box::new(packets)))
}

/// Reads every packet once over the book that was put, and answers the sum.
///
/// # Safety
/// `packets` came from `oracle_make_packets` and is not null; a book was put.
#[unsafe(no_mangle)]
pub unsafe extern "C" fn oracle_run_packets(packets: *const Packets) -> u64 {
    unsafe { &*packets }.run()
}
