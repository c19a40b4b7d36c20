//! Dwords lent for writing, with more behind and before them, every one of them known.

use std::hint::black_box;

const GUARD: usize = 16;
/// At most so many are lent; over 256, so that a limit kept only for want of room would show.
pub const ROOM: usize = 512;
const ALL: usize = GUARD + ROOM + GUARD;

pub struct Lent {
    now: [u32; ALL],
    found: [u32; ALL],
}

impl Lent {
    /// No two dwords are alike, so that a copy of one in the place of another shows too.
    pub fn new() -> Self {
        let mut found = [0; ALL];
        for (dword, i) in found.iter_mut().zip(1u32..) {
            *dword = i.wrapping_mul(0x9e37_79b9);
        }
        Self { now: found, found }
    }

    /// The first `count` dwords behind the front guard.
    pub fn lend(&mut self, count: usize) -> &mut [u32] {
        &mut self.now[GUARD..GUARD + count]
    }

    /// The first `count` of those that were lent, to be read.
    pub fn first(&self, count: usize) -> &[u32] {
        &self.now[GUARD..GUARD + count]
    }

    /// Is every dword but the first `owned` of those lent as it was found? Those are put back.
    pub fn is_kept(&mut self, owned: usize) -> bool {
        let now = black_box(&mut self.now);
        let end = GUARD + owned;
        let kept = now[..GUARD] == self.found[..GUARD] && now[end..] == self.found[end..];
        let again = if kept { GUARD..end } else { 0..ALL };
        now[again.clone()].copy_from_slice(&self.found[again]);
        kept
    }
}
