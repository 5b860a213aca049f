//! Buffers that are lent to the proved engine, with guard bytes around them.

const GUARD_SIZE: usize = 64;

/// A copy of some bytes between guard bytes.
pub struct Guarded {
    bytes: Vec<u8>,
}

impl Guarded {
    pub fn new(content: &[u8]) -> Guarded {
        let mut bytes = Vec::with_capacity(content.len() + 2 * GUARD_SIZE);
        bytes.extend((0..GUARD_SIZE).map(front_guard));
        bytes.extend_from_slice(content);
        bytes.extend((0..GUARD_SIZE).map(back_guard));
        Guarded { bytes }
    }

    /// Where the lent bytes begin. The pointer may reach the guard bytes too,
    /// so that a stray write is seen instead of being undefined.
    pub fn pointer(&mut self) -> *mut u8 {
        self.bytes[..].as_mut_ptr().wrapping_add(GUARD_SIZE)
    }

    pub fn len(&self) -> usize {
        self.bytes.len() - 2 * GUARD_SIZE
    }

    pub fn content(&self) -> &[u8] {
        &self.bytes[GUARD_SIZE..self.bytes.len() - GUARD_SIZE]
    }

    /// Whether every guard byte has survived.
    pub fn is_intact(&self) -> bool {
        let (front, rest) = self.bytes.split_at(GUARD_SIZE);
        let back = &rest[self.len()..];
        front.iter().enumerate().all(|(index, &byte)| byte == front_guard(index))
            && back.iter().enumerate().all(|(index, &byte)| byte == back_guard(index))
    }
}

// The guard bytes differ from place to place, so that a shifted copy shows too.
fn front_guard(index: usize) -> u8 {
    0xC0 ^ index as u8
}

fn back_guard(index: usize) -> u8 {
    0x3F ^ index as u8
}
