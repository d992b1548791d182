//! Buffers that are lent to the library.

const GUARD: usize = 32;
const GUARD_BYTE: u8 = 0xC3;

/// A target or an output between guard bytes.
#[derive(Default)]
pub struct Lent {
    bytes: Vec<u8>,
}

impl Lent {
    pub fn preset(&mut self, len: usize, old: u8) -> &mut [u8] {
        self.bytes.clear();
        self.bytes.resize(GUARD, GUARD_BYTE);
        self.bytes.resize(GUARD + len, old);
        self.bytes.resize(GUARD + len + GUARD, GUARD_BYTE);
        &mut self.bytes[GUARD..GUARD + len]
    }

    pub fn target(&self) -> &[u8] {
        &self.bytes[GUARD..self.bytes.len() - GUARD]
    }

    pub fn is_guarded(&self) -> bool {
        let after = self.bytes.len() - GUARD;
        let guards = self.bytes[..GUARD].iter().chain(&self.bytes[after..]);
        guards.copied().all(|byte| byte == GUARD_BYTE)
    }
}
