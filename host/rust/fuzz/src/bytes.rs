//! The fuzzer's bytes as numbers. Where they end, zeros go on, so that any bytes say everything.

pub struct Bytes<'a> {
    rest: &'a [u8],
}

impl<'a> Bytes<'a> {
    pub fn new(rest: &'a [u8]) -> Bytes<'a> {
        Bytes { rest }
    }

    pub fn is_empty(&self) -> bool {
        self.rest.is_empty()
    }

    /// The next bytes.
    pub fn take<const N: usize>(&mut self) -> [u8; N] {
        let mut taken = [0; N];
        let (now, rest) = self.rest.split_at(N.min(self.rest.len()));
        taken[..now.len()].copy_from_slice(now);
        self.rest = rest;
        taken
    }

    pub fn byte(&mut self) -> u8 {
        self.take::<1>()[0]
    }

    pub fn u16(&mut self) -> u16 {
        u16::from_le_bytes(self.take())
    }

    pub fn u32(&mut self) -> u32 {
        u32::from_le_bytes(self.take())
    }

    pub fn i32(&mut self) -> i32 {
        i32::from_le_bytes(self.take())
    }

    pub fn u64(&mut self) -> u64 {
        u64::from_le_bytes(self.take())
    }

    pub fn i64(&mut self) -> i64 {
        i64::from_le_bytes(self.take())
    }

    /// So many of the next bytes, or as many as there are.
    pub fn part(&mut self, length: usize) -> &'a [u8] {
        let (part, rest) = self.rest.split_at(length.min(self.rest.len()));
        self.rest = rest;
        part
    }

    /// A length: mostly the one that is asked for, by bytes from 128 on a few less or a few more.
    pub fn length(&mut self, asked: usize) -> usize {
        match self.byte() {
            0..=127 => asked,
            less @ 128..=191 => asked.saturating_sub(usize::from(less) - 127),
            more => asked + usize::from(more) - 191,
        }
    }
}
