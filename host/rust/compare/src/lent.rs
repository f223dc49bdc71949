//! Memory that is lent to a compiled function, with guards before and behind it.

use generator::Random;

/// What guards, and memory that is not yet written to, hold.
pub trait Fill: Copy + PartialEq {
    const FILL: Self;

    /// Any value.
    fn of_word(word: u64) -> Self;
}

impl Fill for u8 {
    const FILL: u8 = 0xA5;

    fn of_word(word: u64) -> u8 {
        word as u8
    }
}

impl Fill for i32 {
    const FILL: i32 = 0x5A5A_5A5A;

    fn of_word(word: u64) -> i32 {
        word as i32
    }
}

impl Fill for u32 {
    const FILL: u32 = 0x5A5A_5A5A;

    fn of_word(word: u64) -> u32 {
        word as u32
    }
}

impl Fill for i64 {
    const FILL: i64 = 0x5A5A_5A5A_5A5A_5A5A;

    fn of_word(word: u64) -> i64 {
        word as i64
    }
}

/// Where a host takes the memory that it lends to be written: filled as guards are, or with any contents, from a seed.
#[derive(Clone, Debug)]
pub struct Memory {
    contents: Option<Random>,
}

impl Memory {
    pub const FILLED: Memory = Memory { contents: None };

    pub fn with_any_contents(seed: u64) -> Memory {
        Memory {
            contents: Some(Random::new(seed)),
        }
    }

    /// A slice of a length.
    pub fn lend<T: Fill>(&mut self, length: usize) -> Lent<T> {
        let mut lent = Lent::filled(length);
        if let Some(random) = &mut self.contents {
            lent.slice_mut().fill_with(|| T::of_word(random.word()));
        }
        lent
    }
}

/// How much memory stands on either side, to see that nothing is written there.
const GUARD: usize = 8;

/// A slice to lend.
#[derive(Clone)]
pub struct Lent<T> {
    memory: Vec<T>,
}

impl<T: Fill> Lent<T> {
    /// A slice of these contents.
    pub fn of(contents: &[T]) -> Lent<T> {
        let guard = [T::FILL; GUARD];
        Lent {
            memory: [&guard, contents, &guard].concat(),
        }
    }

    /// A slice of a length.
    pub fn filled(length: usize) -> Lent<T> {
        Lent {
            memory: vec![T::FILL; length + 2 * GUARD],
        }
    }

    pub fn slice(&self) -> &[T] {
        &self.memory[GUARD..self.memory.len() - GUARD]
    }

    pub fn slice_mut(&mut self) -> &mut [T] {
        let end = self.memory.len() - GUARD;
        &mut self.memory[GUARD..end]
    }

    /// Whether the slice holds what is expected, then places as they were filled, and the guards stand.
    pub fn holds(&self, expected: &[T]) -> bool {
        self.slice().starts_with(expected)
            && self.slice()[expected.len()..].iter().all(is_fill)
            && self.guarded()
    }

    /// Whether the guards stand.
    pub fn guarded(&self) -> bool {
        let (before, rest) = self.memory.split_at(GUARD);
        let behind = &rest[rest.len() - GUARD..];
        before.iter().chain(behind).all(is_fill)
    }
}

fn is_fill<T: Fill>(place: &T) -> bool {
    *place == T::FILL
}
