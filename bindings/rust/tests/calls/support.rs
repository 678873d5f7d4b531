//! What the tests share: a generator of numbers, and indexes with memory beyond what they need.

use upbit::{Fence, Header, Index, Room, Shape};

/// A generator of numbers (xorshift64*); the same seed gives the same numbers.
pub struct Generator(u64);

impl Generator {
    pub fn new(seed: u64) -> Generator {
        Generator(seed.wrapping_mul(0x9e37_79b9_7f4a_7c15) | 1)
    }

    pub fn word(&mut self) -> u32 {
        self.0 ^= self.0 >> 12;
        self.0 ^= self.0 << 25;
        self.0 ^= self.0 >> 27;
        (self.0.wrapping_mul(0x2545_f491_4f6c_dd1d) >> 32) as u32
    }

    pub fn below(&mut self, bound: u32) -> u32 {
        self.word() % bound
    }
}

/// A pattern that no call writes by chance.
pub const BEYOND_WORD: u32 = 0x5eed_5eed;
pub const BEYOND_FENCE: Fence = Fence {
    place: BEYOND_WORD,
    first: BEYOND_WORD,
};

/// Memory for an index of a shape, and five words and three fences beyond.
pub fn memory_beyond(shape: Shape) -> (Vec<u32>, Vec<Fence>) {
    let room = Room::of(shape).expect("a shape within the limits");
    let words = vec![BEYOND_WORD; room.words + 5];
    let fences = vec![BEYOND_FENCE; room.fences + 3];
    (words, fences)
}

/// A loaded index that owns such memory.
pub fn loaded(column: &[u8], shape: Shape) -> Index {
    let (words, fences) = memory_beyond(shape);
    let mut index = Index::from_parts(Header::default(), words, fences);
    index.load(column, shape).expect("an accepted load");
    index
}
