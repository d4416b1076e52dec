//! A small xorshift generator, shared by the test programs.

pub struct Random(u64);

impl Random {
    /// The seed must not be 0.
    pub fn new(seed: u64) -> Random {
        Random(seed)
    }

    pub fn next(&mut self) -> u64 {
        self.0 ^= self.0 << 13;
        self.0 ^= self.0 >> 7;
        self.0 ^= self.0 << 17;
        self.0
    }

    /// A number below the limit.
    pub fn below(&mut self, limit: u64) -> u64 {
        (self.next() >> 11) % limit
    }

    /// Puts them in any order.
    pub fn shuffle<T>(&mut self, all: &mut [T]) {
        for k in 1..all.len() {
            all.swap(k, self.below(k as u64 + 1) as usize);
        }
    }

    pub fn word(&mut self) -> u16 {
        self.below(65_536) as u16
    }

    /// A register's content, edges more often than by chance.
    pub fn value(&mut self) -> u16 {
        const EDGES: [u16; 8] = [0, 1, 2, 0x7FFF, 0x8000, 0x8001, 0xFFFE, 0xFFFF];
        match self.below(3) {
            0 => EDGES[self.below(8) as usize],
            1 => self.below(64) as u16,
            _ => self.word(),
        }
    }

    /// An instruction word, nearly always assigned.
    pub fn instruction(&mut self) -> u16 {
        if self.below(200) == 0 {
            return self.word();
        }
        let w = (self.below(13) * 4_096 + self.below(4_096)) as u16;
        match w / 4_096 {
            1 => w - w % 8 + [0, 1, 3, 4, 5][self.below(5) as usize],
            // Few divisions, or runs soon end before a zero divisor.
            11 => w - w % 8 + [0, 0, 1, 1, 2, 2, 4, 5][self.below(8) as usize],
            // Often the key's ports.
            10 if self.below(2) == 0 => w - w % 256 + self.below(3) as u16,
            // Few jumps, or runs soon end in a short loop.
            7 | 8 | 12 if self.below(2) == 0 => 0x2000 + w % 4_096,
            12 => w - w % 8 + [0, 0, 0, 1, 3, 3, 3, 2][self.below(8) as usize],
            _ => w,
        }
    }
}
