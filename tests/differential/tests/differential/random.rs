//! A deterministic generator: splitmix64.

pub struct Random(u64);

impl Random {
    pub fn new(seed: u64) -> Random {
        Random(seed)
    }

    pub fn next(&mut self) -> u64 {
        self.0 = self.0.wrapping_add(0x9e37_79b9_7f4a_7c15);
        let mut z = self.0;
        z = (z ^ (z >> 30)).wrapping_mul(0xbf58_476d_1ce4_e5b9);
        z = (z ^ (z >> 27)).wrapping_mul(0x94d0_49bb_1331_11eb);
        z ^ (z >> 31)
    }

    /// A number below `n`.
    pub fn below(&mut self, n: usize) -> usize {
        (self.next() % n as u64) as usize
    }

    /// True once in `n` times.
    pub fn one_in(&mut self, n: usize) -> bool {
        self.below(n) == 0
    }

    pub fn pick<T: Copy>(&mut self, from: &[T]) -> T {
        from[self.below(from.len())]
    }

    pub fn fill(&mut self, bytes: &mut [u8]) {
        for chunk in bytes.chunks_mut(8) {
            chunk.copy_from_slice(&self.next().to_le_bytes()[..chunk.len()]);
        }
    }

    pub fn bytes(&mut self, len: usize) -> Vec<u8> {
        let mut bytes = vec![0; len];
        self.fill(&mut bytes);
        bytes
    }

    pub fn array<const N: usize>(&mut self) -> [u8; N] {
        let mut bytes = [0; N];
        self.fill(&mut bytes);
        bytes
    }

    /// 16 or 32 bytes as a key, IV or tag: mostly random, at times all zeros, all ones or a single bit.
    pub fn secret<const N: usize>(&mut self) -> [u8; N] {
        match self.below(20) {
            0 => [0; N],
            1 => [0xff; N],
            2 => {
                let mut bytes = [0; N];
                bytes[self.below(N)] = 1 << self.below(8);
                bytes
            }
            _ => self.array(),
        }
    }

    /// A length of at most `most`, often short, often at or beside a multiple of 16.
    pub fn length(&mut self, most: usize) -> usize {
        let length = match self.below(6) {
            0 => self.below(4),
            1 => self.below(50),
            2 => (16 * self.below(20) + self.below(3)).saturating_sub(1),
            3 => (16 * self.below(most / 16 + 1) + self.below(3)).saturating_sub(1),
            4 => self.below(300),
            _ => self.below(most + 1),
        };
        length.min(most)
    }
}
