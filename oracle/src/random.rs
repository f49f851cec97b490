//! A generator whose numbers depend on the seed alone, so that a run can be made again.

pub struct Random(u64);

impl Random {
    /// The numbers of one run of a seed.
    pub fn of_run(seed: u64, run: u64) -> Random {
        let mixed = (seed ^ run.wrapping_mul(0x9E37_79B9_7F4A_7C15)).wrapping_add(0x2545_F491_4F6C_DD1D);
        let mut random = Random(mixed | 1);
        // neighbouring seeds differ in few bits at first
        for _ in 0..8 {
            random.number();
        }
        random
    }

    /// xorshift64*.
    pub fn number(&mut self) -> u64 {
        self.0 ^= self.0 >> 12;
        self.0 ^= self.0 << 25;
        self.0 ^= self.0 >> 27;
        self.0.wrapping_mul(0x2545_F491_4F6C_DD1D)
    }

    pub fn below(&mut self, n: usize) -> usize {
        ((self.number() >> 32) as usize) % n
    }

    /// Once in n times.
    pub fn once_in(&mut self, n: usize) -> bool {
        self.below(n) == 0
    }

    pub fn octet(&mut self) -> u8 {
        (self.number() >> 56) as u8
    }

    pub fn word(&mut self) -> u16 {
        (self.number() >> 48) as u16
    }

    pub fn octets<const N: usize>(&mut self) -> [u8; N] {
        std::array::from_fn(|_| self.octet())
    }

    pub fn fill(&mut self, octets: &mut [u8]) {
        for part in octets.chunks_mut(8) {
            part.copy_from_slice(&self.number().to_le_bytes()[..part.len()]);
        }
    }

    /// The numbers below n in any order.
    pub fn shuffled(&mut self, n: u8) -> Vec<u8> {
        let mut list: Vec<u8> = (0..n).collect();
        for at in (1..list.len()).rev() {
            list.swap(at, self.below(at + 1));
        }
        list
    }

    pub fn pick<T: Copy>(&mut self, from: &[T]) -> T {
        from[self.below(from.len())]
    }

    /// One of the values, or a neighbour of one.
    pub fn near(&mut self, values: &[u16]) -> u16 {
        let value = self.pick(values);
        self.pick(&[value, value, value.wrapping_sub(1), value.wrapping_add(1)])
    }

    /// A word within a range, mostly; else one around its ends, or any.
    pub fn around(&mut self, low: u16, high: u16) -> u16 {
        match self.below(16) {
            0 => self.near(&[low]),
            1 => self.near(&[high]),
            2 => self.word(),
            _ => low + self.below(usize::from(high - low) + 1) as u16,
        }
    }

    /// An octet up to a limit, mostly; else one just above it, or any.
    pub fn up_to(&mut self, limit: u8) -> u8 {
        match self.below(16) {
            0 => limit.wrapping_add(1),
            1 => self.octet(),
            _ => self.below(usize::from(limit) + 1) as u8,
        }
    }
}
