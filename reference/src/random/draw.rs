//! Seeded draws.

/// A seeded sequence of numbers (SplitMix64).
pub struct Draw(u64);

impl Draw {
    /// The sequence of a seed and the number of a journal or a log.
    pub fn new(seed: u64, number: u64) -> Draw {
        let mut draw = Draw(seed);
        let start = draw.next();
        Draw(start ^ number.wrapping_mul(0xD605_0BB5_7F0C_4E2B))
    }

    /// The next number of 64 bits.
    pub fn next(&mut self) -> u64 {
        self.0 = self.0.wrapping_add(0x9E37_79B9_7F4A_7C15);
        let mut mixed = self.0;
        mixed = (mixed ^ (mixed >> 30)).wrapping_mul(0xBF58_476D_1CE4_E5B9);
        mixed = (mixed ^ (mixed >> 27)).wrapping_mul(0x94D0_49BB_1331_11EB);
        mixed ^ (mixed >> 31)
    }

    /// A number from `low` to `high`, both included.
    pub fn between(&mut self, low: u64, high: u64) -> u64 {
        low + self.next() % (high - low + 1)
    }

    /// A byte from `low` to `high`, both included.
    pub fn byte(&mut self, low: u8, high: u8) -> u8 {
        self.between(low.into(), high.into()) as u8
    }

    /// A number of two bytes from `low` to `high`, both included.
    pub fn number(&mut self, low: u16, high: u16) -> u16 {
        self.between(low.into(), high.into()) as u16
    }

    /// True in `percent` of 100 draws.
    pub fn chance(&mut self, percent: u64) -> bool {
        self.next() % 100 < percent
    }

    /// One of the given items.
    pub fn pick<T: Copy>(&mut self, items: &[T]) -> T {
        items[(self.next() % items.len() as u64) as usize]
    }

    /// A number from 0 to `most`, often at an edge and of every magnitude.
    pub fn figure(&mut self, most: u32) -> u32 {
        let bits = 32 - most.leading_zeros();
        let figure = match self.between(0, 9) {
            0 => 0,
            1 => 1,
            2 => most,
            3 => most - most.min(1),
            4 | 5 => self.between(0, most.into()) as u32,
            _ => {
                let size = self.between(0, bits.into());
                (self.next() & ((1 << size) - 1)) as u32
            }
        };
        figure.min(most)
    }

    /// A number near `middle`, from 0 to `most`.
    pub fn near(&mut self, middle: u32, most: u32) -> u32 {
        let middle = u64::from(middle);
        let near = match self.between(0, 3) {
            0 => middle,
            1 => (middle + self.between(0, 2)).saturating_sub(1),
            2 => self.between(middle - middle / 8, middle + middle / 8),
            _ => self.between(middle / 2, middle + middle / 2),
        };
        near.min(most.into()) as u32
    }
}
