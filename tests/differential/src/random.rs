//! Seeded random values.

/// A generator of 64-bit numbers (splitmix64): the same seed gives the same numbers.
pub struct Random(pub u64);

impl Random {
    /// The next number.
    pub fn next(&mut self) -> u64 {
        self.0 = self.0.wrapping_add(0x9E37_79B9_7F4A_7C15);
        let a = (self.0 ^ self.0 >> 30).wrapping_mul(0xBF58_476D_1CE4_E5B9);
        let b = (a ^ a >> 27).wrapping_mul(0x94D0_49BB_1331_11EB);
        b ^ b >> 31
    }

    /// A number below `limit`.
    pub fn below(&mut self, limit: usize) -> usize {
        (self.next() % limit as u64) as usize
    }

    /// A number from `least` to `most`.
    pub fn between(&mut self, least: usize, most: usize) -> usize {
        least + self.below(most - least + 1)
    }

    /// True once in `times`.
    pub fn once_in(&mut self, times: usize) -> bool {
        self.below(times) == 0
    }

    /// One of some values.
    pub fn one_of<T: Copy>(&mut self, values: &[T]) -> T {
        values[self.below(values.len())]
    }

    /// So many bytes of any value.
    pub fn bytes(&mut self, count: usize) -> Vec<u8> {
        (0..count).map(|_| self.next() as u8).collect()
    }

    /// An array of bytes of any value.
    pub fn array<const N: usize>(&mut self) -> [u8; N] {
        std::array::from_fn(|_| self.next() as u8)
    }

    /// Bytes of the right size; once in sixteen of another.
    pub fn sized(&mut self, right: usize) -> Vec<u8> {
        let size = if self.once_in(16) {
            self.below(2 * right + 3)
        } else {
            right
        };
        self.bytes(size)
    }

    /// So many characters out of some.
    pub fn characters(&mut self, from: &[u8], count: usize) -> Vec<u8> {
        (0..count).map(|_| self.one_of(from)).collect()
    }

    /// From `least` to `most` characters out of some; once in sixteen fewer or more, and once in sixteen with another
    /// character.
    pub fn text(&mut self, from: &[u8], least: usize, most: usize, others: &[u8]) -> Vec<u8> {
        let length = match self.below(32) {
            0 => self.below(least),
            1 => self.between(most + 1, most + 12),
            2..=5 => self.one_of(&[least, most]),
            _ => self.between(least, most),
        };
        let mut text = self.characters(from, length);
        if self.once_in(16) {
            self.spoil(&mut text, others);
        }
        text
    }

    /// Digits, as [`Random::text`].
    pub fn digits(&mut self, least: usize, most: usize) -> Vec<u8> {
        self.text(b"0123456789", least, most, b"/:Aa \0\xB0\xFF")
    }

    /// Puts one of some characters, or any byte, in one place.
    pub fn spoil(&mut self, text: &mut [u8], with: &[u8]) {
        if text.is_empty() {
            return;
        }
        let place = self.below(text.len());
        text[place] = if self.once_in(4) {
            self.next() as u8
        } else {
            self.one_of(with)
        };
    }
}
