//! CRC-32 (IEEE 802.3, as in PNG and gzip) over little-endian words.

/// The tables of the eight bytes of two words.
const TABLES: [[u32; 256]; 8] = tables();

const fn tables() -> [[u32; 256]; 8] {
    let mut tables = [[0; 256]; 8];
    let mut byte = 0;
    while byte < 256 {
        let mut sum = byte as u32;
        let mut bit = 0;
        while bit < 8 {
            sum = if sum & 1 == 1 {
                sum >> 1 ^ 0xEDB8_8320
            } else {
                sum >> 1
            };
            bit += 1;
        }
        tables[0][byte] = sum;
        byte += 1;
    }
    let mut table = 1;
    while table < 8 {
        let mut byte = 0;
        while byte < 256 {
            let before = tables[table - 1][byte];
            tables[table][byte] = before >> 8 ^ tables[0][(before & 0xFF) as usize];
            byte += 1;
        }
        table += 1;
    }
    tables
}

/// A checksum under way.
#[derive(Copy, Clone)]
pub(super) struct Checksum(u32);

impl Checksum {
    pub(super) fn new() -> Self {
        Self(u32::MAX)
    }

    pub(super) fn add(&mut self, word: u32) {
        let [a, b, c, d] = (self.0 ^ word).to_le_bytes().map(usize::from);
        self.0 = TABLES[3][a] ^ TABLES[2][b] ^ TABLES[1][c] ^ TABLES[0][d];
    }

    /// Adds words two at a time, which takes half as long.
    pub(super) fn add_all(&mut self, words: &[u32]) {
        let (pairs, rest) = words.as_chunks();
        for [first, second] in pairs {
            let [a, b, c, d] = (self.0 ^ first).to_le_bytes().map(usize::from);
            let [e, f, g, h] = second.to_le_bytes().map(usize::from);
            let first = TABLES[7][a] ^ TABLES[6][b] ^ TABLES[5][c] ^ TABLES[4][d];
            self.0 = first ^ TABLES[3][e] ^ TABLES[2][f] ^ TABLES[1][g] ^ TABLES[0][h];
        }
        rest.iter().for_each(|word| self.add(*word));
    }

    pub(super) fn of(words: &[u32]) -> Self {
        let mut sum = Self::new();
        sum.add_all(words);
        sum
    }

    pub(super) fn value(self) -> u32 {
        !self.0
    }

    /// The checksum under way that has this value.
    pub(super) fn from_value(value: u32) -> Self {
        Self(!value)
    }
}

#[cfg(test)]
mod tests {
    use super::Checksum;

    #[test]
    fn the_checksum_is_the_usual_one() {
        // CRC-32 of the bytes of `12345678`, as gzip gives it.
        let words = [*b"1234", *b"5678"].map(u32::from_le_bytes);
        assert_eq!(Checksum::of(&words).value(), 0x9AE0_DAAF);
        assert_eq!(Checksum::new().value(), 0);
        // However many words are added at once.
        let words: Vec<u32> = (0..99u32)
            .map(|word| word.wrapping_mul(0x9E37_79B9))
            .collect();
        for len in 0..words.len() {
            let mut sum = Checksum::new();
            words[..len].iter().for_each(|word| sum.add(*word));
            assert_eq!(sum.value(), Checksum::of(&words[..len]).value());
        }
    }
}
