//! A seeded generator: the same seed gives the same samples on every machine.

/// SplitMix64.
#[derive(Clone, Debug)]
pub struct Random {
    state: u64,
}

impl Random {
    /// A generator that starts at a seed.
    pub fn new(seed: u64) -> Self {
        Random { state: seed }
    }

    /// The next 64 bits.
    pub fn word(&mut self) -> u64 {
        self.state = self.state.wrapping_add(0x9E37_79B9_7F4A_7C15);
        let mut word = self.state;
        word = (word ^ (word >> 30)).wrapping_mul(0xBF58_476D_1CE4_E5B9);
        word = (word ^ (word >> 27)).wrapping_mul(0x94D0_49BB_1331_11EB);
        word ^ (word >> 31)
    }

    /// A number of 0..`n`; `n` is not 0.
    pub fn below(&mut self, n: usize) -> usize {
        assert!(n > 0, "nothing is below 0");
        // The upper half of the product, which is below n.
        ((u128::from(self.word()) * n as u128) >> 64) as usize
    }

    /// A number of `low`..=`high`.
    pub fn between(&mut self, low: usize, high: usize) -> usize {
        low + self.below(high - low + 1)
    }

    /// Any byte.
    pub fn byte(&mut self) -> u8 {
        self.word() as u8
    }

    /// Any byte but this one.
    pub fn other_byte(&mut self, byte: u8) -> u8 {
        byte.wrapping_add(self.between(1, 255) as u8)
    }

    /// Fills a slice with any bytes.
    pub fn fill(&mut self, bytes: &mut [u8]) {
        for byte in bytes {
            *byte = self.byte();
        }
    }

    /// As many bytes as asked for, each any.
    pub fn bytes(&mut self, length: usize) -> Vec<u8> {
        let mut bytes = vec![0; length];
        self.fill(&mut bytes);
        bytes
    }

    /// One of the items; there is one.
    pub fn pick<'a, T>(&mut self, items: &'a [T]) -> &'a T {
        &items[self.below(items.len())]
    }
}

#[cfg(test)]
mod tests {
    use super::*;

    #[test]
    fn words_are_those_published_for_splitmix64() {
        let mut random = Random::new(1_234_567);
        let words: [u64; 3] = std::array::from_fn(|_| random.word());
        let published = [
            6_457_827_717_110_365_317,
            3_203_168_211_198_807_973,
            9_817_491_932_198_370_423,
        ];
        assert_eq!(words, published);
    }

    #[test]
    fn ranges_are_kept_and_filled() {
        let mut random = Random::new(1);
        let mut below = [0; 7];
        let mut between = [0; 7];
        for _ in 0..1000 {
            below[random.below(7)] += 1;
            between[random.between(3, 5)] += 1;
        }
        assert!(below.iter().all(|count| *count > 0), "{below:?}");
        let [0, 0, 0, three, four, five, 0] = between else {
            panic!("outside 3..=5: {between:?}");
        };
        assert!(three > 0 && four > 0 && five > 0, "{between:?}");
    }

    #[test]
    fn other_byte_is_any_other() {
        let mut random = Random::new(2);
        let mut seen = [false; 256];
        for _ in 0..20_000 {
            seen[usize::from(random.other_byte(200))] = true;
        }
        let missing: Vec<usize> = (0..256).filter(|byte| !seen[*byte]).collect();
        assert_eq!(missing, [200]);
    }

    #[test]
    fn bytes_and_picks_are_spread() {
        let mut random = Random::new(3);
        let bytes = random.bytes(100_000);
        let mut counts = [0_usize; 256];
        for byte in bytes {
            counts[usize::from(byte)] += 1;
        }
        // 391 of each are expected.
        assert!(counts.iter().all(|count| (250..550).contains(count)));
        let picked: Vec<u8> = (0..100).map(|_| *random.pick(b"ab")).collect();
        assert!(picked.contains(&b'a') && picked.contains(&b'b'));
    }
}
