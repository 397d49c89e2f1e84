//! Numbers from a seed (splitmix64), so that a script can be made again.

pub struct Dice {
    state: u64,
}

impl Dice {
    pub fn new(seed: u64) -> Dice {
        Dice { state: seed }
    }

    pub fn next(&mut self) -> u64 {
        self.state = self.state.wrapping_add(0x9E37_79B9_7F4A_7C15);
        let mut mixed = self.state;
        mixed = (mixed ^ (mixed >> 30)).wrapping_mul(0xBF58_476D_1CE4_E5B9);
        mixed = (mixed ^ (mixed >> 27)).wrapping_mul(0x94D0_49BB_1331_11EB);
        mixed ^ (mixed >> 31)
    }

    /// 0 when `bound` is 0.
    pub fn below(&mut self, bound: usize) -> usize {
        let drawn = self.next().checked_rem(bound as u64);
        usize::try_from(drawn.unwrap_or(0)).unwrap_or(0)
    }

    pub fn between(&mut self, least: usize, most: usize) -> usize {
        let span = most.saturating_sub(least).saturating_add(1);
        least.saturating_add(self.below(span))
    }

    pub fn percent(&mut self, share: usize) -> bool {
        self.below(100) < share
    }

    pub fn pick<T: Copy + Default>(&mut self, choices: &[T]) -> T {
        let drawn = self.below(choices.len());
        choices.get(drawn).copied().unwrap_or_default()
    }

    pub fn byte(&mut self) -> u8 {
        let [byte, ..] = self.next().to_le_bytes();
        byte
    }

    pub fn number(&mut self) -> u32 {
        let [b0, b1, b2, b3, ..] = self.next().to_le_bytes();
        u32::from_le_bytes([b0, b1, b2, b3])
    }

    pub fn payload(&mut self) -> [u8; 8] {
        self.next().to_le_bytes()
    }
}
