//! Sizes of grids, the clears that ask for them, and the slices lent for them.

use super::bench::Bench;
use super::dice::Dice;
use crate::script::Command;

const PROFILES: [u32; 3] = [0, 1, 2];
/// Past the profiles by one or by far, and numbers that are a profile once cut to fewer bits.
const NO_PROFILES: [u32; 8] = [3, 4, 255, 256, 257, 65_538, 1 << 31, u32::MAX];

#[derive(Clone, Copy, Debug, Default)]
pub struct Sizes {
    pub width: u32,
    pub height: u32,
    pub depth: u32,
}

impl Sizes {
    /// Each size drawn up to the most given for it.
    pub fn up_to(dice: &mut Dice, width: usize, height: usize, depth: usize) -> Sizes {
        let mut draw = |most| u32::try_from(dice.between(1, most)).unwrap_or(1);
        Sizes {
            width: draw(width),
            height: draw(height),
            depth: draw(depth),
        }
    }

    pub fn small(dice: &mut Dice) -> Sizes {
        Sizes::up_to(dice, 4, 4, 3)
    }

    pub fn any(dice: &mut Dice) -> Sizes {
        match dice.below(20) {
            0..=9 => Sizes::up_to(dice, 3, 3, 1),
            10..=15 => Sizes::small(dice),
            16 => Sizes::up_to(dice, 1, 16, 7),
            17 => Sizes::up_to(dice, 16, 1, 7),
            _ => Sizes::up_to(dice, 16, 16, 7),
        }
    }

    pub fn slots(&self) -> u32 {
        self.width * self.height * (1 + 2 * self.depth)
    }

    pub fn length(&self) -> u32 {
        16 * self.slots() + 16
    }

    /// With any profile that there is; depth 5 is asked for as 0 now and then.
    pub fn clear(&self, dice: &mut Dice) -> Command {
        let zero = self.depth == 5 && dice.percent(50);
        let asked = Sizes {
            depth: if zero { 0 } else { self.depth },
            ..*self
        };
        asked.clear_with(dice.pick(&PROFILES))
    }

    pub fn clear_with_no_profile(&self, dice: &mut Dice) -> Command {
        self.clear_with(dice.pick(&NO_PROFILES))
    }

    fn clear_with(&self, profile: u32) -> Command {
        Command::Clear {
            width: self.width,
            height: self.height,
            depth: self.depth,
            profile,
        }
    }
}

pub fn lend_cleared(bench: &mut Bench, sizes: Sizes, prefix: u32) {
    let length = sizes.length() + prefix;
    bench.put(Command::Lend { length });
    if bench.dice.percent(5) {
        let refused = sizes.clear_with_no_profile(&mut bench.dice);
        bench.call(refused);
    }
    let clear = sizes.clear(&mut bench.dice);
    bench.call(clear);
}
