//! Scripts made from seeds. The seed alone decides the script, its recipe included.

mod acts;
mod bench;
mod damage;
mod dice;
mod edges;
mod following;
mod forge;
mod forged;
mod malformed;
mod packed;
mod prefix;
mod queues;
mod random_calls;
mod right_of_way;
mod sizes;
mod spoiled_targets;
mod taken_end;
mod traffic;

use bench::Bench;
pub use dice::Dice;

type Recipe = fn(&mut Bench);

/// The malformed scripts come after these: they are bytes, not commands on a bench.
const RECIPES: &[(&str, Recipe)] = &[
    ("traffic", traffic::make),
    ("random calls", random_calls::make),
    ("damage", damage::make),
    ("edges", edges::make),
    ("spoiled targets", spoiled_targets::make),
    ("taken near its end", taken_end::make),
    ("bytes before the table", prefix::make),
    ("following find", following::make),
    ("packed boards", packed::make),
    ("forged packets", forged::make),
    ("right of way", right_of_way::make),
];

/// Consecutive seeds go through the recipes in turn, the malformed scripts last.
const TURN: u64 = RECIPES.len() as u64 + 1;

fn recipe(seed: u64) -> Option<(&'static str, Recipe)> {
    let number = usize::try_from(seed % TURN).ok()?;
    RECIPES.get(number).copied()
}

pub fn recipe_name(seed: u64) -> &'static str {
    recipe(seed).map_or("malformed", |(name, _)| name)
}

pub fn script(seed: u64) -> Vec<u8> {
    let dice = Dice::new(seed);
    match recipe(seed) {
        Some((_, make)) => {
            let mut bench = Bench::new(dice);
            make(&mut bench);
            bench.finish()
        }
        None => malformed::make(dice),
    }
}

#[cfg(test)]
mod tests {
    use super::*;
    use crate::calls::SecondRouter;
    use crate::script::SCRIPT_MOST;
    use crate::second::run;

    fn last_line(script: &[u8]) -> String {
        let lines = run(script, &SecondRouter);
        lines
            .last()
            .map(|line| line.text.clone())
            .unwrap_or_default()
    }

    #[test]
    fn a_seed_makes_the_same_script_again() {
        for seed in 0..20 {
            assert_eq!(script(seed), script(seed));
            assert_ne!(script(seed), script(seed + TURN));
        }
    }

    #[test]
    fn scripts_have_their_length_and_show_the_slice_at_the_end() {
        for seed in 0..60 {
            let script = script(seed);
            if recipe(seed).is_some() {
                assert!(script.len() <= SCRIPT_MOST, "seed {seed}");
                assert_eq!(script.last(), Some(&b'W'), "seed {seed}");
                assert!(last_line(&script).starts_with("bytes "), "seed {seed}");
            } else {
                assert!(script.len() <= SCRIPT_MOST + 1, "seed {seed}");
            }
        }
    }

    #[test]
    fn most_of_the_malformed_scripts_are_malformed() {
        let seeds = (0..40 * TURN).filter(|seed| recipe(*seed).is_none());
        let ends = seeds.map(|seed| last_line(&script(seed)));
        let malformed = ends.filter(|end| end.starts_with("malformed at ")).count();
        assert!(malformed > 20, "{malformed} of 40");
    }

    #[test]
    fn no_table_that_a_script_makes_is_stuck() {
        let stuck = format!("find 0 {} 0", usize::MAX);
        for seed in 0..10 * TURN {
            let lines = run(&script(seed), &SecondRouter);
            assert!(lines.iter().all(|line| line.text != stuck), "seed {seed}");
        }
    }
}
