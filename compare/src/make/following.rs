//! Following find until nothing is held, with copies of right and wrong lengths on the way.

use super::acts::{self, Mood};
use super::bench::Bench;
use super::sizes::{lend_cleared, Sizes};
use super::traffic;
use crate::script::Command;

pub fn make(bench: &mut Bench) {
    while bench.open() {
        let sizes = match bench.dice.percent(90) {
            true => Sizes::small(&mut bench.dice),
            false => Sizes::up_to(&mut bench.dice, 8, 8, 2),
        };
        lend_cleared(bench, sizes, 0);
        traffic::spell(bench, 60);
        fill(bench);
        follow(bench);
        bench.call(Command::Check);
        acts::copy(bench);
    }
}

fn fill(bench: &mut Bench) {
    for _ in 0..bench.dice.between(0, 30) {
        acts::take_in(bench, Mood::default());
    }
}

fn follow(bench: &mut Bench) {
    while bench.open() && acts::follow_find(bench).is_some() {
        match bench.dice.below(40) {
            0 => acts::take_in(bench, Mood::default()),
            1..=2 => acts::copy(bench),
            3 => drop(bench.call(Command::Check)),
            _ => {}
        }
    }
}
