//! Ordinary traffic that fills boards: packets in at random nodes, mostly sensible moves, and
//! spells in which nothing is delivered.

use super::acts::{self, Mood};
use super::bench::Bench;
use super::sizes::{lend_cleared, Sizes};

const SPELL: usize = 120;

pub fn make(bench: &mut Bench) {
    let sizes = Sizes::any(&mut bench.dice);
    if sizes.slots() > 200 {
        bench.use_whole_script();
    }
    lend_cleared(bench, sizes, 0);
    while bench.open() {
        spell(bench, SPELL);
    }
}

pub fn spell(bench: &mut Bench, steps: usize) {
    let Some(grid) = bench.grid() else { return };
    let node = acts::node_byte(bench, &grid);
    let mood = Mood {
        delivering: bench.dice.percent(60),
        crowded: bench.dice.percent(50).then_some(node),
    };
    for _ in 0..steps {
        if bench.open() {
            step(bench, mood);
        }
    }
}

fn step(bench: &mut Bench, mood: Mood) {
    match bench.dice.below(100) {
        0..=19 => acts::take_in(bench, mood),
        20..=29 if !mood.delivering => acts::take_in(bench, mood),
        30..=31 => acts::try_every_code(bench),
        20..=91 => acts::move_something(bench, mood),
        92..=95 => acts::read_something(bench),
        _ => acts::look_at_the_whole_table(bench),
    }
}
