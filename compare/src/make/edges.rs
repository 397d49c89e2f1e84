//! Sizes at the edges, and numbers at the ends of their ranges.

use super::acts::{self, Mood};
use super::bench::Bench;
use super::sizes::Sizes;
use super::traffic;
use crate::script::Command;

const CORNERS: [(u32, u32); 4] = [(1, 1), (1, 16), (16, 1), (16, 16)];

pub fn make(bench: &mut Bench) {
    while bench.open() {
        let (width, height) = bench.dice.pick(&CORNERS);
        let depth = bench.dice.pick(&[1, 5, 7, 7]);
        let sizes = Sizes {
            width,
            height,
            depth,
        };
        lend_at_the_edge(bench, sizes);
        for _ in 0..bench.dice.between(30, 200) {
            if bench.open() {
                one(bench, sizes);
            }
        }
    }
}

fn lend_at_the_edge(bench: &mut Bench, sizes: Sizes) {
    for length in [sizes.length() - 1, sizes.length()] {
        bench.put(Command::Lend { length });
        if bench.dice.percent(30) {
            let refused = sizes.clear_with_no_profile(&mut bench.dice);
            bench.call(refused);
        }
        let clear = sizes.clear(&mut bench.dice);
        bench.call(clear);
    }
    for outside in sizes_just_outside(sizes) {
        if bench.dice.percent(30) {
            let refused = outside.clear(&mut bench.dice);
            bench.call(refused);
        }
    }
}

fn sizes_just_outside(sizes: Sizes) -> [Sizes; 5] {
    [
        Sizes { width: 0, ..sizes },
        Sizes { height: 0, ..sizes },
        Sizes { width: 17, ..sizes },
        Sizes {
            height: 17,
            ..sizes
        },
        Sizes { depth: 8, ..sizes },
    ]
}

fn one(bench: &mut Bench, sizes: Sizes) {
    let command = match bench.dice.below(12) {
        0..=2 => Command::TakeIn {
            source: node_at_an_end(bench, sizes),
            destination: node_at_an_end(bench, sizes),
            payload: bench.dice.payload(),
        },
        3..=4 => Command::Move {
            slot: slot_at_an_end(bench, sizes),
            code: code_at_an_end(bench),
        },
        5 => Command::Payload {
            slot: slot_at_an_end(bench, sizes),
        },
        6 => return acts::look_at_the_whole_table(bench),
        7 => return traffic::spell(bench, 5),
        _ => {
            let delivering = bench.dice.percent(60);
            let crowded = None;
            return acts::move_something(
                bench,
                Mood {
                    delivering,
                    crowded,
                },
            );
        }
    };
    bench.call(command);
}

fn code_at_an_end(bench: &mut Bench) -> u32 {
    let codes: Vec<u32> = acts::codes_and_beyond().chain([u32::MAX]).collect();
    bench.dice.pick(&codes)
}

fn slot_at_an_end(bench: &mut Bench, sizes: Sizes) -> u32 {
    let slots = sizes.slots();
    let ends = [0, 1, slots - 2, slots - 1, slots, slots + 1, u32::MAX];
    bench.dice.pick(&ends)
}

fn node_at_an_end(bench: &mut Bench, sizes: Sizes) -> u8 {
    let coordinate = |bench: &mut Bench, size: u32| {
        let drawn = match bench.dice.below(20) {
            0 => size.min(15),
            1..=8 => size - 1,
            9..=16 => 0,
            _ => bench.dice.number() % size,
        };
        u8::try_from(drawn).unwrap_or_default()
    };
    coordinate(bench, sizes.width) + 16 * coordinate(bench, sizes.height)
}
