//! Random calls with random and extreme numbers, on slices with and without a table.

use super::acts;
use super::bench::Bench;
use super::sizes::{lend_cleared, Sizes};
use crate::script::Command;

/// Ends of ranges, and numbers that fall into a range when cut to fewer bits.
const EXTREMES: &[u32] = &[
    0,
    1,
    2,
    7,
    8,
    15,
    16,
    17,
    255,
    256,
    257,
    258,
    65_535,
    65_536,
    65_537,
    1 << 28,
    1 << 31,
    (1 << 31) + 1,
    u32::MAX - 1,
    u32::MAX,
];

pub fn make(bench: &mut Bench) {
    while bench.open() {
        lend(bench);
        for _ in 0..bench.dice.between(20, 120) {
            if bench.open() {
                one(bench);
            }
        }
    }
}

fn lend(bench: &mut Bench) {
    let sizes = Sizes::any(&mut bench.dice);
    let length = match bench.dice.below(10) {
        0..=4 => {
            let prefix = bench.dice.pick(&[0, 0, 1, 16, 33]);
            return lend_cleared(bench, sizes, prefix);
        }
        5..=6 => bench.dice.pick(&[0, 1, 15, 16, 17, 32, 63, 64]),
        7 => sizes.length() - 1,
        8 => bench.dice.number() % 2_000,
        _ => bench.dice.pick(&[61_455, 61_456, 61_457, 65_536]),
    };
    bench.put(Command::Lend { length });
}

fn one(bench: &mut Bench) {
    let dice = &mut bench.dice;
    let command = match dice.below(16) {
        0..=2 => Command::TakeIn {
            source: small_byte(bench),
            destination: small_byte(bench),
            payload: bench.dice.payload(),
        },
        3..=6 => Command::Move {
            slot: slot(bench),
            code: code(bench),
        },
        7..=8 => Command::Payload { slot: slot(bench) },
        9 => Command::Clear {
            width: small_number(bench),
            height: small_number(bench),
            depth: small_number(bench),
            profile: small_number(bench),
        },
        10 => return set_a_byte(bench),
        11..=13 => return acts::look_at_the_whole_table(bench),
        14 => return acts::read_something(bench),
        _ => return acts::move_something(bench, acts::Mood::default()),
    };
    bench.call(command);
}

fn set_a_byte(bench: &mut Bench) {
    let start = bench.dice.below(bench.slice().len());
    let random = bench.dice.byte();
    let byte = bench.dice.pick(&[0, 1, random]);
    bench.write(start, &[byte]);
}

fn small_byte(bench: &mut Bench) -> u8 {
    let random = bench.dice.byte();
    bench.dice.pick(&[0, 1, 0x10, 0x11, 0x22, random])
}

fn slot(bench: &mut Bench) -> u32 {
    let count = bench.grid().map_or(11, |grid| grid.slots());
    let random = bench.dice.number();
    match bench.dice.below(4) {
        0..=1 => random.checked_rem(count as u32 + 2).unwrap_or(0),
        2 => bench.dice.pick(EXTREMES),
        _ => random,
    }
}

fn code(bench: &mut Bench) -> u32 {
    match bench.dice.percent(75) {
        true => bench.dice.number() % (acts::PAST_THE_CODES + 1),
        false => bench.dice.pick(EXTREMES),
    }
}

fn small_number(bench: &mut Bench) -> u32 {
    match bench.dice.percent(80) {
        true => bench.dice.number() % 4,
        false => bench.dice.pick(EXTREMES),
    }
}
