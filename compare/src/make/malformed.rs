//! Malformed scripts: well-formed beginnings that go wrong, and plain noise.

use super::bench::Bench;
use super::dice::Dice;
use super::sizes::{lend_cleared, Sizes};
use super::traffic;
use crate::script::{Command, LENGTH_MOST, SCRIPT_MOST};

pub fn make(mut dice: Dice) -> Vec<u8> {
    let way = dice.below(8);
    if way == 0 {
        let count = dice.below(200);
        return (0..count).map(|_| dice.byte()).collect();
    }
    let noise = dice.next();
    let (mut script, length) = beginning(dice);
    let mut dice = Dice::new(noise);
    match way {
        1 => script.truncate(dice.below(script.len())),
        2 => script.push(dice.pick(b"ABEGHIJKQRUVXYZlsctmpfnowd\0\n \xFF")),
        3 => command_out_of_bounds(&mut dice, length).encode(&mut script),
        4 => pad(&mut script, SCRIPT_MOST),
        5 => pad(&mut script, SCRIPT_MOST + 1),
        6 => replace_a_byte(&mut dice, &mut script),
        _ => script.extend((0..60).map(|_| dice.byte())),
    }
    if way == 2 || way == 3 {
        script.extend(b"FNWD");
    }
    script
}

/// A script that is well-formed, and the length of the slice it lends.
fn beginning(mut dice: Dice) -> (Vec<u8>, u32) {
    let limit = dice.between(100, 3_000);
    let mut bench = Bench::with_limit(dice, limit);
    let sizes = Sizes::small(&mut bench.dice);
    lend_cleared(&mut bench, sizes, 0);
    traffic::spell(&mut bench, 200);
    (bench.finish(), sizes.length())
}

fn command_out_of_bounds(dice: &mut Dice, length: u32) -> Command {
    let byte = dice.byte();
    let too_long = dice.pick(&[LENGTH_MOST + 1, 1 << 31, u32::MAX]);
    let outside = dice.pick(&[length, length + 1, LENGTH_MOST, u32::MAX]);
    match dice.below(3) {
        0 => Command::Lend { length: too_long },
        1 => Command::Copy {
            length: too_long,
            fill: byte,
        },
        _ => Command::Set {
            place: outside,
            byte,
        },
    }
}

/// Commands without a line, then shows of the second buffer, up to exactly the length.
fn pad(script: &mut Vec<u8>, length: usize) {
    let set = Command::Set { place: 0, byte: 1 };
    while script.len() + 6 <= length {
        set.encode(script);
    }
    script.resize(length, b'D');
}

fn replace_a_byte(dice: &mut Dice, script: &mut [u8]) {
    let place = dice.below(script.len());
    let byte = dice.byte();
    if let Some(old) = script.get_mut(place) {
        *old = byte;
    }
}
