//! Damaged bytes: one field of a slot or of the trailer of a live table, then every call.

use super::acts;
use super::bench::Bench;
use super::forge;
use super::sizes::{lend_cleared, Sizes};
use super::traffic;
use crate::router::{Grid, Trailer};

pub fn make(bench: &mut Bench) {
    while bench.open() {
        let sizes = Sizes::any(&mut bench.dice);
        let prefix = bench.dice.pick(&[0, 0, 1, 16, 40]);
        lend_cleared(bench, sizes, prefix);
        traffic::spell(bench, 40);
        for _ in 0..bench.dice.between(4, 16) {
            if bench.open() && bench.grid().is_some() {
                damage_once(bench);
            }
        }
    }
}

fn damage_once(bench: &mut Bench) {
    match bench.dice.below(14) {
        0..=4 => damage_a_held_slot(bench),
        5 => damage_any_slot(bench),
        6..=8 => damage_trailer(bench),
        9..=10 => change_counts(bench),
        11..=12 => change_profile(bench),
        _ => put_another_trailer(bench),
    }
    if bench.grid().is_some() && bench.dice.percent(30) {
        traffic::spell(bench, 10);
    }
}

fn damage_a_held_slot(bench: &mut Bench) {
    let Some(slot) = bench.held_slot() else {
        return;
    };
    let Some(old) = bench.slot_bytes(slot) else {
        return;
    };
    let damaged = forge::with_a_flaw(bench, old);
    bench.write_slot(slot, &damaged);
    acts::every_call(bench, slot);
    // Where the packet has moved meanwhile, this makes a second packet with its serial.
    if bench.dice.percent(70) {
        bench.write_slot(slot, &old);
    }
}

fn damage_any_slot(bench: &mut Bench) {
    let Some(slot) = bench.any_slot() else { return };
    let Some(old) = bench.slot_bytes(slot) else {
        return;
    };
    let mut damaged = old;
    let number = bench.dice.below(damaged.len());
    if let Some(byte) = damaged.get_mut(number) {
        let random = bench.dice.byte();
        *byte = bench.dice.pick(&[0, 1, 2, 255, random]);
    }
    bench.write_slot(slot, &damaged);
    acts::every_call(bench, slot);
    bench.write_slot(slot, &old);
}

fn damage_trailer(bench: &mut Bench) {
    let Some(old) = bench.trailer_bytes() else {
        return;
    };
    let mut damaged = old;
    // The profile and the distance more often than the rest.
    let any = bench.dice.below(damaged.len());
    let number = bench.dice.pick(&[0, 1, 2, 3, 3, 4, 8, 12, 12, 13, any]);
    if let Some(byte) = damaged.get_mut(number) {
        let random = bench.dice.byte();
        let choices = [
            byte.wrapping_add(16),
            byte.wrapping_add(1),
            byte.wrapping_sub(1),
            0,
            255,
            random,
        ];
        *byte = bench.dice.pick(&choices);
    }
    bench.write_trailer(&damaged);
    let slot = bench.held_slot().unwrap_or(0);
    acts::every_call(bench, slot);
    if bench.dice.percent(90) {
        bench.write_trailer(&old);
    }
}

/// Counts close to each other and to the serials: one above, equal, one below.
fn change_counts(bench: &mut Bench) {
    let (Some(old), Some(trailer)) = (bench.trailer_bytes(), bench.trailer()) else {
        return;
    };
    let Trailer {
        taken, delivered, ..
    } = trailer;
    let slot = bench.held_slot().unwrap_or(0);
    let old_slot = bench.slot_bytes(slot).unwrap_or_default();
    let [_, _, _, _, s0, s1, s2, s3, ..] = old_slot;
    let serial = u32::from_le_bytes([s0, s1, s2, s3]);
    let (taken, delivered) = bench.dice.pick(&[
        (taken, taken),
        (taken, taken.saturating_add(1)),
        (taken, taken.saturating_sub(1)),
        (delivered, delivered),
        (delivered.saturating_add(1), delivered),
        (taken.saturating_sub(1), delivered),
        (serial, delivered.min(serial)),
        (serial.saturating_add(1), delivered.min(serial)),
    ]);
    let counts = Trailer {
        taken,
        delivered,
        ..trailer
    };
    bench.write_trailer(&counts.encode());
    acts::every_call(bench, slot);
    bench.write_trailer(&old);
}

/// The same packets under another profile, or under none that there is.
fn change_profile(bench: &mut Bench) {
    let Some([_, _, _, old, ..]) = bench.trailer_bytes() else {
        return;
    };
    let other = bench.dice.pick(&[0, 1, 2, 3, 3, 255]);
    bench.write_profile(other);
    let slot = bench.held_slot().unwrap_or(0);
    acts::every_call(bench, slot);
    if bench.grid().is_none() || bench.dice.percent(50) {
        bench.write_profile(old);
    }
}

/// Other sizes with a fitting distance: the old bytes read as another table. Width and height
/// changed about keep the very distance.
fn put_another_trailer(bench: &mut Bench) {
    let (Some(old), Some(trailer)) = (bench.trailer_bytes(), bench.trailer()) else {
        return;
    };
    let grid = trailer.grid;
    let drawn = Sizes::small(&mut bench.dice);
    let other = match bench.dice.percent(50) {
        true => Grid::new(
            grid.height().into(),
            grid.width().into(),
            grid.depth().into(),
        ),
        false => Grid::new(drawn.width, drawn.height, drawn.depth),
    };
    let Some(grid) = other else { return };
    let other = Trailer { grid, ..trailer };
    bench.write_trailer(&other.encode());
    let slot = bench.held_slot().unwrap_or(0);
    acts::every_call(bench, slot);
    bench.write_trailer(&old);
}
