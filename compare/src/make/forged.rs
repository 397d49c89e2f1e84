//! Packets forged into places where traffic seldom brings them, good or with one field against
//! them, and every call on each.

use super::acts;
use super::bench::Bench;
use super::forge;
use super::sizes::{lend_cleared, Sizes};
use crate::router::Trailer;

pub fn make(bench: &mut Bench) {
    while bench.open() {
        let sizes = match bench.dice.percent(80) {
            true => Sizes::up_to(&mut bench.dice, 5, 5, 2),
            false => Sizes::up_to(&mut bench.dice, 16, 16, 7),
        };
        lend_cleared(bench, sizes, 0);
        set_counts(bench);
        for _ in 0..bench.dice.between(10, 40) {
            if bench.open() {
                forge_a_slot(bench);
            }
        }
    }
}

/// Small counts make serials come twice; one packet alone can pass the check.
fn set_counts(bench: &mut Bench) {
    let Some(trailer) = bench.trailer() else {
        return;
    };
    let taken = bench.dice.pick(&[1, 2, 3, 5, 9, 1_000, u32::MAX]);
    let apart = bench.dice.pick(&[1, 1, 1, 2, 3, 4]);
    let delivered = taken.saturating_sub(apart);
    let counts = Trailer {
        taken,
        delivered,
        ..trailer
    };
    bench.write_trailer(&counts.encode());
}

fn forge_a_slot(bench: &mut Bench) {
    let Some(slot) = bench.any_slot() else { return };
    let Some(good) = forge::packet_for(bench, slot) else {
        return;
    };
    let old_trailer = bench.trailer_bytes().unwrap_or_default();
    let bytes = match bench.dice.below(10) {
        0..=3 => good.encode(),
        4..=6 => forge::packet_as_in_a(bench, slot).unwrap_or(good).encode(),
        _ => forge::with_a_flaw(bench, good.encode()),
    };
    bench.write_slot(slot, &bytes);
    acts::every_call(bench, slot);
    if bench.dice.percent(60) {
        bench.write_slot(slot, &[0; 16]);
    }
    bench.write_trailer(&old_trailer);
}
