//! Taken near 4,294,967,295, with delivered set so that the table can pass the check.

use super::acts::{self, Mood};
use super::bench::Bench;
use super::sizes::{lend_cleared, Sizes};
use super::traffic;
use crate::router::{Slot, Trailer};
use crate::script::Command;

pub fn make(bench: &mut Bench) {
    while bench.open() {
        let sizes = Sizes::small(&mut bench.dice);
        lend_cleared(bench, sizes, 0);
        let steps = bench.dice.below(40);
        traffic::spell(bench, steps);
        bring_taken_near_its_end(bench);
        bench.call(Command::Check);
        traffic::spell(bench, 40);
        take_in_where_one_waits(bench);
        off_the_grid(bench);
        while bench.open() && acts::follow_find(bench).is_some() {}
        acts::take_in(bench, Mood::default());
        acts::copy(bench);
    }
}

fn held(bench: &Bench) -> u32 {
    let slots = bench.table().map(|table| table.slots()).unwrap_or_default();
    let held = slots.iter().filter(|slot| **slot != Slot::Empty).count();
    u32::try_from(held).unwrap_or_default()
}

fn bring_taken_near_its_end(bench: &mut Bench) {
    let Some(trailer) = bench.trailer() else {
        return;
    };
    let short = bench.dice.pick(&[0, 1, 2, 5]);
    let taken = u32::MAX - short;
    // Now and then one off, so that the check names S.
    let off = u32::from(bench.dice.percent(15));
    let delivered = taken.saturating_sub(held(bench) + off);
    let near = Trailer {
        taken,
        delivered,
        ..trailer
    };
    bench.write_trailer(&near.encode());
}

/// 7 comes before 6.
fn take_in_where_one_waits(bench: &mut Bench) {
    let Some(grid) = bench.grid() else { return };
    let source = acts::node_byte(bench, &grid);
    for _ in 0..3 {
        acts::take_in_at(bench, source);
    }
}

/// 2 comes before 7.
fn off_the_grid(bench: &mut Bench) {
    bench.call(Command::TakeIn {
        source: 0,
        destination: 0xFF,
        payload: [0; 8],
    });
}
