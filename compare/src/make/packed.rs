//! Boards packed with forged packets, up to every slot of every queue, so that find must get
//! along with fillings that ordinary traffic seldom reaches.

use super::acts::{self, Mood};
use super::bench::Bench;
use super::forge;
use super::sizes::{lend_cleared, Sizes};
use crate::router::Trailer;
use crate::script::Command;

pub fn make(bench: &mut Bench) {
    if bench.dice.percent(10) {
        bench.use_whole_script();
        pack_and_run(
            bench,
            Sizes {
                width: 16,
                height: 16,
                depth: 1,
            },
        );
    }
    while bench.open() {
        let sizes = Sizes::small(&mut bench.dice);
        pack_and_run(bench, sizes);
    }
}

fn pack_and_run(bench: &mut Bench, sizes: Sizes) {
    lend_cleared(bench, sizes, 0);
    let share = bench.dice.pick(&[30, 70, 95, 100]);
    // Serials that are equal once cut to fewer bits.
    let stride = bench.dice.pick(&[1, 1, 256, 65_536, 1 << 24]);
    let serials = pack(bench, sizes.slots(), share, stride);
    set_counts(bench, &serials);
    bench.call(Command::Check);
    acts::copy(bench);
    for _ in 0..bench.dice.between(5, 40) {
        if bench.open() && acts::follow_find(bench).is_some() {
            acts::move_something(bench, Mood::default());
        }
    }
}

/// Gives back the serials; now and then one comes twice.
fn pack(bench: &mut Bench, slots: u32, share: usize, stride: u32) -> Vec<u32> {
    let mut serials = Vec::new();
    let twice = bench.dice.percent(20);
    let mut next = 0;
    for slot in 0..slots {
        if !bench.open() || !bench.dice.percent(share) {
            continue;
        }
        let Some(packet) = forge::packet_for(bench, slot) else {
            continue;
        };
        let again = twice && bench.dice.percent(5);
        let serial = if again { next / 2 } else { next };
        forge::put_under(bench, slot, packet, serial);
        serials.push(serial);
        next = next.wrapping_add(stride);
    }
    serials
}

/// Taken above every serial and, most often, as far above delivered as packets are held.
pub fn set_counts(bench: &mut Bench, serials: &[u32]) {
    let Some(trailer) = bench.trailer() else {
        return;
    };
    let held = u32::try_from(serials.len()).unwrap_or_default();
    let off = u32::from(bench.dice.percent(15));
    let highest = serials
        .iter()
        .max()
        .map_or(0, |serial| serial.saturating_add(1));
    let taken = highest
        .max(held + off)
        .saturating_add(bench.dice.number() % 300);
    let counts = Trailer {
        taken,
        delivered: taken.saturating_sub(held + off),
        ..trailer
    };
    bench.write_trailer(&counts.encode());
}
