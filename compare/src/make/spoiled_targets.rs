//! Spoiled slots in waiting slots and in the queues whose empty slots a move counts: they never
//! count as empty.

use super::acts::{self, Mood};
use super::bench::Bench;
use super::sizes::{lend_cleared, Sizes};
use super::traffic;
use crate::router::{offered, Kind, Node, Place, Slot, Step};
use crate::script::Command;
use std::ops::Range;

pub fn make(bench: &mut Bench) {
    while bench.open() {
        let sizes = Sizes::small(&mut bench.dice);
        lend_cleared(bench, sizes, 0);
        for _ in 0..20 {
            if bench.open() {
                traffic::spell(bench, 8);
                move_by_a_spoiled_queue(bench);
                take_in_at_a_spoiled_slot(bench);
            }
        }
    }
}

fn move_by_a_spoiled_queue(bench: &mut Bench) {
    let Some(slot) = bench.held_slot() else {
        return;
    };
    let codes = acts::codes_for(bench, slot);
    let code = bench.dice.pick(&codes);
    let Some(queue) = counted_queue(bench, slot, code) else {
        return;
    };
    let spoiled = spoil(bench, queue);
    bench.call(Command::Move { slot, code });
    look(bench);
    restore(bench, &spoiled);
}

/// The queue that the packet would go into or, delivered, come out of.
fn counted_queue(bench: &Bench, slot: u32, code: u32) -> Option<Range<usize>> {
    let table = bench.table()?;
    let slot = usize::try_from(slot).ok()?;
    let place = table.trailer.grid.place_of(slot)?;
    let Slot::Good(packet) = table.slot(slot)? else {
        return None;
    };
    let counted = match offered(table.trailer.profile, place, packet.destination, code)? {
        Step::Queue(target) | Step::Hop(target) => target,
        Step::Delivery => place,
    };
    Some(table.trailer.grid.queue(counted))
}

fn take_in_at_a_spoiled_slot(bench: &mut Bench) {
    let Some(grid) = bench.grid() else { return };
    let source = acts::node_byte(bench, &grid);
    let waiting = Place {
        node: Node::from_byte(source),
        kind: Kind::Waiting,
    };
    let spoiled = spoil(bench, grid.queue(waiting));
    acts::take_in_at(bench, source);
    look(bench);
    restore(bench, &spoiled);
    acts::take_in(bench, Mood::default());
}

fn look(bench: &mut Bench) {
    if bench.dice.percent(30) {
        bench.call(Command::Check);
        bench.call(Command::Find);
        acts::copy(bench);
    }
}

/// One byte set in most of the queue's empty slots; gives the slots back.
fn spoil(bench: &mut Bench, queue: Range<usize>) -> Vec<u32> {
    let mut spoiled = Vec::new();
    for slot in queue {
        let slot = u32::try_from(slot).unwrap_or_default();
        if bench.slot_bytes(slot) == Some([0; 16]) && bench.dice.percent(75) {
            let mut bytes = [0; 16];
            let number = bench.dice.below(bytes.len());
            if let Some(byte) = bytes.get_mut(number) {
                *byte = bench.dice.byte() | 1;
            }
            bench.write_slot(slot, &bytes);
            spoiled.push(slot);
        }
    }
    spoiled
}

fn restore(bench: &mut Bench, spoiled: &[u32]) {
    for slot in spoiled {
        bench.write_slot(*slot, &[0; 16]);
    }
}
