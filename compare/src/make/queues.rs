//! Queues filled with forged packets, chosen by the codes that the rule in profile 0 offers them.

use super::bench::Bench;
use super::forge;
use crate::router::{offered, Kind, Node, Packet, Place, Profile, CODES};

/// How many packets are forged for a slot before it is left without the one wanted.
const TRIES: usize = 40;

pub fn slots_of(bench: &Bench, node: Node, kind: Kind) -> Vec<u32> {
    let queue = bench.grid().map(|grid| grid.queue(Place { node, kind }));
    let slots = queue.unwrap_or_default();
    slots.filter_map(|slot| u32::try_from(slot).ok()).collect()
}

pub fn any_slot_of(bench: &mut Bench, node: Node, kind: Kind) -> Option<u32> {
    let slots = slots_of(bench, node, kind);
    (!slots.is_empty()).then(|| bench.dice.pick(&slots))
}

/// The packet under the next serial or, now and then, under one that another has.
fn put(bench: &mut Bench, slot: u32, packet: Packet, serials: &mut Vec<u32>) {
    let next = u32::try_from(serials.len()).unwrap_or_default();
    let twice = bench.dice.percent(5);
    let serial = if twice { next / 2 } else { next };
    forge::put_under(bench, slot, packet, serial);
    serials.push(serial);
}

/// A packet whose codes are as wanted.
pub fn put_wanted(
    bench: &mut Bench,
    slot: u32,
    serials: &mut Vec<u32>,
    wanted: impl Fn(&[u32]) -> bool,
) {
    for _ in 0..TRIES {
        let Some(packet) = forge::packet_for(bench, slot) else {
            return;
        };
        if wanted(&codes_of(bench, slot, packet)) {
            return put(bench, slot, packet, serials);
        }
    }
}

fn codes_of(bench: &Bench, slot: u32, packet: Packet) -> Vec<u32> {
    let slot = usize::try_from(slot).ok();
    let Some(place) = slot.and_then(|slot| bench.grid()?.place_of(slot)) else {
        return Vec::new();
    };
    let offers = |code: &u32| offered(Profile::Full, place, packet.destination, *code).is_some();
    CODES.filter(offers).collect()
}

/// A packet into each empty slot of the queue.
pub fn fill(bench: &mut Bench, node: Node, kind: Kind, serials: &mut Vec<u32>) {
    for slot in slots_of(bench, node, kind) {
        if bench.slot_bytes(slot) == Some([0; 16]) {
            put_wanted(bench, slot, serials, |_| true);
        }
    }
}
