//! Packets forged for a place: good there, or kept from it by one field.

use super::acts;
use super::bench::Bench;
use super::dice::Dice;
use crate::router::{Kind, Node, Packet, Place, SLOT_BYTES};
use std::cmp::Ordering;

/// A packet that is good in the slot as far as its nodes and hops go, with a serial below taken.
pub fn packet_for(bench: &mut Bench, slot: u32) -> Option<Packet> {
    let place = place_of(bench, slot)?;
    packet_at(bench, place)
}

/// A packet that would be good in A at the slot's node, whatever the slot's own kind.
pub fn packet_as_in_a(bench: &mut Bench, slot: u32) -> Option<Packet> {
    let place = place_of(bench, slot)?;
    let kind = Kind::A;
    packet_at(bench, Place { kind, ..place })
}

/// Into the slot, under a serial and with a payload of its own.
pub fn put_under(bench: &mut Bench, slot: u32, packet: Packet, serial: u32) {
    let payload = [bench.dice.byte(), 0, 0, 0, 0, 0, 0, 0];
    let packet = Packet {
        serial,
        payload,
        ..packet
    };
    bench.write_slot(slot, &packet.encode());
}

fn place_of(bench: &Bench, slot: u32) -> Option<Place> {
    bench.grid()?.place_of(usize::try_from(slot).ok()?)
}

fn packet_at(bench: &mut Bench, place: Place) -> Option<Packet> {
    let trailer = bench.trailer()?;
    let dice = &mut bench.dice;
    let (from_x, to_x) = ends_of_an_axis(dice, place.kind, place.node.x, trailer.grid.width());
    let (from_y, to_y) = ends_of_an_axis(dice, place.kind, place.node.y, trailer.grid.height());
    let source = node(from_x, from_y);
    let serial = dice.number().checked_rem(trailer.taken).unwrap_or(0);
    Some(Packet {
        source,
        destination: node(to_x, to_y),
        hops: hops(source, place),
        serial,
        payload: dice.payload(),
    })
}

fn node(x: u8, y: u8) -> Node {
    Node { x, y }
}

fn hops(source: Node, place: Place) -> u8 {
    u8::try_from(source.distance(place.node)).unwrap_or_default()
}

/// Source and destination such that `here` lies between them.
fn ends_of_an_axis(dice: &mut Dice, kind: Kind, here: u8, size: u8) -> (u8, u8) {
    let last = size.saturating_sub(1);
    let mut draw = |least: u8, most: u8| {
        let drawn = dice.between(least.into(), most.into());
        u8::try_from(drawn).unwrap_or_default()
    };
    let destination = match kind {
        Kind::B => draw(0, here),
        Kind::Waiting | Kind::A => draw(0, last),
    };
    let source = match (kind, destination.cmp(&here)) {
        (Kind::Waiting, _) => here,
        (_, Ordering::Greater) => draw(0, here),
        (_, Ordering::Less) => draw(here, last),
        (_, Ordering::Equal) => draw(0, last),
    };
    (source, destination)
}

/// One field changed, most often by as little as can be.
pub fn with_a_flaw(bench: &mut Bench, slot: [u8; SLOT_BYTES]) -> [u8; SLOT_BYTES] {
    let taken = bench.trailer().map_or(0, |trailer| trailer.taken);
    let elsewhere = bench.grid().map(|grid| acts::node_byte(bench, &grid));
    let dice = &mut bench.dice;
    let [mut mark, mut source, mut destination, mut hops, s0, s1, s2, s3, payload @ ..] = slot;
    let mut serial = u32::from_le_bytes([s0, s1, s2, s3]);
    let step = dice.pick(&[1, 16, 255, 240, 17, 15]);
    let random = dice.byte();
    match dice.below(10) {
        0 => mark = dice.pick(&[0, 2, 129, 255, random]),
        1..=2 => source = source.wrapping_add(step),
        3..=4 => destination = destination.wrapping_add(step),
        // Mostly off the shortest paths, with the hops still right.
        5..=6 => destination = elsewhere.unwrap_or(random),
        7..=8 => hops = hops.wrapping_add(dice.pick(&[1, 2, 255, 254, random])),
        _ => {
            let below = taken.saturating_sub(1);
            serial = dice.pick(&[taken, below, taken.saturating_add(1), 0, u32::MAX]);
        }
    }
    let head = [mark, source, destination, hops];
    let mut bytes = [0; SLOT_BYTES];
    let values = head.into_iter().chain(serial.to_le_bytes()).chain(payload);
    bytes
        .iter_mut()
        .zip(values)
        .for_each(|(byte, value)| *byte = value);
    bytes
}
