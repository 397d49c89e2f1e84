//! Take in: a new packet into the waiting slot of its source.

use super::grid::{Kind, Node, Place};
use super::packet::Packet;
use super::refusal::Refusal;
use super::table::Table;
use super::trailer::Trailer;

#[derive(Clone, Copy, Debug, PartialEq, Eq)]
pub struct TakenIn {
    pub slot: usize,
    pub serial: u32,
    /// The empty slots of the queue that the packet went into.
    pub left: usize,
}

pub fn take_in(
    slice: &mut [u8],
    source: u8,
    destination: u8,
    payload: [u8; 8],
) -> Result<TakenIn, Refusal> {
    let mut table = Table::open_to_write(slice)?;
    let trailer = table.trailer;
    let packet = Packet {
        source: Node::from_byte(source),
        destination: Node::from_byte(destination),
        hops: 0,
        serial: trailer.taken,
        payload,
    };
    if !trailer.grid.holds(packet.source) || !trailer.grid.holds(packet.destination) {
        return Err(Refusal::OutOfRange);
    }
    let taken = trailer.taken.checked_add(1);
    let taken = taken.ok_or(Refusal::TakenAtItsEnd)?;
    let waiting = Place {
        node: packet.source,
        kind: Kind::Waiting,
    };
    let slot = table.lowest_empty(waiting).ok_or(Refusal::NoEmptySlot)?;
    table.put_packet(slot, &packet);
    table.put_trailer(Trailer { taken, ..trailer });
    Ok(TakenIn {
        slot,
        serial: packet.serial,
        left: table.left_in_queue_of(slot),
    })
}
