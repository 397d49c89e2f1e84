//! Move: a proposed move weighed, and made if nothing speaks against it.

use super::grid::SLOT_BYTES;
use super::packet::Packet;
use super::refusal::Refusal;
use super::right_of_way::gives_way;
use super::rule::{offered, Step, CODES};
use super::slot::Slot;
use super::table::Table;
use super::trailer::Trailer;

#[derive(Clone, Copy, Debug, PartialEq, Eq)]
pub enum Moved {
    /// `left` are the empty slots of the queue that the packet went into.
    To { slot: usize, left: usize },
    /// `left` are the empty slots of the queue that the packet came out of.
    Delivered {
        record: [u8; SLOT_BYTES],
        left: usize,
    },
}

/// What an acceptable move would do, with the packet as it would then be.
pub enum Landing {
    In(usize, Packet),
    Delivery(Packet),
}

pub fn make_move(slice: &mut [u8], slot: u32, code: u32) -> Result<Moved, Refusal> {
    let mut table = Table::open_to_write(slice)?;
    let slot = usize::try_from(slot).map_err(|_| Refusal::OutOfRange)?;
    let landing = weigh(&table, slot, code)?;
    table.put_empty(slot);
    match landing {
        Landing::In(target, packet) => {
            table.put_packet(target, &packet);
            Ok(Moved::To {
                slot: target,
                left: table.left_in_queue_of(target),
            })
        }
        Landing::Delivery(packet) => {
            // A good packet means delivered is below taken: the sum stays in range.
            let delivered = table.trailer.delivered.saturating_add(1);
            table.put_trailer(Trailer {
                delivered,
                ..table.trailer
            });
            Ok(Moved::Delivered {
                record: packet.encode(),
                left: table.left_in_queue_of(slot),
            })
        }
    }
}

/// Refusals 2 to 5, 12 and 6, in the papers' order.
pub fn weigh<Bytes: AsRef<[u8]>>(
    table: &Table<Bytes>,
    slot: usize,
    code: u32,
) -> Result<Landing, Refusal> {
    let place = table.trailer.grid.place_of(slot);
    let place = place.ok_or(Refusal::OutOfRange)?;
    if !CODES.contains(&code) {
        return Err(Refusal::OutOfRange);
    }
    let packet = match table.slot(slot).ok_or(Refusal::OutOfRange)? {
        Slot::Empty => return Err(Refusal::SlotEmpty),
        Slot::Spoiled => return Err(Refusal::SlotSpoiled),
        Slot::Good(packet) => packet,
    };
    let step = offered(table.trailer.profile, place, packet.destination, code);
    let step = step.ok_or(Refusal::NotOffered)?;
    if gives_way(table, place, code) {
        return Err(Refusal::GivesWay);
    }
    let (target, hops) = match step {
        Step::Delivery => return Ok(Landing::Delivery(packet)),
        Step::Queue(target) => (target, packet.hops),
        // A good packet has made at most 30 hops.
        Step::Hop(target) => (target, packet.hops.saturating_add(1)),
    };
    let target = table.lowest_empty(target).ok_or(Refusal::NoEmptySlot)?;
    Ok(Landing::In(target, Packet { hops, ..packet }))
}
