//! Outward copy: the table with the payload of each held slot zero.

use super::check::checked_slots;
use super::grid::SLOT_BYTES;
use super::packet::Packet;
use super::refusal::Refusal;
use super::slot::Slot;
use super::table::Table;

pub fn outward_copy(slice: &[u8], second: &mut [u8]) -> Result<(), Refusal> {
    let table = Table::open(slice)?;
    let slots = checked_slots(&table)?;
    if second.len() != table.trailer.grid.table_bytes() {
        return Err(Refusal::WrongLength);
    }
    let slot_bytes = slots.iter().map(without_payload);
    let trailer = [table.trailer.encode()];
    let parts = second.chunks_exact_mut(SLOT_BYTES);
    for (part, bytes) in parts.zip(slot_bytes.chain(trailer)) {
        part.copy_from_slice(&bytes);
    }
    Ok(())
}

fn without_payload(slot: &Slot) -> [u8; SLOT_BYTES] {
    match slot {
        Slot::Good(packet) => Packet {
            payload: [0; 8],
            ..*packet
        }
        .encode(),
        Slot::Empty | Slot::Spoiled => [0; SLOT_BYTES],
    }
}
