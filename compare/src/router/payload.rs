//! Read payload: eight bytes as a part of the caller's own slice.

use super::grid::SLOT_BYTES;
use super::refusal::Refusal;
use super::slot::Slot;
use super::table::Table;

const PAYLOAD_START: usize = 8;

pub fn read_payload(slice: &[u8], slot: u32) -> Result<&[u8], Refusal> {
    let table = Table::open(slice)?;
    let slot = usize::try_from(slot).map_err(|_| Refusal::OutOfRange)?;
    match table.slot(slot).ok_or(Refusal::OutOfRange)? {
        Slot::Empty => Err(Refusal::SlotEmpty),
        Slot::Spoiled => Err(Refusal::SlotSpoiled),
        Slot::Good(_) => {
            let mut slots = table.bytes().chunks_exact(SLOT_BYTES);
            let bytes = slots.nth(slot).unwrap_or_default();
            Ok(bytes.get(PAYLOAD_START..).unwrap_or_default())
        }
    }
}
