//! The full check: its three faults in the paper's order.

use super::refusal::{CheckFault, Refusal};
use super::slot::Slot;
use super::table::Table;
use super::trailer::Trailer;
use std::collections::HashSet;

pub fn full_check(slice: &[u8]) -> Result<(), Refusal> {
    checked_slots(&Table::open(slice)?).map(drop)
}

/// The slots of a table that passes; find and the copy go on with them.
pub fn checked_slots(table: &Table<&[u8]>) -> Result<Vec<Slot>, Refusal> {
    let slots = table.slots();
    let fault = lowest_spoiled(&slots)
        .map(CheckFault::Spoiled)
        .or_else(|| lowest_serial_twice(&slots).map(CheckFault::SerialTwice))
        .or_else(|| counts_disagree(&slots, &table.trailer).map(CheckFault::CountsDisagree));
    match fault {
        Some(fault) => Err(Refusal::CheckFailed(fault)),
        None => Ok(slots),
    }
}

fn lowest_spoiled(slots: &[Slot]) -> Option<u32> {
    let place = slots.iter().position(|slot| *slot == Slot::Spoiled)?;
    u32::try_from(place).ok()
}

/// The fault is at the higher of two slots with one serial.
fn lowest_serial_twice(slots: &[Slot]) -> Option<u32> {
    let mut seen = HashSet::new();
    let place = slots.iter().position(|slot| match slot {
        Slot::Good(packet) => !seen.insert(packet.serial),
        Slot::Empty | Slot::Spoiled => false,
    })?;
    u32::try_from(place).ok()
}

fn counts_disagree(slots: &[Slot], trailer: &Trailer) -> Option<u32> {
    let held = slots.iter().filter(|slot| **slot != Slot::Empty).count();
    let expected = trailer.taken.checked_sub(trailer.delivered);
    let agree = expected == u32::try_from(held).ok();
    (!agree).then(|| u32::try_from(slots.len()).ok()).flatten()
}
