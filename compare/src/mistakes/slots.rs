//! Bytes of slots, read and written past the router.

use crate::router::{Grid, Kind, Node, Place, Slot, Table, Trailer, SLOT_BYTES};
use std::ops::Range;

pub fn grid(slice: &[u8]) -> Option<Grid> {
    Trailer::decode(slice).map(|trailer| trailer.grid)
}

pub fn place_of(slice: &[u8], slot: u32) -> Option<Place> {
    grid(slice)?.place_of(usize::try_from(slot).ok()?)
}

/// The slots of the queue that the slot is one of.
pub fn queue_of(slice: &[u8], slot: usize) -> Range<usize> {
    let queue = |grid: Grid| grid.place_of(slot).map(|place| grid.queue(place));
    grid(slice).and_then(queue).unwrap_or_default()
}

pub fn waiting_slot_of(slice: &[u8], node: u8) -> Option<usize> {
    let grid = grid(slice)?;
    let node = Node::from_byte(node);
    let kind = Kind::Waiting;
    grid.holds(node)
        .then(|| grid.queue(Place { node, kind }).start)
}

pub fn judged(slice: &[u8], slot: usize) -> Option<Slot> {
    Table::open(slice).ok()?.slot(slot)
}

fn range(slice: &[u8], slot: usize) -> Option<Range<usize>> {
    let start = slice.len().checked_sub(grid(slice)?.table_bytes())?;
    let start = start.checked_add(slot.checked_mul(SLOT_BYTES)?)?;
    Some(start..start.checked_add(SLOT_BYTES)?)
}

pub fn slot_bytes(slice: &[u8], slot: usize) -> [u8; SLOT_BYTES] {
    let part = range(slice, slot).and_then(|range| slice.get(range));
    part.and_then(|part| part.first_chunk().copied())
        .unwrap_or_default()
}

pub fn put_slot_bytes(slice: &mut [u8], slot: usize, bytes: &[u8; SLOT_BYTES]) {
    if let Some(part) = range(slice, slot).and_then(|range| slice.get_mut(range)) {
        part.copy_from_slice(bytes);
    }
}
