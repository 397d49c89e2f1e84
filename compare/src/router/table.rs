//! The table inside the lent slice, opened by its good trailer.

use super::grid::{Place, SLOT_BYTES, TRAILER_BYTES};
use super::packet::Packet;
use super::refusal::Refusal;
use super::slot::Slot;
use super::trailer::Trailer;
use std::ops::Range;

/// `bytes` are the table's own, from slot 0 to the end of the trailer.
pub struct Table<Bytes> {
    pub trailer: Trailer,
    bytes: Bytes,
}

impl<'a> Table<&'a [u8]> {
    pub fn open(slice: &'a [u8]) -> Result<Self, Refusal> {
        let trailer = Trailer::decode(slice).ok_or(Refusal::TrailerNotGood)?;
        let start = slice.len().saturating_sub(trailer.grid.table_bytes());
        let bytes = slice.get(start..).unwrap_or_default();
        Ok(Table { trailer, bytes })
    }

    pub fn bytes(&self) -> &'a [u8] {
        self.bytes
    }
}

impl<'a> Table<&'a mut [u8]> {
    pub fn open_to_write(slice: &'a mut [u8]) -> Result<Self, Refusal> {
        let trailer = Trailer::decode(slice).ok_or(Refusal::TrailerNotGood)?;
        let start = slice.len().saturating_sub(trailer.grid.table_bytes());
        let bytes = slice.get_mut(start..).unwrap_or_default();
        Ok(Table { trailer, bytes })
    }

    pub fn put_packet(&mut self, slot: usize, packet: &Packet) {
        self.put(slot, packet.encode());
    }

    pub fn put_empty(&mut self, slot: usize) {
        self.put(slot, [0; SLOT_BYTES]);
    }

    pub fn put_trailer(&mut self, trailer: Trailer) {
        self.trailer = trailer;
        if let Some(end) = self.bytes.last_chunk_mut::<TRAILER_BYTES>() {
            *end = trailer.encode();
        }
    }

    fn put(&mut self, slot: usize, bytes: [u8; SLOT_BYTES]) {
        if let Some(part) = slot_range(slot).and_then(|range| self.bytes.get_mut(range)) {
            part.copy_from_slice(&bytes);
        }
    }
}

impl<Bytes: AsRef<[u8]>> Table<Bytes> {
    /// Nothing for a slot number of S or more.
    pub fn slot(&self, slot: usize) -> Option<Slot> {
        let place = self.trailer.grid.place_of(slot)?;
        let part = self.bytes.as_ref().get(slot_range(slot)?)?;
        let bytes = part.first_chunk()?;
        Some(Slot::decode(bytes, place, &self.trailer))
    }

    pub fn slots(&self) -> Vec<Slot> {
        let numbers = 0..self.trailer.grid.slots();
        numbers.filter_map(|slot| self.slot(slot)).collect()
    }

    pub fn lowest_empty(&self, queue: Place) -> Option<usize> {
        let mut slots = self.trailer.grid.queue(queue);
        slots.find(|slot| self.slot(*slot) == Some(Slot::Empty))
    }

    /// How many slots are empty in the queue that the slot is one of.
    pub fn left_in_queue_of(&self, slot: usize) -> usize {
        let grid = self.trailer.grid;
        let queue = grid.place_of(slot).map_or(0..0, |place| grid.queue(place));
        let empty = |slot: &usize| self.slot(*slot) == Some(Slot::Empty);
        queue.filter(empty).count()
    }
}

fn slot_range(slot: usize) -> Option<Range<usize>> {
    let start = slot.checked_mul(SLOT_BYTES)?;
    Some(start..start.checked_add(SLOT_BYTES)?)
}
