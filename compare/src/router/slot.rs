//! A slot judged: empty, or held and then good or spoiled.

use super::grid::{Place, SLOT_BYTES};
use super::packet::Packet;
use super::trailer::Trailer;

#[derive(Clone, Copy, Debug, PartialEq, Eq)]
pub enum Slot {
    Empty,
    Good(Packet),
    Spoiled,
}

impl Slot {
    pub fn decode(bytes: &[u8; SLOT_BYTES], place: Place, trailer: &Trailer) -> Slot {
        if *bytes == [0; SLOT_BYTES] {
            return Slot::Empty;
        }
        match Packet::decode(bytes) {
            Some(packet) if packet.is_good(place, trailer) => Slot::Good(packet),
            _ => Slot::Spoiled,
        }
    }
}
