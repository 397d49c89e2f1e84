//! Static traffic first on a link: document 02's order 3.

use super::grid::{Kind, Place};
use super::rule::offered;
use super::slot::Slot;
use super::table::Table;

/// The codes by which packets hop from A and from B, in A dynamic and in B static.
const SHARED: [u32; 2] = [3, 5];

/// Must a move that the rule offers at the place be refused for a packet in the node's B queue?
/// Room for that packet is not asked for.
pub fn gives_way<Bytes: AsRef<[u8]>>(table: &Table<Bytes>, place: Place, code: u32) -> bool {
    let in_b = Place {
        kind: Kind::B,
        ..place
    };
    let goes_first = |slot: usize| match table.slot(slot) {
        Some(Slot::Good(packet)) => {
            offered(table.trailer.profile, in_b, packet.destination, code).is_some()
        }
        Some(Slot::Empty | Slot::Spoiled) | None => false,
    };
    let shared = place.kind == Kind::A && SHARED.contains(&code);
    shared && table.trailer.grid.queue(in_b).any(goes_first)
}
