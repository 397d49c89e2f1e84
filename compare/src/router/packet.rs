//! A packet as its slot's bytes say it, and when the paper calls it good.

use super::grid::{Kind, Node, Place, SLOT_BYTES};
use super::trailer::Trailer;

pub const MARK_HELD: u8 = 1;

#[derive(Clone, Copy, Debug, PartialEq, Eq)]
pub struct Packet {
    pub source: Node,
    pub destination: Node,
    pub hops: u8,
    pub serial: u32,
    pub payload: [u8; 8],
}

impl Packet {
    /// Nothing when the mark isn't 1.
    pub fn decode(bytes: &[u8; SLOT_BYTES]) -> Option<Packet> {
        let [mark, source, destination, hops, s0, s1, s2, s3, payload @ ..] = *bytes;
        let packet = Packet {
            source: Node::from_byte(source),
            destination: Node::from_byte(destination),
            hops,
            serial: u32::from_le_bytes([s0, s1, s2, s3]),
            payload,
        };
        (mark == MARK_HELD).then_some(packet)
    }

    pub fn encode(&self) -> [u8; SLOT_BYTES] {
        let [s0, s1, s2, s3] = self.serial.to_le_bytes();
        let [p0, p1, p2, p3, p4, p5, p6, p7] = self.payload;
        [
            MARK_HELD,
            self.source.to_byte(),
            self.destination.to_byte(),
            self.hops,
            s0,
            s1,
            s2,
            s3,
            p0,
            p1,
            p2,
            p3,
            p4,
            p5,
            p6,
            p7,
        ]
    }

    pub fn is_good(&self, place: Place, trailer: &Trailer) -> bool {
        let grid = &trailer.grid;
        grid.holds(self.source)
            && grid.holds(self.destination)
            && self.serial < trailer.taken
            && trailer.delivered < trailer.taken
            && self.is_on_a_shortest_path(place.node)
            && self.may_stand_in(place)
    }

    fn is_on_a_shortest_path(&self, here: Node) -> bool {
        let hops = u32::from(self.hops);
        hops == self.source.distance(here)
            && hops + here.distance(self.destination) == self.source.distance(self.destination)
    }

    fn may_stand_in(&self, place: Place) -> bool {
        let here = place.node;
        match place.kind {
            Kind::Waiting => self.source == here,
            Kind::A => true,
            Kind::B => self.destination.x <= here.x && self.destination.y <= here.y,
        }
    }
}
