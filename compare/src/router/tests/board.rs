//! A slice with a cleared table, and ways to set its bytes from outside.

use super::super::*;

pub struct Board {
    pub slice: Vec<u8>,
    pub grid: Grid,
    pub profile: Profile,
}

pub fn at(x: u8, y: u8) -> Node {
    Node { x, y }
}

pub fn place(x: u8, y: u8, kind: Kind) -> Place {
    Place {
        node: at(x, y),
        kind,
    }
}

/// A packet at `here` that has come straight from `source`.
pub fn packet(source: Node, here: Node, destination: Node, serial: u32) -> Packet {
    Packet {
        source,
        destination,
        hops: source.distance(here) as u8,
        serial,
        payload: *b"payload!",
    }
}

impl Board {
    pub fn new(width: u32, height: u32, depth: u32) -> Board {
        Board::after(&[], width, height, depth)
    }

    pub fn of(profile: Profile, width: u32, height: u32, depth: u32) -> Board {
        let mut board = Board::new(width, height, depth);
        let number = profile.number().into();
        let answer = clear(&mut board.slice, width, height, depth, number);
        assert_eq!(answer, Ok(()));
        Board { profile, ..board }
    }

    pub fn after(prefix: &[u8], width: u32, height: u32, depth: u32) -> Board {
        let used = if depth == 0 { 5 } else { depth };
        let grid = Grid::new(width, height, used).unwrap();
        let mut slice = prefix.to_vec();
        slice.resize(prefix.len() + grid.table_bytes(), 0xAA);
        assert_eq!(clear(&mut slice, width, height, depth, 0), Ok(()));
        let profile = Profile::Full;
        Board {
            slice,
            grid,
            profile,
        }
    }

    pub fn set_counts(&mut self, taken: u32, delivered: u32) {
        let trailer = Trailer {
            grid: self.grid,
            profile: self.profile,
            taken,
            delivered,
        };
        *self.slice.last_chunk_mut().unwrap() = trailer.encode();
    }

    pub fn set_trailer_byte(&mut self, number: usize, byte: u8) {
        let place = self.slice.len() - TRAILER_BYTES + number;
        self.slice[place] = byte;
    }

    pub fn slot_mut(&mut self, slot: usize) -> &mut [u8] {
        let start = self.slice.len() - self.grid.table_bytes() + SLOT_BYTES * slot;
        &mut self.slice[start..start + SLOT_BYTES]
    }

    pub fn put(&mut self, slot: usize, packet: Packet) {
        self.slot_mut(slot).copy_from_slice(&packet.encode());
    }

    pub fn first_slot(&self, place: Place) -> usize {
        self.grid.queue(place).start
    }

    /// One packet alone on the table, good there, with serial 0.
    pub fn put_alone(&mut self, place: Place, source: Node, destination: Node) -> u32 {
        let slot = self.first_slot(place);
        self.put(slot, packet(source, place.node, destination, 0));
        self.set_counts(1, 0);
        slot as u32
    }

    pub fn step(&mut self, slot: u32, code: u32) -> Result<Moved, Refusal> {
        make_move(&mut self.slice, slot, code)
    }

    /// The refusal's number for a call that must change no byte.
    pub fn refused<T>(&mut self, call: impl Fn(&mut [u8]) -> Result<T, Refusal>) -> u32 {
        let before = self.slice.clone();
        let number = call(&mut self.slice).err().map_or(0, Refusal::number);
        assert!(number == 0 || before == self.slice);
        number
    }
}
