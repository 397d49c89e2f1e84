//! The grid's sizes and the numbering of its nodes and slots.

use std::ops::Range;

pub const SLOT_BYTES: usize = 16;
pub const TRAILER_BYTES: usize = 16;

/// Sizes within their ranges; only `Grid::new` makes one.
#[derive(Clone, Copy, Debug, PartialEq, Eq)]
pub struct Grid {
    width: u8,
    height: u8,
    depth: u8,
}

#[derive(Clone, Copy, Debug, PartialEq, Eq)]
pub struct Node {
    pub x: u8,
    pub y: u8,
}

#[derive(Clone, Copy, Debug, PartialEq, Eq)]
pub enum Kind {
    Waiting,
    A,
    B,
}

#[derive(Clone, Copy, Debug, PartialEq, Eq)]
pub struct Place {
    pub node: Node,
    pub kind: Kind,
}

impl Node {
    pub fn from_byte(byte: u8) -> Node {
        Node {
            x: byte % 16,
            y: byte / 16,
        }
    }

    pub fn to_byte(self) -> u8 {
        (self.x % 16) | (self.y % 16) << 4
    }

    pub fn distance(self, other: Node) -> u32 {
        u32::from(self.x.abs_diff(other.x)) + u32::from(self.y.abs_diff(other.y))
    }
}

impl Grid {
    pub fn new(width: u32, height: u32, depth: u32) -> Option<Grid> {
        let within = |number: u32, most: u8| {
            let number = u8::try_from(number).ok()?;
            (1..=most).contains(&number).then_some(number)
        };
        Some(Grid {
            width: within(width, 16)?,
            height: within(height, 16)?,
            depth: within(depth, 7)?,
        })
    }

    pub fn width(&self) -> u8 {
        self.width
    }

    pub fn height(&self) -> u8 {
        self.height
    }

    pub fn depth(&self) -> u8 {
        self.depth
    }

    pub fn slots(&self) -> usize {
        usize::from(self.width) * usize::from(self.height) * self.slots_of_a_node()
    }

    pub fn table_bytes(&self) -> usize {
        SLOT_BYTES * self.slots() + TRAILER_BYTES
    }

    pub fn holds(&self, node: Node) -> bool {
        node.x < self.width && node.y < self.height
    }

    /// Nothing for a slot number of S or more.
    pub fn place_of(&self, slot: usize) -> Option<Place> {
        let width = usize::from(self.width);
        let number = slot / self.slots_of_a_node();
        let node = Node {
            x: u8::try_from(number % width).ok()?,
            y: u8::try_from(number / width).ok()?,
        };
        let depth = usize::from(self.depth);
        let kind = match slot % self.slots_of_a_node() {
            0 => Kind::Waiting,
            place if place <= depth => Kind::A,
            _ => Kind::B,
        };
        self.holds(node).then_some(Place { node, kind })
    }

    /// The slot numbers of one queue; the waiting slot is a queue of one.
    pub fn queue(&self, place: Place) -> Range<usize> {
        let Node { x, y } = place.node;
        let number = usize::from(y) * usize::from(self.width) + usize::from(x);
        let first = number * self.slots_of_a_node();
        let depth = usize::from(self.depth);
        match place.kind {
            Kind::Waiting => first..first + 1,
            Kind::A => first + 1..first + 1 + depth,
            Kind::B => first + 1 + depth..first + 1 + 2 * depth,
        }
    }

    fn slots_of_a_node(&self) -> usize {
        1 + 2 * usize::from(self.depth)
    }
}
