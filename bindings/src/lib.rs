//! Paneglove's packet table for a rectangular grid, from Rust.
//!
//! The calls are proved in Rattle and linked from the archive that `tools/archive` builds, which is x86-64 code for Linux; this crate only wraps
//! them, and refuses to be built for anything else. The table is the last part of the slice lent, and bytes before it are neither read nor
//! written. Any bytes and any numbers get an answer, and a refused call changes no byte.
//!
//! ```
//! use paneglove::{clear, find, make_move, node, profile, take_in, Moved, Refusal};
//!
//! let mut board = [0; 1296];
//! clear(&mut board, 4, 4, 2, profile::FULL)?;
//! take_in(&mut board, node(0, 0), node(3, 3), *b"payload!")?;
//! loop {
//!     match find(&board) {
//!         Ok(found) => {
//!             match make_move(&mut board, found.slot, found.code)? {
//!                 Moved::To { left, .. } => assert_eq!(left, 1),
//!                 Moved::Delivered { packet, left } => {
//!                     assert_eq!(&packet[8..], b"payload!");
//!                     assert_eq!(left, 2);
//!                 }
//!             }
//!         }
//!         Err(Refusal::NothingHeld) => break,
//!         Err(refusal) => return Err(refusal),
//!     }
//! }
//! # Ok::<(), Refusal>(())
//! ```
mod archive;
mod refusal;

pub use refusal::Refusal;

/// The code of delivery, the one move that hands its packet out.
pub const DELIVER: u32 = 7;

/// A board's profile: which of the rule's moves it has.
pub mod profile {
    /// All of them.
    pub const FULL: u32 = 0;
    /// All but codes 3 and 5 in A.
    pub const ADAPT: u32 = 1;
    /// One hop only: in A code 2, else 4; in B code 3, else 5; and in A no change at the destination.
    pub const OBLIVIOUS: u32 = 2;
}

/// The buffer that a listing needs, whatever the slice.
pub const LISTING_ROOM: usize = 226_637;

/// A packet taken in: its slot, its serial, and how many slots of its queue are now empty, which is 0: a waiting queue has one slot.
#[derive(Clone, Copy, Debug, PartialEq, Eq)]
pub struct Taken {
    pub slot: u32,
    pub serial: u32,
    pub left: u32,
}

/// What an accepted move did. A spoiled slot never counts as empty.
#[derive(Clone, Copy, Debug, PartialEq, Eq)]
pub enum Moved {
    /// The packet is now in this slot, and so many slots of its queue are still empty.
    To { slot: u32, left: u32 },
    /// The packet left, all 16 bytes of it, and so many slots of the queue that it left are now empty, its own among them.
    Delivered { packet: [u8; 16], left: u32 },
}

/// A move that would be accepted.
#[derive(Clone, Copy, Debug, PartialEq, Eq)]
pub struct Found {
    pub slot: u32,
    pub code: u32,
}

/// A node as source or destination: x + 16 × y.
///
/// # Panics
///
/// Where x or y is above 15.
pub const fn node(x: u8, y: u8) -> u8 {
    assert!(x < 16 && y < 16, "a coordinate is from 0 to 15");
    x + 16 * y
}

fn accepted<T>(number: u32, place: u32, answer: T) -> Result<T, Refusal> {
    match number {
        0 => Ok(answer),
        _ => Err(Refusal::of(number, place)),
    }
}

/// Makes the slice's last part a fresh table of that [`profile`]; depth 0 means 5. Refused by `Sizes`, for a profile above 2 as well, then
/// `Buffer` where the slice is shorter than the table.
pub fn clear(
    slice: &mut [u8],
    width: u32,
    height: u32,
    depth: u32,
    profile: u32,
) -> Result<(), Refusal> {
    accepted(archive::clear(slice, width, height, depth, profile), 0, ())
}

/// Puts a packet into the waiting slot of its source. Refused by `Trailer`, `OutOfRange`, `AllTaken`, then `NoRoom`.
pub fn take_in(
    slice: &mut [u8],
    source: u8,
    destination: u8,
    payload: [u8; 8],
) -> Result<Taken, Refusal> {
    let a = archive::take_in(slice, source, destination, payload);
    accepted(
        a.number,
        0,
        Taken {
            slot: a.slot,
            serial: a.serial,
            left: a.left,
        },
    )
}

/// Makes the proposed move, by the rule in the board's profile. Refused by `Trailer`, `OutOfRange`, `Empty`, `Spoiled`, `NotOffered`, `GivesWay` where
/// it is code 3 or 5 in A and the node's B queue holds a good packet for which the rule offers the same code, then `NoRoom`.
pub fn make_move(slice: &mut [u8], slot: u32, code: u32) -> Result<Moved, Refusal> {
    let a = archive::make_move(slice, slot, code);
    let done = if code == DELIVER {
        Moved::Delivered {
            packet: a.packet,
            left: a.left,
        }
    } else {
        Moved::To {
            slot: a.slot,
            left: a.left,
        }
    };
    accepted(a.number, 0, done)
}

/// The payload of the packet in a slot. Refused by `Trailer`, `OutOfRange`, `Empty`, then `Spoiled`.
pub fn read_payload(slice: &[u8], slot: u32) -> Result<[u8; 8], Refusal> {
    let a = archive::read_payload(slice, slot);
    accepted(a.number, 0, a.payload)
}

/// Checks the whole table. Refused by `Trailer`, then `Fault` at its first fault.
pub fn full_check(slice: &[u8]) -> Result<(), Refusal> {
    let a = archive::full_check(slice);
    accepted(a.number, a.place, ())
}

/// The lowest slot, and for it the lowest code, whose move would be accepted. Refused by `Trailer`, `Fault`, then `NothingHeld`.
pub fn find(slice: &[u8]) -> Result<Found, Refusal> {
    let a = archive::find(slice);
    accepted(
        a.number,
        a.slot,
        Found {
            slot: a.slot,
            code: a.code,
        },
    )
}

/// Writes the table into `out` with every payload zero. Refused by `Trailer`, `Fault`, then `Buffer` unless `out` has exactly the table's length.
pub fn copy_outward(slice: &[u8], out: &mut [u8]) -> Result<(), Refusal> {
    let a = archive::copy_outward(slice, out);
    accepted(a.number, a.place, ())
}

/// Writes the table's listing at the start of `out` and answers that part. The listing of a table that is refused says so in its own words.
/// Refused by `Buffer` where `out` is shorter than [`LISTING_ROOM`].
pub fn list<'a>(slice: &[u8], out: &'a mut [u8]) -> Result<&'a [u8], Refusal> {
    let a = archive::list(slice, out);
    accepted(a.number, 0, ())?;
    Ok(&out[..a.length])
}
