//! The second router, written from documents 01 and 02 alone: the calls decode what they need of
//! the lent slice into structs, work on those, and encode the result back.

mod check;
mod clear;
mod copy;
mod find;
mod grid;
mod moving;
mod packet;
mod payload;
mod profile;
mod refusal;
mod right_of_way;
mod rule;
mod slot;
mod table;
mod take_in;
#[cfg(test)]
mod tests;
mod trailer;

pub use check::full_check;
pub use clear::clear;
pub use copy::outward_copy;
pub use find::{find, Found};
pub use grid::{Grid, Kind, Node, Place, SLOT_BYTES, TRAILER_BYTES};
pub use moving::{make_move, Moved};
pub use packet::Packet;
pub use payload::read_payload;
pub use profile::Profile;
pub use refusal::{CheckFault, Refusal};
pub use rule::{offered, Step, CODES};
pub use slot::Slot;
pub use table::Table;
pub use take_in::{take_in, TakenIn};
pub use trailer::Trailer;
