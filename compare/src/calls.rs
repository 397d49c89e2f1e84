//! The calls as a set that a deliberate mistake can change one of.

use crate::router::{self, Found, Moved, Refusal, TakenIn};
use crate::script::Command;

pub trait Calls {
    fn clear(&self, slice: &mut [u8], board: [u32; 4]) -> Result<(), Refusal> {
        let [width, height, depth, profile] = board;
        router::clear(slice, width, height, depth, profile)
    }

    fn take_in(&self, slice: &mut [u8], ends: [u8; 2], load: [u8; 8]) -> Result<TakenIn, Refusal> {
        let [source, destination] = ends;
        router::take_in(slice, source, destination, load)
    }

    fn make_move(&self, slice: &mut [u8], slot: u32, code: u32) -> Result<Moved, Refusal> {
        router::make_move(slice, slot, code)
    }

    fn read_payload(&self, slice: &[u8], slot: u32) -> Result<Vec<u8>, Refusal> {
        router::read_payload(slice, slot).map(<[u8]>::to_vec)
    }

    fn full_check(&self, slice: &[u8]) -> Result<(), Refusal> {
        router::full_check(slice)
    }

    fn find(&self, slice: &[u8]) -> Result<Found, Refusal> {
        router::find(slice)
    }

    fn outward_copy(&self, slice: &[u8], second: &mut [u8]) -> Result<(), Refusal> {
        router::outward_copy(slice, second)
    }

    /// What the answer of a refused taking in or move has for the slots left.
    fn left_when_refused(&self, _slice: &[u8], _command: Command) -> usize {
        0
    }
}

/// The second router without a mistake.
pub struct SecondRouter;

impl Calls for SecondRouter {}
