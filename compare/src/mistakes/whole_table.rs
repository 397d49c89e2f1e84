//! Mistakes in the calls that go through the whole table.

use super::slots::{grid, place_of};
use crate::calls::Calls;
use crate::router::{find, full_check, outward_copy, CheckFault, Found, Kind, Refusal};

pub struct CopyKeepsPayload;

impl Calls for CopyKeepsPayload {
    fn outward_copy(&self, slice: &[u8], second: &mut [u8]) -> Result<(), Refusal> {
        outward_copy(slice, second)?;
        let start = slice.len().saturating_sub(second.len());
        second.copy_from_slice(slice.get(start..).unwrap_or_default());
        Ok(())
    }
}

/// 9 before 10.
pub struct CopyLengthFirst;

impl Calls for CopyLengthFirst {
    fn outward_copy(&self, slice: &[u8], second: &mut [u8]) -> Result<(), Refusal> {
        let right = grid(slice).map(|grid| grid.table_bytes());
        match right {
            Some(right) if right != second.len() => Err(Refusal::WrongLength),
            _ => outward_copy(slice, second),
        }
    }
}

/// The fifth of the paper's easy mistakes: finding by A and B only.
pub struct FindSkipsWaiting;

impl Calls for FindSkipsWaiting {
    fn find(&self, slice: &[u8]) -> Result<Found, Refusal> {
        let found = find(slice)?;
        let slot = u32::try_from(found.slot).unwrap_or_default();
        match place_of(slice, slot) {
            Some(place) if place.kind == Kind::Waiting => Err(Refusal::NothingHeld),
            _ => Ok(found),
        }
    }
}

pub struct SkipCountCheck;

impl Calls for SkipCountCheck {
    fn full_check(&self, slice: &[u8]) -> Result<(), Refusal> {
        match full_check(slice) {
            Err(Refusal::CheckFailed(CheckFault::CountsDisagree(_))) => Ok(()),
            answer => answer,
        }
    }
}

pub struct SkipSerialCheck;

impl Calls for SkipSerialCheck {
    fn full_check(&self, slice: &[u8]) -> Result<(), Refusal> {
        match full_check(slice) {
            Err(Refusal::CheckFailed(CheckFault::SerialTwice(_))) => Ok(()),
            answer => answer,
        }
    }
}
