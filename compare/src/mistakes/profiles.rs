//! Mistakes in what a profile offers, and in where it is read and held.

use super::slots::{judged, place_of};
use crate::calls::Calls;
use crate::router::{
    clear, find, full_check, make_move, outward_copy, take_in, Found, Kind, Moved, Profile,
    Refusal, Slot, TakenIn, Trailer, TRAILER_BYTES,
};

type Answer = Result<Moved, Refusal>;

fn profile(slice: &[u8]) -> Option<Profile> {
    Trailer::decode(slice).map(|trailer| trailer.profile)
}

fn profile_byte(slice: &mut [u8]) -> Option<&mut u8> {
    let [_, _, _, byte, ..] = slice.last_chunk_mut::<TRAILER_BYTES>()?;
    Some(byte)
}

fn put_profile_byte(slice: &mut [u8], byte: u8) {
    if let Some(old) = profile_byte(slice) {
        *old = byte;
    }
}

/// The move as on a board that has all moves.
fn move_in_full(slice: &mut [u8], slot: u32, code: u32) -> Answer {
    let held = profile(slice).map_or(0, Profile::number);
    put_profile_byte(slice, 0);
    let answer = make_move(slice, slot, code);
    put_profile_byte(slice, held);
    answer
}

/// Profile 1 without code 3 alone.
pub struct AdaptKeepsFive;

impl Calls for AdaptKeepsFive {
    fn make_move(&self, slice: &mut [u8], slot: u32, code: u32) -> Answer {
        match profile(slice) {
            Some(Profile::Adapt) if code == 5 => move_in_full(slice, slot, code),
            _ => make_move(slice, slot, code),
        }
    }
}

/// Profile 1 without codes 3 and 5 in B too.
pub struct AdaptDropsInB;

impl Calls for AdaptDropsInB {
    fn make_move(&self, slice: &mut [u8], slot: u32, code: u32) -> Answer {
        let in_b = place_of(slice, slot).is_some_and(|place| place.kind == Kind::B);
        let before = slice.to_vec();
        let adapt = profile(slice) == Some(Profile::Adapt);
        let answer = make_move(slice, slot, code);
        if answer.is_ok() && adapt && in_b && (code == 3 || code == 5) {
            slice.copy_from_slice(&before);
            return Err(Refusal::NotOffered);
        }
        answer
    }
}

/// In profile 2 code 5 before code 3 in B.
pub struct ObliviousPrefersFive;

impl ObliviousPrefersFive {
    fn falls_both_ways(slice: &[u8], slot: u32) -> Option<bool> {
        let place = place_of(slice, slot)?;
        let Slot::Good(packet) = judged(slice, usize::try_from(slot).ok()?)? else {
            return None;
        };
        let (here, there) = (place.node, packet.destination);
        Some(place.kind == Kind::B && there.x < here.x && there.y < here.y)
    }
}

impl Calls for ObliviousPrefersFive {
    fn make_move(&self, slice: &mut [u8], slot: u32, code: u32) -> Answer {
        let oblivious = profile(slice) == Some(Profile::Oblivious);
        let both = ObliviousPrefersFive::falls_both_ways(slice, slot) == Some(true);
        match code {
            3 if oblivious && both => Err(Refusal::NotOffered),
            5 if oblivious && both => move_in_full(slice, slot, code),
            _ => make_move(slice, slot, code),
        }
    }
}

/// In profile 2 the change at the destination.
pub struct ObliviousChangesAtHome;

impl Calls for ObliviousChangesAtHome {
    fn make_move(&self, slice: &mut [u8], slot: u32, code: u32) -> Answer {
        match profile(slice) {
            Some(Profile::Oblivious) if code == 6 => move_in_full(slice, slot, code),
            _ => make_move(slice, slot, code),
        }
    }
}

/// Find by all moves, whatever the profile.
pub struct FindInFull;

impl Calls for FindInFull {
    fn find(&self, slice: &[u8]) -> Result<Found, Refusal> {
        let mut full = slice.to_vec();
        if profile(slice).is_some() {
            put_profile_byte(&mut full, 0);
        }
        find(&full)
    }
}

/// Profile 3 accepted by a clear.
pub struct ClearTakesThree;

impl Calls for ClearTakesThree {
    fn clear(&self, slice: &mut [u8], board: [u32; 4]) -> Result<(), Refusal> {
        let [width, height, depth, profile] = board;
        let three = profile == 3;
        clear(slice, width, height, depth, if three { 2 } else { profile })?;
        if three {
            put_profile_byte(slice, 3);
        }
        Ok(())
    }
}

/// A profile cut to 8 bits.
pub struct ClearCutsProfile;

impl Calls for ClearCutsProfile {
    fn clear(&self, slice: &mut [u8], board: [u32; 4]) -> Result<(), Refusal> {
        let [width, height, depth, profile] = board;
        clear(slice, width, height, depth, profile & 0xFF)
    }
}

/// 9 before 8, where 8 is for the profile.
pub struct LengthBeforeProfile;

impl Calls for LengthBeforeProfile {
    fn clear(&self, slice: &mut [u8], board: [u32; 4]) -> Result<(), Refusal> {
        let [width, height, depth, profile] = board;
        clear(&mut slice.to_vec(), width, height, depth, 0)?;
        clear(slice, width, height, depth, profile)
    }
}

/// A fresh trailer that doesn't hold the profile.
pub struct ProfileNotHeld;

impl Calls for ProfileNotHeld {
    fn clear(&self, slice: &mut [u8], board: [u32; 4]) -> Result<(), Refusal> {
        let [width, height, depth, profile] = board;
        clear(slice, width, height, depth, profile)?;
        put_profile_byte(slice, 0);
        Ok(())
    }
}

/// A trailer written anew for its counts without the profile.
pub struct TakeForgetsProfile;

impl Calls for TakeForgetsProfile {
    fn take_in(&self, slice: &mut [u8], ends: [u8; 2], load: [u8; 8]) -> Result<TakenIn, Refusal> {
        let [source, destination] = ends;
        let taken = take_in(slice, source, destination, load)?;
        put_profile_byte(slice, 0);
        Ok(taken)
    }
}

/// A trailer with profile 3 is good.
pub struct TrailerTakesThree;

impl Calls for TrailerTakesThree {
    fn full_check(&self, slice: &[u8]) -> Result<(), Refusal> {
        let mut two = slice.to_vec();
        if let Some(byte) = profile_byte(&mut two).filter(|byte| **byte == 3) {
            *byte = 2;
        }
        full_check(&two)
    }
}

/// The copy's trailer without the profile.
pub struct CopyForgetsProfile;

impl Calls for CopyForgetsProfile {
    fn outward_copy(&self, slice: &[u8], second: &mut [u8]) -> Result<(), Refusal> {
        outward_copy(slice, second)?;
        put_profile_byte(second, 0);
        Ok(())
    }
}
