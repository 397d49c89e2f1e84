//! Mistakes in telling how many slots are left.

use super::slots::{judged, queue_of, waiting_slot_of};
use crate::calls::Calls;
use crate::router::{make_move, take_in, Moved, Refusal, Slot, TakenIn};
use crate::script::Command;

type Answer = Result<Moved, Refusal>;

fn count(slice: &[u8], slot: usize, kind: Slot) -> usize {
    let slots = queue_of(slice, slot);
    slots
        .filter(|slot| judged(slice, *slot) == Some(kind))
        .count()
}

/// The waiting slot counted before the packet is in it.
pub struct TakeCountsBefore;

impl Calls for TakeCountsBefore {
    fn take_in(&self, slice: &mut [u8], ends: [u8; 2], load: [u8; 8]) -> Result<TakenIn, Refusal> {
        let [source, destination] = ends;
        let taken = take_in(slice, source, destination, load)?;
        let left = taken.left + 1;
        Ok(TakenIn { left, ..taken })
    }
}

/// The target queue counted before the packet is in it.
pub struct MoveCountsBefore;

impl Calls for MoveCountsBefore {
    fn make_move(&self, slice: &mut [u8], slot: u32, code: u32) -> Answer {
        let mut answer = make_move(slice, slot, code);
        if let Ok(Moved::To { left, .. }) = &mut answer {
            *left += 1;
        }
        answer
    }
}

/// The queue counted without the slot that the packet has just left.
pub struct DeliveryCountsBefore;

impl Calls for DeliveryCountsBefore {
    fn make_move(&self, slice: &mut [u8], slot: u32, code: u32) -> Answer {
        let mut answer = make_move(slice, slot, code);
        if let Ok(Moved::Delivered { left, .. }) = &mut answer {
            *left = left.saturating_sub(1);
        }
        answer
    }
}

/// Spoiled slots of the target queue counted as empty.
pub struct MoveCountsSpoiled;

impl Calls for MoveCountsSpoiled {
    fn make_move(&self, slice: &mut [u8], slot: u32, code: u32) -> Answer {
        let mut answer = make_move(slice, slot, code);
        if let Ok(Moved::To { slot, left }) = &mut answer {
            *left += count(slice, *slot, Slot::Spoiled);
        }
        answer
    }
}

/// Slots spoiled before a delivery counted as empty in the queue that the packet left.
pub struct DeliveryCountsSpoiled;

impl Calls for DeliveryCountsSpoiled {
    fn make_move(&self, slice: &mut [u8], slot: u32, code: u32) -> Answer {
        let number = usize::try_from(slot).unwrap_or_default();
        let spoiled = count(slice, number, Slot::Spoiled);
        let mut answer = make_move(slice, slot, code);
        if let Ok(Moved::Delivered { left, .. }) = &mut answer {
            *left += spoiled;
        }
        answer
    }
}

/// A refused move tells how many slots are empty beside the one named.
pub struct RefusedMoveCounts;

impl Calls for RefusedMoveCounts {
    fn left_when_refused(&self, slice: &[u8], command: Command) -> usize {
        let Command::Move { slot, .. } = command else {
            return 0;
        };
        let number = usize::try_from(slot).unwrap_or_default();
        count(slice, number, Slot::Empty)
    }
}

/// A refused taking in tells whether the source's waiting slot is empty.
pub struct RefusedTakeCounts;

impl Calls for RefusedTakeCounts {
    fn left_when_refused(&self, slice: &[u8], command: Command) -> usize {
        let Command::TakeIn { source, .. } = command else {
            return 0;
        };
        let waiting = waiting_slot_of(slice, source);
        waiting.map_or(0, |slot| count(slice, slot, Slot::Empty))
    }
}
