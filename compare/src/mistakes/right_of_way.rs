//! Mistakes in the right of way on a link.

use super::slots::{grid, judged, place_of, put_slot_bytes, slot_bytes};
use crate::calls::Calls;
use crate::router::{
    find, full_check, make_move, offered, Found, Kind, Moved, Place, Refusal, Slot, Step, Table,
};
use std::ops::Range;

type Answer = Result<Moved, Refusal>;

const SHARED: [u32; 2] = [3, 5];

fn in_a(slice: &[u8], slot: u32) -> bool {
    place_of(slice, slot).is_some_and(|place| place.kind == Kind::A)
}

/// The slots of that kind at the slot's own node.
fn beside(slice: &[u8], slot: u32, kind: Kind) -> Range<usize> {
    let queue = place_of(slice, slot).zip(grid(slice));
    let queue = queue.map(|(place, grid)| grid.queue(Place { kind, ..place }));
    queue.unwrap_or_default()
}

/// Where the rule leads the good packet of a slot by the code.
fn step(slice: &[u8], slot: usize, code: u32) -> Option<Step> {
    let table = Table::open(slice).ok()?;
    let place = table.trailer.grid.place_of(slot)?;
    let Slot::Good(packet) = table.slot(slot)? else {
        return None;
    };
    offered(table.trailer.profile, place, packet.destination, code)
}

fn is_offered(slice: &[u8], slot: usize, code: u32) -> bool {
    step(slice, slot, code).is_some()
}

/// The move with the node's B queue out of its way.
fn without_b(slice: &mut [u8], slot: u32, code: u32) -> Answer {
    let queue = beside(slice, slot, Kind::B);
    let held: Vec<_> = queue.clone().map(|slot| slot_bytes(slice, slot)).collect();
    for slot in queue.clone() {
        put_slot_bytes(slice, slot, &[0; 16]);
    }
    let answer = make_move(slice, slot, code);
    for (slot, bytes) in queue.zip(held) {
        put_slot_bytes(slice, slot, &bytes);
    }
    answer
}

/// The right of way heeded only where a test of the table says so.
fn stopped_only(slice: &mut [u8], slot: u32, code: u32, heeded: bool) -> Answer {
    match make_move(slice, slot, code) {
        Err(Refusal::GivesWay) if !heeded => without_b(slice, slot, code),
        answer => answer,
    }
}

/// An offered move refused by 12 in more tables than the order says.
fn stopped_too(slice: &mut [u8], slot: u32, code: u32, stopped: bool) -> Answer {
    let before = slice.to_vec();
    let answer = make_move(slice, slot, code);
    if stopped && matches!(answer, Ok(_) | Err(Refusal::NoEmptySlot)) {
        slice.copy_from_slice(&before);
        return Err(Refusal::GivesWay);
    }
    answer
}

/// Both queues on equal terms.
pub struct NoRightOfWay;

impl Calls for NoRightOfWay {
    fn make_move(&self, slice: &mut [u8], slot: u32, code: u32) -> Answer {
        stopped_only(slice, slot, code, false)
    }
}

/// Only by a packet that has room.
pub struct StoppedOnlyWithRoom;

impl StoppedOnlyWithRoom {
    fn has_room(slice: &[u8], slot: usize, code: u32) -> bool {
        let target = match step(slice, slot, code) {
            Some(Step::Hop(target)) => target,
            Some(Step::Queue(_) | Step::Delivery) | None => return false,
        };
        Table::open(slice).is_ok_and(|table| table.lowest_empty(target).is_some())
    }
}

impl Calls for StoppedOnlyWithRoom {
    fn make_move(&self, slice: &mut [u8], slot: u32, code: u32) -> Answer {
        let mut queue = beside(slice, slot, Kind::B);
        let room = queue.any(|slot| StoppedOnlyWithRoom::has_room(slice, slot, code));
        stopped_only(slice, slot, code, room)
    }
}

/// Only by the packet of the queue's first slot.
pub struct StoppedByTheFirst;

impl Calls for StoppedByTheFirst {
    fn make_move(&self, slice: &mut [u8], slot: u32, code: u32) -> Answer {
        let first = beside(slice, slot, Kind::B).start;
        let heeded = is_offered(slice, first, code);
        stopped_only(slice, slot, code, heeded)
    }
}

/// Only by the packet of the queue's lowest slot that is held.
pub struct StoppedByTheLowestHeld;

impl Calls for StoppedByTheLowestHeld {
    fn make_move(&self, slice: &mut [u8], slot: u32, code: u32) -> Answer {
        let mut queue = beside(slice, slot, Kind::B);
        let lowest = queue.find(|slot| judged(slice, *slot) != Some(Slot::Empty));
        let heeded = lowest.is_some_and(|slot| is_offered(slice, slot, code));
        stopped_only(slice, slot, code, heeded)
    }
}

/// Only in a table that passes the full check.
pub struct StoppedInGoodTables;

impl Calls for StoppedInGoodTables {
    fn make_move(&self, slice: &mut [u8], slot: u32, code: u32) -> Answer {
        let passes = full_check(slice).is_ok();
        stopped_only(slice, slot, code, passes)
    }
}

/// By a spoiled packet as well.
pub struct StoppedBySpoiled;

impl Calls for StoppedBySpoiled {
    fn make_move(&self, slice: &mut [u8], slot: u32, code: u32) -> Answer {
        let mut queue = beside(slice, slot, Kind::B);
        let spoiled = queue.any(|slot| judged(slice, slot) == Some(Slot::Spoiled));
        let stopped = in_a(slice, slot) && SHARED.contains(&code) && spoiled;
        stopped_too(slice, slot, code, stopped)
    }
}

/// By a packet in any node's B queue.
pub struct StoppedByAnotherNode;

impl Calls for StoppedByAnotherNode {
    fn make_move(&self, slice: &mut [u8], slot: u32, code: u32) -> Answer {
        let in_b = |slot: u32| place_of(slice, slot).is_some_and(|place| place.kind == Kind::B);
        let goes = |slot: u32| is_offered(slice, usize::try_from(slot).unwrap_or_default(), code);
        let slots = grid(slice).map_or(0, |grid| grid.slots());
        let mut slots = 0..u32::try_from(slots).unwrap_or_default();
        let asked = in_a(slice, slot) && SHARED.contains(&code);
        let stopped = asked && slots.any(|slot| in_b(slot) && goes(slot));
        stopped_too(slice, slot, code, stopped)
    }
}

/// By another packet of the A queue.
pub struct StoppedByA;

impl Calls for StoppedByA {
    fn make_move(&self, slice: &mut [u8], slot: u32, code: u32) -> Answer {
        let own = usize::try_from(slot).unwrap_or_default();
        let mut others = beside(slice, slot, Kind::A).filter(|other| *other != own);
        let stopped = in_a(slice, slot)
            && SHARED.contains(&code)
            && others.any(|other| is_offered(slice, other, code));
        stopped_too(slice, slot, code, stopped)
    }
}

/// By a packet that is offered the other of the two codes alone.
pub struct StoppedByTheOtherCode;

impl Calls for StoppedByTheOtherCode {
    fn make_move(&self, slice: &mut [u8], slot: u32, code: u32) -> Answer {
        let mut queue = beside(slice, slot, Kind::B);
        let goes = |slot| SHARED.iter().any(|code| is_offered(slice, slot, *code));
        let stopped = in_a(slice, slot) && SHARED.contains(&code) && queue.any(goes);
        stopped_too(slice, slot, code, stopped)
    }
}

/// Code 2 as well, by a packet that goes the other way.
pub struct StoppedOnCodeTwo;

impl Calls for StoppedOnCodeTwo {
    fn make_move(&self, slice: &mut [u8], slot: u32, code: u32) -> Answer {
        let mut queue = beside(slice, slot, Kind::B);
        let stopped =
            in_a(slice, slot) && code == 2 && queue.any(|slot| is_offered(slice, slot, 3));
        stopped_too(slice, slot, code, stopped)
    }
}

/// 12 after 6.
pub struct TwelveAfterSix;

impl Calls for TwelveAfterSix {
    fn make_move(&self, slice: &mut [u8], slot: u32, code: u32) -> Answer {
        let answer = make_move(slice, slot, code);
        if answer != Err(Refusal::GivesWay) {
            return answer;
        }
        match without_b(&mut slice.to_vec(), slot, code) {
            Err(Refusal::NoEmptySlot) => Err(Refusal::NoEmptySlot),
            _ => answer,
        }
    }
}

/// 12 before 5.
pub struct TwelveBeforeFive;

impl Calls for TwelveBeforeFive {
    fn make_move(&self, slice: &mut [u8], slot: u32, code: u32) -> Answer {
        let answer = make_move(slice, slot, code);
        let mut queue = beside(slice, slot, Kind::B);
        let stopped = in_a(slice, slot)
            && SHARED.contains(&code)
            && queue.any(|slot| is_offered(slice, slot, code));
        match answer {
            Err(Refusal::NotOffered) if stopped => Err(Refusal::GivesWay),
            answer => answer,
        }
    }
}

/// Find names moves that give way.
pub struct FindForgetsWay;

impl FindForgetsWay {
    fn stopped(slice: &mut [u8], slot: usize, code: u32) -> bool {
        let Ok(slot) = u32::try_from(slot) else {
            return false;
        };
        let gives_way = in_a(slice, slot) && make_move(slice, slot, code) == Err(Refusal::GivesWay);
        gives_way && without_b(&mut slice.to_vec(), slot, code).is_ok()
    }
}

impl Calls for FindForgetsWay {
    fn find(&self, slice: &[u8]) -> Result<Found, Refusal> {
        let found = find(slice)?;
        let moves = (0..=found.slot).flat_map(|slot| SHARED.map(|code| Found { slot, code }));
        let mut earlier = moves.take_while(|one| (one.slot, one.code) < (found.slot, found.code));
        let mut tried = slice.to_vec();
        let stopped = earlier.find(|one| FindForgetsWay::stopped(&mut tried, one.slot, one.code));
        Ok(stopped.unwrap_or(found))
    }
}
