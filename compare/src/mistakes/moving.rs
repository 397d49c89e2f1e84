//! Mistakes in moving.

use super::slots::{judged, place_of, put_slot_bytes, queue_of, slot_bytes};
use crate::calls::Calls;
use crate::router::{
    make_move, read_payload, Kind, Moved, Node, Packet, Place, Refusal, Slot, Table, CODES,
};

type Answer = Result<Moved, Refusal>;

/// Numbers cut to 16 bits.
pub struct CutsNumbers;

impl Calls for CutsNumbers {
    fn make_move(&self, slice: &mut [u8], slot: u32, code: u32) -> Answer {
        make_move(slice, slot & 0xFFFF, code & 0xFFFF)
    }
}

/// 3 and 4 before a code outside 1 to 7.
pub struct CodeAfterSlot;

impl Calls for CodeAfterSlot {
    fn make_move(&self, slice: &mut [u8], slot: u32, code: u32) -> Answer {
        if CODES.contains(&code) {
            return make_move(slice, slot, code);
        }
        read_payload(slice, slot)?;
        Err(Refusal::OutOfRange)
    }
}

pub struct DeliversWithoutCount;

impl Calls for DeliversWithoutCount {
    fn make_move(&self, slice: &mut [u8], slot: u32, code: u32) -> Answer {
        let before = Table::open_to_write(slice).map(|table| table.trailer);
        let answer = make_move(slice, slot, code);
        if let (Ok(Moved::Delivered { .. }), Ok(before)) = (answer, before) {
            if let Ok(mut table) = Table::open_to_write(slice) {
                table.put_trailer(before);
            }
        }
        answer
    }
}

/// The first of the paper's easy mistakes: code 5 in A whenever w < y.
pub struct FallInA;

impl FallInA {
    fn fall(slice: &mut [u8], slot: u32) -> Option<Moved> {
        let Place { node, kind } = place_of(slice, slot)?;
        let slot = usize::try_from(slot).ok()?;
        let Slot::Good(packet) = judged(slice, slot)? else {
            return None;
        };
        if kind != Kind::A || packet.destination.y >= node.y {
            return None;
        }
        let y = node.y.checked_sub(1)?;
        let node = Node { y, ..node };
        let mut table = Table::open_to_write(slice).ok()?;
        let target = table.lowest_empty(Place { node, kind })?;
        let hops = packet.hops.saturating_add(1);
        table.put_packet(target, &Packet { hops, ..packet });
        table.put_empty(slot);
        Some(Moved::To {
            slot: target,
            left: table.left_in_queue_of(target),
        })
    }
}

impl Calls for FallInA {
    fn make_move(&self, slice: &mut [u8], slot: u32, code: u32) -> Answer {
        let answer = make_move(slice, slot, code);
        if answer != Err(Refusal::NotOffered) || code != 5 {
            return answer;
        }
        FallInA::fall(slice, slot).ok_or(Refusal::NotOffered)
    }
}

/// The highest empty slot of the target queue in place of the lowest.
pub struct HighestSlot;

impl Calls for HighestSlot {
    fn make_move(&self, slice: &mut [u8], slot: u32, code: u32) -> Answer {
        let answer = make_move(slice, slot, code)?;
        let Moved::To { slot: lowest, left } = answer else {
            return Ok(answer);
        };
        let empty = |slot: &usize| judged(slice, *slot) == Some(Slot::Empty);
        let highest = queue_of(slice, lowest).rfind(empty).unwrap_or(lowest);
        let packet = slot_bytes(slice, lowest);
        put_slot_bytes(slice, lowest, &[0; 16]);
        put_slot_bytes(slice, highest, &packet);
        Ok(Moved::To {
            slot: highest,
            left,
        })
    }
}

/// The fourth: the distance to the destination as the hop record.
pub struct HopsToGo;

impl Calls for HopsToGo {
    fn make_move(&self, slice: &mut [u8], slot: u32, code: u32) -> Answer {
        let answer = make_move(slice, slot, code)?;
        if let Moved::To { slot: target, .. } = answer {
            let here = u32::try_from(target).ok();
            let place = here.and_then(|here| place_of(slice, here));
            if let (Some(Slot::Good(packet)), Some(place)) = (judged(slice, target), place) {
                let to_go = packet.destination.distance(place.node);
                let hops = u8::try_from(to_go).unwrap_or_default();
                put_slot_bytes(slice, target, &Packet { hops, ..packet }.encode());
            }
        }
        Ok(answer)
    }
}

/// The second: only the mark of the old slot becomes zero.
pub struct MarkOnly;

impl Calls for MarkOnly {
    fn make_move(&self, slice: &mut [u8], slot: u32, code: u32) -> Answer {
        let number = usize::try_from(slot).unwrap_or_default();
        let [_, rest @ ..] = slot_bytes(slice, number);
        let answer = make_move(slice, slot, code)?;
        let mut old = [0; 16];
        old.iter_mut()
            .skip(1)
            .zip(rest)
            .for_each(|(to, from)| *to = from);
        put_slot_bytes(slice, number, &old);
        Ok(answer)
    }
}

/// The third: spoiled slots count as empty where no other is left.
pub struct SpoiledAsEmpty;

impl Calls for SpoiledAsEmpty {
    fn make_move(&self, slice: &mut [u8], slot: u32, code: u32) -> Answer {
        let answer = make_move(slice, slot, code);
        if answer != Err(Refusal::NoEmptySlot) {
            return answer;
        }
        let mut emptied = slice.to_vec();
        let slots = Table::open(slice).map(|table| table.slots());
        for (number, judged) in slots.unwrap_or_default().iter().enumerate() {
            if *judged == Slot::Spoiled {
                put_slot_bytes(&mut emptied, number, &[0; 16]);
            }
        }
        let answer = make_move(&mut emptied, slot, code);
        if answer.is_ok() {
            slice.copy_from_slice(&emptied);
        }
        answer
    }
}
