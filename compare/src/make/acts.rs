//! What recipes do with a live table, one act a call or a few.

use super::bench::Bench;
use crate::answer::Answer;
use crate::router::{offered, Found, Grid, Profile, Slot, CODES};
use crate::script::{Command, LENGTH_MOST};
use std::ops::RangeInclusive;

/// As 0 lies before the codes.
pub const PAST_THE_CODES: u32 = *CODES.end() + 1;

/// How traffic goes at the moment.
#[derive(Clone, Copy, Default)]
pub struct Mood {
    pub delivering: bool,
    /// A destination that many packets have, so that its queues fill.
    pub crowded: Option<u8>,
}

pub fn node_byte(bench: &mut Bench, grid: &Grid) -> u8 {
    let x = bench.dice.below(grid.width().into());
    let y = bench.dice.below(grid.height().into());
    u8::try_from(x + 16 * y).unwrap_or_default()
}

pub fn take_in(bench: &mut Bench, mood: Mood) {
    let Some(grid) = bench.grid() else { return };
    let source = node_byte(bench, &grid);
    let destination = match mood.crowded {
        Some(node) if bench.dice.percent(70) => node,
        _ => node_byte(bench, &grid),
    };
    let payload = bench.dice.payload();
    bench.call(Command::TakeIn {
        source,
        destination,
        payload,
    });
}

pub fn take_in_at(bench: &mut Bench, source: u8) {
    let Some(grid) = bench.grid() else { return };
    let destination = node_byte(bench, &grid);
    let payload = bench.dice.payload();
    bench.call(Command::TakeIn {
        source,
        destination,
        payload,
    });
}

/// Every code, and the number on either side of them.
pub fn codes_and_beyond() -> RangeInclusive<u32> {
    0..=PAST_THE_CODES
}

/// The codes that the rule offers the packet in the slot.
pub fn codes_for(bench: &Bench, slot: u32) -> Vec<u32> {
    let trailer = bench.trailer();
    trailer.map_or_else(Vec::new, |trailer| codes_in(trailer.profile, bench, slot))
}

/// The codes that it would offer in the profile.
fn codes_in(profile: Profile, bench: &Bench, slot: u32) -> Vec<u32> {
    let codes = || {
        let table = bench.table()?;
        let slot = usize::try_from(slot).ok()?;
        let place = table.trailer.grid.place_of(slot)?;
        let Slot::Good(packet) = table.slot(slot)? else {
            return None;
        };
        let offers = |code: &u32| offered(profile, place, packet.destination, *code).is_some();
        Some(CODES.filter(offers).collect())
    };
    codes().unwrap_or_default()
}

pub fn move_something(bench: &mut Bench, mood: Mood) {
    let Some(slot) = bench.held_slot() else {
        return;
    };
    let codes = match bench.dice.below(10) {
        0 => codes_and_beyond().collect(),
        1 => codes_in(Profile::Full, bench, slot),
        _ => codes_for(bench, slot),
    };
    let code = bench.dice.pick(&codes);
    if code != 7 || mood.delivering {
        bench.call(Command::Move { slot, code });
    }
}

pub fn try_every_code(bench: &mut Bench) {
    if let Some(slot) = bench.held_slot() {
        every_code(bench, slot);
    }
}

pub fn read_something(bench: &mut Bench) {
    let Some(grid) = bench.grid() else { return };
    let any = u32::try_from(bench.dice.below(grid.slots() + 1)).unwrap_or_default();
    let held = bench.held_slot().filter(|_| bench.dice.percent(70));
    let slot = held.unwrap_or(any);
    bench.call(Command::Payload { slot });
}

pub fn copy(bench: &mut Bench) {
    let right = bench.grid().map(|grid| grid.table_bytes());
    let right = right.unwrap_or(bench.slice().len());
    let right = u32::try_from(right).unwrap_or_default();
    let near = [
        right.saturating_sub(1),
        right + 1,
        right.saturating_sub(16),
        right + 16,
        0,
        1,
    ];
    let length = match bench.dice.below(10) {
        0..=5 => right,
        6..=8 => bench.dice.pick(&near),
        _ => bench.dice.number() % (2 * right + 1),
    };
    let random = bench.dice.byte();
    let fill = bench.dice.pick(&[0, 0xFF, random]);
    let length = length.min(LENGTH_MOST);
    bench.call(Command::Copy { length, fill });
}

/// Full check, find or copy, unless the table is large and its turn hasn't come.
pub fn look_at_the_whole_table(bench: &mut Bench) {
    if !bench.may_look_at_the_whole_table() {
        return;
    }
    match bench.dice.below(3) {
        0 => drop(bench.call(Command::Check)),
        1 => drop(bench.call(Command::Find)),
        _ => copy(bench),
    }
}

/// The move that find names is made; nothing when find names none.
pub fn follow_find(bench: &mut Bench) -> Option<Found> {
    let Some(Answer::Find(Ok(found))) = bench.call(Command::Find) else {
        return None;
    };
    let slot = u32::try_from(found.slot).ok()?;
    let code = found.code;
    bench.call(Command::Move { slot, code });
    Some(found)
}

/// Every code from a random one on, those that aren't offered before those that are: the first
/// accepted move empties the slot.
pub fn every_code(bench: &mut Bench, slot: u32) {
    let sensible = codes_for(bench, slot);
    let mut codes: Vec<u32> = codes_and_beyond().collect();
    let start = bench.dice.number() as usize % codes.len();
    codes.rotate_left(start);
    codes.sort_by_key(|code| sensible.contains(code));
    for code in codes {
        bench.call(Command::Move { slot, code });
    }
}

/// Every call there is, those with a slot on the given one.
pub fn every_call(bench: &mut Bench, slot: u32) {
    bench.call(Command::Payload { slot });
    if bench.may_look_at_the_whole_table() {
        bench.call(Command::Check);
        bench.call(Command::Find);
        copy(bench);
    }
    every_code(bench, slot);
    match bench.grid() {
        Some(_) => take_in(bench, Mood::default()),
        None => drop(bench.call(Command::TakeIn {
            source: 0,
            destination: 0,
            payload: [1; 8],
        })),
    }
}
