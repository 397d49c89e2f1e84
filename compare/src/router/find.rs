//! Find: the lowest slot, and for it the lowest code, whose move would be accepted.

use super::check::checked_slots;
use super::moving::weigh;
use super::refusal::Refusal;
use super::rule::CODES;
use super::slot::Slot;
use super::table::Table;

#[derive(Clone, Copy, Debug, PartialEq, Eq)]
pub struct Found {
    pub slot: usize,
    pub code: u32,
}

/// "There is no answer 'stuck'": were a table ever stuck, this impossible answer would show it
/// as a difference, where number 11 could hide it.
pub const STUCK: Found = Found {
    slot: usize::MAX,
    code: 0,
};

pub fn find(slice: &[u8]) -> Result<Found, Refusal> {
    let table = Table::open(slice)?;
    let slots = checked_slots(&table)?;
    let held = |slot: &usize| slots.get(*slot).is_some_and(|slot| *slot != Slot::Empty);
    if !(0..slots.len()).any(|slot| held(&slot)) {
        return Err(Refusal::NothingHeld);
    }
    let accepted = |slot: usize| {
        let code = CODES
            .into_iter()
            .find(|code| weigh(&table, slot, *code).is_ok());
        code.map(|code| Found { slot, code })
    };
    let found = (0..slots.len()).filter(held).find_map(accepted);
    Ok(found.unwrap_or(STUCK))
}
