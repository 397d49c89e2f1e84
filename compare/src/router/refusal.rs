//! The refusals and their numbers.

#[derive(Clone, Copy, Debug, PartialEq, Eq)]
pub enum Refusal {
    TrailerNotGood,
    OutOfRange,
    SlotEmpty,
    SlotSpoiled,
    NotOffered,
    NoEmptySlot,
    TakenAtItsEnd,
    BoardNotAccepted,
    WrongLength,
    CheckFailed(CheckFault),
    NothingHeld,
    GivesWay,
}

/// What the full check found first, with the place it names.
#[derive(Clone, Copy, Debug, PartialEq, Eq)]
pub enum CheckFault {
    Spoiled(u32),
    SerialTwice(u32),
    CountsDisagree(u32),
}

impl Refusal {
    pub fn number(self) -> u32 {
        match self {
            Refusal::TrailerNotGood => 1,
            Refusal::OutOfRange => 2,
            Refusal::SlotEmpty => 3,
            Refusal::SlotSpoiled => 4,
            Refusal::NotOffered => 5,
            Refusal::NoEmptySlot => 6,
            Refusal::TakenAtItsEnd => 7,
            Refusal::BoardNotAccepted => 8,
            Refusal::WrongLength => 9,
            Refusal::CheckFailed(_) => 10,
            Refusal::NothingHeld => 11,
            Refusal::GivesWay => 12,
        }
    }

    /// "A place zero unless named", and only number 10 names one.
    pub fn place(self) -> u32 {
        match self {
            Refusal::CheckFailed(fault) => fault.place(),
            _ => 0,
        }
    }
}

impl CheckFault {
    pub fn place(self) -> u32 {
        match self {
            CheckFault::Spoiled(slot) | CheckFault::SerialTwice(slot) => slot,
            CheckFault::CountsDisagree(slots) => slots,
        }
    }
}
