//! The bench on which a script is put together. It carries out each command at once, so that the
//! recipes can see the table that the script has made so far.

use super::dice::Dice;
use crate::answer::Answer;
use crate::calls::SecondRouter;
use crate::router::{Grid, Slot, Table, Trailer, SLOT_BYTES, TRAILER_BYTES};
use crate::script::{Command, SCRIPT_MOST};
use crate::second::Memory;

/// Slices up to this length are shown after every call; of longer ones, on the average, as many
/// bytes a call.
const SHOWN_A_CALL: usize = 512;
/// The same for the calls that go through a whole table.
const LOOKED_AT_A_CALL: usize = 4_096;

pub struct Bench {
    pub dice: Dice,
    script: Vec<u8>,
    limit: usize,
    memory: Memory,
}

impl Bench {
    pub fn new(mut dice: Dice) -> Bench {
        let limit = if dice.percent(85) {
            dice.between(1_000, 8_000)
        } else {
            dice.between(8_000, SCRIPT_MOST)
        };
        Bench::with_limit(dice, limit)
    }

    pub fn with_limit(dice: Dice, limit: usize) -> Bench {
        Bench {
            dice,
            script: Vec::new(),
            limit: limit.min(SCRIPT_MOST),
            memory: Memory::default(),
        }
    }

    /// For tables that a short script couldn't fill.
    pub fn use_whole_script(&mut self) {
        self.limit = SCRIPT_MOST;
    }

    pub fn open(&self) -> bool {
        self.script.len() + 32 < self.limit
    }

    pub fn slice(&self) -> &[u8] {
        &self.memory.slice
    }

    pub fn table(&self) -> Option<Table<&[u8]>> {
        Table::open(&self.memory.slice).ok()
    }

    pub fn trailer(&self) -> Option<Trailer> {
        Trailer::decode(&self.memory.slice)
    }

    pub fn grid(&self) -> Option<Grid> {
        self.trailer().map(|trailer| trailer.grid)
    }

    pub fn any_slot(&mut self) -> Option<u32> {
        let slots = self.grid()?.slots();
        u32::try_from(self.dice.below(slots)).ok()
    }

    /// A held slot, good or spoiled, found from a random slot on.
    pub fn held_slot(&mut self) -> Option<u32> {
        let count = self.grid()?.slots();
        let start = self.dice.below(count);
        let table = self.table()?;
        let mut slots = (start..count).chain(0..start);
        let held = slots.find(|slot| table.slot(*slot) != Some(Slot::Empty))?;
        u32::try_from(held).ok()
    }

    /// Adds a command and carries it out; nothing where the script has no room for it.
    pub fn put(&mut self, command: Command) -> Option<Answer> {
        let before = self.script.len();
        command.encode(&mut self.script);
        if self.script.len() >= SCRIPT_MOST {
            self.script.truncate(before);
            return None;
        }
        match command {
            Command::Show | Command::ShowSecond => None,
            _ => self.memory.carry_out(&SecondRouter, command),
        }
    }

    /// One of the calls, and what it left shown where that is cheap.
    pub fn call(&mut self, command: Command) -> Option<Answer> {
        let answer = self.put(command);
        if let Command::Copy { .. } = command {
            let copied = matches!(answer, Some(Answer::Copy(Ok(()))));
            if copied || self.affords(self.memory.second.len(), SHOWN_A_CALL) {
                self.put(Command::ShowSecond);
            }
        }
        if self.affords(self.memory.slice.len(), SHOWN_A_CALL) {
            self.put(Command::Show);
        }
        answer
    }

    pub fn may_look_at_the_whole_table(&mut self) -> bool {
        self.affords(self.memory.slice.len(), LOOKED_AT_A_CALL)
    }

    fn affords(&mut self, bytes: usize, a_call: usize) -> bool {
        self.dice.below(bytes) < a_call
    }

    /// Sets the bytes that aren't so already.
    pub fn write(&mut self, start: usize, bytes: &[u8]) {
        for (place, byte) in (start..).zip(bytes.iter().copied()) {
            if self.memory.slice.get(place).is_some_and(|old| *old != byte) {
                let place = u32::try_from(place).unwrap_or(u32::MAX);
                self.put(Command::Set { place, byte });
            }
        }
    }

    /// The place in the slice of a slot's first byte.
    pub fn slot_start(&self, slot: u32) -> Option<usize> {
        let table = self.slice().len().checked_sub(self.grid()?.table_bytes())?;
        let slot = usize::try_from(slot).ok()?;
        table.checked_add(slot.checked_mul(SLOT_BYTES)?)
    }

    pub fn slot_bytes(&self, slot: u32) -> Option<[u8; SLOT_BYTES]> {
        let bytes = self.slice().get(self.slot_start(slot)?..)?;
        bytes.first_chunk().copied()
    }

    pub fn write_slot(&mut self, slot: u32, bytes: &[u8; SLOT_BYTES]) {
        if let Some(start) = self.slot_start(slot) {
            self.write(start, bytes);
        }
    }

    pub fn trailer_bytes(&self) -> Option<[u8; TRAILER_BYTES]> {
        self.slice().last_chunk().copied()
    }

    pub fn write_trailer(&mut self, bytes: &[u8; TRAILER_BYTES]) {
        if let Some(start) = self.slice().len().checked_sub(TRAILER_BYTES) {
            self.write(start, bytes);
        }
    }

    /// Trailer byte 3, whether or not it then is a profile.
    pub fn write_profile(&mut self, byte: u8) {
        if let Some(start) = self.slice().len().checked_sub(TRAILER_BYTES) {
            self.write(start + 3, &[byte]);
        }
    }

    pub fn finish(mut self) -> Vec<u8> {
        Command::Show.encode(&mut self.script);
        self.script
    }
}
