//! How often each call gave each number, what was never given, and what never should have been.

use crate::gave_way::GaveWay;
use crate::moves::Moves;
use crate::router::{CheckFault, Profile, Refusal};
use crate::script::Command;
use crate::second::Given;
use std::collections::BTreeMap;
use std::fmt::Write;
use std::ops::RangeInclusive;

/// The calls by their letters in a script, and the numbers that documents 01 and 02 let each of
/// them give.
const CALLS: &[(u8, &str, &[u32])] = &[
    (b'C', "clear", &[0, 8, 9]),
    (b'T', "take in", &[0, 1, 2, 6, 7]),
    (b'M', "move", &[0, 1, 2, 3, 4, 5, 12, 6]),
    (b'P', "payload", &[0, 1, 2, 3, 4]),
    (b'F', "check", &[0, 1, 10]),
    (b'N', "find", &[0, 1, 10, 11]),
    (b'O', "copy", &[0, 1, 9, 10]),
];

/// How many slots an accepted move can leave empty: none, up to all of the deepest queue.
const LEFT: RangeInclusive<usize> = 0..=7;

const FAULTS: [&str; 3] = ["spoiled slot", "serial twice", "counts disagree"];

#[derive(Default)]
pub struct Tally {
    /// By the call's letter and the number given.
    numbers: BTreeMap<(u8, u32), u64>,
    accepted: Moves,
    not_offered: Moves,
    gave_way: GaveWay,
    left_by_moves: BTreeMap<usize, u64>,
    faults: [u64; FAULTS.len()],
}

fn may_give(letter: u8, number: u32) -> bool {
    let mut rows = CALLS.iter();
    rows.any(|(call, _, can_give)| *call == letter && can_give.contains(&number))
}

/// The profile and the code of a move; nothing for another call, or without a good trailer.
fn move_of(given: &Given) -> Option<(Profile, u32)> {
    let Command::Move { code, .. } = given.command else {
        return None;
    };
    given.profile.map(|profile| (profile, code))
}

impl Tally {
    pub fn add(&mut self, given: &Given) {
        if !given.command.is_call() {
            return;
        }
        let number = given.refusal.map_or(0, Refusal::number);
        let row = self.numbers.entry((given.command.letter(), number));
        *row.or_default() += 1;
        if let Some(left) = given.left_by_a_move {
            *self.left_by_moves.entry(left).or_default() += 1;
        }
        if let Some((profile, code)) = move_of(given) {
            self.add_move(given.refusal, profile, code);
        }
        if let Some(Refusal::CheckFailed(fault)) = given.refusal {
            self.add_fault(fault);
        }
    }

    fn add_move(&mut self, refusal: Option<Refusal>, profile: Profile, code: u32) {
        match refusal {
            None => self.accepted.add(profile, code),
            Some(Refusal::NotOffered) => self.not_offered.add(profile, code),
            Some(Refusal::GivesWay) => self.gave_way.add(profile, code),
            Some(_) => {}
        }
    }

    fn add_fault(&mut self, fault: CheckFault) {
        let [spoiled, twice, disagree] = &mut self.faults;
        *match fault {
            CheckFault::Spoiled(_) => spoiled,
            CheckFault::SerialTwice(_) => twice,
            CheckFault::CountsDisagree(_) => disagree,
        } += 1;
    }

    pub fn calls(&self) -> u64 {
        self.numbers.values().sum()
    }

    fn count(&self, letter: u8, number: u32) -> u64 {
        let count = self.numbers.get(&(letter, number));
        count.copied().unwrap_or_default()
    }

    fn left(&self, slots: usize) -> u64 {
        self.left_by_moves.get(&slots).copied().unwrap_or_default()
    }

    /// Every number that a call can give, or gave.
    fn columns(&self) -> RangeInclusive<u32> {
        let listed = CALLS.iter().flat_map(|(_, _, can_give)| can_give.iter());
        let given = self.numbers.keys().map(|(_, number)| number);
        0..=listed.chain(given).max().copied().unwrap_or_default()
    }

    /// What a call can give and never gave in this run; nothing in it means none untested.
    pub fn untested(&self) -> Vec<String> {
        let mut untested = Vec::new();
        for (letter, name, can_give) in CALLS {
            for number in *can_give {
                if self.count(*letter, *number) == 0 {
                    untested.push(format!("{name} never answered {number}"));
                }
            }
        }
        untested.extend(self.accepted.untested("accepted"));
        untested.extend(self.not_offered.untested("not offered"));
        untested.extend(self.gave_way.untested(self.calls()));
        for slots in LEFT.filter(|slots| self.left(*slots) == 0) {
            untested.push(format!("no move left {slots} slots empty"));
        }
        for (fault, count) in FAULTS.iter().zip(self.faults) {
            if count == 0 {
                untested.push(format!("10 was never given for: {fault}"));
            }
        }
        untested
    }

    /// What was given, by both sides alike, and documents 01 and 02 give to no such call.
    pub fn unlisted(&self) -> Vec<String> {
        let numbers = self.numbers.keys().copied();
        let numbers = numbers.filter(|(letter, number)| !may_give(*letter, *number));
        let numbers =
            numbers.map(|(letter, number)| format!("{} was answered {number}", char::from(letter)));
        let codes = self.accepted.beyond_the_codes();
        let codes = codes.map(|code| format!("a move of code {code} was accepted"));
        let left = self.left_by_moves.keys();
        let left = left.filter(|slots| !LEFT.contains(slots));
        let left = left.map(|slots| format!("a move left {slots} slots empty"));
        let ways = self.gave_way.unlisted();
        numbers.chain(codes).chain(left).chain(ways).collect()
    }

    pub fn table(&self) -> String {
        let mut text = format!("{:8}{:>9}", "call", "calls");
        for number in self.columns() {
            let _ = write!(text, "{number:>8}");
        }
        for (letter, name, _) in CALLS {
            self.write_row(&mut text, *letter, name);
        }
        text += &self.accepted.lines("accepted");
        text += &self.not_offered.lines("not offered");
        text += &self.gave_way.line();
        let (least, most) = (LEFT.start(), LEFT.end());
        let _ = write!(text, "\nmoves that left {least} to {most} slots empty:");
        for slots in LEFT {
            let _ = write!(text, " {}", self.left(slots));
        }
        for (fault, count) in FAULTS.iter().zip(self.faults) {
            let _ = write!(text, "\n10 given for {fault}: {count}");
        }
        text
    }

    fn write_row(&self, text: &mut String, letter: u8, name: &str) {
        let numbers = self.columns().map(|number| self.count(letter, number));
        let _ = write!(text, "\n{name:8}{:>9}", numbers.sum::<u64>());
        for number in self.columns() {
            let count = self.count(letter, number);
            match may_give(letter, number) || count > 0 {
                true => drop(write!(text, "{count:>8}")),
                false => drop(write!(text, "{:>8}", ".")),
            }
        }
    }
}

#[cfg(test)]
mod tests {
    use super::*;
    use crate::router::CODES;

    fn given(command: Command, refusal: Option<Refusal>) -> Given {
        Given {
            command,
            refusal,
            left_by_a_move: None,
            profile: Some(Profile::Adapt),
        }
    }

    fn moved(code: u32, left: usize) -> Given {
        Given {
            left_by_a_move: Some(left),
            ..given(Command::Move { slot: 0, code }, None)
        }
    }

    fn gave_way(command: Command) -> Given {
        Given {
            profile: Some(Profile::Full),
            ..given(command, Some(Refusal::GivesWay))
        }
    }

    #[test]
    fn counts_go_to_their_call_and_number() {
        let mut tally = Tally::default();
        tally.add(&given(Command::Find, Some(Refusal::NothingHeld)));
        tally.add(&moved(7, 2));
        tally.add(&given(Command::Show, None));
        let up = Command::Move { slot: 0, code: 4 };
        tally.add(&given(up, Some(Refusal::NotOffered)));
        tally.add(&given(up, Some(Refusal::NoEmptySlot)));
        let left = Command::Move { slot: 0, code: 3 };
        tally.add(&gave_way(left));
        assert_eq!(tally.calls(), 5);
        assert_eq!((tally.count(b'N', 11), tally.count(b'M', 0)), (1, 1));
        let accepted = |profile, code| tally.accepted.count(profile, code);
        assert_eq!(accepted(Profile::Adapt, 6), 0);
        assert_eq!(accepted(Profile::Adapt, 7), 1);
        assert_eq!(accepted(Profile::Full, 7), 0);
        assert_eq!(accepted(Profile::Adapt, 4), 0);
        assert_eq!(tally.not_offered.count(Profile::Adapt, 4), 1);
        assert_eq!(tally.count(b'M', 12), 1);
        assert!(tally.table().contains("by code 3 and 5: 1 0"));
        assert_eq!((tally.left(1), tally.left(2)), (0, 1));
        assert_eq!(tally.unlisted(), Vec::<String>::new());
    }

    #[test]
    fn what_was_never_given_is_named() {
        let mut tally = Tally::default();
        let before = tally.untested();
        let numbers: usize = CALLS.iter().map(|(_, _, can_give)| can_give.len()).sum();
        let gave_way = 2;
        let told = 2 * Profile::ALL.len() * CODES.count() + gave_way + LEFT.count();
        assert_eq!(before.len(), numbers + told + FAULTS.len());
        assert!(before.contains(&"take in never answered 7".to_string()));
        assert!(before.contains(&"no move left 0 slots empty".to_string()));
        let fault = Refusal::CheckFailed(CheckFault::SerialTwice(1));
        tally.add(&given(Command::Check, Some(fault)));
        let after = tally.untested();
        assert_eq!(after.len(), before.len() - 2);
        assert!(!after.contains(&"check never answered 10".to_string()));
    }

    #[test]
    fn what_no_call_may_give_is_named() {
        let mut tally = Tally::default();
        tally.add(&given(Command::Find, Some(Refusal::WrongLength)));
        tally.add(&moved(8, 7));
        tally.add(&moved(7, 8));
        tally.add(&gave_way(Command::Move { slot: 0, code: 4 }));
        let named = [
            "N was answered 9",
            "a move of code 8 was accepted",
            "a move left 8 slots empty",
            "a move of code 4 in profile 0 gave way",
        ];
        assert_eq!(tally.unlisted(), named);
    }

    #[test]
    fn the_table_has_a_row_a_call_and_a_column_a_number() {
        let tally = Tally::default();
        let table = tally.table();
        assert_eq!(table.lines().count(), 1 + CALLS.len() + 8 + FAULTS.len());
        let words = |start: &str| -> Vec<String> {
            let row = table.lines().find(|line| line.starts_with(start));
            let words = row.unwrap_or_default().split_whitespace();
            words.skip(2).map(str::to_string).collect()
        };
        let numbers: Vec<String> = tally.columns().map(|number| number.to_string()).collect();
        assert_eq!(words("call"), numbers);
        let find = words("find");
        assert_eq!(find.len(), numbers.len());
        assert_eq!((find[9].as_str(), find[10].as_str()), (".", "0"));
    }
}
