//! How often moves got one answer, by the table's profile and the move's code.

use crate::router::{Profile, CODES};
use std::collections::BTreeMap;
use std::fmt::Write;

/// A profile is hardly met where it has fewer than one in so many of the moves.
const HARDLY: u64 = 10;

#[derive(Default)]
pub struct Moves {
    counts: BTreeMap<(Profile, u32), u64>,
}

impl Moves {
    pub fn add(&mut self, profile: Profile, code: u32) {
        *self.counts.entry((profile, code)).or_default() += 1;
    }

    pub fn count(&self, profile: Profile, code: u32) -> u64 {
        let count = self.counts.get(&(profile, code));
        count.copied().unwrap_or_default()
    }

    fn in_profile(&self, profile: Profile) -> u64 {
        let counts = self.counts.iter();
        let counts = counts.filter(|((other, _), _)| *other == profile);
        counts.map(|(_, count)| count).sum()
    }

    /// The profiles and codes of the moves that got the answer.
    pub fn met(&self) -> impl Iterator<Item = (Profile, u32)> + '_ {
        self.counts.keys().copied()
    }

    /// Codes that there aren't.
    pub fn beyond_the_codes(&self) -> impl Iterator<Item = u32> + '_ {
        let codes = self.met().map(|(_, code)| code);
        codes.filter(|code| !CODES.contains(code))
    }

    /// The codes that never got the answer in a profile, and the profiles hardly met.
    pub fn untested(&self, answer: &str) -> Vec<String> {
        let mut untested = Vec::new();
        let all: u64 = self.counts.values().sum();
        for profile in Profile::ALL {
            let number = profile.number();
            for code in CODES.filter(|code| self.count(profile, *code) == 0) {
                untested.push(format!(
                    "no move of code {code} was {answer} in profile {number}"
                ));
            }
            let moves = self.in_profile(profile);
            if HARDLY * moves < all {
                untested.push(format!(
                    "only {moves} of {all} moves that were {answer} were in profile {number}"
                ));
            }
        }
        untested
    }

    /// One for each profile.
    pub fn lines(&self, answer: &str) -> String {
        let mut text = String::new();
        let (first, last) = (CODES.start(), CODES.end());
        for profile in Profile::ALL {
            let number = profile.number();
            let _ = write!(
                text,
                "\nmoves {answer} by code {first} to {last} in profile {number}:"
            );
            for code in CODES {
                let _ = write!(text, " {}", self.count(profile, code));
            }
        }
        text
    }
}

#[cfg(test)]
mod tests {
    use super::*;

    fn once_each() -> Moves {
        let mut moves = Moves::default();
        for profile in Profile::ALL {
            CODES.for_each(|code| moves.add(profile, code));
        }
        moves
    }

    #[test]
    fn a_code_that_never_got_the_answer_in_a_profile_is_named() {
        assert_eq!(once_each().untested("accepted"), Vec::<String>::new());
        let mut moves = once_each();
        moves.counts.remove(&(Profile::Adapt, 5));
        let named = ["no move of code 5 was accepted in profile 1"];
        assert_eq!(moves.untested("accepted"), named);
    }

    #[test]
    fn a_profile_hardly_met_is_named() {
        let mut moves = once_each();
        (0..49).for_each(|_| moves.add(Profile::Full, 1));
        assert_eq!(moves.untested("accepted"), Vec::<String>::new());
        moves.add(Profile::Full, 2);
        let named = [
            "only 7 of 71 moves that were accepted were in profile 1",
            "only 7 of 71 moves that were accepted were in profile 2",
        ];
        assert_eq!(moves.untested("accepted"), named);
    }

    #[test]
    fn a_line_a_profile_has_a_count_a_code() {
        let mut moves = once_each();
        moves.add(Profile::Oblivious, 3);
        let lines = "
moves accepted by code 1 to 7 in profile 0: 1 1 1 1 1 1 1
moves accepted by code 1 to 7 in profile 1: 1 1 1 1 1 1 1
moves accepted by code 1 to 7 in profile 2: 1 1 2 1 1 1 1";
        assert_eq!(moves.lines("accepted"), lines);
    }
}
