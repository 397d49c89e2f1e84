//! The moves that were answered 12: document 02's order 3 lets only codes 3 and 5 be answered so, and
//! profile 0 alone offers them in A.

use crate::moves::Moves;
use crate::router::Profile;

const CODES: [u32; 2] = [3, 5];

/// A code hardly gave way where fewer than one in so many calls did by it: the 200,000 calls that
/// the gate compares need 500 by each of the two, and so 1,000 answers of 12.
const HARDLY: u64 = 400;

#[derive(Default)]
pub struct GaveWay {
    moves: Moves,
}

impl GaveWay {
    pub fn add(&mut self, profile: Profile, code: u32) {
        self.moves.add(profile, code);
    }

    fn count(&self, code: u32) -> u64 {
        self.moves.count(Profile::Full, code)
    }

    /// The codes that gave way in fewer of the calls than is worth calling tested.
    pub fn untested(&self, calls: u64) -> Vec<String> {
        let hardly = |count: u64| count == 0 || HARDLY * count < calls;
        let counts = CODES.map(|code| (code, self.count(code)));
        let untested = counts.into_iter().filter(|(_, count)| hardly(*count));
        let named = untested
            .map(|(code, count)| format!("only {count} of {calls} calls gave way by code {code}"));
        named.collect()
    }

    /// The moves that gave way where nothing like that is offered in A.
    pub fn unlisted(&self) -> impl Iterator<Item = String> + '_ {
        let listed =
            |profile: Profile, code: u32| profile == Profile::Full && CODES.contains(&code);
        let unlisted = self.moves.met();
        let unlisted = unlisted.filter(move |(profile, code)| !listed(*profile, *code));
        unlisted.map(|(profile, code)| {
            let number = profile.number();
            format!("a move of code {code} in profile {number} gave way")
        })
    }

    pub fn line(&self) -> String {
        let [left, down] = CODES;
        let [by_left, by_down] = CODES.map(|code| self.count(code));
        format!("\nmoves that gave way by code {left} and {down}: {by_left} {by_down}")
    }
}

#[cfg(test)]
mod tests {
    use super::*;

    fn gave_way(times: u64, codes: &[u32]) -> GaveWay {
        let mut gave_way = GaveWay::default();
        for code in codes {
            (0..times).for_each(|_| gave_way.add(Profile::Full, *code));
        }
        gave_way
    }

    #[test]
    fn the_gates_calls_need_a_thousand_answers_half_of_them_by_each_code() {
        let enough = gave_way(500, &CODES);
        assert_eq!(enough.untested(200_000), Vec::<String>::new());
        let named = [
            "only 500 of 200001 calls gave way by code 3",
            "only 500 of 200001 calls gave way by code 5",
        ];
        assert_eq!(enough.untested(200_001), named);
        let mut uneven = gave_way(499, &CODES);
        (0..501).for_each(|_| uneven.add(Profile::Full, 3));
        let named = ["only 499 of 200000 calls gave way by code 5"];
        assert_eq!(uneven.untested(200_000), named);
    }

    #[test]
    fn a_code_that_never_gave_way_is_named_whatever_the_calls() {
        let named = ["only 0 of 0 calls gave way by code 3"];
        assert_eq!(gave_way(1, &[5]).untested(0), named);
        assert_eq!(GaveWay::default().untested(1).len(), 2);
    }

    #[test]
    fn other_codes_and_other_profiles_are_not_in_the_papers() {
        let mut gave_way = gave_way(1, &CODES);
        assert_eq!(gave_way.unlisted().count(), 0);
        gave_way.add(Profile::Full, 2);
        gave_way.add(Profile::Adapt, 3);
        let named = [
            "a move of code 2 in profile 0 gave way",
            "a move of code 3 in profile 1 gave way",
        ];
        assert_eq!(gave_way.unlisted().collect::<Vec<_>>(), named);
    }

    #[test]
    fn the_line_has_both_codes() {
        let line = "\nmoves that gave way by code 3 and 5: 2 0";
        assert_eq!(gave_way(2, &[3]).line(), line);
    }
}
