//! Scripts from consecutive seeds, run on both sides until enough calls have been compared.

use crate::calls::Calls;
use crate::difference::{first_difference, Difference};
use crate::make;
use crate::other_side::OtherSide;
use crate::second;
use crate::tally::Tally;
use std::io;

pub struct Campaign<'a> {
    pub router: &'a dyn Calls,
    pub other: &'a OtherSide,
    pub first_seed: u64,
    pub calls: u64,
}

#[derive(Default)]
pub struct Progress {
    pub scripts: u64,
    pub lines: u64,
    pub tally: Tally,
}

pub enum End {
    Same,
    Different {
        seed: u64,
        script: Vec<u8>,
        difference: Difference,
    },
    Failed {
        seed: u64,
        script: Vec<u8>,
        error: io::Error,
    },
}

impl Campaign<'_> {
    pub fn run(&self) -> (Progress, End) {
        let mut progress = Progress::default();
        while progress.tally.calls() < self.calls {
            let seed = self.first_seed.wrapping_add(progress.scripts);
            let script = make::script(seed);
            let lines = second::run(&script, self.router);
            let other = match self.other.output(&script) {
                Ok(other) => other,
                Err(error) => {
                    let end = End::Failed {
                        seed,
                        script,
                        error,
                    };
                    return (progress, end);
                }
            };
            if let Some(difference) = first_difference(&lines, &other) {
                let end = End::Different {
                    seed,
                    script,
                    difference,
                };
                return (progress, end);
            }
            progress.scripts += 1;
            progress.lines += lines.len() as u64;
            let given = lines.iter().filter_map(|line| line.given.as_ref());
            given.for_each(|given| progress.tally.add(given));
        }
        (progress, End::Same)
    }
}

#[cfg(test)]
mod tests {
    use super::*;
    use crate::calls::SecondRouter;
    use crate::mistakes::MISTAKES;
    use crate::usage::CALLS;

    fn against_itself(router: &dyn Calls, calls: u64) -> (Progress, End) {
        let campaign = Campaign {
            router,
            other: &OtherSide::Own,
            first_seed: 1,
            calls,
        };
        campaign.run()
    }

    #[test]
    fn the_second_router_agrees_with_itself_and_nothing_is_untested() {
        let (progress, end) = against_itself(&SecondRouter, 30_000);
        assert!(matches!(end, End::Same));
        assert!(progress.tally.calls() >= 30_000);
        assert_eq!(progress.tally.untested(), Vec::<String>::new());
        assert_eq!(progress.tally.unlisted(), Vec::<String>::new());
    }

    #[test]
    fn every_mistake_is_found_in_the_gates_calls() {
        for (name, router) in MISTAKES {
            let (_, end) = against_itself(*router, CALLS);
            assert!(matches!(end, End::Different { .. }), "{name} not found");
        }
    }
}
