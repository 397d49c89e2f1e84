//! The command line.

use crate::calls::{Calls, SecondRouter};
use crate::mistakes;
use crate::other_side::{OtherSide, Runner};
use std::path::PathBuf;

pub const USAGE: &str = "\
usage: compare [--calls N] [--seed N] [--scripts DIR] RUNNER [WORD...]
       compare [--calls N] [--seed N] [--scripts DIR] --self
       compare --second

RUNNER, started with the words after it, runs a script from standard input (docs/REPLAY.md);
--self puts the second router in its place. --calls: how many calls to compare at the least
(200000). --seed: the first seed (1). --scripts: where the script of a difference is written
(here).
--second runs one script from standard input on the second router and prints its lines.";

pub const CALLS: u64 = 200_000;
const FIRST_SEED: u64 = 1;

pub enum Task {
    Second,
    Compare(Settings),
}

pub struct Settings {
    pub other: OtherSide,
    /// The second router, or with `--fault NAME` one that makes a mistake on purpose.
    pub router: &'static dyn Calls,
    pub calls: u64,
    pub first_seed: u64,
    pub scripts: PathBuf,
}

/// Nothing for bad usage.
pub fn task(arguments: &[String]) -> Option<Task> {
    if arguments == ["--second"] {
        return Some(Task::Second);
    }
    let mut settings = Settings {
        other: OtherSide::Own,
        router: &SecondRouter,
        calls: CALLS,
        first_seed: FIRST_SEED,
        scripts: PathBuf::from("."),
    };
    let mut rest = arguments;
    while let [option, value, after @ ..] = rest {
        if set(&mut settings, option, value).is_none() {
            break;
        }
        rest = after;
    }
    settings.other = other_side(rest)?;
    Some(Task::Compare(settings))
}

fn other_side(arguments: &[String]) -> Option<OtherSide> {
    let (first, words) = arguments.split_first()?;
    match first.as_str() {
        "--self" if words.is_empty() => Some(OtherSide::Own),
        option if option.starts_with("--") => None,
        program => Some(OtherSide::Runner(Runner {
            program: PathBuf::from(program),
            words: words.to_vec(),
        })),
    }
}

/// Nothing, and nothing set, for what is no option or has no such value.
fn set(settings: &mut Settings, option: &str, value: &str) -> Option<()> {
    match option {
        "--calls" => settings.calls = value.parse().ok()?,
        "--seed" => settings.first_seed = value.parse().ok()?,
        "--scripts" => settings.scripts = PathBuf::from(value),
        "--fault" => settings.router = mistakes::named(value)?,
        _ => return None,
    }
    Some(())
}

#[cfg(test)]
mod tests {
    use super::*;

    fn parsed(line: &str) -> Option<Task> {
        let arguments: Vec<String> = line.split_whitespace().map(str::to_string).collect();
        task(&arguments)
    }

    fn compared(line: &str) -> Settings {
        match parsed(line) {
            Some(Task::Compare(settings)) => settings,
            _ => panic!("{line} is not accepted"),
        }
    }

    #[test]
    fn options_are_read() {
        let settings = compared("--seed 7 --calls 9 --scripts there path/replay");
        assert_eq!((settings.first_seed, settings.calls), (7, 9));
        assert_eq!(settings.scripts, PathBuf::from("there"));
        assert!(matches!(parsed("--second"), Some(Task::Second)));
        let settings = compared("--fault highest-slot --self");
        assert!(matches!(settings.other, OtherSide::Own));
    }

    #[test]
    fn the_runner_has_the_words_after_it() {
        let settings = compared("--calls 9 path/replay --seed 7 --self");
        let OtherSide::Runner(Runner { program, words }) = settings.other else {
            panic!("no runner");
        };
        assert_eq!(program, PathBuf::from("path/replay"));
        assert_eq!(words, ["--seed", "7", "--self"]);
        assert_eq!((settings.first_seed, settings.calls), (FIRST_SEED, 9));
    }

    #[test]
    fn bad_usage_is_refused() {
        for line in [
            "",
            "--calls 3",
            "--calls",
            "--calls -1 replay",
            "--calls many replay",
            "--fault unknown replay",
            "--self --calls 3",
            "--second --calls 3",
            "--calls 3 --second",
            "--unknown",
        ] {
            assert!(parsed(line).is_none(), "{line}");
        }
    }
}
