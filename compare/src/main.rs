//! Compares the proved router, driven through `replay`, with an independent second router.

#![forbid(unsafe_code)]
#![cfg_attr(
    not(test),
    deny(
        clippy::expect_used,
        clippy::indexing_slicing,
        clippy::panic,
        clippy::unwrap_used
    )
)]

mod answer;
mod calls;
mod campaign;
mod difference;
mod gave_way;
mod make;
mod mistakes;
mod moves;
mod other_side;
mod router;
mod script;
mod second;
mod tally;
mod usage;

use calls::SecondRouter;
use campaign::{Campaign, End, Progress};
use std::io::{self, Read, Write};
use std::path::Path;
use std::process::ExitCode;
use usage::{Settings, Task};

const FAILURE: u8 = 1;
const BAD_USAGE: u8 = 2;

fn main() -> ExitCode {
    let arguments: Vec<String> = std::env::args().skip(1).collect();
    match usage::task(&arguments) {
        None => {
            eprintln!("{}", usage::USAGE);
            ExitCode::from(BAD_USAGE)
        }
        Some(Task::Second) => match run_second() {
            Ok(()) => ExitCode::SUCCESS,
            Err(error) => {
                eprintln!("{error}");
                ExitCode::from(FAILURE)
            }
        },
        Some(Task::Compare(settings)) => compare(&settings),
    }
}

fn run_second() -> io::Result<()> {
    let mut script = Vec::new();
    io::stdin().read_to_end(&mut script)?;
    let lines = second::run(&script, &SecondRouter);
    io::stdout().write_all(&second::output(&lines))
}

fn compare(settings: &Settings) -> ExitCode {
    let campaign = Campaign {
        router: settings.router,
        other: &settings.other,
        first_seed: settings.first_seed,
        calls: settings.calls,
    };
    let (progress, end) = campaign.run();
    let (seed, script, what) = match end {
        End::Same => return report(settings, &progress),
        End::Different {
            seed,
            script,
            difference,
        } => (seed, script, format!("difference: {difference}")),
        End::Failed {
            seed,
            script,
            error,
        } => (seed, script, format!("runner failed: {error}")),
    };
    println!("seed {seed} ({})", make::recipe_name(seed));
    println!("{what}");
    println!("after {} scripts without", progress.scripts);
    keep(&settings.scripts, seed, &script);
    ExitCode::from(FAILURE)
}

fn keep(folder: &Path, seed: u64, script: &[u8]) {
    let path = folder.join(format!("seed-{seed}.script"));
    match std::fs::write(&path, script) {
        Ok(()) => println!("script written to {}", path.display()),
        Err(error) => println!("script not written to {}: {error}", path.display()),
    }
}

fn report(settings: &Settings, progress: &Progress) -> ExitCode {
    let first = settings.first_seed;
    let last = first.wrapping_add(progress.scripts).wrapping_sub(1);
    println!("scripts {} (seeds {first} to {last})", progress.scripts);
    println!("calls {}, lines {}", progress.tally.calls(), progress.lines);
    println!("{}", progress.tally.table());
    let untested = progress.tally.untested();
    for what in &untested {
        println!("untested: {what}");
    }
    let unlisted = progress.tally.unlisted();
    for what in &unlisted {
        println!("not in documents 01 and 02: {what}");
    }
    println!("differences 0");
    match untested.is_empty() && unlisted.is_empty() {
        true => ExitCode::SUCCESS,
        false => ExitCode::from(FAILURE),
    }
}
