//! The other side of the comparison: a program run once a script, or the second router itself.

use crate::calls::SecondRouter;
use crate::second;
use std::io::{Error, ErrorKind, Read, Result, Write};
use std::path::PathBuf;
use std::process::{Child, Command, Stdio};
use std::thread;

pub enum OtherSide {
    Runner(Runner),
    Own,
}

/// A program and the words that it is started with.
pub struct Runner {
    pub program: PathBuf,
    pub words: Vec<String>,
}

impl OtherSide {
    pub fn output(&self, script: &[u8]) -> Result<Vec<u8>> {
        match self {
            OtherSide::Runner(runner) => run(runner, script),
            OtherSide::Own => Ok(second::output(&second::run(script, &SecondRouter))),
        }
    }
}

/// The exit status isn't looked at (docs/REPLAY.md names none) unless a signal ended the program.
fn run(runner: &Runner, script: &[u8]) -> Result<Vec<u8>> {
    let mut child = Command::new(&runner.program)
        .args(&runner.words)
        .stdin(Stdio::piped())
        .stdout(Stdio::piped())
        .spawn()?;
    let output = exchange(&mut child, script);
    let status = child.wait()?;
    let output = output?;
    if status.code().is_none() {
        return Err(Error::other(format!("runner ended by a signal: {status}")));
    }
    Ok(output)
}

/// Written from a thread of its own: a runner that answers before it has read all would
/// otherwise wait for us while we wait for it.
fn exchange(child: &mut Child, script: &[u8]) -> Result<Vec<u8>> {
    let (stdin, stdout) = (child.stdin.take(), child.stdout.take());
    thread::scope(|scope| {
        let writer = scope.spawn(move || stdin.map(|mut pipe| pipe.write_all(script)));
        let mut output = Vec::new();
        let read = stdout.map(|mut pipe| pipe.read_to_end(&mut output));
        let written = writer.join().map_err(|_| Error::other("writer failed"))?;
        read.transpose()?;
        match written.transpose() {
            // A runner may stop reading a script that it won't run.
            Err(error) if error.kind() != ErrorKind::BrokenPipe => Err(error),
            _ => Ok(output),
        }
    })
}
