//! The program as a whole, with runners of several sorts behind the pipe.

use std::fs;
use std::path::{Path, PathBuf};
use std::process::{Command, Output};

const COMPARE: &str = env!("CARGO_BIN_EXE_compare");

fn folder(name: &str) -> PathBuf {
    let folder = Path::new(env!("CARGO_TARGET_TMPDIR")).join(name);
    fs::create_dir_all(&folder).unwrap();
    folder
}

fn compare(runner: &[&str], scripts: &Path, calls: &str) -> Output {
    Command::new(COMPARE)
        .args(["--calls", calls, "--scripts"])
        .arg(scripts)
        .args(runner)
        .output()
        .unwrap()
}

fn text(output: &Output) -> String {
    String::from_utf8_lossy(&output.stdout).into_owned()
}

#[test]
fn a_runner_that_agrees_gives_no_difference() {
    let folder = folder("agrees");
    let runner = [COMPARE, "--second"];
    let output = compare(&runner, &folder, "30000");
    assert!(
        text(&output).ends_with("differences 0\n"),
        "{}",
        text(&output)
    );
    assert_eq!(output.status.code(), Some(0));
    let output = compare(&runner, &folder, "1");
    assert!(text(&output).contains("untested: "));
    assert_eq!(output.status.code(), Some(1));
}

#[test]
fn runners_that_echo_or_read_nothing_are_found_out() {
    for (name, runner) in [("echo", "/bin/cat"), ("nothing", "/bin/true")] {
        let folder = folder(name);
        let output = compare(&[runner], &folder, "1000");
        assert!(text(&output).contains("seed 1 "), "{}", text(&output));
        assert!(text(&output).contains("letter L"), "{}", text(&output));
        assert_eq!(output.status.code(), Some(1));
        assert!(folder.join("seed-1.script").exists());
    }
}

#[test]
fn a_runner_that_cannot_be_started_fails() {
    let folder = folder("missing");
    let output = compare(&["./no such file"], &folder, "1000");
    assert!(text(&output).contains("runner failed"));
    assert_eq!(output.status.code(), Some(1));
}

#[test]
fn bad_usage_exits_with_2() {
    let output = Command::new(COMPARE).output().unwrap();
    assert_eq!(output.status.code(), Some(2));
    let output = Command::new(COMPARE).args(["--calls", "5"]).output();
    assert_eq!(output.unwrap().status.code(), Some(2));
}
