//! Links the archive that tools/archive builds, and refuses every target but the archive's own.
use std::env;
use std::path::{Path, PathBuf};
use std::process::exit;

const ARCHIVE: &str = "libpaneglove.a";

fn main() {
    println!("cargo:rerun-if-env-changed=PANEGLOVE_ARCHIVE_DIR");
    refuse_other_targets();
    let dir = archive_dir();
    let archive = dir.join(ARCHIVE);
    println!("cargo:rerun-if-changed={}", archive.display());
    if !archive.is_file() {
        refuse(&format!(
            "no archive at {}. Run tools/archive in the repository, or set PANEGLOVE_ARCHIVE_DIR to the folder that has {ARCHIVE}.",
            archive.display()
        ));
    }
    println!("cargo:rustc-link-search=native={}", dir.display());
    println!("cargo:rustc-link-lib=static=paneglove");
}

fn archive_dir() -> PathBuf {
    match env::var_os("PANEGLOVE_ARCHIVE_DIR") {
        Some(dir) => PathBuf::from(dir),
        None => Path::new(env!("CARGO_MANIFEST_DIR")).join("../target/staticlib"),
    }
}

/// The archive's functions take and give structs as C does on x86-64 Linux; called in another way they would write over the caller's bytes.
fn refuse_other_targets() {
    let part = |name| env::var(format!("CARGO_CFG_TARGET_{name}")).unwrap_or_default();
    let target = ["ARCH", "OS", "POINTER_WIDTH"].map(part);
    if target != ["x86_64", "linux", "64"] {
        let [arch, os, width] = target;
        refuse(&format!(
            "the archive is x86-64 code for Linux, and this build is for {arch}, {os}, {width} bits. Build for x86_64-unknown-linux-gnu."
        ));
    }
}

fn refuse(why: &str) -> ! {
    eprintln!("paneglove: {why}");
    exit(1)
}
