//! Has `rt` prove the station's library and put it into an archive, and links that archive.
//!
//! Nothing is linked that was not proved in this run: an archive left over from earlier is never used when `rt` fails.

use std::path::{Path, PathBuf};
use std::process::{exit, Command, Output};

/// Stops the build, and says why.
fn fail(why: &str) -> ! {
    eprintln!("station: {why}");
    exit(1);
}

/// What Cargo tells this script by the variable of that name.
fn told(name: &str) -> String {
    match std::env::var(name) {
        Ok(value) => value,
        Err(_) => fail(&format!("Cargo did not set {name}")),
    }
}

/// The repository's root, two folders above this crate's own.
fn root() -> PathBuf {
    let here = PathBuf::from(told("CARGO_MANIFEST_DIR"));
    match here.ancestors().nth(2) {
        Some(root) if root.join("crates.txt").is_file() => root.to_path_buf(),
        _ => fail("this crate must stand in the repository as rust/station: its root, with crates.txt, was not found"),
    }
}

/// Tells Cargo what the archive is made from: the Rattle crates, but for what `rt` makes in their folders. `rt` itself knows
/// which of them it takes. The paths go from this crate, so that in a copy of the repository they are the copy's.
fn rerun_if_changed(root: &Path) {
    for source in ["build.rs", "../../crates.txt"] {
        println!("cargo:rerun-if-changed={source}");
    }
    let crates = match std::fs::read_dir(root.join("crates")) {
        Ok(crates) => crates,
        Err(error) => fail(&format!("the Rattle crates could not be listed: {error}")),
    };
    for name in crates.flatten().map(|it| it.file_name()) {
        for part in ["src", "specs", "proofs"] {
            let source = Path::new("../../crates").join(&name).join(part);
            if source.is_dir() {
                println!("cargo:rerun-if-changed={}", source.display());
            }
        }
    }
}

/// Runs `rt lib` in the folder of the crate `station`. What it prints is shown only if it fails.
fn prove(root: &Path) {
    let run = Command::new("rt")
        .arg("lib")
        .current_dir(root.join("crates/station"))
        .output();
    match run {
        Ok(output) if output.status.success() => {}
        Ok(output) => fail(&not_proved(&output)),
        Err(error) => fail(&format!(
            "`rt`, the Rattle toolchain, could not be run ({error}). It must be on the PATH: \
             it proves the judge and the writer, and makes the library that this crate links"
        )),
    }
}

/// What to say when `rt` ran and did not succeed, with all that it printed.
fn not_proved(output: &Output) -> String {
    format!(
        "the library was not proved, so it is not linked: `rt lib` ended with {}\n{}{}",
        output.status,
        String::from_utf8_lossy(&output.stdout),
        String::from_utf8_lossy(&output.stderr)
    )
}

/// Copies the archive into Cargo's own folder and links the copy, so that a later `rt`, which makes it anew, takes nothing away
/// from a program that is being linked.
fn link(root: &Path) {
    let made = root.join("crates/station/out/libstation.a");
    let folder = PathBuf::from(told("OUT_DIR"));
    if let Err(error) = std::fs::copy(&made, folder.join("libstation.a")) {
        fail(&format!("{} could not be copied: {error}", made.display()));
    }
    println!("cargo:rustc-link-search=native={}", folder.display());
    println!("cargo:rustc-link-lib=static=station");
}

fn main() {
    if told("CARGO_CFG_TARGET_OS") != "linux" || told("CARGO_CFG_TARGET_ARCH") != "x86_64" {
        fail("the library is for Linux on x86-64 only");
    }
    let root = root();
    prove(&root);
    link(&root);
    rerun_if_changed(&root);
}
