//! Builds the ported crate by `build.sh` in the folder `PEER_DIR`, has it found as `pep440_rs` and `version_ranges`, and writes
//! its documentation's examples as tests of `pep440_rattle` into the folder of what is built.
use std::path::{Path, PathBuf};
use std::process::Command;
use std::{env, fs};

/// The lines of each example of a source, as rustdoc runs them.
fn examples(source: &str) -> Vec<String> {
    let mut found = Vec::new();
    let mut open: Option<String> = None;
    for line in source.lines().map(str::trim_start) {
        let Some(text) = line.strip_prefix("//!").or(line.strip_prefix("///")) else { continue };
        let text = text.strip_prefix(' ').unwrap_or(text);
        match (&mut open, text.starts_with("```")) {
            (None, true) if text.trim_end() == "```rust" => open = Some(String::new()),
            (Some(_), true) => found.extend(open.take()),
            (Some(example), false) => *example += &(text.strip_prefix("# ").unwrap_or(text).to_owned() + "\n"),
            _ => {}
        }
    }
    found
}

fn write_examples(sources: &Path, out: &Path) {
    let mut paths: Vec<PathBuf> =
        fs::read_dir(sources).expect("the peer's sources").map(|entry| entry.expect("a file").path()).collect();
    paths.sort();
    let all: Vec<String> = paths.iter().flat_map(|path| examples(&fs::read_to_string(path).expect("a source"))).collect();
    let test = |(number, example): (usize, &String)| {
        format!("#[test]\nfn example_{number}() {{\n{}}}\n", example.replace("pep440_rs", "pep440_rattle"))
    };
    let tests: Vec<String> = all.iter().enumerate().map(test).collect();
    fs::write(out, tests.join("\n")).expect("a file of examples");
}

fn main() {
    println!("cargo::rerun-if-env-changed=PEER_DIR");
    let Some(peer) = env::var_os("PEER_DIR").map(PathBuf::from) else {
        println!("cargo::error=set PEER_DIR to the folder with build.sh that builds the ported crate");
        return;
    };
    let out = PathBuf::from(env::var_os("OUT_DIR").expect("cargo sets OUT_DIR"));
    let target = out.join("peer");
    let built = Command::new(peer.join("build.sh")).env("PEER_TARGET", &target).env_remove("CARGO_TARGET_DIR").status();
    if !built.is_ok_and(|status| status.success()) {
        println!("cargo::error={} fails", peer.join("build.sh").display());
        return;
    }
    write_examples(&peer.join("upstream/src"), &out.join("examples.rs"));
    println!("cargo::rerun-if-changed={}", peer.join("upstream/src").display());
    println!("cargo::rustc-env=PEER_SOURCES={}", peer.join("upstream/src").display());
    println!("cargo::rustc-link-search=all={}", target.join("release/deps").display());
}
