//! Finds the library for the target: in the folder that `PEP440_LIB_DIR` names, else in this crate's `lib`, which a release has, else where pkg-config
//! says, else where `make -C callers/c` leaves it in the repository.
//!
//! `cargo check` and `cargo doc` do without it: where it is missing, it is `src/calls.rs` that says so, when code is made of it.
use std::env;
use std::path::{Path, PathBuf};
use std::process::Command;

const NEEDED: &str = "pep440_rattle needs libpep440.a: set PEP440_LIB_DIR to its folder, or PKG_CONFIG_PATH to that of pep440.pc, or run \
                      `make -C callers/c` in the repository";

/// The targets, with any C library.
const MACHINES: [&str; 2] = ["x86_64", "aarch64"];

/// What pkg-config knows is for the machine that it runs on.
fn from_pkg_config() -> Option<PathBuf> {
    let is_here = env::var("HOST").ok()?.split('-').next() == env::var("TARGET").ok()?.split('-').next();
    let asked = Command::new("pkg-config").args(["--variable=libdir", "pep440"]).output().ok()?;
    let folder = String::from_utf8(asked.stdout).ok()?;
    (is_here && asked.status.success()).then(|| PathBuf::from(folder.trim_end()))
}

/// The static library for the machine.
fn library(machine: &str) -> Option<PathBuf> {
    let named = PathBuf::from(env::var_os("CARGO_MANIFEST_DIR")?);
    // The manifest by the ported crate's name is one folder below the sources.
    let here = if named.join("src").is_dir() { named } else { named.join("..") };
    let folders = match env::var_os("PEP440_LIB_DIR") {
        Some(folder) => vec![PathBuf::from(folder)],
        None => [Some(here.join("lib").join(machine)), from_pkg_config(), Some(here.join("../../c/out").join(machine))]
            .into_iter()
            .flatten()
            .collect(),
    };
    folders.into_iter().map(|folder| folder.join("libpep440.a")).find(|path| path.is_file())
}

/// What is wrong with the folder that is named for the library and has none.
fn lacking(folder: &Path) -> String {
    let archive = folder.join("libpep440_c.a");
    let is_archive = archive.is_file().then(|| {
        format!(
            "; it has libpep440_c.a, of which `make -C callers/c PEP440_ARCHIVE={}` makes it in callers/c/out",
            archive.display()
        )
    });
    format!("PEP440_LIB_DIR is {}, where there is no libpep440.a{}", folder.display(), is_archive.unwrap_or_default())
}

/// Has rustc link it.
fn link(library: &Path) -> Option<()> {
    println!("cargo::rerun-if-changed={}", library.display());
    println!("cargo::rustc-link-search=native={}", library.parent()?.display());
    println!("cargo::rustc-link-lib=static=pep440");
    Some(())
}

fn main() {
    for name in ["PEP440_LIB_DIR", "PKG_CONFIG_PATH", "PATH"] {
        println!("cargo::rerun-if-env-changed={name}");
    }
    println!("cargo::rustc-check-cfg=cfg(without_library)");
    let of_target = |part: &str| env::var(format!("CARGO_CFG_TARGET_{part}")).unwrap_or_default();
    let (machine, kind) = (of_target("ARCH"), ["OS", "ENDIAN", "POINTER_WIDTH"].map(of_target));
    if !MACHINES.contains(&machine.as_str()) || kind != ["linux", "little", "64"] {
        println!(
            "cargo::error=pep440_rattle is for Linux on {}, not for {}",
            MACHINES.join(" and "),
            env::var("TARGET").unwrap_or_default()
        );
        return;
    }
    if library(&machine).and_then(|found| link(&found)).is_some() {
        return;
    }
    if let Some(folder) = env::var_os("PEP440_LIB_DIR") {
        println!("cargo::error={}", lacking(Path::new(&folder)));
    }
    println!("cargo::rustc-cfg=without_library");
    println!("cargo::rustc-env=PEP440_NEEDED={NEEDED}");
}
