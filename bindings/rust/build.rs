//! Finds the static library, or has it built, and links it. Where there is none the crate can be checked and
//! documented all the same: only a program is not linked.
use std::path::{Path, PathBuf};
use std::process::{exit, Command, Stdio};
use std::{env, fs};

const NAMED: &str = "STUMPGARRET_ARCHIVE";
const BUILDER: &str = "bindings/library";

fn main() {
    match found() {
        Ok(Ok(library)) => {
            if let Err(text) = link(&library) {
                fail(&text);
            }
        }
        Ok(Err(lacking)) => {
            println!("cargo:warning={}; without it no program links", lacking);
        }
        Err(text) => fail(&text),
    }
}

fn fail(text: &str) {
    eprintln!("stumpgarret: {}", text);
    exit(1);
}

fn link(library: &Path) -> Result<(), String> {
    println!("cargo:rerun-if-changed={}", library.display());
    // A copy of the name that the linker looks for, whatever the archive is called.
    let out = variable("OUT_DIR")?;
    fs::copy(library, Path::new(&out).join("libstumpgarret.a"))
        .map_err(|error| format!("{} cannot be copied: {}", library.display(), error))?;
    println!("cargo:rustc-link-search=native={}", out);
    println!("cargo:rustc-link-lib=static=stumpgarret");
    Ok(())
}

/// The archive that is named, else the repository's, which is built if it is not there; or why there is
/// none for this machine.
fn found() -> Result<Result<PathBuf, String>, String> {
    println!("cargo:rerun-if-env-changed={}", NAMED);
    let (arch, os) = (variable("CARGO_CFG_TARGET_ARCH")?, variable("CARGO_CFG_TARGET_OS")?);
    if arch != "x86_64" || os != "linux" {
        return Ok(Err(format!(
            "the library is for x86-64 Linux, not for {} {}: a program is built with --target \
             x86_64-unknown-linux-gnu",
            arch, os
        )));
    }
    if let Some(named) = env::var_os(NAMED) {
        let named = PathBuf::from(named);
        return match named.is_file() {
            true => Ok(Ok(named)),
            false => Err(format!("{} names {}, which is no file", NAMED, named.display())),
        };
    }
    let root = Path::new(&variable("CARGO_MANIFEST_DIR")?).join("../..");
    let library = root.join("target/staticlib/libstumpgarret.a");
    if !library.is_file() {
        if let Some(lacking) = build(&root)? {
            return Ok(Err(lacking));
        }
    }
    match library.is_file() {
        true => Ok(Ok(library)),
        false => Err(format!("{} did not write {}", BUILDER, library.display())),
    }
}

/// Builds it; says why it cannot, where there is no rt.
fn build(root: &Path) -> Result<Option<String>, String> {
    let status = Command::new("rt").arg("version").stdout(Stdio::null()).status();
    let status = status.and_then(|_| Command::new(root.join(BUILDER)).status());
    match status {
        Ok(status) if status.success() => Ok(None),
        Ok(status) => Err(format!("{} failed: {}", BUILDER, status)),
        Err(error) => Ok(Some(format!(
            "there is no library yet, and rt, which builds it, does not run ({}); {} can name one",
            error, NAMED
        ))),
    }
}

fn variable(name: &str) -> Result<String, String> {
    env::var(name).map_err(|error| format!("{}: {}", name, error))
}
