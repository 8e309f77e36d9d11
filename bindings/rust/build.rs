//! Finds `libpeghayrick.a`, copies it to `OUT_DIR` and links it from there.
//!
//! - With `PEGHAYRICK_LIB_DIR`: the archive in that folder. A relative folder counts from the one in which cargo was started.
//! - Without: `bindings/archive` proves and builds it in the repository that this crate stands in. It runs again only when a
//!   source of `crates/` or `crates.txt` there changes; what rt keeps in `crates/NAME/out` is no source.

use std::path::{Path, PathBuf};
use std::process::Command;
use std::time::Instant;
use std::{env, fs};

const ARCHIVE: &str = "libpeghayrick.a";
const FOLDER: &str = "PEGHAYRICK_LIB_DIR";

fn main() {
    println!("cargo:rerun-if-changed=build.rs");
    println!("cargo:rerun-if-env-changed={FOLDER}");
    if let Err(why) = run() {
        eprintln!("{why}");
        std::process::exit(1);
    }
}

fn run() -> Result<(), String> {
    let archive = match env::var_os(FOLDER) {
        Some(folder) if !folder.is_empty() => lent(Path::new(&folder))?,
        _ => built()?,
    };
    let out = PathBuf::from(env::var_os("OUT_DIR").ok_or("run this by cargo")?);
    fs::copy(&archive, out.join(ARCHIVE))
        .map_err(|why| format!("{} was not copied to {}: {why}", archive.display(), out.display()))?;
    println!("cargo:rustc-link-search=native={}", out.display());
    println!("cargo:rustc-link-lib=static=peghayrick");
    Ok(())
}

/// The archive in the folder that was named.
fn lent(folder: &Path) -> Result<PathBuf, String> {
    let full = if folder.is_absolute() { folder.to_path_buf() } else { started_in(folder)?.join(folder) };
    let archive = full.join(ARCHIVE);
    println!("cargo:rerun-if-changed={}", archive.display());
    if !archive.is_file() {
        return Err(format!(
            "{FOLDER} is {}, but there is no {ARCHIVE} in {}: build it by `bindings/archive`, or name the folder that has it",
            folder.display(),
            full.display()
        ));
    }
    Ok(archive)
}

/// The folder in which cargo was started. Cargo runs this script in the crate's own folder; its parent process is cargo itself.
fn started_in(folder: &Path) -> Result<PathBuf, String> {
    println!("cargo:rerun-if-env-changed=PWD");
    fs::read_link(format!("/proc/{}/cwd", std::os::unix::process::parent_id())).map_err(|why| {
        format!(
            "{FOLDER} is {}, and the folder in which cargo was started is not known ({why}): name a full path",
            folder.display()
        )
    })
}

/// The archive that `bindings/archive` makes in the repository around this crate.
fn built() -> Result<PathBuf, String> {
    let here = env::var_os("CARGO_MANIFEST_DIR").ok_or("run this by cargo")?;
    let root = Path::new(&here).join("../..");
    for part in ["crates", "crates.txt"] {
        if !root.join(part).exists() {
            return Err(format!("this crate does not stand in its repository: set {FOLDER} to a folder with {ARCHIVE}"));
        }
    }
    println!("cargo:rerun-if-changed={}", root.join("crates.txt").display());
    for folder in sources(&root.join("crates")).map_err(|why| format!("crates/ was not read: {why}"))? {
        println!("cargo:rerun-if-changed={}", folder.display());
    }
    let script = root.join("bindings/archive");
    eprintln!("peghayrick: `bindings/archive` proves and builds {ARCHIVE}: minutes the first time, a minute after a change");
    let begun = Instant::now();
    let done = Command::new(&script).status().map_err(|why| format!("{} did not start: {why}", script.display()))?;
    if !done.success() {
        return Err(format!(
            "bindings/archive failed: see above. It needs the Rattle kit's rt on PATH; or set {FOLDER} to a folder with {ARCHIVE}"
        ));
    }
    let archive = root.join("target/staticlib").join(ARCHIVE);
    if !archive.is_file() {
        return Err(format!("bindings/archive wrote no {}", archive.display()));
    }
    // Cargo shows this when the script ends, and again at later builds: it is true then too.
    println!(
        "cargo:warning=the last run of `bindings/archive`, which proves and builds {ARCHIVE}, took {} s; it runs again only when a source in crates/ or crates.txt changes, and never with {FOLDER} set",
        begun.elapsed().as_secs()
    );
    Ok(archive)
}

/// The folders of sources of each crate: cargo runs this script again when a file in one of them changes.
fn sources(crates: &Path) -> std::io::Result<Vec<PathBuf>> {
    let mut found = Vec::new();
    for each in fs::read_dir(crates)? {
        let folder = each?.path();
        found.extend(["src", "specs", "proofs"].map(|part| folder.join(part)).into_iter().filter(|part| part.is_dir()));
    }
    found.sort();
    Ok(found)
}
