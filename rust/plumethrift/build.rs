//! Finds the proved archive, or has it made, and links it.
//!
//! The archive is `crates/plumethrift/out/libplumethrift.a` below the repository's root. One that
//! is there is taken as it is, with a warning where its sources are newer; where there is none,
//! `rt lib`, called in `crates/plumethrift`, proves and writes it. `PLUMETHRIFT_ARCHIVE_DIR` may
//! name another folder that has the archive, by its whole path.

use std::path::{Path, PathBuf};
use std::process::{exit, Command};
use std::time::{Instant, SystemTime};
use std::{env, fs};

const ARCHIVE: &str = "libplumethrift.a";
const FOLDER: &str = "PLUMETHRIFT_ARCHIVE_DIR";

fn main() {
    println!("cargo:rerun-if-env-changed={FOLDER}");
    let folder = match env::var_os(FOLDER) {
        Some(named) => named_folder(PathBuf::from(named)),
        None => repository_folder(),
    };
    let archive = folder.join(ARCHIVE);
    println!("cargo:rerun-if-changed={}", archive.display());
    println!("cargo:rustc-env=PLUMETHRIFT_ARCHIVE={}", archive.display()); // for the tests
    println!("cargo:rustc-link-search=native={}", folder.display());
    println!("cargo:rustc-link-lib=static=plumethrift");
}

/// The folder that the environment names; it has to have the archive.
fn named_folder(folder: PathBuf) -> PathBuf {
    if !folder.is_absolute() {
        stop(&format!(
            "{FOLDER} has to be a whole path, and is '{}'",
            folder.display()
        ));
    }
    if !folder.join(ARCHIVE).is_file() {
        stop(&format!(
            "{FOLDER} names '{}', which has no {ARCHIVE}",
            folder.display()
        ));
    }
    folder
}

/// The repository's own folder for the archive, which is made if it is not there.
fn repository_folder() -> PathBuf {
    let package =
        PathBuf::from(env::var_os("CARGO_MANIFEST_DIR").expect("cargo sets CARGO_MANIFEST_DIR"));
    let root = match package.ancestors().nth(2) {
        Some(root) if root.join("crates.txt").is_file() => root,
        _ => stop(&format!(
            "two levels above '{}' there is no crates.txt; set {FOLDER}",
            package.display()
        )),
    };
    println!(
        "cargo:rerun-if-changed={}",
        root.join("crates.txt").display()
    );
    let sources = source_folders(&root.join("crates"));
    for folder in &sources {
        println!("cargo:rerun-if-changed={}", folder.display());
    }
    let package = root.join("crates").join("plumethrift");
    let folder = package.join("out");
    let archive = folder.join(ARCHIVE);
    if !archive.is_file() {
        let begin = Instant::now();
        make_archive(&package);
        if !archive.is_file() {
            stop(&format!(
                "`rt lib` in crates/plumethrift left no '{}'",
                archive.display()
            ));
        }
        let seconds = begin.elapsed().as_secs();
        say(&format!(
            "`rt lib` in crates/plumethrift proved and wrote the archive in {seconds} s"
        ));
    } else if changed(&archive) < newest_source(&sources) {
        say(&format!(
            "'{}' is older than its sources: `rt lib` in crates/plumethrift makes it anew",
            archive.display()
        ));
    }
    folder
}

/// Whether a crate is of the programs, and not of the library.
fn is_outside(crate_folder: &Path) -> bool {
    let name = crate_folder.file_name().unwrap_or_default();
    name == "batch" || name.to_string_lossy().starts_with("exi")
}

/// The entries of a folder, none where it cannot be read.
fn entries(folder: &Path) -> impl Iterator<Item = PathBuf> {
    let entries = fs::read_dir(folder).into_iter().flatten();
    entries.filter_map(|entry| Some(entry.ok()?.path()))
}

/// The `src` of each crate of the library, beside which `rt` keeps its work.
fn source_folders(crates: &Path) -> Vec<PathBuf> {
    let library = entries(crates).filter(|folder| !is_outside(folder));
    let sources = library.map(|folder| folder.join("src"));
    sources.filter(|folder| folder.is_dir()).collect()
}

/// When the newest source of the library was changed.
fn newest_source(folders: &[PathBuf]) -> Option<SystemTime> {
    let files = folders.iter().flat_map(|folder| entries(folder));
    files.filter_map(|file| changed(&file)).max()
}

fn changed(file: &Path) -> Option<SystemTime> {
    fs::metadata(file).ok()?.modified().ok()
}

/// Shows a line when the build script has ended.
fn say(message: &str) {
    println!("cargo:warning={message}");
}

/// Proves the library and writes the archive. What `rt` says of each crate goes to this script's
/// output: cargo shows it after a failure, and at once where it is called with `-vv`.
fn make_archive(package: &Path) {
    eprintln!(
        "plumethrift: `rt lib` in crates/plumethrift proves the library, once: an hour or more"
    );
    let status = match Command::new("rt").arg("lib").current_dir(package).status() {
        Ok(status) => status,
        Err(error) => stop(&format!(
            "there is no {ARCHIVE}, and `rt lib`, which makes it, did not start: {error}\nPut the \
             kit's `rt` on PATH, or let {FOLDER} name a folder that has it"
        )),
    };
    if !status.success() {
        stop(&format!(
            "`rt lib` failed ({status}) in '{}'",
            package.display()
        ));
    }
}

/// Ends the build with a message.
fn stop(message: &str) -> ! {
    eprintln!("plumethrift: {message}");
    exit(1);
}
