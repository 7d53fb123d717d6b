//! Links the proved library, `libcapi.a`: from the folder that KETPHIROJ_LIB names, else from the repository's
//! target/staticlib. A relative KETPHIROJ_LIB is taken from the repository's root, the folder above this one, wherever cargo is
//! called; the scripts in bin/ do the same.
//!
//! Where it is the repository's own archive and a source of the library is newer, it warns. It does not stop: a file's time says that
//! it was written, not that it says something else (a checkout of the same text, a clock that was set), and who was given an archive and
//! has no Rattle kit could then not build. That a released archive is of its sources is not left to times: `bin/test` proves and builds it
//! anew.

use std::env;
use std::fs;
use std::path::{Path, PathBuf};
use std::time::SystemTime;

/// Where `bin/build capi` puts the archive, from the repository's root.
const OWN: &str = "target/staticlib";

/// The folder above that of this file.
fn root() -> PathBuf {
    let manifest = env::var_os("CARGO_MANIFEST_DIR").expect("cargo sets CARGO_MANIFEST_DIR");
    Path::new(&manifest).parent().expect("the crate stands in the repository").to_path_buf()
}

/// The folder of the archive. An empty KETPHIROJ_LIB is none.
fn folder(root: &Path) -> PathBuf {
    match env::var_os("KETPHIROJ_LIB") {
        Some(named) if !named.is_empty() => root.join(named),
        _ => root.join(OWN),
    }
}

/// What the archive is made of: crates.txt, and the code and the definitions of `capi` and of the crates that it uses. Nothing where
/// the sources are not there.
fn sources(root: &Path) -> Vec<PathBuf> {
    let list = root.join("crates.txt");
    let Ok(text) = fs::read_to_string(&list) else { return Vec::new() };
    // A line such as "capi staticlib: board client  # the calls exported to C and Rust".
    let lines = text.lines().filter_map(|line| line.split('#').next()?.split_once(':'));
    let of_capi = lines.filter(|(name, _)| name.split_whitespace().next() == Some("capi"));
    let uses = of_capi.flat_map(|(_, uses)| uses.split_whitespace());
    let crates = uses.chain(["capi"]).map(|name| root.join("crates").join(name));
    let folders = crates.flat_map(|folder| [folder.join("src"), folder.join("specs")]);
    folders.filter(|folder| folder.is_dir()).chain([list]).collect()
}

/// When a file was written last; none where that cannot be told.
fn time(file: &Path) -> Option<SystemTime> {
    fs::metadata(file).and_then(|data| data.modified()).ok()
}

/// The files in a folder and in those below it, or the file itself.
fn files(path: PathBuf) -> Vec<PathBuf> {
    match fs::read_dir(&path) {
        Ok(entries) => entries.flatten().flat_map(|entry| files(entry.path())).collect(),
        Err(_) => vec![path],
    }
}

/// The newest source, where it is newer than the archive. Files of one time, as in a copy, are not.
fn newer_source(sources: Vec<PathBuf>, archive: &Path) -> Option<PathBuf> {
    let newest = sources.into_iter().flat_map(files).max_by_key(|file| time(file))?;
    (time(&newest) > time(archive)).then_some(newest)
}

/// Has cargo run this again where one of the sources changes, and warns where one is newer than the archive.
fn warn_of_newer(root: &Path, archive: &Path) {
    let sources = sources(root);
    for source in &sources {
        println!("cargo::rerun-if-changed={}", source.display());
    }
    if let Some(source) = newer_source(sources, archive) {
        println!(
            "cargo::warning={} is newer than {}, which may not be of these sources: run `bin/build capi` at the \
             repository's root to prove and build it",
            source.strip_prefix(root).unwrap_or(&source).display(),
            archive.strip_prefix(root).unwrap_or(archive).display()
        );
    }
}

/// The archive is compiled for one machine: where the program is for another, a linker would say it in words of its own.
fn is_for_target() -> bool {
    let target = env::var("CARGO_CFG_TARGET_ARCH").unwrap_or_default();
    if target != "x86_64" {
        println!(
            "cargo::error=the archive is for x86-64 alone, and this build is for {target}: see README.md, 'From C'"
        );
    }
    target == "x86_64"
}

fn main() {
    if !is_for_target() {
        return;
    }
    let root = root();
    let folder = folder(&root);
    let archive = folder.join("libcapi.a");
    println!("cargo::rerun-if-env-changed=KETPHIROJ_LIB");
    println!("cargo::rerun-if-changed={}", archive.display());
    if !archive.is_file() {
        println!(
            "cargo::error={} is missing: run `bin/build capi` at the repository's root, or name the folder of \
             libcapi.a in KETPHIROJ_LIB (a relative one is taken from the repository's root)",
            archive.display()
        );
        return;
    }
    // Whichever way the folder is named.
    if fs::canonicalize(&folder).ok() == fs::canonicalize(root.join(OWN)).ok() {
        warn_of_newer(&root, &archive);
    }
    println!("cargo::rustc-link-search=native={}", folder.display());
    println!("cargo::rustc-link-lib=static=capi");
}
