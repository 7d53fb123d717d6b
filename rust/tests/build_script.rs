//! The build script in a repository of its own, with an archive that holds nothing: which archive is linked, and when cargo warns that
//! it is older than its sources. Each build is one of cargo's, and what it says is looked at.

use std::env;
use std::fs::{self, File};
use std::path::PathBuf;
use std::process::{self, Command};
use std::time::{Duration, SystemTime};

const MANIFEST: &str = "
[workspace]
[package]
name = \"ketphiroj\"
version = \"0.0.0\"
edition = \"2021\"
links = \"capi\"
";

const CRATES: &str = "word:  # numbers
page: word
lister: word  # a program, not in the archive
capi staticlib: page word  # the calls
";

/// The files of the library, and those that are not in the archive.
const SOURCES: [&str; 4] =
    ["crates.txt", "crates/capi/src/calls/feed.rt", "crates/word/src/word.rt", "crates/page/specs/Page.antt"];
const OTHERS: [&str; 2] = ["crates/lister/src/main.rt", "crates/word/proofs/Word.antt"];
const ARCHIVE: &str = "target/staticlib/libcapi.a";

struct Repository {
    root: PathBuf,
    made: SystemTime,
}

impl Repository {
    /// A fresh one: all its files, the archive too, are of one time, an hour ago.
    fn new(name: &str) -> Repository {
        // Outside this repository: in it rt takes no other crates.txt, and no source of a crate that is not listed.
        let root = env::temp_dir().join(format!("ketphiroj-{}-{name}", process::id()));
        let repository = Repository { root, made: SystemTime::now() };
        for file in SOURCES.into_iter().chain(OTHERS) {
            repository.write(file, if file == "crates.txt" { CRATES } else { "" });
            repository.set_time(file, 3600);
        }
        repository.write("rust/Cargo.toml", MANIFEST);
        repository.write("rust/src/lib.rs", "");
        repository.write("rust/build.rs", include_str!("../build.rs"));
        repository.write_archive(ARCHIVE);
        repository.set_time(ARCHIVE, 3600);
        repository
    }

    fn write(&self, file: &str, text: &str) {
        let path = self.root.join(file);
        fs::create_dir_all(path.parent().unwrap()).unwrap();
        fs::write(path, text).unwrap();
    }

    /// An archive without a member.
    fn write_archive(&self, file: &str) {
        self.write(file, "!<arch>\n");
    }

    /// Makes a file this many seconds older than the repository.
    fn set_time(&self, file: &str, seconds: u64) {
        let time = self.made - Duration::from_secs(seconds);
        File::options().write(true).open(self.root.join(file)).unwrap().set_modified(time).unwrap();
    }

    /// Builds the crate from a folder of the repository, with KETPHIROJ_LIB if there is one. Gives whether it was built, and what
    /// cargo said.
    fn build(&self, from: &str, named: Option<&str>) -> (bool, String) {
        let cargo = env::var_os("CARGO").unwrap_or_else(|| "cargo".into());
        let mut command = Command::new(cargo);
        command.args(["build", "--offline", "--manifest-path"]).arg(self.root.join("rust/Cargo.toml"));
        command.current_dir(self.root.join(from)).env("CARGO_TARGET_DIR", self.root.join("built"));
        match named {
            Some(folder) => command.env("KETPHIROJ_LIB", folder),
            None => command.env_remove("KETPHIROJ_LIB"),
        };
        let output = command.output().unwrap();
        (output.status.success(), String::from_utf8(output.stderr).unwrap())
    }

    fn builds_silently(&self, named: Option<&str>) {
        let (built, said) = self.build("rust", named);
        assert!(built && !said.contains("warning"), "{named:?}: {said}");
    }

    /// It is built, with a warning that names this source, the archive and what mends it.
    fn builds_with_warning(&self, source: &str, named: Option<&str>) {
        let (built, said) = self.build("rust", named);
        let told = [&format!("warning: ketphiroj@0.0.0: {source} is newer than {ARCHIVE}"), "`bin/build capi`"];
        assert!(built && told.iter().all(|text| said.contains(text)), "{source}: {said}");
    }
}

impl Drop for Repository {
    fn drop(&mut self) {
        let _ = fs::remove_dir_all(&self.root);
    }
}

/// One source after the other is written, and the archive after each.
#[test]
fn older_archive() {
    let repository = Repository::new("older_archive");
    // All of one time, as in a copy.
    repository.builds_silently(None);
    for source in SOURCES {
        repository.write(source, CRATES);
        repository.builds_with_warning(source, None);
        // Told as long as it is so.
        repository.builds_with_warning(source, None);
        repository.write_archive(ARCHIVE);
        repository.builds_silently(None);
    }
}

/// A source that is newer when the crate is built for the first time; and the same archive, named.
#[test]
fn older_archive_at_first() {
    let repository = Repository::new("older_archive_at_first");
    repository.set_time(SOURCES[2], 60);
    repository.builds_with_warning(SOURCES[2], None);
    repository.builds_with_warning(SOURCES[2], Some(""));
    repository.builds_with_warning(SOURCES[2], Some("target/staticlib"));
    repository.builds_with_warning(SOURCES[2], Some(repository.root.join("target/staticlib").to_str().unwrap()));
    // Another archive is taken as it is.
    repository.write_archive("elsewhere/libcapi.a");
    repository.set_time("elsewhere/libcapi.a", 7200);
    repository.builds_silently(Some("elsewhere"));
}

/// Proofs, and crates that the archive has nothing of, may be newer.
#[test]
fn other_files() {
    let repository = Repository::new("other_files");
    OTHERS.iter().for_each(|file| repository.set_time(file, 60));
    repository.builds_silently(None);
    OTHERS.iter().for_each(|file| repository.write(file, "other"));
    repository.builds_silently(None);
}

/// A relative KETPHIROJ_LIB is taken from the repository's root, wherever cargo is called. One without an archive is told whole.
#[test]
fn relative_folder() {
    let repository = Repository::new("relative_folder");
    fs::remove_file(repository.root.join(ARCHIVE)).unwrap();
    for from in ["", "rust", "crates/capi"] {
        // Written anew, so that cargo runs the script each time.
        repository.write_archive("lib/x86-64/libcapi.a");
        let (built, said) = repository.build(from, Some("lib/x86-64"));
        assert!(built && said.contains("Compiling ketphiroj"), "{from}: {said}");
    }
    // Not from the crate's folder.
    repository.write_archive("rust/beside/libcapi.a");
    for (named, folder) in [(Some("beside"), "beside"), (None, "target/staticlib"), (Some(""), "target/staticlib")] {
        let (built, said) = repository.build("rust", named);
        let missing = format!("{} is missing", repository.root.join(folder).join("libcapi.a").display());
        assert!(!built && said.contains(&missing) && said.contains("`bin/build capi`"), "{named:?}: {said}");
    }
}
