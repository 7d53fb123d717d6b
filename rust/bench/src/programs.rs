//! The lister and the plain scanner as programs of their own, which read a file as their standard input.

use crate::timing::milliseconds;
use std::path::{Path, PathBuf};
use std::process::{Command, Stdio};

/// Where the two programs are.
pub struct Programs {
    lister: PathBuf,
    scanner: PathBuf,
}

impl Programs {
    /// The lister, where it is built, and the scanner, which is built beside the program that runs.
    pub fn built() -> Option<Programs> {
        let lister = std::env::var_os("KETPHIROJ_LISTER")
            .map_or(Path::new(env!("CARGO_MANIFEST_DIR")).join("../../target/bin/lister"), PathBuf::from);
        let own = std::env::current_exe().expect("a program has a path");
        lister.is_file().then(|| Programs { lister, scanner: own.with_file_name("scanner") })
    }

    /// The milliseconds of the lister and of the scanner, in turns: the smallest of each.
    pub fn compare(&self, bytes: &[u8], runs: u32) -> (f64, f64) {
        let path = std::env::temp_dir().join(format!("ketphiroj-bench-{}", std::process::id()));
        std::fs::write(&path, bytes).expect("a file of 16 MiB can be written");
        let mut smallest = (f64::MAX, f64::MAX);
        for _ in 0..runs {
            smallest.0 = smallest.0.min(run(&self.lister, &path));
            smallest.1 = smallest.1.min(run(&self.scanner, &path));
        }
        std::fs::remove_file(&path).expect("the file can be removed");
        smallest
    }
}

/// The milliseconds of a program that reads a file as its standard input.
fn run(path: &Path, file: &Path) -> f64 {
    let input = std::fs::File::open(file).expect("the file was written");
    let mut command = Command::new(path);
    command.stdin(input).stdout(Stdio::null());
    milliseconds(|| {
        let status = command.status();
        assert!(status.is_ok_and(|status| status.success()), "{} failed", path.display());
    })
}
