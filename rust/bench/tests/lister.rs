//! The listing program against a plain reading of the paper: the recording in the repository, and files that are read in
//! several pieces and whose listing fills several blocks.
//!
//! It runs `target/bin/lister`, which `bin/build lister` builds.

#![forbid(unsafe_code)]

use bench::files::File;
use plain::generate::{fields, numbered, Rng};
use std::io::Write;
use std::path::{Path, PathBuf};
use std::process::{Command, Stdio};
use std::thread;

fn program() -> PathBuf {
    Path::new(env!("CARGO_MANIFEST_DIR")).join("../../target/bin/lister")
}

/// What the program prints for an input.
fn listed(input: &[u8]) -> String {
    printed(&mut Command::new(program()), input)
}

/// What the program writes to descriptor 3 for an input: the totals of port 0, and what it holds.
fn tallied(input: &[u8]) -> Vec<u64> {
    let mut shell = Command::new("sh");
    shell.arg("-c").arg("exec \"$0\" 3>&1 >/dev/null").arg(program());
    printed(&mut shell, input).lines().map(|line| line.parse().expect("a number")).collect()
}

/// What a command prints for an input.
fn printed(command: &mut Command, input: &[u8]) -> String {
    let program = program();
    let mut child = command
        .stdin(Stdio::piped())
        .stdout(Stdio::piped())
        .spawn()
        .unwrap_or_else(|error| panic!("{}: {error}; bin/build lister builds it", program.display()));
    let mut pipe = child.stdin.take().expect("a pipe");
    // Written by a thread of its own: the program prints before it has read all.
    thread::scope(|scope| {
        scope.spawn(move || pipe.write_all(input).expect("the program reads its input"));
        let output = child.wait_with_output().expect("the program ends");
        assert!(output.status.success());
        String::from_utf8(output.stdout).expect("text")
    })
}

/// The totals of a port that is fed an input, by the plain reading, and what it holds at the end.
fn plainly_tallied(input: &[u8]) -> Vec<u64> {
    let mut page = [0xFF; 64];
    let (_, mut board) = plain::start(plain::Profile::Full, &page);
    let mut taken = 0;
    loop {
        let mut room = [0; plain::Port::LONGEST_REPLY];
        let fed = plain::feed(0, &board, &input[taken..], &mut room, &mut page);
        taken += fed.taken;
        board = fed.board;
        if fed.number == plain::number::USED_UP {
            break;
        }
    }
    let plain::Tally { taken, skipped, good, errors } = board.tallies[0];
    let held = board.ports[0].held as u64;
    [taken, skipped, good].into_iter().chain(errors).chain([held]).collect()
}

/// Equal, or the first line that differs.
fn assert_same(name: &str, input: &[u8]) {
    let (got, expected) = (listed(input), plain::listing(input));
    if got != expected {
        let line = got.lines().zip(expected.lines()).position(|(a, b)| a != b);
        panic!("{name}: the listings differ, first at line {line:?}");
    }
}

#[test]
fn recording() {
    let path = Path::new(env!("CARGO_MANIFEST_DIR")).join("../../samples/recording.bin");
    let recording = std::fs::read(path).expect("the recording");
    assert_same("the recording", &recording);
    // Cut anywhere, so that every state of the scan is met at the input's end.
    for end in 0..recording.len() {
        assert_same("a part of the recording", &recording[..end]);
    }
}

#[test]
fn files() {
    for file in File::ALL {
        assert_same(file.name(), &file.bytes(200 << 10));
    }
}

/// Messages of several fields: a line for each row of the reply, up to sixteen of them for one message.
#[test]
fn several_fields() {
    let mut rng = Rng::new(2);
    for _ in 0..8 {
        let stream: Vec<u8> = (0..1000).flat_map(|_| fields::piece_with_fields(&mut rng)).collect();
        assert_same("messages of several fields", &stream);
    }
    let sixteen = plain::message(0x01, &[0x02, 0x00].repeat(16)).repeat(2000);
    assert_eq!(plain::listing(&sixteen).lines().count(), 2 + 16 * 2000);
    assert_same("sixteen Pings in each message", &sixteen);
}

/// Numbered commands, and others between them, which are refused as soon as the page keeps a number.
#[test]
fn numbered_commands() {
    let mut rng = Rng::new(3);
    for _ in 0..40 {
        assert_same("numbered commands", &numbered::stream(&mut rng, 200));
    }
}

/// The totals for service, of the recording cut anywhere and of files of all kinds.
#[test]
fn totals() {
    let path = Path::new(env!("CARGO_MANIFEST_DIR")).join("../../samples/recording.bin");
    let recording = std::fs::read(path).expect("the recording");
    for end in 0..=recording.len() {
        let part = &recording[..end];
        assert_eq!(tallied(part), plainly_tallied(part), "the first {end} bytes of the recording");
    }
    for file in File::ALL {
        let bytes = file.bytes(40 << 10);
        assert_eq!(tallied(&bytes), plainly_tallied(&bytes), "{}", file.name());
    }
}
