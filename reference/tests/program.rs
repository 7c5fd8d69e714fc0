//! The program as it is run: its exit status, and what it says where it cannot read or write.

use std::fs::File;
use std::io::Write;
use std::process::{Command, Output, Stdio};

const WITH_INPUT: [&str; 4] = ["play", "coverage", "merging", "sums"];
const GENERATED: [[&str; 3]; 2] = [["generate", "1", "5000"], ["check", "1", "500"]];

const TRACE: &str = "start 1 1\ncall 0 3 0x83f 0x41\nentry 0 1 0 0\n";

fn reference(words: &[&str]) -> Command {
    let mut command = Command::new(env!("CARGO_BIN_EXE_reference"));
    command.args(words).stdin(Stdio::piped());
    command.stdout(Stdio::piped()).stderr(Stdio::piped());
    command
}

/// Runs a command on this input. It may end before it has read it all.
fn run(command: &mut Command, input: &[u8]) -> Output {
    let mut child = command.spawn().unwrap();
    let _ = child.stdin.take().unwrap().write_all(input);
    child.wait_with_output().unwrap()
}

/// The exit status, and what was said on standard error.
fn ended(output: &Output) -> (i32, String) {
    let said = String::from_utf8(output.stderr.clone()).unwrap();
    (output.status.code().expect("it ends by itself"), said)
}

fn sums(trace: &str) -> (i32, String) {
    ended(&run(&mut reference(&["sums"]), trace.as_bytes()))
}

/// Somebody who goes by the exit status alone must not trust sums with lines left out.
#[test]
fn sums_that_cannot_be_trusted() {
    assert_eq!(sums(TRACE), (0, String::new()));
    let one = "reference: 1 unreadable line (4): these sums are not to be trusted\n";
    assert_eq!(sums(&format!("{TRACE}oops\n")), (1, one.to_string()));
    let two = "reference: 2 unreadable lines (1, 5): these sums are not to be trusted\n";
    assert_eq!(sums(&format!("oops\n{TRACE}oops")), (1, two.to_string()));
}

/// `play` says `error line` among its answers, and goes on.
#[test]
fn play_names_unreadable_lines_in_its_output() {
    let output = run(&mut reference(&["play"]), b"oops\nstart 1 1\n");
    assert_eq!(ended(&output), (0, String::new()));
    assert_eq!(output.stdout, b"error line 1\nstart ok\n");
}

#[test]
fn merging_tells_what_it_passes_over() {
    let told = |trace: &str| {
        let output = run(&mut reference(&["merging"]), trace.as_bytes());
        String::from_utf8(output.stdout).unwrap()
    };
    assert!(!told(TRACE).contains("unreadable"));
    assert!(told(&format!("{TRACE}oops\n")).contains("\npassed over: 1 unreadable line (4)\n"));
}

/// A message and status 2, whatever the verdict would have been.
#[test]
fn a_full_disk() {
    let full = || File::options().write(true).open("/dev/full").unwrap();
    let with_input = WITH_INPUT.map(|name| vec![name]);
    let generated = GENERATED.map(|words| words.to_vec());
    for words in with_input.into_iter().chain(generated) {
        let output = run(reference(&words).stdout(full()), TRACE.as_bytes());
        let (status, said) = ended(&output);
        let message = "reference: cannot read or write: No space left on device";
        assert_eq!(status, 2, "{words:?}");
        assert!(said.starts_with(message), "{words:?}: {said}");
        assert_eq!(said.lines().count(), 1, "{words:?}: {said}");
    }
}

/// Nothing can be said, and the status stays.
#[test]
fn a_full_disk_for_messages() {
    let full = File::options().write(true).open("/dev/full").unwrap();
    let output = run(reference(&["sums"]).stderr(full), b"oops\n");
    assert_eq!(output.status.code(), Some(1));
}

/// A directory can be opened and not be read.
#[test]
fn input_that_cannot_be_read() {
    for name in WITH_INPUT {
        let folder = File::open(env!("CARGO_MANIFEST_DIR")).unwrap();
        let child = reference(&[name]).stdin(folder).spawn().unwrap();
        let (status, said) = ended(&child.wait_with_output().unwrap());
        assert_eq!(status, 2, "{name}");
        assert!(
            said.starts_with("reference: cannot read or write: "),
            "{said}"
        );
    }
}

/// Ended by a reader who stops, as `head` does, before anything is written: quiet, and the verdict stays.
fn unread(words: &[&str], input: &[u8]) -> (i32, String) {
    let mut child = reference(words).spawn().unwrap();
    drop(child.stdout.take());
    let _ = child.stdin.take().unwrap().write_all(input);
    ended(&child.wait_with_output().unwrap())
}

#[test]
fn a_reader_who_stops() {
    let long = TRACE.repeat(10_000);
    for (words, status) in [
        (&["play"][..], 0),
        (&["sums"], 0),
        (&["coverage"], 1),
        (&["merging"], 1),
        (&GENERATED[0], 0),
        (&GENERATED[1], 0),
    ] {
        assert_eq!(
            unread(words, long.as_bytes()),
            (status, String::new()),
            "{words:?}"
        );
    }
    assert_eq!(unread(&["sums"], format!("{long}oops").as_bytes()).0, 1);
}

#[test]
fn words_that_are_no_command() {
    for words in [
        &[][..],
        &["sum"],
        &["check", "1"],
        &["generate", "1", "x"],
        &["sums", "x"],
    ] {
        let (status, said) = ended(&run(&mut reference(words), b""));
        assert_eq!(status, 2, "{words:?}");
        assert!(said.starts_with("usage: reference play"), "{said}");
    }
}
