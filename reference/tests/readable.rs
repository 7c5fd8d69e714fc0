//! The readable form (`tools/readable.awk`), above all what it says of unreadable lines, and how
//! `tools/replay` ends. Needs awk and bash. What is played is played by the reference: neither the
//! proved program nor its toolchain is needed.

use std::fs::{self, File};
use std::os::unix::fs::PermissionsExt;
use std::path::{Path, PathBuf};
use std::process::{Command, Output};

use reference::generate::generate;
use reference::lines::LONGEST;
use reference::play::play_text;
use reference::trace::{read, Line};

fn root() -> PathBuf {
    Path::new(env!("CARGO_MANIFEST_DIR")).join("..")
}

/// An empty folder for one test.
fn scratch(name: &str) -> PathBuf {
    let folder = Path::new(env!("CARGO_TARGET_TMPDIR")).join(name);
    let _ = fs::remove_dir_all(&folder);
    fs::create_dir_all(&folder).unwrap();
    folder
}

/// What the readable form has for a trace and the reference's answers.
fn shown(name: &str, trace: &[u8]) -> Vec<u8> {
    let folder = scratch(name);
    let (input, answers) = (folder.join("trace"), folder.join("answers"));
    fs::write(&input, trace).unwrap();
    fs::write(&answers, play_text(trace)).unwrap();
    let output = Command::new("awk")
        .env("LC_ALL", "C")
        .arg("-v")
        .arg(format!("answers={}", answers.display()))
        .arg("-f")
        .arg(root().join("tools/readable.awk"))
        .arg(&input)
        .output()
        .unwrap();
    assert!(output.status.success(), "{output:?}");
    output.stdout
}

/// One line for each reason, and for each place where a reason could be got wrong.
const REASONS: [(&str, &str); 50] = [
    (
        " # spaces",
        "a comment that does not begin at the first character",
    ),
    (
        "\t# a tab",
        "a comment that does not begin at the first character",
    ),
    ("entry 0 1 0 0 # presented", "a comment behind an event"),
    ("entry 0 1 0 0# presented", "a comment behind an event"),
    ("ask #", "a comment behind an event"),
    ("entry 0 1 0 0\r", "a carriage return"),
    ("\r", "a carriage return"),
    ("entry\t0 1 0 0", "a tab"),
    ("\t", "a tab"),
    ("entry 0 1 0 0\u{a0}", "a character that no word has"),
    ("ask \u{7f}", "a character that no word has"),
    ("Entry 0 1 0 0", "a capital letter in the first word"),
    ("STATE", "a capital letter in the first word"),
    ("enter 0 1 0 0", "an unknown first word (enter)"),
    ("ask0", "an unknown first word (ask0)"),
    ("0 1 0 0", "an unknown first word (0)"),
    ("start 2", "too few words"),
    ("notice 0", "too few words"),
    ("call 0,0,0,0", "too few words"),
    ("handback 0 1 0", "too few words"),
    ("allow 0 1", "too few words"),
    ("ask", "too few words"),
    ("start 2 1 0", "too many words"),
    ("entry 0 1 0 0 0", "too many words"),
    ("nondelivery 0 0", "too many words"),
    ("state 0", "too many words"),
    ("call 0 0 -1 0", "not a number (-1)"),
    ("call 0 0 0X1 0", "not a number (0X1)"),
    ("call 0 0 0x 0", "not a number (0x)"),
    ("call 0 1f 0x1g 0", "not a number (1f)"),
    ("allow 0 2 0 0x141 0x142,", "not a number (0x142,)"),
    ("notice 0 256 3=1 64=x41", "not a number (64=x41)"),
    (
        "ask abcdefghijklmnopqrstuvwxyz",
        "not a number (abcdefghijklmnopqrstuvwx...)",
    ),
    (
        "start 4294967296 1",
        "a number too large, over 32 bits (4294967296)",
    ),
    (
        "call 0 0x0100000000 0 0",
        "a number too large, over 32 bits (0x0100000000)",
    ),
    (
        "allow 0 1 0 4294967295 4294967296",
        "a number too large, over 32 bits (4294967296)",
    ),
    (
        "call 0 0 0 018446744073709551616",
        "a number too large, over 64 bits (018446744073709551616)",
    ),
    (
        "call 0 0 0 0x10000000000000000",
        "a number too large, over 64 bits (0x10000000000000000)",
    ),
    (
        "call 0 0 0 100000000000000000000",
        "a number too large, over 64 bits (100000000000000000000)",
    ),
    ("entry 0 2 0 0", "a flag that is neither 0 nor 1 (2)"),
    (
        "handback 0 1 0x100000000 256",
        "a flag that is neither 0 nor 1 (0x100000000)",
    ),
    ("notice 0 4097", "a page too long, over 4,096 bytes (4097)"),
    (
        "allow 0 1025 0",
        "a second list too long, over 1,024 places (1025)",
    ),
    ("notice 0 256 3 = 1", "not OFFSET=BYTE (3)"),
    ("notice 0 256 3= 1", "not OFFSET=BYTE (3=)"),
    ("notice 0 256 3=1=1", "not OFFSET=BYTE (3=1=1)"),
    (
        "notice 0 256 255=1 256=1",
        "an offset out of the page, which has 256 bytes (256=1)",
    ),
    (
        "handback 0 1 0 0x10 0x10=0",
        "an offset out of the page, which has 16 bytes (0x10=0)",
    ),
    ("notice 0 256 3=255 4=256", "a byte over 255 (4=256)"),
    (
        "notice 0 0 0=256",
        "an offset out of the page, which has 0 bytes (0=256)",
    ),
];

/// As it is printed: the answer behind a short line, or below a long one.
fn beside(line: &str, answer: &str) -> String {
    let line: String = line
        .chars()
        .map(|c| if c == '\r' || c == '\u{7f}' { '?' } else { c })
        .collect();
    match line.len() < 38 {
        true => format!("{line}{}-> {answer}\n", " ".repeat(38 - line.len())),
        false => format!("{line}\n{}-> {answer}\n", " ".repeat(38)),
    }
}

/// The lines stand among events, whose answers stay beside them.
#[test]
fn unreadable_lines_have_a_likely_reason() {
    let mut trace = "# The reasons\nstart 1 1\n".to_string();
    let mut expected = "# The reasons\n".to_string() + &beside("start 1 1", "ok");
    for (index, (line, reason)) in REASONS.into_iter().enumerate() {
        assert_eq!(read(line.as_bytes()), Line::Unreadable, "{line}");
        trace += &format!("{line}\nask 0\n");
        let number = 3 + 2 * index;
        expected += &beside(
            line,
            &format!("unreadable (line {number}): likely {reason}"),
        );
        expected += &beside("ask 0", "no");
    }
    let shown = String::from_utf8(shown("reasons", trace.as_bytes())).unwrap();
    assert_eq!(shown, expected);
}

/// Lines that are too long for this table. One of spaces alone is unreadable too, and not passed over.
#[test]
fn long_lines() {
    let padded = |text: &str, length: usize| format!("{text}{}", " ".repeat(length - text.len()));
    let values = |count: usize| format!("allow 0 0 0{}", " 321".repeat(count));
    let too_long = "likely a line too long, over 65,536 bytes";
    let lines = [
        (padded("ask 0", LONGEST), "no"),
        (
            padded("ask 0", LONGEST + 1),
            &format!("unreadable (line 2): {too_long}"),
        ),
        (
            padded("", LONGEST + 1),
            &format!("unreadable (line 3): {too_long}"),
        ),
        (
            values(1025),
            "unreadable (line 4): likely too many values, over 1,024",
        ),
        (values(1024), "refused 0x1 (no such vCPU)"),
    ];
    let trace: String = lines.iter().map(|(line, _)| format!("{line}\n")).collect();
    let expected: String = lines
        .iter()
        .map(|(line, answer)| beside(line, answer))
        .collect();
    let passed_over = [padded("", LONGEST), padded("#", 2 * LONGEST)].join("\n");
    let shown = shown("long", format!("{trace}{passed_over}").as_bytes());
    assert!(shown == format!("{expected}{passed_over}\n").as_bytes());
}

/// Every unreadable line that is generated has a reason, and no readable one.
#[test]
fn every_generated_unreadable_line_has_a_reason() {
    let mut trace = Vec::new();
    generate(11, 60_000, &mut trace).unwrap();
    let unreadable = trace.split(|&b| b == b'\n').map(read);
    let count = unreadable.filter(|line| *line == Line::Unreadable).count();
    assert!(count > 400, "{count}");
    let shown = shown("generated", &trace);
    let text = String::from_utf8_lossy(&shown);
    assert_eq!(text.matches("-> unreadable (line ").count(), count);
    assert_eq!(text.matches("): likely ").count(), count);
}

/// A copy of the tools beside a `replay` that this script is, and an `rt` that proves nothing.
fn workplace(name: &str, replay: &str) -> PathBuf {
    let folder = scratch(name);
    for part in ["tools", "crates/replay/out", "bin"] {
        fs::create_dir_all(folder.join(part)).unwrap();
    }
    for file in ["tools/replay", "tools/readable.awk"] {
        fs::copy(root().join(file), folder.join(file)).unwrap();
    }
    script(&folder.join("crates/replay/out/replay"), replay);
    script(&folder.join("bin/rt"), "exit 0");
    folder
}

fn script(path: &Path, text: &str) {
    fs::write(path, format!("#!/bin/sh\n{text}\n")).unwrap();
    fs::set_permissions(path, fs::Permissions::from_mode(0o755)).unwrap();
}

/// `tools/replay` with these words on a trace.
fn replay(folder: &Path, words: &[&str], trace: &str) -> Command {
    fs::write(folder.join("trace"), trace).unwrap();
    let path = std::env::var("PATH").unwrap();
    let mut command = Command::new("bash");
    command
        .env("PATH", format!("{}:{path}", folder.join("bin").display()))
        .arg(folder.join("tools/replay"))
        .args(words)
        .stdin(File::open(folder.join("trace")).unwrap());
    command
}

fn by_reference() -> String {
    format!("exec '{}' play", env!("CARGO_BIN_EXE_reference"))
}

fn ended(output: &Output) -> (i32, &str) {
    let said = std::str::from_utf8(&output.stderr).unwrap();
    (output.status.code().unwrap(), said)
}

/// 3 and how many on standard error, in both forms; standard output is as it was.
#[test]
fn replay_counts_unreadable_lines() {
    let folder = workplace("counted", &by_reference());
    let good = "start 1 1\nask 0\n";
    let bad = format!("{good}ask\nentry 0\n");
    let many = format!("{good}{}", "ask\n".repeat(7));
    let two = "replay: 2 unreadable lines (3, 4) changed nothing";
    let seven = "replay: 7 unreadable lines (3, 4, 5, 6, 7, 8, ...) changed nothing";
    for (form, hint) in [
        ("--bare", "; --readable gives the likely reason\n"),
        ("--readable", "\n"),
    ] {
        let run = |trace: &str| replay(&folder, &[form], trace).output().unwrap();
        assert_eq!(ended(&run(good)), (0, ""), "{form}");
        assert_eq!(ended(&run(&bad)), (3, &*format!("{two}{hint}")), "{form}");
        assert_eq!(
            ended(&run(&many)),
            (3, &*format!("{seven}{hint}")),
            "{form}"
        );
    }
    let bare = replay(&folder, &["--bare"], &bad).output().unwrap();
    assert_eq!(bare.stdout, play_text(bad.as_bytes()).as_bytes());
    let readable = replay(&folder, &["--readable"], &bad).output().unwrap();
    assert_eq!(readable.stdout, shown("counted_shown", bad.as_bytes()));
}

/// 1 comes before 3: a full disk, and a program that says why it stopped.
#[test]
fn replay_fails_where_it_cannot_read_or_write() {
    let folder = workplace("full", &by_reference());
    let stopped = workplace("stopped", "echo 'error line 1'; echo 'replay: stopped' >&2");
    for form in ["--bare", "--readable"] {
        let full = File::options().write(true).open("/dev/full").unwrap();
        let output = replay(&folder, &[form], "ask\n")
            .stdout(full)
            .output()
            .unwrap();
        let (status, said) = ended(&output);
        assert!(status == 1 && !said.is_empty(), "{form}: {status}, {said}");
        let output = replay(&stopped, &[form], "ask\n").output().unwrap();
        assert_eq!(ended(&output), (1, "replay: stopped\n"), "{form}");
    }
}

#[test]
fn replay_refuses_what_it_does_not_understand() {
    let folder = workplace("words", &by_reference());
    for words in [&["--bar"][..], &["one", "two"], &["no-such-trace"], &["."]] {
        let output = replay(&folder, words, "").output().unwrap();
        assert_eq!(ended(&output).0, 2, "{words:?}");
    }
}
