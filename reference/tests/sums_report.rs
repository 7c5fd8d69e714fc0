//! What `sums` prints.

use std::fs;
use std::path::Path;

use reference::events::{step, Answer, Event, Shown};
use reference::set::VectorSet;
use reference::state::{Item, Module};
use reference::sums_print::report;

fn folder(name: &str) -> std::path::PathBuf {
    Path::new(env!("CARGO_MANIFEST_DIR")).join("..").join(name)
}

fn printed(trace: &str) -> String {
    let report = report(trace.as_bytes(), step).unwrap();
    assert!(report.can_be_trusted());
    report.text
}

/// Each start begins anew; a start is no event, and a question and `state` are none.
#[test]
fn a_trace_of_two_lists() {
    let trace = "start 2 1
call 0 3 0x83f 0x41
call 0 3 0x830 0x84041
call 1 3 0x830 0xc4400
ask 0
start 1 3
state
call 0 3 0x83f 0xff
entry 0 1 0 0";
    let expected = "\
list 1: n 2, VMPL 1, 3 events

vCPU  item                  requests  returns  merged  presented  handed back  pending
   0  0x2 (NMI)                    1        0       0          0            0        1  meets
   0  0x41                         2        0       1          0            0        1  meets
   1  0x41                         1        0       0          0            0        1  meets

   0  all items                    3        0       1          0            0        2  meets
   1  all items                    1        0       0          0            0        1  meets

list 2: n 1, VMPL 3, 2 events

vCPU  item                  requests  returns  merged  presented  handed back  pending
   0  0xff                         1        0       0          1            0        0  meets

   0  all items                    1        0       0          1            0        0  meets
";
    assert_eq!(printed(trace), expected);
}

/// On the stopped module nothing counts (3.7), before any start and after a refused one.
#[test]
fn traces_without_a_started_module() {
    let events = "notice 0 256 3=1 64=0x41\nentry 0 1 0 0\n";
    let before = "before the first start, 2 events: nothing was counted\n";
    assert_eq!(printed(events), before);
    assert_eq!(
        printed(&format!(
            "{events}start 33 1\nhandback 0 1 0 256\nstart 1 1\n"
        )),
        format!(
            "{before}
list 1: n 33, VMPL 1 (start refused), 1 event: nothing was counted

list 2: n 1, VMPL 1, 0 events: nothing was counted
"
        )
    );
    assert_eq!(printed("# nothing\n"), "");
}

/// What is printed for a trace that has unreadable lines.
fn doubtful(trace: &str) -> String {
    let report = report(trace.as_bytes(), step).unwrap();
    assert!(report.meets && !report.can_be_trusted());
    report.text
}

/// They are named in the list that they stand in, and no row of it says that it meets. Another list
/// begins with a start that could be read.
#[test]
fn unreadable_lines_are_named() {
    let trace = "# Line 3 lacks a number, line 5 has a comment behind it.
start 2 1
call 0 3 0x83f
call 0 3 0x83f 0x41
entry 0 1 0 0 # presented
start 1 3
call 0 3 0x83f 0xff
";
    let expected = "\
list 1: n 2, VMPL 1, 1 event
NOT TO BE TRUSTED: 2 unreadable lines (3, 5)

vCPU  item                  requests  returns  merged  presented  handed back  pending
   0  0x41                         1        0       0          0            0        1  meets as far as read

   0  all items                    1        0       0          0            0        1  meets as far as read

list 2: n 1, VMPL 3, 1 event

vCPU  item                  requests  returns  merged  presented  handed back  pending
   0  0xff                         1        0       0          0            0        1  meets

   0  all items                    1        0       0          0            0        1  meets
";
    assert_eq!(doubtful(trace), expected);
}

/// Of many the first six are named, of the whole trace as of a list.
#[test]
fn many_unreadable_lines() {
    let trace = format!("start 1 1\n{}start 1 1\noops\n", "entry 0 1 0\n".repeat(7));
    let report = report(trace.as_bytes(), step).unwrap();
    assert!(!report.can_be_trusted());
    assert_eq!(
        report.unreadable.told(),
        "8 unreadable lines (2, 3, 4, 5, 6, 7, ...)"
    );
    assert_eq!(
        report.text,
        "\
list 1: n 1, VMPL 1, 0 events: nothing was counted
NOT TO BE TRUSTED: 7 unreadable lines (2, 3, 4, 5, 6, 7, ...)

list 2: n 1, VMPL 1, 0 events: nothing was counted
NOT TO BE TRUSTED: 1 unreadable line (10)
"
    );
}

/// With its start a whole list is lost, so what stands before the first start is told too.
#[test]
fn an_unreadable_start() {
    assert_eq!(
        doubtful("Start 1 1\ncall 0 3 0x83f 0x41\n"),
        "before the first start, 1 event: nothing was counted\n\
         NOT TO BE TRUSTED: 1 unreadable line (1)\n"
    );
    assert_eq!(
        doubtful("oops\nstart 1 1\n"),
        "before the first start, 0 events: nothing was counted\n\
         NOT TO BE TRUSTED: 1 unreadable line (1)\n\n\
         list 1: n 1, VMPL 1, 0 events: nothing was counted\n"
    );
}

/// A row that differs is told so where lines are unreadable, too.
#[test]
fn rows_that_differ_among_unreadable_lines() {
    let trace = "start 1 1\ncall 0 3 0x83f 0x41\nentry 0 1 0 0\noops\n";
    let report = report(trace.as_bytes(), presented_twice).unwrap();
    assert!(!report.meets);
    assert!(
        report.text.contains("  DIFFERS: 1 and 2\n"),
        "{}",
        report.text
    );
    assert!(!report.text.contains("meets"), "{}", report.text);
}

/// Against 8.11: a presented vector stays pending.
fn presented_twice(m: &mut Module, event: &mut Event) -> Answer {
    let answer = step(m, event);
    if let (Event::Entry { vcpu, .. }, Answer::Entry(Ok(Shown::Presented(Item::Vector(v))))) =
        (event, answer)
    {
        m.record_mut(*vcpu).pending.put(v);
    }
    answer
}

#[test]
fn rows_that_differ_are_told() {
    let trace = "start 1 1\ncall 0 3 0x83f 0x41\nentry 0 1 0 0\n";
    let report = report(trace.as_bytes(), presented_twice).unwrap();
    assert!(!report.meets);
    let row =
        "   0  0x41                         1        0       0          1            0        \
               1  DIFFERS: 1 and 2\n";
    assert!(report.text.contains(row), "{}", report.text);
}

/// Every entry presents 0x41, and what is requested is not kept.
fn invents_and_drops(m: &mut Module, event: &mut Event) -> Answer {
    let answer = step(m, event);
    for record in &mut m.records {
        record.pending = VectorSet::empty();
    }
    match answer {
        Answer::Entry(Ok(_)) => Answer::Entry(Ok(Shown::Presented(Item::Vector(0x41)))),
        answer => answer,
    }
}

/// Both sides are 1, but 0x41 waits and is not pending.
#[test]
fn what_waits_and_is_not_pending_is_told() {
    let trace = "start 1 1\nentry 0 1 0 0\ncall 0 3 0x83f 0x41\n";
    let report = report(trace.as_bytes(), invents_and_drops).unwrap();
    assert!(!report.meets);
    let row =
        "   0  0x41                         1        0       0          1            0        \
               0  DIFFERS: 1 waits\n";
    assert!(report.text.contains(row), "{}", report.text);
}

#[test]
fn the_examples_meet() {
    for entry in fs::read_dir(folder("examples")).unwrap() {
        let path = entry.unwrap().path();
        if path
            .extension()
            .is_some_and(|extension| extension == "trace")
        {
            let trace = fs::read(&path).unwrap();
            assert!(report(&trace[..], step).unwrap().meets, "{path:?}");
        }
    }
}

/// The repository's README has the report of the example, indented.
#[test]
fn the_readme_has_this_report() {
    let trace = fs::read_to_string(folder("examples/accounts.trace")).unwrap();
    let indented: String = printed(&trace)
        .lines()
        .map(|line| match line {
            "" => "\n".to_string(),
            line => format!("    {line}\n"),
        })
        .collect();
    let readme = fs::read_to_string(folder("README.md")).unwrap();
    assert!(readme.contains(&indented), "{indented}");
}
