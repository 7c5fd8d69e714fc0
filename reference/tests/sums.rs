//! The sums of request A7 (02) of short lists, counted by hand. A row is a vCPU, an item and its
//! requests, returns, merged, presented, handed back, pending; rows of zeros are left out.

mod common;

use std::fs;
use std::path::Path;

use common::{rows_by, Row};
use reference::play::play_text;
use reference::sums::Rules;

const NMI: usize = 2;
const MACHINE_CHECK: usize = 18;

fn rows(trace: &str) -> Vec<Row> {
    let rows = rows_by(Rules::RIGHT, trace);
    for (_, item, [requests, returns, merged, presented, handed_back, pending]) in &rows {
        let went = merged + presented + handed_back + pending;
        assert_eq!(requests + returns, went, "{item:#x}");
    }
    rows
}

/// vCPU 0 sends 0x41 to vCPU 1, twice; the second answer names nobody.
const IPI_TWICE: &str = "start 2 1
    call 0 3 0x830 0x0000000100004041
    call 0 3 0x830 0x0000000100004041";

#[test]
fn an_ipi_that_finds_its_vector_pending() {
    assert!(play_text(IPI_TWICE.as_bytes()).ends_with("call ok 0x2\ncall ok 0x0\n"));
    assert_eq!(rows(IPI_TWICE), [(1, 0x41, [2, 0, 1, 0, 0, 1])]);
}

#[test]
fn an_ipi_to_all_with_one_target_leaving() {
    let trace = "start 3 1
        call 2 3 0x83f 0x41
        call 1 1 1 0
        call 0 3 0x830 0x84041";
    assert_eq!(
        rows(trace),
        [(0, 0x41, [1, 0, 0, 0, 0, 1]), (2, 0x41, [2, 0, 1, 0, 0, 1])]
    );
}

/// To a leaving vCPU alone, to an ID that nobody has, and refused by the ICR and the self-IPI register.
#[test]
fn ipis_that_reach_nobody() {
    let trace = "start 2 1
        call 1 1 1 0
        call 0 3 0x830 0x0000000100004041
        call 0 3 0x830 0x0000000900004041
        call 0 3 0x830 0x0000000000004012
        call 0 3 0x83f 0x1e
        call 0 3 0x83f 0x100000041
        call 1 3 0x83f 0x41";
    assert_eq!(rows(trace), []);
}

#[test]
fn a_self_ipi_onto_a_pending_vector() {
    let trace = "start 1 1
        call 0 4 0x141 0
        notice 0 256 3=1 64=0x41
        call 0 3 0x83f 0x41";
    assert_eq!(rows(trace), [(0, 0x41, [2, 0, 1, 0, 0, 1])]);
}

#[test]
fn a_notice_twice() {
    let trace = "start 1 1
        call 0 4 0x141 0
        notice 0 256 3=1 64=0x41
        notice 0 256 3=1 64=0x41
        entry 0 1 0 0";
    assert_eq!(rows(trace), [(0, 0x41, [2, 0, 1, 1, 0, 0])]);
}

/// 4.24: level-sensitive and by its mark in one notice is one request. What is in service does not
/// wait: a request then merges with nothing.
#[test]
fn named_twice_in_one_notice() {
    let trace = "start 1 1
        call 0 4 0x161 0
        notice 0 256 3=1 64=0x61 65=0x44 76=0x02
        notice 0 256 3=1 64=0x61 65=0x44 76=0x02
        entry 0 1 0 0
        notice 0 256 3=1 64=0x61";
    assert_eq!(rows(trace), [(0, 0x61, [3, 0, 1, 1, 0, 1])]);
}

#[test]
fn a_return_onto_a_newer_request() {
    let trace = "start 1 1
        call 0 4 0x141 0
        notice 0 256 3=1 64=0x41
        entry 0 1 0 0
        notice 0 256 3=1 64=0x41
        nondelivery 0";
    assert_eq!(rows(trace), [(0, 0x41, [2, 1, 1, 1, 0, 1])]);
    let presented = trace.to_string() + "\nentry 0 1 0 0\nentry 0 1 0 0";
    assert_eq!(rows(&presented), [(0, 0x41, [2, 1, 1, 2, 0, 0])]);
}

/// A return that finds nothing, and a request that merges with what was returned.
#[test]
fn a_request_onto_a_return() {
    let trace = "start 1 1
        call 0 3 0x83f 0x41
        entry 0 1 0 0
        nondelivery 0
        call 0 3 0x83f 0x41";
    assert_eq!(rows(trace), [(0, 0x41, [2, 1, 1, 1, 0, 1])]);
}

/// Nothing is in flight behind a guest call, an entry that presents nothing, and a return.
#[test]
fn refused_non_deliveries() {
    let presented = "start 1 1
        call 0 3 0x83f 0x41
        entry 0 1 0 0\n";
    for (more, expected) in [
        ("call 0 0 0 0\nnondelivery 0", [1, 0, 0, 1, 0, 0]),
        ("entry 0 1 0 0\nnondelivery 0", [1, 0, 0, 1, 0, 0]),
        ("nondelivery 0\nnondelivery 0", [1, 1, 0, 1, 0, 1]),
    ] {
        let trace = presented.to_string() + more;
        assert_eq!(rows(&trace), [(0, 0x41, expected)], "{more}");
    }
}

/// Windows and entries that present nothing; the TPR, EOIs and reads.
#[test]
fn what_moves_nothing() {
    let trace = "start 1 1
        call 0 3 0x83f 0x41
        entry 0 0 0 0
        call 0 3 0x808 0x50
        entry 0 1 0 0
        call 0 2 0x822 0
        call 0 3 0x80b 0";
    assert_eq!(rows(trace), [(0, 0x41, [1, 0, 0, 0, 0, 1])]);
}

/// The page of the hand-back names 0x62 alone of the two that are level-sensitive (10.16).
#[test]
fn a_hand_back_with_two_level_sensitive_vectors() {
    let trace = "start 2 1
        allow 1 3 0 0x141 0x161 0x162
        notice 1 256 3=1 64=0x61 65=0x04
        notice 1 256 3=1 64=0x62 65=0x04
        notice 1 256 3=1 64=0x41
        call 1 1 1 0
        handback 1 1 0 256";
    let output = play_text(trace.as_bytes());
    assert!(output.ends_with("handback ok 0x10001 page 0x40=0x62 0x41=0x44 0x48=0x2\n"));
    let handed_back = [1, 0, 0, 0, 1, 0];
    assert_eq!(
        rows(trace),
        [
            (1, 0x41, handed_back),
            (1, 0x61, handed_back),
            (1, 0x62, handed_back)
        ]
    );
}

#[test]
fn leaving_with_something_in_flight() {
    let trace = "start 1 1
        call 0 3 0x83f 0x41
        entry 0 1 0 0
        call 0 1 1 0
        nondelivery 0
        handback 0 1 0 256";
    assert_eq!(rows(trace), [(0, 0x41, [1, 0, 0, 1, 0, 0])]);
}

#[test]
fn leaving_with_something_in_flight_and_requested_again() {
    let trace = "start 1 1
        call 0 4 0x141 0
        notice 0 256 3=1 64=0x41
        entry 0 1 0 0
        notice 0 256 3=1 64=0x41
        call 0 1 1 0
        handback 0 1 0 256";
    assert_eq!(rows(trace), [(0, 0x41, [2, 0, 0, 1, 1, 0])]);
}

/// Too early, with a short page, and of a vCPU that there is not; then accepted, and again.
#[test]
fn refused_hand_backs() {
    let trace = "start 1 1
        call 0 3 0x83f 0x41
        call 0 3 0x83f 0x41
        handback 0 1 0 256
        call 0 1 1 0
        handback 0 1 0 255
        handback 1 1 0 256";
    assert_eq!(rows(trace), [(0, 0x41, [2, 0, 1, 0, 0, 1])]);
    let twice = trace.to_string() + "\nhandback 0 1 0 256\nhandback 0 1 0 256";
    assert_eq!(rows(&twice), [(0, 0x41, [2, 0, 1, 0, 1, 0])]);
}

/// Both twice by the host; the machine check requested while in flight, returned onto that and
/// presented again; an NMI from the guest, still pending when the vCPU is handed back.
#[test]
fn the_nmi_and_the_machine_check() {
    let trace = "start 1 1
        allow 0 2 0 0x102 0x112
        notice 0 256 3=1 65=0x03
        notice 0 256 3=1 65=0x03
        entry 0 0 1 1
        notice 0 256 3=1 65=0x02
        nondelivery 0
        entry 0 0 0 0
        entry 0 0 0 0
        call 0 3 0x830 0x4400
        call 0 1 1 0
        handback 0 1 0 256";
    assert_eq!(
        rows(trace),
        [
            (0, NMI, [3, 0, 1, 1, 1, 0]),
            (0, MACHINE_CHECK, [3, 1, 2, 2, 0, 0])
        ]
    );
}

/// 12.26: a list of values counts nothing, and what is pending stays so. An accepted value makes the
/// next non-delivery a refused one (5.32).
#[test]
fn lists_of_values_and_questions_in_between() {
    let trace = "start 1 1
        allow 0 4 0 0x141
        notice 0 256 3=1 64=0x41
        allow 0 4 0 0x041 0x142
        ask 0
        entry 0 1 0 0
        allow 0 4 0 0x11e
        ask 0
        nondelivery 0
        entry 0 1 0 0
        allow 0 4 0 0x141
        nondelivery 0
        notice 0 256 3=1 64=0x41
        allow 0 0 0 0x041
        notice 0 256 3=1 64=0x41";
    assert_eq!(rows(trace), [(0, 0x41, [3, 1, 1, 2, 0, 1])]);
}

/// Not allowed in any form, not announced, a short page, an unknown vCPU.
#[test]
fn notices_that_admit_nothing() {
    let trace = "start 1 1
        call 0 4 0x141 0
        notice 0 256 3=1 64=0x80
        notice 0 256 3=1 64=0x80 65=0x04
        notice 0 256 3=1 65=0x43 80=0x01
        notice 0 256 64=0x41
        notice 0 255 3=1 64=0x41
        notice 1 256 3=1 64=0x41
        call 0 4 0x041 0
        notice 0 256 3=1 64=0x41";
    assert_eq!(rows(trace), []);
}

/// What is taken out of the allowed set while it waits is presented all the same.
#[test]
fn taken_out_while_it_waits() {
    let trace = "start 1 1
        call 0 4 0x141 0
        notice 0 256 3=1 64=0x41
        call 0 4 0x041 0
        notice 0 256 3=1 64=0x41
        entry 0 1 0 0";
    assert_eq!(rows(trace), [(0, 0x41, [1, 0, 0, 1, 0, 0])]);
}

fn example(name: &str) -> String {
    let directory = Path::new(env!("CARGO_MANIFEST_DIR")).join("../examples");
    fs::read_to_string(directory.join(name)).unwrap()
}

/// Every way in which a count rises, in one story.
#[test]
fn the_night_of_the_example() {
    let handed_back = [1, 0, 0, 0, 1, 0];
    assert_eq!(
        rows(&example("accounts.trace")),
        [
            (0, NMI, [1, 0, 0, 1, 0, 0]),
            (0, MACHINE_CHECK, [2, 0, 1, 1, 0, 0]),
            (0, 0x41, [4, 2, 2, 4, 0, 0]),
            (0, 0x42, [1, 0, 0, 1, 0, 0]),
            (0, 0x43, [1, 0, 0, 0, 0, 1]),
            (0, 0x51, [3, 0, 2, 1, 0, 0]),
            (0, 0x52, [1, 0, 0, 0, 0, 1]),
            (1, NMI, [2, 0, 1, 0, 1, 0]),
            (1, 0x41, handed_back),
            (1, 0x61, handed_back),
            (1, 0x62, handed_back),
            (1, 0x71, [1, 0, 0, 1, 0, 0])
        ]
    );
}
