//! The cases 14.92 to 14.95. A row is a vCPU, an item (2 and 18 stand for the NMI and the machine check)
//! and its requests, returns, merged, presented, handed back, pending; rows of zeros are left out.

mod common;

use common::rows_by;
use reference::play::play_text;
use reference::sums::Rules;

#[test]
fn case_14_92() {
    let trace = "start 2 1
        call 0 3 0x830 0x100004041
        call 0 3 0x830 0x100004041";
    assert!(play_text(trace.as_bytes()).ends_with("call ok 0x2\ncall ok 0x0\n"));
    assert_eq!(
        rows_by(Rules::RIGHT, trace),
        [(1, 0x41, [2, 0, 1, 0, 0, 1])]
    );
}

const LEAVING: &str = "start 2 1
    allow 0 4 9 0x141 0x152 0x161 0x171
    notice 0 256 3=1 64=0x41
    entry 0 1 0 0
    notice 0 256 3=1 64=0x41
    nondelivery 0
    handback 0 1 0 256
    entry 0 1 0 0
    notice 0 256 3=1 64=0x52 65=0x04
    notice 0 256 3=1 64=0x61 65=0x04
    notice 0 256 3=1 64=0x71 65=0x04
    notice 0 256 3=1 64=0x41
    call 0 3 0x830 0x44041
    entry 0 1 0 0
    call 0 1 1 0
    nondelivery 0
    call 1 3 0x830 0x84052
    handback 0 1 0 0
    handback 0 1 0 256
    handback 0 1 0 256
    call 1 3 0x83f 0x52
    notice 1 256 3=1 64=0x41";

#[test]
fn case_14_93() {
    let output = play_text(LEAVING.as_bytes());
    let answers: Vec<&str> = output
        .lines()
        .map(|line| line.split(" page").next().unwrap())
        .collect();
    assert_eq!(
        answers,
        [
            "start ok",
            "allow ok 0x0 codes 0x0 0x0 0x0 0x0",
            "notice ok 0x1 0x0",
            "entry vector 0x41",
            "notice ok 0x1 0x0",
            "nondelivery ok 0x0",
            "handback refused 0x3",
            "entry vector 0x41",
            "notice ok 0x1 0x0",
            "notice ok 0x1 0x0",
            "notice ok 0x1 0x0",
            "notice ok 0x1 0x0",
            "call ok 0x0",
            "entry vector 0x71",
            "call ok 0x0",
            "nondelivery refused 0x80000001",
            "call ok 0x2",
            "handback refused 0x2",
            "handback ok 0x10001",
            "handback refused 0x7",
            "call ok 0x0",
            "notice ok 0x0 0x0",
        ]
    );
    assert_eq!(
        rows_by(Rules::RIGHT, LEAVING),
        [
            (0, 0x41, [4, 1, 2, 2, 1, 0]),
            (0, 0x52, [1, 0, 0, 0, 1, 0]),
            (0, 0x61, [1, 0, 0, 0, 1, 0]),
            (0, 0x71, [1, 0, 0, 1, 0, 0]),
            (1, 0x52, [2, 0, 1, 0, 0, 1]),
        ]
    );
}

#[test]
fn case_14_94_of_14_41() {
    let trace = "start 1 1
        call 0 4 0x141 0
        notice 0 256 3=1 64=0x41
        entry 0 1 0 0
        nondelivery 0
        entry 0 1 0 0
        call 0 3 0x83f 0x41
        call 0 3 0x830 0x1041
        call 0 3 0x80b 0
        entry 0 1 0 0
        notice 0 0
        nondelivery 1
        call 0 1 1 0
        handback 0 1 0 256";
    assert_eq!(
        rows_by(Rules::RIGHT, trace),
        [(0, 0x41, [2, 1, 0, 3, 0, 0])]
    );
}

#[test]
fn case_14_94_of_14_44() {
    let trace = "start 2 1
        call 0 4 0x102 0
        notice 0 256 3=1 65=0x01
        notice 0 256 3=1 65=0x01
        call 0 3 0x830 0xc4400
        entry 1 1 0 0
        nondelivery 1
        entry 1 1 0 0
        call 1 3 0x830 0x84041
        call 0 1 1 0
        call 1 3 0x830 0x84041
        handback 0 1 0 256
        call 1 1 0 0
        handback 1 0 1 256";
    assert_eq!(
        rows_by(Rules::RIGHT, trace),
        [
            (0, 2, [2, 0, 1, 0, 1, 0]),
            (0, 0x41, [1, 0, 0, 0, 1, 0]),
            (1, 2, [1, 1, 0, 2, 0, 0]),
            (1, 0x41, [2, 0, 1, 0, 1, 0]),
        ]
    );
}

#[test]
fn case_14_94_of_14_70() {
    let trace = "start 1 1
        call 0 4 0x112 0
        notice 0 256 3=1 65=0x02
        notice 0 256 3=1 65=0x02
        entry 0 0 1 1
        nondelivery 0
        entry 0 0 1 1
        notice 0 256 3=1 65=0x02
        call 0 4 0x12 0
        notice 0 256 3=1 65=0x02
        call 0 3 0x83f 0x41
        call 0 1 1 0
        handback 0 0 1 256";
    assert_eq!(
        rows_by(Rules::RIGHT, trace),
        [(0, 18, [3, 1, 1, 2, 1, 0]), (0, 0x41, [1, 0, 0, 0, 1, 0])]
    );
}

#[test]
fn case_14_94_of_14_80() {
    let trace = "start 1 1
        allow 0 5 9 0x041 0x141 0x11e 0x102
        allow 0 256 0
        notice 0 256 3=1 64=0x41
        entry 0 1 0 0
        allow 0 1 9 0x11e
        nondelivery 0
        entry 0 1 0 0
        allow 0 2 9 0x11e 0x041
        nondelivery 0
        notice 0 256 3=1 64=0x41
        allow 0 1 9 0x141 0x152
        notice 0 256 3=1 64=0x41
        notice 0 256 3=1 65=0x01
        allow 1 0 0 0x141
        call 0 1 1 0
        allow 0 0 0 0x141
        handback 0 1 0 256";
    assert_eq!(
        rows_by(Rules::RIGHT, trace),
        [(0, 2, [1, 0, 0, 0, 1, 0]), (0, 0x41, [1, 1, 0, 2, 0, 0])]
    );
}

#[test]
fn case_14_95() {
    let trace = "start 2 1
        allow 0 3 9 0x102 0x141 0x152
        notice 0 256 3=1 65=0x41 72=0x02 74=0x04
        entry 0 0 0 1
        call 0 3 0x808 0x50
        entry 0 1 0 1
        call 0 3 0x808 0
        call 1 3 0x830 0x4400
        entry 0 1 0 0
        notice 0 256 3=1 65=0x01
        nondelivery 0
        call 1 3 0x830 0x100004841
        call 1 3 0x830 0xffffffff00004041
        call 1 3 0x830 0xc4041
        notice 0 256 3=1 64=0x41 65=0x04
        call 0 2 0x822 0
        call 0 3 0x80b 0";
    let expected = "start ok
        allow ok 0x0 codes 0x0 0x0 0x0
        notice ok 0x3 0x0 page
        entry window 0x52
        call ok 0x0
        entry nothing
        call ok 0x0
        call ok 0x0
        entry nmi
        notice ok 0x1 0x0 page
        nondelivery ok 0x0
        call ok 0x0
        call ok 0x2
        call ok 0x0
        notice ok 0x0 0x1 page
        call ok 0x40002
        call ok 0x0";
    let expected: Vec<&str> = expected.lines().map(str::trim).collect();
    let output = play_text(trace.as_bytes());
    assert_eq!(output.lines().collect::<Vec<_>>(), expected);
    assert_eq!(
        rows_by(Rules::RIGHT, trace),
        [
            (0, 2, [3, 1, 2, 1, 0, 1]),
            (0, 0x41, [5, 0, 4, 0, 0, 1]),
            (0, 0x52, [1, 0, 0, 0, 0, 1]),
            (1, 0x41, [1, 0, 0, 0, 0, 1]),
        ]
    );
}
