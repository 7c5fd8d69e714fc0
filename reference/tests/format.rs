//! The trace format (`docs/REPLAY.md`), both directions.

use reference::coverage::Coverage;
use reference::events::Event;
use reference::lines::LONGEST;
use reference::play::play_text;
use reference::trace::{number, read, Line};

fn readable(line: &str) -> bool {
    matches!(
        read(line.as_bytes()),
        Line::Event(_) | Line::State | Line::Ask(_)
    )
}

#[test]
fn the_example() {
    let trace =
        "start 2 1\ncall 0 4 0x141 0\nnotice 0 256 3=1 64=0x41\nentry 0 1 0 0\ncall 0 3 0x80b 0\n";
    let output = "start ok\ncall ok 0x0\nnotice ok 0x1 0x0 page\nentry vector 0x41\ncall ok 0x0\n";
    assert_eq!(play_text(trace.as_bytes()), output);
}

#[test]
fn numbers() {
    let good: [(&str, u64); 8] = [
        ("0", 0),
        ("007", 7),
        ("0x0", 0),
        ("0x00aF", 0xAF),
        ("18446744073709551615", u64::MAX),
        ("0xffffffffffffffff", u64::MAX),
        ("000000000000000000000000018446744073709551615", u64::MAX),
        ("0x000000000000000000001", 1),
    ];
    for (word, value) in good {
        assert_eq!(number(word.as_bytes()), Some(value), "{word}");
    }
    let bad = [
        "",
        "0x",
        "0X1",
        "x1",
        "1f",
        "-1",
        "+1",
        "1_0",
        "0x1g",
        "0x-1",
        "1.0",
        "١",
        "18446744073709551616",
        "0x10000000000000000",
        "00x1",
    ];
    for word in bad {
        assert_eq!(number(word.as_bytes()), None, "{word}");
    }
}

#[test]
fn words_and_spaces() {
    for line in [
        "state",
        "  state  ",
        "entry   0x0 01 0x0    0 ",
        "start 0xFFFFFFFF 4294967295",
    ] {
        assert!(readable(line), "{line}");
    }
    let bad = [
        "state 0",
        "State",
        "start 1",
        "start 1 1 1",
        "start 4294967296 1",
        "call 0 0 0",
        "call 0 0x100000000 0 0",
        "call 0 0 4294967296 0",
        "entry 0 2 0 0",
        "nondelivery",
        "nondelivery 0 0",
        "handback 0 1 0",
        "handback 0 1 2 256",
        "state\r",
        "\tstate",
        "entry\t0 1 0 0",
        " # comment",
    ];
    for line in bad {
        assert_eq!(read(line.as_bytes()), Line::Unreadable, "{line}");
    }
    for line in ["", "   ", "#", "# start 1 1", "#start 1 1"] {
        assert_eq!(read(line.as_bytes()), Line::PassedOver, "{line}");
    }
}

#[test]
fn pages() {
    let mut page = vec![0; 300];
    page[3] = 1;
    page[299] = 255;
    let event = Event::Notice { vcpu: 1, page };
    for line in [
        "notice 1 300 3=1 299=255",
        "notice 1 0x12c 0x12B=0xff 3=9 0003=1 4=7 4=0",
    ] {
        assert_eq!(read(line.as_bytes()), Line::Event(event.clone()), "{line}");
    }
    assert!(readable("notice 0 0"));
    assert!(readable("notice 0 4096 4095=1"));
    let bad = [
        "notice 0",
        "notice 0 4097",
        "notice 0 0 0=0",
        "notice 0 256 256=0",
        "notice 0 256 3=256",
        "notice 0 256 3",
        "notice 0 256 3=",
        "notice 0 256 =3",
        "notice 0 256 3==1",
        "notice 0 256 3=1=1",
        "notice 0 256 3 = 1",
    ];
    for line in bad {
        assert_eq!(read(line.as_bytes()), Line::Unreadable, "{line}");
    }
}

/// A list of values, its second list as long as LENGTH says and FILL throughout.
#[test]
fn lists_of_values() {
    let event = Event::Allow {
        vcpu: 1,
        values: vec![0x141, 0x11E, u32::MAX],
        codes: vec![7; 4],
    };
    for line in [
        "allow 1 4 7 0x141 0x11e 0xffffffff",
        " allow  01 0x4  0x07 321 0x0000000000000011E   4294967295 ",
    ] {
        assert_eq!(read(line.as_bytes()), Line::Event(event.clone()), "{line}");
    }
    assert_eq!(event.to_string(), "allow 1 4 0x7 0x141 0x11e 0xffffffff");
    let empty = |fill: u32, length: usize| {
        Line::Event(Event::Allow {
            vcpu: u32::MAX,
            values: vec![],
            codes: vec![fill; length],
        })
    };
    assert_eq!(read(b"allow 0xffffffff 0 9"), empty(9, 0));
    let longest = b"allow 4294967295 1024 0xffffffff";
    assert_eq!(read(longest), empty(u32::MAX, 1024));
    let values = |count: usize| format!("allow 0 0 0{}", " 321".repeat(count));
    assert!(readable(&values(1024)));
    let bad = [
        "allow",
        "allow 0",
        "allow 0 1",
        "allow 0 1025 0",
        "allow 0 1025 0 0x141",
        "allow 0 0x10000000000000001 0",
        "allow 4294967296 1 0 0x141",
        "allow 0 1 4294967296 0x141",
        "allow 0 1 0 4294967296",
        "allow 0 1 0 0x100000141",
        "allow 0 2 0 0x141 0x1g1",
        "allow 0 2 0 0x141 -1",
        "allow 0 4 0 3=1",
        "allow 0 1 0 0x141\r",
        "Allow 0 1 0 0x141",
        &values(1025),
    ];
    for line in bad {
        assert_eq!(read(line.as_bytes()), Line::Unreadable, "{line}");
    }
}

/// Every entry of the second list is printed, of a refused event too.
#[test]
fn list_lines() {
    let trace = "start 1 1\nallow 0 4 0xffffffff 0x141 0x11e 0x161\nallow 0 2 0x1A 0x151\n\
        allow 0 0 5\nallow 0 3 0\nallow 0 1 9 0x151 0x051\nallow 1 2 0xabc 0x151\n\
        allow 0 2 0 0x151 0x100000000\nallow 0 2\ncall 0 1 1 0\nallow 0 1 0x10 0x151\nstate\n";
    let output = "start ok\nallow ok 0x0 codes 0x0 0x80000005 0x0 0xffffffff\n\
        allow ok 0x0 codes 0x0 0x1a\nallow ok 0x0 codes\nallow ok 0x0 codes 0x0 0x0 0x0\n\
        allow refused 0x6 codes 0x9\nallow refused 0x1 codes 0xabc 0xabc\nerror line 8\n\
        error line 9\ncall ok 0x0\nallow refused 0x80000001 codes 0x10\n\
        module n=0x1 vmpl=0x1 count=0x0\n\
        vcpu 0x0 phase=leaving flight=nothing nmi=0x0 tpr=0x0 icr=0x0 \
        allowed={0x41,0x51,0x61} pending={} service={} pending_level={} serving_level={} mc=0x0 \
        summary=0x0\n";
    assert_eq!(play_text(trace.as_bytes()), output);
}

/// 256 values are played and 257 refused; 1,025 are no list, whatever else is wrong.
#[test]
fn long_lists() {
    let list = |count: usize| format!("allow 0 {count} 1{}\n", " 0x141".repeat(count));
    let long = format!("allow 0 1024 1{}\n", " 0x141".repeat(1025));
    let trace = ["start 1 1\n", &list(256), &list(257), &list(1024), &long].concat();
    let codes = |code: &str, count: usize| format!(" {code}").repeat(count);
    let output = format!(
        "start ok\nallow ok 0x0 codes{}\nallow refused 0x6 codes{}\nallow refused 0x6 codes{}\n\
         error line 5\n",
        codes("0x0", 256),
        codes("0x1", 257),
        codes("0x1", 1024)
    );
    assert_eq!(play_text(trace.as_bytes()), output);
}

#[test]
fn long_lines() {
    let padded = |text: &str, length: usize| format!("{text}{}", " ".repeat(length - text.len()));
    let trace = [
        padded("state", LONGEST),
        padded("state", LONGEST + 1),
        padded("", LONGEST),
        padded("", LONGEST + 1),
        padded("#", 3 * LONGEST),
        "oops".to_string(),
    ];
    let output = "module n=0x0 vmpl=0x1 count=0x0\nerror line 2\nerror line 4\nerror line 6\n";
    assert_eq!(play_text(trace.join("\n").as_bytes()), output);
}

/// An unreadable line changes nothing, every line is counted, and a last line without a newline
/// is read.
#[test]
fn line_numbers() {
    let trace = b"\n# comment\nstart 2 0x1\nstart 3\n\xff\n\nentry 0 1 0 0\r\nentry 1 1 0 0";
    let output = "start ok\nerror line 4\nerror line 5\nerror line 7\nentry nothing\n";
    assert_eq!(play_text(trace), output);
    assert_eq!(play_text(b""), "");
    assert_eq!(play_text(b"\n\n"), "");
}

#[test]
fn before_the_first_start() {
    let trace = "notice 0 4 3=1 2=0xFF\nstate\nstart 33 1\nstart 2 0\nstate\n";
    let output = "notice refused 0x1 page 0x2=0xff 0x3=0x1\nmodule n=0x0 vmpl=0x1 count=0x0\n\
        start refused 0x5\nstart refused 0x5\nmodule n=0x0 vmpl=0x1 count=0x0\n";
    assert_eq!(play_text(trace.as_bytes()), output);
}

#[test]
fn state_lines() {
    let trace =
        "start 1 3\ncall 0 4 0x161 0\ncall 0 4 0x102 0\nnotice 0 257 3=4 192=0x61 193=5 256=9\n\
        call 0 3 0x83f 255\ncall 0 3 0x808 0x10\nentry 0 1 0 1\nstate\n";
    let output =
        "start ok\ncall ok 0x0\ncall ok 0x0\nnotice ok 0x2 0x0 page 0x100=0x9\ncall ok 0x1\n\
        call ok 0x0\nentry vector 0xff\nmodule n=0x1 vmpl=0x3 count=0x1\n\
        vcpu 0x0 phase=active flight=0xff nmi=0x1 tpr=0x10 icr=0x0 allowed={0x2,0x61} \
        pending={0x61} service={0xff} pending_level={0x61} serving_level={} mc=0x0 summary=0x8\n";
    assert_eq!(play_text(trace.as_bytes()), output);
}

/// The mark of the machine check is near a `vcpu` line's end, and `mc` is what is in flight.
#[test]
fn machine_check_lines() {
    let trace = "start 1 1\ncall 0 4 0x112 0\nnotice 0 256 3=1 65=2\nstate\nentry 0 0 1 1\nstate\n";
    let output = "start ok\ncall ok 0x0\nnotice ok 0x1 0x0 page\nmodule n=0x1 vmpl=0x1 count=0x1\n\
        vcpu 0x0 phase=active flight=nothing nmi=0x0 tpr=0x0 icr=0x0 allowed={0x12} pending={} \
        service={} pending_level={} serving_level={} mc=0x1 summary=0x0\nentry mc\n\
        module n=0x1 vmpl=0x1 count=0x1\n\
        vcpu 0x0 phase=active flight=mc nmi=0x0 tpr=0x0 icr=0x0 allowed={0x12} pending={} \
        service={} pending_level={} serving_level={} mc=0x0 summary=0x0\n";
    assert_eq!(play_text(trace.as_bytes()), output);
}

/// A question: one number of 32 bits, and nothing behind it.
#[test]
fn questions() {
    for (line, vcpu) in [
        ("ask 0", 0),
        ("  ask   0x1F  ", 31),
        ("ask 000000000000000000000000000032", 32),
        ("ask 4294967295", u32::MAX),
        ("ask 0x00000000000000000ffffFFFF", u32::MAX),
    ] {
        assert_eq!(read(line.as_bytes()), Line::Ask(vcpu), "{line}");
    }
    for line in [
        "ask",
        "ask ",
        "ask 0 0",
        "ask 0 1 0 0",
        "ask 4294967296",
        "ask 0x100000000",
        "ask 18446744073709551616",
        "ask -1",
        "ask 0x",
        "ask 0X0",
        "ask x",
        "ask 0\r",
        "ask\t0",
        "ask0",
        "asks 0",
        "Ask 0",
        "ask #",
    ] {
        assert_eq!(read(line.as_bytes()), Line::Unreadable, "{line}");
    }
}

/// `ask yes` and `ask no`; in `state` the byte is a `vcpu` line's last part, one digit or two.
#[test]
fn question_lines() {
    let vcpu = |flight: &str, pending: &str, service: &str, summary: &str| {
        format!(
            "module n=0x1 vmpl=0x1 count=0x1\nvcpu 0x0 phase=active flight={flight} nmi=0x0 tpr=0x0 \
             icr=0x0 allowed={{}} pending={pending} service={service} pending_level={{}} \
             serving_level={{}} mc=0x0 summary={summary}\n"
        )
    };
    let trace = "ask 0\nstart 1 1\nask 0\nask 1\nask\ncall 0 3 0x83f 0xff\n\
        call 0 3 0x83f 0x5f\nstate\nask 0\nentry 0 1 0 0\nask 0\nstate\n";
    let output = [
        "ask no\nstart ok\nask no\nask no\nerror line 5\ncall ok 0x1\ncall ok 0x1\n",
        &vcpu("nothing", "{0x5f,0xff}", "{}", "0x84"),
        "ask yes\nentry vector 0xff\nask no\n",
        &vcpu("0xff", "{0x5f}", "{0xff}", "0x4"),
    ];
    assert_eq!(play_text(trace.as_bytes()), output.concat());
}

/// The example with requests A1 to A8 of the format, as far as it goes today.
#[test]
fn the_longer_example() {
    let trace = "start 1 1\nallow 0 4 0xffffffff 0x141 0x11e 0x161\nnotice 0 256 3=1 64=0x41\n\
        notice 0 256 3=1 65=0x40 72=2 76=2\nstate\nask 0\nentry 0 1 0 0\ncall 0 1 1 0\n\
        handback 0 1 0 256\n";
    let output = "start ok\nallow ok 0x0 codes 0x0 0x80000005 0x0 0xffffffff\n\
        notice ok 0x1 0x0 page\nnotice ok 0x1 0x1 page\nmodule n=0x1 vmpl=0x1 count=0x1\n\
        vcpu 0x0 phase=active flight=nothing nmi=0x0 tpr=0x0 icr=0x0 allowed={0x41,0x61} \
        pending={0x41,0x61} service={} pending_level={} serving_level={} mc=0x0 summary=0xc\n\
        ask yes\nentry vector 0x61\ncall ok 0x0\n\
        handback ok 0x10001 page 0x41=0x40 0x48=0x2 0x6c=0x2\n";
    assert_eq!(play_text(trace.as_bytes()), output);
}

/// A notice has two numbers, apart (4.29, 4.37); a refused one has its code alone.
#[test]
fn notice_lines() {
    let trace = "start 1 1\ncall 0 4 0x141 0\ncall 0 4 0x142 0\nnotice 0 256 3=1\n\
        notice 0 256 3=1 64=0x41\nnotice 0 256 3=1 64=0x41\nnotice 0 256 3=1 65=0x40 72=6 255=9\n\
        notice 0 255 3=1\n";
    let output = "start ok\ncall ok 0x0\ncall ok 0x0\nnotice ok 0x0 0x0 page\n\
        notice ok 0x1 0x0 page\nnotice ok 0x0 0x1 page\nnotice ok 0x1 0x1 page 0xff=0x9\n\
        notice refused 0x2 page 0x3=0x1\n";
    assert_eq!(play_text(trace.as_bytes()), output);
}

#[test]
fn coverage_tells_notices_apart() {
    for (line, kind) in [
        (&b"notice ok 0x0 0x0 page"[..], "notice ok, no item"),
        (b"notice ok 0x10 0x0 page", "notice ok, new"),
        (b"notice ok 0x0 0x2 page 0x3=0x2", "notice ok, merged"),
        (b"notice ok 0x1 0x2 page", "notice ok, new and merged"),
    ] {
        let coverage = Coverage::of(line).unwrap();
        assert_eq!(coverage.count(kind), 1, "{kind}");
        assert!(coverage.unexpected().is_empty());
    }
    let one_number = Coverage::of(&b"notice ok 0x1 page\n"[..]).unwrap();
    assert_eq!(one_number.unexpected(), ["notice ok"]);
}

#[test]
fn coverage_names_what_is_missing() {
    let some = Coverage::of(&b"start ok\nnotice ok 0x1 0x0 page\nentry vector 0x41\n"[..]).unwrap();
    assert!(!some.missing().contains(&"entry vector"));
    assert!(some.missing().contains(&"entry window"));
    assert!(some.missing().contains(&"entry mc"));
    assert!(some.missing().contains(&"notice ok, merged"));
    assert!(some.unexpected().is_empty());
    let odd = Coverage::of(&b"call refused 0x2\n"[..]).unwrap();
    assert_eq!(odd.unexpected(), ["call refused 0x2"]);
}
