//! Lines that are unreadable or passed over, and events and questions spelt in unusual ways.

use std::io::{Result, Write};

use crate::events::Event;
use crate::lines::LONGEST;
use crate::random::Random;

/// None of these is an event, `state` or a question.
const NO_EVENT: [&[u8]; 87] = [
    b"",
    b"    ",
    b"# a comment",
    b"#start 2 1",
    b" # a comment begins the line or it is none",
    b"start",
    b"start 2",
    b"start 2 1 0",
    b"start 4294967296 1",
    b"start 2 0x100000001",
    b"Start 2 1",
    b"START 2 1",
    b"notice",
    b"notice 0",
    b"notice 0 4097",
    b"notice 0 0x10000000000000100",
    b"notice 0 256 256=1",
    b"notice 0 256 3=256",
    b"notice 0 256 3",
    b"notice 0 256 3=",
    b"notice 0 256 =1",
    b"notice 0 256 3==1",
    b"notice 0 256 3=1=1",
    b"notice 0 256 3 = 1",
    b"notice 0 256 3=1 64",
    b"notice 0 0 0=0",
    b"notice 4294967296 256 3=1",
    b"call 0 0 0",
    b"call 0 0 0 0 0",
    b"call 4294967296 0 0 0",
    b"call 0 4294967296 0 0",
    b"call 0 0 0x100000000 0",
    b"call 0 0 0 18446744073709551616",
    b"call 0 0 0 0x10000000000000000",
    b"call 0 0 -1 0",
    b"call 0 0 +1 0",
    b"call 0 0 0X1 0",
    b"call 0 0 0x 0",
    b"call 0 0 1_000 0",
    b"call 0 0 0x1g 0",
    b"call 0 0 1f 0",
    b"call 0 0 x1 0",
    b"call 0,0,0,0",
    b"entry 0 2 0 0",
    b"entry 0 1 0",
    b"entry 0 1 0 0 0",
    b"entry 0 1 0 true",
    b"entry 0 1 0 0\r",
    b"entry\t0 1 0 0",
    b"\tstate",
    b"state\r",
    b"state 0",
    b"State",
    b"states",
    b"nondelivery",
    b"nondelivery 0 0",
    b"nondelivery\x00 0",
    b"handback 0 1 0",
    b"handback 0 1 3 256",
    b"allow",
    b"allow 0",
    b"allow 0 1",
    b"allow 4294967296 1 0 0x141",
    b"allow 0 1025 0 0x141",
    b"allow 0 0x10000000000000001 0 0x141",
    b"allow 0 1 4294967296 0x141",
    b"allow 0 1 0 0x100000141",
    b"allow 0 2 0 0x141 0x1g1",
    b"allow 0 2 0 0x141,0x142",
    b"allow 0 4 0 3=1",
    b"allow 0 -1 0 0x141",
    b"Allow 0 1 0 0x141",
    b"ask",
    b"ask ",
    b"ask 0 0",
    b"ask 0 1 0 0",
    b"ask 4294967296",
    b"ask 0x100000000",
    b"ask 18446744073709551616",
    b"ask -0",
    b"ask 0x",
    b"ask 0 #",
    b"ask\t0",
    b"ask 0\r",
    b"asks 0",
    b"Ask 0",
    b"\xff\xfe\xb5",
];

/// Now and then a line that changes nothing.
pub fn before(r: &mut Random, event: &Event, out: &mut impl Write) -> Result<()> {
    if r.below(120) == 0 {
        out.write_all(r.pick(&NO_EVENT))?;
        out.write_all(b"\n")?;
    }
    if r.below(12_000) == 0 {
        out.write_all(&padded(event.to_string(), LONGEST + r.between(1, 2)))?;
        out.write_all(b"\n")?;
    }
    if r.below(20_000) == 0 {
        out.write_all(&padded("# long".to_string(), LONGEST + r.between(0, 2)))?;
        out.write_all(b"\n")?;
    }
    if r.below(4_000) == 0 {
        let many = " 321".repeat(1025 + r.below(2));
        writeln!(out, "allow 0 {} 0{many}", r.pick(&[0, 256, 1024]))?;
    }
    if r.below(50_000) == 0 {
        out.write_all(&padded("ask 0".to_string(), LONGEST + r.between(1, 2)))?;
        out.write_all(b"\n")?;
    }
    Ok(())
}

fn padded(text: String, length: usize) -> Vec<u8> {
    let mut line = text.into_bytes();
    line.resize(length, b' ');
    line
}

/// The line of an event, now and then spelt with other bases, zeros, spaces, order of bytes, or
/// as long as a line may be.
pub fn spelling(r: &mut Random, event: &Event) -> Vec<u8> {
    let plain = event.to_string();
    if r.below(12_000) == 0 {
        return padded(plain, LONGEST);
    }
    if r.below(100) != 0 {
        return plain.into_bytes();
    }
    let (head, page) = match event {
        Event::Notice { page, .. } | Event::HandBack { page, .. } => {
            let at = plain
                .find('=')
                .map_or(plain.len(), |at| plain[..at].rfind(' ').unwrap());
            (&plain[..at], page.as_slice())
        }
        _ => (plain.as_str(), &[][..]),
    };
    let mut line = respelt_words(r, head);
    line += &page_words(r, page);
    line.into_bytes()
}

/// The line of a question, now and then spelt in another way or as long as a line may be.
pub fn question(r: &mut Random, vcpu: u32) -> Vec<u8> {
    let plain = format!("ask {vcpu}");
    match r.below(20_000) {
        0 => padded(plain, LONGEST),
        1..=1_000 => respelt_words(r, &plain).into_bytes(),
        _ => plain.into_bytes(),
    }
}

/// The name of a line and its numbers, with other spaces, bases and zeros.
fn respelt_words(r: &mut Random, head: &str) -> String {
    let mut line = spaces(r, 0);
    for (index, word) in head.split(' ').enumerate() {
        let word = if index == 0 {
            word.to_string()
        } else {
            respelt(r, value(word))
        };
        line += &word;
        line += &spaces(r, 1);
    }
    line
}

fn spaces(r: &mut Random, least: usize) -> String {
    " ".repeat(least + r.below(3))
}

fn value(word: &str) -> u64 {
    match word.strip_prefix("0x") {
        Some(digits) => u64::from_str_radix(digits, 16).expect("printed as hexadecimal"),
        None => word.parse().expect("printed as decimal"),
    }
}

fn respelt(r: &mut Random, value: u64) -> String {
    let zeros = "0".repeat(r.pick(&[0, 0, 1, 3, 25]));
    match r.below(3) {
        0 => format!("{zeros}{value}"),
        1 => format!("0x{zeros}{value:x}"),
        _ => format!("0x{zeros}{value:X}"),
    }
}

/// The bytes backwards, some of them told twice, with the right one later.
fn page_words(r: &mut Random, page: &[u8]) -> String {
    let mut words = String::new();
    for (offset, &byte) in page.iter().enumerate().rev() {
        if byte == 0 {
            continue;
        }
        if r.chance(20) {
            let (at, other) = (respelt(r, offset as u64), r.below(256) as u64);
            words += &format!("{at}={} ", respelt(r, other));
        }
        let at = respelt(r, offset as u64);
        words += &format!("{at}={} ", respelt(r, u64::from(byte)));
        words += &spaces(r, 0);
    }
    words
}
