//! Reading one line of a trace (`docs/REPLAY.md`).

use crate::events::Event;
use crate::lines::LONGEST;

#[derive(Clone, PartialEq, Eq, Debug)]
pub enum Line {
    PassedOver,
    Unreadable,
    State,
    /// The question of request A6, of this vCPU.
    Ask(u32),
    Event(Event),
}

const LONGEST_PAGE: u64 = 4096;

/// Of each list of an `allow` line.
const LONGEST_LIST: usize = 1024;

pub fn read(line: &[u8]) -> Line {
    if line.first() == Some(&b'#') {
        return Line::PassedOver;
    }
    if line.len() > LONGEST {
        return Line::Unreadable;
    }
    let words: Vec<&[u8]> = line
        .split(|&b| b == b' ')
        .filter(|w| !w.is_empty())
        .collect();
    match words.as_slice() {
        [] => Line::PassedOver,
        [b"state"] => Line::State,
        [b"ask", vcpu] => number32(vcpu).map_or(Line::Unreadable, Line::Ask),
        [name, arguments @ ..] => event(name, arguments).map_or(Line::Unreadable, Line::Event),
    }
}

fn event(name: &[u8], arguments: &[&[u8]]) -> Option<Event> {
    match (name, arguments) {
        (b"start", [n, l]) => Some(Event::Start {
            n: number32(n)?,
            vmpl: number32(l)?,
        }),
        (b"notice", [v, length, bytes @ ..]) => Some(Event::Notice {
            vcpu: number32(v)?,
            page: page(length, bytes)?,
        }),
        (b"call", [v, call, ecx, rdx]) => Some(Event::Call {
            vcpu: number32(v)?,
            call: number32(call)?,
            ecx: number32(ecx)?,
            rdx: number(rdx)?,
        }),
        (b"entry", [v, i, s, b]) => Some(Event::Entry {
            vcpu: number32(v)?,
            if_set: flag(i)?,
            shadow: flag(s)?,
            blocked: flag(b)?,
        }),
        (b"nondelivery", [v]) => Some(Event::NonDelivery { vcpu: number32(v)? }),
        (b"handback", [v, i, s, length, bytes @ ..]) => Some(Event::HandBack {
            vcpu: number32(v)?,
            if_set: flag(i)?,
            shadow: flag(s)?,
            page: page(length, bytes)?,
        }),
        (b"allow", [v, length, fill, values @ ..]) => Some(Event::Allow {
            vcpu: number32(v)?,
            values: values32(values)?,
            codes: filled(length, fill)?,
        }),
        _ => None,
    }
}

/// In base 10, or in base 16 behind `0x`; no more than 64 bits.
pub fn number(word: &[u8]) -> Option<u64> {
    let (digits, base) = match word {
        [b'0', b'x', digits @ ..] => (digits, 16),
        digits => (digits, 10),
    };
    if digits.is_empty() {
        return None;
    }
    let mut value: u64 = 0;
    for &digit in digits {
        let digit = char::from(digit).to_digit(base)?;
        value = value
            .checked_mul(u64::from(base))?
            .checked_add(u64::from(digit))?;
    }
    Some(value)
}

fn number32(word: &[u8]) -> Option<u32> {
    u32::try_from(number(word)?).ok()
}

fn flag(word: &[u8]) -> Option<bool> {
    match number(word)? {
        0 => Some(false),
        1 => Some(true),
        _ => None,
    }
}

/// A length and words `OFFSET=BYTE`; a later word for an offset wins.
fn page(length: &[u8], bytes: &[&[u8]]) -> Option<Vec<u8>> {
    let length = number(length)?;
    if length > LONGEST_PAGE {
        return None;
    }
    let mut page = vec![0; length as usize];
    for word in bytes {
        let equals = word.iter().position(|&b| b == b'=')?;
        let offset = number(&word[..equals])?;
        let byte = u8::try_from(number(&word[equals + 1..])?).ok()?;
        if offset >= length {
            return None;
        }
        page[offset as usize] = byte;
    }
    Some(page)
}

fn values32(words: &[&[u8]]) -> Option<Vec<u32>> {
    if words.len() > LONGEST_LIST {
        return None;
    }
    words.iter().map(|word| number32(word)).collect()
}

/// A list of that length, the same number throughout.
fn filled(length: &[u8], fill: &[u8]) -> Option<Vec<u32>> {
    let (length, fill) = (number(length)?, number32(fill)?);
    if length > LONGEST_LIST as u64 {
        return None;
    }
    Some(vec![fill; length as usize])
}
