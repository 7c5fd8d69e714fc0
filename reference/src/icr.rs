//! The ICR: legal values, what they send, and to which vCPUs (7.2 to 7.15).

use crate::state::Item;

/// Bits `high`:`low` of a value.
fn field(value: u64, high: u32, low: u32) -> u64 {
    value / 2u64.pow(low) % 2u64.pow(high - low + 1)
}

fn bit(value: u64, number: u32) -> bool {
    field(value, number, number) == 1
}

const FIXED: u64 = 0;
const NMI: u64 = 4;
const EVERYONE: u64 = 0xFFFF_FFFF;

/// 7.11. Bits 14 and 15 are not looked at (7.5).
pub fn legal(value: u64) -> bool {
    let kind = field(value, 10, 8);
    let shorthand = field(value, 19, 18);
    let vector = field(value, 7, 0);
    let mut reserved = vec![12, 13, 16, 17];
    reserved.extend(20..=31);

    reserved.iter().all(|&number| !bit(value, number))
        && (kind == FIXED || kind == NMI)
        && (kind != FIXED || vector >= 31)
        && (kind != NMI || (shorthand != 1 && shorthand != 2))
}

/// 7.3, 7.17
pub fn item(value: u64) -> Item {
    if field(value, 10, 8) == NMI {
        Item::Nmi
    } else {
        Item::Vector(field(value, 7, 0) as usize)
    }
}

/// 7.6, 7.12: whether the vCPU `id` is a target of what `caller` writes.
pub fn names(value: u64, caller: u32, id: u32) -> bool {
    match field(value, 19, 18) {
        1 => id == caller,
        2 => true,
        3 => id != caller,
        _ => destination_names(value, id),
    }
}

/// 7.13 to 7.15
fn destination_names(value: u64, id: u32) -> bool {
    let destination = field(value, 63, 32);
    let logical = bit(value, 11);
    if destination == EVERYONE {
        true
    } else if logical {
        field(value, 63, 48) == u64::from(id / 16) && bit(value, 32 + id % 16)
    } else {
        destination == u64::from(id)
    }
}
