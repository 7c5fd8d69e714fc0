//! The codes of refusals (section 11).

pub type Code = u32;

/// 11.1
pub const UNKNOWN_VCPU: Code = 1;
/// 11.2
pub const SHORT_PAGE: Code = 2;
/// Of a hand-back: the vCPU is active (11.3)
pub const STILL_ACTIVE: Code = 3;
/// 11.4
pub const NOTHING_IN_FLIGHT: Code = 4;
/// 11.5
pub const BAD_START: Code = 5;
/// Of a list of values (11.21)
pub const BAD_LIST: Code = 6;
/// Of a hand-back: the vCPU has left (11.23)
pub const HAS_LEFT: Code = 7;
/// 11.6
pub const NOT_ACTIVE: Code = 0x8000_0001;
/// 11.7
pub const UNKNOWN_CALL: Code = 0x8000_0002;
/// 11.8
pub const BAD_REGISTER: Code = 0x8000_0003;
/// 11.9
pub const BAD_VALUE: Code = 0x8000_0005;
/// 11.10
pub const COUNT_FULL: Code = 0x8000_0007;
/// 11.11
pub const COUNT_ZERO: Code = 0x8000_1000;
