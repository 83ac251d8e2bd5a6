//! The information elements of a MAP: 14 bits of SID, 4 of IUC, 14 of offset.

pub const NOBODY: u32 = 0;
pub const BROADCAST: u32 = 0x3fff;

pub const REQUEST: u32 = 1;
pub const INITIAL_MAINTENANCE: u32 = 3;
pub const STATION_MAINTENANCE: u32 = 4;
pub const NULL: u32 = 7;
pub const SHORT_DATA_GRANT: u32 = 9;
/// Behind the Null this is a data grant pending.
pub const LONG_DATA_GRANT: u32 = 10;
pub const UNSOLICITED_GRANT: u32 = 11;

/// The element of a SID and an IUC at offset 0.
pub fn element(sid: u32, iuc: u32) -> u32 {
    sid << 18 | iuc << 14
}

pub fn iuc(element: u32) -> u32 {
    element >> 14 & 0xf
}

pub fn offset(element: u32) -> u32 {
    element & 0x3fff
}
