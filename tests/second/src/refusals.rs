//! The refusal numbers of documents 01 and 02.

pub const ACCEPTED: u8 = 0;
pub const NOT_WHOLE_OBJECTS: u8 = 1;
pub const NOT_STRUCTURED: u8 = 2;
pub const UNREAD_MAJOR: u8 = 3;
/// 01's number for bit 5 of the header, which 02 withdraws: it is never given.
pub const WITHDRAWN: u8 = 4;
pub const WRONG_SHAPE: u8 = 5;
pub const NOT_AWAITED: u8 = 6;
pub const AWAITING: u8 = 7;
pub const VOIDED: u8 = 8;
pub const NOT_TAKEN_NOW: u8 = 9;
pub const BROKEN_LIMITS: u8 = 10;
pub const SHORT_BUFFER: u8 = 11;
/// The same number as for a buffer.
pub const SHORT_RUN: u8 = SHORT_BUFFER;
pub const NOT_HELD: u8 = 12;
pub const BLOCKED: u8 = 13;
pub const NO_END: u8 = 14;
pub const UNKNOWN_KIND: u8 = 15;
pub const CUT_RECORD: u8 = 16;
pub const OUT_OF_ORDER: u8 = 17;
pub const BYTES_AFTER_END: u8 = 18;
pub const NO_IDENTITY: u8 = 19;
