//! The numbers of the refusals, as document 01's table lists them and 02 adds to it, by the names of
//! the header for C.

pub const SHORT: u8 = 1;
pub const EDITION: u8 = 2;
pub const BLOCKS: u8 = 3;
pub const COUNTS: u8 = 4;
pub const STATE: u8 = 5;
pub const LINK: u8 = 6;
pub const FILL: u8 = 7;
pub const NO_BLOCK: u8 = 8;
pub const BUFFER: u8 = 9;
pub const PROTECTED: u8 = 10;
pub const NO_CHANGE: u8 = 11;
pub const NEAR: u8 = 12;
pub const FORM: u8 = 13;
pub const FOREST: u8 = 14;
pub const WEIGHT: u8 = 15;
pub const VERDICT: u8 = 16;
pub const SERVICE_LOCATION: u8 = 17;
pub const SERVICE_ENDPOINT: u8 = 18;
pub const LINK_START: u8 = 19;
pub const RECORDS: u8 = 20;
pub const RECORD_ENDPOINT: u8 = 21;

/// The number of what a call answers, 0 where it is done.
pub fn number_of<T>(answer: Result<T, u8>) -> u8 {
    answer.err().unwrap_or(0)
}
