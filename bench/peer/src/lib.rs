//! Opening, sending, receiving, requests and reports in plain Rust, written for speed: what the proved calls can be
//! measured by. "Rule" is a rule of `docs/RULES.md`.
//!
//! Every call judges the whole table first, as the rules ask; nothing is remembered of an earlier judgement. The caller
//! owns the table and lends it, and the calls change it in place.

mod bytes;
mod codes;
pub mod compressor;
pub mod decompressor;
mod front;
pub mod kept;
mod walk;

/// Places of a table.
pub const PLACES: usize = 64;

/// Link types (rule 1.1).
const PLAIN: u32 = 0;
const FULL_HEADER: u32 = 1;
const COMPRESSED_UDP: u32 = 2;
const COMPRESSED_RTP: u32 = 3;

/// Most bytes of a packet (rule 1.4).
const MOST: usize = 1500;

/// Refusal numbers (rule 3.1).
mod refusal {
    pub const UNSOUND: u8 = 1;
    pub const LENGTH: u8 = 2;
    pub const TYPE: u8 = 3;
    pub const CUT: u8 = 4;
    pub const FORM: u8 = 5;
    pub const NO_CONTEXT: u8 = 6;
    pub const UNUSED_CODE: u8 = 7;
    pub const NOT_LIVE: u8 = 8;
    pub const GAP: u8 = 9;
    pub const REBUILT_LENGTH: u8 = 10;
    pub const ROOM: u8 = 11;
    pub const CHECKSUM: u8 = 12;
}

/// Answer of a send; number 0 is accepted.
#[derive(Clone, Copy, Debug, PartialEq, Eq)]
pub struct SendAnswer {
    pub number: u8,
    pub link_type: u32,
    pub length: usize,
}

/// Answer of every other call.
#[derive(Clone, Copy, Debug, PartialEq, Eq)]
pub struct Answer {
    pub number: u8,
    pub length: usize,
}

impl From<Result<(u32, usize), u8>> for SendAnswer {
    #[inline(always)]
    fn from(result: Result<(u32, usize), u8>) -> Self {
        let (number, (link_type, length)) = match result {
            Ok(given) => (0, given),
            Err(number) => (number, (PLAIN, 0)),
        };
        SendAnswer {
            number,
            link_type,
            length,
        }
    }
}

impl From<Result<usize, u8>> for Answer {
    #[inline(always)]
    fn from(result: Result<usize, u8>) -> Self {
        match result {
            Ok(length) => Answer { number: 0, length },
            Err(number) => Answer { number, length: 0 },
        }
    }
}

/// N and K as rule 1.3 has them.
#[inline(always)]
fn settings_allowed(repeats: u32, contexts: u32) -> bool {
    repeats <= 14 && contexts.wrapping_sub(1) < PLACES as u32
}

/// Rule 1.4, at either end.
#[inline(always)]
fn length_allowed(length: usize) -> bool {
    length.wrapping_sub(1) < MOST
}
