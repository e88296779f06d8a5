//! Refusal numbers and the answers of calls (scope, Refusal numbers).

#[derive(Clone, Copy, Debug, PartialEq, Eq)]
pub enum Refusal {
    Unsound = 1,
    PacketLength = 2,
    LinkType = 3,
    CutShort = 4,
    Form = 5,
    ContextNumber = 6,
    UnusedCode = 7,
    NotLive = 8,
    Gap = 9,
    RebuiltLength = 10,
    Room = 11,
    UdpChecksum = 12,
}

impl Refusal {
    pub fn number(self) -> u8 {
        self as u8
    }
}

/// Answer of a send. Number 0 means accepted.
#[derive(Clone, Copy, Debug, PartialEq, Eq)]
pub struct SendAnswer {
    pub number: u8,
    pub link_type: u32,
    pub length: usize,
}

/// Answer of every other call.
#[derive(Clone, Copy, Debug, PartialEq, Eq)]
pub struct Answer {
    pub number: u8,
    pub length: usize,
}

impl From<Result<(u32, usize), Refusal>> for SendAnswer {
    fn from(result: Result<(u32, usize), Refusal>) -> Self {
        match result {
            Ok((link_type, length)) => SendAnswer {
                number: 0,
                link_type,
                length,
            },
            Err(refusal) => SendAnswer {
                number: refusal.number(),
                link_type: 0,
                length: 0,
            },
        }
    }
}

impl From<Result<usize, Refusal>> for Answer {
    fn from(result: Result<usize, Refusal>) -> Self {
        match result {
            Ok(length) => Answer { number: 0, length },
            Err(refusal) => Answer {
                number: refusal.number(),
                length: 0,
            },
        }
    }
}
