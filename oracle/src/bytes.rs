//! Reading and writing bytes: a reader that refuses cut fields, delivery into bounded output,
//! and the IP header checksum.

use crate::refusal::Refusal;

/// Reads a link packet from left to right; a field that does not fit is refused 4.
pub struct Reader<'a> {
    rest: &'a [u8],
}

impl<'a> Reader<'a> {
    pub fn new(bytes: &'a [u8]) -> Self {
        Reader { rest: bytes }
    }

    pub fn take(&mut self, count: usize) -> Result<&'a [u8], Refusal> {
        if self.rest.len() < count {
            return Err(Refusal::CutShort);
        }
        let (field, rest) = self.rest.split_at(count);
        self.rest = rest;
        Ok(field)
    }

    pub fn byte(&mut self) -> Result<u8, Refusal> {
        Ok(self.take(1)?[0])
    }

    pub fn word16(&mut self) -> Result<u16, Refusal> {
        Ok(get16(self.take(2)?, 0))
    }

    pub fn word32(&mut self) -> Result<u32, Refusal> {
        Ok(get32(self.take(4)?, 0))
    }

    /// The next byte without moving on.
    pub fn peek(&self) -> Result<u8, Refusal> {
        self.rest.first().copied().ok_or(Refusal::CutShort)
    }

    /// Everything not read yet.
    pub fn rest(&self) -> &'a [u8] {
        self.rest
    }
}

pub fn get16(bytes: &[u8], at: usize) -> u16 {
    u16::from_be_bytes([bytes[at], bytes[at + 1]])
}

pub fn get32(bytes: &[u8], at: usize) -> u32 {
    u32::from_be_bytes([bytes[at], bytes[at + 1], bytes[at + 2], bytes[at + 3]])
}

pub fn put16(bytes: &mut [u8], at: usize, value: u16) {
    bytes[at..at + 2].copy_from_slice(&value.to_be_bytes());
}

pub fn put32(bytes: &mut [u8], at: usize, value: u32) {
    bytes[at..at + 4].copy_from_slice(&value.to_be_bytes());
}

/// Writes the result from the first byte of the output on, or nothing at all if there is no room for it.
pub fn deliver(output: &mut [u8], front: &[u8], rest: &[u8]) -> Result<usize, Refusal> {
    let length = front.len() + rest.len();
    if output.len() < length {
        return Err(Refusal::Room);
    }
    output[..front.len()].copy_from_slice(front);
    output[front.len()..length].copy_from_slice(rest);
    Ok(length)
}

/// The checksum an IP header of 20 bytes must carry: its words but the checksum, nine of them, are
/// summed, the sum is folded to 16 bits, and those are inverted.
pub fn ip_checksum(header: &[u8]) -> u16 {
    let mut sum: u32 = 0;
    for word in (0..20).step_by(2).filter(|&at| at != 10) {
        sum += u32::from(get16(header, word));
    }
    while sum > 0xffff {
        sum = (sum & 0xffff) + (sum >> 16);
    }
    !(sum as u16)
}
