//! Sums of words, and copies into bounded output.

use crate::refusal;

/// The result in two parts at the output's front, or nothing where there is no room for it (rule 3.5).
pub fn deliver(output: &mut [u8], front: &[u8], rest: &[u8]) -> Result<usize, u8> {
    let length = front.len() + rest.len();
    let Some(room) = output.get_mut(..length) else {
        return Err(refusal::ROOM);
    };
    let (head, tail) = room.split_at_mut(front.len());
    head.copy_from_slice(front);
    tail.copy_from_slice(rest);
    Ok(length)
}

/// The ones' complement sum of 16-bit words that were added up in a wider number.
#[inline(always)]
pub fn fold(sum: u64) -> u16 {
    let sum = (sum & 0xffff_ffff) + (sum >> 32);
    let sum = (sum & 0xffff) + (sum >> 16 & 0xffff) + (sum >> 32);
    let sum = (sum & 0xffff) + (sum >> 16);
    ((sum & 0xffff) + (sum >> 16)) as u16
}

/// The words of at most a packet, added up with their bytes turned round, which is the sum turned round. An odd last byte is the
/// high half of a word, so turned round it is a low half.
pub fn add_words(bytes: &[u8]) -> u64 {
    let (words, odd) = bytes.as_chunks();
    let sum = words.iter().fold(0_u32, |sum, word| {
        sum.wrapping_add(u16::from_le_bytes(*word).into())
    });
    u64::from(sum) + odd.first().map_or(0, |&byte| byte.into())
}
