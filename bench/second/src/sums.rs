//! Ones' complement sums: the plain and fast way, as a peer for the sum of the main program.
//!
//! Two sizes are summed, that of an IP header and that of the longest packet. Each sum starts with
//! the result of the one before it and begins at another place, so that none can be left out; the
//! last result of a round shows that two programs did the same work.

use std::hint::black_box;
use std::time::{Duration, Instant};

const TIMED_ROUNDS: usize = 9;
/// Places of the buffer at which sums begin, in turn.
const PLACES: usize = 64;
const LONGEST: usize = 1500;
type Buffer = [u8; LONGEST + PLACES];

pub struct Size {
    pub bytes: usize,
    /// Sums in a round.
    pub sums: u32,
}

pub const SIZES: [Size; 2] = [
    Size {
        bytes: 20,
        sums: 1_000_000,
    },
    Size {
        bytes: LONGEST,
        sums: 64_000,
    },
];

pub fn line(size: &Size, timed: bool) -> String {
    let buffer = make_buffer();
    let (last, mut time) = run(size, &buffer);
    let Size { bytes, sums } = size;
    let told = format!("bytes={bytes} sums={sums} last={last}");
    if !timed {
        return told;
    }
    for _ in 1..TIMED_ROUNDS {
        let (again, more) = run(size, &buffer);
        assert_eq!(again, last, "two rounds differ");
        time = time.min(more);
    }
    let plain = time.as_nanos() * 1000 / u128::from(*sums);
    format!("{told} plain={plain}")
}

fn make_buffer() -> Buffer {
    std::array::from_fn(|i| (167 * i + 13) as u8)
}

/// One round: the result of its last sum, and the time of all of them.
///
/// The black box is outside the timed loop, where it costs nothing: the compiler is to know neither
/// the bytes nor how many of them are summed, as it would not in a program that reads packets.
fn run(size: &Size, buffer: &Buffer) -> (u16, Duration) {
    let (buffer, bytes) = black_box((buffer, size.bytes));
    let before = Instant::now();
    let last = round(buffer, bytes, size.sums);
    (black_box(last), before.elapsed())
}

fn round(buffer: &Buffer, bytes: usize, sums: u32) -> u16 {
    (0..sums as usize).fold(0, |last, i| sum(last, &buffer[i % PLACES..][..bytes]))
}

/// Bytes added before carries are folded. Even, so that a word never lies in two blocks, and so few
/// that a total of 32 bits holds their words and a start value: 32,769 times FFFF is below 2^32.
const BLOCK: usize = 1 << 16;

/// The ones' complement sum of a start value and bytes, read as big-endian words; an odd last byte
/// is the high half of a word. The result is not complemented. Inlined come what may, since it has
/// callers elsewhere: left to the compiler, sums of 20 bytes took nearly half as long again.
#[inline(always)]
pub fn sum(start: u16, bytes: &[u8]) -> u16 {
    if bytes.len() <= BLOCK {
        sum_block(start, bytes)
    } else {
        bytes.chunks(BLOCK).fold(start, sum_block)
    }
}

/// Adds little-endian words and swaps the bytes of the result: the carry goes round from the top
/// bit to the lowest, so that the sum is the same but for the swap, and no word has to be swapped.
/// The start value comes last, so that a sum waits as little as can be for the one before it.
#[inline(always)]
fn sum_block(start: u16, block: &[u8]) -> u16 {
    fold(add_words(block) + u32::from(start.swap_bytes())).swap_bytes()
}

/// Eight totals side by side, which the compiler keeps in vector registers, and then the rest.
/// Additions wrap because the check for overflow, which BLOCK rules out, would keep it from that.
#[inline(always)]
fn add_words(block: &[u8]) -> u32 {
    let (rows, rest) = block.as_chunks::<16>();
    let mut totals = [0_u32; 8];
    for row in rows {
        for (total, word) in totals.iter_mut().zip(row.as_chunks().0) {
            *total = total.wrapping_add(u16::from_le_bytes(*word).into());
        }
    }
    totals.into_iter().fold(add_rest(rest), u32::wrapping_add)
}

/// Two words at a time: the compiler makes no vectors of them, which do not pay for so few.
#[inline(always)]
fn add_rest(rest: &[u8]) -> u32 {
    let (pairs, rest) = rest.as_chunks();
    let mut total = 0_u32;
    for &[a, b, c, d] in pairs {
        total = total
            .wrapping_add(u16::from_le_bytes([a, b]).into())
            .wrapping_add(u16::from_le_bytes([c, d]).into());
    }
    total.wrapping_add(match *rest {
        [a, b, c] => u32::from(u16::from_le_bytes([a, b])) + u32::from(c),
        [a, b] => u16::from_le_bytes([a, b]).into(),
        [a] => a.into(),
        _ => 0,
    })
}

/// Two folds are enough: after the first a total is at most 1FFFE, whose carry is 1.
#[inline(always)]
fn fold(total: u32) -> u16 {
    let once = (total & 0xFFFF) + (total >> 16);
    ((once & 0xFFFF) + (once >> 16)) as u16
}

#[cfg(test)]
mod tests {
    use super::*;

    /// As slow as can be: a word at a time, the carry folded after every addition.
    fn slow(start: u16, bytes: &[u8]) -> u16 {
        let mut sum = u32::from(start);
        for word in bytes.chunks(2) {
            let low = if word.len() == 2 { word[1] } else { 0 };
            sum += 256 * u32::from(word[0]) + u32::from(low);
            if sum > 0xFFFF {
                sum -= 0xFFFF;
            }
        }
        sum as u16
    }

    #[test]
    fn nothing() {
        assert_eq!(sum(0, &[]), 0);
        assert_eq!(sum(0x1234, &[]), 0x1234);
        assert_eq!(sum(0xFFFF, &[]), 0xFFFF);
    }

    #[test]
    fn zero_comes_of_zeros_alone() {
        assert_eq!(sum(0, &[0; 20]), 0);
        assert_eq!(sum(0xFFFF, &[0; 20]), 0xFFFF);
        assert_eq!(sum(0, &[0xFF; 20]), 0xFFFF);
        // 8000 + 7FFF = FFFF, without a carry.
        assert_eq!(sum(0x8000, &[0x7F, 0xFF]), 0xFFFF);
    }

    #[test]
    fn the_carry_goes_round() {
        // FFFF + 0001 = 10000; 0000 + 1 = 0001.
        assert_eq!(sum(0xFFFF, &[0x00, 0x01]), 0x0001);
        // 1234 + F00F + 0101 = 10344; 0344 + 1 = 0345.
        assert_eq!(sum(0x1234, &[0xF0, 0x0F, 0x01, 0x01]), 0x0345);
    }

    #[test]
    fn two_folds() {
        // FFFF + FFFF + 0001 = 1FFFF; FFFF + 1 = 10000; 0000 + 1 = 0001.
        assert_eq!(sum(0, &[0xFF, 0xFF, 0xFF, 0xFF, 0x00, 0x01]), 0x0001);
    }

    #[test]
    fn an_odd_last_byte_is_a_high_half() {
        // 0000 + 1200 = 1200.
        assert_eq!(sum(0, &[0x12]), 0x1200);
        // 0001 + FF02 + 0300 = 10203; 0203 + 1 = 0204.
        assert_eq!(sum(0x0001, &[0xFF, 0x02, 0x03]), 0x0204);
    }

    #[test]
    fn an_ip_header() {
        // 4500 + 0073 + 0000 + 4000 + 4011 + B861 + C0A8 + 0001 + C0A8 + 00C7 = 2FFFD;
        // FFFD + 2 = FFFF, as in every IP header whose checksum is right.
        let header = [
            0x45, 0x00, 0x00, 0x73, 0x00, 0x00, 0x40, 0x00, 0x40, 0x11, //
            0xB8, 0x61, 0xC0, 0xA8, 0x00, 0x01, 0xC0, 0xA8, 0x00, 0xC7,
        ];
        assert_eq!(sum(0, &header), 0xFFFF);
        // Without the checksum: 2FFFD - B861 = 2479C; 479C + 2 = 479E.
        let mut without = header;
        without[10..12].fill(0);
        assert_eq!(sum(0, &without), 0x479E);
    }

    #[test]
    fn as_the_slow_sum_at_every_place() {
        let buffer = make_buffer();
        for place in 0..PLACES {
            for bytes in (0..=67).chain([255, 1499, LONGEST]) {
                let bytes = &buffer[place..][..bytes];
                for start in [0, 1, 0x00FF, 0x8000, 0xFFFE, 0xFFFF] {
                    assert_eq!(sum(start, bytes), slow(start, bytes), "{start} {bytes:?}");
                }
            }
        }
    }

    #[test]
    fn as_the_slow_sum_in_long_slices() {
        let mixed: Vec<u8> = (0..3 * BLOCK + 1).map(|i| (i * i / 7) as u8).collect();
        let highest = vec![0xFF; 3 * BLOCK + 1];
        for bytes in [BLOCK - 1, BLOCK, BLOCK + 1, 2 * BLOCK, 3 * BLOCK + 1] {
            for start in [0, 0x1234, 0xFFFF] {
                for whole in [&mixed, &highest] {
                    let bytes = &whole[..bytes];
                    assert_eq!(sum(start, bytes), slow(start, bytes), "{start}");
                }
            }
        }
    }

    #[test]
    fn a_round_as_the_slow_sum_makes_it() {
        let buffer = make_buffer();
        for bytes in [20, LONGEST] {
            let mut last = 0;
            for i in 0..1000 {
                let place = i % 64;
                last = slow(last, &buffer[place..place + bytes]);
            }
            assert_eq!(round(&buffer, bytes, 1000), last);
        }
    }

    #[test]
    fn the_buffer() {
        let buffer = make_buffer();
        // 13; 167 + 13 = 180; 334 + 13 - 256 = 91; 167 * 1563 + 13 = 261034 = 1019 * 256 + 170.
        assert_eq!(buffer.len(), 1564);
        assert_eq!(buffer[..3], [13, 180, 91]);
        assert_eq!(buffer[1563], 170);
    }
}
