//! Codes of differences (rules 4.1 to 4.4).

use crate::refusal;

const LOWEST: i32 = -16384;
const HIGHEST: i32 = 4_194_303;

/// Whether a difference of 32 bits has a code: one comparison, since the range is moved to begin at 0.
#[inline(always)]
pub fn has_code(difference: u32) -> bool {
    difference.wrapping_sub(LOWEST as u32) <= (HIGHEST - LOWEST) as u32
}

/// The same from its bytes but the lowest, for vectors of bytes: 0 if there is a code. From 0 up nothing is above 3F FF FF, below 0
/// nothing is below FF FF C0 00.
#[inline(always)]
pub fn none(low: u8, high: u8, highest: u8) -> u8 {
    let above = highest | high & 0xc0;
    let below = !(highest & high) | !low & 0xc0;
    above.min(below)
}

/// A difference of 16 bits as the number that has its code.
pub fn of_16_bits(difference: u16) -> i32 {
    let difference = i32::from(difference);
    if difference >= 49_152 {
        difference - 65_536
    } else {
        difference
    }
}

/// The code of a difference that has one, and how many bytes it has.
pub fn of(difference: i32) -> ([u8; 3], usize) {
    let within = match difference {
        ..=-129 => difference - LOWEST,
        -128..=-1 => difference + 128,
        _ => difference,
    };
    let [_, high, middle, low] = within.to_be_bytes();
    match difference {
        0..=127 => ([low, 0, 0], 1),
        -128..=16_383 => ([0x80 | middle, low, 0], 2),
        _ => ([0xc0 | high, middle, low], 3),
    }
}

/// Reads the code at the front, and tells what is after it. The first byte says how long it is.
pub fn read(bytes: &[u8]) -> Result<(i32, &[u8]), u8> {
    match *bytes {
        [a @ 0..=0x7f, ref rest @ ..] => Ok((a.into(), rest)),
        [a @ 0x80..=0xbf, b, ref rest @ ..] => {
            let code = i32::from(a & 0x3f) << 8 | i32::from(b);
            Ok((if code < 128 { code - 128 } else { code }, rest))
        }
        [a @ 0xc0..=0xff, b, c, ref rest @ ..] => {
            let code = i32::from(a & 0x3f) << 16 | i32::from(b) << 8 | i32::from(c);
            match code {
                0x3f80..=0x3fff => Err(refusal::UNUSED_CODE),
                ..0x3f80 => Ok((code + LOWEST, rest)),
                _ => Ok((code, rest)),
            }
        }
        _ => Err(refusal::CUT),
    }
}
