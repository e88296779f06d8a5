//! Difference codes (scope, Difference codes).

use crate::bytes::Reader;
use crate::mutant::Mutant;
use crate::refusal::Refusal;

pub const LOWEST: i32 = -16384;
pub const HIGHEST: i32 = 4_194_303;

/// The bytes of a difference, or none outside the table.
pub fn encode(difference: i32) -> Option<Vec<u8>> {
    match difference {
        0..=127 => Some(vec![difference as u8]),
        -128..=-1 => Some(vec![0x80, (difference + 128) as u8]),
        128..=16383 => Some(vec![0x80 | (difference >> 8) as u8, difference as u8]),
        LOWEST..=-129 => {
            let place = difference - LOWEST;
            Some(vec![0xc0, (place >> 8) as u8, place as u8])
        }
        16384..=HIGHEST => Some(vec![
            0xc0 | (difference >> 16) as u8,
            (difference >> 8) as u8,
            difference as u8,
        ]),
        _ => None,
    }
}

/// Reads one code. The first byte alone fixes how many bytes the code has, so a cut code is
/// refused 4 before it can turn out to be unused.
pub fn read(mutant: Mutant, reader: &mut Reader) -> Result<i32, Refusal> {
    let first = reader.peek()?;
    if first < 0x80 {
        return Ok(i32::from(reader.byte()?));
    }
    if first < 0xc0 {
        let code = i32::from(reader.word16()?) - 0x8000;
        return Ok(if code < 128 { code - 128 } else { code });
    }
    let field = reader.take(3)?;
    let code = (i32::from(first & 0x3f) << 16) | (i32::from(field[1]) << 8) | i32::from(field[2]);
    match code {
        0..=0x3f7f => Ok(code + LOWEST),
        0x3f80..=0x3fff if mutant != Mutant::ReadsUnusedCodes => Err(Refusal::UnusedCode),
        _ => Ok(code),
    }
}

/// A 16-bit difference as it is written; every one has a code.
pub fn written16(difference: u16) -> i32 {
    if difference >= 49152 {
        i32::from(difference) - 65536
    } else {
        i32::from(difference)
    }
}

/// A timestamp difference as it is written, if it has a code at all.
pub fn written32(difference: u32) -> Option<i32> {
    let signed = difference as i32;
    (LOWEST..=HIGHEST).contains(&signed).then_some(signed)
}

/// Whether a kept timestamp difference can have come from a code or from a full header.
pub fn timestamp_has_code(difference: u32) -> bool {
    written32(difference).is_some()
}
