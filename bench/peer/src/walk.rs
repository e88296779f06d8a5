//! The walk over a table: parts of it that both ends have.

use crate::kept::{Kept, Plane, BLOCK, CC};
use crate::PLACES;

/// The number of each place, to be compared a vector at a time.
pub const INDEX: Plane = {
    let mut index = [0; PLACES];
    let mut place = 0;
    while place < PLACES {
        index[place] = place as u8;
        place += 1;
    }
    index
};

/// How many bytes are 1, if these come first and all others are 0.
#[inline(always)]
pub fn ones_first(plane: &Plane) -> Option<usize> {
    const BYTE: u64 = u64::MAX / 255;
    const PATTERN: [u8; 2 * PLACES] = {
        let mut pattern = [0; 2 * PLACES];
        let mut place = 0;
        while place < PLACES {
            pattern[place] = 1;
            place += 1;
        }
        pattern
    };
    // Eight sums side by side, of eight bytes each, and then their sum.
    let (words, _) = plane.as_chunks();
    let sums = words.iter().fold(0, |sums: u64, word| {
        sums.wrapping_add(u64::from_le_bytes(*word))
    });
    let ones = (sums.wrapping_mul(BYTE) >> 56) as usize;
    let wanted = PATTERN.get(PLACES.checked_sub(ones)?..)?.first_chunk()?;
    (plane == wanted).then_some(ones)
}

/// The last place from which a whole block can be taken.
pub const LAST: usize = PLACES - BLOCK;

/// Asks of four places, from each of which on sixteen are taken, some of them twice: all that are at or after one that is at most
/// the last. So there are neither masks nor loops of unknown length. What is asked are functions of their own, since within a large
/// one the compiler makes poor vectors of them.
#[inline(always)]
fn none_from(place: usize, any: impl Fn(usize) -> bool) -> bool {
    !(any(place) | any(place + BLOCK) | any(place + 2 * BLOCK) | any(LAST))
}

/// Sixteen of something from a place on, or the last ones.
#[inline(always)]
fn block<T>(all: &[T; PLACES], place: usize) -> &[T] {
    let place = place.min(LAST);
    &all[place..place + BLOCK]
}

/// Whether planes are 0 from a place on.
#[inline(always)]
pub fn planes_zero_from<const N: usize>(planes: &[Plane; N], place: usize) -> bool {
    none_from(place, |place| any_byte(planes, place))
}

#[inline(never)]
fn any_byte<const N: usize>(planes: &[Plane; N], place: usize) -> bool {
    let mut any = [0; 2];
    for plane in planes {
        for (any, word) in any.iter_mut().zip(block(plane, place).as_chunks().0) {
            *any |= u64::from_le_bytes(*word);
        }
    }
    any[0] | any[1] != 0
}

/// The same of rows.
#[inline(always)]
pub fn rows_zero_from<const N: usize>(rows: &[[u64; N]; PLACES], place: usize) -> bool {
    none_from(place, |place| any_row(rows, place))
}

#[inline(never)]
fn any_row<const N: usize>(rows: &[[u64; N]; PLACES], place: usize) -> bool {
    let rows = block(rows, place).as_flattened();
    rows.iter().fold(0, |all, row| all | row) != 0
}

/// The same of numbers of 16 bits.
#[inline(always)]
pub fn shorts_zero_from(plane: &[u16; PLACES], place: usize) -> bool {
    none_from(place, |place| any_short(plane, place))
}

#[inline(never)]
fn any_short(plane: &[u16; PLACES], place: usize) -> bool {
    block(plane, place)
        .iter()
        .fold(0, |all, number| all | number)
        != 0
}

/// A block of a plane, or with 64 places and number 0 all of it.
#[inline(always)]
pub fn part<const LENGTH: usize>(plane: &Plane, number: usize) -> &[u8; LENGTH] {
    &plane.as_chunks().0[number]
}

impl<const PLANES: usize, const STEPS: usize> Kept<PLANES, STEPS> {
    /// Whether there is any word in the CSRC lists of a block.
    #[inline(always)]
    pub fn any_list(&self, block: usize) -> bool {
        let lists = self.csrc.as_chunks::<BLOCK>().0[block].as_flattened();
        let mut all = [0; 8];
        for row in lists.as_chunks::<64>().0 {
            for (all, word) in all.iter_mut().zip(row.as_chunks().0) {
                *all |= u64::from_le_bytes(*word);
            }
        }
        all.iter().fold(0, |all, word| all | word) != 0
    }

    /// CSRC words past the count are 0 (rule 2.4).
    #[inline(never)]
    pub fn lists_sound(&self) -> bool {
        let mut past = 0;
        for (list, cc) in self.csrc.iter().zip(self.planes[CC]) {
            for (word, place) in list.as_chunks().0.iter().zip(0..) {
                past |= if place < cc {
                    0
                } else {
                    u32::from_le_bytes(*word)
                };
            }
        }
        past == 0
    }
}
