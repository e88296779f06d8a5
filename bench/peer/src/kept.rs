//! What both ends keep of every context, and how it lies in a table.
//!
//! Fields of which the rules ask something even in a live context have planes: 64 bytes one after another, which a walk takes a
//! vector at a time. All other fields may hold any number then and are asked to be 0 in empty contexts alone; they are packed in
//! rows, which a packet's work is quickest with.

use crate::front::{Front, Packet};
use crate::PLACES;

/// Words of the longest CSRC list.
pub const WORDS: usize = 15;
const LIST: usize = 4 * WORDS;
/// Places of a block: as many as there are bytes in a vector.
pub const BLOCK: usize = 16;
pub const BLOCKS: usize = PLACES / BLOCK;

pub type Plane = [u8; PLACES];

// Planes of both ends. Bits are bytes of 0 or 1.
pub const STATUS: usize = 0;
/// Reserved bit times 2 plus DF.
pub const FLAGS: usize = 1;
pub const PADDING: usize = 2;
pub const EXTENSION: usize = 3;
pub const PAYLOAD: usize = 4;
pub const CC: usize = 5;
pub const LINK: usize = 6;
pub const GENERATION: usize = 7;
/// Lower byte of the destination port.
pub const DPORT_LOW: usize = 8;
/// Bytes of the timestamp's delta, from the second lowest to the highest.
pub const DELTA_LOW: usize = 9;
pub const DELTA_HIGH: usize = 10;
pub const DELTA_HIGHEST: usize = 11;
/// How many there are, so where those of one end begin.
pub const SHARED: usize = 12;

#[repr(C, align(64))]
#[derive(Clone, Debug, PartialEq, Eq)]
pub struct Kept<const PLANES: usize, const STEPS: usize> {
    /// CSRC lists, as they stand in a packet.
    pub csrc: [[u8; LIST]; PLACES],
    /// Two numbers, from the lowest byte up. First, as they stand in a packet: destination, source port, upper byte of the
    /// destination port; and the lowest byte of the timestamp's delta. Second, likewise: TTL, TOS, upper half of the SSRC, source.
    pub flows: [[u64; 2]; PLACES],
    /// First, from the lowest bit up: ID, sequence, timestamp. The compressor has a second number.
    pub steps: [[u64; STEPS]; PLACES],
    /// Lower half of the SSRC as it stands in a packet. Flows are looked for by it.
    pub ssrc_low: [u16; PLACES],
    pub planes: [Plane; PLANES],
}

/// What [`Kept::flows`] holds of a packet, but for the delta.
#[inline(always)]
pub fn flow_of(front: &Front) -> [u64; 2] {
    let [first, second, third, _, fifth] = front.0;
    let others = second & 0xffff_ffff_0000_00ff | first & 0xff00 | fifth >> 16 & 0xffff_0000;
    [third & (u64::MAX >> 8), others]
}

/// What [`Kept::steps`] holds first.
#[inline(always)]
pub fn last_of(front: &Front) -> u64 {
    pack(front.id(), front.sequence(), front.timestamp())
}

#[inline(always)]
pub fn pack(id: u16, sequence: u16, timestamp: u32) -> u64 {
    u64::from(id) | u64::from(sequence) << 16 | u64::from(timestamp) << 32
}

impl<const PLANES: usize, const STEPS: usize> Kept<PLANES, STEPS> {
    pub const ZERO: Self = Kept {
        csrc: [[0; LIST]; PLACES],
        flows: [[0; 2]; PLACES],
        steps: [[0; STEPS]; PLACES],
        ssrc_low: [0; PLACES],
        planes: [[0; PLACES]; PLANES],
    };

    #[inline(always)]
    pub fn id(&self, place: usize) -> u16 {
        self.steps[place][0] as u16
    }

    #[inline(always)]
    pub fn sequence(&self, place: usize) -> u16 {
        (self.steps[place][0] >> 16) as u16
    }

    #[inline(always)]
    pub fn timestamp(&self, place: usize) -> u32 {
        (self.steps[place][0] >> 32) as u32
    }

    #[inline(always)]
    pub fn timestamp_delta(&self, place: usize) -> u32 {
        let lowest = (self.flows[place][0] >> 56) as u8;
        u32::from_le_bytes([
            lowest,
            self.planes[DELTA_LOW][place],
            self.planes[DELTA_HIGH][place],
            self.planes[DELTA_HIGHEST][place],
        ])
    }

    pub fn put_timestamp_delta(&mut self, place: usize, delta: u32) {
        let [lowest, low, high, highest] = delta.to_le_bytes();
        let row = &mut self.flows[place][0];
        *row = *row & (u64::MAX >> 8) | u64::from(lowest) << 56;
        self.planes[DELTA_LOW][place] = low;
        self.planes[DELTA_HIGH][place] = high;
        self.planes[DELTA_HIGHEST][place] = highest;
    }

    /// A CSRC list, as long as its count says, if that is a count at all.
    #[inline(always)]
    pub fn list(&self, place: usize) -> &[u8] {
        &self.csrc[place][..4 * usize::from(self.planes[CC][place]).min(WORDS)]
    }

    /// A CSRC list and its count; the words past it become 0.
    pub fn put_list(&mut self, place: usize, list: &[u8]) {
        let (words, past) = self.csrc[place].split_at_mut(list.len());
        words.copy_from_slice(list);
        past.fill(0);
        self.planes[CC][place] = (list.len() / 4) as u8;
    }

    /// The headers of a packet, with a delta of the timestamp.
    pub fn put(&mut self, place: usize, packet: &Packet, delta: u32) {
        let front = &packet.front;
        self.flows[place] = flow_of(front);
        self.steps[place][0] = last_of(front);
        self.put_timestamp_delta(place, delta);
        self.ssrc_low[place] = front.ssrc_low();
        self.planes[DPORT_LOW][place] = front.dport_low();
        self.planes[FLAGS][place] = front.flags();
        self.planes[PADDING][place] = front.padding();
        self.planes[EXTENSION][place] = front.extension();
        self.planes[PAYLOAD][place] = front.payload();
        self.put_list(place, packet.list);
    }
}
