//! The 40 bytes of the three headers, as they stand in a packet.

/// Bytes of the three headers without a CSRC list.
pub const FIXED: usize = 40;

const LOW: u64 = 0xffff_ffff;

/// Five numbers with the first byte lowest: few loads, nothing turned round that need not be, and every field by a shift.
/// What is only compared and copied (addresses, ports, SSRC, checksums) stays turned round.
#[derive(Clone, Copy)]
pub struct Front(pub [u64; 5]);

impl Front {
    #[inline(always)]
    pub fn of(packet: &[u8]) -> Option<Self> {
        let (words, _) = packet.first_chunk::<FIXED>()?.as_chunks();
        Some(Front(
            [0, 1, 2, 3, 4].map(|word| u64::from_le_bytes(words[word])),
        ))
    }

    #[inline(always)]
    pub fn write(&self, to: &mut [u8; FIXED]) {
        for (bytes, word) in to.as_chunks_mut().0.iter_mut().zip(self.0) {
            *bytes = word.to_le_bytes();
        }
    }

    /// IP and UDP length of a packet of so many bytes.
    #[inline(always)]
    pub fn put_lengths(&mut self, length: usize) {
        // The work on a packet too short for headers comes to nothing, so it may be of any length here.
        let (ip, udp) = (length as u16, (length as u16).wrapping_sub(20));
        self.0[0] = self.0[0] & !0xffff_0000 | u64::from(ip.swap_bytes()) << 16;
        self.0[3] = self.0[3] & !0xffff | u64::from(udp.swap_bytes());
    }

    /// What headers have that either end takes, but for the IP checksum: both lengths those of the packet, first byte 45, no
    /// fragment, protocol 17 and RTP version 2 (rules 5.1, 6.1).
    #[inline(always)]
    pub fn formed(&self, length: usize) -> bool {
        let mut wanted = Front([0x45, 0x1100, 0, 0x80 << 32, 0]);
        wanted.put_lengths(length);
        let other = (self.0[0] ^ wanted.0[0]) & 0xff3f_0000_ffff_00ff
            | (self.0[1] ^ wanted.0[1]) & 0xff00
            | (self.0[3] ^ wanted.0[3]) & 0x00c0_0000_ffff;
        other == 0
    }

    /// The ten words of the IP header added up, not folded.
    #[inline(always)]
    pub fn ip_sum(&self) -> u64 {
        let [first, second, third, ..] = self.0;
        (first >> 32) + (first & LOW) + (second >> 32) + (second & LOW) + (third & LOW)
    }

    /// Whether the IP checksum is right (rule 5.2). The words of a right header add up to a multiple of FFFF; by this FFFF would be
    /// as right as 0000, so it is ruled out.
    #[inline(always)]
    pub fn ip_checksum_right(&self) -> bool {
        self.ip_sum().is_multiple_of(0xffff) && self.0[1] >> 16 & 0xffff != 0xffff
    }

    /// What the UDP checksum adds up of this front: a pseudo-header, and all from the ports on but the checksum (rule 7.9).
    pub fn udp_sum(&self) -> u64 {
        let [_, second, third, fourth, fifth] = self.0;
        let length = fourth & 0xffff;
        let pseudo = (second >> 32) + (third & LOW) + 0x1100 + length;
        pseudo + (third >> 32) + length + (fourth >> 32) + (fifth & LOW) + (fifth >> 32)
    }

    /// Where an FH has generation and context number.
    #[inline(always)]
    pub fn ip_length(&self) -> u16 {
        ((self.0[0] >> 16) as u16).swap_bytes()
    }

    #[inline(always)]
    pub fn id(&self) -> u16 {
        ((self.0[0] >> 32) as u16).swap_bytes()
    }

    /// Reserved bit times 2 plus DF.
    #[inline(always)]
    pub fn flags(&self) -> u8 {
        (self.0[0] >> 54) as u8 & 3
    }

    #[inline(always)]
    pub fn dport_low(&self) -> u8 {
        (self.0[2] >> 56) as u8
    }

    /// Where an FH has the link sequence.
    #[inline(always)]
    pub fn udp_length(&self) -> u16 {
        (self.0[3] as u16).swap_bytes()
    }

    #[inline(always)]
    pub fn checksum(&self) -> u16 {
        (self.0[3] >> 16) as u16
    }

    /// The RTP header's first byte: version, padding, extension, CSRC count.
    #[inline(always)]
    pub fn rtp(&self) -> u8 {
        (self.0[3] >> 32) as u8
    }

    #[inline(always)]
    pub fn padding(&self) -> u8 {
        self.rtp() >> 5 & 1
    }

    #[inline(always)]
    pub fn extension(&self) -> u8 {
        self.rtp() >> 4 & 1
    }

    #[inline(always)]
    pub fn cc(&self) -> u8 {
        self.rtp() & 15
    }

    #[inline(always)]
    pub fn marker(&self) -> u8 {
        (self.0[3] >> 47) as u8 & 1
    }

    #[inline(always)]
    pub fn payload(&self) -> u8 {
        (self.0[3] >> 40) as u8 & 127
    }

    #[inline(always)]
    pub fn sequence(&self) -> u16 {
        ((self.0[3] >> 48) as u16).swap_bytes()
    }

    #[inline(always)]
    pub fn timestamp(&self) -> u32 {
        (self.0[4] as u32).swap_bytes()
    }

    #[inline(always)]
    pub fn ssrc_low(&self) -> u16 {
        (self.0[4] >> 48) as u16
    }
}

/// A packet whose CSRC list is all there.
#[derive(Clone, Copy)]
pub struct Packet<'a> {
    pub front: Front,
    pub list: &'a [u8],
    pub rest: &'a [u8],
}

impl<'a> Packet<'a> {
    #[inline(always)]
    pub fn of(front: Front, packet: &'a [u8]) -> Option<Self> {
        let behind = packet.get(FIXED..)?;
        let (list, rest) = behind.split_at_checked(4 * usize::from(front.cc()))?;
        Some(Packet { front, list, rest })
    }
}
