//! An independent second implementation of the header compressor, written from the scope alone.
//! It favours plain code over speed: one function per rule, no sharing with the main program.

pub mod bytes;
pub mod codes;
pub mod compressor;
pub mod decompressor;
pub mod endpoint;
pub mod files;
pub mod flows;
pub mod forge;
pub mod generate;
pub mod generate_checksums;
pub mod generate_endpoint;
pub mod generate_saves;
pub mod header;
pub mod mutant;
pub mod planned;
pub mod prng;
pub mod refusal;
pub mod saved;
pub mod script;
pub mod udp_checksum;
mod way;

/// Link types as numbers beside the bytes.
pub const PLAIN: u32 = 0;
pub const FULL_HEADER: u32 = 1;
pub const COMPRESSED_UDP: u32 = 2;
pub const COMPRESSED_RTP: u32 = 3;
pub const CONTEXT_STATE: u32 = 4;

/// Places in a table; only the first K are ever used.
pub const PLACES: usize = 64;
pub const MAX_REPEATS: u8 = 14;
pub const MAX_CONTEXTS: u8 = 64;
pub const MAX_PACKET: usize = 1500;

/// N and K as an opening takes them.
pub fn settings_in_range(repeats: u32, contexts: u32) -> bool {
    repeats <= u32::from(MAX_REPEATS) && (1..=u32::from(MAX_CONTEXTS)).contains(&contexts)
}

/// Packets have 1 to 1,500 bytes, at either end.
pub fn packet_length_allowed(length: usize) -> bool {
    (1..=MAX_PACKET).contains(&length)
}
