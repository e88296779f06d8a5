//! Iarwennol for Rust: a proved IPv4/UDP/RTP header compressor, linked from libiarwennol.a.
//!
//! Each end has its table in plain arrays, without pointers; `Default` is a table that is not open. Any bytes, tables and settings
//! may be handed in, and every call ends. The one duty of a caller, that no two slices overlap, is kept by the borrows.
//!
//!     use iarwennol::{Compressor, Decompressor, PLAIN};
//!
//!     let (mut sender, mut receiver) = (Compressor::default(), Decompressor::default());
//!     sender.open(2, 64)?;
//!     receiver.open(2, 64)?;
//!     let (mut link, mut rebuilt) = ([0; 1500], [0; 1500]);
//!     let sent = sender.send(b"no voice", &mut link)?;
//!     assert_eq!((sent.kind, sent.length), (PLAIN, 8));
//!     let length = receiver.receive(sent.kind, &link[..sent.length], &mut rebuilt)?;
//!     assert_eq!(&rebuilt[..length], b"no voice");
//!     # Ok::<(), iarwennol::Refusal>(())
#![no_std]

// One line for each table is easier to hold against the header.
#[rustfmt::skip]
mod raw;

use core::fmt;

/// Greatest N, the packets lost in a row that the link may have.
pub const MOST_N: u32 = 14;
/// Greatest K, the flows at a time; the least is 1.
pub const MOST_K: u32 = 64;
pub const LONGEST_PACKET: usize = 1500;
/// Most bytes of a saved table.
pub const LONGEST_FILE: usize = 7045;

// Link types.
pub const PLAIN: u32 = 0;
pub const FULL_HEADER: u32 = 1;
pub const COMPRESSED_UDP: u32 = 2;
pub const COMPRESSED_RTP: u32 = 3;
pub const CONTEXT_STATE: u32 = 4;

/// Why a call was refused. A refused call leaves the output as it was.
#[derive(Clone, Copy, Debug, PartialEq, Eq, Hash)]
#[repr(u8)]
pub enum Refusal {
    /// The table is none that calls leave; at opening, N or K is out of range.
    Unsound = 1,
    /// The packet is empty or too long.
    BadLength = 2,
    /// The link type is over 3.
    UnknownType = 3,
    /// Part of a field is missing.
    Cut = 4,
    /// A field has a form that the rules forbid.
    Forbidden = 5,
    /// The context's number is K or higher.
    NoSuchContext = 6,
    /// A difference has a code that stands for none.
    UnusedCode = 7,
    /// The context is not live: it waits for a full header.
    NotLive = 8,
    /// More than N packets were lost.
    OutOfStep = 9,
    /// What is rebuilt would be too long.
    TooLong = 10,
    /// The output is too short.
    NoRoom = 11,
    /// The UDP checksum says that the packet would be rebuilt wrong.
    Disproved = 12,
}

impl Refusal {
    const ALL: [Refusal; 12] = [
        Refusal::Unsound,
        Refusal::BadLength,
        Refusal::UnknownType,
        Refusal::Cut,
        Refusal::Forbidden,
        Refusal::NoSuchContext,
        Refusal::UnusedCode,
        Refusal::NotLive,
        Refusal::OutOfStep,
        Refusal::TooLong,
        Refusal::NoRoom,
        Refusal::Disproved,
    ];

    pub fn number(self) -> u8 {
        self as u8
    }
}

impl fmt::Display for Refusal {
    fn fmt(&self, f: &mut fmt::Formatter<'_>) -> fmt::Result {
        write!(f, "refused {}: {:?}", self.number(), self)
    }
}

impl core::error::Error for Refusal {}

/// What an accepted send wrote.
#[derive(Clone, Copy, Debug, PartialEq, Eq)]
pub struct Sent {
    /// The link type.
    pub kind: u32,
    pub length: usize,
}

/// Takes an answer apart: the number in bits 0 to 7, the link type in bits 8 to 15, the length above.
fn unpack(packed: u64) -> Result<Sent, Refusal> {
    match packed as u8 {
        0 => Ok(Sent { kind: u32::from((packed >> 8) as u8), length: (packed >> 16) as usize }),
        number => Err(Refusal::ALL[usize::from(number) - 1]),
    }
}

fn length(packed: u64) -> Result<usize, Refusal> {
    unpack(packed).map(|sent| sent.length)
}

fn done(packed: u64) -> Result<(), Refusal> {
    unpack(packed).map(|_| ())
}

/// The compressing end.
#[derive(Clone, Debug, PartialEq, Eq)]
pub struct Compressor {
    pub words: [u32; Compressor::WORDS],
    pub shorts: [u16; Compressor::SHORTS],
    pub bytes: [u8; Compressor::BYTES],
}

/// The decompressing end.
#[derive(Clone, Debug, PartialEq, Eq)]
pub struct Decompressor {
    pub words: [u32; Decompressor::WORDS],
    pub shorts: [u16; Decompressor::SHORTS],
    pub bytes: [u8; Decompressor::BYTES],
}

/// Both ends in one place, for a link with voice both ways, and totals of what passed.
#[derive(Clone, Debug, Default, PartialEq, Eq)]
pub struct Endpoint {
    pub compressor: Compressor,
    pub decompressor: Decompressor,
    /// In the order of `Totals`.
    pub totals: [u32; TOTALS],
}

/// What passed through an endpoint: packets sent by link type, packets rebuilt, calls refused. Each stops at the greatest number.
#[derive(Clone, Copy, Debug, PartialEq, Eq)]
pub struct Totals {
    pub plain: u32,
    pub full_header: u32,
    pub compressed_udp: u32,
    pub compressed_rtp: u32,
    pub rebuilt: u32,
    pub refused: u32,
}

const TOTALS: usize = 6;

impl Default for Compressor {
    fn default() -> Self {
        Compressor { words: [0; Self::WORDS], shorts: [0; Self::SHORTS], bytes: [0; Self::BYTES] }
    }
}

impl Default for Decompressor {
    fn default() -> Self {
        Decompressor { words: [0; Self::WORDS], shorts: [0; Self::SHORTS], bytes: [0; Self::BYTES] }
    }
}

/// A call with the three slices of each table in front. Every pointer comes from a borrow that lives through the call, those of
/// outputs and of tables that change from `&mut`: so what they lead to is there and overlaps nothing.
macro_rules! call {
    ($name:ident, $($kind:ident: $table:expr),+; $($rest:tt)*) => { call!(@ $name [$($kind: $table,)+] [] $($rest)*) };
    (@ $name:ident [$kind:ident: $table:expr, $($tables:tt)*] [$($args:tt)*] $($rest:tt)*) => {
        call!(@ $name [$($tables)*] [$($args)*
            $table.words.as_mut_ptr(), $kind::WORDS, $table.shorts.as_mut_ptr(), $kind::SHORTS,
            $table.bytes.as_mut_ptr(), $kind::BYTES,] $($rest)*)
    };
    (@ $name:ident [] [$($args:tt)*] $($rest:tt)*) => { unsafe { raw::$name($($args)* $($rest)*) } };
}

/// The same for a decompressor's table that is only read.
macro_rules! call_shared {
    ($name:ident, $table:expr; $($rest:tt)*) => {
        unsafe {
            raw::$name(
                $table.words.as_ptr(), Decompressor::WORDS, $table.shorts.as_ptr(), Decompressor::SHORTS,
                $table.bytes.as_ptr(), Decompressor::BYTES, $($rest)*
            )
        }
    };
}

impl Compressor {
    pub const WORDS: usize = 1344;
    pub const SHORTS: usize = 384;
    pub const BYTES: usize = 1282;
    /// Places of N and K in the bytes.
    pub const N: usize = 1280;
    pub const K: usize = 1281;

    /// Opens the end, whatever it held. Both ends of a link get the same N and K.
    pub fn open(&mut self, n: u32, k: u32) -> Result<(), Refusal> {
        done(call!(iarwennol_open_compressor, Compressor: self; n, k))
    }

    /// Makes a link packet of a packet; it is never longer.
    pub fn send(&mut self, packet: &[u8], out: &mut [u8]) -> Result<Sent, Refusal> {
        unpack(call!(iarwennol_send, Compressor: self; packet.as_ptr(), packet.len(), out.as_mut_ptr(), out.len()))
    }

    /// Takes the other end's report: what it names gets full headers again.
    pub fn request(&mut self, report: &[u8]) -> Result<(), Refusal> {
        done(call!(iarwennol_request, Compressor: self; report.as_ptr(), report.len()))
    }
}

impl Decompressor {
    pub const WORDS: usize = 1280;
    pub const SHORTS: usize = 320;
    pub const BYTES: usize = 834;
    /// Places of N and K in the bytes.
    pub const N: usize = 832;
    pub const K: usize = 833;

    /// Opens the end, whatever it held.
    pub fn open(&mut self, n: u32, k: u32) -> Result<(), Refusal> {
        done(call!(iarwennol_open_decompressor, Decompressor: self; n, k))
    }

    /// Makes the packet of a link packet.
    pub fn receive(&mut self, kind: u32, packet: &[u8], out: &mut [u8]) -> Result<usize, Refusal> {
        length(call!(iarwennol_receive, Decompressor: self; kind, packet.as_ptr(), packet.len(), out.as_mut_ptr(), out.len()))
    }

    /// Writes what to send back, as CONTEXT_STATE, of contexts that wait for a full header; no bytes where none does.
    pub fn report(&self, out: &mut [u8]) -> Result<usize, Refusal> {
        length(call_shared!(iarwennol_report, self; out.as_mut_ptr(), out.len()))
    }

    /// Writes the table as bytes, to be kept over a restart.
    pub fn save(&self, out: &mut [u8]) -> Result<usize, Refusal> {
        length(call_shared!(iarwennol_save, self; out.as_mut_ptr(), out.len()))
    }

    /// Takes a table that was saved, whatever it held.
    pub fn load(&mut self, file: &[u8]) -> Result<(), Refusal> {
        done(call!(iarwennol_load, Decompressor: self; file.as_ptr(), file.len()))
    }
}

impl Endpoint {
    /// Opens both ends and sets the totals to 0.
    pub fn open(&mut self, n: u32, k: u32) -> Result<(), Refusal> {
        let totals = self.totals.as_mut_ptr();
        done(call!(iarwennol_endpoint_open, Compressor: self.compressor, Decompressor: self.decompressor; totals, TOTALS, n, k))
    }

    /// A packet from the wire: makes the link packet for the radio.
    pub fn from_wire(&mut self, packet: &[u8], out: &mut [u8]) -> Result<Sent, Refusal> {
        let totals = self.totals.as_mut_ptr();
        unpack(call!(iarwennol_endpoint_wire, Compressor: self.compressor;
            totals, TOTALS, packet.as_ptr(), packet.len(), out.as_mut_ptr(), out.len()))
    }

    /// A link packet from the radio: a CONTEXT_STATE goes to the compressor and gives out nothing, any other is rebuilt.
    pub fn from_radio(&mut self, kind: u32, packet: &[u8], out: &mut [u8]) -> Result<usize, Refusal> {
        let totals = self.totals.as_mut_ptr();
        length(call!(iarwennol_endpoint_radio, Compressor: self.compressor, Decompressor: self.decompressor;
            totals, TOTALS, kind, packet.as_ptr(), packet.len(), out.as_mut_ptr(), out.len()))
    }

    /// Writes what to send back, as CONTEXT_STATE.
    pub fn report(&mut self, out: &mut [u8]) -> Result<usize, Refusal> {
        let totals = self.totals.as_mut_ptr();
        length(call_shared!(iarwennol_endpoint_report, self.decompressor; totals, TOTALS, out.as_mut_ptr(), out.len()))
    }

    /// What passed since the opening.
    pub fn totals(&self) -> Totals {
        let [plain, full_header, compressed_udp, compressed_rtp, rebuilt, refused] = self.totals;
        Totals { plain, full_header, compressed_udp, compressed_rtp, rebuilt, refused }
    }
}
