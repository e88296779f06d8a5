//! Both ends under a chosen fault, packets built by hand, checks of any generator, and small helpers.

use oracle::mutant::Mutant;
use oracle::planned::Planner;
use oracle::refusal::Answer;
use oracle::{compressor, decompressor, saved};

/// A check tells what went wrong, if anything did.
pub type Outcome = Result<(), String>;
pub type Check = fn(Mutant) -> Outcome;

/// One change to a packet's bytes or to a voice packet, for tables of changes.
pub type Spoil = fn(&mut Vec<u8>);
pub type Alter = fn(&mut Voice);
/// A field by name with values that are sound and values that are not.
pub type FieldRow<'a> = (&'a str, &'a [u32], &'a [u32]);

/// Lists the checks of a module and makes each a test of the program as it is.
macro_rules! checks {
    ($($name:ident),* $(,)?) => {
        pub const CHECKS: &[(&str, crate::support::Check)] = &[$((stringify!($name), $name)),*];

        mod as_it_is {
            $(
                #[test]
                fn $name() {
                    if let Err(what) = super::$name(oracle::mutant::Mutant::None) {
                        panic!("{what}");
                    }
                }
            )*
        }
    };
}

pub fn same<T: PartialEq + std::fmt::Debug>(what: &str, found: T, wanted: T) -> Outcome {
    if found == wanted {
        Ok(())
    } else {
        Err(format!("{what}: found {found:x?}, wanted {wanted:x?}"))
    }
}

pub fn ensure(what: &str, holds: bool) -> Outcome {
    if holds {
        Ok(())
    } else {
        Err(what.to_string())
    }
}

/// Bytes from hex with spaces.
pub fn hex(text: &str) -> Vec<u8> {
    let digits: String = text.split_whitespace().collect();
    assert!(digits.len() & 1 == 0, "odd hex {text}");
    (0..digits.len())
        .step_by(2)
        .map(|at| u8::from_str_radix(&digits[at..at + 2], 16).expect("hex"))
        .collect()
}

/// An answer with the bytes it wrote.
#[derive(Clone, Debug, PartialEq, Eq)]
pub struct Given {
    pub number: u8,
    pub link_type: u32,
    pub bytes: Vec<u8>,
}

pub const FILL: u8 = 0xaa;

/// Judges the output of a call: written up to the length, untouched after it.
pub fn given(number: u8, link_type: u32, length: usize, output: &[u8]) -> Result<Given, String> {
    if length > output.len() {
        return Err(format!("length {length} with room {}", output.len()));
    }
    if number != 0 && (length != 0 || link_type != 0) {
        return Err(format!(
            "refusal {number} with length {length}, type {link_type}"
        ));
    }
    if output[length..].iter().any(|&byte| byte != FILL) {
        return Err(format!("answer {number} wrote past its length {length}"));
    }
    Ok(Given {
        number,
        link_type,
        bytes: output[..length].to_vec(),
    })
}

/// One compressor and one decompressor with the same fault.
#[derive(Clone)]
pub struct Ends {
    pub mutant: Mutant,
    pub compressor: compressor::Table,
    pub decompressor: decompressor::Table,
}

impl Ends {
    pub fn open(mutant: Mutant, repeats: u32, contexts: u32) -> Self {
        let mut ends = Ends {
            mutant,
            compressor: compressor::Table::unopened(),
            decompressor: decompressor::Table::unopened(),
        };
        let accepted = Answer {
            number: 0,
            length: 0,
        };
        assert_eq!(
            compressor::open(&mut ends.compressor, repeats, contexts),
            accepted
        );
        assert_eq!(
            decompressor::open(&mut ends.decompressor, repeats, contexts),
            accepted
        );
        ends
    }

    pub fn send(&mut self, packet: &[u8], room: usize) -> Result<Given, String> {
        let mut output = vec![FILL; room];
        let answer = compressor::send_with(self.mutant, &mut self.compressor, packet, &mut output);
        given(answer.number, answer.link_type, answer.length, &output)
    }

    pub fn receive(&mut self, link_type: u32, bytes: &[u8], room: usize) -> Result<Given, String> {
        let mut output = vec![FILL; room];
        let answer = decompressor::receive_with(
            self.mutant,
            &mut self.decompressor,
            link_type,
            bytes,
            &mut output,
        );
        given(answer.number, 0, answer.length, &output)
    }

    /// A request; an accepted one has length 0.
    pub fn request(&mut self, state: &[u8]) -> Result<u8, String> {
        let answer = compressor::request_with(self.mutant, &mut self.compressor, state);
        same("length of a request's answer", answer.length, 0)?;
        Ok(answer.number)
    }

    /// A report, which must not change its table.
    pub fn report(&mut self, room: usize) -> Result<Given, String> {
        let mut output = vec![FILL; room];
        let answer = decompressor::report_with(self.mutant, &self.decompressor, &mut output);
        given(answer.number, 0, answer.length, &output)
    }

    /// A save, which leaves its table.
    pub fn save(&self, room: usize) -> Result<Given, String> {
        let mut output = vec![FILL; room];
        let answer = saved::save_with(self.mutant, &self.decompressor, &mut output);
        given(answer.number, 0, answer.length, &output)
    }

    /// A load; a refused one must not change its table.
    pub fn load(&mut self, file: &[u8]) -> Result<u8, String> {
        let before = self.decompressor.clone();
        let answer = saved::load_with(self.mutant, &mut self.decompressor, file);
        same("length of a load's answer", answer.length, 0)?;
        let stays = answer.number == 0 || self.decompressor == before;
        ensure("a refused load changes nothing", stays)?;
        Ok(answer.number)
    }

    /// Sends with ample room; the link packet must have this type and these bytes.
    pub fn sends(&mut self, packet: &Voice, link_type: u32, bytes: &[u8]) -> Outcome {
        let found = self.send(&packet.bytes(), 1500)?;
        let wanted = Given {
            number: 0,
            link_type,
            bytes: bytes.to_vec(),
        };
        same("send", found, wanted)
    }

    /// Sends with ample room and hands the link packet back.
    pub fn link_packet(&mut self, packet: &Voice) -> Result<(u32, Vec<u8>), String> {
        let found = self.send(&packet.bytes(), 1500)?;
        same("send's number", found.number, 0)?;
        Ok((found.link_type, found.bytes))
    }

    /// Receives with ample room; exactly this packet must come out.
    pub fn rebuilds(&mut self, link_type: u32, bytes: &[u8], packet: &Voice) -> Outcome {
        let found = self.receive(link_type, bytes, 1500)?;
        let wanted = Given {
            number: 0,
            link_type: 0,
            bytes: packet.bytes(),
        };
        same("rebuilt packet", found, wanted)
    }

    /// N 2, K 1. After FH and a CU with F and dT, link sequence 1: voice(101, 11, 1160), the kept timestamp
    /// difference is 160.
    pub fn with_timestamp_delta(mutant: Mutant) -> Result<Self, String> {
        let mut ends = Ends::open(mutant, 2, 1);
        ends.fill(&voice(100, 10, 1000), 0, 0, 0)?;
        ends.rebuilds(2, &hex("00 a1 00 80a0 da7a"), &voice(101, 11, 1160))?;
        same("kept", ends.decompressor.places[0].timestamp_delta, 160)?;
        Ok(ends)
    }

    /// Receives an FH of the packet at the place, generation and link sequence given.
    pub fn fill(&mut self, packet: &Voice, place: u8, generation: u8, link: u8) -> Outcome {
        self.rebuilds(1, &packet.full_header(place, generation, link), packet)
    }
}

/// A voice packet, written out by hand.
#[derive(Clone, Debug)]
pub struct Voice {
    pub tos: u8,
    pub id: u16,
    /// Reserved bit times 2 plus DF.
    pub flags: u8,
    pub ttl: u8,
    pub source: [u8; 4],
    pub destination: [u8; 4],
    pub sport: u16,
    pub dport: u16,
    pub udp_checksum: u16,
    pub padding: bool,
    pub extension: bool,
    pub marker: bool,
    pub payload_type: u8,
    pub sequence: u16,
    pub timestamp: u32,
    pub ssrc: u32,
    pub csrc: Vec<u32>,
    pub data: Vec<u8>,
}

/// A plain packet to start from: blank checksum, no list, two bytes of data.
pub fn voice(id: u16, sequence: u16, timestamp: u32) -> Voice {
    Voice {
        tos: 0,
        id,
        flags: 1,
        ttl: 64,
        source: [10, 0, 0, 1],
        destination: [10, 0, 0, 2],
        sport: 5004,
        dport: 5006,
        udp_checksum: 0,
        padding: false,
        extension: false,
        marker: false,
        payload_type: 0,
        sequence,
        timestamp,
        ssrc: 0x1122_3344,
        csrc: Vec::new(),
        data: vec![0xda, 0x7a],
    }
}

impl Voice {
    /// The next packet on pattern: ID and sequence one higher, timestamp the same.
    pub fn next(&self) -> Voice {
        let mut next = self.clone();
        next.id = self.id.wrapping_add(1);
        next.sequence = self.sequence.wrapping_add(1);
        next
    }

    /// The packet with the UDP checksum that is right for it.
    pub fn summed(&self) -> Voice {
        Voice {
            udp_checksum: udp_checksum_of(&self.bytes()),
            ..self.clone()
        }
    }

    pub fn bytes(&self) -> Vec<u8> {
        let total = 40 + 4 * self.csrc.len() + self.data.len();
        let mut bytes = vec![0x45, self.tos];
        bytes.extend((total as u16).to_be_bytes());
        bytes.extend(self.id.to_be_bytes());
        bytes.extend([self.flags * 64, 0, self.ttl, 17, 0, 0]);
        bytes.extend(self.source);
        bytes.extend(self.destination);
        set_ip_checksum(&mut bytes);
        bytes.extend(self.sport.to_be_bytes());
        bytes.extend(self.dport.to_be_bytes());
        bytes.extend((total as u16).wrapping_sub(20).to_be_bytes());
        bytes.extend(self.udp_checksum.to_be_bytes());
        let (padding, extension) = (u8::from(self.padding), u8::from(self.extension));
        bytes.push(128 + 32 * padding + 16 * extension + self.csrc.len() as u8);
        bytes.push(128 * u8::from(self.marker) + self.payload_type);
        bytes.extend(self.sequence.to_be_bytes());
        bytes.extend(self.timestamp.to_be_bytes());
        bytes.extend(self.ssrc.to_be_bytes());
        for word in &self.csrc {
            bytes.extend(word.to_be_bytes());
        }
        bytes.extend(&self.data);
        bytes
    }

    /// The FH layout of the packet.
    pub fn full_header(&self, place: u8, generation: u8, link: u8) -> Vec<u8> {
        let mut bytes = self.bytes();
        bytes[2] = 0x40 + generation;
        bytes[3] = place;
        bytes[24] = 0;
        bytes[25] = link;
        bytes
    }
}

/// Puts the right IP checksum in, folding after every addition.
pub fn set_ip_checksum(bytes: &mut [u8]) {
    bytes[10] = 0;
    bytes[11] = 0;
    let mut sum: u32 = 0;
    for pair in bytes[..20].chunks(2) {
        sum += u32::from(pair[0]) * 256 + u32::from(pair[1]);
        if sum > 0xffff {
            sum -= 0xffff;
        }
    }
    let checksum = 0xffff - sum as u16;
    bytes[10] = (checksum / 256) as u8;
    bytes[11] = (checksum % 256) as u8;
}

/// The UDP checksum that a packet should carry, folding after every addition.
pub fn udp_checksum_of(packet: &[u8]) -> u16 {
    let length = packet.len() as u32 - 20;
    // Protocol and length of the pseudo-header; its addresses are summed below with the rest.
    let mut sum = 17 + length;
    for (at, byte) in packet.iter().enumerate().skip(12) {
        if at == 26 || at == 27 {
            continue;
        }
        sum += u32::from(*byte) * if at % 2 == 0 { 256 } else { 1 };
        if sum > 0xffff {
            sum -= 0xffff;
        }
    }
    match 0xffff - sum as u16 {
        0 => 0xffff,
        checksum => checksum,
    }
}

/// Whether the packet has a UDP checksum, and another than it should.
pub fn udp_checksum_wrong(packet: &[u8]) -> bool {
    let found = u16::from(packet[26]) * 256 + u16::from(packet[27]);
    found != 0 && found != udp_checksum_of(packet)
}

/// The first lines of a generator's script.
pub fn lines_of(mut generator: impl Planner, count: usize) -> impl Iterator<Item = String> {
    (0..count).map(move |_| generator.next_line())
}

/// A script that shows something can be had again by its seed.
pub fn same_for_the_same_seed<G: Planner>(generator: impl Fn(u64) -> G) {
    let script = |seed: u64| -> Vec<String> { lines_of(generator(seed), 3000).collect() };
    assert_eq!(script(5), script(5));
    assert_ne!(script(5), script(6));
}

/// Scripts must stay short enough to be compared by the ten thousand.
pub fn not_too_long(what: &str, generator: impl Planner) {
    let bytes: usize = lines_of(generator, 60_000).map(|line| line.len() + 1).sum();
    println!("60,000 lines of {what} have {bytes} bytes");
    assert!(bytes < 20_000_000);
}
