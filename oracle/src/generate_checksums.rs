//! Random call scripts about UDP checksums that are judged over a gap. In some stretches a compressor's packets come with
//! losses; in the others link packets are made for the decompressor's table as it is: of every kind, at every gap, with
//! the checksum that is right and with others, and of lengths up to the greatest and beyond.

use crate::bytes::{get16, put16};
use crate::decompressor::{self, Context, Status};
use crate::flows::{self, Flow};
use crate::forge;
use crate::generate::{exact_length, hex, report_now, room, something_broken};
use crate::header::FIXED;
use crate::mutant::Mutant;
use crate::planned::{Planned, Planner};
use crate::prng::Prng;
use crate::script::MOST_BYTES;
use crate::udp_checksum::{self, CHECKSUM};
use crate::way::Way;
use crate::{compressor, COMPRESSED_RTP, COMPRESSED_UDP, FULL_HEADER, MAX_PACKET};

pub struct Generator {
    prng: Prng,
    planned: Planned,
    calls_left: usize,
    /// Whether a compressor's packets come in this stretch, and percent of its packets with a change.
    traffic: bool,
    change: usize,
    way: Way,
    /// N of the next stretch; every N comes in turn.
    next_repeats: usize,
}

impl Generator {
    pub fn new(seed: u64) -> Self {
        let mut prng = Prng::new(seed);
        Generator {
            planned: Planned::default(),
            calls_left: 0,
            traffic: false,
            change: 0,
            way: Way::new(&mut prng, 0, false),
            next_repeats: prng.below(15),
            prng,
        }
    }
}

impl Planner for Generator {
    fn planned(&mut self) -> &mut Planned {
        &mut self.planned
    }

    fn plan(&mut self) {
        if self.calls_left == 0 {
            return self.open_stretch();
        }
        self.calls_left -= 1;
        let broken = something_broken(self.planned.table());
        if broken && self.prng.chance(1, if self.traffic { 5 } else { 12 }) {
            self.plan_recovery();
        } else if !self.traffic {
            self.plan_made_packet();
        } else if self.way.in_flight.is_empty() || self.prng.chance(5, 9) {
            self.plan_send();
        } else {
            self.plan_arrival();
        }
    }
}

impl Generator {
    fn open_stretch(&mut self) {
        let prng = &mut self.prng;
        let mut repeats = self.next_repeats;
        self.next_repeats = (self.next_repeats + 1) % 15;
        // The longest gaps need the greatest N.
        if prng.chance(1, 3) {
            repeats = prng.pick(&[12, 13, 14, 14]);
        }
        let contexts = prng.pick(&[1, 1, 1, 2, 3, 64]);
        self.traffic = prng.chance(2, 5);
        self.calls_left = prng.between(40, 250);
        self.change = prng.pick(&[1, 3, 10]);
        self.way = Way::new(prng, repeats, false);
        self.way.flows.truncate(4);
        self.way.wrong = prng.pick(&[0, 5, 15, 30]);
        for flow in &mut self.way.flows {
            if prng.chance(4, 5) {
                flow.header.udp_checksum = 1;
            }
        }
        if self.traffic {
            self.push(format!("os {repeats} {contexts}"));
        }
        self.push(format!("or {repeats} {contexts}"));
    }

    /// The report, and mostly the request that it makes.
    fn plan_recovery(&mut self) {
        let report = report_now(self.planned.table());
        let room = room(&mut self.prng, report.len());
        self.push(format!("p {room}"));
        if self.traffic && self.prng.chance(4, 5) {
            self.push(format!("q {}", hex(&report)));
        }
    }

    // A compressor's packets

    fn plan_send(&mut self) {
        let packet = self.way.next_packet(&mut self.prng, self.change);
        let mut output = [0; MOST_BYTES];
        let mut table = self.planned.runner.compressor.clone();
        let answer = compressor::send(&mut table, &packet, &mut output);
        if answer.number == 0 {
            let bytes = output[..answer.length].to_vec();
            self.way.in_flight.push_back((answer.link_type, bytes));
        }
        self.push(format!("s {} 1500", hex(&packet)));
    }

    /// What was sent, now and then as a CU without F, or with another checksum.
    fn plan_arrival(&mut self) {
        let Some((mut link_type, mut bytes)) = self.way.next_arrival(&mut self.prng) else {
            return self.plan_send();
        };
        if self.prng.chance(1, 8) {
            let table = self.planned.table();
            let header = forge::with_rtp_header(&mut self.prng, table, link_type, &bytes);
            if let Some(header) = header {
                (link_type, bytes) = (COMPRESSED_UDP, header);
            }
        }
        if self.prng.chance(1, 12) && self.carries_checksum(link_type, &bytes) {
            let at = forge::checksum_at(link_type, &bytes);
            let other = match self.prng.below(3) {
                0 => 0,
                _ => flows::other_checksum(&mut self.prng, get16(&bytes, at)),
            };
            put16(&mut bytes, at, other);
        }
        let exact = exact_length(self.planned.table(), link_type, &bytes);
        let room = room(&mut self.prng, exact);
        self.plan_receive(link_type, &bytes, room);
    }

    fn carries_checksum(&self, link_type: u32, bytes: &[u8]) -> bool {
        [COMPRESSED_UDP, COMPRESSED_RTP].contains(&link_type)
            && bytes.len() >= 5
            && self.planned.table().places[usize::from(bytes[0] % 64)].carried
    }

    /// An arrival, and often a look at what a refusal left: the context, the report, or the same packet again.
    fn plan_receive(&mut self, link_type: u32, bytes: &[u8], room: usize) {
        let mut output = vec![0; room];
        let mut table = self.planned.table().clone();
        let answer = decompressor::receive(&mut table, link_type, bytes, &mut output);
        let line = format!("r {link_type} {} {room}", hex(bytes));
        self.push(line.clone());
        let place = bytes.first().copied().unwrap_or(0) % 64;
        let often = match answer.number {
            12 => 2,
            0 => 30,
            _ => 8,
        };
        if link_type != FULL_HEADER && self.prng.chance(1, often) {
            self.push(format!("dr {place}"));
        }
        if answer.number == 12 {
            match self.prng.below(10) {
                0 => self.push(line),
                1 => self.push("p 200".to_string()),
                _ => {}
            }
        }
    }

    // Packets made for the table

    fn plan_made_packet(&mut self) {
        let contexts = usize::from(self.planned.table().contexts);
        let place = match self.prng.below(8) {
            0 => self.prng.below(contexts),
            1 => contexts - 1,
            _ => 0,
        };
        let context = self.planned.table().places[place];
        let ready = match context.status {
            Status::Live if context.carried => self.prng.chance(15, 16),
            Status::Live => self.prng.chance(2, 3),
            _ => self.prng.chance(1, 4),
        };
        if ready {
            self.plan_compressed(place as u8, &context);
        } else {
            self.plan_full_header(place as u8);
        }
    }

    /// With a checksum as a rule, which is right or not: nobody judges it. Fields are any, so that sums are.
    fn plan_full_header(&mut self, place: u8) {
        let prng = &mut self.prng;
        let mut flow = Flow::new(prng);
        let fields = &mut flow.header.fields;
        if prng.bit() {
            fields.source = prng.number() as u32;
            fields.destination = prng.number() as u32;
            fields.ssrc = prng.number() as u32;
        }
        flow.header.udp_checksum = u16::from(prng.chance(11, 12));
        let wrong = prng.pick(&[0, 100]);
        let mut bytes = flow.next_packet(prng, 10, wrong);
        bytes[2] = 0x40 | prng.byte() & 63;
        bytes[3] = place;
        put16(&mut bytes, 24, u16::from(prng.byte() & 15));
        let room = room(prng, bytes.len());
        self.plan_receive(FULL_HEADER, &bytes, room);
    }

    /// A CU or CR for a context: gap, kind, length, checksum and room are chosen one by one.
    fn plan_compressed(&mut self, place: u8, context: &Context) {
        let gap = self.some_gap();
        let link = (context.last_link + gap) & 15;
        let link_type = self.prng.pick(&[COMPRESSED_UDP, COMPRESSED_RTP]);
        let mut bytes = self.some_front(place, link, link_type, context.carried);
        self.add_data(link_type, &mut bytes);
        let mut packet = forge::rebuilt(self.planned.table(), link_type, &bytes);
        if let Some(packet) = packet.as_mut().filter(|_| context.carried) {
            let sum_is_zero = self.prng.chance(1, 6) && make_sum_zero(packet, &mut bytes);
            let checksum = self.some_checksum(packet, sum_is_zero);
            let at = forge::checksum_at(link_type, &bytes);
            put16(&mut bytes, at, checksum);
        }
        let exact = packet.map_or(MAX_PACKET, |packet| packet.len());
        let room = some_room(&mut self.prng, exact);
        self.plan_receive(link_type, &bytes, room);
    }

    /// Mostly one that is judged; 1 is not, and 0 and those over N+1 are refused.
    fn some_gap(&mut self) -> u8 {
        let most = usize::from(self.planned.table().repeats) + 1;
        let prng = &mut self.prng;
        let gap = match prng.below(20) {
            0 => 0,
            1 | 2 => most + 1,
            3 => prng.between(most + 1, 16),
            4..=6 => 1,
            7 | 8 if most > 1 => most,
            _ if most > 1 => prng.between(2, most),
            _ => prng.between(1, 2),
        };
        (gap & 15) as u8
    }

    /// Everything up to the data. Forged packets may have a fault; most are made anew until they have none.
    fn some_front(&mut self, place: u8, link: u8, link_type: u32, carried: bool) -> Vec<u8> {
        let checksum: &[u8] = if carried { &[0, 0] } else { &[] };
        let mut bytes = Vec::new();
        for _ in 0..8 {
            bytes = if link_type == COMPRESSED_UDP {
                forge::compressed_udp(&mut self.prng, link, checksum)
            } else {
                forge::compressed_rtp(&mut self.prng, link, checksum)
            };
            bytes.insert(0, place);
            let good = forge::rebuilt(self.planned.table(), link_type, &bytes).is_some();
            if good || self.prng.chance(1, 20) {
                break;
            }
        }
        bytes
    }

    /// No data, little, or so much that the packet has the greatest length or nearly so, or just more.
    fn add_data(&mut self, link_type: u32, bytes: &mut Vec<u8>) {
        let headers = forge::rebuilt(self.planned.table(), link_type, bytes)
            .map_or(FIXED, |packet| packet.len());
        let prng = &mut self.prng;
        let to = |length: usize| length.saturating_sub(headers);
        let count = match prng.below(64) {
            0 | 1 => to(MAX_PACKET),
            2 => to(MAX_PACKET - 1),
            3 => to(prng.between(1400, 1500)),
            4 => to(prng.between(1501, 1540)),
            5 => prng.between(60, 800),
            6..=13 => 0,
            _ => prng.between(1, 12),
        };
        let data = match prng.below(8) {
            0 => vec![0xff; count],
            1 => vec![0; count],
            _ => prng.bytes(count),
        };
        bytes.extend(data);
        // A link packet longer than any is refused for that.
        bytes.truncate(MAX_PACKET);
    }

    /// The right checksum in half of all cases.
    fn some_checksum(&mut self, packet: &[u8], sum_is_zero: bool) -> u16 {
        let right = udp_checksum::of_whole(packet);
        let prng = &mut self.prng;
        if sum_is_zero {
            return prng.pick(&[0xffff, 0xffff, 0, 0, 1, 0xfffe]);
        }
        match prng.below(20) {
            0..=9 => right,
            10 | 11 => right ^ 1 << prng.below(16),
            12 => right.swap_bytes(),
            13 => 0xffff,
            14 | 15 => 0,
            16 => prng.number() as u16,
            17 => !right,
            _ => {
                let mut with = packet.to_vec();
                put16(&mut with, CHECKSUM, right);
                let mistaken = prng.pick(&Mutant::MISTAKEN_SUMS);
                udp_checksum::of_packet(mistaken, &with[..FIXED], &with[FIXED..])
            }
        }
    }
}

/// Alters the data's last whole word, in the packet and in the link packet that ends as it does, so that the sum comes out
/// 0000; false where there is no such word.
fn make_sum_zero(packet: &mut [u8], bytes: &mut [u8]) -> bool {
    let data = packet.len() - FIXED - 4 * usize::from(packet[28] & 15);
    let odd = data & 1;
    if data < 2 {
        return false;
    }
    flows::make_udp_sum_zero(packet);
    let word = packet.len() - odd - 2;
    let at = bytes.len() - odd - 2;
    bytes[at..at + 2].copy_from_slice(&packet[word..word + 2]);
    true
}

/// Exactly enough, one byte too little, none, any that is too little, or more than enough.
fn some_room(prng: &mut Prng, exact: usize) -> usize {
    match prng.below(16) {
        0 | 1 => exact - 1,
        2 => 0,
        3 => prng.below(exact),
        4..=8 => exact,
        9 => exact + 1,
        10 => MOST_BYTES,
        _ => MAX_PACKET,
    }
}
