//! Whole lists of calls: sends, requests and arrivals with packets in flight. As long as no N+1
//! packets next to each other on a context are all lost, every arrival not lost rebuilds its packet.
//!
//! One more premise is about UDP checksums, and it is one of single arrivals, with room or without: if the packet sent
//! before it on its context number is lost, then its checksum is blank or right. Two worked lists show what happens if
//! less is asked.

use crate::support::{
    ensure, hex, same, udp_checksum_of, udp_checksum_wrong, voice, Ends, Outcome, Voice,
};
use oracle::mutant::Mutant;
use oracle::prng::Prng;
use oracle::{compressor, COMPRESSED_RTP, COMPRESSED_UDP};
use std::collections::{HashMap, VecDeque};

checks!(
    some_lists,
    premise_read_per_flow,
    premise_only_with_room,
    premise_met_instead,
);

/// Enough to show a fault; the test below runs many more.
pub fn some_lists(mutant: Mutant) -> Outcome {
    let mut counts = Counts::default();
    (0..400).try_for_each(|seed| run_list(mutant, seed, &mut counts))
}

#[derive(Default)]
struct Counts {
    sends: usize,
    refused_sends: usize,
    arrivals: usize,
    dropped: usize,
    without_room: usize,
    longest_losses: usize,
    requests: usize,
    by_type: [usize; 4],
    by_repeats: [usize; 15],
    /// CU and CR rebuilt after a loss, by their checksum.
    guessed_right: usize,
    guessed_all_ones: usize,
    guessed_blank: usize,
    /// CU and CR with a right checksum after a loss, without room themselves.
    guessed_without_room: usize,
    /// Wrong checksums: rebuilt with nothing lost before, and dropped because something was.
    wrong_rebuilt: usize,
    wrong_dropped: usize,
}

/// A link packet on its way, with the packet that went in.
pub struct InFlight {
    pub link_type: u32,
    pub bytes: Vec<u8>,
    pub packet: Vec<u8>,
}

impl InFlight {
    /// The context number it is on; a plain one is on none.
    pub fn place(&self) -> Option<u8> {
        match self.link_type {
            0 => None,
            1 => Some(self.bytes[3]),
            _ => Some(self.bytes[0]),
        }
    }

    /// Whether the premise keeps it from arriving where the packet before it on its context number is lost.
    pub fn needs_the_one_before(&self) -> bool {
        self.place().is_some() && udp_checksum_wrong(&self.packet)
    }

    fn is_compressed(&self) -> bool {
        [COMPRESSED_UDP, COMPRESSED_RTP].contains(&self.link_type)
    }
}

/// How many in a row will be lost on a context number once `lost` are: packets on their way that cannot arrive after a
/// loss are lost as well. With it, whether one on its way ends the row.
pub fn row_of_losses(in_flight: &VecDeque<InFlight>, place: u8, lost: usize) -> (usize, bool) {
    let mut row = lost;
    for sent in in_flight.iter().filter(|sent| sent.place() == Some(place)) {
        if row == 0 || !sent.needs_the_one_before() {
            return (row, true);
        }
        row += 1;
    }
    (row, false)
}

/// Puts the right checksum in where a wrong one could neither arrive, for a loss before it, nor be lost, for want of
/// losses that N allows.
pub fn keep_to_premise(
    ends: (Mutant, &compressor::Table),
    in_flight: &VecDeque<InFlight>,
    lost_in_a_row: &HashMap<u8, usize>,
    repeats: usize,
    packet: &mut [u8],
) {
    if packet.len() < 40 || !udp_checksum_wrong(packet) {
        return;
    }
    let mut output = [0; 1600];
    let (mutant, table) = ends;
    let answer = compressor::send_with(mutant, &mut table.clone(), packet, &mut output);
    let sent = InFlight {
        link_type: answer.link_type,
        bytes: output[..answer.length].to_vec(),
        packet: packet.to_vec(),
    };
    if answer.number != 0 || !sent.needs_the_one_before() {
        return;
    }
    let lost = sent.place().and_then(|place| {
        let lost = lost_in_a_row.get(&place).copied().unwrap_or(0);
        let (row, ends) = row_of_losses(in_flight, place, lost);
        (!ends).then_some(row)
    });
    if lost.is_some_and(|lost| lost > 0 && lost >= repeats) {
        let right = udp_checksum_of(packet);
        packet[26..28].copy_from_slice(&right.to_be_bytes());
    }
}

/// A flow: its last packet, and the steps of ID and timestamp to the next.
pub type Flow = (Voice, u16, u32);

struct List {
    ends: Ends,
    prng: Prng,
    repeats: usize,
    flows: Vec<Flow>,
    change: usize,
    loss: usize,
    in_flight: VecDeque<InFlight>,
    /// Packets lost since the last one that was not, per context number.
    lost_in_a_row: HashMap<u8, usize>,
}

fn run_list(mutant: Mutant, seed: u64, counts: &mut Counts) -> Outcome {
    let mut prng = Prng::new(seed);
    let repeats = prng.below(15);
    let contexts = prng.pick(&[1, 1, 2, 3, 5, 64]);
    let flows = prng.between(1, 4);
    counts.by_repeats[repeats] += 1;
    let mut list = List {
        ends: Ends::open(mutant, repeats as u32, contexts),
        repeats,
        flows: (0..flows).map(|_| new_flow(&mut prng)).collect(),
        change: prng.pick(&[0, 2, 5, 10, 40]),
        loss: prng.pick(&[0, 10, 30, 60, 90]),
        in_flight: VecDeque::new(),
        lost_in_a_row: HashMap::new(),
        prng,
    };
    let longest_queue = list.prng.pick(&[0, 1, 5, 30]);
    let steps = list.prng.pick(&[60, 120, 200, 500]);
    for _ in 0..steps {
        let step = if list.prng.chance(1, 12) {
            list.request(counts)
        } else if list.in_flight.len() > longest_queue {
            list.arrive(counts)
        } else {
            list.send(counts)
        };
        step.map_err(|what| format!("list {seed}, N {repeats}: {what}"))?;
    }
    while !list.in_flight.is_empty() {
        list.arrive(counts)
            .map_err(|what| format!("list {seed}, N {repeats}: {what}"))?;
    }
    // Nothing can have broken a context on the way.
    same("report", list.ends.report(0)?.number, 0)
}

pub fn new_flow(prng: &mut Prng) -> Flow {
    let mut packet = voice(
        prng.pick(&[0, 65530, 300]),
        prng.pick(&[0, 65530]),
        prng.pick(&[0, 4_294_967_200]),
    );
    packet.ssrc = prng.below(3) as u32;
    packet.dport = prng.pick(&[0, 5004]);
    packet.udp_checksum = prng.pick(&[0, 0, 0x1234]);
    (
        packet,
        prng.pick(&[1, 1, 3, 0]),
        prng.pick(&[160, 160, 0, 10]),
    )
}

/// Mostly the next packet of a flow, sometimes one that is no packet of a flow at all.
pub fn next_packet(prng: &mut Prng, flows: &mut [Flow], change: usize) -> Vec<u8> {
    if prng.chance(1, 25) {
        let count = prng.pick(&[0, 1, 20, 39, 40, 60, 1500, 1501]);
        return prng.bytes(count);
    }
    let which = prng.below(flows.len());
    let (packet, id_step, timestamp_step) = &mut flows[which];
    packet.id = packet.id.wrapping_add(*id_step);
    packet.sequence = packet.sequence.wrapping_add(1);
    packet.timestamp = packet.timestamp.wrapping_add(*timestamp_step);
    packet.marker = prng.chance(1, 6);
    let length = if prng.chance(1, 60) {
        1440
    } else {
        prng.below(5)
    };
    packet.data = prng.bytes(length);
    while prng.chance(change, 100) {
        match prng.below(16) {
            0 | 1 => packet.id = packet.id.wrapping_add(prng.pick(&[1, 65535, 77, 40000])),
            2 | 3 => *id_step = prng.pick(&[0, 1, 2, 65535, 49152]),
            4 => packet.sequence = packet.sequence.wrapping_add(prng.pick(&[1, 65534, 9])),
            5 | 6 => {
                let jump = prng.pick(&[1, 5000, 1 << 23, 1 << 31]);
                packet.timestamp = packet.timestamp.wrapping_add(jump);
            }
            7 | 8 => {
                let steps = [0, 10, 160, 4_194_303, 4_194_304, u32::MAX, u32::MAX - 16384];
                *timestamp_step = prng.pick(&steps);
            }
            9 => packet.payload_type = prng.pick(&[0, 8, 127]),
            10 | 11 => {
                let count = prng.pick(&[0, 0, 1, 2, 15]);
                packet.csrc = (0..count).map(|_| prng.below(3) as u32).collect();
            }
            12 => packet.tos = prng.pick(&[0, 1]),
            13 => packet.ttl = prng.pick(&[63, 64]),
            14 => packet.flags = prng.below(4) as u8,
            _ => match prng.below(3) {
                0 => packet.padding ^= true,
                1 => packet.extension ^= true,
                _ => packet.udp_checksum = prng.pick(&[0, 0xffff]),
            },
        }
    }
    if packet.udp_checksum != 0 {
        give_checksum(prng, packet);
    }
    let mut bytes = packet.bytes();
    // Rarely something in the packet that makes it go plain.
    if prng.chance(1, 40) {
        let at = prng.below(40);
        bytes[at] ^= 1 << prng.below(8);
    }
    bytes
}

/// Mostly the right checksum, now and then for data that makes it FFFF; sometimes a wrong one.
fn give_checksum(prng: &mut Prng, packet: &mut Voice) {
    if packet.data.len() > 1 && prng.chance(1, 12) {
        let at = packet.data.len() / 2 * 2 - 2;
        packet.data[at..at + 2].fill(0);
        let lacking = udp_checksum_of(&packet.bytes());
        if lacking != 0xffff {
            packet.data[at..at + 2].copy_from_slice(&lacking.to_be_bytes());
        }
    }
    let right = udp_checksum_of(&packet.bytes());
    packet.udp_checksum = match prng.below(16) {
        0 => prng.between(1, 65535) as u16,
        1 => match right ^ 1 << prng.below(16) {
            0 => 0xffff,
            wrong => wrong,
        },
        2 => 0xffff,
        _ => right,
    };
}

impl List {
    fn send(&mut self, counts: &mut Counts) -> Outcome {
        let mut packet = next_packet(&mut self.prng, &mut self.flows, self.change);
        keep_to_premise(
            (self.ends.mutant, &self.ends.compressor),
            &self.in_flight,
            &self.lost_in_a_row,
            self.repeats,
            &mut packet,
        );
        let mut room = self.prng.pick(&[1500, 1600]);
        if self.prng.chance(1, 10) {
            room = self.prng.below(60);
        }
        let found = self.ends.send(&packet, room)?;
        if found.number == 0 {
            counts.sends += 1;
            counts.by_type[found.link_type as usize] += 1;
            self.in_flight.push_back(InFlight {
                link_type: found.link_type,
                bytes: found.bytes,
                packet,
            });
        } else {
            counts.refused_sends += 1;
        }
        Ok(())
    }

    fn lost_before(&self, place: Option<u8>) -> usize {
        place.map_or(0, |place| {
            self.lost_in_a_row.get(&place).copied().unwrap_or(0)
        })
    }

    /// Whether one more loss on the context leaves one of N+1 neighbours not lost, with those that it entails.
    fn may_lose(&self, place: Option<u8>) -> bool {
        place.is_none_or(|place| {
            let lost = self.lost_before(Some(place)) + 1;
            row_of_losses(&self.in_flight, place, lost).0 <= self.repeats
        })
    }

    fn count_loss(&mut self, place: Option<u8>, counts: &mut Counts) {
        if let Some(place) = place {
            let lost = self.lost_in_a_row.entry(place).or_insert(0);
            *lost += 1;
            if *lost == self.repeats {
                counts.longest_losses += 1;
            }
        }
    }

    fn arrive(&mut self, counts: &mut Counts) -> Outcome {
        let Some(sent) = self.in_flight.pop_front() else {
            return Ok(());
        };
        let place = sent.place();
        let guessed = self.lost_before(place) > 0;
        let wrong = sent.needs_the_one_before();
        if guessed && wrong {
            ensure("a loss that N allows", self.may_lose(place))?;
            self.count_loss(place, counts);
            counts.wrong_dropped += 1;
            return Ok(());
        }
        if self.prng.chance(self.loss, 100) && self.may_lose(place) {
            self.count_loss(place, counts);
            if self.prng.chance(3, 4) {
                counts.dropped += 1;
                return Ok(());
            }
            counts.without_room += 1;
            let carried = place.is_some() && sent.packet[26..28] != [0, 0];
            counts.guessed_without_room += usize::from(guessed && carried && sent.is_compressed());
            let room = self.prng.below(sent.packet.len());
            let found = self.ends.receive(sent.link_type, &sent.bytes, room)?;
            return same("arrival without room", found.number, 11);
        }
        counts.arrivals += 1;
        counts.wrong_rebuilt += usize::from(wrong);
        if guessed && sent.is_compressed() {
            match sent.packet[26..28] {
                [0, 0] => counts.guessed_blank += 1,
                [0xff, 0xff] => counts.guessed_all_ones += 1,
                _ => counts.guessed_right += 1,
            }
        }
        if let Some(place) = place {
            self.lost_in_a_row.insert(place, 0);
        }
        let room = sent.packet.len() + self.prng.pick(&[0, 0, 1, 100]);
        let found = self.ends.receive(sent.link_type, &sent.bytes, room)?;
        same("arrival's number", found.number, 0)?;
        same("arrival's packet", found.bytes, sent.packet)
    }

    /// Requests of any kind: well formed for contexts in use or not, and mere bytes.
    fn request(&mut self, counts: &mut Counts) -> Outcome {
        counts.requests += 1;
        let prng = &mut self.prng;
        let state = match prng.below(4) {
            0 => {
                let count = prng.below(9);
                prng.bytes(count)
            }
            1 => vec![1, 1, prng.byte(), prng.byte(), prng.byte()],
            2 => vec![
                1,
                2,
                0,
                0x80,
                0,
                1,
                0x80 | prng.byte() & 15,
                prng.byte() & 63,
            ],
            _ => vec![1, 1, prng.below(3) as u8, 0x80 | prng.byte() & 15, 0],
        };
        let before = self.ends.compressor.clone();
        if self.ends.request(&state)? != 0 {
            ensure("refused request", self.ends.compressor == before)?;
        }
        Ok(())
    }
}

// What the premise on checksums must not be weakened to

/// Sends the packets; the full headers among them arrive, and the link packets are handed back.
fn sent(ends: &mut Ends, packets: &[Voice]) -> Result<Vec<(u32, Vec<u8>)>, String> {
    let mut all = Vec::new();
    for packet in packets {
        let (link_type, bytes) = ends.link_packet(packet)?;
        if link_type == 1 {
            ends.rebuilds(link_type, &bytes, packet)?;
        }
        all.push((link_type, bytes));
    }
    Ok(all)
}

/// The packets of a flow, each with its right checksum.
fn summed(count: usize) -> Vec<Voice> {
    let mut packets = vec![voice(100, 10, 1000).summed()];
    while packets.len() < count {
        packets.push(packets[packets.len() - 1].next().summed());
    }
    packets
}

/// "Flows that have checksums" might mean flows all of whose packets have one. Then a flow that begins without and goes
/// on with checksums is free to bring a wrong one after a loss. Here N is 1, one packet is lost and the next one has
/// room, and yet it is refused: the claim is false under this reading, so the premise is one of packets.
pub fn premise_read_per_flow(mutant: Mutant) -> Outcome {
    let mut ends = Ends::open(mutant, 1, 1);
    let mut packets = summed(6);
    packets[0].udp_checksum = 0;
    packets[1].udp_checksum = 0;
    packets[5].udp_checksum ^= 1;
    let sent = sent(&mut ends, &packets)?;
    let types: Vec<u32> = sent.iter().map(|(link_type, _)| *link_type).collect();
    same("two runs, then CR", types, vec![1, 1, 1, 1, 3, 3])?;
    // The fifth is lost.
    let found = ends.receive(3, &sent[5].1, 1500)?;
    same("a wrong checksum after a loss", found.number, 12)
}

/// Only arrivals with room might be asked for a right checksum, since those without are lost anyway. But 12 comes before
/// 11, and breaks the context. Here N is 2: one packet is lost, the next one has a wrong checksum and no room, so it
/// counts as lost too; the third has room and a right checksum, and yet it is refused.
pub fn premise_only_with_room(mutant: Mutant) -> Outcome {
    let mut ends = Ends::open(mutant, 2, 1);
    let mut packets = summed(6);
    packets[4].udp_checksum ^= 1;
    let sent = sent(&mut ends, &packets)?;
    let types: Vec<u32> = sent.iter().map(|(link_type, _)| *link_type).collect();
    same("a run, then CR", types, vec![1, 1, 1, 3, 3, 3])?;
    let found = ends.receive(3, &sent[4].1, 41)?;
    same("wrong and without room", found.number, 12)?;
    let found = ends.receive(3, &sent[5].1, 42)?;
    same("right, with room, N lost before", found.number, 8)
}

/// The second list with a right checksum throughout: 11 leaves the context, and the third packet is rebuilt.
pub fn premise_met_instead(mutant: Mutant) -> Outcome {
    let mut ends = Ends::open(mutant, 2, 1);
    let packets = summed(6);
    let sent = sent(&mut ends, &packets)?;
    let found = ends.receive(3, &sent[4].1, 41)?;
    same("right and without room", found.number, 11)?;
    // Sequence 15, timestamp 1000, data da7a: ffc0+000f+03e8+da7a = 1de31, folded de32.
    same("link packet", &sent[5].1, &hex("00 05 21cd da7a"))?;
    ends.rebuilds(3, &sent[5].1, &packets[5])
}

#[test]
fn many_lists() {
    let lists = 12_000;
    let mut counts = Counts::default();
    for seed in 0..lists {
        if let Err(what) = run_list(Mutant::None, 1_000_000 + seed, &mut counts) {
            panic!("{what}");
        }
    }
    println!(
        "lists: {lists}, packets: {} sent ({} plain, {} FH, {} CU, {} CR), {} rebuilt, {} dropped, \
         {} without room, {} times N lost in a row, {} sends refused, {} requests",
        counts.sends,
        counts.by_type[0],
        counts.by_type[1],
        counts.by_type[2],
        counts.by_type[3],
        counts.arrivals,
        counts.dropped,
        counts.without_room,
        counts.longest_losses,
        counts.refused_sends,
        counts.requests,
    );
    println!(
        "  CU and CR after a loss: {} with a right checksum rebuilt and {} more where it is FFFF, {} without room, \
         {} blank; wrong checksums: {} rebuilt without a loss before, {} dropped after one",
        counts.guessed_right,
        counts.guessed_all_ones,
        counts.guessed_without_room,
        counts.guessed_blank,
        counts.wrong_rebuilt,
        counts.wrong_dropped,
    );
    // The lists must really have held what they are meant to hold.
    assert!(counts.by_type.iter().all(|&count| count > 20_000));
    assert!(counts.by_repeats.iter().all(|&count| count > 500));
    assert!(counts.longest_losses > 5_000 && counts.without_room > 5_000);
    assert!(counts.arrivals > 100_000 && counts.dropped > 20_000);
    assert!(counts.refused_sends > 5_000 && counts.requests > 10_000);
    assert!(counts.guessed_right > 10_000 && counts.guessed_all_ones > 500);
    assert!(counts.guessed_blank > 10_000 && counts.guessed_without_room > 1_000);
    assert!(counts.wrong_rebuilt > 10_000 && counts.wrong_dropped > 2_000);
}
