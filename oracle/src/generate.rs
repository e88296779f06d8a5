//! Random call scripts. The generator runs the library alongside, so that it knows what its sends
//! gave out and can let them arrive, get lost or come back as requests.

use crate::codes;
use crate::decompressor::{self, Status};
use crate::flows::{self, Flow};
use crate::forge;
use crate::mutant::Mutant;
use crate::planned::{Planned, Planner};
use crate::prng::Prng;
use crate::script::{
    compressor_field, compressor_table_field, decompressor_field, decompressor_table_field,
    push_hex, Field, COMPRESSOR_FIELDS, DECOMPRESSOR_FIELDS, MOST_BYTES,
};
use crate::{compressor, COMPRESSED_UDP, PLACES};
use std::collections::VecDeque;

/// N and K that openings refuse.
pub(crate) const OUT_OF_RANGE: [(u32, u32); 9] = [
    (15, 1),
    (16, 64),
    (0, 0),
    (14, 65),
    (255, 255),
    (256, 256),
    (u32::MAX, 1),
    (0, u32::MAX),
    (65536, 65537),
];
/// Link types that no compressor gives out, among those it does.
pub(crate) const LINK_TYPES: [u32; 12] = [0, 1, 2, 3, 4, 5, 6, 255, 256, 65536, 1 << 31, u32::MAX];

/// How one stretch of calls between two openings behaves.
struct Stretch {
    calls_left: usize,
    /// Percent of packets with a change, and of UDP checksums that are wrong.
    change: usize,
    wrong: usize,
    /// Percent of calls that are hostile or odd.
    odd: usize,
    /// Longest run of losses on the link, and percent of arrivals that start one.
    longest_loss: usize,
    loss: usize,
    /// Percent of arrivals whose CU or CR becomes a CU with a whole RTP header.
    rtp_headers: usize,
    /// Whether tables are written by hand.
    by_hand: bool,
    /// Both ends in step throughout: same settings, nothing forged, never more than N lost in a row
    /// on a context, nor any where checksums are wrong.
    clean: bool,
}

pub struct Generator {
    prng: Prng,
    sender_only: bool,
    planned: Planned,
    stretch: Stretch,
    flows: Vec<Flow>,
    in_flight: VecDeque<(u32, Vec<u8>)>,
    /// Packets lost since the last one that was not, per context number.
    lost_in_a_row: [usize; 256],
    last_arrival: Option<(u32, Vec<u8>)>,
    /// A line that makes an unsound table sound again, after some more calls.
    repair: Option<(usize, String)>,
}

impl Generator {
    pub fn new(seed: u64, sender_only: bool) -> Self {
        let mut prng = Prng::new(seed);
        let flows = vec![Flow::new(&mut prng), Flow::new(&mut prng)];
        Generator {
            prng,
            sender_only,
            planned: Planned::default(),
            // The first stretch runs before any opening.
            stretch: Stretch {
                calls_left: 12,
                change: 10,
                wrong: 10,
                odd: 50,
                longest_loss: 0,
                loss: 0,
                rtp_headers: 0,
                by_hand: false,
                clean: false,
            },
            flows,
            in_flight: VecDeque::new(),
            lost_in_a_row: [0; 256],
            last_arrival: None,
            repair: None,
        }
    }
}

impl Planner for Generator {
    fn planned(&mut self) -> &mut Planned {
        &mut self.planned
    }

    fn plan(&mut self) {
        if self.stretch.calls_left == 0 {
            return self.open_stretch();
        }
        self.stretch.calls_left -= 1;
        if let Some((wait, line)) = self.repair.take() {
            if wait == 0 {
                return self.push(line);
            }
            self.repair = Some((wait - 1, line));
        }
        if self.recovery_wanted() {
            self.plan_recovery();
        } else if self.prng.below(100) < self.stretch.odd {
            self.plan_odd_call();
        } else if self.sender_only || self.in_flight.is_empty() || self.prng.chance(5, 9) {
            self.plan_flow_packet();
        } else {
            self.plan_arrival();
        }
    }
}

impl Generator {
    /// Broken contexts are asked for again before long, else stretches would stay refused.
    fn recovery_wanted(&mut self) -> bool {
        let broken = something_broken(&self.planned.runner.decompressor);
        !self.sender_only && broken && self.prng.chance(1, 20)
    }

    /// The report, and mostly the request it makes.
    fn plan_recovery(&mut self) {
        let report = report_now(&self.planned.runner.decompressor);
        self.push("p 200".to_string());
        if !report.is_empty() && self.prng.chance(4, 5) {
            self.push(format!("q {}", hex(&report)));
        }
    }

    fn open_stretch(&mut self) {
        let prng = &mut self.prng;
        let repeats = prng.pick(&[0, 1, 1, 2, 2, 2, 3, 4, 7, 13, 14]);
        let contexts = prng.pick(&[1, 2, 2, 3, 3, 4, 6, 63, 64]);
        let longest = prng.pick(&[30, 100, 400, 1500, 4000]);
        self.stretch = Stretch {
            calls_left: prng.between(longest / 2, longest),
            change: prng.pick(&[1, 2, 4, 10, 30]),
            wrong: prng.pick(&[0, 3, 10, 25]),
            odd: prng.pick(&[3, 8, 15, 30]),
            longest_loss: prng.pick(&[0, repeats, repeats, repeats, repeats + 2, 20]),
            loss: prng.pick(&[5, 15, 30]),
            rtp_headers: prng.pick(&[0, 10, 20, 30]),
            by_hand: prng.bit(),
            clean: !self.sender_only && prng.chance(1, 3),
        };
        if self.stretch.clean {
            self.stretch.by_hand = false;
            self.stretch.rtp_headers = 0;
            self.stretch.longest_loss = prng.pick(&[0, repeats, repeats]);
            if self.stretch.longest_loss > 0 {
                self.stretch.wrong = 0;
            }
        }
        if self.stretch.by_hand {
            self.stretch.odd = self.stretch.odd.max(15);
        }
        let flows = prng.pick(&[1, 1, 1, 2, 2, 3, 5]);
        self.flows = (0..flows).map(|_| Flow::new(&mut self.prng)).collect();
        self.in_flight.clear();
        self.lost_in_a_row = [0; 256];
        self.repair = None;
        self.push(format!("os {repeats} {contexts}"));
        if !self.sender_only {
            let (mut n, mut k) = (repeats, contexts);
            if !self.stretch.clean && self.prng.chance(1, 10) {
                n = self.prng.below(15);
                k = self.prng.between(1, 64);
            }
            self.push(format!("or {n} {k}"));
        }
    }

    // Ordinary calls

    fn plan_flow_packet(&mut self) {
        let which = self.prng.below(self.flows.len());
        let Stretch { change, wrong, .. } = self.stretch;
        let packet = self.flows[which].next_packet(&mut self.prng, change, wrong);
        self.plan_send(&packet);
    }

    /// Tries the send on a copy to know its exact length, and remembers what it gives out.
    fn plan_send(&mut self, packet: &[u8]) {
        let mut output = [0; MOST_BYTES];
        let mut table = self.planned.runner.compressor.clone();
        let answer = compressor::send(&mut table, packet, &mut output);
        let room = room(&mut self.prng, answer.length);
        if answer.number == 0 && room >= answer.length && !self.sender_only {
            let bytes = output[..answer.length].to_vec();
            self.in_flight.push_back((answer.link_type, bytes));
        }
        self.push(format!("s {} {room}", hex(packet)));
    }

    fn plan_arrival(&mut self) {
        if self.prng.below(100) < self.stretch.loss {
            self.lose_some();
        }
        let Some((mut link_type, mut bytes)) = self.in_flight.pop_front() else {
            return self.plan_flow_packet();
        };
        let header = self.rtp_header_instead(link_type, &bytes);
        // What it leaves in its context may be gone before a packet shows it.
        let show = header.is_some() && self.prng.chance(1, 8);
        if let Some(header) = header {
            (link_type, bytes) = (COMPRESSED_UDP, header);
        }
        let place = place_of(link_type, &bytes);
        let exact = exact_length(&self.planned.runner.decompressor, link_type, &bytes);
        let mut room = room(&mut self.prng, exact);
        if room < exact && !self.may_lose(place) {
            room = exact;
        }
        self.count(place, room < exact);
        self.push(format!("r {link_type} {} {room}", hex(&bytes)));
        if show {
            self.push(format!("dr {}", bytes[0]));
        }
        self.last_arrival = Some((link_type, bytes));
    }

    /// Now and then a CU without F takes the place of what was sent.
    fn rtp_header_instead(&mut self, link_type: u32, sent: &[u8]) -> Option<Vec<u8>> {
        if self.prng.below(100) >= self.stretch.rtp_headers {
            return None;
        }
        let table = &self.planned.runner.decompressor;
        forge::with_rtp_header(&mut self.prng, table, link_type, sent)
    }

    fn lose_some(&mut self) {
        for _ in 0..self.prng.between(0, self.stretch.longest_loss) {
            let Some((link_type, bytes)) = self.in_flight.front() else {
                return;
            };
            let place = place_of(*link_type, bytes);
            if !self.may_lose(place) {
                return;
            }
            self.count(place, true);
            self.in_flight.pop_front();
        }
    }

    /// In clean stretches one of N+1 neighbours on a context must get through.
    fn may_lose(&self, place: Option<u8>) -> bool {
        let repeats = usize::from(self.planned.runner.compressor.repeats);
        let few =
            |place: u8| self.stretch.wrong == 0 && self.lost_in_a_row[usize::from(place)] < repeats;
        !self.stretch.clean || place.is_none_or(few)
    }

    fn count(&mut self, place: Option<u8>, lost: bool) {
        if let Some(place) = place {
            let in_a_row = &mut self.lost_in_a_row[usize::from(place)];
            *in_a_row = if lost { *in_a_row + 1 } else { 0 };
        }
    }

    fn plan_receive(&mut self, link_type: u32, bytes: &[u8]) {
        let exact = exact_length(&self.planned.runner.decompressor, link_type, bytes);
        let room = room(&mut self.prng, exact);
        self.push(format!("r {link_type} {} {room}", hex(bytes)));
    }

    // Odd calls

    fn plan_odd_call(&mut self) {
        let choice = self.prng.below(100);
        match choice {
            0..=17 => self.plan_odd_send(),
            18..=31 => self.plan_request(),
            32..=47 => self.plan_show(),
            48..=61 if self.stretch.by_hand => self.plan_hand_write(),
            48..=49 => self.plan_stray_opening(),
            50 => self.plan_no_call(),
            51..=58 => self.plan_flow_packet(),
            _ if self.sender_only => self.plan_flow_packet(),
            59..=66 => self.plan_report(),
            _ if self.stretch.clean => self.plan_flow_packet(),
            67..=84 => {
                let table = &self.planned.runner.decompressor;
                let (link_type, bytes) = forge::compressed(&mut self.prng, table);
                self.plan_receive(link_type, &bytes);
            }
            85..=90 => self.plan_forged_full_header(),
            _ => self.plan_damaged_arrival(),
        }
    }

    fn plan_odd_send(&mut self) {
        let which = self.prng.below(self.flows.len());
        let packet = odd_packet(&mut self.prng, &self.flows[which]);
        self.plan_send(&packet);
    }

    /// Half of the requests are the report the decompressor would give now.
    fn plan_request(&mut self) {
        let report = report_now(&self.planned.runner.decompressor);
        let bytes = if !report.is_empty() && self.prng.bit() {
            report
        } else {
            forge::request(&mut self.prng, self.planned.runner.compressor.contexts)
        };
        self.push(format!("q {}", hex(&bytes)));
    }

    fn plan_report(&mut self) {
        let report = report_now(&self.planned.runner.decompressor);
        let room = room(&mut self.prng, report.len());
        self.push(format!("p {room}"));
    }

    fn plan_show(&mut self) {
        let of_decompressor = !self.sender_only && self.prng.bit();
        let place = self.likely_place(of_decompressor);
        let end = if of_decompressor { 'r' } else { 's' };
        self.push(format!("d{end} {place}"));
    }

    fn plan_forged_full_header(&mut self) {
        let which = self.prng.below(self.flows.len());
        let table = &self.planned.runner.decompressor;
        let bytes = forged_full_header(&mut self.prng, &self.flows[which], table);
        self.plan_receive(1, &bytes);
    }

    /// A sent packet damaged, under another type or a second time, or mere noise.
    fn plan_damaged_arrival(&mut self) {
        let sent = self.in_flight.front().or(self.last_arrival.as_ref());
        let (mut link_type, mut bytes) = sent.cloned().unwrap_or((2, vec![0, 0]));
        match self.prng.below(5) {
            0 => {
                link_type = self.prng.pick(&LINK_TYPES);
            }
            1 => {
                link_type = self.prng.below(7) as u32;
                bytes = forge::noise(&mut self.prng);
            }
            2 => {
                if let Some(again) = self.last_arrival.clone() {
                    (link_type, bytes) = again;
                }
            }
            _ => bytes = forge::damage(&mut self.prng, bytes),
        }
        self.plan_receive(link_type, &bytes);
    }

    /// Openings inside a stretch: refused ones mostly, since they must leave the table alone.
    fn plan_stray_opening(&mut self) {
        let end = if self.sender_only || self.prng.bit() {
            "os"
        } else {
            "or"
        };
        let (n, k) = if !self.stretch.clean && self.repair.is_none() && self.prng.chance(1, 12) {
            (self.prng.below(15) as u32, self.prng.between(1, 64) as u32)
        } else {
            self.prng.pick(&OUT_OF_RANGE)
        };
        self.push(format!("{end} {n} {k}"));
    }

    fn plan_no_call(&mut self) {
        let lines = [
            "x",
            "",
            "s",
            "s 45",
            "s 4 10",
            "q zz",
            "ds 64",
            "ws nothing 0 1",
            "ws tos 64 1",
        ];
        let line = self.prng.pick(&lines);
        self.push(line.to_string());
    }

    // Tables by hand

    /// A place that matters: mostly one in use, else one below K, now and then any.
    fn likely_place(&mut self, of_decompressor: bool) -> usize {
        let runner = &self.planned.runner;
        let used: Vec<usize> = (0..PLACES)
            .filter(|&place| {
                if of_decompressor {
                    runner.decompressor.places[place].status != Status::Empty
                } else {
                    runner.compressor.places[place].live
                }
            })
            .collect();
        let contexts = if of_decompressor {
            runner.decompressor.contexts
        } else {
            runner.compressor.contexts
        };
        match self.prng.below(20) {
            0 => self.prng.below(PLACES),
            1 => usize::from(contexts).min(PLACES - 1),
            2 | 3 => self.prng.below(usize::from(contexts).clamp(1, PLACES)),
            _ if used.is_empty() => 0,
            _ => self.prng.pick(&used),
        }
    }

    fn plan_hand_write(&mut self) {
        if self.repair.is_some() {
            return self.plan_flow_packet();
        }
        let of_decompressor = !self.sender_only && self.prng.bit();
        if self.prng.chance(1, 4) {
            return self.plan_whole_context(of_decompressor);
        }
        let mut place = self.likely_place(of_decompressor);
        let mut name = if of_decompressor {
            self.prng.pick(&DECOMPRESSOR_FIELDS)
        } else {
            self.prng.pick(&COMPRESSOR_FIELDS)
        };
        if self.prng.chance(1, 15) {
            place = 0;
            name = self.prng.pick(&["n", "k"]);
        }
        let value = self.field_value(of_decompressor, name, place);
        let end = if of_decompressor { 'r' } else { 's' };
        let old = self.field_now(of_decompressor, name, place);
        self.push(format!("w{end} {name} {place} {value}"));
        self.push(format!("d{end} {place}"));
        if !self.sound_after(of_decompressor, name, place, value) {
            let wait = self.prng.below(4);
            self.repair = Some((wait, format!("w{end} {name} {place} {old}")));
        }
    }

    /// Writes a whole context by hand, with a flow of this stretch so that its packets meet it.
    fn plan_whole_context(&mut self, of_decompressor: bool) {
        let which = self.prng.below(self.flows.len());
        if of_decompressor {
            let table = &self.planned.runner.decompressor;
            let place = self.prng.below(table.contexts.into());
            let mut now = table.places[place];
            let mut wanted = self.some_decompressor_context(which);
            for name in DECOMPRESSOR_FIELDS {
                let value = decompressor_field(&mut wanted, name).map_or(0, |field| field.get());
                let old = decompressor_field(&mut now, name).map_or(0, |field| field.get());
                if value != old {
                    self.push(format!("wr {name} {place} {value}"));
                }
            }
            self.push(format!("dr {place}"));
        } else {
            let table = &self.planned.runner.compressor;
            let place = self.prng.below(table.contexts.into());
            let mut now = table.places[place];
            let mut wanted = self.some_compressor_context(which);
            for name in COMPRESSOR_FIELDS {
                let value = compressor_field(&mut wanted, name).map_or(0, |field| field.get());
                let old = compressor_field(&mut now, name).map_or(0, |field| field.get());
                if value != old {
                    self.push(format!("ws {name} {place} {value}"));
                }
            }
            self.push(format!("ds {place}"));
        }
    }

    /// A sound live context as the flow's last packet might have left it, with counters at will.
    fn some_compressor_context(&mut self, which: usize) -> compressor::Context {
        let flow = &self.flows[which];
        let repeats = usize::from(self.planned.runner.compressor.repeats);
        let prng = &mut self.prng;
        let mut due = |most: usize| {
            let choices = [0, 0, 0, 0, 1.min(most), most / 2, most];
            prng.pick(&choices) as u8
        };
        let mut context = compressor::Context {
            live: true,
            fields: flow.header.fields,
            blank: flow.header.udp_checksum == 0,
            id_delta: flow.id_step,
            timestamp_delta: 0,
            has_earlier: true,
            earlier_id_delta: flow.id_step,
            earlier_timestamp_delta: flow.timestamp_step,
            id_due: due(repeats),
            sequence_due: due(repeats),
            timestamp_due: due(repeats),
            payload_due: due(repeats),
            list_due: due(repeats),
            id_delta_due: due(repeats),
            timestamp_delta_due: due(repeats),
            full_headers_due: 0,
            next_link: prng.below(16) as u8,
            generation: prng.pick(&[0, 1, 62, 63]),
        };
        if codes::timestamp_has_code(flow.timestamp_step) {
            context.timestamp_delta = flow.timestamp_step;
        }
        match prng.below(8) {
            0 => context.id_delta = prng.pick(&[0, 1, 300, 49151, 49152, 65535]),
            1 => context.timestamp_delta = prng.pick(&[0, 1, 160, 4_194_303, u32::MAX - 16383]),
            2 => context.has_earlier = false,
            3 => context.earlier_id_delta = prng.pick(&[0, 1, 2, 5]),
            4 => context.earlier_timestamp_delta = prng.pick(&[0, 10, 160, 1 << 31]),
            5 => context.full_headers_due = prng.pick(&[1, repeats as u8 + 1]),
            _ => {}
        }
        context
    }

    /// A sound filled context, live or broken, of the flow's last packet.
    fn some_decompressor_context(&mut self, which: usize) -> decompressor::Context {
        let flow = &self.flows[which];
        let prng = &mut self.prng;
        decompressor::Context {
            status: prng.pick(&[Status::Live, Status::Live, Status::Broken]),
            filled: true,
            fields: flow.header.fields,
            carried: prng.bit(),
            marker: prng.bit(),
            id_delta: prng.pick(&[0, 1, 2, 300, 49152, 65535]),
            timestamp_delta: prng.pick(&[0, 10, 160, 4_194_303, u32::MAX, u32::MAX - 16383]),
            last_link: prng.below(16) as u8,
            generation: prng.pick(&[0, 1, 62, 63]),
        }
    }

    /// Boundary values of every kind, values near the present one, and random ones.
    fn field_value(&mut self, of_decompressor: bool, name: &str, place: usize) -> u32 {
        let now = self.field_now(of_decompressor, name, place);
        let repeats = u32::from(self.planned.runner.compressor.repeats);
        let small = [0, 1, 2, 3, repeats, repeats + 1, repeats + 2, 14, 15, 16];
        let bytes = [63, 64, 65, 127, 128, 255];
        let wide = [256, 16383, 32768, 49152, 65535];
        let widest = [
            65536,
            4_194_303,
            4_194_304,
            u32::MAX,
            u32::MAX - 16383,
            u32::MAX - 16384,
            1 << 31,
        ];
        let width = self.field_width(of_decompressor, name, place);
        let prng = &mut self.prng;
        let value = match prng.below(12) {
            0 => now.wrapping_add(1),
            1 => now.wrapping_sub(1),
            2 => prng.number() as u32,
            3 | 4 => prng.pick(&bytes),
            5 | 6 => prng.pick(&wide),
            7 | 8 => prng.pick(&widest),
            _ => prng.pick(&small),
        };
        // Mostly within the field's type; the few others are no calls.
        if value > width && !prng.chance(1, 10) {
            value % (width + 1)
        } else {
            value
        }
    }

    fn field_now(&mut self, of_decompressor: bool, name: &str, place: usize) -> u32 {
        self.field(of_decompressor, name, place)
            .map_or(0, |field| field.get())
    }

    fn field_width(&mut self, of_decompressor: bool, name: &str, place: usize) -> u32 {
        match self.field(of_decompressor, name, place) {
            Some(Field::Bit(_)) => 1,
            Some(Field::Status(_)) => 2,
            Some(Field::Byte(_)) => 0xff,
            Some(Field::Short(_)) => 0xffff,
            _ => u32::MAX,
        }
    }

    fn field(&mut self, of_decompressor: bool, name: &str, place: usize) -> Option<Field<'_>> {
        if of_decompressor {
            decompressor_table_field(&mut self.planned.runner.decompressor, name, place)
        } else {
            compressor_table_field(&mut self.planned.runner.compressor, name, place)
        }
    }

    /// Whether the table is sound once the value is written.
    fn sound_after(&self, of_decompressor: bool, name: &str, place: usize, value: u32) -> bool {
        if of_decompressor {
            let mut table = self.planned.runner.decompressor.clone();
            if let Some(field) = decompressor_table_field(&mut table, name, place) {
                field.set(value);
            }
            decompressor::sound(Mutant::None, &table)
        } else {
            let mut table = self.planned.runner.compressor.clone();
            if let Some(field) = compressor_table_field(&mut table, name, place) {
                field.set(value);
            }
            compressor::sound(Mutant::None, &table)
        }
    }
}

/// Tries an arrival on a copy to know the length of what it rebuilds.
pub(crate) fn exact_length(table: &decompressor::Table, link_type: u32, bytes: &[u8]) -> usize {
    let mut output = [0; MOST_BYTES];
    decompressor::receive(&mut table.clone(), link_type, bytes, &mut output).length
}

pub(crate) fn something_broken(table: &decompressor::Table) -> bool {
    let mut contexts = table.places.iter();
    contexts.any(|context| context.status == Status::Broken)
}

pub(crate) fn report_now(table: &decompressor::Table) -> Vec<u8> {
    let mut output = [0; 256];
    let answer = decompressor::report(table, &mut output);
    output[..answer.length].to_vec()
}

/// Mostly enough room, often exactly enough, sometimes too little.
pub(crate) fn room(prng: &mut Prng, exact: usize) -> usize {
    match prng.below(40) {
        0 => exact.saturating_sub(1),
        1 if prng.bit() => prng.below(exact + 1),
        2..=9 => exact,
        10..=13 => (exact + prng.between(1, 40)).min(MOST_BYTES),
        14 => MOST_BYTES,
        _ if exact <= 100 => 100,
        _ => 1500,
    }
}

/// A packet no flow of the kind that is compressed would send: one condition broken, noise, or a length
/// around the limit.
pub(crate) fn odd_packet(prng: &mut Prng, flow: &Flow) -> Vec<u8> {
    match prng.below(40) {
        0 => forge::around_the_limit(prng, flow),
        1..=9 => forge::noise(prng),
        _ => {
            let payload = prng.bytes(3);
            flows::nearly_compressible(prng, flows::packet(&flow.header, &payload))
        }
    }
}

/// A flow's packet turned into an FH for the table.
pub(crate) fn forged_full_header(
    prng: &mut Prng,
    flow: &Flow,
    table: &decompressor::Table,
) -> Vec<u8> {
    let payload = prng.bytes(2);
    forge::full_header(prng, table, flows::packet(&flow.header, &payload))
}

/// The context number a link packet is on; a plain one is on none.
pub(crate) fn place_of(link_type: u32, bytes: &[u8]) -> Option<u8> {
    match link_type {
        0 => None,
        1 => bytes.get(3).copied(),
        _ => bytes.first().copied(),
    }
}

pub(crate) fn hex(bytes: &[u8]) -> String {
    let mut text = String::with_capacity(2 * bytes.len());
    push_hex(&mut text, bytes);
    text
}
