//! Random call scripts for the endpoint alone. A script holds one endpoint; the generator lets a second
//! one face it in the library, so that real link packets, losses and reports go both ways.

use crate::endpoint::{self, Endpoint, TOTALS};
use crate::forge;
use crate::generate::{
    exact_length, forged_full_header, hex, odd_packet, report_now, room, something_broken,
    LINK_TYPES, OUT_OF_RANGE,
};
use crate::planned::{Planned, Planner};
use crate::prng::Prng;
use crate::script::MOST_BYTES;
use crate::way::{place_of_arrival, Way};
use crate::{compressor, CONTEXT_STATE, PLAIN};

pub struct Generator {
    prng: Prng,
    planned: Planned,
    /// The endpoint at the other end of the link.
    peer: Endpoint,
    calls_left: usize,
    /// Percent of packets with a change, and of calls that are hostile or odd.
    change: usize,
    odd: usize,
    /// From the script's endpoint to the peer, and back.
    out: Way,
    back: Way,
    last_given_out: Option<(u32, Vec<u8>)>,
    last_arrival: Option<(u32, Vec<u8>)>,
}

impl Generator {
    pub fn new(seed: u64) -> Self {
        let mut prng = Prng::new(seed);
        Generator {
            planned: Planned::default(),
            peer: Endpoint::unopened(),
            // The first stretch runs before any opening: the only place where calls are refused 1.
            calls_left: 60,
            change: 10,
            odd: 70,
            out: Way::new(&mut prng, 0, false),
            back: Way::new(&mut prng, 0, false),
            last_given_out: None,
            last_arrival: None,
            prng,
        }
    }
}

impl Planner for Generator {
    fn planned(&mut self) -> &mut Planned {
        &mut self.planned
    }

    fn plan(&mut self) {
        if self.calls_left == 0 {
            self.open_stretch();
        } else {
            self.calls_left -= 1;
            self.let_peer_live();
            self.plan_call();
        }
        if self.prng.chance(3, 16) {
            self.show_totals();
        }
    }
}

impl Generator {
    fn show_totals(&mut self) {
        self.push("bt".to_string());
    }

    fn plan_call(&mut self) {
        let broken = something_broken(&self.planned.runner.endpoint.decompressor);
        if self.prng.chance(1, 40) {
            self.plan_total();
        } else if broken && self.prng.chance(1, 20) {
            self.plan_recovery();
        } else if self.prng.below(100) < self.odd {
            self.plan_odd_call();
        } else if self.prng.chance(4, 9) {
            self.plan_arrival();
        } else {
            self.plan_flow_packet();
        }
    }

    fn open_stretch(&mut self) {
        let prng = &mut self.prng;
        let repeats = prng.pick(&[0, 1, 1, 2, 2, 2, 3, 4, 7, 13, 14]);
        let contexts = prng.pick(&[1, 2, 2, 3, 3, 4, 6, 63, 64]);
        let longest = prng.pick(&[30, 100, 400, 1500]);
        self.calls_left = prng.between(longest / 2, longest);
        self.change = prng.pick(&[1, 2, 4, 10, 30]);
        self.odd = prng.pick(&[3, 8, 15, 30]);
        let (out_clean, back_clean) = (prng.bit(), prng.bit());
        self.out = Way::new(prng, repeats, out_clean);
        self.back = Way::new(prng, repeats, back_clean);
        self.last_given_out = None;
        self.last_arrival = None;
        let (mut n, mut k) = (repeats as u32, contexts);
        if !out_clean && !back_clean && prng.chance(1, 5) {
            n = prng.below(15) as u32;
            k = prng.between(1, 64) as u32;
        }
        endpoint::open(&mut self.peer, n, k);
        self.push(format!("bo {repeats} {contexts}"));
    }

    // The peer, which no line shows

    fn let_peer_live(&mut self) {
        if self.back.in_flight.len() < 20 && self.prng.bit() {
            self.let_peer_send();
        }
        if self.prng.chance(2, 3) {
            self.let_peer_receive();
        }
        if something_broken(&self.peer.decompressor) && self.prng.chance(1, 20) {
            let report = report_now(&self.peer.decompressor);
            self.back.in_flight.push_back((CONTEXT_STATE, report));
        }
    }

    fn let_peer_send(&mut self) {
        let packet = if self.prng.chance(1, 30) {
            let which = self.prng.below(self.back.flows.len());
            odd_packet(&mut self.prng, &self.back.flows[which])
        } else {
            self.back.next_packet(&mut self.prng, self.change)
        };
        let mut output = [0; MOST_BYTES];
        let answer = endpoint::from_wire(&mut self.peer, &packet, &mut output);
        if answer.number == 0 {
            let bytes = output[..answer.length].to_vec();
            self.back.in_flight.push_back((answer.link_type, bytes));
        }
    }

    fn let_peer_receive(&mut self) {
        if let Some((link_type, bytes)) = self.out.next_arrival(&mut self.prng) {
            let mut output = [0; MOST_BYTES];
            let answer = endpoint::from_radio(&mut self.peer, link_type, &bytes, &mut output);
            let place = place_of_arrival(link_type, &bytes);
            self.out.count(place, answer.number != 0);
        }
    }

    // Ordinary calls

    fn plan_flow_packet(&mut self) {
        let packet = self.out.next_packet(&mut self.prng, self.change);
        self.plan_send(&packet);
    }

    /// Tries the send on a copy to know its exact length, and remembers what it gives out.
    fn plan_send(&mut self, packet: &[u8]) {
        let mut output = [0; MOST_BYTES];
        let mut table = self.planned.runner.endpoint.compressor.clone();
        let answer = compressor::send(&mut table, packet, &mut output);
        let room = room(&mut self.prng, answer.length);
        if answer.number == 0 && room >= answer.length {
            let sent = (answer.link_type, output[..answer.length].to_vec());
            self.last_given_out = Some(sent.clone());
            self.out.in_flight.push_back(sent);
        }
        self.push(format!("bw {} {room}", hex(packet)));
    }

    /// What the peer sent, its reports too.
    fn plan_arrival(&mut self) {
        let Some((link_type, bytes)) = self.back.next_arrival(&mut self.prng) else {
            return self.plan_flow_packet();
        };
        let exact = self.exact(link_type, &bytes);
        let mut room = room(&mut self.prng, exact);
        let place = place_of_arrival(link_type, &bytes);
        if room < exact && !self.back.may_lose(place) {
            room = exact;
        }
        self.back.count(place, room < exact);
        self.push(format!("br {link_type} {} {room}", hex(&bytes)));
        self.last_arrival = Some((link_type, bytes));
    }

    /// The report goes to the peer, unless it is lost or finds too little room. Only now, with something
    /// broken, can a report be refused.
    fn plan_recovery(&mut self) {
        let report = report_now(&self.planned.runner.endpoint.decompressor);
        if self.prng.chance(1, 4) {
            let room = self.prng.below(report.len());
            return self.push(format!("bp {room}"));
        }
        self.push("bp 200".to_string());
        if self.prng.chance(4, 5) {
            self.out.in_flight.push_back((CONTEXT_STATE, report));
        }
    }

    fn exact(&self, link_type: u32, bytes: &[u8]) -> usize {
        exact_length(&self.planned.runner.endpoint.decompressor, link_type, bytes)
    }

    fn plan_radio(&mut self, link_type: u32, bytes: &[u8]) {
        let exact = if link_type == CONTEXT_STATE {
            self.prng.below(8)
        } else {
            self.exact(link_type, bytes)
        };
        let room = room(&mut self.prng, exact);
        self.push(format!("br {link_type} {} {room}", hex(bytes)));
    }

    /// Near their end, where they stop; one that has stopped shows nothing more and is set back.
    fn plan_total(&mut self) {
        let totals = self.planned.runner.endpoint.totals.in_order();
        let stopped: Vec<usize> = (0..TOTALS)
            .filter(|&place| totals[place] == u32::MAX)
            .collect();
        let prng = &mut self.prng;
        let set_back = !stopped.is_empty() && prng.chance(2, 3);
        let place = if set_back {
            prng.pick(&stopped)
        } else {
            prng.below(TOTALS)
        };
        let value = match prng.below(4) {
            0 => prng.number() as u32,
            1 if set_back => 0,
            _ if set_back => prng.below(1000) as u32,
            _ => u32::MAX - prng.below(6) as u32,
        };
        self.push(format!("wt {place} {value}"));
        if self.prng.chance(1, 3) {
            self.show_totals();
        }
    }

    // Odd calls

    fn plan_odd_call(&mut self) {
        match self.prng.below(100) {
            0..=13 => self.plan_odd_send(),
            14..=27 => self.plan_request(),
            28..=34 => self.plan_unknown_type(),
            35..=44 => self.plan_report(),
            45..=48 => self.plan_stray_opening(),
            49..=51 => self.plan_no_call(),
            52..=55 => self.plan_flow_packet(),
            _ if self.back.clean => self.plan_arrival(),
            56..=61 => self.plan_own_packet(),
            62..=79 => {
                let table = &self.planned.runner.endpoint.decompressor;
                let (link_type, bytes) = forge::compressed(&mut self.prng, table);
                self.plan_radio(link_type, &bytes);
            }
            80..=86 => self.plan_forged_full_header(),
            87..=90 => {
                let bytes = forge::noise(&mut self.prng);
                self.plan_radio(PLAIN, &bytes);
            }
            _ => self.plan_damaged_arrival(),
        }
    }

    fn plan_odd_send(&mut self) {
        let which = self.prng.below(self.out.flows.len());
        let packet = odd_packet(&mut self.prng, &self.out.flows[which]);
        self.plan_send(&packet);
    }

    fn plan_forged_full_header(&mut self) {
        let flow = self.back.some_flow(&mut self.prng);
        let table = &self.planned.runner.endpoint.decompressor;
        let bytes = forged_full_header(&mut self.prng, flow, table);
        self.plan_radio(1, &bytes);
    }

    /// Context state that the peer never sent, sent earlier than it was due, or that was damaged on the
    /// way.
    fn plan_request(&mut self) {
        let report = report_now(&self.peer.decompressor);
        let contexts = self.planned.runner.endpoint.compressor.contexts;
        let prng = &mut self.prng;
        let bytes = match prng.below(8) {
            0 => forge::noise(prng),
            1 if !report.is_empty() => forge::damage(prng, report),
            2 | 3 if !report.is_empty() => report,
            _ => forge::request(prng, contexts),
        };
        self.plan_radio(CONTEXT_STATE, &bytes);
    }

    /// Types that no rule names go to the decompressor too, even with what would be a good request.
    fn plan_unknown_type(&mut self) {
        let link_type = match self.prng.below(10) {
            0 => (self.prng.number() as u32).max(5),
            _ => self.prng.pick(&LINK_TYPES[5..]),
        };
        let contexts = self.planned.runner.endpoint.compressor.contexts;
        let bytes = match self.prng.below(4) {
            0 => forge::noise(&mut self.prng),
            1 => self.some_link_packet().1,
            2 => Vec::new(),
            _ => forge::request(&mut self.prng, contexts),
        };
        self.plan_radio(link_type, &bytes);
    }

    fn plan_report(&mut self) {
        let exact = report_now(&self.planned.runner.endpoint.decompressor).len();
        let room = room(&mut self.prng, exact);
        self.push(format!("bp {room}"));
    }

    /// What the endpoint itself gave out, as if its own radio had heard it.
    fn plan_own_packet(&mut self) {
        match self.last_given_out.clone() {
            Some((link_type, bytes)) => self.plan_radio(link_type, &bytes),
            None => self.plan_flow_packet(),
        }
    }

    fn some_link_packet(&self) -> (u32, Vec<u8>) {
        let sent = self.back.in_flight.front().or(self.last_arrival.as_ref());
        sent.cloned().unwrap_or((2, vec![0, 0]))
    }

    /// A link packet damaged, under another type, a second time or too early, or mere noise.
    fn plan_damaged_arrival(&mut self) {
        let (mut link_type, mut bytes) = self.some_link_packet();
        match self.prng.below(6) {
            0 => link_type = self.prng.pick(&LINK_TYPES),
            1 => {
                link_type = self.prng.below(7) as u32;
                bytes = forge::noise(&mut self.prng);
            }
            2 => {
                if let Some(again) = self.last_arrival.clone() {
                    (link_type, bytes) = again;
                }
            }
            3 => {}
            _ => bytes = forge::damage(&mut self.prng, bytes),
        }
        self.plan_radio(link_type, &bytes);
    }

    /// Openings inside a stretch: refused ones mostly, since they must leave everything alone. After an
    /// accepted one the peer goes on as it was, so both directions are out of step.
    fn plan_stray_opening(&mut self) {
        let opened = self.planned.runner.endpoint.compressor.contexts > 0;
        let clean = self.out.clean || self.back.clean;
        let (n, k) = if opened && !clean && self.prng.chance(1, 10) {
            (self.prng.below(15) as u32, self.prng.between(1, 64) as u32)
        } else {
            self.prng.pick(&OUT_OF_RANGE)
        };
        self.push(format!("bo {n} {k}"));
        if self.prng.bit() {
            self.show_totals();
        }
    }

    fn plan_no_call(&mut self) {
        let lines = [
            "b",
            "bo 1",
            "bo 1 2 3",
            "bw 45",
            "bw 4 10",
            "bw 45 4097",
            "br 4 -",
            "br 4294967296 - 0",
            "br 4 01010080 0 0",
            "bp",
            "bp 4097",
            "bt 0",
            "wt 6 0",
            "wt 0 4294967296",
            "wt 5",
        ];
        let line = self.prng.pick(&lines);
        self.push(line.to_string());
    }
}
