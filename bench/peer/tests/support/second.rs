//! The oracle beside the peer, with a built-in fault or none.

use crate::script::{Call, Kind};
use crate::side_by_side::{Other, PeerPair, Told};
use crate::tables::{lay_out_compressor, lay_out_decompressor};
use oracle::mutant::Mutant;
use oracle::script::Runner;
use oracle::{compressor, decompressor};

pub struct Second {
    mutant: Mutant,
    pub runner: Runner,
}

impl Second {
    pub fn with(mutant: Mutant) -> Self {
        let runner = Runner::default();
        Second { mutant, runner }
    }
}

impl Other for Second {
    const NAME: &'static str = "second";

    fn call(&mut self, at_endpoint: bool, call: &Call, output: &mut [u8]) -> Told {
        let runner = &mut self.runner;
        let (to, from) = if at_endpoint {
            (
                &mut runner.endpoint.compressor,
                &mut runner.endpoint.decompressor,
            )
        } else {
            (&mut runner.compressor, &mut runner.decompressor)
        };
        let (mutant, input) = (self.mutant, &call.input);
        let (n, k) = call.settings;
        let answer = match call.kind {
            Kind::OpenCompressor => compressor::open(to, n, k),
            Kind::OpenDecompressor => decompressor::open(from, n, k),
            Kind::Send => {
                let answer = compressor::send_with(mutant, to, input, output);
                return (answer.number, answer.link_type, answer.length);
            }
            Kind::Receive => {
                decompressor::receive_with(mutant, from, call.link_type, input, output)
            }
            Kind::Request => compressor::request_with(mutant, to, input),
            Kind::Report => decompressor::report_with(mutant, from, output),
        };
        (answer.number, 0, answer.length)
    }

    fn change(&mut self, line: &str) {
        self.runner.answer(line, &mut String::new());
    }

    fn same(&self, at_endpoint: bool, peer: &PeerPair) -> [bool; 2] {
        let runner = &self.runner;
        let (to, from) = if at_endpoint {
            (&runner.endpoint.compressor, &runner.endpoint.decompressor)
        } else {
            (&runner.compressor, &runner.decompressor)
        };
        [
            lay_out_compressor(to) == peer.compressor,
            lay_out_decompressor(from) == peer.decompressor,
        ]
    }
}
