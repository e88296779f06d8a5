//! One direction of the link for generated scripts: flows that speak there, what is on its way, and losses.

use crate::flows::Flow;
use crate::generate::place_of;
use crate::prng::Prng;
use crate::CONTEXT_STATE;
use std::collections::VecDeque;

/// One direction of the link: who speaks there, what is on its way, and how much is lost.
pub(crate) struct Way {
    pub(crate) flows: Vec<Flow>,
    pub(crate) in_flight: VecDeque<(u32, Vec<u8>)>,
    /// Longest run of losses, and percent of arrivals that start one.
    longest_loss: usize,
    loss: usize,
    /// Percent of UDP checksums that are wrong.
    pub(crate) wrong: usize,
    /// Nothing forged, and never more than N lost in a row on a context, nor any where checksums are wrong.
    pub(crate) clean: bool,
    /// Packets lost since the last one that was not, per context number.
    lost_in_a_row: [usize; 256],
    repeats: usize,
}

impl Way {
    pub(crate) fn new(prng: &mut Prng, repeats: usize, clean: bool) -> Self {
        let count = prng.pick(&[1, 1, 2, 2, 3, 5, 12, 40]);
        let longest_loss = if clean {
            prng.pick(&[0, repeats, repeats])
        } else {
            prng.pick(&[0, repeats, repeats, repeats + 2, 20])
        };
        Way {
            flows: (0..count).map(|_| Flow::new(prng)).collect(),
            in_flight: VecDeque::new(),
            longest_loss,
            loss: prng.pick(&[5, 15, 30]),
            wrong: if clean && longest_loss > 0 {
                0
            } else {
                prng.pick(&[0, 3, 10, 25])
            },
            clean,
            lost_in_a_row: [0; 256],
            repeats,
        }
    }

    /// The next packet that goes in at this way's beginning.
    pub(crate) fn next_packet(&mut self, prng: &mut Prng, change: usize) -> Vec<u8> {
        let which = prng.below(self.flows.len());
        self.flows[which].next_packet(prng, change, self.wrong)
    }

    pub(crate) fn some_flow(&self, prng: &mut Prng) -> &Flow {
        &self.flows[prng.below(self.flows.len())]
    }

    /// The next link packet that gets through.
    pub(crate) fn next_arrival(&mut self, prng: &mut Prng) -> Option<(u32, Vec<u8>)> {
        if prng.below(100) < self.loss {
            for _ in 0..prng.between(0, self.longest_loss) {
                let (link_type, bytes) = self.in_flight.front()?;
                let place = place_of_arrival(*link_type, bytes);
                if !self.may_lose(place) {
                    break;
                }
                self.count(place, true);
                self.in_flight.pop_front();
            }
        }
        self.in_flight.pop_front()
    }

    pub(crate) fn may_lose(&self, place: Option<u8>) -> bool {
        let few =
            |place: u8| self.wrong == 0 && self.lost_in_a_row[usize::from(place)] < self.repeats;
        !self.clean || place.is_none_or(few)
    }

    pub(crate) fn count(&mut self, place: Option<u8>, lost: bool) {
        if let Some(place) = place {
            let in_a_row = &mut self.lost_in_a_row[usize::from(place)];
            *in_a_row = if lost { *in_a_row + 1 } else { 0 };
        }
    }
}

/// Context state is on no context.
pub(crate) fn place_of_arrival(link_type: u32, bytes: &[u8]) -> Option<u8> {
    if link_type == CONTEXT_STATE {
        return None;
    }
    place_of(link_type, bytes)
}
