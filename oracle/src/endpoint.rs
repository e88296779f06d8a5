//! An endpoint: a compressor and a decompressor in one, with totals of what passed through (change
//! request 1, which calls it the box). Packets come from two sides, the wire and the radio; the side
//! and the link type decide which of the two tables a call goes to, and only that table is judged.

use crate::mutant::Mutant;
use crate::refusal::{Answer, Refusal, SendAnswer};
use crate::{
    compressor, decompressor, settings_in_range, COMPRESSED_UDP, CONTEXT_STATE, FULL_HEADER, PLAIN,
};

/// What was counted since the opening. A total that has reached the greatest number stays there.
#[derive(Clone, Copy, Debug, Default, PartialEq, Eq)]
pub struct Totals {
    /// Accepted sends, by the link type they gave out.
    pub plain: u32,
    pub full_header: u32,
    pub compressed_udp: u32,
    pub compressed_rtp: u32,
    /// Accepted arrivals at the decompressor, plain ones too.
    pub rebuilt: u32,
    /// Calls refused by any number but 1.
    pub refused: u32,
}

/// How many totals there are.
pub const TOTALS: usize = 6;

impl Totals {
    pub fn in_order(&self) -> [u32; TOTALS] {
        [
            self.plain,
            self.full_header,
            self.compressed_udp,
            self.compressed_rtp,
            self.rebuilt,
            self.refused,
        ]
    }

    /// One total by its place in that order.
    pub fn at(&mut self, place: usize) -> Option<&mut u32> {
        match place {
            0 => Some(&mut self.plain),
            1 => Some(&mut self.full_header),
            2 => Some(&mut self.compressed_udp),
            3 => Some(&mut self.compressed_rtp),
            4 => Some(&mut self.rebuilt),
            5 => Some(&mut self.refused),
            _ => None,
        }
    }

    fn sent(&mut self, link_type: u32) -> &mut u32 {
        match link_type {
            PLAIN => &mut self.plain,
            FULL_HEADER => &mut self.full_header,
            COMPRESSED_UDP => &mut self.compressed_udp,
            // The compressor gives out no other type.
            _ => &mut self.compressed_rtp,
        }
    }
}

#[derive(Clone, Debug, PartialEq, Eq)]
pub struct Endpoint {
    pub compressor: compressor::Table,
    pub decompressor: decompressor::Table,
    pub totals: Totals,
}

impl Endpoint {
    /// All zero, so that neither table is sound.
    pub fn unopened() -> Self {
        Endpoint {
            compressor: compressor::Table::unopened(),
            decompressor: decompressor::Table::unopened(),
            totals: Totals::default(),
        }
    }
}

/// Opens both tables with the same settings and starts the totals at 0; the settings alone decide.
pub fn open(endpoint: &mut Endpoint, repeats: u32, contexts: u32) -> Answer {
    open_with(Mutant::None, endpoint, repeats, contexts)
}

/// Hands over a packet from the wire, which goes to the compressor.
pub fn from_wire(endpoint: &mut Endpoint, packet: &[u8], output: &mut [u8]) -> SendAnswer {
    from_wire_with(Mutant::None, endpoint, packet, output)
}

/// Hands over a link packet from the radio. Context state is the peer's request to the compressor and
/// gives out nothing; every other type, known or not, goes to the decompressor.
pub fn from_radio(
    endpoint: &mut Endpoint,
    link_type: u32,
    packet: &[u8],
    output: &mut [u8],
) -> Answer {
    from_radio_with(Mutant::None, endpoint, link_type, packet, output)
}

/// Writes the decompressor's context-state report.
pub fn report(endpoint: &mut Endpoint, output: &mut [u8]) -> Answer {
    report_with(Mutant::None, endpoint, output)
}

#[doc(hidden)]
pub fn open_with(mutant: Mutant, endpoint: &mut Endpoint, repeats: u32, contexts: u32) -> Answer {
    if !settings_in_range(repeats, contexts) {
        if mutant == Mutant::RefusedOpeningClearsTotals {
            endpoint.totals = Totals::default();
        }
        return Err(Refusal::Unsound).into();
    }
    compressor::open(&mut endpoint.compressor, repeats, contexts);
    decompressor::open(&mut endpoint.decompressor, repeats, contexts);
    if mutant != Mutant::OpeningKeepsTotals {
        endpoint.totals = Totals::default();
    }
    Ok(0).into()
}

#[doc(hidden)]
pub fn from_wire_with(
    mutant: Mutant,
    endpoint: &mut Endpoint,
    packet: &[u8],
    output: &mut [u8],
) -> SendAnswer {
    if judges_other_table(mutant) && !decompressor::sound(mutant, &endpoint.decompressor) {
        return Err(Refusal::Unsound).into();
    }
    let answer = compressor::send_with(mutant, &mut endpoint.compressor, packet, output);
    let totals = &mut endpoint.totals;
    if answer.number == 0 || mutant == Mutant::RefusedSendCountsAsPlain {
        count(mutant, totals.sent(answer.link_type));
    }
    count_refusal(mutant, totals, answer.number);
    answer
}

#[doc(hidden)]
pub fn from_radio_with(
    mutant: Mutant,
    endpoint: &mut Endpoint,
    link_type: u32,
    packet: &[u8],
    output: &mut [u8],
) -> Answer {
    let to_compressor = match mutant {
        Mutant::ContextStateToDecompressor => false,
        Mutant::HighTypesToCompressor => link_type >= CONTEXT_STATE,
        _ => link_type == CONTEXT_STATE,
    };
    if to_compressor {
        accept_request(mutant, endpoint, packet)
    } else {
        accept_link_packet(mutant, endpoint, link_type, packet, output)
    }
}

fn accept_request(mutant: Mutant, endpoint: &mut Endpoint, state: &[u8]) -> Answer {
    if judges_other_table(mutant) && !decompressor::sound(mutant, &endpoint.decompressor) {
        return Err(Refusal::Unsound).into();
    }
    let answer = compressor::request_with(mutant, &mut endpoint.compressor, state);
    if answer.number == 0 && mutant == Mutant::CountsRequests {
        count(mutant, &mut endpoint.totals.rebuilt);
    }
    if mutant != Mutant::RefusedRequestNotCounted {
        count_refusal(mutant, &mut endpoint.totals, answer.number);
    }
    answer
}

fn accept_link_packet(
    mutant: Mutant,
    endpoint: &mut Endpoint,
    link_type: u32,
    packet: &[u8],
    output: &mut [u8],
) -> Answer {
    if judges_other_table(mutant) && !compressor::sound(mutant, &endpoint.compressor) {
        return Err(Refusal::Unsound).into();
    }
    let table = &mut endpoint.decompressor;
    let answer = decompressor::receive_with(mutant, table, link_type, packet, output);
    let skipped = mutant == Mutant::PlainNotRebuilt && link_type == PLAIN;
    if answer.number == 0 && !skipped {
        count(mutant, &mut endpoint.totals.rebuilt);
    }
    count_refusal(mutant, &mut endpoint.totals, answer.number);
    answer
}

#[doc(hidden)]
pub fn report_with(mutant: Mutant, endpoint: &mut Endpoint, output: &mut [u8]) -> Answer {
    if judges_other_table(mutant) && !compressor::sound(mutant, &endpoint.compressor) {
        return Err(Refusal::Unsound).into();
    }
    let answer = decompressor::report_with(mutant, &endpoint.decompressor, output);
    if answer.number == 0 && mutant == Mutant::CountsReports {
        count(mutant, &mut endpoint.totals.rebuilt);
    }
    if mutant != Mutant::RefusedReportNotCounted {
        count_refusal(mutant, &mut endpoint.totals, answer.number);
    }
    answer
}

// Counting

fn judges_other_table(mutant: Mutant) -> bool {
    mutant == Mutant::JudgesBothTables
}

fn count(mutant: Mutant, total: &mut u32) {
    *total = if mutant == Mutant::TotalsWrap {
        total.wrapping_add(1)
    } else {
        total.saturating_add(1)
    };
}

/// A refusal by 1 tells of the table and not of the call, and is not counted.
fn count_refusal(mutant: Mutant, totals: &mut Totals, number: u8) {
    let skipped =
        number == Refusal::UdpChecksum.number() && mutant == Mutant::WrongChecksumNotCounted;
    let counted = number > Refusal::Unsound.number() && !skipped
        || number == Refusal::Unsound.number() && mutant == Mutant::CountsUnsound;
    if counted {
        count(mutant, &mut totals.refused);
    }
}
