//! The decompressor: its table, arrivals and the context-state report (scope, Receiver; Link
//! layouts; Asking for whole headers).

use crate::bytes::{deliver, get16, put16, Reader};
use crate::codes;
use crate::header::{self, Fields, Header, FIXED, MAX_CSRC};
use crate::mutant::Mutant;
use crate::refusal::{Answer, Refusal};
use crate::udp_checksum;
use crate::{
    packet_length_allowed, settings_in_range, COMPRESSED_RTP, COMPRESSED_UDP, FULL_HEADER,
    MAX_PACKET, PLACES, PLAIN,
};

#[derive(Clone, Copy, Debug, Default, PartialEq, Eq)]
pub enum Status {
    #[default]
    Empty,
    Live,
    Broken,
}

#[derive(Clone, Copy, Debug, Default, PartialEq, Eq)]
pub struct Context {
    pub status: Status,
    /// Whether a full header ever set the fields; a context can break without one.
    pub filled: bool,
    /// Fields of the last packet rebuilt.
    pub fields: Fields,
    /// Whether CU and CR carry a UDP checksum; full headers alone decide.
    pub carried: bool,
    pub marker: bool,
    pub id_delta: u16,
    pub timestamp_delta: u32,
    /// Last accepted link sequence.
    pub last_link: u8,
    pub generation: u8,
}

#[derive(Clone, Debug, PartialEq, Eq)]
pub struct Table {
    pub repeats: u8,
    pub contexts: u8,
    pub places: [Context; PLACES],
}

impl Table {
    /// The all-zero table, which is not sound: K is 0.
    pub fn unopened() -> Self {
        Table {
            repeats: 0,
            contexts: 0,
            places: [Context::default(); PLACES],
        }
    }
}

/// Opens a table; the settings alone decide.
pub fn open(table: &mut Table, repeats: u32, contexts: u32) -> Answer {
    if !settings_in_range(repeats, contexts) {
        return Err(Refusal::Unsound).into();
    }
    *table = Table {
        repeats: repeats as u8,
        contexts: contexts as u8,
        places: [Context::default(); PLACES],
    };
    Ok(0).into()
}

/// Hands a link packet to the decompressor.
pub fn receive(table: &mut Table, link_type: u32, packet: &[u8], output: &mut [u8]) -> Answer {
    receive_with(Mutant::None, table, link_type, packet, output)
}

/// Writes the context-state report.
pub fn report(table: &Table, output: &mut [u8]) -> Answer {
    report_with(Mutant::None, table, output)
}

// Soundness

pub fn sound(mutant: Mutant, table: &Table) -> bool {
    if !settings_in_range(table.repeats.into(), table.contexts.into()) {
        return false;
    }
    table.places.iter().enumerate().all(|(place, context)| {
        if place >= usize::from(table.contexts) {
            return *context == Context::default() || mutant == Mutant::PlacesPastContextsIgnored;
        }
        match context.status {
            Status::Empty => *context == Context::default(),
            Status::Live => context.filled && filled_sound(context),
            Status::Broken if context.filled => filled_sound(context),
            Status::Broken => {
                *context
                    == Context {
                        status: Status::Broken,
                        ..Context::default()
                    }
            }
        }
    })
}

/// Each field of a filled context alone. Codes reach every 16-bit difference, but not every
/// timestamp difference.
fn filled_sound(context: &Context) -> bool {
    context.fields.sound()
        && codes::timestamp_has_code(context.timestamp_delta)
        && context.last_link <= 15
        && context.generation <= 63
}

// Arrivals

#[doc(hidden)]
pub fn receive_with(
    mutant: Mutant,
    table: &mut Table,
    link_type: u32,
    packet: &[u8],
    output: &mut [u8],
) -> Answer {
    match mutant {
        Mutant::AllRefused => Err(Refusal::PacketLength).into(),
        Mutant::FixedPacket => deliver(output, &[0x45], &[]).into(),
        Mutant::UntouchedOutput => {
            let mut unseen = vec![0; output.len()];
            accept_link_packet(mutant, table, link_type, packet, &mut unseen).into()
        }
        _ => accept_link_packet(mutant, table, link_type, packet, output).into(),
    }
}

fn accept_link_packet(
    mutant: Mutant,
    table: &mut Table,
    link_type: u32,
    packet: &[u8],
    output: &mut [u8],
) -> Result<usize, Refusal> {
    if !sound(mutant, table) {
        return Err(Refusal::Unsound);
    }
    if !matches!(
        link_type,
        PLAIN | FULL_HEADER | COMPRESSED_UDP | COMPRESSED_RTP
    ) {
        return Err(Refusal::LinkType);
    }
    if !packet_length_allowed(packet.len()) {
        return Err(Refusal::PacketLength);
    }
    match link_type {
        PLAIN => deliver(output, packet, &[]),
        FULL_HEADER => accept_full_header(mutant, table, packet, output),
        _ => accept_compressed(mutant, table, link_type, packet, output),
    }
}

/// FH sets the whole context from any state and any sequence.
fn accept_full_header(
    mutant: Mutant,
    table: &mut Table,
    packet: &[u8],
    output: &mut [u8],
) -> Result<usize, Refusal> {
    if packet.len() < FIXED {
        return Err(Refusal::CutShort);
    }
    let (first, second) = (get16(packet, 2), get16(packet, 24));
    let place = usize::from(first & 0xff);
    if place >= usize::from(table.contexts) {
        return Err(Refusal::ContextNumber);
    }
    let mut front = packet[..FIXED].to_vec();
    put16(&mut front, 2, packet.len() as u16);
    put16(&mut front, 24, (packet.len() - 20) as u16);
    let formed = packet[0] == 0x45
        && first >> 14 == 1
        && second >> 4 == 0
        && header::not_fragmented(packet)
        && header::is_udp(packet)
        && header::ip_checksum_right(mutant, &front)
        && header::rtp_version_is_2(packet);
    if !formed {
        return Err(Refusal::Form);
    }
    if header::length_with_list(packet) > packet.len() {
        return Err(Refusal::CutShort);
    }
    let header = header::parse(packet);
    if mutant == Mutant::ChecksumJudgedInFullHeader
        && header.udp_checksum != 0
        && !udp_checksum::right(mutant, &front, &packet[FIXED..])
    {
        return Err(Refusal::UdpChecksum);
    }
    let length = deliver(output, &front, &packet[FIXED..])?;
    table.places[place] = Context {
        status: Status::Live,
        filled: true,
        fields: header.fields,
        carried: header.udp_checksum != 0,
        marker: header.marker,
        id_delta: 1,
        timestamp_delta: 0,
        last_link: (second & 15) as u8,
        generation: (first >> 8 & 63) as u8,
    };
    Ok(length)
}

fn accept_compressed(
    mutant: Mutant,
    table: &mut Table,
    link_type: u32,
    packet: &[u8],
    output: &mut [u8],
) -> Result<usize, Refusal> {
    let place = usize::from(packet[0]);
    if place >= usize::from(table.contexts) {
        return Err(Refusal::ContextNumber);
    }
    let flags = *packet.get(1).ok_or(Refusal::CutShort)?;
    let repeats = table.repeats;
    let context = &mut table.places[place];
    let gap_instead = mutant == Mutant::GapCheckOnEmpty && context.status == Status::Empty;
    if context.status != Status::Live && !gap_instead {
        break_context(mutant, context);
        return Err(Refusal::NotLive);
    }
    let resets_early = mutant == Mutant::RefusedRtpHeaderResetsDelta;
    if resets_early && link_type == COMPRESSED_UDP && flags & 0x80 == 0 {
        context.timestamp_delta = 0;
    }
    let gap = (flags & 15).wrapping_sub(context.last_link) & 15;
    let gap_allowed = (1..=repeats + 1).contains(&gap);
    if mutant == Mutant::GapBeforeFields && !gap_allowed {
        break_context(mutant, context);
        return Err(Refusal::Gap);
    }
    let mut reader = Reader::new(&packet[2..]);
    let carried = if link_type == COMPRESSED_UDP {
        read_compressed_udp(mutant, flags, context.carried, &mut reader)?
    } else {
        read_compressed_rtp(mutant, flags, context.carried, &mut reader)?
    };
    let rest = reader.rest();
    if mutant == Mutant::ChecksumBeforeGap && gap > 0 {
        let (after, front) = rebuild(mutant, context, &carried, gap, flags & 15, rest);
        judge_checksum(mutant, context, &after, gap, &front, rest)?;
    }
    if !gap_allowed {
        break_context(mutant, context);
        return Err(Refusal::Gap);
    }
    let (after, front) = rebuild(mutant, context, &carried, gap, flags & 15, rest);
    let length = front.len() + rest.len();
    if mutant == Mutant::ChecksumBeforeLength {
        judge_checksum(mutant, context, &after, gap, &front, rest)?;
    }
    if length > MAX_PACKET {
        return Err(Refusal::RebuiltLength);
    }
    if mutant == Mutant::ChecksumAfterRoom && output.len() < length {
        return Err(Refusal::Room);
    }
    judge_checksum(mutant, context, &after, gap, &front, rest)?;
    deliver(output, &front, rest)?;
    *context = after;
    Ok(length)
}

/// The context after the packet, and the packet's headers; `rest` follows them as it came.
fn rebuild(
    mutant: Mutant,
    before: &Context,
    carried: &Carried,
    gap: u8,
    link: u8,
    rest: &[u8],
) -> (Context, Vec<u8>) {
    let after = advance(mutant, before, carried, gap, link);
    let header = Header {
        fields: after.fields,
        marker: after.marker,
        udp_checksum: carried.udp_checksum,
    };
    (after, header::build(&header, rest.len()))
}

/// Over a gap the packet is a guess: those that were missed may have brought something it relies on. Where the flow has
/// UDP checksums a wrong one disproves the guess, with or without room for the packet. The packet is not taken; what the
/// context held may be out of step, so it breaks. Without a gap nothing is guessed, and the checksum may be anything.
fn judge_checksum(
    mutant: Mutant,
    context: &mut Context,
    after: &Context,
    gap: u8,
    front: &[u8],
    rest: &[u8],
) -> Result<(), Refusal> {
    let carried = context.carried || mutant == Mutant::ChecksumJudgedWhereBlank;
    let judged = match mutant {
        Mutant::ChecksumNeverJudged => false,
        Mutant::ChecksumJudgedWithoutGap => carried,
        Mutant::ChecksumJudgedFromThirdStep => carried && gap > 2,
        _ => carried && gap > 1,
    };
    if !judged || udp_checksum::right(mutant, front, rest) {
        return Ok(());
    }
    if matches!(
        mutant,
        Mutant::WrongChecksumTakesPacket | Mutant::WrongChecksumKeepsAdvance
    ) {
        *context = *after;
    }
    if !matches!(
        mutant,
        Mutant::WrongChecksumTakesPacket | Mutant::WrongChecksumLeavesTable
    ) {
        break_context(mutant, context);
    }
    Err(Refusal::UdpChecksum)
}

/// Only the state changes: the report still needs the last sequence and generation.
fn break_context(mutant: Mutant, context: &mut Context) {
    if mutant == Mutant::BrokenForgets {
        *context = Context::default();
    }
    context.status = Status::Broken;
}

/// How CU and CR bring one numeric field.
#[derive(Clone, Copy, Default)]
struct Change<T> {
    whole: Option<T>,
    difference: Option<i32>,
}

/// What a CU or CR carries, once read.
#[derive(Clone, Copy, Default)]
struct Carried {
    marker: bool,
    udp_checksum: u16,
    id: Change<u16>,
    sequence: Change<u16>,
    timestamp: Change<u32>,
    payload: Option<u8>,
    list: Option<List>,
    /// Padding, extension and SSRC, known only from a whole RTP header.
    rtp_constants: Option<(bool, bool, u32)>,
    /// Whether the kept timestamp difference becomes 0 if none is sent.
    resets_timestamp_delta: bool,
}

#[derive(Clone, Copy)]
struct List {
    cc: u8,
    words: [u32; MAX_CSRC],
}

fn read_checksum(carried: bool, reader: &mut Reader) -> Result<u16, Refusal> {
    if carried {
        reader.word16()
    } else {
        Ok(0)
    }
}

fn read_if<T>(
    present: bool,
    read: impl FnOnce() -> Result<T, Refusal>,
) -> Result<Option<T>, Refusal> {
    if present {
        read().map(Some)
    } else {
        Ok(None)
    }
}

fn read_list(cc: u8, reader: &mut Reader) -> Result<List, Refusal> {
    let mut words = [0; MAX_CSRC];
    for word in words.iter_mut().take(usize::from(cc)) {
        *word = reader.word32()?;
    }
    Ok(List { cc, words })
}

fn read_payload_type(reader: &mut Reader) -> Result<u8, Refusal> {
    let payload = reader.byte()?;
    if payload & 0x80 != 0 {
        return Err(Refusal::Form);
    }
    Ok(payload)
}

/// MSTI of 1111 announces a second byte, whose four bits then count in place of the first four.
fn read_compressed_rtp(
    mutant: Mutant,
    flags: u8,
    checksum_carried: bool,
    reader: &mut Reader,
) -> Result<Carried, Refusal> {
    let udp_checksum = read_checksum(checksum_carried, reader)?;
    let second = read_if(flags >> 4 == 0b1111, || reader.byte())?;
    let msti = match second {
        Some(_) if mutant == Mutant::TrustsFirstFlags => flags,
        Some(second) => second,
        None => flags,
    };
    let id = read_if(msti & 0x10 != 0, || codes::read(mutant, reader))?;
    let sequence = read_if(msti & 0x40 != 0, || codes::read(mutant, reader))?;
    let timestamp = read_if(msti & 0x20 != 0, || codes::read(mutant, reader))?;
    let list = match second {
        Some(second) => Some(read_list(second & 15, reader)?),
        None => None,
    };
    Ok(Carried {
        marker: msti & 0x80 != 0,
        udp_checksum,
        id: Change {
            whole: None,
            difference: id,
        },
        sequence: Change {
            whole: None,
            difference: sequence,
        },
        timestamp: Change {
            whole: None,
            difference: timestamp,
        },
        list,
        ..Carried::default()
    })
}

fn read_compressed_udp(
    mutant: Mutant,
    flags: u8,
    checksum_carried: bool,
    reader: &mut Reader,
) -> Result<Carried, Refusal> {
    let second = read_if(flags & 0x80 != 0, || reader.byte())?;
    let udp_checksum = read_checksum(checksum_carried, reader)?;
    let id_difference = read_if(flags & 0x10 != 0, || codes::read(mutant, reader))?;
    let timestamp_difference = read_if(flags & 0x20 != 0, || codes::read(mutant, reader))?;
    let id = read_if(flags & 0x40 != 0, || reader.word16())?;
    let mut carried = match second {
        Some(second) => read_selected_fields(second, reader)?,
        None => read_rtp_header(reader)?,
    };
    carried.udp_checksum = udp_checksum;
    carried.id = Change {
        whole: id,
        difference: id_difference,
    };
    carried.timestamp.difference = timestamp_difference;
    match mutant {
        Mutant::RtpHeaderKeepsDelta => carried.resets_timestamp_delta = false,
        Mutant::SelectedFieldsResetDelta => carried.resets_timestamp_delta = true,
        Mutant::RtpHeaderDropsSentDelta if second.is_none() => carried.timestamp.difference = None,
        _ => {}
    }
    Ok(carried)
}

/// CU with F: only the fields that the second byte names.
fn read_selected_fields(second: u8, reader: &mut Reader) -> Result<Carried, Refusal> {
    let sequence = read_if(second & 0x40 != 0, || reader.word16())?;
    let timestamp = read_if(second & 0x20 != 0, || reader.word32())?;
    let payload = read_if(second & 0x10 != 0, || read_payload_type(reader))?;
    let list = read_list(second & 15, reader)?;
    Ok(Carried {
        marker: second & 0x80 != 0,
        sequence: Change {
            whole: sequence,
            difference: None,
        },
        timestamp: Change {
            whole: timestamp,
            difference: None,
        },
        payload,
        list: Some(list),
        ..Carried::default()
    })
}

/// CU without F: a whole RTP header. Its 12 fixed bytes are one field. As a full header does, it starts the
/// timestamp's steps anew; not the ID's, since it has no IP header.
fn read_rtp_header(reader: &mut Reader) -> Result<Carried, Refusal> {
    let mut fixed = Reader::new(reader.take(12)?);
    let first = fixed.byte()?;
    let second = fixed.byte()?;
    let sequence = fixed.word16()?;
    let timestamp = fixed.word32()?;
    let ssrc = fixed.word32()?;
    if first >> 6 != 2 {
        return Err(Refusal::Form);
    }
    let list = read_list(first & 15, reader)?;
    Ok(Carried {
        marker: second & 0x80 != 0,
        sequence: Change {
            whole: Some(sequence),
            difference: None,
        },
        timestamp: Change {
            whole: Some(timestamp),
            difference: None,
        },
        payload: Some(second & 0x7f),
        list: Some(list),
        rtp_constants: Some((first & 0x20 != 0, first & 0x10 != 0, ssrc)),
        resets_timestamp_delta: true,
        ..Carried::default()
    })
}

/// The context after a CU or CR that comes `gap` packets after the last accepted one.
fn advance(mutant: Mutant, before: &Context, carried: &Carried, gap: u8, link: u8) -> Context {
    let gap = if mutant == Mutant::SingleStep { 1 } else { gap };
    let mut after = *before;
    let id = advance_number(
        mutant,
        before.fields.id.into(),
        before.id_delta.into(),
        carried.id.difference,
        gap,
    );
    let sequence = advance_number(
        mutant,
        before.fields.sequence.into(),
        1,
        carried.sequence.difference,
        gap,
    );
    let timestamp = advance_number(
        mutant,
        before.fields.timestamp,
        before.timestamp_delta,
        carried.timestamp.difference,
        gap,
    );
    after.fields.id = carried.id.whole.unwrap_or(id as u16);
    after.fields.sequence = carried.sequence.whole.unwrap_or(sequence as u16);
    after.fields.timestamp = carried.timestamp.whole.unwrap_or(timestamp);
    let drops = mutant == Mutant::WholeFieldDropsDelta;
    match carried.id.difference {
        Some(_) if drops && carried.id.whole.is_some() => {}
        Some(difference) => after.id_delta = difference as u16,
        None if mutant == Mutant::RtpHeaderResetsIdDelta && carried.rtp_constants.is_some() => {
            after.id_delta = 1;
        }
        None => {}
    }
    match carried.timestamp.difference {
        Some(_) if drops && carried.timestamp.whole.is_some() => {}
        Some(difference) => after.timestamp_delta = difference as u32,
        None if carried.resets_timestamp_delta => after.timestamp_delta = 0,
        None => {}
    }
    after.marker = carried.marker;
    if let Some(payload) = carried.payload {
        after.fields.payload = payload;
    }
    if let Some(list) = carried.list {
        after.fields.cc = list.cc;
        after.fields.csrc = list.words;
    }
    if let Some((padding, extension, ssrc)) = carried.rtp_constants {
        after.fields.padding = padding;
        after.fields.extension = extension;
        after.fields.ssrc = ssrc;
    }
    if mutant == Mutant::CarriedFollowsPacket {
        after.carried = carried.udp_checksum != 0;
    }
    after.last_link = link;
    after
}

/// All steps but the last are the kept one; the last is the sent one if there is one. Worked modulo
/// 2^32; narrower fields keep the low bits, which comes to the same modulo 2^16.
fn advance_number(mutant: Mutant, from: u32, kept: u32, sent: Option<i32>, gap: u8) -> u32 {
    let last = sent.map_or(kept, |difference| difference as u32);
    let earlier = if mutant == Mutant::SentDeltaOnAllSteps {
        last
    } else {
        kept
    };
    let missed = u32::from(gap) - 1;
    from.wrapping_add(earlier.wrapping_mul(missed))
        .wrapping_add(last)
}

// Report

#[doc(hidden)]
pub fn report_with(mutant: Mutant, table: &Table, output: &mut [u8]) -> Answer {
    match mutant {
        Mutant::AllRefused => Err(Refusal::Room).into(),
        Mutant::UntouchedOutput => {
            let mut unseen = vec![0; output.len()];
            write_report(mutant, table, &mut unseen).into()
        }
        _ => write_report(mutant, table, output).into(),
    }
}

/// All broken contexts, lowest first. One never filled has zeros for sequence and generation, which
/// is what a sound table holds there anyway.
fn write_report(mutant: Mutant, table: &Table, output: &mut [u8]) -> Result<usize, Refusal> {
    if !sound(mutant, table) {
        return Err(Refusal::Unsound);
    }
    let top = if mutant == Mutant::ReportTopBitClear {
        0
    } else {
        0x80
    };
    let mut bytes = vec![1, 0];
    for (place, context) in table.places.iter().enumerate() {
        if context.status == Status::Broken {
            bytes[1] += 1;
            bytes.extend([place as u8, top | context.last_link, context.generation]);
        }
    }
    if bytes[1] == 0 {
        return Ok(0);
    }
    deliver(output, &bytes, &[])
}
