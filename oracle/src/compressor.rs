//! The compressor: its table, sends and context-state requests (scope, Sender; Asking for whole
//! headers).

use crate::bytes::{deliver, put16};
use crate::codes;
use crate::header::{self, Fields, Header};
use crate::mutant::Mutant;
use crate::refusal::{Answer, Refusal, SendAnswer};
use crate::{
    packet_length_allowed, settings_in_range, COMPRESSED_RTP, COMPRESSED_UDP, FULL_HEADER, PLACES,
    PLAIN,
};

/// What the compressor keeps of one flow. The due counters say in how many further packets an item
/// is still to be sent.
#[derive(Clone, Copy, Debug, Default, PartialEq, Eq)]
pub struct Context {
    pub live: bool,
    /// Fields of the last packet sent on the context.
    pub fields: Fields,
    /// Whether that packet's UDP checksum was blank.
    pub blank: bool,
    pub id_delta: u16,
    pub timestamp_delta: u32,
    /// Whether there is a difference one packet earlier to compare with.
    pub has_earlier: bool,
    pub earlier_id_delta: u16,
    pub earlier_timestamp_delta: u32,
    pub id_due: u8,
    pub sequence_due: u8,
    pub timestamp_due: u8,
    pub payload_due: u8,
    pub list_due: u8,
    pub id_delta_due: u8,
    pub timestamp_delta_due: u8,
    pub full_headers_due: u8,
    /// Link sequence of the next packet.
    pub next_link: u8,
    pub generation: u8,
}

#[derive(Clone, Debug, PartialEq, Eq)]
pub struct Table {
    pub repeats: u8,
    pub contexts: u8,
    pub places: [Context; PLACES],
}

impl Table {
    /// The all-zero table, which is not sound: K is 0.
    pub fn unopened() -> Self {
        Table {
            repeats: 0,
            contexts: 0,
            places: [Context::default(); PLACES],
        }
    }
}

/// Opens a table; the settings alone decide.
pub fn open(table: &mut Table, repeats: u32, contexts: u32) -> Answer {
    if !settings_in_range(repeats, contexts) {
        return Err(Refusal::Unsound).into();
    }
    *table = Table {
        repeats: repeats as u8,
        contexts: contexts as u8,
        places: [Context::default(); PLACES],
    };
    Ok(0).into()
}

/// Hands a packet to the compressor.
pub fn send(table: &mut Table, packet: &[u8], output: &mut [u8]) -> SendAnswer {
    send_with(Mutant::None, table, packet, output)
}

/// Hands a context-state request to the compressor.
pub fn request(table: &mut Table, state: &[u8]) -> Answer {
    request_with(Mutant::None, table, state)
}

// Soundness

pub fn sound(mutant: Mutant, table: &Table) -> bool {
    if !settings_in_range(table.repeats.into(), table.contexts.into()) {
        return false;
    }
    table.places.iter().enumerate().all(|(place, context)| {
        if place >= usize::from(table.contexts) {
            return *context == Context::default() || mutant == Mutant::PlacesPastContextsIgnored;
        }
        if context.live {
            live_sound(context, table.repeats)
        } else {
            *context == Context::default()
        }
    })
}

/// Each field of a live context alone. Only compressible packets fill a context, so the destination
/// port is even; a request leaves one full header more than any send does.
fn live_sound(context: &Context, repeats: u8) -> bool {
    let counters = [
        context.id_due,
        context.sequence_due,
        context.timestamp_due,
        context.payload_due,
        context.list_due,
        context.id_delta_due,
        context.timestamp_delta_due,
    ];
    context.fields.sound()
        && context.fields.dport & 1 == 0
        && codes::timestamp_has_code(context.timestamp_delta)
        && counters.iter().all(|&due| due <= repeats)
        && context.full_headers_due <= repeats + 1
        && context.next_link <= 15
        && context.generation <= 63
}

// Sending

#[doc(hidden)]
pub fn send_with(
    mutant: Mutant,
    table: &mut Table,
    packet: &[u8],
    output: &mut [u8],
) -> SendAnswer {
    match mutant {
        Mutant::AllRefused => Err(Refusal::PacketLength).into(),
        Mutant::FixedPacket => deliver(output, &[0x45], &[])
            .map(|length| (PLAIN, length))
            .into(),
        Mutant::UntouchedOutput => {
            let mut unseen = vec![0; output.len()];
            accept_packet(mutant, table, packet, &mut unseen).into()
        }
        _ => accept_packet(mutant, table, packet, output).into(),
    }
}

fn accept_packet(
    mutant: Mutant,
    table: &mut Table,
    packet: &[u8],
    output: &mut [u8],
) -> Result<(u32, usize), Refusal> {
    if !sound(mutant, table) {
        return Err(Refusal::Unsound);
    }
    if !packet_length_allowed(packet.len()) {
        return Err(Refusal::PacketLength);
    }
    if !header::compressible(mutant, packet) || mutant == Mutant::AllPlain {
        return send_plain(packet, output);
    }
    let header = header::parse(packet);
    let Some(place) = choose_place(table, &header.fields) else {
        return send_plain(packet, output);
    };
    let before = table.places[place];
    if before.live && mutant == Mutant::FirstThenPlain {
        return send_plain(packet, output);
    }
    let step = take_step(mutant, &before, &header, table.repeats);
    let rest = &packet[header::length_with_list(packet)..];
    let (link_type, front) = match step.form {
        Form::FullHeader => (
            FULL_HEADER,
            full_header_front(place, &step.after, before.next_link, packet),
        ),
        Form::CompressedUdp(sent) => (
            COMPRESSED_UDP,
            compressed_udp_front(place, &step.after, before.next_link, &header, &sent),
        ),
        Form::CompressedRtp => (
            COMPRESSED_RTP,
            compressed_rtp_front(place, before.next_link, &header),
        ),
    };
    let delivered = deliver(output, &front, rest);
    if delivered.is_ok() {
        table.places[place] = step.after;
    } else if mutant == Mutant::RefusedSendUsesLink {
        table.places[place].next_link = next_link(before.next_link);
    }
    Ok((link_type, delivered?))
}

fn send_plain(packet: &[u8], output: &mut [u8]) -> Result<(u32, usize), Refusal> {
    Ok((PLAIN, deliver(output, packet, &[])?))
}

/// The lowest context in use with the flow, else the lowest unused one.
fn choose_place(table: &Table, fields: &Fields) -> Option<usize> {
    let usable = &table.places[..usize::from(table.contexts)];
    usable
        .iter()
        .position(|context| context.live && context.fields.same_flow(fields))
        .or_else(|| usable.iter().position(|context| !context.live))
}

/// How a packet goes out, and the context afterwards.
struct Step {
    form: Form,
    after: Context,
}

enum Form {
    FullHeader,
    CompressedUdp(Sent),
    CompressedRtp,
}

/// What one packet has to carry beyond the marker.
#[derive(Clone, Copy, Default)]
struct Sent {
    id: bool,
    sequence: bool,
    timestamp: bool,
    payload: bool,
    list: bool,
    id_delta: bool,
    timestamp_delta: bool,
}

impl Sent {
    fn anything(&self) -> bool {
        self.id
            || self.sequence
            || self.timestamp
            || self.payload
            || self.list
            || self.id_delta
            || self.timestamp_delta
    }
}

fn take_step(mutant: Mutant, before: &Context, header: &Header, repeats: u8) -> Step {
    let mut after = if before.live {
        *before
    } else {
        new_context(repeats)
    };
    if before.live && constants_changed(before, header) {
        start_run(mutant, &mut after, repeats);
    }
    let full = after.full_headers_due > 0 || mutant == Mutant::AlwaysFullHeader;
    if full {
        after.full_headers_due = after.full_headers_due.saturating_sub(1);
        if mutant != Mutant::FullHeaderKeepsDeltas {
            reset_deltas(&mut after);
        }
    }
    let sent = if before.live {
        judge(mutant, &mut after, header, full, repeats)
    } else {
        Sent::default()
    };
    after.fields = header.fields;
    after.blank = header.udp_checksum == 0;
    after.next_link = next_link(after.next_link);
    let form = if full {
        Form::FullHeader
    } else if sent.anything() {
        Form::CompressedUdp(sent)
    } else {
        Form::CompressedRtp
    };
    Step { form, after }
}

fn new_context(repeats: u8) -> Context {
    Context {
        live: true,
        full_headers_due: repeats + 1,
        ..Context::default()
    }
}

/// Fields that CU and CR cannot carry; a change of any needs full headers.
fn constants_changed(before: &Context, header: &Header) -> bool {
    let (old, new) = (&before.fields, &header.fields);
    old.tos != new.tos
        || old.ttl != new.ttl
        || old.flags != new.flags
        || old.padding != new.padding
        || old.extension != new.extension
        || before.blank != (header.udp_checksum == 0)
}

/// A run afresh: N+1 full headers, generation one higher.
fn start_run(mutant: Mutant, context: &mut Context, repeats: u8) {
    context.full_headers_due = repeats + 1;
    if mutant != Mutant::GenerationNotRaised {
        context.generation = (context.generation + 1) % 64;
    }
}

/// A full header sets the decompressor's kept differences to 1 and 0.
fn reset_deltas(context: &mut Context) {
    context.id_delta = 1;
    context.timestamp_delta = 0;
    context.id_delta_due = 0;
    context.timestamp_delta_due = 0;
}

fn next_link(link: u8) -> u8 {
    (link + 1) % 16
}

/// Judges a packet against the one before it, moves all counters on, and tells what this packet
/// carries. The context still holds the fields of the packet before.
fn judge(mutant: Mutant, context: &mut Context, header: &Header, full: bool, repeats: u8) -> Sent {
    let (old, new) = (&context.fields, &header.fields);
    let id_step = new.id.wrapping_sub(old.id);
    let sequence_step = new.sequence.wrapping_sub(old.sequence);
    let timestamp_step = new.timestamp.wrapping_sub(old.timestamp);

    let counted = !(full && mutant == Mutant::RunNotCounted);
    let id_off = id_step != context.id_delta;
    let sequence_off = sequence_step != 1;
    let timestamp_off = timestamp_step != context.timestamp_delta;
    let payload_changed = new.payload != old.payload;
    let list_changed = !new.same_list(old);

    let may_adopt = !full || mutant == Mutant::AdoptsInFullHeader;
    let has_earlier = context.has_earlier || mutant == Mutant::EarlierForSecond;
    let any_step = mutant == Mutant::JumpAdopted;
    let id_adopted =
        may_adopt && id_off && (any_step || has_earlier && id_step == context.earlier_id_delta);
    let timestamp_adopted = may_adopt
        && timestamp_off
        && codes::timestamp_has_code(timestamp_step)
        && (any_step || has_earlier && timestamp_step == context.earlier_timestamp_delta);
    if id_adopted {
        context.id_delta = id_step;
    }
    if timestamp_adopted {
        context.timestamp_delta = timestamp_step;
    }

    let again = if mutant == Mutant::RepeatsOneShort {
        repeats.saturating_sub(1)
    } else {
        repeats
    };
    let sent = Sent {
        id: count(&mut context.id_due, id_off && counted, again),
        sequence: count(&mut context.sequence_due, sequence_off && counted, again),
        timestamp: count(&mut context.timestamp_due, timestamp_off && counted, again),
        payload: count(&mut context.payload_due, payload_changed, again),
        list: count(&mut context.list_due, list_changed, again),
        id_delta: count(&mut context.id_delta_due, id_adopted, again),
        timestamp_delta: count(&mut context.timestamp_delta_due, timestamp_adopted, again),
    };

    context.has_earlier = true;
    context.earlier_id_delta = id_step;
    context.earlier_timestamp_delta = timestamp_step;
    sent
}

/// One packet of one counter: a fresh change leaves N more, otherwise one of those due is used up.
/// Tells whether this packet carries the item.
fn count(due: &mut u8, fresh: bool, repeats: u8) -> bool {
    if fresh {
        *due = repeats;
        return true;
    }
    let carried = *due > 0;
    *due = due.saturating_sub(1);
    carried
}

// Link layouts

/// FH up to the end of the CSRC list: the packet with both length fields replaced.
fn full_header_front(place: usize, after: &Context, link: u8, packet: &[u8]) -> Vec<u8> {
    let mut front = packet[..header::length_with_list(packet)].to_vec();
    put16(
        &mut front,
        2,
        0x4000 | u16::from(after.generation) << 8 | place as u16,
    );
    put16(&mut front, 24, u16::from(link));
    front
}

fn compressed_rtp_front(place: usize, link: u8, header: &Header) -> Vec<u8> {
    let mut front = vec![place as u8, bit(header.marker, 7) | link];
    push_checksum(&mut front, header);
    front
}

/// CU with F; the second flags byte, CC and list are always there.
fn compressed_udp_front(
    place: usize,
    after: &Context,
    link: u8,
    header: &Header,
    sent: &Sent,
) -> Vec<u8> {
    let fields = &header.fields;
    let mut front = vec![
        place as u8,
        bit(true, 7)
            | bit(sent.id, 6)
            | bit(sent.timestamp_delta, 5)
            | bit(sent.id_delta, 4)
            | link,
        bit(header.marker, 7)
            | bit(sent.sequence, 6)
            | bit(sent.timestamp, 5)
            | bit(sent.payload, 4)
            | fields.cc,
    ];
    push_checksum(&mut front, header);
    if sent.id_delta {
        push_code(&mut front, Some(codes::written16(after.id_delta)));
    }
    if sent.timestamp_delta {
        push_code(&mut front, codes::written32(after.timestamp_delta));
    }
    if sent.id {
        front.extend(fields.id.to_be_bytes());
    }
    if sent.sequence {
        front.extend(fields.sequence.to_be_bytes());
    }
    if sent.timestamp {
        front.extend(fields.timestamp.to_be_bytes());
    }
    if sent.payload {
        front.push(fields.payload);
    }
    for word in &fields.csrc[..usize::from(fields.cc)] {
        front.extend(word.to_be_bytes());
    }
    front
}

fn bit(set: bool, place: u8) -> u8 {
    u8::from(set) << place
}

/// A change between blank and not blank means full headers, so outside them the packet's own
/// checksum tells whether the context carries one.
fn push_checksum(front: &mut Vec<u8>, header: &Header) {
    if header.udp_checksum != 0 {
        front.extend(header.udp_checksum.to_be_bytes());
    }
}

/// Kept differences of a sound table always have a code.
fn push_code(front: &mut Vec<u8>, written: Option<i32>) {
    if let Some(code) = written.and_then(codes::encode) {
        front.extend(code);
    }
}

// Requests

#[doc(hidden)]
pub fn request_with(mutant: Mutant, table: &mut Table, state: &[u8]) -> Answer {
    if mutant == Mutant::AllRefused {
        return Err(Refusal::CutShort).into();
    }
    accept_request(mutant, table, state).map(|()| 0).into()
}

/// All records are judged before the first is acted on, so a refusal changes nothing.
fn accept_request(mutant: Mutant, table: &mut Table, state: &[u8]) -> Result<(), Refusal> {
    if !sound(mutant, table) {
        return Err(Refusal::Unsound);
    }
    if state.len() < 2 {
        return Err(Refusal::CutShort);
    }
    let (code, count) = (state[0], usize::from(state[1]));
    if code != 1 || count == 0 {
        return Err(Refusal::Form);
    }
    if state.len() != 2 + 3 * count {
        return Err(Refusal::CutShort);
    }
    for record in state[2..].chunks(3) {
        if record[0] >= table.contexts {
            return Err(Refusal::ContextNumber);
        }
        if record[1] & 0x70 != 0 || record[2] & 0xc0 != 0 {
            return Err(Refusal::Form);
        }
    }
    let repeats = table.repeats;
    for record in state[2..].chunks(3) {
        let context = &mut table.places[usize::from(record[0])];
        let running = context.full_headers_due > 0 && mutant != Mutant::RequestRestartsRun;
        if record[1] & 0x80 != 0 && context.live && !running {
            start_run(mutant, context, repeats);
        }
    }
    Ok(())
}
