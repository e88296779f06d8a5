//! The compressor: its table, sends and requests (rules 8 and 9).

use crate::bytes::deliver;
use crate::front::{Front, Packet};
use crate::kept::{flow_of, last_of, pack, Kept, BLOCK, BLOCKS, SHARED};
use crate::kept::{CC, DPORT_LOW, EXTENSION, FLAGS, GENERATION, LINK, PADDING, PAYLOAD, STATUS};
use crate::kept::{DELTA_HIGH, DELTA_HIGHEST, DELTA_LOW};
use crate::walk::{self, part};
use crate::{codes, length_allowed, refusal, settings_allowed, Answer, SendAnswer};
use crate::{COMPRESSED_RTP, COMPRESSED_UDP, FULL_HEADER, MOST, PLACES, PLAIN};

// Planes of the compressor.
/// Whether the last packet's UDP checksum was blank.
pub const BLANK: usize = SHARED;
/// Whether there is a last difference: not after a context's first packet.
pub const EARLIER: usize = SHARED + 1;
/// Due counters (rules 8.6, 8.7), of so many things.
pub const DUE: usize = SHARED + 2;
pub const FULL_DUE: usize = DUE + DUES;
const PLANES: usize = FULL_DUE + 1;

/// Things that are due.
pub mod due {
    pub const ID: usize = 0;
    pub const SEQUENCE: usize = 1;
    pub const TIMESTAMP: usize = 2;
    pub const PAYLOAD: usize = 3;
    pub const LIST: usize = 4;
    pub const ID_DELTA: usize = 5;
    pub const TIMESTAMP_DELTA: usize = 6;
}
const DUES: usize = 7;

/// A compressor's table. It may hold anything. A status is 0 for empty or 1 for live; the link sequence is that of the next packet.
/// The second number of [`Kept::steps`] is, from the lowest bit up: delta of the ID, last differences of ID and timestamp.
#[repr(C)]
#[derive(Clone, Debug, PartialEq, Eq)]
pub struct Table {
    pub kept: Kept<PLANES, 2>,
    pub repeats: u8,
    pub contexts: u8,
}

impl Table {
    const UNOPENED: Self = Table {
        kept: Kept::ZERO,
        repeats: 0,
        contexts: 0,
    };

    /// All zero, which is not sound: K is 0.
    pub fn unopened() -> Self {
        Self::UNOPENED
    }
}

/// Opens a table; the settings alone decide.
pub fn open(table: &mut Table, repeats: u32, contexts: u32) -> Answer {
    if !settings_allowed(repeats, contexts) {
        return Err(refusal::UNSOUND).into();
    }
    table.clone_from(&Table::UNOPENED);
    table.repeats = repeats as u8;
    table.contexts = contexts as u8;
    Ok(0).into()
}

/// Hands a packet to the compressor.
///
/// The walk leaves off three times to work on the packet, since a processor that has nothing but vectors to load does little else.
/// Nothing comes of the packet before the table is judged.
pub fn send(table: &mut Table, packet: &[u8], output: &mut [u8]) -> SendAnswer {
    let kept = &table.kept;
    let mut lists = kept.any_list(0);
    let front = Front::of(packet).unwrap_or(Front([0; 5]));
    let compressible = packet.len() <= MOST && is_compressible(&front, packet.len());
    lists |= kept.any_list(1);
    let found = find(table, &front);
    lists |= kept.any_list(2);
    let place = usize::from(found & 63) ^ 63;
    let only = usize::from(found >> 6) == place;
    let steady = compressible & only & is_steady(table, place, &front);
    lists |= kept.any_list(3);
    if !sound(table, lists) {
        return Err(refusal::UNSOUND).into();
    }
    if steady {
        if let Some(length) = send_steady(table, place, front, packet, output) {
            return Ok((COMPRESSED_RTP, length)).into();
        }
    }
    send_any(table, packet, output).into()
}

/// Hands a context-state request to the compressor.
pub fn request(table: &mut Table, state: &[u8]) -> Answer {
    try_request(table, state).map(|()| 0).into()
}

// Soundness

/// Rules 2.2 to 2.4, where it is known whether there are any words in the CSRC lists. Mostly all contexts are live, or the first
/// ones and not too many.
#[inline(always)]
fn sound(table: &Table, lists: bool) -> bool {
    let kept = &table.kept;
    let status = &kept.planes[STATUS];
    let sound = if status.iter().fold(0, |all, status| all | (status ^ 1)) == 0 {
        table.contexts == PLACES as u8 && in_range::<PLACES>(table, 0)
    } else {
        match walk::ones_first(status) {
            Some(live @ ..=walk::LAST) => live <= table.contexts.into() && sound_up_to(table, live),
            _ => any_sound(table),
        }
    };
    settings_allowed(table.repeats.into(), table.contexts.into())
        && sound
        && (!lists || kept.lists_sound())
}

/// Every field of a live context by itself; 0 is in every range.
#[inline(always)]
fn in_range<const LENGTH: usize>(table: &Table, number: usize) -> bool {
    let plane = |plane: usize| part::<LENGTH>(&table.kept.planes[plane], number);
    let (flags, padding, extension) = (plane(FLAGS), plane(PADDING), plane(EXTENSION));
    let (payload, cc, link) = (plane(PAYLOAD), plane(CC), plane(LINK));
    let (generation, dport) = (plane(GENERATION), plane(DPORT_LOW));
    let (low, high, highest) = (plane(DELTA_LOW), plane(DELTA_HIGH), plane(DELTA_HIGHEST));
    let (blank, earlier, full_due) = (plane(BLANK), plane(EARLIER), plane(FULL_DUE));
    let due = [0, 1, 2, 3, 4, 5, 6].map(|thing| plane(DUE + thing));
    let repeats = table.repeats;
    let mut bad = 0;
    for i in 0..LENGTH {
        let most = due.iter().fold(0, |most: u8, due| most.max(due[i]));
        bad |= (padding[i] | extension[i] | blank[i] | earlier[i]) & !1
            | flags[i] & !3
            | (cc[i] | link[i]) & !15
            | generation[i] & !63
            | payload[i] & !127
            | dport[i] & 1
            | most.saturating_sub(repeats)
            | full_due[i].saturating_sub(repeats.wrapping_add(1))
            | codes::none(low[i], high[i], highest[i]);
    }
    bad == 0
}

/// Where only so many are live, and these come first.
#[inline(always)]
fn sound_up_to(table: &Table, live: usize) -> bool {
    let kept = &table.kept;
    let mut sound = true;
    for number in 0..live.div_ceil(BLOCK) {
        sound &= in_range::<BLOCK>(table, number);
    }
    sound
        && walk::planes_zero_from(&kept.planes, live)
        && walk::shorts_zero_from(&kept.ssrc_low, live)
        && walk::rows_zero_from(&kept.flows, live)
        && walk::rows_zero_from(&kept.steps, live)
}

/// Where live and empty contexts are in any order, or nearly all are live, or there is another status.
#[inline(never)]
fn any_sound(table: &Table) -> bool {
    let kept = &table.kept;
    in_range::<PLACES>(table, 0)
        && (0..PLACES).all(|place| match kept.planes[STATUS][place] {
            0 => {
                kept.planes.iter().all(|plane| plane[place] == 0)
                    && kept.ssrc_low[place] == 0
                    && kept.flows[place] == [0; 2]
                    && kept.steps[place] == [0; 2]
            }
            1 => place < table.contexts.into(),
            _ => false,
        })
}

// Sending

/// Rule 5.1, but for the list, which has to be there.
#[inline(always)]
fn is_compressible(front: &Front, length: usize) -> bool {
    front.formed(length) && front.dport_low() & 1 == 0 && front.ip_checksum_right()
}

#[inline(always)]
fn compressible(packet: &[u8]) -> Option<Packet<'_>> {
    let front = Front::of(packet)?;
    if is_compressible(&front, packet.len()) {
        Packet::of(front, packet)
    } else {
        None
    }
}

/// Looks in all places at once for the lower half of the SSRC. The number of each place where it is goes on top of the others, once
/// as it is and once with its bits turned over: if there is only one, each of the two has the bits that the other has not.
#[inline(always)]
fn find(table: &Table, front: &Front) -> u16 {
    let wanted = front.ssrc_low();
    let mut found = 0;
    for (place, low) in table.kept.ssrc_low.iter().enumerate() {
        let both = (place << 6 | (63 - place)) as u16;
        found |= if *low == wanted { both } else { 0 };
    }
    found
}

/// Whether a packet that is compressible is on this context and nothing is due with it: the most frequent case, and a CR.
#[inline(always)]
fn is_steady(table: &Table, place: usize, front: &Front) -> bool {
    let kept = &table.kept;
    let [flow, new] = [kept.flows[place], flow_of(front)];
    let next = pack(
        kept.id(place).wrapping_add(kept.steps[place][1] as u16),
        kept.sequence(place).wrapping_add(1),
        kept.timestamp(place)
            .wrapping_add(kept.timestamp_delta(place)),
    );
    // The topmost byte is the delta's.
    let rows = (flow[0] ^ new[0]) << 8 | (flow[1] ^ new[1]) | (next ^ last_of(front));
    let rtp = 0x80
        | kept.planes[PADDING][place] << 5
        | kept.planes[EXTENSION][place] << 4
        | kept.planes[CC][place];
    let mut bytes = rtp ^ front.rtp();
    bytes |= kept.planes[PAYLOAD][place] ^ front.payload();
    bytes |= kept.planes[FLAGS][place] ^ front.flags();
    bytes |= kept.planes[DPORT_LOW][place] ^ front.dport_low();
    bytes |= kept.planes[STATUS][place] ^ 1;
    bytes |= kept.planes[BLANK][place] ^ u8::from(front.checksum() == 0);
    bytes |= kept.planes[FULL_DUE][place];
    for due in &kept.planes[DUE..][..DUES] {
        bytes |= due[place];
    }
    rows | u64::from(bytes) == 0
}

/// Sends such a packet; none if its list is another one, or if there is no room.
#[inline(always)]
fn send_steady(
    table: &mut Table,
    place: usize,
    front: Front,
    packet: &[u8],
    output: &mut [u8],
) -> Option<usize> {
    let kept = &mut table.kept;
    let place = place % PLACES;
    let new = Packet::of(front, packet)?;
    if front.cc() != 0 && kept.list(place) != new.list {
        return None;
    }
    let link = kept.planes[LINK][place];
    let flags = front.marker() << 7 | link;
    let checksum = front.checksum();
    let length = if checksum == 0 { 2 } else { 4 } + new.rest.len();
    let room = output.get_mut(..length)?;
    let behind = if checksum == 0 {
        let (head, behind) = room.split_first_chunk_mut()?;
        *head = [place as u8, flags];
        behind
    } else {
        let [high, low] = checksum.to_le_bytes();
        let (head, behind) = room.split_first_chunk_mut()?;
        *head = [place as u8, flags, high, low];
        behind
    };
    // On pattern the steps are the deltas.
    let id_delta = kept.steps[place][1] as u16;
    let deltas = pack(id_delta, id_delta, kept.timestamp_delta(place));
    kept.steps[place] = [last_of(&front), deltas];
    kept.planes[EARLIER][place] = 1;
    kept.planes[LINK][place] = (link + 1) & 15;
    behind.copy_from_slice(new.rest);
    Some(length)
}

/// Any packet, where the table is sound.
#[inline(never)]
fn send_any(table: &mut Table, packet: &[u8], output: &mut [u8]) -> Result<(u32, usize), u8> {
    if !length_allowed(packet.len()) {
        return Err(refusal::LENGTH);
    }
    let plain = |output: &mut [u8]| Ok((PLAIN, deliver(output, packet, &[])?));
    let Some(new) = compressible(packet) else {
        return plain(output);
    };
    let kept = &table.kept;
    let mut contexts = 0..usize::from(table.contexts);
    let of_flow = contexts
        .clone()
        .find(|&place| is_flow(kept, place, &new.front));
    let empty = contexts.find(|&place| kept.planes[STATUS][place] == 0);
    match (of_flow, empty) {
        (Some(place), _) => send_next(table, place, packet, &new, output),
        (None, Some(place)) => send_first(table, place, packet, &new, output),
        (None, None) => plain(output),
    }
}

/// Whether a place is live and of the packet's flow (rule 5.4).
fn is_flow(kept: &Kept<PLANES, 2>, place: usize, front: &Front) -> bool {
    let [flow, new] = [kept.flows[place], flow_of(front)];
    let ttl_and_tos = 0xffff;
    kept.ssrc_low[place] == front.ssrc_low()
        && (flow[0] ^ new[0]) << 8 == 0
        && (flow[1] ^ new[1]) & !ttl_and_tos == 0
        && kept.planes[DPORT_LOW][place] == front.dport_low()
        && kept.planes[STATUS][place] == 1
}

/// A context's first packet is the first of a run, and is not judged (rules 8.1, 8.2, 8.5).
fn send_first(
    table: &mut Table,
    place: usize,
    packet: &[u8],
    new: &Packet,
    output: &mut [u8],
) -> Result<(u32, usize), u8> {
    let length = full_header(output, packet, 0, place, 0)?;
    let kept = &mut table.kept;
    kept.put(place, new, 0);
    kept.steps[place][1] = pack(1, 0, 0);
    kept.planes[STATUS][place] = 1;
    kept.planes[BLANK][place] = u8::from(new.front.checksum() == 0);
    kept.planes[FULL_DUE][place] = table.repeats;
    kept.planes[LINK][place] = 1;
    Ok((FULL_HEADER, length))
}

/// The packet itself, but for both lengths (rule 6.1).
fn full_header(
    output: &mut [u8],
    packet: &[u8],
    generation: u8,
    place: usize,
    link: u8,
) -> Result<usize, u8> {
    let length = deliver(output, packet, &[])?;
    output[2..4].copy_from_slice(&[0x40 | generation, place as u8]);
    output[24..26].copy_from_slice(&[0, link]);
    Ok(length)
}

/// A packet after the first of its context (rules 8.3 to 8.8). The table changes once the packet is given out.
fn send_next(
    table: &mut Table,
    place: usize,
    packet: &[u8],
    new: &Packet,
    output: &mut [u8],
) -> Result<(u32, usize), u8> {
    let place = place % PLACES;
    let (kept, front) = (&mut table.kept, &new.front);
    let repeats = table.repeats;
    let blank = u8::from(front.checksum() == 0);
    // TTL and TOS are in the second number.
    let constants = (kept.flows[place][1] ^ flow_of(front)[1])
        | u64::from(kept.planes[FLAGS][place] ^ front.flags())
        | u64::from(kept.planes[PADDING][place] ^ front.padding())
        | u64::from(kept.planes[EXTENSION][place] ^ front.extension())
        | u64::from(kept.planes[BLANK][place] ^ blank);
    let mut full_due = kept.planes[FULL_DUE][place];
    let mut generation = kept.planes[GENERATION][place];
    if constants != 0 {
        full_due = repeats + 1;
        generation = (generation + 1) & 63;
    }
    let full = full_due > 0;
    let mut due: [u8; DUES] = std::array::from_fn(|thing| kept.planes[DUE + thing][place]);
    let steps = kept.steps[place][1];
    let (mut id_delta, earlier_id_delta) = (steps as u16, (steps >> 16) as u16);
    let (mut timestamp_delta, earlier_timestamp_delta) =
        (kept.timestamp_delta(place), (steps >> 32) as u32);
    if full {
        full_due -= 1;
        id_delta = 1;
        timestamp_delta = 0;
        due[due::ID_DELTA] = 0;
        due[due::TIMESTAMP_DELTA] = 0;
    }

    let id_step = front.id().wrapping_sub(kept.id(place));
    let timestamp_step = front.timestamp().wrapping_sub(kept.timestamp(place));
    let id_off = id_step != id_delta;
    let timestamp_off = timestamp_step != timestamp_delta;
    let adopts = !full && kept.planes[EARLIER][place] == 1;
    let adopts_id = adopts && id_off && id_step == earlier_id_delta;
    let adopts_timestamp = adopts
        && timestamp_off
        && timestamp_step == earlier_timestamp_delta
        && codes::has_code(timestamp_step);
    if adopts_id {
        id_delta = id_step;
    }
    if adopts_timestamp {
        timestamp_delta = timestamp_step;
    }

    let mut fresh = [false; DUES];
    fresh[due::ID] = id_off;
    fresh[due::SEQUENCE] = front.sequence().wrapping_sub(kept.sequence(place)) != 1;
    fresh[due::TIMESTAMP] = timestamp_off;
    fresh[due::PAYLOAD] = kept.planes[PAYLOAD][place] != front.payload();
    fresh[due::LIST] = kept.list(place) != new.list;
    fresh[due::ID_DELTA] = adopts_id;
    fresh[due::TIMESTAMP_DELTA] = adopts_timestamp;
    let mut goes_out = [0; DUES];
    for thing in 0..DUES {
        goes_out[thing] = u8::from(fresh[thing] || due[thing] > 0);
        due[thing] = if fresh[thing] {
            repeats
        } else {
            due[thing].saturating_sub(1)
        };
    }

    let link = kept.planes[LINK][place];
    let answer = if full {
        let length = full_header(output, packet, generation, place, link)?;
        (FULL_HEADER, length)
    } else {
        let mut written = Written::default();
        let link_type = if goes_out == [0; DUES] {
            written.compressed_rtp(place, link, new);
            COMPRESSED_RTP
        } else {
            written.compressed_udp(place, link, new, &goes_out, id_delta, timestamp_delta);
            COMPRESSED_UDP
        };
        (link_type, deliver(output, written.bytes(), new.rest)?)
    };
    kept.put(place, new, timestamp_delta);
    kept.planes[GENERATION][place] = generation;
    kept.planes[LINK][place] = (link + 1) & 15;
    kept.steps[place][1] = pack(id_delta, id_step, timestamp_step);
    kept.planes[BLANK][place] = blank;
    kept.planes[EARLIER][place] = 1;
    for (plane, due) in kept.planes[DUE..].iter_mut().zip(due) {
        plane[place] = due;
    }
    kept.planes[FULL_DUE][place] = full_due;
    Ok(answer)
}

/// A CU or CR up to what is copied, and as many bytes as one can have.
struct Written {
    to: [u8; 3 + 2 + 3 + 3 + 2 + 2 + 4 + 1 + 60],
    used: usize,
}

impl Default for Written {
    fn default() -> Self {
        Written {
            to: [0; 80],
            used: 0,
        }
    }
}

impl Written {
    fn bytes(&self) -> &[u8] {
        &self.to[..self.used]
    }

    fn push(&mut self, bytes: &[u8]) {
        self.to[self.used..][..bytes.len()].copy_from_slice(bytes);
        self.used += bytes.len();
    }

    fn push_code(&mut self, difference: i32) {
        let (code, length) = codes::of(difference);
        self.push(&code[..length]);
    }

    fn push_checksum(&mut self, checksum: u16) {
        if checksum != 0 {
            self.push(&checksum.to_le_bytes());
        }
    }

    /// CR (rules 6.2, 8.8).
    fn compressed_rtp(&mut self, place: usize, link: u8, new: &Packet) {
        self.push(&[place as u8, new.front.marker() << 7 | link]);
        self.push_checksum(new.front.checksum());
    }

    /// CU with F (rules 6.3, 8.8).
    fn compressed_udp(
        &mut self,
        place: usize,
        link: u8,
        new: &Packet,
        goes_out: &[u8; DUES],
        id_delta: u16,
        timestamp_delta: u32,
    ) {
        let front = &new.front;
        let first = goes_out[due::ID] << 6
            | goes_out[due::TIMESTAMP_DELTA] << 5
            | goes_out[due::ID_DELTA] << 4;
        let second = goes_out[due::SEQUENCE] << 6
            | goes_out[due::TIMESTAMP] << 5
            | goes_out[due::PAYLOAD] << 4;
        self.push(&[
            place as u8,
            0x80 | first | link,
            front.marker() << 7 | second | front.cc(),
        ]);
        self.push_checksum(front.checksum());
        if goes_out[due::ID_DELTA] == 1 {
            self.push_code(codes::of_16_bits(id_delta));
        }
        if goes_out[due::TIMESTAMP_DELTA] == 1 {
            self.push_code(timestamp_delta as i32);
        }
        if goes_out[due::ID] == 1 {
            self.push(&front.id().to_be_bytes());
        }
        if goes_out[due::SEQUENCE] == 1 {
            self.push(&front.sequence().to_be_bytes());
        }
        if goes_out[due::TIMESTAMP] == 1 {
            self.push(&front.timestamp().to_be_bytes());
        }
        if goes_out[due::PAYLOAD] == 1 {
            self.push(&[front.payload()]);
        }
        self.push(new.list);
    }
}

// Requests

/// All records are judged before one is followed, since a refusal leaves the table (rule 9.3).
fn try_request(table: &mut Table, state: &[u8]) -> Result<(), u8> {
    let lists = (0..BLOCKS).any(|block| table.kept.any_list(block));
    if !sound(table, lists) {
        return Err(refusal::UNSOUND);
    }
    let [code, count, records @ ..] = state else {
        return Err(refusal::CUT);
    };
    if *code != 1 || *count == 0 {
        return Err(refusal::FORM);
    }
    if records.len() != 3 * usize::from(*count) {
        return Err(refusal::CUT);
    }
    let (records, _) = records.as_chunks::<3>();
    for &[place, flags, generation] in records {
        if place >= table.contexts {
            return Err(refusal::NO_CONTEXT);
        }
        if flags & 0x70 != 0 || generation & 0xc0 != 0 {
            return Err(refusal::FORM);
        }
    }
    for &[place, flags, _] in records {
        let place = usize::from(place) % PLACES;
        let kept = &mut table.kept;
        if flags & 0x80 != 0 && kept.planes[STATUS][place] == 1 && kept.planes[FULL_DUE][place] == 0
        {
            kept.planes[FULL_DUE][place] = table.repeats + 1;
            kept.planes[GENERATION][place] = (kept.planes[GENERATION][place] + 1) & 63;
        }
    }
    Ok(())
}
