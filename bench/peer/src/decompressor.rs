//! The decompressor: its table, arrivals and the report (rules 7 and 9).

use crate::bytes::{add_words, deliver, fold};
use crate::front::{Front, Packet, FIXED};
use crate::kept::{pack, Kept, BLOCK, BLOCKS, SHARED};
use crate::kept::{CC, DPORT_LOW, EXTENSION, FLAGS, GENERATION, LINK, PADDING, PAYLOAD, STATUS};
use crate::kept::{DELTA_HIGH, DELTA_HIGHEST, DELTA_LOW};
use crate::walk::{self, part, INDEX};
use crate::{codes, length_allowed, refusal, settings_allowed, Answer};
use crate::{COMPRESSED_RTP, COMPRESSED_UDP, FULL_HEADER, MOST, PLACES, PLAIN};

// Planes of the decompressor.
/// Whether CU and CR carry a UDP checksum.
pub const CARRIED: usize = SHARED;
pub const MARKER: usize = SHARED + 1;
/// Whether a full header ever filled the context.
pub const FILLED: usize = SHARED + 2;
const PLANES: usize = FILLED + 1;

const LIVE: u8 = 1;
const BROKEN: u8 = 2;

/// A decompressor's table. It may hold anything. A status is 0 for empty, 1 for live or 2 for broken; the link sequence is that of
/// the last packet accepted.
#[repr(C)]
#[derive(Clone, Debug, PartialEq, Eq)]
pub struct Table {
    pub kept: Kept<PLANES, 1>,
    pub id_delta: [u16; PLACES],
    pub repeats: u8,
    pub contexts: u8,
}

impl Table {
    const UNOPENED: Self = Table {
        kept: Kept::ZERO,
        id_delta: [0; PLACES],
        repeats: 0,
        contexts: 0,
    };

    /// All zero, which is not sound: K is 0.
    pub fn unopened() -> Self {
        Self::UNOPENED
    }
}

/// Opens a table; the settings alone decide.
pub fn open(table: &mut Table, repeats: u32, contexts: u32) -> Answer {
    if !settings_allowed(repeats, contexts) {
        return Err(refusal::UNSOUND).into();
    }
    table.clone_from(&Table::UNOPENED);
    table.repeats = repeats as u8;
    table.contexts = contexts as u8;
    Ok(0).into()
}

/// Hands a link packet to the decompressor. The walk leaves off to work on the packet, as in a send.
pub fn receive(table: &mut Table, link_type: u32, packet: &[u8], output: &mut [u8]) -> Answer {
    let kept = &table.kept;
    let mut lists = kept.any_list(0);
    lists |= kept.any_list(1);
    let steady = Steady::of(table, link_type, packet);
    lists |= kept.any_list(2);
    lists |= kept.any_list(3);
    if !sound(table, lists) {
        return Err(refusal::UNSOUND).into();
    }
    if let Some(steady) = steady {
        if let Some(length) = steady.rebuild(table, output) {
            return Ok(length).into();
        }
    }
    receive_any(table, link_type, packet, output).into()
}

/// Writes the context-state report.
pub fn report(table: &Table, output: &mut [u8]) -> Answer {
    try_report(table, output).into()
}

// Soundness

/// Rules 2.2 to 2.4, where it is known whether there are any words in the CSRC lists. Mostly all contexts are live, or the first
/// ones were filled and not too many.
#[inline(always)]
fn sound(table: &Table, lists: bool) -> bool {
    let kept = &table.kept;
    let mut other = 0;
    for i in 0..PLACES {
        other |= (kept.planes[STATUS][i] ^ 1) | (kept.planes[FILLED][i] ^ 1);
    }
    let sound = if other == 0 {
        table.contexts == PLACES as u8 && in_range::<PLACES>(table, 0)
    } else {
        match walk::ones_first(&kept.planes[FILLED]) {
            Some(filled @ ..=walk::LAST) => statuses_sound(table) && sound_up_to(table, filled),
            _ => any_sound(table),
        }
    };
    settings_allowed(table.repeats.into(), table.contexts.into())
        && sound
        && (!lists || kept.lists_sound())
}

/// Every field of a context that was filled by itself; 0 is in every range.
#[inline(always)]
fn in_range<const LENGTH: usize>(table: &Table, number: usize) -> bool {
    let plane = |plane: usize| part::<LENGTH>(&table.kept.planes[plane], number);
    let (flags, padding, extension) = (plane(FLAGS), plane(PADDING), plane(EXTENSION));
    let (payload, cc, link) = (plane(PAYLOAD), plane(CC), plane(LINK));
    let generation = plane(GENERATION);
    let (low, high, highest) = (plane(DELTA_LOW), plane(DELTA_HIGH), plane(DELTA_HIGHEST));
    let (carried, marker) = (plane(CARRIED), plane(MARKER));
    let mut bad = 0;
    for i in 0..LENGTH {
        bad |= (padding[i] | extension[i] | carried[i] | marker[i]) & !1
            | flags[i] & !3
            | (cc[i] | link[i]) & !15
            | generation[i] & !63
            | payload[i] & !127
            | codes::none(low[i], high[i], highest[i]);
    }
    bad == 0
}

/// Where only so many were filled, and these come first.
#[inline(always)]
fn sound_up_to(table: &Table, filled: usize) -> bool {
    let kept = &table.kept;
    let [_, others @ ..] = &kept.planes;
    let mut sound = true;
    for number in 0..filled.div_ceil(BLOCK) {
        sound &= in_range::<BLOCK>(table, number);
    }
    sound
        && walk::planes_zero_from(others, filled)
        && walk::shorts_zero_from(&kept.ssrc_low, filled)
        && walk::shorts_zero_from(&table.id_delta, filled)
        && walk::rows_zero_from(&kept.flows, filled)
        && walk::rows_zero_from(&kept.steps, filled)
}

/// A context that is not broken is live if it was filled and else empty, and from K on all are empty.
#[inline(always)]
fn statuses_sound(table: &Table) -> bool {
    let planes = &table.kept.planes;
    let mut bad = 0;
    for i in 0..PLACES {
        let (status, filled) = (planes[STATUS][i], planes[FILLED][i]);
        let broken = if status == BROKEN { 0xff } else { 0 };
        let past = INDEX[i].saturating_sub(table.contexts.wrapping_sub(1));
        bad |= filled & !1 | (status ^ filled) & !broken | status.min(past);
    }
    bad == 0
}

/// Where contexts that were filled and others are in any order, or nearly all were filled.
#[inline(never)]
fn any_sound(table: &Table) -> bool {
    let kept = &table.kept;
    let [_, others @ ..] = &kept.planes;
    in_range::<PLACES>(table, 0)
        && statuses_sound(table)
        && (0..PLACES).all(|place| {
            kept.planes[FILLED][place] == 1
                || others.iter().all(|plane| plane[place] == 0)
                    && kept.ssrc_low[place] == 0
                    && table.id_delta[place] == 0
                    && kept.flows[place] == [0; 2]
                    && kept.steps[place] == [0]
        })
}

// Arrivals

/// A CR that brings nothing but what is copied, and is not judged: the most frequent case.
struct Steady<'a> {
    place: usize,
    link: u8,
    marker: u8,
    last: u64,
    length: usize,
    front: Front,
    rest: &'a [u8],
}

impl<'a> Steady<'a> {
    /// None for every other packet, and for all that are refused. The table may hold anything.
    #[inline(always)]
    fn of(table: &Table, link_type: u32, packet: &'a [u8]) -> Option<Self> {
        let &[place, flags, ref fields @ ..] = packet else {
            return None;
        };
        let known = place < table.contexts;
        let place = usize::from(place) % PLACES;
        let kept = &table.kept;
        let gap = flags.wrapping_sub(kept.planes[LINK][place]) & 15;
        let carried = kept.planes[CARRIED][place] == 1;
        let accepted = known
            && link_type == COMPRESSED_RTP
            && flags & 0x70 == 0
            && kept.planes[STATUS][place] == LIVE
            && gap.wrapping_sub(1) <= table.repeats
            && (gap == 1 || !carried);
        if !accepted {
            return None;
        }
        let mut next = Next::steps_on(table, place, gap);
        next.marker = flags >> 7;
        next.rest = fields;
        if carried {
            let (checksum, rest) = fields.split_first_chunk()?;
            next.checksum = u16::from_le_bytes(*checksum);
            next.rest = rest;
        }
        let length = FIXED + kept.list(place).len() + next.rest.len();
        if length > MOST {
            return None;
        }
        Some(Steady {
            place,
            link: flags & 15,
            marker: next.marker,
            last: pack(next.id, next.sequence, next.timestamp),
            length,
            front: next.front(kept, place, kept.planes[CC][place], length),
            rest: next.rest,
        })
    }

    /// None if there is no room.
    #[inline(always)]
    fn rebuild(&self, table: &mut Table, output: &mut [u8]) -> Option<usize> {
        let place = self.place % PLACES;
        let kept = &mut table.kept;
        let (front, mut behind) = output.get_mut(..self.length)?.split_first_chunk_mut()?;
        self.front.write(front);
        if kept.planes[CC][place] != 0 {
            let list = kept.list(place);
            let (words, rest) = behind.split_at_mut_checked(list.len())?;
            words.copy_from_slice(list);
            behind = rest;
        }
        kept.steps[place] = [self.last];
        kept.planes[LINK][place] = self.link;
        kept.planes[MARKER][place] = self.marker;
        behind.copy_from_slice(self.rest);
        Some(self.length)
    }
}

/// Any packet, where the table is sound.
#[inline(never)]
fn receive_any(
    table: &mut Table,
    link_type: u32,
    packet: &[u8],
    output: &mut [u8],
) -> Result<usize, u8> {
    if link_type > COMPRESSED_RTP {
        return Err(refusal::TYPE);
    }
    if !length_allowed(packet.len()) {
        return Err(refusal::LENGTH);
    }
    match link_type {
        PLAIN => deliver(output, packet, &[]),
        FULL_HEADER => full_header(table, packet, output),
        _ => compressed(table, link_type, packet, output),
    }
}

/// FH (rules 6.1, 7.1).
fn full_header(table: &mut Table, packet: &[u8], output: &mut [u8]) -> Result<usize, u8> {
    let Some(mut front) = Front::of(packet) else {
        return Err(refusal::CUT);
    };
    let [generation, place] = front.ip_length().to_be_bytes();
    let link = front.udp_length();
    if place >= table.contexts {
        return Err(refusal::NO_CONTEXT);
    }
    front.put_lengths(packet.len());
    let formed = front.formed(packet.len()) && front.ip_checksum_right();
    if generation >> 6 != 1 || link > 15 || !formed {
        return Err(refusal::FORM);
    }
    let Some(new) = Packet::of(front, packet) else {
        return Err(refusal::CUT);
    };
    let length = deliver(output, packet, &[])?;
    if let Some(head) = output.first_chunk_mut() {
        front.write(head);
    }
    let place = usize::from(place) % PLACES;
    let kept = &mut table.kept;
    kept.put(place, &new, 0);
    kept.planes[STATUS][place] = LIVE;
    kept.planes[FILLED][place] = 1;
    kept.planes[CARRIED][place] = u8::from(front.checksum() != 0);
    kept.planes[MARKER][place] = front.marker();
    kept.planes[LINK][place] = link as u8;
    kept.planes[GENERATION][place] = generation & 63;
    table.id_delta[place] = 1;
    Ok(length)
}

/// CU and CR (rules 6.2, 6.3, 7).
fn compressed(
    table: &mut Table,
    link_type: u32,
    packet: &[u8],
    output: &mut [u8],
) -> Result<usize, u8> {
    if packet[0] >= table.contexts {
        return Err(refusal::NO_CONTEXT);
    }
    let place = usize::from(packet[0]) % PLACES;
    let &[_, flags, ref fields @ ..] = packet else {
        return Err(refusal::CUT);
    };
    if table.kept.planes[STATUS][place] != LIVE {
        table.kept.planes[STATUS][place] = BROKEN;
        return Err(refusal::NOT_LIVE);
    }
    let gap = flags.wrapping_sub(table.kept.planes[LINK][place]) & 15;
    let carried = table.kept.planes[CARRIED][place] == 1;
    let mut next = Next::steps_on(table, place, gap);
    let mut reader = Reader(fields);
    if link_type == COMPRESSED_UDP {
        next.read_udp(carried, flags, &mut reader)?;
    } else {
        next.read_rtp(carried, flags, &mut reader)?;
    }
    next.rest = reader.0;
    if gap.wrapping_sub(1) > table.repeats {
        table.kept.planes[STATUS][place] = BROKEN;
        return Err(refusal::GAP);
    }
    let list = next.list.unwrap_or(table.kept.list(place));
    let length = FIXED + list.len() + next.rest.len();
    if length > MOST {
        return Err(refusal::REBUILT_LENGTH);
    }
    let front = next.front(&table.kept, place, (list.len() / 4) as u8, length);
    if gap > 1 && carried && front.checksum() != udp_checksum(&front, list, next.rest) {
        table.kept.planes[STATUS][place] = BROKEN;
        return Err(refusal::CHECKSUM);
    }
    let Some(output) = output.get_mut(..length) else {
        return Err(refusal::ROOM);
    };
    if let Some((head, behind)) = output.split_first_chunk_mut() {
        front.write(head);
        let (words, rest) = behind.split_at_mut(list.len());
        words.copy_from_slice(list);
        rest.copy_from_slice(next.rest);
    }
    next.keep(table, place, flags & 15);
    Ok(length)
}

/// The UDP checksum that a packet must have (rule 7.9), as it stands there.
fn udp_checksum(front: &Front, list: &[u8], rest: &[u8]) -> u16 {
    let sum = front.udp_sum() + add_words(list) + add_words(rest);
    match !fold(sum) {
        0 => 0xffff,
        checksum => checksum,
    }
}

/// Reads fields from left to right; one that is not all there is refused (rule 3.4).
struct Reader<'a>(&'a [u8]);

impl<'a> Reader<'a> {
    fn take(&mut self, count: usize) -> Result<&'a [u8], u8> {
        let (field, rest) = self.0.split_at_checked(count).ok_or(refusal::CUT)?;
        self.0 = rest;
        Ok(field)
    }

    fn chunk<const N: usize>(&mut self) -> Result<[u8; N], u8> {
        let (field, rest) = self.0.split_first_chunk().ok_or(refusal::CUT)?;
        self.0 = rest;
        Ok(*field)
    }

    fn byte(&mut self) -> Result<u8, u8> {
        Ok(self.chunk::<1>()?[0])
    }

    fn list(&mut self, flags: u8) -> Result<&'a [u8], u8> {
        self.take(4 * usize::from(flags & 15))
    }

    fn code(&mut self) -> Result<u32, u8> {
        let (difference, rest) = codes::read(self.0)?;
        self.0 = rest;
        Ok(difference as u32)
    }
}

/// What a CU or CR makes of its context. Checksum and SSRC are as they stand in a packet.
struct Next<'a> {
    timestamp: u32,
    timestamp_delta: u32,
    ssrc: [u16; 2],
    id: u16,
    id_delta: u16,
    sequence: u16,
    checksum: u16,
    padding: u8,
    extension: u8,
    marker: u8,
    payload: u8,
    /// The list from now on, if one came.
    list: Option<&'a [u8]>,
    rest: &'a [u8],
}

impl<'a> Next<'a> {
    /// The context a gap on, where nothing comes (rule 7.3).
    #[inline(always)]
    fn steps_on(table: &Table, place: usize, gap: u8) -> Self {
        let kept = &table.kept;
        let id_delta = table.id_delta[place];
        let timestamp_delta = kept.timestamp_delta(place);
        let id_steps = id_delta.wrapping_mul(gap.into());
        let timestamp_steps = timestamp_delta.wrapping_mul(gap.into());
        Next {
            timestamp: kept.timestamp(place).wrapping_add(timestamp_steps),
            timestamp_delta,
            ssrc: [(kept.flows[place][1] >> 16) as u16, kept.ssrc_low[place]],
            id: kept.id(place).wrapping_add(id_steps),
            id_delta,
            sequence: kept.sequence(place).wrapping_add(gap.into()),
            checksum: 0,
            padding: kept.planes[PADDING][place],
            extension: kept.planes[EXTENSION][place],
            marker: 0,
            payload: kept.planes[PAYLOAD][place],
            list: None,
            rest: &[],
        }
    }

    /// The front of the packet that is rebuilt, lengths and IP checksum worked out (rule 7.8).
    #[inline(always)]
    fn front(&self, kept: &Kept<PLANES, 1>, place: usize, cc: u8, length: usize) -> Front {
        let [to, from] = kept.flows[place];
        let first = 0x45
            | from & 0xff00
            | u64::from(self.id.swap_bytes()) << 32
            | u64::from(kept.planes[FLAGS][place]) << 54;
        let second = from & 0xffff_ffff_0000_00ff | 0x1100;
        let third = to & (u64::MAX >> 8) | u64::from(kept.planes[DPORT_LOW][place]) << 56;
        let rtp = 0x80 | self.padding << 5 | self.extension << 4 | cc;
        let fourth = u64::from(self.checksum) << 16
            | u64::from(rtp) << 32
            | u64::from(self.marker << 7 | self.payload) << 40
            | u64::from(self.sequence.swap_bytes()) << 48;
        let fifth = u64::from(self.timestamp.swap_bytes())
            | u64::from(self.ssrc[0]) << 32
            | u64::from(self.ssrc[1]) << 48;
        let mut front = Front([first, second, third, fourth, fifth]);
        front.put_lengths(length);
        front.0[1] |= u64::from(!fold(front.ip_sum())) << 16;
        front
    }

    /// Makes the context so.
    fn keep(&self, table: &mut Table, place: usize, link: u8) {
        let kept = &mut table.kept;
        let from = &mut kept.flows[place][1];
        *from = *from & !0xffff_0000 | u64::from(self.ssrc[0]) << 16;
        kept.steps[place] = [pack(self.id, self.sequence, self.timestamp)];
        kept.ssrc_low[place] = self.ssrc[1];
        kept.put_timestamp_delta(place, self.timestamp_delta);
        kept.planes[PADDING][place] = self.padding;
        kept.planes[EXTENSION][place] = self.extension;
        kept.planes[PAYLOAD][place] = self.payload;
        kept.planes[LINK][place] = link;
        if let Some(list) = self.list {
            kept.put_list(place, list);
        }
        table.id_delta[place] = self.id_delta;
        kept.planes[MARKER][place] = self.marker;
    }

    /// A difference that came is the last step and the delta from now on (rules 7.4, 7.5).
    fn step_id(&mut self, difference: u32) {
        let difference = difference as u16;
        self.id = self.id.wrapping_sub(self.id_delta).wrapping_add(difference);
        self.id_delta = difference;
    }

    fn step_timestamp(&mut self, difference: u32) {
        let before = self.timestamp.wrapping_sub(self.timestamp_delta);
        self.timestamp = before.wrapping_add(difference);
        self.timestamp_delta = difference;
    }

    /// CR (rule 6.2).
    fn read_rtp(&mut self, carried: bool, first: u8, reader: &mut Reader<'a>) -> Result<(), u8> {
        if carried {
            self.checksum = u16::from_le_bytes(reader.chunk()?);
        }
        let two = first >= 0xf0;
        let flags = if two { reader.byte()? } else { first };
        self.marker = flags >> 7;
        if flags & 0x10 != 0 {
            let difference = reader.code()?;
            self.step_id(difference);
        }
        if flags & 0x40 != 0 {
            // One of the sequence takes the place of the last step of 1.
            let difference = reader.code()? as u16;
            self.sequence = self.sequence.wrapping_sub(1).wrapping_add(difference);
        }
        if flags & 0x20 != 0 {
            let difference = reader.code()?;
            self.step_timestamp(difference);
        }
        if two {
            self.list = Some(reader.list(flags)?);
        }
        Ok(())
    }

    /// CU (rules 6.3, 7.7).
    fn read_udp(&mut self, carried: bool, flags: u8, reader: &mut Reader<'a>) -> Result<(), u8> {
        let single = flags & 0x80 != 0;
        let second = if single { reader.byte()? } else { 0 };
        if carried {
            self.checksum = u16::from_le_bytes(reader.chunk()?);
        }
        if flags & 0x10 != 0 {
            let difference = reader.code()?;
            self.step_id(difference);
        }
        if flags & 0x20 != 0 {
            let difference = reader.code()?;
            self.step_timestamp(difference);
        } else if !single {
            self.timestamp_delta = 0;
        }
        if flags & 0x40 != 0 {
            self.id = u16::from_be_bytes(reader.chunk()?);
        }
        if single {
            self.read_single_fields(second, reader)
        } else {
            self.read_rtp_header(reader)
        }
    }

    fn read_single_fields(&mut self, flags: u8, reader: &mut Reader<'a>) -> Result<(), u8> {
        self.marker = flags >> 7;
        if flags & 0x40 != 0 {
            self.sequence = u16::from_be_bytes(reader.chunk()?);
        }
        if flags & 0x20 != 0 {
            self.timestamp = u32::from_be_bytes(reader.chunk()?);
        }
        if flags & 0x10 != 0 {
            self.payload = reader.byte()?;
            if self.payload > 127 {
                return Err(refusal::FORM);
            }
        }
        self.list = Some(reader.list(flags)?);
        Ok(())
    }

    fn read_rtp_header(&mut self, reader: &mut Reader<'a>) -> Result<(), u8> {
        let [first, second, sequence @ .., t0, t1, t2, t3, s0, s1, s2, s3] =
            reader.chunk::<12>()?;
        if first >> 6 != 2 {
            return Err(refusal::FORM);
        }
        self.padding = first >> 5 & 1;
        self.extension = first >> 4 & 1;
        self.marker = second >> 7;
        self.payload = second & 127;
        self.sequence = u16::from_be_bytes(sequence);
        self.timestamp = u32::from_be_bytes([t0, t1, t2, t3]);
        self.ssrc = [[s0, s1], [s2, s3]].map(u16::from_le_bytes);
        self.list = Some(reader.list(first)?);
        Ok(())
    }
}

// Report

/// A record for every broken context (rules 6.6, 9.1).
fn try_report(table: &Table, output: &mut [u8]) -> Result<usize, u8> {
    let kept = &table.kept;
    let lists = (0..BLOCKS).any(|block| kept.any_list(block));
    if !sound(table, lists) {
        return Err(refusal::UNSOUND);
    }
    let is_broken = |status: &&u8| **status == BROKEN;
    let broken = kept.planes[STATUS].iter().filter(is_broken).count();
    if broken == 0 {
        return Ok(0);
    }
    let length = 2 + 3 * broken;
    let Some([code, count, records @ ..]) = output.get_mut(..length) else {
        return Err(refusal::ROOM);
    };
    *code = 1;
    *count = broken as u8;
    let places = (0..PLACES).filter(|&place| kept.planes[STATUS][place] == BROKEN);
    for (record, place) in records.as_chunks_mut().0.iter_mut().zip(places) {
        *record = [
            place as u8,
            0x80 | kept.planes[LINK][place],
            kept.planes[GENERATION][place],
        ];
    }
    Ok(length)
}
