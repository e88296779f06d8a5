//! Both ends in one endpoint: which table a call goes to, what each total counts and where it stops, and
//! two endpoints facing each other.

use crate::lists::{keep_to_premise, new_flow, next_packet, row_of_losses, Flow, InFlight};
use crate::support::{ensure, given, hex, same, voice, Given, Outcome, Voice, FILL};
use oracle::endpoint::{self, Endpoint};
use oracle::forge;
use oracle::mutant::Mutant;
use oracle::prng::Prng;
use std::collections::{HashMap, VecDeque};

checks!(
    calls_before_any_opening,
    openings,
    radio_goes_by_type,
    only_the_table_of_the_call_is_judged,
    sends_count_by_type,
    arrivals_count_as_rebuilt,
    every_refused_call_counts,
    wrong_checksums_count_as_refused,
    accepted_requests_and_reports_count_nowhere,
    totals_stop_at_the_end,
    losses_in_one_direction,
    some_facing_lists,
);

#[derive(Clone, Copy, PartialEq, Eq)]
enum Call {
    Wire,
    Radio(u32),
    Report,
}

/// One call of the history and how it was answered.
#[derive(Clone, Copy)]
struct Event {
    call: Call,
    number: u8,
    link_type: u32,
}

/// An endpoint under a fault, with the history of its calls and the totals this history began with.
#[derive(Clone)]
struct End {
    mutant: Mutant,
    endpoint: Endpoint,
    start: [u32; 6],
    history: Vec<Event>,
}

impl End {
    fn unopened(mutant: Mutant) -> Self {
        End {
            mutant,
            endpoint: Endpoint::unopened(),
            start: [0; 6],
            history: Vec::new(),
        }
    }

    fn open(mutant: Mutant, repeats: u32, contexts: u32) -> Self {
        let mut end = End::unopened(mutant);
        assert_eq!(end.reopen(repeats, contexts), (0, 0));
        end
    }

    fn reopen(&mut self, repeats: u32, contexts: u32) -> (u8, usize) {
        let answer = endpoint::open_with(self.mutant, &mut self.endpoint, repeats, contexts);
        (answer.number, answer.length)
    }

    fn start_at(&mut self, totals: [u32; 6]) {
        for (place, value) in totals.into_iter().enumerate() {
            *self.endpoint.totals.at(place).expect("six totals") = value;
        }
        self.start = totals;
    }

    fn note(&mut self, call: Call, given: Result<Given, String>) -> Result<Given, String> {
        let given = given?;
        self.history.push(Event {
            call,
            number: given.number,
            link_type: given.link_type,
        });
        Ok(given)
    }

    fn wire(&mut self, packet: &[u8], room: usize) -> Result<Given, String> {
        let mut output = vec![FILL; room];
        let answer = endpoint::from_wire_with(self.mutant, &mut self.endpoint, packet, &mut output);
        let found = given(answer.number, answer.link_type, answer.length, &output);
        self.note(Call::Wire, found)
    }

    fn radio(&mut self, link_type: u32, bytes: &[u8], room: usize) -> Result<Given, String> {
        let mut output = vec![FILL; room];
        let answer = endpoint::from_radio_with(
            self.mutant,
            &mut self.endpoint,
            link_type,
            bytes,
            &mut output,
        );
        if link_type == 4 {
            same("length of a request's answer", answer.length, 0)?;
        }
        let found = given(answer.number, 0, answer.length, &output);
        self.note(Call::Radio(link_type), found)
    }

    fn report(&mut self, room: usize) -> Result<Given, String> {
        let mut output = vec![FILL; room];
        let before = self.endpoint.decompressor.clone();
        let answer = endpoint::report_with(self.mutant, &mut self.endpoint, &mut output);
        let found = given(answer.number, 0, answer.length, &output);
        ensure(
            "a report changes no table",
            self.endpoint.decompressor == before,
        )?;
        self.note(Call::Report, found)
    }

    /// Sends with ample room; the link packet.
    fn link_packet(&mut self, packet: &Voice, link_type: u32) -> Result<Vec<u8>, String> {
        let found = self.wire(&packet.bytes(), 1500)?;
        same("send", (found.number, found.link_type), (0, link_type))?;
        Ok(found.bytes)
    }

    fn refuses(&mut self, number: u8, link_type: u32, bytes: &[u8], room: usize) -> Outcome {
        let what = format!("type {link_type}, {bytes:x?}, room {room}");
        same(&what, self.radio(link_type, bytes, room)?.number, number)
    }

    fn accepts(&mut self, link_type: u32, bytes: &[u8]) -> Outcome {
        self.refuses(0, link_type, bytes, 1500)
    }

    fn has(&self, totals: [u32; 6]) -> Outcome {
        same("totals", self.endpoint.totals.in_order(), totals)
    }

    fn counted(&self, counts: impl Fn(&Event) -> bool) -> u64 {
        self.history.iter().filter(|&event| counts(event)).count() as u64
    }

    /// Each total is what the history adds to where it began, but no more than 32 bits hold; and the
    /// first four together are the accepted sends unless one of them has stopped.
    fn agrees_with_history(&self) -> Outcome {
        let sent = |link_type| {
            self.counted(|event| {
                event.call == Call::Wire && event.number == 0 && event.link_type == link_type
            })
        };
        let rebuilt = self.counted(|event| match event.call {
            Call::Radio(link_type) => event.number == 0 && link_type != 4,
            _ => false,
        });
        let refused = self.counted(|event| !matches!(event.number, 0 | 1));
        let counts = [sent(0), sent(1), sent(2), sent(3), rebuilt, refused];
        let mut wanted = [0; 6];
        for (place, total) in wanted.iter_mut().enumerate() {
            let count = u64::from(self.start[place]) + counts[place];
            *total = count.min(u64::from(u32::MAX)) as u32;
        }
        self.has(wanted)?;
        if wanted[..4].iter().all(|&total| total < u32::MAX) {
            let sum = |totals: &[u32]| totals.iter().map(|&total| u64::from(total)).sum::<u64>();
            let accepted = self.counted(|event| event.call == Call::Wire && event.number == 0);
            let found = self.endpoint.totals.in_order();
            same(
                "sum of the sent",
                sum(&found[..4]) - sum(&self.start[..4]),
                accepted,
            )?;
        }
        Ok(())
    }
}

// Worked cases

/// Neither table is open: every call is refused 1, whatever else is wrong, and none counts.
pub fn calls_before_any_opening(mutant: Mutant) -> Outcome {
    let mut end = End::unopened(mutant);
    let before = end.endpoint.clone();
    for bytes in [voice(1, 1, 0).bytes(), Vec::new(), vec![0; 1501]] {
        for room in [0, 1500] {
            same("send", end.wire(&bytes, room)?.number, 1)?;
            for link_type in [0, 1, 2, 3, 4, 5, u32::MAX] {
                end.refuses(1, link_type, &bytes, room)?;
            }
            same("report", end.report(room)?.number, 1)?;
        }
    }
    same("opening", end.reopen(15, 1), (1, 0))?;
    same("send", end.wire(&[1], 10)?.number, 1)?;
    ensure("still as it was", end.endpoint == before)
}

/// Settings out of range leave tables and totals; settings in range clear all, sound or not.
pub fn openings(mutant: Mutant) -> Outcome {
    let mut end = End::open(mutant, 1, 2);
    let packet = voice(1, 1, 0);
    let full = end.link_packet(&packet, 1)?;
    end.accepts(1, &full)?;
    end.refuses(3, 5, &[], 0)?;
    end.has([0, 1, 0, 0, 1, 1])?;
    let before = end.endpoint.clone();
    for (repeats, contexts) in [
        (15, 1),
        (0, 0),
        (14, 65),
        (256, 1),
        (0, 257),
        (u32::MAX, 64),
    ] {
        same("opening", end.reopen(repeats, contexts), (1, 0))?;
        ensure("a refused opening leaves all", end.endpoint == before)?;
    }
    for (repeats, contexts) in [(0, 1), (14, 64)] {
        end.start_at([7, 8, 9, 10, u32::MAX, 12]);
        end.endpoint.compressor.places[1].fields.cc = 99;
        end.endpoint.decompressor.repeats = 99;
        same("opening", end.reopen(repeats, contexts), (0, 0))?;
        let fresh = End::open(Mutant::None, repeats, contexts);
        ensure("as if never used", end.endpoint == fresh.endpoint)?;
        let settings = (repeats as u8, contexts as u8);
        let (sender, receiver) = (&end.endpoint.compressor, &end.endpoint.decompressor);
        same("settings", (sender.repeats, sender.contexts), settings)?;
        same("settings", (receiver.repeats, receiver.contexts), settings)?;
    }
    Ok(())
}

/// A request for context 0 means a run under type 4 and nothing under any other type.
pub fn radio_goes_by_type(mutant: Mutant) -> Outcome {
    let mut end = End::open(mutant, 0, 2);
    let packet = voice(1, 1, 0);
    let full = end.link_packet(&packet, 1)?;
    let opened = end.clone();
    let request = hex("01 01 00 80 00");

    for room in [0, 5, 1500] {
        let mut end = opened.clone();
        end.refuses(0, 4, &request, room)?;
        let context = end.endpoint.compressor.places[0];
        same(
            "run",
            (context.full_headers_due, context.generation),
            (1, 1),
        )?;
        let other = &opened.endpoint.decompressor;
        ensure("the other table stays", end.endpoint.decompressor == *other)?;
    }
    // Refused as a request is: no 2 for its length, no 3 for its type.
    for (number, bytes) in [
        (4, Vec::new()),
        (5, vec![0; 1501]),
        (6, hex("01 01 02 80 00")),
    ] {
        let mut end = opened.clone();
        end.refuses(number, 4, &bytes, 0)?;
        let other = &opened.endpoint.compressor;
        ensure(
            "a refused request changes nothing",
            end.endpoint.compressor == *other,
        )?;
    }
    for link_type in [5, 6, 7, 8, 255, 256, 260, 65540, 1 << 31, u32::MAX] {
        for bytes in [&request[..], &[], &full] {
            let mut end = opened.clone();
            end.refuses(3, link_type, bytes, 1500)?;
            let other = &opened.endpoint;
            ensure("sender stays", end.endpoint.compressor == other.compressor)?;
            ensure(
                "receiver stays",
                end.endpoint.decompressor == other.decompressor,
            )?;
        }
    }
    // The same bytes are a plain packet under 0, and no FH, CU or CR of a context in use.
    let mut end = opened.clone();
    same("plain", end.radio(0, &request, 5)?.bytes, request.clone())?;
    end.refuses(4, 1, &request, 5)?;
    end.refuses(8, 2, &request, 5)?;
    end.refuses(8, 3, &request, 5)?;
    same("FH", end.radio(1, &full, 1500)?.bytes, packet.bytes())?;
    same(
        "CR",
        end.radio(3, &hex("00 01 da 7a"), 1500)?.bytes,
        packet.next().bytes(),
    )?;
    let udp = hex("00 82 00 da 7a");
    same(
        "CU",
        end.radio(2, &udp, 1500)?.bytes,
        packet.next().next().bytes(),
    )?;
    let other = &opened.endpoint.compressor;
    ensure("the other table stays", end.endpoint.compressor == *other)
}

pub fn only_the_table_of_the_call_is_judged(mutant: Mutant) -> Outcome {
    let mut opened = End::open(mutant, 1, 2);
    let packet = voice(1, 1, 0);
    let full = opened.link_packet(&packet, 1)?;
    let request = hex("01 01 00 80 00");

    let mut end = opened.clone();
    end.endpoint.decompressor.places[1].generation = 1;
    let unsound = end.endpoint.decompressor.clone();
    end.link_packet(&packet.next(), 1)?;
    end.refuses(0, 4, &request, 0)?;
    same("send", end.wire(&[], 0)?.number, 2)?;
    end.refuses(4, 4, &[], 0)?;
    end.refuses(1, 1, &full, 1500)?;
    end.refuses(1, 5, &[], 0)?;
    same("report", end.report(100)?.number, 1)?;
    end.has([0, 2, 0, 0, 0, 2])?;
    ensure("unsound table stays", end.endpoint.decompressor == unsound)?;

    let mut end = opened;
    end.endpoint.compressor.contexts = 65;
    let unsound = end.endpoint.compressor.clone();
    end.accepts(1, &full)?;
    end.refuses(3, 5, &[], 0)?;
    same("report", end.report(100)?.number, 0)?;
    same("send", end.wire(&packet.bytes(), 1500)?.number, 1)?;
    same("send", end.wire(&[], 0)?.number, 1)?;
    end.refuses(1, 4, &request, 0)?;
    end.refuses(1, 4, &[], 0)?;
    end.has([0, 1, 0, 0, 1, 1])?;
    ensure("unsound table stays", end.endpoint.compressor == unsound)
}

pub fn sends_count_by_type(mutant: Mutant) -> Outcome {
    let mut end = End::open(mutant, 1, 1);
    end.has([0; 6])?;
    same("plain", end.wire(&[0x45], 1)?.number, 0)?;
    end.has([1, 0, 0, 0, 0, 0])?;
    end.link_packet(&voice(1, 1, 0), 1)?;
    end.has([1, 1, 0, 0, 0, 0])?;
    end.link_packet(&voice(2, 2, 0), 1)?;
    end.has([1, 2, 0, 0, 0, 0])?;
    end.link_packet(&voice(3, 3, 0), 3)?;
    end.has([1, 2, 0, 1, 0, 0])?;
    end.link_packet(&voice(4, 4, 160), 2)?;
    end.has([1, 2, 1, 1, 0, 0])?;
    // All contexts are in use, so another flow goes plain.
    let mut other = voice(1, 1, 0);
    other.ssrc = 1;
    end.link_packet(&other, 0)?;
    end.has([2, 2, 1, 1, 0, 0])?;
    // Refused ones move none of the four.
    same("empty", end.wire(&[], 1500)?.number, 2)?;
    end.has([2, 2, 1, 1, 0, 1])?;
    same("room", end.wire(&voice(5, 5, 320).bytes(), 5)?.number, 11)?;
    end.has([2, 2, 1, 1, 0, 2])?;
    end.agrees_with_history()
}

pub fn arrivals_count_as_rebuilt(mutant: Mutant) -> Outcome {
    let mut end = End::open(mutant, 1, 1);
    let packet = voice(1, 1, 0);
    let arrivals = [
        (0, hex("45")),
        (0, packet.bytes()),
        (1, packet.full_header(0, 0, 0)),
        (3, hex("00 01 da 7a")),
        (2, hex("00 83 00 da 7a")),
    ];
    for (before, (link_type, bytes)) in arrivals.iter().enumerate() {
        end.accepts(*link_type, bytes)?;
        end.has([0, 0, 0, 0, before as u32 + 1, 0])?;
    }
    end.agrees_with_history()
}

/// Every number that a call other than an opening can give, with the total after each.
pub fn every_refused_call_counts(mutant: Mutant) -> Outcome {
    let mut end = End::open(mutant, 1, 2);
    let packet = voice(1, 1, 0);
    end.accepts(1, &packet.full_header(0, 0, 0))?;
    let mut form = packet.full_header(0, 0, 0);
    form[0] = 0x46;
    let mut too_long = hex("00 01");
    too_long.resize(1500, 0x55);
    let refusals = [
        (4, 4, hex("01"), 0),
        (5, 4, hex("02 01 00 80 00"), 0),
        (6, 4, hex("01 01 02 80 00"), 0),
        (2, 0, hex(""), 1500),
        (2, 3, vec![0; 1501], 1500),
        (3, 5, hex("00 01"), 1500),
        (3, u32::MAX, hex(""), 0),
        (4, 3, hex("00"), 1500),
        (5, 1, form, 1500),
        (6, 3, hex("02 01"), 1500),
        (7, 3, hex("00 21 c0 3f 80"), 1500),
        (10, 3, too_long, 1500),
        (11, 3, hex("00 01 da 7a"), 41),
        (11, 0, hex("45 45"), 1),
        (8, 3, hex("01 01"), 1500),
        (9, 2, hex("00 80 00"), 1500),
    ];
    let mut refused = 0;
    for (number, link_type, bytes, room) in &refusals {
        end.refuses(*number, *link_type, bytes, *room)?;
        refused += 1;
        end.has([0, 0, 0, 0, 1, refused])?;
    }
    for (number, bytes, room) in [(2, Vec::new(), 0), (2, vec![0; 1501], 0), (11, vec![1], 0)] {
        same("send", end.wire(&bytes, room)?.number, number)?;
        refused += 1;
        end.has([0, 0, 0, 0, 1, refused])?;
    }
    // Both contexts are broken now.
    same("report", end.report(7)?.number, 11)?;
    end.has([0, 0, 0, 0, 1, refused + 1])?;
    end.agrees_with_history()
}

/// 12 counts as refused, once for each call, with room and without, and not as rebuilt.
pub fn wrong_checksums_count_as_refused(mutant: Mutant) -> Outcome {
    let mut end = End::open(mutant, 1, 1);
    let mut refused = 0;
    for (rebuilt, room) in [(1, 0), (3, 41), (5, 42), (7, 1500)] {
        let packet = voice(100, 10, 1000).summed();
        end.accepts(1, &packet.full_header(0, 0, 0))?;
        // Right for sequence 12 is 21d0.
        end.refuses(12, 3, &hex("00 02 21d1 da7a"), room)?;
        end.has([0, 0, 0, 0, rebuilt, refused + 1])?;
        end.refuses(8, 3, &hex("00 02 21d0 da7a"), room)?;
        end.has([0, 0, 0, 0, rebuilt, refused + 2])?;
        end.accepts(1, &packet.full_header(0, 0, 0))?;
        end.refuses(12, 2, &hex("00 82 00 0000 da7a"), room)?;
        refused += 3;
        end.has([0, 0, 0, 0, rebuilt + 1, refused])?;
    }
    let packet = voice(100, 10, 1000).summed();
    end.accepts(1, &packet.full_header(0, 0, 0))?;
    end.accepts(3, &hex("00 02 21d0 da7a"))?;
    end.has([0, 0, 0, 0, 10, refused])?;
    end.agrees_with_history()
}

pub fn accepted_requests_and_reports_count_nowhere(mutant: Mutant) -> Outcome {
    let mut end = End::open(mutant, 1, 2);
    end.link_packet(&voice(1, 1, 0), 1)?;
    let totals = [0, 1, 0, 0, 0, 0];
    for room in [0, 100] {
        same("none broken", end.report(room)?.bytes, Vec::new())?;
        end.has(totals)?;
    }
    // For a context in use, one not in use, and one with a record to be skipped.
    for request in [
        "01 01 00 80 00",
        "01 01 01 80 00",
        "01 02 00 05 3f 01 00 00",
    ] {
        end.refuses(0, 4, &hex(request), 0)?;
        end.has(totals)?;
    }
    end.refuses(8, 3, &hex("01 00"), 0)?;
    end.has([0, 1, 0, 0, 0, 1])?;
    same("one broken", end.report(5)?.bytes, hex("01 01 01 80 00"))?;
    end.has([0, 1, 0, 0, 0, 1])
}

/// Each total from just below its end: it reaches the end, stays there, and takes no other along.
pub fn totals_stop_at_the_end(mutant: Mutant) -> Outcome {
    let packet = voice(1, 1, 0);
    // N 0, so one call of each kind in this order moves each total once.
    let one_of_each = |end: &mut End| -> Outcome {
        same("opening", end.reopen(0, 1), (0, 0))?;
        end.start_at(end.start);
        same("plain", end.wire(&[1], 1)?.number, 0)?;
        end.link_packet(&packet, 1)?;
        end.link_packet(&voice(2, 2, 160), 2)?;
        end.link_packet(&voice(3, 3, 160), 3)?;
        end.accepts(0, &[1])?;
        end.refuses(3, 5, &[1], 1)
    };
    const LAST: u32 = u32::MAX;
    for (start, after) in [
        (LAST - 2, [LAST - 1, LAST, LAST]),
        (LAST - 1, [LAST, LAST, LAST]),
        (LAST, [LAST, LAST, LAST]),
    ] {
        for place in 0..6 {
            let mut end = End::unopened(mutant);
            end.start = [10; 6];
            end.start[place] = start;
            for (round, total) in after.into_iter().enumerate() {
                one_of_each(&mut end)?;
                let mut wanted = [11 + round as u32; 6];
                wanted[place] = total;
                end.has(wanted)?;
                end.start = wanted;
            }
        }
    }
    let mut end = End::unopened(mutant);
    end.start = [LAST; 6];
    one_of_each(&mut end)?;
    end.has([LAST; 6])
}

/// Two endpoints, N 1. Two in a row are lost from the first to the second and nothing the other way: the
/// second reports, the first starts a run, and the other direction notices nothing.
pub fn losses_in_one_direction(mutant: Mutant) -> Outcome {
    let mut first = End::open(mutant, 1, 1);
    let mut second = End::open(mutant, 1, 1);
    let mut back = voice(900, 90, 7);
    let mut answer = |first: &mut End, second: &mut End, link_type: u32| -> Outcome {
        back = back.next();
        let bytes = second.link_packet(&back, link_type)?;
        same(
            "way back",
            first.radio(link_type, &bytes, 42)?.bytes,
            back.bytes(),
        )?;
        same("nothing broken", first.report(0)?.bytes, Vec::new())
    };
    let mut packet = voice(1, 1, 0);
    first.link_packet(&packet, 1)?;
    answer(&mut first, &mut second, 1)?;
    packet = packet.next();
    first.link_packet(&packet, 1)?;
    answer(&mut first, &mut second, 1)?;
    // Both full headers are lost, so the first that arrives finds an empty context.
    packet = packet.next();
    let bytes = first.link_packet(&packet, 3)?;
    second.refuses(8, 3, &bytes, 1500)?;
    answer(&mut first, &mut second, 3)?;
    let report = second.report(5)?.bytes;
    same("report", &report, &hex("01 01 00 80 00"))?;
    first.refuses(0, 4, &report, 5)?;
    answer(&mut first, &mut second, 3)?;
    packet = packet.next();
    let bytes = first.link_packet(&packet, 1)?;
    same(
        "generation 1, link sequence 3",
        &bytes,
        &packet.full_header(0, 1, 3),
    )?;
    same(
        "recovered",
        second.radio(1, &bytes, 42)?.bytes,
        packet.bytes(),
    )?;
    same("nothing broken", second.report(0)?.bytes, Vec::new())?;
    // One lost is no more than N.
    packet = packet.next();
    first.link_packet(&packet, 1)?;
    packet = packet.next();
    let bytes = first.link_packet(&packet, 3)?;
    same(
        "after a loss",
        second.radio(3, &bytes, 42)?.bytes,
        packet.bytes(),
    )?;
    answer(&mut first, &mut second, 3)?;
    first.has([0, 4, 0, 2, 5, 0])?;
    second.has([0, 2, 0, 3, 2, 1])
}

// Lists of calls at two endpoints

/// Enough to show a fault; the test below runs many more.
pub fn some_facing_lists(mutant: Mutant) -> Outcome {
    let mut counts = Counts::default();
    (0..60).try_for_each(|seed| run_facing(mutant, seed, &mut counts))
}

#[derive(Default)]
struct Counts {
    calls: usize,
    rebuilt: usize,
    /// CU and CR with a checksum among them, after a loss.
    guessed: usize,
    dropped: usize,
    without_room: usize,
    forged: usize,
    reports: usize,
    /// Totals found stopped at the end of a list.
    stopped: [usize; 6],
    /// Answers by number.
    numbers: [usize; 13],
}

/// One direction of the link.
struct Way {
    flows: Vec<Flow>,
    in_flight: VecDeque<InFlight>,
    /// Packets lost since the last one that was not, per context number.
    lost_in_a_row: HashMap<u8, usize>,
    /// Whether this direction meets the premises: nothing forged, never more than N lost in a row.
    judged: bool,
}

impl Way {
    fn new(prng: &mut Prng, judged: bool) -> Self {
        let flows = prng.between(1, 4);
        Way {
            flows: (0..flows).map(|_| new_flow(prng)).collect(),
            in_flight: VecDeque::new(),
            lost_in_a_row: HashMap::new(),
            judged,
        }
    }
}

/// Way 0 leads from end 0 to end 1, way 1 back.
struct Facing {
    prng: Prng,
    ends: [End; 2],
    ways: [Way; 2],
    repeats: usize,
    change: usize,
    loss: usize,
}

fn run_facing(mutant: Mutant, seed: u64, counts: &mut Counts) -> Outcome {
    let mut prng = Prng::new(seed);
    let repeats = prng.below(15);
    let contexts = prng.pick(&[1, 1, 2, 3, 5, 64]);
    let mut end = || {
        let mut end = End::open(mutant, repeats as u32, contexts);
        if prng.bit() {
            end.start_at([(); 6].map(|()| match prng.below(3) {
                0 => prng.below(1000) as u32,
                1 => u32::MAX - prng.below(6) as u32,
                _ => u32::MAX - prng.below(100) as u32,
            }));
        }
        end
    };
    let ends = [end(), end()];
    let judged = prng.pick(&[[true, true], [true, false], [false, true]]);
    let mut facing = Facing {
        ends,
        ways: judged.map(|judged| Way::new(&mut prng, judged)),
        repeats,
        change: prng.pick(&[0, 2, 10, 40]),
        loss: prng.pick(&[0, 10, 30, 60, 90]),
        prng,
    };
    facing
        .run(counts)
        .map_err(|what| format!("list {seed}, N {repeats}: {what}"))
}

impl Facing {
    fn run(&mut self, counts: &mut Counts) -> Outcome {
        let steps = self.prng.pick(&[60, 120, 300]);
        for _ in 0..steps {
            let way = self.prng.below(2);
            match self.prng.below(24) {
                0 => self.request(way)?,
                1 => self.report(way, counts)?,
                2 if self.ways[way].judged => self.unknown_type(way)?,
                2 | 3 if !self.ways[way].judged => self.forge(way, counts)?,
                4 => self.damaged_tables(way)?,
                5..=14 => self.arrive(way, counts)?,
                _ => self.send(way)?,
            }
            if self.prng.chance(1, 16) {
                self.ends[way].agrees_with_history()?;
            }
        }
        for (end, other) in [(0, 1), (1, 0)] {
            self.ends[end].agrees_with_history()?;
            for (place, total) in self.ends[end].endpoint.totals.in_order().iter().enumerate() {
                counts.stopped[place] += usize::from(*total == u32::MAX);
            }
            counts.calls += self.ends[end].history.len();
            for event in &self.ends[end].history {
                counts.numbers[usize::from(event.number)] += 1;
            }
            // Nothing of a direction within the premises can have broken a context.
            if self.ways[other].judged {
                let found = self.ends[end].report(0)?;
                same("report", (found.number, found.bytes), (0, Vec::new()))?;
            }
        }
        Ok(())
    }

    fn send(&mut self, way: usize) -> Outcome {
        let Way {
            flows,
            in_flight,
            lost_in_a_row,
            judged,
        } = &mut self.ways[way];
        let mut packet = next_packet(&mut self.prng, flows, self.change);
        if *judged {
            let end = &self.ends[way];
            keep_to_premise(
                (end.mutant, &end.endpoint.compressor),
                in_flight,
                lost_in_a_row,
                self.repeats,
                &mut packet,
            );
        }
        let room = match self.prng.below(10) {
            0 => self.prng.below(60),
            _ => 1500,
        };
        let found = self.ends[way].wire(&packet, room)?;
        if found.number == 0 {
            in_flight.push_back(InFlight {
                link_type: found.link_type,
                bytes: found.bytes,
                packet,
            });
        }
        Ok(())
    }

    fn arrive(&mut self, way: usize, counts: &mut Counts) -> Outcome {
        let Some(sent) = self.ways[way].in_flight.pop_front() else {
            return self.send(way);
        };
        let place = sent.place();
        let Way {
            lost_in_a_row,
            judged,
            in_flight,
            ..
        } = &mut self.ways[way];
        let judged = *judged;
        let row = place.map_or(0, |place| {
            let lost = lost_in_a_row.get(&place).copied().unwrap_or(0);
            row_of_losses(in_flight, place, lost + 1).0
        });
        let lost = place.map(|place| lost_in_a_row.entry(place).or_insert(0));
        let may_lose = !judged || row <= self.repeats;
        let guessed = lost.as_ref().is_some_and(|lost| **lost > 0);
        let must_drop = judged && guessed && sent.needs_the_one_before();
        if must_drop {
            ensure("a loss that N allows", may_lose)?;
        }
        if must_drop || self.prng.chance(self.loss, 100) && may_lose {
            if let Some(lost) = lost {
                *lost += 1;
            }
            if must_drop || self.prng.chance(3, 4) {
                counts.dropped += 1;
                return Ok(());
            }
            counts.without_room += 1;
            let room = self.prng.below(sent.packet.len());
            let found = self.ends[1 - way].radio(sent.link_type, &sent.bytes, room)?;
            return if judged {
                same("arrival without room", found.number, 11)
            } else {
                Ok(())
            };
        }
        if let Some(lost) = lost {
            *lost = 0;
        }
        let room = sent.packet.len() + self.prng.pick(&[0, 0, 1, 100]);
        let found = self.ends[1 - way].radio(sent.link_type, &sent.bytes, room)?;
        if judged {
            let carried = guessed && sent.link_type > 1 && sent.packet[26..28] != [0, 0];
            same("arrival", (found.number, found.bytes), (0, sent.packet))?;
            counts.rebuilt += 1;
            counts.guessed += usize::from(carried);
        }
        Ok(())
    }

    /// Any bytes may come to a compressor as context state.
    fn request(&mut self, way: usize) -> Outcome {
        let prng = &mut self.prng;
        let state = match prng.below(3) {
            0 => {
                let count = prng.below(9);
                prng.bytes(count)
            }
            1 => vec![1, 1, prng.byte(), prng.byte(), prng.byte()],
            _ => vec![1, 1, prng.below(3) as u8, 0x80 | prng.byte() & 15, 0],
        };
        let room = prng.pick(&[0, 9, 1500]);
        let end = &mut self.ends[way];
        let before = end.endpoint.clone();
        let found = end.radio(4, &state, room)?;
        let other = &end.endpoint.decompressor;
        ensure(
            "a request leaves the decompressor",
            *other == before.decompressor,
        )?;
        let stays = found.number == 0 || end.endpoint.compressor == before.compressor;
        ensure("a refused request changes nothing", stays)
    }

    /// The far end's report, handed to the near end.
    fn report(&mut self, way: usize, counts: &mut Counts) -> Outcome {
        let room = self.prng.pick(&[0, 4, 5, 200, 200]);
        let found = self.ends[1 - way].report(room)?;
        if !found.bytes.is_empty() {
            counts.reports += 1;
            self.ends[way].refuses(0, 4, &found.bytes, 0)?;
        }
        Ok(())
    }

    fn unknown_type(&mut self, way: usize) -> Outcome {
        let link_type = self.prng.pick(&[5, 6, 255, 260, 1 << 31, u32::MAX]);
        let sent = self.ways[way].in_flight.front();
        let bytes = sent.map_or_else(|| hex("01 01 00 80 00"), |sent| sent.bytes.clone());
        self.ends[1 - way].refuses(3, link_type, &bytes, 1500)
    }

    /// Anything from the radio but context state, which belongs to the other direction.
    fn forge(&mut self, way: usize, counts: &mut Counts) -> Outcome {
        counts.forged += 1;
        let prng = &mut self.prng;
        let mut link_type = prng.pick(&[0, 1, 1, 2, 3, 5, u32::MAX]);
        let sent = self.ways[way].in_flight.front();
        let mut bytes = match sent.filter(|_| prng.bit()) {
            Some(sent) => sent.bytes.clone(),
            None => {
                let count = prng.below(50);
                prng.bytes(count)
            }
        };
        if prng.bit() {
            let table = &self.ends[1 - way].endpoint.decompressor;
            (link_type, bytes) = forge::compressed(prng, table);
        }
        let room = prng.pick(&[0, 50, 1500, 1500]);
        self.ends[1 - way].radio(link_type, &bytes, room)?;
        Ok(())
    }

    /// Calls on a table that is not sound for the moment are refused 1; the other table's are not.
    fn damaged_tables(&mut self, which: usize) -> Outcome {
        let end = &mut self.ends[which];
        if self.prng.bit() {
            let kept = std::mem::replace(&mut end.endpoint.compressor.repeats, 15);
            same("send", end.wire(&[1], 1)?.number, 1)?;
            end.refuses(1, 4, &[], 0)?;
            end.refuses(0, 0, &[1], 1)?;
            end.endpoint.compressor.repeats = kept;
        } else {
            let kept = std::mem::replace(&mut end.endpoint.decompressor.contexts, 0);
            end.refuses(1, 0, &[1], 1)?;
            same("report", end.report(200)?.number, 1)?;
            same("send", end.wire(&[], 0)?.number, 2)?;
            end.endpoint.decompressor.contexts = kept;
        }
        Ok(())
    }
}

#[test]
fn many_facing_lists() {
    let lists = 4_000;
    let mut counts = Counts::default();
    for seed in 0..lists {
        if let Err(what) = run_facing(Mutant::None, 2_000_000 + seed, &mut counts) {
            panic!("{what}");
        }
    }
    println!(
        "facing endpoints: {lists} lists, {} calls, {} rebuilt under the premises ({} by a judged checksum), {} dropped, \
         {} without room, {} forged, {} reports handed over, totals stopped {:?}, answers by number {:?}",
        counts.calls,
        counts.rebuilt,
        counts.guessed,
        counts.dropped,
        counts.without_room,
        counts.forged,
        counts.reports,
        counts.stopped,
        counts.numbers,
    );
    // The lists must really have held what they are meant to hold.
    assert!(counts.rebuilt > 50_000 && counts.dropped > 20_000 && counts.without_room > 5_000);
    assert!(counts.forged > 5_000 && counts.reports > 1_000 && counts.guessed > 1_000);
    assert!(counts.stopped.iter().all(|&count| count > 200));
    assert!(counts.numbers.iter().all(|&count| count > 20));
}
