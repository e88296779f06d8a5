//! Random call scripts of saves and loads. Traffic with losses, forged packets and contexts written by hand
//! make the decompressor's table; it is saved again and again. Its files are loaded at once or much later,
//! and so are files of tables that no call made, whole or with something wrong.

use crate::decompressor::{self, Status, Table};
use crate::files::{self, file_of};
use crate::flows::Flow;
use crate::forge;
use crate::generate::{
    exact_length, forged_full_header, hex, report_now, room, something_broken, LINK_TYPES,
    OUT_OF_RANGE,
};
use crate::mutant::Mutant;
use crate::planned::{Planned, Planner};
use crate::prng::Prng;
use crate::saved;
use crate::script::{
    decompressor_field, decompressor_table_field, Field, DECOMPRESSOR_FIELDS, MOST_BYTES,
    MOST_SAVED_BYTES,
};
use crate::way::{place_of_arrival, Way};
use crate::{compressor, FULL_HEADER, PLACES};

/// Longer files are handed over only now and then, so that scripts stay short.
const LONG: usize = 1200;
/// How many files are kept for later, of a stretch and of those before it.
const KEPT: usize = 8;

pub struct Generator {
    prng: Prng,
    planned: Planned,
    calls_left: usize,
    /// Percent of packets with a change.
    change: usize,
    way: Way,
    last_arrival: Option<(u32, Vec<u8>)>,
    /// K of the next stretch with a K of any size; in 64 such stretches every K comes once.
    next_size: u8,
    /// Files saved since the last opening, and files from before it.
    fresh: Vec<Vec<u8>>,
    old: Vec<Vec<u8>>,
}

impl Generator {
    pub fn new(seed: u64) -> Self {
        let mut prng = Prng::new(seed);
        let mut generator = Generator {
            planned: Planned::default(),
            calls_left: 0,
            change: 10,
            way: Way::new(&mut prng, 0, false),
            last_arrival: None,
            next_size: prng.between(1, 64) as u8,
            fresh: Vec::new(),
            old: Vec::new(),
            prng,
        };
        generator.plan_before_any_opening();
        generator
    }
}

impl Planner for Generator {
    fn planned(&mut self) -> &mut Planned {
        &mut self.planned
    }

    fn plan(&mut self) {
        if self.calls_left == 0 {
            return self.open_stretch();
        }
        self.calls_left -= 1;
        if !is_sound(self.planned.table()) {
            return self.plan_whole_load();
        }
        // After a load of another table little would arrive.
        let strange = self.planned.table().contexts != self.planned.runner.compressor.contexts;
        if strange && self.prng.chance(1, 4) {
            return self.plan_own_load();
        }
        if something_broken(self.planned.table()) && self.prng.chance(1, 16) {
            return self.plan_recovery();
        }
        match self.prng.below(100) {
            0..=8 => self.plan_save(),
            9..=11 => self.plan_whole_load(),
            12..=15 => self.plan_own_load(),
            16..=43 => self.plan_wrong_load(),
            44..=45 => self.plan_show(),
            46 => self.plan_report(),
            47 => self.plan_whole_context(),
            48..=50 => self.plan_field(),
            51..=57 => self.plan_forged_arrival(),
            58 => self.plan_no_call(),
            59 => self.plan_stray_opening(),
            _ if self.way.in_flight.is_empty() || self.prng.chance(5, 9) => self.plan_send(),
            _ => self.plan_arrival(),
        }
    }
}

impl Generator {
    // Openings

    /// Neither table is open: saves are refused, and loads are judged all the same.
    fn plan_before_any_opening(&mut self) {
        for room in [0, 5, MOST_SAVED_BYTES] {
            self.push(format!("v {room}"));
        }
        let table = files::some_table(&mut self.prng);
        let file = file_of(&table);
        for _ in 0..30 {
            let wrong = wrong_file(&mut self.prng, &file);
            if !self.would_load(&wrong) {
                self.push(format!("l {}", hex(&wrong)));
            }
        }
        self.push("dr 0".to_string());
        self.push(format!("v {}", file.len()));
        self.push(format!("l {}", hex(&file)));
        self.push(format!("v {}", file.len()));
        self.push(format!("dr {}", table.contexts - 1));
        self.push(format!("dr {}", table.contexts.min(63)));
    }

    fn open_stretch(&mut self) {
        let prng = &mut self.prng;
        let repeats = prng.below(15);
        let contexts = if prng.chance(1, 4) {
            self.next_size = (self.next_size + 37 - 1) % 64 + 1;
            self.next_size
        } else {
            files::small_size(prng)
        };
        // Wide tables need many packets to be filled.
        let wide = contexts > 7;
        self.calls_left = if wide {
            prng.between(60, 300)
        } else {
            prng.between(20, 200)
        };
        self.change = prng.pick(&[2, 4, 10, 30]);
        self.way = Way::new(prng, repeats, false);
        let most = usize::from(contexts) + 1;
        let speakers = if wide {
            prng.pick(&[3, most])
        } else {
            prng.between(1, most)
        };
        self.way.flows = (0..speakers).map(|_| Flow::new(prng)).collect();
        self.last_arrival = None;
        for file in std::mem::take(&mut self.fresh) {
            if self.prng.chance(1, 4) {
                keep(&mut self.prng, &mut self.old, file);
            }
        }
        self.push(format!("os {repeats} {contexts}"));
        self.push(format!("or {repeats} {contexts}"));
    }

    /// An opening inside a stretch, refused as a rule.
    fn plan_stray_opening(&mut self) {
        let (n, k) = if self.prng.chance(1, 6) {
            (self.prng.below(15) as u32, self.prng.between(1, 64) as u32)
        } else {
            self.prng.pick(&OUT_OF_RANGE)
        };
        self.push(format!("or {n} {k}"));
    }

    // Traffic

    /// Tries the send on a copy to know its exact length, and remembers what it gives out.
    fn plan_send(&mut self) {
        let packet = self.way.next_packet(&mut self.prng, self.change);
        let mut output = [0; MOST_BYTES];
        let mut table = self.planned.runner.compressor.clone();
        let answer = compressor::send(&mut table, &packet, &mut output);
        let room = room(&mut self.prng, answer.length);
        if answer.number == 0 && room >= answer.length {
            let bytes = output[..answer.length].to_vec();
            self.way.in_flight.push_back((answer.link_type, bytes));
        }
        self.push(format!("s {} {room}", hex(&packet)));
    }

    fn plan_arrival(&mut self) {
        let Some((link_type, bytes)) = self.way.next_arrival(&mut self.prng) else {
            return self.plan_send();
        };
        self.plan_receive(link_type, &bytes);
        self.last_arrival = Some((link_type, bytes));
    }

    fn plan_receive(&mut self, link_type: u32, bytes: &[u8]) {
        let exact = exact_length(self.planned.table(), link_type, bytes);
        let room = room(&mut self.prng, exact);
        let place = place_of_arrival(link_type, bytes);
        self.way.count(place, room < exact);
        self.push(format!("r {link_type} {} {room}", hex(bytes)));
    }

    /// Packets that the compressor never sent, so that contexts hold what its own flows do not have and
    /// break more often than losses would break them.
    fn plan_forged_arrival(&mut self) {
        let (link_type, bytes) = match self.prng.below(12) {
            0..=4 => {
                let flow = self.way.some_flow(&mut self.prng);
                let table = self.planned.table();
                let bytes = forged_full_header(&mut self.prng, flow, table);
                (FULL_HEADER, bytes)
            }
            5..=9 => forge::compressed(&mut self.prng, self.planned.table()),
            10 => {
                let link_type = self.prng.pick(&LINK_TYPES);
                (link_type, forge::noise(&mut self.prng))
            }
            // What has arrived already, which is what comes again after a load.
            _ => self.last_arrival.clone().unwrap_or((2, vec![0, 0])),
        };
        self.plan_receive(link_type, &bytes);
    }

    /// The report, and mostly the request that it makes.
    fn plan_recovery(&mut self) {
        let report = report_now(self.planned.table());
        self.plan_report();
        if self.prng.chance(4, 5) {
            self.push(format!("q {}", hex(&report)));
        }
    }

    fn plan_report(&mut self) {
        let exact = report_now(self.planned.table()).len();
        let room = room(&mut self.prng, exact);
        self.push(format!("p {room}"));
    }

    // Saves and loads

    fn plan_save(&mut self) {
        let file = file_of(self.planned.table());
        let room = self.plan_save_of(&file);
        if room >= file.len() {
            keep(&mut self.prng, &mut self.fresh, file);
        }
    }

    /// The room that the save is given, where the table has that file.
    fn plan_save_of(&mut self, file: &[u8]) -> usize {
        let room = save_room(&mut self.prng, file.len());
        self.push(format!("v {room}"));
        room
    }

    /// The table as it is, or as it was before in this stretch.
    fn plan_own_load(&mut self) {
        let file = match self.fresh.last() {
            Some(file) if self.prng.bit() => file.clone(),
            _ if self.fresh.is_empty() || self.prng.chance(1, 3) => {
                self.plan_save();
                file_of(self.planned.table())
            }
            _ => self.fresh[self.prng.below(self.fresh.len())].clone(),
        };
        self.plan_load(&file);
    }

    fn plan_whole_load(&mut self) {
        let file = self.some_file();
        self.plan_load(&file);
    }

    fn plan_wrong_load(&mut self) {
        let file = self.some_file();
        let wrong = wrong_file(&mut self.prng, &file);
        self.plan_load(&wrong);
    }

    /// A file that loads: of the table as it is, of this stretch, of an earlier one, or of any table.
    fn some_file(&mut self) -> Vec<u8> {
        for _ in 0..4 {
            let file = match self.prng.below(8) {
                0 | 1 if is_sound(self.planned.table()) => file_of(self.planned.table()),
                2 if !self.fresh.is_empty() => {
                    self.fresh[self.prng.below(self.fresh.len())].clone()
                }
                3 if !self.old.is_empty() => self.old[self.prng.below(self.old.len())].clone(),
                _ => file_of(&files::some_table(&mut self.prng)),
            };
            if file.len() <= LONG || self.prng.bit() {
                return file;
            }
        }
        file_of(&files::some_table(&mut self.prng))
    }

    fn would_load(&self, file: &[u8]) -> bool {
        let mut table = Table::unopened();
        saved::load(&mut table, file).number == 0
    }

    /// A load, and often calls that show what table there is now.
    fn plan_load(&mut self, file: &[u8]) {
        let mut after = self.planned.table().clone();
        saved::load(&mut after, file);
        self.push(format!("l {}", hex(file)));
        if self.prng.chance(2, 5) {
            let place = likely_place(&mut self.prng, &after);
            self.push(format!("dr {place}"));
        }
        if self.prng.chance(1, 5) {
            self.plan_save_of(&file_of(&after));
        }
        if self.prng.chance(1, 10) {
            let room = room(&mut self.prng, report_now(&after).len());
            self.push(format!("p {room}"));
        }
    }

    fn plan_show(&mut self) {
        let place = likely_place(&mut self.prng, self.planned.table());
        self.push(format!("dr {place}"));
    }

    // Tables by hand

    /// A whole context, filled or not, in one place.
    fn plan_whole_context(&mut self) {
        let place = self.prng.below(self.planned.table().contexts.into());
        let mut wanted = match self.prng.below(6) {
            0 => decompressor::Context::default(),
            1 => decompressor::Context {
                status: Status::Broken,
                ..decompressor::Context::default()
            },
            _ => files::some_filled_context(&mut self.prng),
        };
        let mut now = self.planned.table().places[place];
        let mut after = self.planned.table().clone();
        after.places[place] = wanted;
        for name in DECOMPRESSOR_FIELDS {
            let value = decompressor_field(&mut wanted, name).map_or(0, |field| field.get());
            let old = decompressor_field(&mut now, name).map_or(0, |field| field.get());
            if value != old {
                self.push(format!("wr {name} {place} {value}"));
                // On the way there the table need not be sound.
                if self.prng.chance(1, 40) {
                    let room = self.prng.pick(&[0, 60, MOST_SAVED_BYTES]);
                    self.push(format!("v {room}"));
                }
            }
        }
        let file = file_of(&after);
        self.plan_save_of(&file);
        if self.prng.bit() {
            keep(&mut self.prng, &mut self.fresh, file);
        }
    }

    /// One field. If that makes the table unsound, saves are refused until it is put back or a load takes
    /// its place.
    fn plan_field(&mut self) {
        let (name, place) = match self.prng.below(8) {
            0 => ("k", 0),
            1 => ("n", 0),
            _ => {
                let place = likely_place(&mut self.prng, self.planned.table());
                (self.prng.pick(&DECOMPRESSOR_FIELDS), place)
            }
        };
        let mut after = self.planned.table().clone();
        let Some(field) = decompressor_table_field(&mut after, name, place) else {
            return;
        };
        let (old, value) = (field.get(), some_value(&mut self.prng, &field));
        field.set(value);
        self.push(format!("wr {name} {place} {value}"));
        if is_sound(&after) {
            self.plan_save_of(&file_of(&after));
            return;
        }
        for _ in 0..self.prng.between(1, 3) {
            let room = self
                .prng
                .pick(&[0, 8, 60, saved::LONGEST, MOST_SAVED_BYTES]);
            self.push(format!("v {room}"));
        }
        // The other calls on this table are refused as well.
        match self.prng.below(8) {
            0 => self.push("p 200".to_string()),
            1 => self.push("r 0 45 1".to_string()),
            _ => {}
        }
        if self.prng.bit() {
            let file = self.some_file();
            let wrong = wrong_file(&mut self.prng, &file);
            self.push(format!("l {}", hex(&wrong)));
            self.push(format!("dr {place}"));
            if self.would_load(&wrong) {
                return;
            }
        }
        if self.prng.bit() {
            self.plan_whole_load();
        } else {
            self.push(format!("wr {name} {place} {old}"));
        }
    }

    fn plan_no_call(&mut self) {
        let lines = [
            "v",
            "v -",
            "v 16385",
            "v 4294967296",
            "v 8 8",
            "l",
            "l 0",
            "l 0A",
            "l 000401000100 6",
            "l 0004 01000100",
            "vl 8",
        ];
        let line = self.prng.pick(&lines);
        self.push(line.to_string());
    }
}

fn is_sound(table: &Table) -> bool {
    decompressor::sound(Mutant::None, table)
}

/// Adds a file to those kept for later, in the place of any if there are enough.
fn keep(prng: &mut Prng, files: &mut Vec<Vec<u8>>, file: Vec<u8>) {
    if files.len() < KEPT {
        files.push(file);
    } else {
        let place = prng.below(KEPT);
        files[place] = file;
    }
}

/// Something made of a file that loads. Most of it does not load; some does, as another table.
fn wrong_file(prng: &mut Prng, file: &[u8]) -> Vec<u8> {
    match prng.below(24) {
        0 | 1 => files::noise(prng),
        2 => files::of_another_length(prng, file),
        3 => files::flipped(prng, file),
        _ => files::changed(prng, file),
    }
}

/// Enough room or exactly enough, one byte too little, none, or any.
fn save_room(prng: &mut Prng, exact: usize) -> usize {
    match prng.below(16) {
        0 | 1 => exact.saturating_sub(1),
        2 => 0,
        3 => prng.below(exact + 1),
        4 => MOST_SAVED_BYTES,
        5 => saved::LONGEST,
        6 => exact + 1,
        7..=9 => exact + prng.below(60),
        _ => exact,
    }
}

/// A place that matters: mostly of a context in use, else around K, now and then any.
fn likely_place(prng: &mut Prng, table: &Table) -> usize {
    let used: Vec<usize> = (0..PLACES)
        .filter(|&place| table.places[place].status != Status::Empty)
        .collect();
    let contexts = usize::from(table.contexts);
    match prng.below(12) {
        0 => prng.below(PLACES),
        1 => contexts.min(PLACES - 1),
        2 | 3 => prng.below(contexts.clamp(1, PLACES)),
        _ if used.is_empty() => 0,
        _ => prng.pick(&used),
    }
}

/// A number that the field's type can hold, mostly at an edge of what the rules allow.
fn some_value(prng: &mut Prng, field: &Field) -> u32 {
    let any = prng.number() as u32;
    match field {
        Field::Bit(_) => any & 1,
        Field::Status(_) => any % 3,
        Field::Byte(_) => prng.pick(&[0, 1, 3, 4, 14, 15, 16, 63, 64, 65, 127, 128, 255]),
        Field::Short(_) => prng.pick(&[0, 1, 255, 256, 65535, any & 0xffff]),
        Field::Word(_) => prng.pick(&[
            0,
            1,
            4_194_303,
            4_194_304,
            1 << 31,
            u32::MAX - 16384,
            u32::MAX - 16383,
            u32::MAX,
            any,
        ]),
    }
}
