//! The picture reader (request 2026-10): single calls with any reader, lists of openings and blocks beside the plain history, and
//! what the writer sent, read in turn.
use crate::answers::{BlockAnswer, NextAnswer, Reader, ReaderAnswer};
use crate::blocks::{self, any_known, block_of_width, damage, hexadecimal, put_word, spoil};
use crate::exact::{self, block_bytes, Outcome, Row, System, MOST_ROWS, MOST_SAMPLES, SYSTEMS};
use crate::lent::Lent;
use crate::library::{self, filled};
use crate::lists::{self, are_codes_near, is_header, Entry};
use crate::pseudorandom::Pseudorandom;
use crate::tally::Tally;
use crate::Effort;

// ---- readers

const PHASES: [u8; 6] = [0, 1, 2, 3, 129, 255];
const KEPT_SYSTEMS: [u8; 8] = [0, 1, 2, 3, 4, 5, 6, 255];
const WIDTHS: [u16; 7] = [0, 1, 2, 7679, 7680, 7681, 65535];
const HEIGHTS: [u16; 7] = [0, 1, 2, 4319, 4320, 4321, 65535];

/// Row numbers at the ends of what a height allows, next to them and beyond.
fn edge_rows(height: u16) -> [u16; 7] {
    let [two_less, less, more] = [height.wrapping_sub(2), height.wrapping_sub(1), height.wrapping_add(1)];
    [0, 1, two_less, less, height, more, 65535]
}

/// Every reader with each number at the ends of its range, next to them and beyond.
fn edge_readers() -> Vec<Reader> {
    let digit = |place: usize, n: u32| place / 8 / 7usize.pow(n) % 7;
    let reader = |place: usize| {
        let height = HEIGHTS[digit(place, 1)];
        Reader {
            phase: PHASES[place / 8 / 7usize.pow(3)],
            system: KEPT_SYSTEMS[place % 8],
            width: WIDTHS[digit(place, 0)],
            height,
            next: edge_rows(height)[digit(place, 2)],
        }
    };
    (0..PHASES.len() * 7usize.pow(3) * 8).map(reader).collect()
}

/// A reader that is reading, with so many rows of this kind; with none, no kind is known.
fn reading(height: u16, next: u16, (system, width): (u8, u16)) -> Reader {
    let (system, width) = if next == 0 { (0, 0) } else { (system, width) };
    Reader {
        phase: 1,
        system,
        width,
        height,
        next,
    }
}

const NARROW: usize = 4;

fn any_narrow(random: &mut Pseudorandom) -> usize {
    1 + random.below(NARROW)
}

/// As the calls give it, mostly of a narrow picture.
fn any_reading(random: &mut Pseudorandom) -> Reader {
    let any = random.within(1, 4320);
    let height = random.pick(&[1, 2, 3, any, any, any, 4319, 4320]);
    let rows = random.within(0, height - 1);
    let next = random.pick(&[0, 1.min(height - 1), rows, rows, rows, height - 1]);
    let wide = random.once_in(2000);
    let width = if wide { MOST_SAMPLES } else { any_narrow(random) };
    reading(height, next, (random.within(1, 4) as u8, width as u16))
}

fn of_bits(bits: u64) -> Reader {
    unsafe { std::mem::transmute(bits) }
}

/// With one number changed, or without a part of what goes together.
fn changed(reader: Reader, random: &mut Pseudorandom) -> Reader {
    let (any, byte) = (random.bits() as u16, random.bits() as u8);
    let Reader { height, next, .. } = reader;
    let mut changed = reader;
    match random.below(8) {
        0 => changed.phase = random.pick(&[0, 2, 3, 129, 255, byte]),
        1 => changed.system = random.pick(&[0, 1, 2, 3, 4, 5, 6, 255, reader.system ^ 128, byte]),
        2 => changed.width = random.pick(&[0, 1, 2, 7680, 7681, 65535, reader.width ^ 256, reader.width ^ 1 << 15, any]),
        3 => changed.height = random.pick(&[0, next, next.wrapping_add(1), 4320, 4321, height ^ 256, height ^ 1 << 15, any]),
        4 => changed.next = random.pick(&[0, 1, height.wrapping_sub(1), height, next ^ 256, next ^ 1 << 15, any]),
        5 => (changed.system, changed.width) = (0, 0),
        6 => (changed.system, changed.next) = (0, 0),
        _ => (changed.width, changed.next) = (0, 0),
    }
    changed
}

/// Not opened, complete, either of them with numbers that must not matter, or one that no call gives.
fn not_reading(random: &mut Pseudorandom) -> Reader {
    match random.below(4) {
        0 => random.pick(&[Reader::NEW, Reader::COMPLETE]),
        1 => Reader {
            phase: random.pick(&[0, 2, 3]),
            ..any_reading(random)
        },
        _ => loop {
            let reader = changed(any_reading(random), random);
            if !is_reading(reader) {
                return reader;
            }
        },
    }
}

fn any_reader(random: &mut Pseudorandom) -> Reader {
    match random.below(12) {
        0 => of_bits(random.bits()),
        1 => Reader {
            phase: random.below(3) as u8,
            ..of_bits(random.bits())
        },
        2 => not_reading(random),
        3..6 => changed(any_reading(random), random),
        _ => any_reading(random),
    }
}

fn is_reading(reader: Reader) -> bool {
    let history = reader.taken();
    history.height.is_some() && !history.is_complete()
}

/// Readers as the calls give them: not opened, complete, without a row, and with some of each kind.
fn given_by_calls() -> Vec<Reader> {
    let mut readers = vec![Reader::NEW, Reader::COMPLETE];
    readers.extend([1, 2, 255, 256, 4320].map(|height| reading(height, 0, (0, 0))));
    for kind in (1..=4).flat_map(|system| [1, 2, 3, 256].map(|width| (system, width))) {
        let sizes = [(2, 1), (3, 1), (3, 2), (512, 255), (512, 256), (512, 511), (4320, 1), (4320, 4319)];
        readers.extend(sizes.map(|(height, next)| reading(height, next, kind)));
    }
    readers
}

// ---- blocks

/// What is asked of a block: its system, count and row number.
#[derive(Clone, Copy)]
struct Due {
    system: &'static System,
    width: usize,
    number: u16,
}

/// A block, and the places that are lent for its codes.
struct Given {
    bytes: Vec<u8>,
    places: usize,
}

impl Due {
    /// By a reader's numbers, where a block can have them.
    fn by(reader: Reader, random: &mut Pseudorandom) -> Due {
        let (width, narrow) = (usize::from(reader.width), any_narrow(random));
        Due {
            system: exact::system(reader.system.into()).unwrap_or_else(|_| any_known(random)),
            width: if (1..=MOST_SAMPLES).contains(&width) { width } else { narrow },
            number: reader.next,
        }
    }

    /// Wide rows cost the time of a thousand narrow ones, which are unlike them.
    fn mostly_narrow(self, random: &mut Pseudorandom) -> Due {
        if self.width <= NARROW || random.once_in(500) {
            return self;
        }
        let width = any_narrow(random);
        Due { width, ..self }
    }

    fn numbered(self, number: u16) -> Due {
        Due { number, ..self }
    }

    fn bytes(self, random: &mut Pseudorandom) -> Vec<u8> {
        let mut block = block_of_width(self.system, self.width, random);
        put_word(&mut block, 1, self.number);
        block
    }

    /// The block itself, with places enough.
    fn whole(self, random: &mut Pseudorandom) -> Given {
        Given {
            bytes: self.bytes(random),
            places: 3 * self.width + random.below(3),
        }
    }

    /// With up to three of the eight kinds of damage.
    fn damaged(self, random: &mut Pseudorandom) -> Given {
        let mut given = self.whole(random);
        for _ in 0..1 + random.below(3) {
            damage(&mut given.bytes, self.width, random);
        }
        given
    }
}

const TOO_FEW_PLACES: u32 = blocks::FAULTS;
const OUT_OF_TURN: u32 = blocks::FAULTS + 1;
const OTHER_SYSTEM: u32 = blocks::FAULTS + 2;
const OTHER_COUNT: u32 = blocks::FAULTS + 3;
const FAULTS: u32 = blocks::FAULTS + 4;

/// Another number that a row can have: next to this one, alike in its low bits, with its bytes exchanged, an end, or any.
fn other_number(number: u16, random: &mut Pseudorandom) -> u16 {
    let any = random.below(MOST_ROWS) as u16;
    let (less, more) = (number.wrapping_sub(1), number.wrapping_add(1));
    let others = [less, more, number ^ 256, number ^ 4096, number.swap_bytes(), 0, 4319, any];
    loop {
        let other = random.pick(&others);
        if other != number && usize::from(other) < MOST_ROWS {
            return other;
        }
    }
}

fn other_system(system: &System, random: &mut Pseudorandom) -> &'static System {
    &SYSTEMS[(system.number as usize + random.below(3)) % 4]
}

fn other_width(width: usize, random: &mut Pseudorandom) -> usize {
    loop {
        let narrow = 1 + random.below(9);
        let other = random.pick(&[width - 1, width + 1, 2 * width, width ^ 1, 1, narrow]);
        if other != width && (1..=MOST_SAMPLES).contains(&other) {
            return other;
        }
    }
}

/// The block that is due with those faults whose bit is set: the faults of a block, too few places, another row number, system or
/// count.
fn with_faults(due: Due, faults: u32, random: &mut Pseudorandom) -> Given {
    let has = |fault: u32| faults >> fault & 1 == 1;
    let mut due = due;
    if has(OUT_OF_TURN) {
        due.number = other_number(due.number, random);
    }
    if has(OTHER_SYSTEM) {
        due.system = other_system(due.system, random);
    }
    if has(OTHER_COUNT) {
        due.width = other_width(due.width, random);
    }
    let mut given = due.whole(random);
    spoil(&mut given.bytes, due.system, due.width, faults, random);
    if has(TOO_FEW_PLACES) {
        let any = random.below(3 * due.width);
        given.places = random.pick(&[0, any, 3 * due.width - 1]);
    }
    given
}

/// None, one or two of the faults.
fn any_faults(random: &mut Pseudorandom) -> u32 {
    let two = 1 << random.below(FAULTS as usize) | 1 << random.below(FAULTS as usize);
    let one = 1 << (TOO_FEW_PLACES + random.below(4) as u32);
    random.pick(&[0, 0, one, two])
}

fn any_given(due: Due, random: &mut Pseudorandom) -> Given {
    if random.once_in(8) {
        return due.damaged(random);
    }
    let faults = any_faults(random);
    with_faults(due, faults, random)
}

// ---- single calls

pub fn new_reader(effort: &Effort) -> bool {
    let mut tally = Tally::new("new_reader");
    for _ in 0..1 + effort.cases / 100 {
        let got = unsafe { library::ferghulta_new_reader() };
        tally.count(0, got == Reader::NEW, || format!("{got:?}"));
    }
    tally.end()
}

/// As it is declared, and with the upper half of the height's register filled.
fn open_one(tally: &mut Tally, reader: Reader, height: u32, random: &mut Pseudorandom) {
    let got = unsafe { library::ferghulta_open_reader(reader, height) };
    let again = unsafe { filled::ferghulta_open_reader(reader, random.bits() << 32 | u64::from(height)) };
    let mut history = reader.taken();
    let outcome = history.open(height);
    let wanted = ReaderAnswer::of(reader, &history, outcome);
    tally.count(wanted.refusal, got == wanted && again == wanted, || {
        format!("{reader:?} height {height}: {got:?}, with a register filled {again:?}, wanted {wanted:?}")
    });
}

/// Heights at the ends of their range, and numbers with a height in their low bits.
#[rustfmt::skip]
const GIVEN_HEIGHTS: [u32; 12] = [
    0, 1, 2, 4319, 4320, 4321, 65535, 65536, 65537, 65536 + 4320, 0x8000_0001, u32::MAX,
];

fn any_height(random: &mut Pseudorandom) -> u32 {
    match random.below(4) {
        0 => random.bits() as u32,
        1 => random.pick(&GIVEN_HEIGHTS),
        _ => random.below(4400) as u32,
    }
}

fn with_each_bit_changed(reader: Reader) -> impl Iterator<Item = Reader> {
    let bits: u64 = unsafe { std::mem::transmute(reader) };
    (0..64).map(move |bit| of_bits(bits ^ 1 << bit))
}

/// Every reader at the ends with heights at the ends, every height with some readers, those of the calls with each bit changed, and
/// any.
pub fn open_reader(effort: &Effort, random: &mut Pseudorandom) -> bool {
    let mut tally = Tally::new("open_reader");
    let changed = given_by_calls().into_iter().flat_map(with_each_bit_changed);
    for reader in edge_readers().into_iter().chain(changed).step_by(effort.stride) {
        for height in GIVEN_HEIGHTS {
            open_one(&mut tally, reader, height, random);
        }
    }
    for height in (0..4400).step_by(effort.stride) {
        for reader in [Reader::NEW, Reader::COMPLETE, any_reading(random), any_reader(random)] {
            open_one(&mut tally, reader, height, random);
        }
    }
    for _ in 0..3 * effort.cases {
        open_one(&mut tally, any_reader(random), any_height(random), random);
    }
    tally.end()
}

/// The call has the answer's memory filled; lists of calls make it as it is declared.
fn read_one(tally: &mut Tally, reader: Reader, given: &Given, random: &mut Pseudorandom) {
    let block = Lent::holding(&given.bytes, random);
    let codes = Lent::<u16>::blank(given.places, random);
    let answer = Lent::<u32>::blank(NextAnswer::WORDS, random);
    let at = answer.pointer().cast();
    let given_back =
        unsafe { filled::ferghulta_read_next(at, reader, block.pointer(), block.length(), codes.pointer(), given.places) };
    let got: NextAnswer = unsafe { *at };
    let mut history = reader.taken();
    let outcome = history.read(&given.bytes, given.places);
    let wanted = NextAnswer::of(reader, &history, &outcome);
    let written = written(&outcome);
    let agree = given_back == at && answer.holds(&wanted.words()) && codes.holds(written) && block.holds(&[]);
    tally.count(wanted.block.refusal, agree, || {
        format!(
            "{reader:?} places {} block of {} bytes {}: {got:?}, wanted {wanted:?}; codes as wanted: {}; bytes as lent: {}",
            given.places,
            given.bytes.len(),
            hexadecimal(&given.bytes),
            codes.holds(written),
            block.holds(&[])
        )
    });
}

/// The codes at the front of the slice.
fn written(outcome: &Outcome<Row>) -> &[u16] {
    outcome.as_ref().map_or(&[], |row| &row.codes)
}

/// The block that is due, each of the faults beside reading's alone, and some with reading's.
fn each_kind(tally: &mut Tally, reader: Reader, random: &mut Pseudorandom) {
    let due = Due::by(reader, random);
    for fault in TOO_FEW_PLACES..FAULTS {
        read_one(tally, reader, &with_faults(due, 1 << fault, random), random);
    }
    read_one(tally, reader, &due.whole(random), random);
    read_one(tally, reader, &due.damaged(random), random);
    let faults = random.below(1 << FAULTS) as u32;
    read_one(tally, reader, &with_faults(due, faults, random), random);
}

/// Readers at the ends: those that read with each kind of block, the others with the one that would be due and with any.
fn at_the_ends(tally: &mut Tally, effort: &Effort, random: &mut Pseudorandom) {
    for reader in edge_readers().into_iter().step_by(effort.stride) {
        if is_reading(reader) {
            each_kind(tally, reader, random);
        } else {
            let due = Due::by(reader, random).mostly_narrow(random);
            read_one(tally, reader, &due.whole(random), random);
            read_one(tally, reader, &any_given(due, random), random);
        }
    }
}

/// Readers of the calls with each bit changed: the block that was due before, that which is due then, and any.
fn with_changed_bits(tally: &mut Tally, effort: &Effort, random: &mut Pseudorandom) {
    for reader in given_by_calls() {
        each_kind(tally, reader, random);
        for changed in with_each_bit_changed(reader).step_by(effort.stride.min(7)) {
            let (before, then) = (Due::by(reader, random), Due::by(changed, random));
            read_one(tally, changed, &before.whole(random), random);
            read_one(tally, changed, &then.whole(random), random);
            read_one(tally, changed, &any_given(before.mostly_narrow(random), random), random);
        }
    }
}

/// Every row as the next one, the last, the last but one and an earlier one of its picture, and others in its place.
fn every_row(tally: &mut Tally, effort: &Effort, random: &mut Pseudorandom) {
    for next in (0..MOST_ROWS as u16).step_by(effort.stride) {
        let kind = (random.within(1, 4) as u8, any_narrow(random) as u16);
        for height in [next + 1, next + 2, 4320].into_iter().filter(|&height| height <= 4320) {
            let reader = reading(height, next, kind);
            let due = Due::by(reader, random);
            let others = [next.wrapping_sub(1), next + 1, next ^ 256, next.swap_bytes(), height, 0, 4319, 4320];
            for number in others.into_iter().chain([next]) {
                read_one(tally, reader, &due.numbered(number).whole(random), random);
            }
        }
    }
}

/// Every two systems with every two narrow widths, and widths that are alike in their low or high bits.
fn every_kind(tally: &mut Tally, effort: &Effort, random: &mut Pseudorandom) {
    let mut pairs: Vec<(usize, usize)> = (1..=9).flat_map(|one| (1..=9).map(move |other| (one, other))).collect();
    pairs.extend([(1, 257), (257, 1), (256, 512), (3, 515), (258, 259), (4096, 1), (4097, 1), (7680, 7424), (7680, 7679)]);
    for (first, width) in pairs.into_iter().step_by(effort.stride.min(5)) {
        for (kept, system) in SYSTEMS.iter().flat_map(|kept| SYSTEMS.iter().map(move |system| (kept, system))) {
            let number = random.within(1, 4318);
            let reader = reading(4320, number, (kept.number as u8, first as u16));
            let due = Due { system, width, number };
            read_one(tally, reader, &due.whole(random), random);
        }
    }
}

/// Rows of 7680 samples, as the first and as a later one, and what is one byte or one place off.
fn widest(tally: &mut Tally, effort: &Effort, random: &mut Pseudorandom) {
    let needed = 3 * MOST_SAMPLES;
    for system in SYSTEMS.iter().step_by(effort.stride) {
        for next in [0, 1, 4319] {
            let reader = reading(4320, next, (system.number as u8, MOST_SAMPLES as u16));
            let due = Due {
                system,
                width: MOST_SAMPLES,
                number: next,
            };
            for places in [needed, needed - 1, needed + 1, 0] {
                let bytes = due.bytes(random);
                read_one(tally, reader, &Given { bytes, places }, random);
            }
            for faults in [1, 1 << 6, 1 << 7, 1 << OUT_OF_TURN, 1 << OTHER_SYSTEM, 1 << OTHER_COUNT] {
                read_one(tally, reader, &with_faults(due, faults, random), random);
            }
        }
    }
}

/// All sets of faults of a block, each with a reader without a row, with some and before the last, and with one that is not
/// reading: whatever is tested first has to be told.
fn faults_together(tally: &mut Tally, effort: &Effort, random: &mut Pseudorandom) {
    for faults in (0..1 << FAULTS).step_by(effort.stride) {
        let kind = (random.within(1, 4) as u8, any_narrow(random) as u16);
        let height = random.within(3, 4320);
        for next in [0, random.within(1, height - 2), height - 1] {
            let reader = reading(height, next, kind);
            let due = Due::by(reader, random);
            read_one(tally, reader, &with_faults(due, faults, random), random);
        }
        let reader = not_reading(random);
        let due = Due::by(reader, random).mostly_narrow(random);
        read_one(tally, reader, &with_faults(due, faults, random), random);
    }
}

pub fn read_next(effort: &Effort, random: &mut Pseudorandom) -> bool {
    let mut tally = Tally::new("read_next");
    at_the_ends(&mut tally, effort, random);
    with_changed_bits(&mut tally, effort, random);
    every_row(&mut tally, effort, random);
    every_kind(&mut tally, effort, random);
    widest(&mut tally, effort, random);
    faults_together(&mut tally, effort, random);
    for _ in 0..2 * effort.cases {
        let reader = any_reader(random);
        let due = Due::by(reader, random).mostly_narrow(random);
        read_one(&mut tally, reader, &any_given(due, random), random);
    }
    for _ in 0..effort.cases / 4 {
        let (bytes, places) = (Lent::<u8>::blank(random.below(40), random).part().to_vec(), random.below(8));
        read_one(&mut tally, any_reader(random), &Given { bytes, places }, random);
    }
    tally.end()
}

// ---- lists of openings and blocks

/// The library's reader, handed from call to call, beside the plain history; one slice is lent to every block.
struct List {
    reader: Reader,
    history: exact::Reader,
    slice: Lent<u16>,
    /// What was heard since the last accepted opening: the height that it was given, and the answers to accepted blocks.
    height: Option<u32>,
    heard: Vec<BlockAnswer>,
}

/// Calls beside the history, and what the request says of a list, judged by the library's own answers.
struct Tallies {
    calls: Tally,
    turns: Tally,
    reading: Tally,
}

impl List {
    fn begin(reader: Reader, places: usize, random: &mut Pseudorandom) -> List {
        List {
            reader,
            history: exact::Reader::default(),
            slice: Lent::blank(places, random),
            height: None,
            heard: vec![],
        }
    }

    fn open(&mut self, tallies: &mut Tallies, height: u32) {
        let got = unsafe { library::ferghulta_open_reader(self.reader, height) };
        let outcome = self.history.open(height);
        let wanted = ReaderAnswer::of(self.reader, &self.history, outcome);
        tallies.calls.count(wanted.refusal, got == wanted && self.slice.holds(&[]), || {
            format!("{:?} height {height}: {got:?}, wanted {wanted:?}", self.reader)
        });
        self.reader = got.reader;
        if got.refusal == 0 {
            self.height = Some(height);
            self.heard.clear();
        }
        self.judge(&mut tallies.turns);
    }

    fn read(&mut self, tallies: &mut Tallies, given: &Given, random: &mut Pseudorandom) {
        let block = Lent::holding(&given.bytes, random);
        let (bytes, codes) = (block.pointer(), self.slice.pointer());
        let got = unsafe { library::ferghulta_read_next(self.reader, bytes, block.length(), codes, given.places) };
        let outcome = self.history.read(&given.bytes, given.places);
        let wanted = NextAnswer::of(self.reader, &self.history, &outcome);
        let slice = self.slice.holds(written(&outcome));
        tallies.calls.count(wanted.block.refusal, got == wanted && slice && block.holds(&[]), || {
            format!(
                "{:?} after {} rows: {got:?}, wanted {wanted:?}; slice as wanted: {slice}; bytes as lent: {}; places {} block {}",
                self.reader,
                self.history.rows.len(),
                block.holds(&[]),
                given.places,
                hexadecimal(&given.bytes)
            )
        });
        self.reads_alike(&mut tallies.reading, given, &got.block, random);
        self.reader = got.reader;
        self.heard.extend((got.block.refusal == 0).then_some(got.block));
        self.judge(&mut tallies.turns);
        self.slice.settle();
    }

    /// 'Gives for each accepted block what block reading gives', and refuses what it refuses, but for 36: beside the library's own
    /// block reading.
    fn reads_alike(&self, tally: &mut Tally, given: &Given, got: &BlockAnswer, random: &mut Pseudorandom) {
        let block = Lent::holding(&given.bytes, random);
        let codes = Lent::<u16>::blank(given.places, random);
        let read =
            unsafe { library::ferghulta_read_block(block.pointer(), block.length(), codes.pointer(), codes.length()) };
        let front = 3 * usize::from(read.samples);
        let agree = match got.refusal {
            0 => *got == read && codes.part()[..front] == self.slice.part()[..front],
            34 | 35 => read.refusal == 0,
            36 => true,
            refusal => refusal == read.refusal,
        };
        tally.count(got.refusal, agree, || format!("{got:?}, block reading {read:?}; block {}", hexadecimal(&given.bytes)));
    }

    /// The accepted blocks are the rows from 0 on, of one system and one width, and it is complete after height of them alone.
    fn judge(&self, tally: &mut Tally) {
        let numbers = self.heard.iter().map(|block| usize::from(block.row)).eq(0..self.heard.len());
        let is_like_first = |block: &BlockAnswer| (block.system, block.samples) == (self.heard[0].system, self.heard[0].samples);
        let complete = self.height.is_none_or(|height| (self.reader.phase == 2) == (self.heard.len() == height as usize));
        let agree = numbers && self.heard.iter().all(is_like_first) && complete;
        tally.count(0, agree, || {
            let rows: Vec<u16> = self.heard.iter().map(|block| block.row).collect();
            format!("{:?} height {:?} rows {rows:?}", self.reader, self.height)
        });
    }

    /// Whether a block may be accepted.
    fn is_reading(&self) -> bool {
        self.history.height.is_some() && !self.history.is_complete()
    }

    /// By the history; before the first row any kind will do.
    fn due(&self, random: &mut Pseudorandom) -> Due {
        let known = self.history.rows.first().copied();
        let (system, width) = known.unwrap_or((random.within(1, 4).into(), any_narrow(random) as u16));
        Due {
            system: exact::system(system).unwrap(),
            width: width.into(),
            number: self.history.rows.len() as u16,
        }
    }

    /// Mostly the call that the state asks for, as it asks for it.
    fn step(&mut self, tallies: &mut Tallies, most_rows: usize, random: &mut Pseudorandom) {
        if random.once_in(if self.is_reading() { 25 } else { 2 }) {
            let height = 1 + random.below(most_rows) as u32;
            let height = if random.once_in(3) { any_height(random) } else { height };
            return self.open(tallies, height);
        }
        let due = self.due(random);
        let first = random.once_in(4) && !self.is_reading();
        let due = if first { due.numbered(0) } else { due };
        let given = if random.once_in(3) { any_given(due, random) } else { due.whole(random) };
        self.read(tallies, &given, random);
    }
}

/// Every row of a picture of this kind, with a refused one before every eighth; then one more, the first again, and a second
/// picture's.
fn whole_picture(tallies: &mut Tallies, height: u32, system: &'static System, width: usize, random: &mut Pseudorandom) {
    let mut list = List::begin(Reader::NEW, 3 * width + 9, random);
    let due = |number: u32| Due {
        system,
        width,
        number: number as u16,
    };
    list.open(tallies, height);
    for number in 0..height {
        if number % 8 == 7 {
            let fault = TOO_FEW_PLACES + random.below(2) as u32;
            list.read(tallies, &with_faults(due(number), 1 << fault, random), random);
        }
        list.read(tallies, &due(number).whole(random), random);
    }
    for number in [height, 0] {
        list.read(tallies, &due(number).whole(random), random);
    }
    list.open(tallies, 2);
    for number in [height, 1, 0] {
        list.read(tallies, &due(number).whole(random), random);
    }
}

pub fn lists(effort: &Effort, random: &mut Pseudorandom) -> bool {
    let mut tallies = Tallies {
        calls: Tally::new("lists_of_openings_and_blocks"),
        turns: Tally::new("rows_in_turn"),
        reading: Tally::new("reader_beside_read_block"),
    };
    for system in SYSTEMS.iter().step_by(effort.stride) {
        whole_picture(&mut tallies, 4320 / effort.stride as u32, system, 1, random);
        whole_picture(&mut tallies, 257, system, 3, random);
        whole_picture(&mut tallies, 9, system, MOST_SAMPLES, random);
    }
    for _ in 0..1 + effort.cases / 100 {
        let begun = if random.once_in(6) { not_reading(random) } else { unsafe { library::ferghulta_new_reader() } };
        let most_rows = random.pick(&[1, 2, 5, 5, 40]);
        let mut list = List::begin(begun, 3 * 2 * NARROW + 9, random);
        for _ in 0..random.below(100) {
            list.step(&mut tallies, most_rows, random);
        }
    }
    tallies.calls.end() & tallies.turns.end() & tallies.reading.end()
}

// ---- what the writer sent, read in turn

/// 'A row that went in through the writer and comes back here is still within one code.' Each is accepted, and the last one of its
/// picture makes the reader complete.
fn read_back(tally: &mut Tally, reader: Reader, entry: &Entry, random: &mut Pseudorandom) -> Reader {
    let block = Lent::holding(&entry.block, random);
    let count = entry.lights.len();
    let codes = Lent::<u16>::blank(count + random.below(3), random);
    let (bytes, slice) = (block.pointer(), codes.pointer());
    let got = unsafe { library::ferghulta_read_next(reader, bytes, block.length(), slice, codes.length()) };
    let phase = if entry.number + 1 == entry.height { 2 } else { 1 };
    let agree = is_header(&got.block, entry) && are_codes_near(entry, &codes.part()[..count]) && got.reader.phase == phase;
    tally.count(0, agree, || {
        let (number, height) = (entry.number, entry.height);
        format!("{reader:?} row {number} of {height}: {got:?}; block {}", hexadecimal(&entry.block))
    });
    got.reader
}

/// The pictures of a list, each with the rows that were accepted, through one reader.
fn read_pictures(tally: &mut Tally, entries: &[Entry], random: &mut Pseudorandom) {
    let mut reader = unsafe { library::ferghulta_new_reader() };
    for picture in entries.chunk_by(|_, next| next.number > 0) {
        let height = picture[0].height as u32;
        let opened = unsafe { library::ferghulta_open_reader(reader, height) };
        tally.count(0, opened.refusal == 0, || format!("{reader:?} height {height}: {opened:?}"));
        reader = opened.reader;
        for entry in picture {
            reader = read_back(tally, reader, entry, random);
        }
    }
}

/// A picture of the widest rows, which hold every light as the components that are kept.
fn picture_of_every_light(system: u32, kept: [u16; 3], random: &mut Pseudorandom) -> Vec<Entry> {
    let height = 1 + usize::from(u16::MAX) / MOST_SAMPLES;
    let lights: Vec<u16> = (0..height * MOST_SAMPLES).flat_map(|k| kept.map(|of| of * k as u16)).collect();
    let new = unsafe { library::ferghulta_new() };
    let mut picture = unsafe { library::ferghulta_open(new, system, MOST_SAMPLES as u32, height as u32) }.picture;
    let mut sent = |(number, lights): (usize, &[u16])| {
        let out = Lent::<u8>::blank(block_bytes(MOST_SAMPLES), random);
        let (from, to) = (lights.as_ptr(), out.pointer());
        picture = unsafe { library::ferghulta_row(picture, from, lights.len(), to, out.length()) }.picture;
        Entry {
            system,
            height,
            number,
            lights: lights.to_vec(),
            block: out.part().to_vec(),
        }
    };
    lights.chunks(3 * MOST_SAMPLES).enumerate().map(&mut sent).collect()
}

pub fn sent_and_read(effort: &Effort, random: &mut Pseudorandom) -> bool {
    let mut calls = Tally::new("lists_of_calls_before_reading");
    let mut rows = Tally::new("rows_sent_and_read_in_turn");
    for system in (1..=4).step_by(effort.stride) {
        for kept in [[1, 1, 1], [1, 0, 0], [0, 1, 0], [0, 0, 1]].into_iter().step_by(effort.stride) {
            read_pictures(&mut rows, &picture_of_every_light(system, kept, random), random);
        }
    }
    for _ in 0..effort.cases / 40 {
        let mut list = lists::List::begin(random);
        for _ in 0..random.below(60) {
            list.step(&mut calls, random);
        }
        read_pictures(&mut rows, &list.entries, random);
    }
    calls.end() & rows.end()
}
