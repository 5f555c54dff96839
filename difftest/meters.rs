//! Block reading with a meter (request 2026-08): single reads with any meter, and lists of reads beside the plain history.
use crate::answers::{Meter, MeteredAnswer, METER_ROWS};
use crate::blocks::{any_known, any_places, block_of_width, damage, hexadecimal};
use crate::clips;
use crate::exact::{self, Clips, Outcome, Row, MOST_SAMPLES, SYSTEMS};
use crate::lent::Lent;
use crate::library::{self, filled, filled::LongMeter};
use crate::pseudorandom::Pseudorandom;
use crate::tally::Tally;
use crate::Effort;

// ---- reads

/// A block, the places that are lent for its codes, and what reading it gives.
struct Read {
    bytes: Vec<u8>,
    places: usize,
    outcome: Outcome<Row>,
}

impl Read {
    fn of(bytes: Vec<u8>, places: usize) -> Read {
        let outcome = exact::read_block(&bytes, places);
        Read {
            bytes,
            places,
            outcome,
        }
    }

    /// The codes at the front of the slice.
    fn written(&self) -> &[u16] {
        self.outcome.as_ref().map_or(&[], |row| &row.codes)
    }

    fn clips(&self) -> Option<Clips> {
        self.outcome.as_ref().ok().map(|row| row.clips)
    }
}

const NARROW: usize = 4;

/// A narrow row, mostly of samples that clip in any way.
fn any_block(width: usize, random: &mut Pseudorandom) -> Vec<u8> {
    let system = any_known(random);
    if random.once_in(4) {
        block_of_width(system, width, random)
    } else {
        clips::block(system, &clips::any_row(system, width, random))
    }
}

/// Mostly an accepted one.
fn any_read(random: &mut Pseudorandom) -> Read {
    let width = 1 + random.below(NARROW);
    let mut bytes = any_block(width, random);
    if !random.once_in(4) {
        return Read::of(bytes, 3 * width + random.below(3));
    }
    for _ in 0..random.below(3) {
        damage(&mut bytes, width, random);
    }
    Read::of(bytes, any_places(width, random))
}

// ---- meters

/// With the sums of the first counts, so many as it has rows.
fn with_sums(meter: Meter) -> Meter {
    let rows = (meter.rows as usize).min(METER_ROWS);
    let sum = |counts: [u16; METER_ROWS]| counts[..rows].iter().copied().map(u32::from).sum();
    Meter {
        low: sum(meter.lows),
        high: sum(meter.highs),
        ..meter
    }
}

/// Counts at all places: as rows have them, any, or the most; more than 23040 are of no row, and make a meter none the less.
fn any_counts(random: &mut Pseudorandom) -> Meter {
    let kind = random.below(5);
    let mut count = || match kind {
        0 => random.within(0, 3),
        1 => random.within(0, 15360),
        2 => random.pick(&[0, 7680, 15360]),
        3 => random.bits() as u16,
        _ => u16::MAX,
    };
    let mut meter = Meter::EMPTY;
    for place in 0..METER_ROWS {
        let (low, high) = (count(), count());
        meter.set_clips(place, Clips { low, high });
    }
    meter
}

/// A meter of so many rows whose parts agree; the counts behind the rows are any, or none.
fn whole(rows: usize, random: &mut Pseudorandom) -> Meter {
    let mut meter = any_counts(random);
    if random.once_in(2) {
        (rows..METER_ROWS).for_each(|place| meter.set_clips(place, Clips::default()));
    }
    let place = if rows == METER_ROWS { random.below(METER_ROWS) } else { rows };
    meter.place = place as u32;
    meter.rows = rows as u32;
    with_sums(meter)
}

fn any_whole(random: &mut Pseudorandom) -> Meter {
    let any = random.below(METER_ROWS + 1);
    whole(random.pick(&[0, 1, any, any, 63, 64, 64, 64]), random)
}

const WORDS: usize = size_of::<Meter>() / 4;

fn of_words(words: [u32; WORDS]) -> Meter {
    unsafe { std::mem::transmute(words) }
}

fn any_bytes(random: &mut Pseudorandom) -> Meter {
    of_words([(); WORDS].map(|()| random.bits() as u32))
}

fn with_bit_changed(meter: Meter, bit: usize) -> Meter {
    let mut words: [u32; WORDS] = unsafe { std::mem::transmute(meter) };
    words[bit / 32] ^= 1 << (bit % 32);
    of_words(words)
}

/// Numbers next to this one, with the same low bits, none, the most, and what wraps to 0 when this one is added.
fn unlike(number: u32) -> [u32; 9] {
    [
        number.wrapping_sub(1),
        number.wrapping_add(1),
        number.wrapping_add(64),
        number ^ 1 << 8,
        number ^ 1 << 16,
        number ^ 1 << 31,
        number.wrapping_neg(),
        0,
        u32::MAX,
    ]
}

/// A meter of which one part is changed. Where the parts agree all the same, it has to count.
fn changed(meter: Meter, random: &mut Pseudorandom) -> Meter {
    let mut changed = meter;
    let (one, other) = (random.below(METER_ROWS), random.below(METER_ROWS));
    let (below, any) = (random.below(METER_ROWS + 2) as u32, random.bits() as u32);
    let all = with_sums(Meter { rows: 64, ..meter });
    match random.below(14) {
        0 => changed.place = random.pick(&unlike(meter.place)),
        1 => changed.place = random.pick(&[below, 64, 65, any]),
        2 => changed.rows = random.pick(&unlike(meter.rows)),
        3 => changed.rows = random.pick(&[below, 64, 65, any]),
        4 => changed = with_sums(Meter { rows: below, ..meter }),
        5 => changed.low = random.pick(&unlike(meter.low)),
        6 => changed.high = random.pick(&unlike(meter.high)),
        7 => (changed.low, changed.high) = (all.low, all.high),
        8 => (changed.low, changed.high) = (meter.high, meter.low),
        9 => (changed.low, changed.high) = (meter.low.wrapping_add(1), meter.high.wrapping_sub(1)),
        10 => changed.lows[one] = random.bits() as u16,
        11 => changed.highs[one] = random.bits() as u16,
        12 => changed.lows.swap(one, other),
        _ => changed.highs.swap(one, other),
    }
    changed
}

fn any_meter(random: &mut Pseudorandom) -> Meter {
    match random.below(12) {
        0 => any_bytes(random),
        1 => with_sums(any_bytes(random)),
        2..7 => {
            let meter = any_whole(random);
            changed(meter, random)
        }
        _ => any_whole(random),
    }
}

/// All pairs of place and rows at and below 66, with the sums of so many rows.
fn by_numbers(random: &mut Pseudorandom) -> Vec<Meter> {
    let pairs = (0..67).flat_map(|place| (0..67).map(move |rows| (place, rows)));
    let meter = |(place, rows)| Meter {
        place,
        rows,
        ..any_counts(random)
    };
    pairs.map(meter).map(with_sums).collect()
}

/// For each number of rows, a meter whose parts agree, and every change of one of its bits.
fn by_bits(effort: &Effort, random: &mut Pseudorandom) -> Vec<Meter> {
    let mut meters = vec![];
    for rows in 0..=METER_ROWS {
        let meter = whole(rows, random);
        let bits = (0..32 * WORDS).step_by(effort.stride);
        meters.push(meter);
        meters.extend(bits.map(|bit| with_bit_changed(meter, bit)));
    }
    meters
}

fn shown(meter: &Meter) -> String {
    let Meter {
        lows,
        highs,
        low,
        high,
        place,
        rows,
    } = meter;
    format!("rows {rows} place {place} low {low} high {high} lows {lows:?} highs {highs:?}")
}

// ---- single reads

/// The call has the answer's memory and the stack behind the meter filled; lists of reads make it as it is declared.
fn read(tally: &mut Tally, meter: Meter, read: &Read, random: &mut Pseudorandom) {
    let block = Lent::holding(&read.bytes, random);
    let codes = Lent::<u16>::blank(read.places, random);
    let answer = Lent::<u32>::blank(MeteredAnswer::WORDS, random);
    let (at, long) = (answer.pointer().cast(), long(meter, random));
    let given_back =
        unsafe { filled::ferghulta_read_metered(at, long, block.pointer(), block.length(), codes.pointer(), read.places) };
    let got: MeteredAnswer = unsafe { *at };
    let wanted = MeteredAnswer::of(meter, &read.outcome);
    let written = read.written();
    let agree = given_back == at && answer.holds(&wanted.words()) && codes.holds(written) && block.holds(&[]);
    tally.count(wanted.block.refusal, agree, || {
        format!(
            "{:?} {}, wanted {:?} {}; codes as wanted: {}; bytes as lent: {}; given {}, places {} block {}",
            got.block,
            shown(&got.meter),
            wanted.block,
            shown(&wanted.meter),
            codes.holds(written),
            block.holds(&[]),
            shown(&meter),
            read.places,
            hexadecimal(&read.bytes)
        )
    });
}

fn long(meter: Meter, random: &mut Pseudorandom) -> LongMeter {
    LongMeter(meter, [(); 4].map(|()| random.bits() as u32))
}

fn figures(tally: &mut Tally, meter: Meter, random: &mut Pseudorandom) {
    let got = unsafe { library::ferghulta_meter_figures(meter) };
    let again = unsafe { filled::ferghulta_meter_figures(long(meter, random)) };
    let wanted = meter.figures();
    tally.count(0, got == wanted && again == wanted, || {
        format!("{got:?}, with the stack filled {again:?}, wanted {wanted:?}; given {}", shown(&meter))
    });
}

/// Every meter of the lists above, then any, each with a read and with its figures.
pub fn read_metered(effort: &Effort, random: &mut Pseudorandom) -> bool {
    let mut reads = Tally::new("read_metered");
    let mut shown = Tally::new("meter_figures");
    let mut both = |meter: Meter, random: &mut Pseudorandom| {
        read(&mut reads, meter, &any_read(random), random);
        figures(&mut shown, meter, random);
    };
    let numbers = by_numbers(random).into_iter().step_by(effort.stride);
    for meter in numbers.chain(by_bits(effort, random)) {
        both(meter, random);
    }
    for _ in 0..2 * effort.cases {
        both(any_meter(random), random);
    }
    reads.end() & shown.end()
}

// ---- lists of reads

/// The library's meter, handed from read to read, beside the history of accepted rows; one slice is lent to every read.
struct List {
    begun: Meter,
    meter: Meter,
    history: Vec<Clips>,
    slice: Lent<u16>,
}

impl List {
    fn begin(begun: Meter, places: usize, random: &mut Pseudorandom) -> List {
        List {
            begun,
            meter: begun,
            history: vec![],
            slice: Lent::blank(places, random),
        }
    }

    fn read(&mut self, tally: &mut Tally, read: &Read, random: &mut Pseudorandom) {
        let block = Lent::holding(&read.bytes, random);
        let (bytes, codes) = (block.pointer(), self.slice.pointer());
        let got = unsafe { library::ferghulta_read_metered(self.meter, bytes, block.length(), codes, read.places) };
        exact::enter(&mut self.history, &read.outcome);
        let wanted = MeteredAnswer {
            block: (&read.outcome).into(),
            meter: self.begun.after_all(&self.history),
        };
        let slice = self.slice.holds(read.written());
        let agree = got == wanted && slice && block.holds(&[]);
        tally.count(wanted.block.refusal, agree, || {
            format!(
                "after {} rows {:?} {}, wanted {:?} {}; slice as wanted: {slice}; bytes as lent: {}; block {}",
                self.history.len(),
                got.block,
                shown(&got.meter),
                wanted.block,
                shown(&wanted.meter),
                block.holds(&[]),
                hexadecimal(&read.bytes)
            )
        });
        self.meter = got.meter;
        self.slice.settle();
    }

    /// 'For every list of reads from an empty meter, its two figures are the sums over that stretch of history.'
    fn add_up(&self, tally: &mut Tally) {
        let got = unsafe { library::ferghulta_meter_figures(self.meter) };
        let wanted = exact::figures(&self.history).into();
        tally.count(0, got == wanted, || {
            let rows = exact::latest(&self.history);
            format!("after {} rows {got:?}, wanted {wanted:?}; the latest {rows:?}", self.history.len())
        });
    }
}

/// An empty meter: all zero, or with any counts, or one whose parts do not agree.
fn any_empty(random: &mut Pseudorandom) -> Meter {
    match random.below(8) {
        0 => any_counts(random),
        1 => loop {
            let meter = any_meter(random);
            if meter.held().is_none() {
                return meter;
            }
        },
        _ => Meter::EMPTY,
    }
}

/// 64 rows with two low and one high in each sample, 64 with one low and two high, the first again, and then any of the widest rows;
/// after every eighth a read with a place too few.
fn widest_reads<'a>(rows: &'a [Read], refused: &'a Read, random: &mut Pseudorandom) -> Vec<&'a Read> {
    let all_clipped = |low, high| rows.iter().find(|read| read.clips() == Some(Clips { low, high })).unwrap();
    let mut reads = vec![];
    for (low, high) in [(15360, 7680), (7680, 15360), (15360, 7680)] {
        reads.extend([all_clipped(low, high); METER_ROWS]);
    }
    reads.extend((0..70).map(|_| &rows[random.below(rows.len())]));
    reads.chunks(8).flat_map(|part| part.iter().copied().chain([refused])).collect()
}

pub fn lists(effort: &Effort, random: &mut Pseudorandom) -> bool {
    let mut calls = Tally::new("lists_of_metered_reads");
    let mut shown = Tally::new("figures_of_history");
    for system in SYSTEMS.iter().step_by(effort.stride) {
        let places = 3 * MOST_SAMPLES;
        let rows: Vec<Vec<u8>> = clips::widest_rows(system, random).iter().map(|row| clips::block(system, row)).collect();
        let refused = Read::of(rows[0].clone(), places - 1);
        let rows: Vec<Read> = rows.into_iter().map(|row| Read::of(row, places)).collect();
        let mut list = List::begin(Meter::EMPTY, places + 3, random);
        for read in widest_reads(&rows, &refused, random) {
            list.read(&mut calls, read, random);
            list.add_up(&mut shown);
        }
    }
    for _ in 0..1 + effort.cases / 500 {
        let mut list = List::begin(any_empty(random), 3 * NARROW + 9, random);
        for _ in 0..random.below(400) {
            list.read(&mut calls, &any_read(random), random);
            list.add_up(&mut shown);
        }
    }
    calls.end() & shown.end()
}
