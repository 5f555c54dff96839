//! Lists of open, row and close from a fresh picture beside the row book, the bytes after each call (request 2026-06), and demand 3
//! of the rows that the book accepts.
use crate::answers::{BlockAnswer, Picture, PictureAnswer};
use crate::blocks::hexadecimal;
use crate::library;
use crate::exact::{self, Outcome, Picture as Book, System};
use crate::lent::Lent;
use crate::pictures::{any_lights, start};
use crate::pseudorandom::Pseudorandom;
use crate::tally::Tally;
use crate::values::any_system;
use crate::Effort;

/// A row of the book, the height of its picture, and its block as its call left it.
pub struct Entry {
    pub system: u32,
    pub height: usize,
    pub number: usize,
    pub lights: Vec<u16>,
    pub block: Vec<u8>,
}

/// The library's picture, handed from call to call, beside the book; one buffer is lent to every row.
pub struct List {
    picture: Picture,
    book: Book,
    pub entries: Vec<Entry>,
    /// What the last accepted open was given, and how many entries there were.
    size: [u32; 2],
    entries_before_open: usize,
    buffer: Lent<u8>,
    most_samples: usize,
}

impl List {
    pub fn begin(random: &mut Pseudorandom) -> List {
        let most_samples = if random.once_in(500) { 7680 } else { 8 };
        let room = exact::block_bytes(most_samples) + 3;
        List {
            picture: unsafe { library::ferghulta_new() },
            book: Book::Fresh,
            entries: vec![],
            size: [0; 2],
            entries_before_open: 0,
            buffer: Lent::blank(room, random),
            most_samples,
        }
    }

    /// Mostly the call that the state asks for.
    pub fn step(&mut self, tally: &mut Tally, random: &mut Pseudorandom) {
        let asked = match self.book {
            Book::Open(opened) if opened.rows < opened.height => 1,
            Book::Open(_) => 2,
            _ => 0,
        };
        let any = random.below(3);
        match if random.once_in(5) { any } else { asked } {
            0 => self.open(tally, random),
            1 => self.row(tally, random),
            _ => self.close(tally),
        }
    }

    fn open(&mut self, tally: &mut Tally, random: &mut Pseudorandom) {
        let system = any_system(random);
        let any = random.below(self.most_samples + 1) as u32;
        let width = random.pick(&[any, any, any, self.most_samples as u32]);
        let height = random.below(5) as u32;
        let got = unsafe { library::ferghulta_open(self.picture, system, width, height) };
        let outcome = exact::open(self.book, system, width, height);
        if outcome.is_ok() {
            self.size = [width, height];
            self.entries_before_open = self.entries.len();
        }
        self.compare(tally, got, outcome, &[]);
    }

    fn close(&mut self, tally: &mut Tally) {
        let got = unsafe { library::ferghulta_close(self.picture) };
        self.compare(tally, got, exact::close(self.book), &[]);
    }

    fn row(&mut self, tally: &mut Tally, random: &mut Pseudorandom) {
        let width = match self.book {
            Book::Open(opened) => opened.width,
            _ => 1,
        };
        let count = 3 * width + usize::from(random.once_in(12));
        let room = exact::block_bytes(width) + random.below(4);
        let room = room - usize::from(random.once_in(12));
        let lights = Lent::holding(&any_lights(count, random), random);
        let (given, out) = (lights.pointer(), self.buffer.pointer());
        let got = unsafe { library::ferghulta_row(self.picture, given, count, out, room) };
        tally.count(0, lights.holds(&[]), || "a row changed its lights".into());
        match exact::row(self.book, lights.part(), room) {
            Ok((after, block)) => {
                self.enter(lights.part(), block.len());
                self.compare(tally, got, Ok(after), &block);
            }
            Err(refusal) => self.compare(tally, got, Err(refusal), &[]),
        }
    }

    fn enter(&mut self, lights: &[u16], block_bytes: usize) {
        if let Book::Open(opened) = self.book {
            self.entries.push(Entry {
                system: opened.system,
                height: opened.height,
                number: opened.rows,
                lights: lights.to_vec(),
                block: self.buffer.part()[..block_bytes].to_vec(),
            });
        }
    }

    /// The answer and the whole buffer after a call; then the book and the picture go on.
    fn compare(
        &mut self,
        tally: &mut Tally,
        got: PictureAnswer,
        outcome: Outcome<Book>,
        block: &[u8],
    ) {
        let wanted = PictureAnswer::of(self.picture, outcome);
        let agree = got == wanted && self.buffer.holds(block);
        tally.count(wanted.refusal, agree, || {
            let buffer = self.buffer.holds(block);
            format!(
                "{:?}: {got:?}, wanted {wanted:?}; buffer as wanted: {buffer}",
                self.book
            )
        });
        self.book = outcome.unwrap_or(self.book);
        self.picture = got.picture;
        self.buffer.settle();
    }

    /// The library's bytes beside the blocks since the last accepted open, and beside its own total from an accepted close on.
    fn add_up(&self, tally: &mut Tally) {
        let blocks = self.entries[self.entries_before_open..].iter();
        let written: usize = blocks.map(|entry| entry.block.len()).sum();
        let [width, height] = self.size;
        let total = unsafe { library::ferghulta_total_bytes(width, height) };
        let bytes = self.picture.bytes;
        let foretold = !self.is_closed() || total == Ok(bytes).into();
        tally.count(0, bytes as usize == written && foretold, || {
            format!("{:?}: {written} bytes in blocks, {total:?} of {width} x {height}", self.picture)
        });
    }

    fn is_closed(&self) -> bool {
        matches!(self.book, Book::Closed { .. })
    }
}

// ---- demand 3

/// Reads an entry's block into a slice that is long enough.
fn read_back(tally: &mut Tally, entry: &Entry, random: &mut Pseudorandom) {
    let block = Lent::holding(&entry.block, random);
    let places = entry.lights.len() + random.below(3);
    let codes = Lent::<u16>::blank(places, random);
    let got = unsafe {
        library::ferghulta_read_block(block.pointer(), block.length(), codes.pointer(), places)
    };
    let wanted = exact::read_block(&entry.block, places);
    let agree = got == BlockAnswer::from(&wanted)
        && wanted.is_ok_and(|row| codes.holds(&row.codes))
        && is_header(&got, entry)
        && are_codes_near(entry, &codes.part()[..entry.lights.len()])
        && are_words_near(entry);
    tally.count(0, agree, || {
        format!(
            "system {} row {} lights {:?} block {}: {got:?}, codes {:?}",
            entry.system,
            entry.number,
            start(&entry.lights),
            hexadecimal(&entry.block),
            start(codes.part())
        )
    });
}

pub fn is_header(got: &BlockAnswer, entry: &Entry) -> bool {
    got.refusal == 0
        && got.system == entry.system
        && usize::from(got.row) == entry.number
        && 3 * usize::from(got.samples) == entry.lights.len()
}

fn system_of(entry: &Entry) -> &'static System {
    exact::system(entry.system).unwrap()
}

/// Each code is within one of its light's code, and its light within the spans of the neighbours of the code read.
pub fn are_codes_near(entry: &Entry, codes: &[u16]) -> bool {
    let system = system_of(entry);
    let is_near = |(&light, &code): (&u16, &u16)| {
        let (least, greatest) = exact::lights_near(system, code);
        code.abs_diff(exact::code_in(system, light)) <= 1 && least <= light && light <= greatest
    };
    entry.lights.iter().zip(codes).all(is_near)
}

/// Each word is within half a code of its exact rational, and none is a timing code.
fn are_words_near(entry: &Entry) -> bool {
    let system = system_of(entry);
    let width = entry.lights.len() / 3;
    let word_at = |section: usize, j: usize| {
        let place = 3 + section * (2 + 2 * width) + 2 + 2 * j;
        u16::from_le_bytes([entry.block[place], entry.block[place + 1]])
    };
    let is_near = |j: usize, section: usize| {
        let lights = [0, 1, 2].map(|c| entry.lights[3 * j + c]);
        let codes = lights.map(|light| exact::code_in(system, light));
        let value = exact::word_values(system, codes)[section];
        let word = word_at(section, j);
        let distance = (i128::from(word) * value.denominator - value.numerator).abs();
        2 * distance <= value.denominator && !system.is_timing(word)
    };
    (0..width).all(|j| (0..3).all(|section| is_near(j, section)))
}

pub fn lists(effort: &Effort, random: &mut Pseudorandom) -> bool {
    let mut calls = Tally::new("lists_of_calls");
    let mut bytes = Tally::new("bytes_written");
    let mut rows = Tally::new("rows_read_back");
    for _ in 0..effort.cases / 20 {
        let mut list = List::begin(random);
        for _ in 0..random.below(60) {
            list.step(&mut calls, random);
            list.add_up(&mut bytes);
        }
        for entry in &list.entries {
            read_back(&mut rows, entry, random);
        }
    }
    calls.end() & bytes.end() & rows.end()
}
