//! The answers of include/ferghulta.h, and the exact outcomes in that form: a refusal's other numbers are 0.
use crate::exact::{self, block_bytes, system, Clips, Level, Opened, Outcome, Picture as State, Row, MOST_ROWS, MOST_SAMPLES};
use std::mem::{offset_of, size_of};

#[repr(C)]
#[derive(Debug, PartialEq)]
pub struct CodeAnswer {
    pub refusal: u32,
    pub code: u16,
}

#[repr(C)]
#[derive(Debug, PartialEq)]
pub struct SpanAnswer {
    pub refusal: u32,
    span: [u16; 2],
}

#[repr(C)]
#[derive(Clone, Copy)]
pub struct Signals {
    r: f32,
    g: f32,
    b: f32,
}

#[repr(C)]
pub struct SignalsAnswer {
    pub refusal: u32,
    signals: Signals,
}

/// Three codes, words or lights.
#[repr(C)]
#[derive(Clone, Copy)]
pub struct Triple(u16, u16, u16);

#[repr(C)]
#[derive(Debug, PartialEq)]
pub struct CodesAnswer {
    pub refusal: u32,
    codes: [u16; 3],
}

/// Words and how many were moved, or codes and the former count of clips.
#[repr(C)]
#[derive(Debug, PartialEq)]
pub struct CountedAnswer {
    pub refusal: u32,
    pub count: u32,
    pub triple: [u16; 3],
}

#[repr(C)]
#[derive(Debug, PartialEq)]
pub struct DecodedAnswer {
    pub refusal: u32,
    pub low: u16,
    pub high: u16,
    pub codes: [u16; 3],
}

/// Y'c, C'bc and C'rc.
#[repr(C)]
#[derive(Debug, PartialEq)]
pub struct ConstantWordsAnswer {
    pub refusal: u32,
    pub words: [u16; 3],
}

/// R' and B'.
#[repr(C)]
#[derive(Debug, PartialEq)]
pub struct ConstantCodesAnswer {
    pub refusal: u32,
    pub low: u16,
    pub high: u16,
    pub codes: [u16; 2],
}

#[repr(C)]
#[derive(Debug, PartialEq)]
pub struct LevelAnswer {
    pub refusal: u32,
    pub millivolts: i32,
    pub remainder: u32,
}

#[repr(C)]
#[derive(Clone, Copy, Debug, PartialEq)]
pub struct BlockAnswer {
    pub refusal: u32,
    pub system: u32,
    pub low: u16,
    pub high: u16,
    pub row: u16,
    pub samples: u16,
}

pub const METER_ROWS: usize = 64;

#[repr(C)]
#[derive(Clone, Copy, Debug, PartialEq)]
pub struct Meter {
    pub lows: [u16; METER_ROWS],
    pub low: u32,
    pub highs: [u16; METER_ROWS],
    pub high: u32,
    pub place: u32,
    pub rows: u32,
}

#[repr(C)]
#[derive(Clone, Copy, Debug, PartialEq)]
pub struct MeteredAnswer {
    pub meter: Meter,
    pub block: BlockAnswer,
}

#[repr(C)]
#[derive(Clone, Copy, Debug, PartialEq)]
pub struct FiguresAnswer {
    pub rows: u32,
    pub low: u32,
    pub high: u32,
}

#[repr(C)]
#[derive(Clone, Copy, Debug, PartialEq)]
pub struct Picture {
    pub phase: u8,
    pub system: u8,
    pub width: u16,
    pub height: u16,
    pub rows: u16,
    pub bytes: u32,
}

#[repr(C)]
#[derive(Clone, Copy, Debug, PartialEq)]
pub struct PictureAnswer {
    pub refusal: u32,
    pub picture: Picture,
}

#[repr(C)]
#[derive(Debug, PartialEq)]
pub struct TotalAnswer {
    pub refusal: u32,
    pub bytes: u32,
}

#[repr(C)]
#[derive(Clone, Copy, Debug, PartialEq)]
pub struct Reader {
    pub phase: u8,
    pub system: u8,
    pub width: u16,
    pub height: u16,
    pub next: u16,
}

#[repr(C)]
#[derive(Clone, Copy, Debug, PartialEq)]
pub struct ReaderAnswer {
    pub refusal: u32,
    pub reader: Reader,
}

#[repr(C)]
#[derive(Clone, Copy, Debug, PartialEq)]
pub struct NextAnswer {
    pub reader: Reader,
    pub block: BlockAnswer,
}

// The header's layout: no byte of a picture or of its answer is padding.
const _: () = assert!(size_of::<Picture>() == 12 && size_of::<PictureAnswer>() == 16 && size_of::<TotalAnswer>() == 8);
// Nor is one between the clips and their neighbours.
const _: () = assert!(size_of::<DecodedAnswer>() == 16 && size_of::<BlockAnswer>() == 16);
const _: () = assert!(offset_of!(DecodedAnswer, low) == 4 && offset_of!(DecodedAnswer, codes) == 8);
const _: () = assert!(offset_of!(BlockAnswer, low) == 8 && offset_of!(BlockAnswer, row) == 12);
// Nor is one of a meter, its answer or its figures.
const _: () = assert!(size_of::<Meter>() == 272 && size_of::<MeteredAnswer>() == 288 && size_of::<FiguresAnswer>() == 12);
const _: () = assert!(offset_of!(Meter, low) == 128 && offset_of!(Meter, highs) == 132 && offset_of!(Meter, place) == 264);
// Nor is one of a reader or its answers.
const _: () = assert!(size_of::<Reader>() == 8 && size_of::<ReaderAnswer>() == 12 && size_of::<NextAnswer>() == 24);
const _: () = assert!(offset_of!(Reader, width) == 2 && offset_of!(Reader, next) == 6 && offset_of!(NextAnswer, block) == 8);

// Nor is one of the answers with constant luminance but the two behind the words.
const _: () = assert!(size_of::<ConstantWordsAnswer>() == 12 && size_of::<ConstantCodesAnswer>() == 12);
const _: () = assert!(offset_of!(ConstantCodesAnswer, low) == 4 && offset_of!(ConstantCodesAnswer, codes) == 8);

/// The refusal's number, or 0, and the values, or zeros.
fn parts<T: Default>(outcome: Outcome<T>) -> (u32, T) {
    match outcome {
        Ok(values) => (0, values),
        Err(refusal) => (refusal, T::default()),
    }
}

impl From<Outcome<u16>> for CodeAnswer {
    fn from(outcome: Outcome<u16>) -> CodeAnswer {
        let (refusal, code) = parts(outcome);
        CodeAnswer { refusal, code }
    }
}

impl From<Outcome<(u16, u16)>> for SpanAnswer {
    fn from(outcome: Outcome<(u16, u16)>) -> SpanAnswer {
        let (refusal, (least, greatest)) = parts(outcome);
        let span = [least, greatest];
        SpanAnswer { refusal, span }
    }
}

impl From<Outcome<[u16; 3]>> for CodesAnswer {
    fn from(outcome: Outcome<[u16; 3]>) -> CodesAnswer {
        let (refusal, codes) = parts(outcome);
        CodesAnswer { refusal, codes }
    }
}

impl From<Outcome<([u16; 3], u32)>> for CountedAnswer {
    fn from(outcome: Outcome<([u16; 3], u32)>) -> CountedAnswer {
        let (refusal, (triple, count)) = parts(outcome);
        CountedAnswer {
            refusal,
            count,
            triple,
        }
    }
}

impl From<Outcome<([u16; 3], Clips)>> for DecodedAnswer {
    fn from(outcome: Outcome<([u16; 3], Clips)>) -> DecodedAnswer {
        let (refusal, (codes, Clips { low, high })) = parts(outcome);
        DecodedAnswer {
            refusal,
            low,
            high,
            codes,
        }
    }
}

impl From<Outcome<[u16; 3]>> for ConstantWordsAnswer {
    fn from(outcome: Outcome<[u16; 3]>) -> ConstantWordsAnswer {
        let (refusal, words) = parts(outcome);
        ConstantWordsAnswer { refusal, words }
    }
}

impl From<Outcome<([u16; 2], Clips)>> for ConstantCodesAnswer {
    fn from(outcome: Outcome<([u16; 2], Clips)>) -> ConstantCodesAnswer {
        let (refusal, (codes, Clips { low, high })) = parts(outcome);
        ConstantCodesAnswer {
            refusal,
            low,
            high,
            codes,
        }
    }
}

impl From<[u16; 3]> for Triple {
    fn from([first, second, third]: [u16; 3]) -> Triple {
        Triple(first, second, third)
    }
}

impl From<Triple> for [u16; 3] {
    fn from(Triple(first, second, third): Triple) -> [u16; 3] {
        [first, second, third]
    }
}

impl From<[u32; 3]> for Signals {
    fn from(bits: [u32; 3]) -> Signals {
        let [r, g, b] = bits.map(f32::from_bits);
        Signals { r, g, b }
    }
}

impl From<Signals> for [u32; 3] {
    fn from(Signals { r, g, b }: Signals) -> [u32; 3] {
        [r, g, b].map(f32::to_bits)
    }
}

impl From<Outcome<[u32; 3]>> for SignalsAnswer {
    fn from(outcome: Outcome<[u32; 3]>) -> SignalsAnswer {
        let (refusal, bits) = parts(outcome);
        let signals = bits.into();
        SignalsAnswer { refusal, signals }
    }
}

impl SignalsAnswer {
    /// The refusal and the bits, by which a zero's sign shows.
    pub fn bits(&self) -> (u32, [u32; 3]) {
        (self.refusal, self.signals.into())
    }
}

impl From<Outcome<Level>> for LevelAnswer {
    fn from(outcome: Outcome<Level>) -> LevelAnswer {
        let (refusal, (millivolts, remainder)) = parts(outcome);
        LevelAnswer {
            refusal,
            millivolts,
            remainder,
        }
    }
}

impl From<&Outcome<Row>> for BlockAnswer {
    fn from(outcome: &Outcome<Row>) -> BlockAnswer {
        let (refusal, (system, clips, row, samples)) = match outcome {
            Ok(row) => (0, (row.system, row.clips, row.number, row.samples)),
            Err(refusal) => (*refusal, (0, Clips::default(), 0, 0)),
        };
        BlockAnswer {
            refusal,
            system,
            low: clips.low,
            high: clips.high,
            row,
            samples,
        }
    }
}

impl From<Outcome<u32>> for TotalAnswer {
    fn from(outcome: Outcome<u32>) -> TotalAnswer {
        let (refusal, bytes) = parts(outcome);
        TotalAnswer { refusal, bytes }
    }
}

impl From<exact::Figures> for FiguresAnswer {
    fn from(figures: exact::Figures) -> FiguresAnswer {
        FiguresAnswer {
            rows: figures.rows as u32,
            low: figures.low as u32,
            high: figures.high as u32,
        }
    }
}

impl Meter {
    pub const EMPTY: Meter = Meter {
        lows: [0; METER_ROWS],
        low: 0,
        highs: [0; METER_ROWS],
        high: 0,
        place: 0,
        rows: 0,
    };

    /// The counts at a place.
    pub fn clips(&self, place: usize) -> Clips {
        Clips {
            low: self.lows[place],
            high: self.highs[place],
        }
    }

    pub fn set_clips(&mut self, place: usize, clips: Clips) {
        self.lows[place] = clips.low;
        self.highs[place] = clips.high;
    }

    /// With these figures.
    pub fn showing(self, figures: exact::Figures) -> Meter {
        let FiguresAnswer { rows, low, high } = figures.into();
        Meter {
            rows,
            low,
            high,
            ..self
        }
    }

    /// The rows that it holds, the latest last; none where its parts do not agree.
    pub fn held(&self) -> Option<Vec<Clips>> {
        let (place, rows) = (self.place as usize, self.rows as usize);
        if place >= METER_ROWS || rows != METER_ROWS && rows != place {
            return None;
        }
        let earliest = place + METER_ROWS - rows;
        let held: Vec<Clips> = (earliest..earliest + rows).map(|at| self.clips(at % METER_ROWS)).collect();
        (self.showing(exact::figures(&held)) == *self).then_some(held)
    }

    /// What it shows: a meter whose parts do not agree is taken as an empty one.
    pub fn figures(&self) -> FiguresAnswer {
        exact::figures(&self.held().unwrap_or_default()).into()
    }

    /// After a read: the accepted row's counts stand at the place, which is 0 in a meter taken as an empty one.
    pub fn after(self, outcome: &Outcome<Row>) -> Meter {
        let Ok(row) = outcome else {
            return self;
        };
        let place = self.held().map_or(0, |_| self.place as usize);
        let mut history = self.held().unwrap_or_default();
        exact::enter(&mut history, outcome);
        let mut after = self.showing(exact::figures(&history));
        after.set_clips(place, row.clips);
        after.place = ((place + 1) % METER_ROWS) as u32;
        after
    }

    /// What is left of a meter that is empty, or taken so, by reading all rows of a history: a row is at the place of its number,
    /// counted from 0 and again after 63, until a later one is there.
    pub fn after_all(self, history: &[Clips]) -> Meter {
        if history.is_empty() {
            return self;
        }
        let mut after = self.showing(exact::figures(history));
        for (number, &clips) in history.iter().enumerate() {
            after.set_clips(number % METER_ROWS, clips);
        }
        after.place = (history.len() % METER_ROWS) as u32;
        after
    }
}

impl MeteredAnswer {
    pub const WORDS: usize = size_of::<MeteredAnswer>() / 4;

    /// A refused read gives the meter back as it was given.
    pub fn of(given: Meter, outcome: &Outcome<Row>) -> MeteredAnswer {
        MeteredAnswer {
            block: outcome.into(),
            meter: given.after(outcome),
        }
    }

    /// All its bytes.
    pub fn words(&self) -> [u32; MeteredAnswer::WORDS] {
        unsafe { std::mem::transmute(*self) }
    }
}

impl Picture {
    /// A picture without the numbers of an open one; a closed one has the bytes that it took.
    pub fn unopened(phase: u8, bytes: u32) -> Picture {
        Picture {
            phase,
            system: 0,
            width: 0,
            height: 0,
            rows: 0,
            bytes,
        }
    }

    /// The state that the calls take this picture for: a value that no call gives is a fresh picture.
    pub fn taken(self) -> State {
        let bytes = self.bytes as usize;
        match self.phase {
            1 => self.taken_open(),
            2 => State::Closed { bytes },
            _ => State::Fresh,
        }
    }

    fn taken_open(self) -> State {
        let number = u32::from(self.system);
        let [width, height, rows] = [self.width, self.height, self.rows].map(usize::from);
        let bytes = self.bytes as usize;
        let proper = system(number).is_ok()
            && (1..=MOST_SAMPLES).contains(&width)
            && (1..=MOST_ROWS).contains(&height)
            && rows <= height
            && bytes == rows * block_bytes(width);
        if !proper {
            return State::Fresh;
        }
        State::Open(Opened {
            system: number,
            width,
            height,
            rows,
            bytes,
        })
    }
}

impl From<State> for Picture {
    fn from(state: State) -> Picture {
        match state {
            State::Fresh => Picture::unopened(0, 0),
            State::Closed { bytes } => Picture::unopened(2, bytes as u32),
            State::Open(opened) => Picture {
                phase: 1,
                system: opened.system as u8,
                width: opened.width as u16,
                height: opened.height as u16,
                rows: opened.rows as u16,
                bytes: opened.bytes as u32,
            },
        }
    }
}

impl PictureAnswer {
    /// A refused picture comes back as it was given.
    pub fn of(given: Picture, outcome: Outcome<State>) -> PictureAnswer {
        let (refusal, picture) = match outcome {
            Ok(state) => (0, state.into()),
            Err(refusal) => (refusal, given),
        };
        PictureAnswer { refusal, picture }
    }
}

impl Reader {
    pub const NEW: Reader = Reader::not_reading(0);
    pub const COMPLETE: Reader = Reader::not_reading(2);

    const fn not_reading(phase: u8) -> Reader {
        Reader {
            phase,
            system: 0,
            width: 0,
            height: 0,
            next: 0,
        }
    }

    /// The history that the calls take this reader for: a value that no call gives is not opened, and of a complete one nothing is
    /// known but that every row came.
    pub fn taken(self) -> exact::Reader {
        match self.phase {
            1 if self.is_reading() => exact::Reader {
                height: Some(self.height.into()),
                rows: vec![(self.system.into(), self.width); self.next.into()],
            },
            2 => exact::Reader {
                height: Some(1),
                rows: vec![(1, 1)],
            },
            _ => exact::Reader::default(),
        }
    }

    /// Whether the numbers of a reader go together: with no row yet, or with some.
    fn is_reading(self) -> bool {
        let [width, height, next] = [self.width, self.height, self.next].map(usize::from);
        let is_known = system(self.system.into()).is_ok() && (1..=MOST_SAMPLES).contains(&width);
        let has_none = (self.system, width, next) == (0, 0, 0);
        (1..=MOST_ROWS).contains(&height) && next < height && (has_none || is_known && next > 0)
    }
}

impl From<&exact::Reader> for Reader {
    fn from(history: &exact::Reader) -> Reader {
        let Some(height) = history.height else {
            return Reader::NEW;
        };
        if history.is_complete() {
            return Reader::COMPLETE;
        }
        let (system, width) = history.rows.first().copied().unwrap_or_default();
        Reader {
            phase: 1,
            system: system as u8,
            width,
            height: height as u16,
            next: history.rows.len() as u16,
        }
    }
}

impl ReaderAnswer {
    /// A refused reader comes back as it was given, whatever it was taken for.
    pub fn of(given: Reader, history: &exact::Reader, outcome: Outcome<()>) -> ReaderAnswer {
        let (refusal, reader) = match outcome {
            Ok(()) => (0, history.into()),
            Err(refusal) => (refusal, given),
        };
        ReaderAnswer { refusal, reader }
    }
}

impl NextAnswer {
    pub const WORDS: usize = size_of::<NextAnswer>() / 4;

    /// As above.
    pub fn of(given: Reader, history: &exact::Reader, outcome: &Outcome<Row>) -> NextAnswer {
        NextAnswer {
            reader: if outcome.is_ok() { history.into() } else { given },
            block: outcome.into(),
        }
    }

    /// All its bytes.
    pub fn words(&self) -> [u32; NextAnswer::WORDS] {
        unsafe { std::mem::transmute(*self) }
    }
}
