//! Ferghulta from Rust: the calls of include/ferghulta.h with enums, slices and `Result`. What the header says of each
//! call holds here; docs/CONVERSION.md says what is computed. Needs Rust 1.82; no allocator and no standard library.
#![no_std]

use core::fmt;

/// The version of the header that this file follows, as one number: 50300 is 5.3.0.
pub const VERSION: u32 = 50300;

/// The version of the archive that the program is linked with.
#[must_use]
pub fn version() -> u32 {
    ferghulta_version()
}

#[derive(Clone, Copy, Debug, PartialEq, Eq)]
#[repr(u32)]
pub enum System {
    Bt709Bits8 = 1,
    Bt709Bits10 = 2,
    Bt2020Bits10 = 3,
    Bt2020Bits12 = 4,
}

/// A system with constant luminance: bits and curve are those of the `System` of the same name.
#[derive(Clone, Copy, Debug, PartialEq, Eq)]
#[repr(u32)]
pub enum ConstantSystem {
    Bt2020Bits10 = 5,
    Bt2020Bits12 = 6,
}

/// Why a call was refused; as a u32 it is the refusal's number.
#[derive(Clone, Copy, Debug, PartialEq, Eq)]
#[repr(u32)]
#[must_use]
pub enum Refusal {
    System = 1,
    Width = 2,
    Height = 3,
    Lights = 4,
    Output = 5,
    Code = 6,
    Signal = 7,
    BlockEnd = 8,
    Count = 9,
    RowNumber = 10,
    BytesAfter = 11,
    AlreadyOpen = 21,
    NotOpen = 22,
    AllRows = 23,
    RowsMissing = 24,
    Length = 31,
    Target = 32,
    Timing = 33,
    Turn = 34,
    Unlike = 35,
    NotReading = 36,
}

const REFUSALS: [(Refusal, &str); 21] = [
    (Refusal::System, "system not 1 to 4, or with constant luminance not 5 or 6"),
    (Refusal::Width, "width not 1 to 7680"),
    (Refusal::Height, "height not 1 to 4320"),
    (Refusal::Lights, "lights not 3 * width"),
    (Refusal::Output, "lent output too short"),
    (Refusal::Code, "code or word outside video data, or nominal where a call asks for it"),
    (Refusal::Signal, "signal below 0, above 1, or not a number"),
    (Refusal::BlockEnd, "block ends too early"),
    (Refusal::Count, "count 0, above 7680, or unlike the Y' count"),
    (Refusal::RowNumber, "block's row number above 4319"),
    (Refusal::BytesAfter, "bytes after the Cr section"),
    (Refusal::AlreadyOpen, "open while open"),
    (Refusal::NotOpen, "row or close while not open"),
    (Refusal::AllRows, "row when all rows are accepted"),
    (Refusal::RowsMissing, "close with rows missing"),
    (Refusal::Length, "buffer length 0, no multiple of 1080, or unlike the other's"),
    (Refusal::Target, "target system equal to the block's, or of the other Recommendation"),
    (Refusal::Timing, "word of the result in the timing codes"),
    (Refusal::Turn, "block's row number not the next one"),
    (Refusal::Unlike, "block's system or count unlike the first one's"),
    (Refusal::NotReading, "block before opening or when complete"),
];

impl Refusal {
    #[must_use]
    pub fn number(self) -> u32 {
        self as u32
    }

    /// The refusal in words, for people.
    #[must_use]
    pub fn text(self) -> &'static str {
        listed(self.number()).1
    }
}

/// Writes the refusal's text.
impl fmt::Display for Refusal {
    fn fmt(&self, f: &mut fmt::Formatter) -> fmt::Result {
        f.write_str(self.text())
    }
}

impl core::error::Error for Refusal {}

fn listed(number: u32) -> (Refusal, &'static str) {
    let entry = REFUSALS.into_iter().find(|(r, _)| *r as u32 == number);
    entry.expect("the header lists every number that a call gives")
}

/// The lights from least to greatest, both included.
#[derive(Clone, Copy, Debug, PartialEq, Eq)]
#[repr(C)]
pub struct Span {
    pub least: u16,
    pub greatest: u16,
}

#[derive(Clone, Copy, Debug, PartialEq)]
#[repr(C)]
pub struct Signals {
    pub r: f32,
    pub g: f32,
    pub b: f32,
}

#[derive(Clone, Copy, Debug, PartialEq, Eq)]
#[repr(C)]
pub struct Codes {
    pub r: u16,
    pub g: u16,
    pub b: u16,
}

#[derive(Clone, Copy, Debug, PartialEq, Eq)]
#[repr(C)]
pub struct Words {
    pub y: u16,
    pub cb: u16,
    pub cr: u16,
}

/// Which rules are tried on the words of a code triple: the guard alone, or trim and then the guard.
#[derive(Clone, Copy, Debug, PartialEq, Eq)]
pub enum Encoding {
    Plain,
    Trim,
}

/// Words, and how many of the three a rule moved.
#[derive(Clone, Copy, Debug, PartialEq, Eq)]
#[repr(C)]
pub struct Limited {
    pub moved: u32,
    pub words: Words,
}

/// How many codes were brought up to the lower end of video data, and how many down to its upper end.
#[derive(Clone, Copy, Debug, PartialEq, Eq)]
#[repr(C)]
pub struct Clips {
    pub low: u16,
    pub high: u16,
}

/// Codes, and how many of the three were clipped low and high.
#[derive(Clone, Copy, Debug, PartialEq, Eq)]
#[repr(C)]
pub struct Decoded {
    pub clips: Clips,
    pub codes: Codes,
}

/// A triple of linear light, each from 0 to 65535.
#[derive(Clone, Copy, Debug, PartialEq, Eq)]
#[repr(C)]
pub struct Lights {
    pub r: u16,
    pub g: u16,
    pub b: u16,
}

/// The codes that words with constant luminance give: there is no G'.
#[derive(Clone, Copy, Debug, PartialEq, Eq)]
#[repr(C)]
pub struct RedBlue {
    pub r: u16,
    pub b: u16,
}

/// R' and B', and how many of the two were clipped low and high.
#[derive(Clone, Copy, Debug, PartialEq, Eq)]
#[repr(C)]
pub struct ConstantDecoded {
    pub clips: Clips,
    pub codes: RedBlue,
}

/// Whole millivolts, rounded down, also below 0, and the rest over 219s (R', G', B', Y') or 224s (Cb, Cr).
#[derive(Clone, Copy, Debug, PartialEq, Eq)]
#[repr(C)]
pub struct Level {
    pub millivolts: i32,
    pub remainder: u32,
}

/// What a block's header says, and the sums of its samples' clips.
#[derive(Clone, Copy, Debug, PartialEq, Eq)]
pub struct Block {
    pub system: System,
    pub clips: Clips,
    pub row: u16,
    pub samples: u16,
}

// A block's answer as C gives it: the system of a refused one is 0, which no `System` may be.
#[repr(C)]
struct NumberedBlock {
    system: u32,
    clips: Clips,
    row: u16,
    samples: u16,
}

// An answer in C is its refusal and then its values, if it has any.
#[repr(C)]
struct Answer<T> {
    refusal: u32,
    values: T,
}

impl<T> Answer<T> {
    fn result(self) -> Result<T, Refusal> {
        match self.refusal {
            0 => Ok(self.values),
            number => Err(listed(number).0),
        }
    }
}

// The safe ones take and give plain values and touch no memory.
#[link(name = "ferghulta", kind = "static")]
unsafe extern "C" {
    safe fn ferghulta_version() -> u32;
    safe fn ferghulta_code_of_light(system: System, light: u16) -> Answer<u16>;
    safe fn ferghulta_span_of_code(system: System, code: u16) -> Answer<Span>;
    safe fn ferghulta_codes_of_signals(system: System, signals: Signals) -> Answer<Codes>;
    safe fn ferghulta_signals_of_codes(system: System, codes: Codes) -> Answer<Signals>;
    safe fn ferghulta_words_of_codes(system: System, codes: Codes) -> Answer<Limited>;
    safe fn ferghulta_trimmed_words_of_codes(system: System, codes: Codes) -> Answer<Limited>;
    safe fn ferghulta_codes_of_words(system: System, words: Words) -> Answer<Decoded>;
    safe fn ferghulta_constant_words_of_lights(system: ConstantSystem, lights: Lights) -> Answer<Words>;
    safe fn ferghulta_constant_codes_of_words(system: ConstantSystem, words: Words) -> Answer<ConstantDecoded>;
    safe fn ferghulta_level_of_code(system: System, code: u16) -> Answer<Level>;
    safe fn ferghulta_level_of_difference(system: System, word: u16) -> Answer<Level>;
    safe fn ferghulta_total_bytes(width: u32, height: u32) -> Answer<u32>;
    safe fn ferghulta_new() -> Kept;
    safe fn ferghulta_open(picture: Kept, system: System, width: u32, height: u32) -> Answer<Kept>;
    safe fn ferghulta_close(picture: Kept) -> Answer<Kept>;
    fn ferghulta_row(picture: Kept, lights: *const u16, count: usize, out: *mut u8, room: usize) -> Answer<Kept>;
    fn ferghulta_read_block(bytes: *const u8, length: usize, codes: *mut u16, places: usize) -> Answer<NumberedBlock>;
    fn ferghulta_read_metered(m: Meter, bytes: *const u8, length: usize, codes: *mut u16, places: usize) -> Metered;
    safe fn ferghulta_meter_figures(meter: Meter) -> Figures;
    safe fn ferghulta_new_reader() -> KeptReader;
    safe fn ferghulta_open_reader(reader: KeptReader, height: u32) -> Answer<KeptReader>;
    fn ferghulta_read_next(r: KeptReader, bytes: *const u8, length: usize, codes: *mut u16, places: usize) -> ReadNext;
    fn ferghulta_to_segmented(progressive: *const u8, length: usize, segmented: *mut u8, room: usize) -> u32;
    fn ferghulta_to_progressive(segmented: *const u8, length: usize, progressive: *mut u8, room: usize) -> u32;
    fn ferghulta_change_depth(target: System, block: *const u8, length: usize, out: *mut u8, room: usize) -> u32;
}

impl System {
    pub const ALL: [System; 4] = [System::Bt709Bits8, System::Bt709Bits10, System::Bt2020Bits10, System::Bt2020Bits12];

    /// Never refused: a `System` is one of the four, and every light has a code. A single one costs as much as many
    /// lights of a row.
    #[must_use]
    pub fn code_of_light(self, light: u16) -> u16 {
        ferghulta_code_of_light(self, light).values
    }

    /// Takes a nominal code.
    pub fn span_of_code(self, code: u16) -> Result<Span, Refusal> {
        ferghulta_span_of_code(self, code).result()
    }

    pub fn codes_of_signals(self, signals: Signals) -> Result<Codes, Refusal> {
        ferghulta_codes_of_signals(self, signals).result()
    }

    /// Takes nominal codes.
    pub fn signals_of_codes(self, codes: Codes) -> Result<Signals, Refusal> {
        ferghulta_signals_of_codes(self, codes).result()
    }

    /// Takes codes of video data.
    pub fn words_of_codes(self, encoding: Encoding, codes: Codes) -> Result<Limited, Refusal> {
        let answer = match encoding {
            Encoding::Plain => ferghulta_words_of_codes(self, codes),
            Encoding::Trim => ferghulta_trimmed_words_of_codes(self, codes),
        };
        answer.result()
    }

    /// Takes words of video data, and clips the codes to video data.
    pub fn codes_of_words(self, words: Words) -> Result<Decoded, Refusal> {
        ferghulta_codes_of_words(self, words).result()
    }

    /// Takes an R', G', B' or Y' code of video data.
    pub fn level_of_code(self, code: u16) -> Result<Level, Refusal> {
        ferghulta_level_of_code(self, code).result()
    }

    /// Takes a Cb or Cr word of video data.
    pub fn level_of_difference(self, word: u16) -> Result<Level, Refusal> {
        ferghulta_level_of_difference(self, word).result()
    }
}

impl ConstantSystem {
    pub const ALL: [ConstantSystem; 2] = [ConstantSystem::Bt2020Bits10, ConstantSystem::Bt2020Bits12];

    /// Y'c, C'bc and C'rc, which are nominal. Never refused: a `ConstantSystem` is one of the two, and every triple of
    /// light has words.
    #[must_use]
    pub fn words_of_lights(self, lights: Lights) -> Words {
        ferghulta_constant_words_of_lights(self, lights).values
    }

    /// Takes words of video data, and clips R' and B' to video data.
    pub fn codes_of_words(self, words: Words) -> Result<ConstantDecoded, Refusal> {
        ferghulta_constant_codes_of_words(self, words).result()
    }
}

/// Reads one block of video data words; the codes, clipped to video data, go to the front of `codes`.
pub fn read_block(bytes: &[u8], codes: &mut [u16]) -> Result<Block, Refusal> {
    // SAFETY: both slices are lent for the call with their own lengths, and a slice's pointer is never null.
    let answer = unsafe { ferghulta_read_block(bytes.as_ptr(), bytes.len(), codes.as_mut_ptr(), codes.len()) };
    block_of(answer)
}

fn block_of(answer: Answer<NumberedBlock>) -> Result<Block, Refusal> {
    let NumberedBlock { system, clips, row, samples } = answer.result()?;
    Ok(Block { system: System::ALL[system as usize - 1], clips, row, samples })
}

/// Low and high clipping over the 64 latest rows read, or all of them if fewer. Its own reads alone change it, and a
/// refused one leaves it as it was.
#[derive(Clone, Copy)]
#[repr(C)]
#[must_use]
pub struct Meter {
    lows: [u16; 64],
    low: u32,
    highs: [u16; 64],
    high: u32,
    place: u32,
    rows: u32,
}

#[repr(C)]
struct Metered {
    meter: Meter,
    block: Answer<NumberedBlock>,
}

/// What a meter shows: low and high are over so many rows, at most 64.
#[derive(Clone, Copy, Debug, PartialEq, Eq)]
#[repr(C)]
pub struct Figures {
    pub rows: u32,
    pub low: u32,
    pub high: u32,
}

impl Meter {
    pub const EMPTY: Meter = Meter { lows: [0; 64], low: 0, highs: [0; 64], high: 0, place: 0, rows: 0 };

    /// Reads a block as `read_block` does, and enters the row's clips; of 64 rows the earliest goes.
    pub fn read(&mut self, bytes: &[u8], codes: &mut [u16]) -> Result<Block, Refusal> {
        let (from, to) = (bytes, codes);
        // SAFETY: both slices are lent for the call with their own lengths, and a slice's pointer is never null.
        let answer = unsafe { ferghulta_read_metered(*self, from.as_ptr(), from.len(), to.as_mut_ptr(), to.len()) };
        *self = answer.meter;
        block_of(answer.block)
    }

    #[must_use]
    pub fn figures(&self) -> Figures {
        ferghulta_meter_figures(*self)
    }
}

/// Writes the 1080 equally long rows of `progressive` to `segmented`, which is as long, in segmented-frame order.
pub fn to_segmented(progressive: &[u8], segmented: &mut [u8]) -> Result<(), Refusal> {
    let (from, to) = (progressive, segmented);
    // SAFETY: both slices are lent for the call with their own lengths, and a slice's pointer is never null.
    let refusal = unsafe { ferghulta_to_segmented(from.as_ptr(), from.len(), to.as_mut_ptr(), to.len()) };
    Answer { refusal, values: () }.result()
}

/// Writes the rows of `segmented` to `progressive`, which is as long, from top to bottom again.
pub fn to_progressive(segmented: &[u8], progressive: &mut [u8]) -> Result<(), Refusal> {
    let (from, to) = (segmented, progressive);
    // SAFETY: as above.
    let refusal = unsafe { ferghulta_to_progressive(from.as_ptr(), from.len(), to.as_mut_ptr(), to.len()) };
    Answer { refusal, values: () }.result()
}

/// Writes the block of the other depth, which is `target`'s, to the front of `out`; it is as long as the given one.
/// Upward and then downward gives the first block back.
pub fn change_depth(target: System, block: &[u8], out: &mut [u8]) -> Result<(), Refusal> {
    // SAFETY: both slices are lent for the call with their own lengths, and a slice's pointer is never null.
    let refusal =
        unsafe { ferghulta_change_depth(target, block.as_ptr(), block.len(), out.as_mut_ptr(), out.len()) };
    Answer { refusal, values: () }.result()
}

/// A picture, changed by its own calls alone; a refused call leaves it as it was.
#[derive(Clone)]
#[must_use]
pub struct Picture(Kept);

#[derive(Clone, Copy)]
#[repr(C)]
struct Kept {
    phase: u8,
    system: u8,
    width: u16,
    height: u16,
    rows: u16,
    bytes: u32,
}

impl Picture {
    /// The bytes that the blocks of a picture of this size will take.
    pub fn total_bytes(width: u32, height: u32) -> Result<u32, Refusal> {
        ferghulta_total_bytes(width, height).result()
    }

    /// A fresh picture.
    #[allow(clippy::new_without_default)]
    pub fn new() -> Picture {
        Picture(ferghulta_new())
    }

    pub fn open(&mut self, system: System, width: u32, height: u32) -> Result<(), Refusal> {
        self.become_next(ferghulta_open(self.0, system, width, height))
    }

    /// Writes the block of a row of lights to the front of `out`.
    pub fn row(&mut self, lights: &[u16], out: &mut [u8]) -> Result<(), Refusal> {
        // SAFETY: both slices are lent for the call with their own lengths, and a slice's pointer is never null.
        let answer = unsafe { ferghulta_row(self.0, lights.as_ptr(), lights.len(), out.as_mut_ptr(), out.len()) };
        self.become_next(answer)
    }

    pub fn close(&mut self) -> Result<(), Refusal> {
        self.become_next(ferghulta_close(self.0))
    }

    /// How many rows were accepted since open; 0 while it is not open.
    #[must_use]
    pub fn rows(&self) -> u16 {
        self.0.rows
    }

    /// The bytes of the blocks accepted since the last accepted open, 0 before any; a closed picture keeps them.
    #[must_use]
    pub fn bytes(&self) -> u32 {
        self.0.bytes
    }

    /// A copy of an open picture whose next row is number `rows`, so that several threads may send its rows; with the
    /// height as `rows` it can be closed. That every row was sent is then for the caller to know.
    pub fn with_rows(&self, rows: u16) -> Picture {
        let bytes = u32::from(rows) * (9 + 6 * u32::from(self.0.width));
        Picture(Kept { rows, bytes, ..self.0 })
    }

    fn become_next(&mut self, answer: Answer<Kept>) -> Result<(), Refusal> {
        self.0 = answer.result()?;
        Ok(())
    }
}

/// Reads the blocks of a picture in turn, which have one system and one width. Its own calls alone change it, and a
/// refused one leaves it as it was.
#[derive(Clone)]
#[must_use]
pub struct Reader(KeptReader);

#[derive(Clone, Copy)]
#[repr(C)]
struct KeptReader {
    phase: u8,
    system: u8,
    width: u16,
    height: u16,
    next: u16,
}

#[repr(C)]
struct ReadNext {
    reader: KeptReader,
    block: Answer<NumberedBlock>,
}

impl Reader {
    /// A reader that is not opened.
    #[allow(clippy::new_without_default)]
    pub fn new() -> Reader {
        Reader(ferghulta_new_reader())
    }

    /// Starts it anew, also while it is reading or complete.
    pub fn open(&mut self, height: u32) -> Result<(), Refusal> {
        self.0 = ferghulta_open_reader(self.0, height).result()?;
        Ok(())
    }

    /// Reads the block of the row that is due as `read_block` does.
    pub fn read(&mut self, bytes: &[u8], codes: &mut [u16]) -> Result<Block, Refusal> {
        let (from, to) = (bytes, codes);
        // SAFETY: both slices are lent for the call with their own lengths, and a slice's pointer is never null.
        let answer = unsafe { ferghulta_read_next(self.0, from.as_ptr(), from.len(), to.as_mut_ptr(), to.len()) };
        self.0 = answer.reader;
        block_of(answer.block)
    }

    /// The number of the row that is due, which is how many were accepted since opening; none while it is not reading.
    #[must_use]
    pub fn next_row(&self) -> Option<u16> {
        (self.0.phase == 1).then_some(self.0.next)
    }

    /// The height of the picture that it reads; none while it is not reading.
    #[must_use]
    pub fn height(&self) -> Option<u16> {
        (self.0.phase == 1).then_some(self.0.height)
    }

    /// Whether every row was accepted since it was opened.
    #[must_use]
    pub fn is_complete(&self) -> bool {
        self.0.phase == 2
    }
}
