//! The calls of include/ferghulta.h.
use crate::answers::*;

#[link(name = "ferghulta", kind = "static")]
extern "C" {
    pub fn ferghulta_code_of_light(system: u32, light: u16) -> CodeAnswer;
    pub fn ferghulta_span_of_code(system: u32, code: u16) -> SpanAnswer;
    pub fn ferghulta_codes_of_signals(system: u32, signals: Signals) -> CodesAnswer;
    pub fn ferghulta_signals_of_codes(system: u32, codes: Triple) -> SignalsAnswer;
    pub fn ferghulta_words_of_codes(system: u32, codes: Triple) -> CountedAnswer;
    pub fn ferghulta_trimmed_words_of_codes(system: u32, codes: Triple) -> CountedAnswer;
    pub fn ferghulta_codes_of_words(system: u32, words: Triple) -> DecodedAnswer;
    pub fn ferghulta_constant_words_of_lights(system: u32, lights: Triple) -> ConstantWordsAnswer;
    pub fn ferghulta_constant_codes_of_words(system: u32, words: Triple) -> ConstantCodesAnswer;
    pub fn ferghulta_level_of_code(system: u32, code: u16) -> LevelAnswer;
    pub fn ferghulta_level_of_difference(system: u32, word: u16) -> LevelAnswer;
    pub fn ferghulta_total_bytes(width: u32, height: u32) -> TotalAnswer;
    pub fn ferghulta_new() -> Picture;
    pub fn ferghulta_open(p: Picture, system: u32, width: u32, height: u32) -> PictureAnswer;
    pub fn ferghulta_close(picture: Picture) -> PictureAnswer;
    pub fn ferghulta_row(
        picture: Picture,
        lights: *const u16,
        count: usize,
        out: *mut u8,
        room: usize,
    ) -> PictureAnswer;
    pub fn ferghulta_read_block(
        bytes: *const u8,
        length: usize,
        codes: *mut u16,
        places: usize,
    ) -> BlockAnswer;
    pub fn ferghulta_read_metered(
        meter: Meter,
        bytes: *const u8,
        length: usize,
        codes: *mut u16,
        places: usize,
    ) -> MeteredAnswer;
    pub fn ferghulta_meter_figures(meter: Meter) -> FiguresAnswer;
    pub fn ferghulta_to_segmented(from: *const u8, length: usize, to: *mut u8, room: usize) -> u32;
    pub fn ferghulta_to_progressive(from: *const u8, length: usize, to: *mut u8, room: usize) -> u32;
    pub fn ferghulta_change_depth(target: u32, block: *const u8, length: usize, out: *mut u8, room: usize) -> u32;
    pub fn ferghulta_new_reader() -> Reader;
    pub fn ferghulta_open_reader(reader: Reader, height: u32) -> ReaderAnswer;
    pub fn ferghulta_read_next(
        reader: Reader,
        bytes: *const u8,
        length: usize,
        codes: *mut u16,
        places: usize,
    ) -> NextAnswer;
}

/// The same calls with what the x86-64 convention leaves open, filled: the upper half of a register with a u32 or a u16, the fourth
/// word of one with a triple, the upper lane of one with the third float, the upper half of the second one of a picture, the stack
/// behind a meter, the memory to which the answer of a read with a meter or a reader goes. No answer may depend on it.
pub mod filled {
    use crate::answers::*;

    #[repr(C)]
    #[derive(Clone, Copy)]
    pub struct FourSignals(pub Signals, pub f32);

    #[repr(C)]
    #[derive(Clone, Copy)]
    pub struct WidePicture(pub Picture, pub u32);

    #[repr(C)]
    #[derive(Clone, Copy)]
    pub struct LongMeter(pub Meter, pub [u32; 4]);

    #[allow(clashing_extern_declarations)]
    extern "C" {
        pub fn ferghulta_codes_of_signals(system: u64, signals: FourSignals) -> CodesAnswer;
        pub fn ferghulta_signals_of_codes(system: u64, codes: u64) -> SignalsAnswer;
        pub fn ferghulta_words_of_codes(system: u64, codes: u64) -> CountedAnswer;
        pub fn ferghulta_trimmed_words_of_codes(system: u64, codes: u64) -> CountedAnswer;
        pub fn ferghulta_codes_of_words(system: u64, words: u64) -> DecodedAnswer;
        pub fn ferghulta_constant_words_of_lights(system: u64, lights: u64) -> ConstantWordsAnswer;
        pub fn ferghulta_constant_codes_of_words(system: u64, words: u64) -> ConstantCodesAnswer;
        pub fn ferghulta_level_of_code(system: u64, code: u64) -> LevelAnswer;
        pub fn ferghulta_level_of_difference(system: u64, word: u64) -> LevelAnswer;
        pub fn ferghulta_total_bytes(width: u64, height: u64) -> TotalAnswer;
        pub fn ferghulta_open(p: WidePicture, system: u64, width: u64, height: u64) -> PictureAnswer;
        pub fn ferghulta_close(picture: WidePicture) -> PictureAnswer;
        pub fn ferghulta_row(
            picture: WidePicture,
            lights: *const u16,
            count: usize,
            out: *mut u8,
            room: usize,
        ) -> PictureAnswer;
        /// An answer of more than 16 bytes goes where the first register says, and the call gives that address back.
        pub fn ferghulta_read_metered(
            answer: *mut MeteredAnswer,
            meter: LongMeter,
            bytes: *const u8,
            length: usize,
            codes: *mut u16,
            places: usize,
        ) -> *mut MeteredAnswer;
        pub fn ferghulta_meter_figures(meter: LongMeter) -> FiguresAnswer;
        pub fn ferghulta_change_depth(target: u64, block: *const u8, length: usize, out: *mut u8, room: usize) -> u32;
        pub fn ferghulta_open_reader(reader: Reader, height: u64) -> ReaderAnswer;
        pub fn ferghulta_read_next(
            answer: *mut NextAnswer,
            reader: Reader,
            bytes: *const u8,
            length: usize,
            codes: *mut u16,
            places: usize,
        ) -> *mut NextAnswer;
    }
}
