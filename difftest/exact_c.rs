//! The exact program for C (exact.h), with the answers of include/ferghulta.h.
pub mod answers;
pub mod exact;
pub mod natural;

use answers::*;
use exact::Encoding;
use std::slice::{from_raw_parts, from_raw_parts_mut};

/// # Safety
/// The pointers are of so many items that nothing else uses meanwhile; this holds for each function here that takes pointers.
#[no_mangle]
pub unsafe extern "C" fn exact_read_block(
    bytes: *const u8,
    length: usize,
    codes: *mut u16,
    places: usize,
) -> BlockAnswer {
    let outcome = exact::read_block(from_raw_parts(bytes, length), places);
    if let Ok(row) = &outcome {
        from_raw_parts_mut(codes, row.codes.len()).copy_from_slice(&row.codes);
    }
    BlockAnswer::from(&outcome)
}

/// # Safety
/// As `exact_read_block`.
#[no_mangle]
pub unsafe extern "C" fn exact_read_metered(
    meter: Meter,
    bytes: *const u8,
    length: usize,
    codes: *mut u16,
    places: usize,
) -> MeteredAnswer {
    let outcome = exact::read_block(from_raw_parts(bytes, length), places);
    if let Ok(row) = &outcome {
        from_raw_parts_mut(codes, row.codes.len()).copy_from_slice(&row.codes);
    }
    MeteredAnswer::of(meter, &outcome)
}

#[no_mangle]
pub extern "C" fn exact_meter_figures(meter: Meter) -> FiguresAnswer {
    meter.figures()
}

#[no_mangle]
pub extern "C" fn exact_open(
    picture: Picture,
    system: u32,
    width: u32,
    height: u32,
) -> PictureAnswer {
    let outcome = exact::open(picture.taken(), system, width, height);
    PictureAnswer::of(picture, outcome)
}

/// # Safety
/// As `exact_read_block`.
#[no_mangle]
pub unsafe extern "C" fn exact_row(
    picture: Picture,
    lights: *const u16,
    count: usize,
    out: *mut u8,
    room: usize,
) -> PictureAnswer {
    let outcome = exact::row(picture.taken(), from_raw_parts(lights, count), room);
    if let Ok((_, block)) = &outcome {
        from_raw_parts_mut(out, block.len()).copy_from_slice(block);
    }
    PictureAnswer::of(picture, outcome.map(|(after, _)| after))
}

#[no_mangle]
pub extern "C" fn exact_close(picture: Picture) -> PictureAnswer {
    PictureAnswer::of(picture, exact::close(picture.taken()))
}

#[no_mangle]
pub extern "C" fn exact_code_of_light(system: u32, light: u16) -> CodeAnswer {
    exact::code_of_light(system, light).into()
}

#[no_mangle]
pub extern "C" fn exact_span_of_code(system: u32, code: u16) -> SpanAnswer {
    exact::span_of_code(system, code).into()
}

#[no_mangle]
pub extern "C" fn exact_codes_of_signals(system: u32, signals: Signals) -> CodesAnswer {
    exact::codes_of_signals(system, signals.into()).into()
}

#[no_mangle]
pub extern "C" fn exact_signals_of_codes(system: u32, codes: Triple) -> SignalsAnswer {
    exact::signals_of_codes(system, codes.into()).into()
}

#[no_mangle]
pub extern "C" fn exact_words_of_codes(system: u32, codes: Triple) -> CountedAnswer {
    exact::words_of_codes(system, Encoding::Plain, codes.into()).into()
}

#[no_mangle]
pub extern "C" fn exact_trimmed_words_of_codes(system: u32, codes: Triple) -> CountedAnswer {
    exact::words_of_codes(system, Encoding::Trim, codes.into()).into()
}

#[no_mangle]
pub extern "C" fn exact_codes_of_words(system: u32, words: Triple) -> DecodedAnswer {
    exact::codes_of_words(system, words.into()).into()
}

#[no_mangle]
pub extern "C" fn exact_constant_words_of_lights(system: u32, lights: Triple) -> ConstantWordsAnswer {
    exact::constant_words_of_lights(system, lights.into()).into()
}

#[no_mangle]
pub extern "C" fn exact_constant_codes_of_words(system: u32, words: Triple) -> ConstantCodesAnswer {
    exact::constant_codes_of_words(system, words.into()).into()
}

#[no_mangle]
pub extern "C" fn exact_level_of_code(system: u32, code: u16) -> LevelAnswer {
    exact::level_of_code(system, code).into()
}

#[no_mangle]
pub extern "C" fn exact_level_of_difference(system: u32, word: u16) -> LevelAnswer {
    exact::level_of_difference(system, word).into()
}

#[no_mangle]
pub extern "C" fn exact_total_bytes(width: u32, height: u32) -> TotalAnswer {
    exact::total_bytes(width, height).into()
}

#[no_mangle]
pub extern "C" fn exact_open_reader(reader: Reader, height: u32) -> ReaderAnswer {
    let mut history = reader.taken();
    let outcome = history.open(height);
    ReaderAnswer::of(reader, &history, outcome)
}

/// # Safety
/// As `exact_read_block`.
#[no_mangle]
pub unsafe extern "C" fn exact_read_next(
    reader: Reader,
    bytes: *const u8,
    length: usize,
    codes: *mut u16,
    places: usize,
) -> NextAnswer {
    let mut history = reader.taken();
    let outcome = history.read(from_raw_parts(bytes, length), places);
    if let Ok(row) = &outcome {
        from_raw_parts_mut(codes, row.codes.len()).copy_from_slice(&row.codes);
    }
    NextAnswer::of(reader, &history, &outcome)
}

/// # Safety
/// As `exact_read_block`.
#[no_mangle]
pub unsafe extern "C" fn exact_change_depth(
    target: u32,
    block: *const u8,
    length: usize,
    out: *mut u8,
    room: usize,
) -> u32 {
    match exact::change_depth(target, from_raw_parts(block, length), room) {
        Ok(changed) => {
            from_raw_parts_mut(out, changed.len()).copy_from_slice(&changed);
            0
        }
        Err(refusal) => refusal,
    }
}
