//! examples/ramp.c in Rust: the same calls, the same lines. `make example-rust` runs it and compares the two.
use ferghulta::{change_depth, read_block, to_progressive, to_segmented, version, VERSION};
use ferghulta::{Codes, ConstantDecoded, ConstantSystem, Decoded, Encoding, Figures, Level, Lights, Limited, Meter};
use ferghulta::{Picture, Reader, Refusal, System, Words};

const WIDTH: usize = 1920;
const HEIGHT: usize = 32;
const LIGHTS: usize = 3 * WIDTH;
const BYTES: usize = 9 + 6 * WIDTH;

/// R rises along the row, G falls, and B rises from row to row.
fn ramp(row: usize) -> Vec<u16> {
    let sample = |x| {
        let r = (65535 * x / (WIDTH - 1)) as u16;
        [r, 65535 - r, (65535 * row / (HEIGHT - 1)) as u16]
    };
    (0..WIDTH).flat_map(sample).collect()
}

/// Marsaglia's xorshift, as in ramp.c.
fn random_light(row: usize) -> Vec<u16> {
    let mut state = row as u32 + 1;
    let next = || {
        state ^= state << 13;
        state ^= state >> 17;
        state ^= state << 5;
        (state >> 16) as u16
    };
    std::iter::repeat_with(next).take(LIGHTS).collect()
}

/// The most that a code read back is away from the code of its light.
fn worst_distance(system: System, lights: &[u16], codes: &[u16]) -> u16 {
    let distance = |(light, code): (&u16, &u16)| system.code_of_light(*light).abs_diff(*code);
    lights.iter().zip(codes).map(distance).max().unwrap_or(0)
}

fn send_and_read(system: System, name: &str, foretold: u32) -> Result<(), Refusal> {
    let mut block = [0; BYTES];
    let mut codes = [0; LIGHTS];
    let (mut blocks, mut low, mut high, mut worst) = (0, 0, 0, 0);

    let mut picture = Picture::new();
    picture.open(system, WIDTH as u32, HEIGHT as u32)?;
    for row in 0..HEIGHT {
        let lights = if row % 2 == 0 { ramp(row) } else { random_light(row) };
        picture.row(&lights, &mut block)?;

        let clips = read_block(&block, &mut codes)?.clips;
        blocks += 1;
        low += u32::from(clips.low);
        high += u32::from(clips.high);
        worst = worst.max(worst_distance(system, &lights, &codes));
    }
    let rows = picture.rows();
    picture.close()?;

    let bytes = if picture.bytes() == foretold { "as foretold" } else { "not as foretold" };
    println!("{name:<16} {rows:>9} {blocks:>11} {worst:>14} {low:>4} {high:>4} {bytes:>15}");
    Ok(())
}

/// The blocks of 1080 rows in segmented order, and back; the row number in a block tells which row stands at a place.
fn segmented_order() -> Result<(), Refusal> {
    const ROWS: usize = 1080;
    const BYTES: usize = 9 + 6;
    let mut sent = [0; ROWS * BYTES];
    let mut segmented = [0; ROWS * BYTES];
    let mut back = [0; ROWS * BYTES];

    let mut picture = Picture::new();
    picture.open(System::Bt709Bits10, 1, ROWS as u32)?;
    for block in sent.chunks_mut(BYTES) {
        picture.row(&[0, 0, 0], block)?;
    }
    to_segmented(&sent, &mut segmented)?;
    to_progressive(&segmented, &mut back)?;

    let row_at = |place: usize| read_block(&segmented[BYTES * place..][..BYTES], &mut [0; 3]).map(|block| block.row);
    print!("\nsegmented order, place and row:");
    for (i, place) in [0, 1, 539, 540, 541, 1079].into_iter().enumerate() {
        print!("{} {place} {}", if i == 0 { "" } else { "," }, row_at(place)?);
    }
    println!("\nback in progressive order: {}", if sent == back { "as sent" } else { "not as sent" });
    Ok(())
}

/// The first word of a block, after system, row number and count.
fn first_word(block: &[u8]) -> u16 {
    u16::from_le_bytes([block[5], block[6]])
}

/// A row of 8 bits in 10 bits, and back.
fn other_depth() -> Result<(), Refusal> {
    let (mut block, mut wider, mut back) = ([0; BYTES], [0; BYTES], [0; BYTES]);
    let mut picture = Picture::new();
    picture.open(System::Bt709Bits8, WIDTH as u32, 1)?;
    picture.row(&ramp(0), &mut block)?;
    change_depth(System::Bt709Bits10, &block, &mut wider)?;
    change_depth(System::Bt709Bits8, &wider, &mut back)?;
    println!("\nfirst word in 8 bits {}, in 10 bits {}", first_word(&block), first_word(&wider));
    println!("back in 8 bits: {}", if block == back { "as sent" } else { "not as sent" });
    Ok(())
}

/// Millivolts are rounded down: -38 + 112/224 is -37.5.
fn show_levels(lamp: &str, words: Words) -> Result<(), Refusal> {
    let system = System::Bt709Bits8;
    let shown = |level: Level, parts: u32| format!("{} + {}/{parts} mV", level.millivolts, level.remainder);
    let y = shown(system.level_of_code(words.y)?, 219);
    let cb = shown(system.level_of_difference(words.cb)?, 224);
    let cr = shown(system.level_of_difference(words.cr)?, 224);
    println!("{lamp:<16} {:<8} Y' {y} Cb {cb} Cr {cr}", "levels");
    Ok(())
}

/// Blue lamps beyond nominal. Before the rules the saturated one's Cb is 257 and the duller one's 248.
fn lamps() -> Result<(), Refusal> {
    let saturated = Codes { r: 1, g: 1, b: 254 };
    let duller = Codes { r: 16, g: 16, b: 250 };
    for (lamp, codes) in [("saturated lamp", saturated), ("duller lamp", duller)] {
        for (name, encoding) in [("plain", Encoding::Plain), ("trimmed", Encoding::Trim)] {
            let Limited { words, moved } = System::Bt709Bits8.words_of_codes(encoding, codes)?;
            println!("{lamp:<16} {name:<8} {:>3} {:>3} {:>3}, moved {moved}", words.y, words.cb, words.cr);
        }
    }
    show_levels("saturated lamp", System::Bt709Bits8.words_of_codes(Encoding::Plain, saturated)?.words)
}

/// Before clipping, the codes of these words are -16, 261 and -50.
fn saturated_words() -> Result<(), Refusal> {
    let Decoded { codes, clips } = System::Bt709Bits8.codes_of_words(Words { y: 180, cb: 1, cr: 1 })?;
    print!("{:<16} {:<8} {:>3} {:>3} {:>3}", "words 180 1 1", "codes", codes.r, codes.g, codes.b);
    println!(", low {} high {}", clips.low, clips.high);
    Ok(())
}

/// Rows of one sample, 40 of the words above and then 80 greys: the meter shows the 64 latest.
fn metered_rows() -> Result<(), Refusal> {
    let saturated = [1, 0, 0, 1, 0, 180, 0, 1, 0, 1, 0, 1, 0, 1, 0];
    let grey = [1, 0, 0, 1, 0, 126, 0, 1, 0, 128, 0, 1, 0, 128, 0];
    let mut meter = Meter::EMPTY;
    for row in 1..=120 {
        meter.read(if row <= 40 { &saturated } else { &grey }, &mut [0; 3])?;
        if row % 40 == 0 {
            let Figures { rows, low, high } = meter.figures();
            println!("meter after {row:>3} rows: low {low} high {high} in the latest {rows}");
        }
    }
    Ok(())
}

/// Y'c is made of the lamp's light, not of its codes; R' and B' come back.
fn constant_luminance(system: ConstantSystem, name: &str, lamp: Lights) -> Result<(), Refusal> {
    let words = system.words_of_lights(lamp);
    let ConstantDecoded { codes, clips } = system.codes_of_words(words)?;
    print!("{name:<16} {:<8} {:>4} {:>4} {:>4}", "words", words.y, words.cb, words.cr);
    println!(", read back as R' {} and B' {}, low {} high {}", codes.r, codes.b, clips.low, clips.high);
    Ok(())
}

fn show<T>(call: &str, result: Result<T, Refusal>) {
    match result {
        Ok(_) => println!("{call:<32}  0  accepted"),
        Err(refusal) => println!("{call:<32} {:>2}  {refusal}", refusal.number()),
    }
}

/// Sends one row, of so many lights and with this number.
fn send_row(lights: &[u16], row: u16) -> Result<Vec<u8>, Refusal> {
    let width = lights.len() / 3;
    let mut block = vec![0; 9 + 6 * width];
    let mut picture = Picture::new();
    picture.open(System::Bt709Bits10, width as u32, 4320)?;
    picture.with_rows(row).row(lights, &mut block)?;
    Ok(block)
}

/// A picture of two rows, read in turn: a row that comes too early and one of another width change nothing, and the
/// right one goes on.
fn rows_in_turn() -> Result<(), Refusal> {
    let lights = [ramp(0), ramp(1)];
    let sent = [send_row(&lights[0], 0)?, send_row(&lights[1], 1)?];
    let narrow = send_row(&lights[1][..3 * 960], 1)?;
    let mut codes = [0; LIGHTS];

    let mut reader = Reader::new();
    show("a block before opening", reader.read(&sent[0], &mut codes));
    reader.open(2)?;
    show("row 1 where row 0 is due", reader.read(&sent[1], &mut codes));
    show("row 0", reader.read(&sent[0], &mut codes));
    show("row 0 again", reader.read(&sent[0], &mut codes));
    show("row 1, half as wide", reader.read(&narrow, &mut codes));
    if let (Some(next), Some(height)) = (reader.next_row(), reader.height()) {
        println!("{:<32} row {next} is due, of {height} rows", "then");
    }
    show("row 1", reader.read(&sent[1], &mut codes));
    let worst = worst_distance(System::Bt709Bits10, &lights[1], &codes);
    let phase = if reader.is_complete() { "complete" } else { "not complete" };
    println!("{:<32} the picture is {phase}, worst distance {worst}", "then");
    show("a row more", reader.read(&sent[1], &mut codes));
    Ok(())
}

/// A refused call changes nothing: the picture goes on as it was.
fn refusals() -> Result<(), Refusal> {
    let system = System::Bt709Bits8;
    let lights = ramp(0);
    let mut block = [0; BYTES];
    let mut codes = [0; LIGHTS];

    let mut picture = Picture::new();
    show("a row before open", picture.row(&lights, &mut block));
    show("open with width 7681", picture.open(system, 7681, 2));
    picture.open(system, WIDTH as u32, 2)?;
    show("a row that is one light short", picture.row(&lights[1..], &mut block));
    show("a buffer that is one byte short", picture.row(&lights, &mut block[1..]));
    picture.row(&lights, &mut block)?;
    show("close after one row of two", picture.close());
    show("a block without its last byte", read_block(&block[..BYTES - 1], &mut codes));
    block[5] = 255; // the first Y' word, after system, row number and count, becomes a timing code
    show("a block with a timing code", read_block(&block, &mut codes));
    let (rows, room) = block.split_at_mut(1079);
    show("1079 rows of a byte", to_segmented(rows, &mut room[..1079]));
    let bright = [2, 0, 0, 1, 0, 0xFA, 3, 1, 0, 0, 2, 1, 0, 0, 2]; // Y' 1018 in 10 bits
    show("a block brought to its own depth", change_depth(System::Bt709Bits10, &bright, &mut [0; 15]));
    show("a word of 1018 brought to 8 bits", change_depth(System::Bt709Bits8, &bright, &mut [0; 15]));
    let timing = Words { y: 3, cb: 512, cr: 512 };
    show("constant luminance, Y' 3", ConstantSystem::Bt2020Bits10.codes_of_words(timing));
    Ok(())
}

fn main() -> Result<(), Refusal> {
    assert_eq!(version(), VERSION, "the archive is of another version than examples/ferghulta.rs");
    let names = ["BT.709 8 bits", "BT.709 10 bits", "BT.2020 10 bits", "BT.2020 12 bits"];
    let total = Picture::total_bytes(WIDTH as u32, HEIGHT as u32)?;
    println!("pictures of {WIDTH} x {HEIGHT}, {total} bytes each; distance in codes\n");
    print!("{:<16} {:>9} {:>11}", "system", "rows sent", "blocks read");
    println!(" {:>14} {:>4} {:>4} {:>15}", "worst distance", "low", "high", "bytes");
    for (system, name) in System::ALL.into_iter().zip(names) {
        send_and_read(system, name, total)?;
    }
    segmented_order()?;
    other_depth()?;
    println!("\nwords, levels and codes beyond nominal, BT.709 8 bits");
    lamps()?;
    saturated_words()?;
    metered_rows()?;
    let lamp = Lights { r: 1900, g: 9000, b: 60000 };
    println!("\nconstant luminance, lights {} {} {}", lamp.r, lamp.g, lamp.b);
    for (system, name) in ConstantSystem::ALL.into_iter().zip(&names[2..]) {
        constant_luminance(system, name, lamp)?;
    }
    println!("\n{:<32} number and meaning", "block given to a reader");
    rows_in_turn()?;
    println!("\n{:<32} number and meaning", "refused call");
    refusals()
}
