//! The bench values of document 01 and of requests 2026-03 to 2026-11, of the exact program itself.
use crate::answers::{self, Meter};
use crate::exact::*;

pub fn check() {
    lights();
    signals();
    triples();
    clips();
    rules();
    blocks();
    clips_of_rows();
    levels();
    totals();
    histories();
    meters();
    depths();
    readers();
    taken_readers();
    constant_greys();
    constant_colours();
    constant_clips();
    constant_refusals();
}

fn lights() {
    assert_eq!([33, 34].map(|k| code_of_light(1, k)), [Ok(16), Ok(17)]);
    assert_eq!(span_of_code(1, 17), Ok((34, 99)));
    assert_eq!(code_of_light(1, 32768), Ok(171));
    assert_eq!(code_of_light(2, 32768), Ok(682));
    let at_beta = [1186, 1187].map(|k| code_of_light(4, k));
    assert_eq!(at_beta, [Ok(541), Ok(542)]);
    for system in &SYSTEMS {
        assert_eq!(code_in(system, 0), system.lowest());
        assert_eq!(code_in(system, 65535), system.highest());
    }
}

fn signals() {
    let [half, three_eighths] = [0.5f32, 0.375].map(f32::to_bits);
    assert_eq!(codes_of_signals(1, [half; 3]), Ok([126; 3]));
    assert_eq!(codes_of_signals(2, [three_eighths; 3]), Ok([393; 3]));
}

fn triples() {
    for encoding in [Encoding::Plain, Encoding::Trim] {
        let words = |system, codes| words_of_codes(system, encoding, codes);
        assert_eq!(words(1, [235, 16, 16]), Ok(([63, 102, 240], 0)));
        assert_eq!(words(1, [16, 16, 235]), Ok(([32, 240, 118], 0)));
        assert_eq!(words(1, [16, 235, 16]), Ok(([173, 42, 26], 0)));
        assert_eq!(words(3, [940, 64, 64]), Ok(([294, 387, 960], 0)));
    }
    decoded([63, 102, 240], [235, 17, 16], 0, 0);
    decoded([32, 240, 118], [17, 16, 235], 0, 0);
    decoded([16, 240, 240], [188, 1, 219], 1, 0);
    decoded([15, 128, 128], [15, 15, 15], 0, 0);
    assert_eq!(codes_of_words(1, [0, 128, 128]), Err(refusal::CODE));
    assert_eq!(formerly_decoded(1, [0, 128, 128]), Err(refusal::CODE));
}

/// In system 1; the former count is the sum of both.
fn decoded(words: [u16; 3], codes: [u16; 3], low: u16, high: u16) {
    assert_eq!(codes_of_words(1, words), Ok((codes, Clips { low, high })));
    assert_eq!(formerly_decoded(1, words), Ok((codes, u32::from(low + high))));
}

/// Worked out by hand, here and below; beside clipped codes stand R, G and B before clipping.
fn clips() {
    decoded([180, 1, 1], [1, 254, 1], 2, 1); // −16 261 −50
    decoded([75, 254, 254], [254, 1, 254], 1, 2); // 269 −6 304
    decoded([27, 254, 1], [1, 62, 254], 1, 1); // −169 62 256
    decoded([1, 1, 1], [1, 82, 1], 2, 0); // −195 82 −229
    decoded([254, 254, 254], [254, 173, 254], 0, 2); // 448 173 483
    on_the_ends();
    for system in &SYSTEMS {
        let range = system.video_data();
        let (first, last) = (*range.start(), *range.end());
        let green = codes_of_words(system.number, [180 * first, first, first]);
        assert_eq!(green, Ok(([first, last, first], Clips { low: 2, high: 1 })));
    }
}

/// Greys on the ends; then R, G and B in turn on the lower end and one below it, on the upper end and one above it.
fn on_the_ends() {
    decoded([1, 128, 128], [1, 1, 1], 0, 0);
    decoded([254, 128, 128], [254, 254, 254], 0, 0);
    decoded([3, 128, 127], [1, 3, 3], 0, 0);
    decoded([2, 128, 127], [1, 2, 2], 1, 0); // 0 2 2
    decoded([252, 128, 129], [254, 252, 252], 0, 0);
    decoded([253, 128, 129], [254, 253, 253], 0, 1); // 255 253 253
    decoded([2, 128, 131], [7, 1, 2], 0, 0);
    decoded([2, 128, 132], [8, 1, 2], 1, 0); // 8 0 2
    decoded([253, 128, 125], [248, 254, 253], 0, 0);
    decoded([253, 128, 124], [247, 254, 253], 0, 1); // 247 255 253
    decoded([3, 127, 128], [3, 3, 1], 0, 0);
    decoded([2, 127, 128], [2, 2, 1], 1, 0); // 2 2 0
    decoded([252, 129, 128], [252, 252, 254], 0, 0);
    decoded([253, 129, 128], [253, 253, 254], 0, 1); // 253 253 255
}

/// Blue beyond 256s, yellow below 0, blue between nominal and the end of video data, and a grey above white, worked out by hand.
fn rules() {
    let plain = |codes| words_of_codes(1, Encoding::Plain, codes);
    let trim = |codes| words_of_codes(1, Encoding::Trim, codes);
    let formerly = |codes| formerly_trimmed(1, codes);
    assert_eq!(plain([1, 1, 254]), Ok(([19, 254, 116], 1)));
    assert_eq!(trim([1, 1, 254]), Ok(([19, 240, 116], 1)));
    assert_eq!(formerly([1, 1, 254]), Ok(([19, 254, 116], 1)));
    assert_eq!(plain([254, 254, 1]), Ok(([236, 1, 140], 1)));
    assert_eq!(trim([254, 254, 1]), Ok(([235, 16, 140], 2)));
    assert_eq!(formerly([254, 254, 1]), Ok(([235, 1, 140], 2)));
    assert_eq!(plain([16, 16, 250]), Ok(([33, 248, 117], 0)));
    assert_eq!(trim([16, 16, 250]), Ok(([33, 240, 117], 1)));
    assert_eq!(formerly([16, 16, 250]), Ok(([33, 240, 117], 1)));
    assert_eq!(plain([254; 3]), Ok(([254, 128, 128], 0)));
    assert_eq!(trim([254; 3]), Ok(([235, 128, 128], 1)));
    assert_eq!(formerly([254; 3]), Ok(([235, 128, 128], 1)));
    assert_eq!(plain([255, 16, 16]), Err(refusal::CODE));
    assert_eq!(trim([16, 0, 16]), Err(refusal::CODE));
    assert_eq!(formerly([16, 0, 16]), Err(refusal::CODE));
}

fn blocks() {
    let grey = block(1, 0, [&[235], &[128], &[128]]);
    #[rustfmt::skip]
    assert_eq!(grey, [0x01, 0, 0, 0x01, 0, 0xEB, 0, 0x01, 0, 0x80, 0, 0x01, 0, 0x80, 0]);
    let row = read_block(&grey, 3).unwrap();
    assert_eq!((row.system, row.number, row.samples), (1, 0, 1));
    assert_eq!(row.clips, Clips { low: 0, high: 0 });
    assert_eq!(row.codes, [235; 3]);
    assert_eq!(block_bytes(MOST_SAMPLES), 46089);
}

/// Samples with two low and one high, with one low and two high, and with two low and one high again; then the first, 7680 times.
fn clips_of_rows() {
    let three = block(1, 0, [&[180, 75, 180], &[1, 254, 1], &[1, 254, 1]]);
    assert_eq!(read_block(&three, 9).unwrap().clips, Clips { low: 5, high: 4 });
    let widest = block(1, 0, [&[180; MOST_SAMPLES], &[1; MOST_SAMPLES], &[1; MOST_SAMPLES]]);
    let row = read_block(&widest, 3 * MOST_SAMPLES).unwrap();
    assert_eq!(row.clips, Clips { low: 15360, high: 7680 });
}

/// 700·(1 − 16) is −10500, and −48·219 is −10512.
fn levels() {
    for system in &SYSTEMS {
        let s = system.scale as u16;
        let codes = [16, 235].map(|d| level_of_code(system.number, d * s));
        let differences = [16, 128, 240].map(|c| level_of_difference(system.number, c * s));
        assert_eq!(codes, [Ok((0, 0)), Ok((700, 0))]);
        assert_eq!(differences, [Ok((-350, 0)), Ok((0, 0)), Ok((350, 0))]);
    }
    assert_eq!(level_of_code(1, 1), Ok((-48, 12)));
    assert_eq!(level_of_code(1, 0), Err(refusal::CODE));
    assert_eq!(level_of_difference(1, 255), Err(refusal::CODE));
    assert_eq!(level_of_difference(0, 0), Err(refusal::SYSTEM));
}

/// The width is tested before the height.
fn totals() {
    assert_eq!(total_bytes(1, 1), Ok(15));
    assert_eq!(total_bytes(1920, 1080), Ok(12_451_320));
    assert_eq!(total_bytes(7680, 4320), Ok(199_104_480));
    assert_eq!([0, 7681].map(|width| total_bytes(width, 0)), [Err(refusal::WIDTH); 2]);
    assert_eq!([0, 4321].map(|height| total_bytes(1, height)), [Err(refusal::HEIGHT); 2]);
}

/// A row with one low and two high, 63 with two low and one high, then none; and the most that 64 rows can have.
fn histories() {
    let mut history = vec![Clips { low: 1, high: 2 }];
    history.extend([Clips { low: 2, high: 1 }; 63]);
    history.extend([Clips::default(); 64]);
    let shown = |rows: usize| figures(&history[..rows]);
    let wanted = |rows, low, high| Figures { rows, low, high };
    assert_eq!([0, 1, 2].map(shown), [wanted(0, 0, 0), wanted(1, 1, 2), wanted(2, 3, 3)]);
    assert_eq!([63, 64].map(shown), [wanted(63, 125, 64), wanted(64, 127, 65)]);
    assert_eq!([65, 66].map(shown), [wanted(64, 126, 63), wanted(64, 124, 62)]);
    assert_eq!([127, 128].map(shown), [wanted(64, 2, 1), wanted(64, 0, 0)]);
    let most = [Clips { low: 15360, high: 7680 }; 65];
    assert_eq!(figures(&most), wanted(64, 983_040, 491_520));
}

/// A meter that goes from read to read is the one that its history makes, and holds the latest rows.
fn meters() {
    let rows = [[180, 1, 1], [75, 254, 254], [0, 128, 128], [126, 128, 128], [27, 254, 1]];
    let (mut meter, mut history) = (Meter::EMPTY, vec![]);
    for number in 0..400 {
        let [y, cb, cr] = rows[number * number % 17 % 5];
        let outcome = read_block(&block(1, 0, [&[y], &[cb], &[cr]]), 3);
        meter = meter.after(&outcome);
        enter(&mut history, &outcome);
        assert_eq!(meter, Meter::EMPTY.after_all(&history));
        assert_eq!(meter.held().as_deref(), Some(latest(&history)));
        assert_eq!(meter.figures(), figures(&history).into());
    }
    assert!(history.len() > 256 && history.len() < 400);
}

/// One Y' word of a system in the target's depth; beside it stand colour differences that are accepted.
fn changed(source: u8, word: u16, target: u32) -> Outcome<u16> {
    let grey = 128 * SYSTEMS[usize::from(source) - 1].scale as u16;
    let changed = change_depth(target, &block(source, 7, [&[word], &[grey], &[grey]]), 15)?;
    assert_eq!((changed.len(), u32::from(changed[0]), &changed[1..5]), (15, target, &[7, 0, 1, 0][..]));
    Ok(u16::from_le_bytes([changed[5], changed[6]]))
}

/// The request's figures, the same of system 4, halves, and each refusal with the next one.
fn depths() {
    assert_eq!([1017, 1018, 1019].map(|w| changed(2, w, 1)), [Ok(254), Err(refusal::TIMING), Err(refusal::TIMING)]);
    assert_eq!([4077, 4078, 4079].map(|w| changed(4, w, 3)), [Ok(1019), Err(refusal::TIMING), Err(refusal::TIMING)]);
    assert_eq!([4, 5, 6, 7, 8].map(|w| changed(2, w, 1)), [1, 1, 2, 2, 2].map(Ok));
    assert_eq!([1, 254].map(|w| changed(1, w, 2)), [4, 1016].map(Ok));
    assert_eq!([4, 1019].map(|w| changed(3, w, 4)), [16, 4076].map(Ok));
    assert_eq!([1, 3, 4].map(|target| changed(1, 16, target)), [Err(refusal::TARGET); 3]);
    assert_eq!([1, 2, 4].map(|target| changed(4, 4079, target)), [Err(refusal::TARGET); 3]);
    assert_eq!([0, 5].map(|target| change_depth(target, &[], 0)), [Err(refusal::SYSTEM), Err(refusal::SYSTEM)]);
    let beyond = block(2, 0, [&[1020], &[512], &[512]]);
    assert_eq!(change_depth(2, &beyond, 0), Err(refusal::CODE));
    let timing = block(2, 0, [&[512], &[512], &[1018]]);
    assert_eq!(change_depth(1, &timing, 0), Err(refusal::TIMING));
    let grey = block(2, 0, [&[512], &[512], &[512]]);
    assert_eq!(change_depth(1, &grey, 14), Err(refusal::OUTPUT));
    up_and_down(1, 2);
    up_and_down(3, 4);
}

/// 'Up and then down gives the first bytes back', of every word of video data.
fn up_and_down(low: usize, high: u32) {
    let words: Vec<u16> = SYSTEMS[low - 1].video_data().collect();
    let first = block(low as u8, 4319, [&words, &words, &words]);
    let up = change_depth(high, &first, first.len()).unwrap();
    assert_eq!(change_depth(low as u32, &up, up.len()), Ok(first));
}

/// A row of greys of this system, with so many samples.
fn grey_row(system: u8, number: u16, samples: usize) -> Vec<u8> {
    let greys = vec![128 * SYSTEMS[usize::from(system) - 1].scale as u16; samples];
    block(system, number, [&greys, &greys, &greys])
}

/// The number of an accepted row, or the refusal.
fn read_by(reader: &mut Reader, block: &[u8], places: usize) -> Outcome<u16> {
    reader.read(block, places).map(|row| row.number)
}

/// A picture of two rows, each refusal with the next one, and a second picture.
fn readers() {
    let mut reader = Reader::default();
    assert_eq!(read_by(&mut reader, &[], 0), Err(refusal::NOT_READING));
    assert_eq!([0, 4321, u32::MAX].map(|height| reader.open(height)), [Err(refusal::HEIGHT); 3]);
    assert_eq!(read_by(&mut reader, &grey_row(1, 0, 3), 9), Err(refusal::NOT_READING));
    assert_eq!(reader.open(2), Ok(()));
    assert_eq!(read_by(&mut reader, &grey_row(2, 1, 3), 9), Err(refusal::TURN));
    assert_eq!(read_by(&mut reader, &grey_row(2, 0, 3), 9), Ok(0));
    assert_eq!(read_by(&mut reader, &[], 0), Err(refusal::BLOCK_END));
    assert_eq!(read_by(&mut reader, &grey_row(3, 0, 2), 5), Err(refusal::OUTPUT));
    assert_eq!(read_by(&mut reader, &grey_row(3, 0, 2), 6), Err(refusal::TURN));
    assert_eq!(read_by(&mut reader, &grey_row(3, 1, 3), 9), Err(refusal::UNLIKE));
    assert_eq!(read_by(&mut reader, &grey_row(2, 1, 2), 9), Err(refusal::UNLIKE));
    assert_eq!(reader.open(0), Err(refusal::HEIGHT));
    assert_eq!(read_by(&mut reader, &grey_row(2, 1, 3), 9), Ok(1));
    assert_eq!(read_by(&mut reader, &grey_row(2, 2, 3), 0), Err(refusal::NOT_READING));
    assert_eq!(reader.open(4320), Ok(()));
    assert_eq!(read_by(&mut reader, &grey_row(4, 0, 1), 3), Ok(0));
    assert_eq!(reader.open(1), Ok(()));
    assert_eq!(read_by(&mut reader, &grey_row(1, 0, 2), 6), Ok(0));
    assert!(reader.is_complete());
}

/// The eight bytes of a history are taken for that history, but for the height of a complete one.
fn taken_readers() {
    let mut reader = Reader::default();
    let is_taken = |reader: &Reader| answers::Reader::from(&answers::Reader::from(reader).taken()) == reader.into();
    assert!(is_taken(&reader));
    for height in 1..=4 {
        reader.open(height).unwrap();
        for number in 0..height as u16 {
            assert!(is_taken(&reader));
            assert_eq!(answers::Reader::from(&reader).next, number);
            reader.read(&grey_row(3, number, 2), 6).unwrap();
        }
        assert_eq!(answers::Reader::from(&reader), answers::Reader::COMPLETE);
        assert!(is_taken(&reader));
    }
}

const FULL: u16 = u16::MAX;

/// Of a grey Y'c is the light's own code, and the words give R' and B' back.
fn constant_greys() {
    for (number, system) in [(5, &SYSTEMS[2]), (6, &SYSTEMS[3])] {
        let m = 128 * system.scale as u16;
        for light in 0..=FULL {
            let code = code_in(system, light);
            assert_eq!(constant_words_of_lights(number, [light; 3]), Ok([code, m, m]));
            assert_eq!(constant_codes_of_words(number, [code, m, m]), Ok(([code; 2], Clips::default())));
        }
    }
}

/// Pure colours at full light, a lamp's blue, and what their words give back.
fn constant_colours() {
    colour(5, [FULL, 0, 0], [505, 280, 960], [940, 65]);
    colour(5, [0, FULL, 0], [786, 131, 82], [64, 63]);
    colour(5, [0, 0, FULL], [247, 960, 403], [64, 940]);
    colour(5, [0, FULL, FULL], [817, 592, 64], [64, 941]);
    colour(5, [FULL, 0, FULL], [555, 761, 908], [940, 940]);
    colour(5, [FULL, FULL, 0], [914, 64, 539], [940, 64]);
    colour(5, [1900, 9000, 60000], [393, 842, 381], [173, 903]);
    colour(6, [FULL, 0, 0], [2019, 1119, 3840], [3760, 257]);
    colour(6, [0, FULL, 0], [3142, 527, 330], [256, 257]);
    colour(6, [0, 0, FULL], [988, 3840, 1612], [256, 3760]);
    colour(6, [0, FULL, FULL], [3266, 2367, 256], [256, 3759]);
    colour(6, [FULL, 0, FULL], [2221, 3043, 3632], [3760, 3760]);
    colour(6, [FULL, FULL, 0], [3655, 256, 2156], [3760, 255]);
    colour(6, [1900, 9000, 60000], [1573, 3365, 1523], [691, 3610]);
}

fn colour(number: u32, lights: [u16; 3], words: [u16; 3], back: [u16; 2]) {
    assert_eq!(constant_words_of_lights(number, lights), Ok(words));
    assert_eq!(constant_codes_of_words(number, words), Ok((back, Clips::default())));
}

/// Beside clipped codes stand R' and B' before clipping; then each of them on an end and one beyond it.
fn constant_clips() {
    constant_clip([4, 4, 4], [4, 4], 2, 0); // −849 −960
    constant_clip([1019, 1019, 1019], [1019, 1019], 0, 2); // 1512 1803
    constant_clip([512, 1019, 4], [4, 1019], 1, 1); // −341 1296
    constant_clip([512, 4, 1019], [1005, 4], 1, 0); // 1005 −452
    constant_clip([6, 512, 511], [4, 6], 0, 0);
    constant_clip([5, 512, 511], [4, 5], 1, 0); // 3 5
    constant_clip([1018, 512, 513], [1019, 1018], 0, 0);
    constant_clip([1019, 512, 513], [1019, 1019], 0, 1); // 1020 1019
    constant_clip([6, 511, 512], [6, 4], 0, 0);
    constant_clip([5, 511, 512], [5, 4], 1, 0); // 5 3
    constant_clip([1017, 513, 512], [1017, 1019], 0, 0);
    constant_clip([1018, 513, 512], [1018, 1019], 0, 1); // 1018 1020
}

/// In system 5.
fn constant_clip(words: [u16; 3], codes: [u16; 2], low: u16, high: u16) {
    assert_eq!(constant_codes_of_words(5, words), Ok((codes, Clips { low, high })));
}

/// The other systems here, these in the other calls, and the system before the words.
fn constant_refusals() {
    for number in [0, 1, 2, 3, 4, 7, 261, u32::MAX] {
        assert_eq!(constant_words_of_lights(number, [0; 3]), Err(refusal::SYSTEM));
        assert_eq!(constant_codes_of_words(number, [0; 3]), Err(refusal::SYSTEM));
    }
    for number in [5, 6] {
        assert_eq!(code_of_light(number, 0), Err(refusal::SYSTEM));
        assert_eq!(span_of_code(number, 940), Err(refusal::SYSTEM));
        assert_eq!(codes_of_words(number, [512; 3]), Err(refusal::SYSTEM));
        assert_eq!(level_of_code(number, 512), Err(refusal::SYSTEM));
        assert_eq!(open(Picture::Fresh, number, 1, 1), Err(refusal::SYSTEM));
        assert_eq!(change_depth(number, &[], 0), Err(refusal::SYSTEM));
        assert_eq!(read_block(&block(number as u8, 0, [&[512], &[512], &[512]]), 3).err(), Some(refusal::SYSTEM));
    }
    let beyond = [[3, 512, 512], [512, 1020, 512], [512, 512, 0]];
    assert_eq!(beyond.map(|words| constant_codes_of_words(5, words)), [Err(refusal::CODE); 3]);
    assert_eq!(constant_codes_of_words(6, [15, 2048, 2048]), Err(refusal::CODE));
    assert_eq!(constant_codes_of_words(6, [2048, 4080, 2048]), Err(refusal::CODE));
}
