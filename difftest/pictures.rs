//! The calls on a picture, each by itself and on any twelve bytes, and the total of its bytes.
use crate::answers::{Picture, PictureAnswer, TotalAnswer};
use crate::library::{self, filled, filled::WidePicture};
use crate::exact::{self, MOST_SAMPLES};
use crate::lent::Lent;
use crate::pseudorandom::Pseudorandom;
use crate::tally::Tally;
use crate::values::{any_system, SYSTEM_NUMBERS};
use crate::Effort;

const PHASES: [u8; 5] = [0, 1, 2, 3, 255];
const KEPT_SYSTEMS: [u8; 6] = [0, 1, 4, 5, 6, 255];
const WIDTHS: [u16; 5] = [0, 1, 7680, 7681, 65535];
const HEIGHTS: [u16; 5] = [0, 1, 4320, 4321, 65535];

/// Width and height arguments: the ends of the ranges, and numbers with a width or height in their low bits.
#[rustfmt::skip]
const SIZES: [u32; 14] = [
    0, 1, 2, 4319, 4320, 4321, 7679, 7680, 7681, 65535, 65537, 65536 + 7680, 0x8000_0001, u32::MAX,
];

/// The bytes of so many rows; those of numbers far out of range are cut to 32 bits.
fn bytes_of(width: u16, rows: u16) -> u32 {
    (usize::from(rows) * exact::block_bytes(usize::from(width))) as u32
}

/// The bytes of an open picture; then others: next to them, with the same low half, none, the most, and those of the next width.
fn edge_bytes(width: u16, rows: u16) -> [u32; 7] {
    let bytes = bytes_of(width, rows);
    let next_width = bytes_of(width.wrapping_add(1), rows);
    [
        bytes,
        bytes.wrapping_sub(1),
        bytes.wrapping_add(1),
        bytes ^ 1 << 16,
        0,
        u32::MAX,
        next_width,
    ]
}

/// Every picture with its numbers at the ends of their ranges, with the bytes of its rows and with others.
fn edge_pictures() -> Vec<Picture> {
    let mut pictures = vec![];
    for place in 0..6 * 5usize.pow(4) {
        let digit = |n: u32| place / 6 / 5usize.pow(n) % 5;
        let height = HEIGHTS[digit(2)];
        let rows = [
            0,
            height.wrapping_sub(1),
            height,
            height.wrapping_add(1),
            65535,
        ];
        let (width, rows) = (WIDTHS[digit(1)], rows[digit(3)]);
        pictures.extend(edge_bytes(width, rows).map(|bytes| Picture {
            phase: PHASES[digit(0)],
            system: KEPT_SYSTEMS[place % 6],
            width,
            height,
            rows,
            bytes,
        }));
    }
    pictures
}

/// Open pictures as the calls make them, most of them narrow.
fn any_open(random: &mut Pseudorandom) -> Picture {
    let narrow = 1 + random.below(8) as u16;
    let width = if random.once_in(500) { 7680 } else { narrow };
    let height = random.within(1, 4320);
    let rows = random.within(0, height);
    let rows = random.pick(&[0, rows, rows, height - 1, height]);
    Picture {
        phase: 1,
        system: random.within(1, 4) as u8,
        width,
        height,
        rows,
        bytes: bytes_of(width, rows),
    }
}

/// With so many rows, and their bytes.
fn at_row(picture: Picture, rows: u16) -> Picture {
    let bytes = bytes_of(picture.width, rows);
    Picture {
        rows,
        bytes,
        ..picture
    }
}

fn any_picture(random: &mut Pseudorandom) -> Picture {
    let bits = random.bits();
    let any = Picture {
        phase: bits as u8,
        system: (bits >> 8) as u8,
        width: (bits >> 16) as u16,
        height: (bits >> 32) as u16,
        rows: (bits >> 48) as u16,
        bytes: random.bits() as u32,
    };
    match random.below(12) {
        0 => any,
        // Any numbers, with a phase that has a meaning.
        1 => Picture {
            phase: random.below(3) as u8,
            ..any
        },
        // One number of an open picture is any.
        2 => Picture {
            system: any.system,
            ..any_open(random)
        },
        3 => Picture {
            rows: any.rows,
            ..any_open(random)
        },
        4 => at_row(any_open(random), any.rows),
        5 => Picture {
            bytes: any.bytes,
            ..any_open(random)
        },
        6 => with_edge_bytes(any_open(random), random),
        _ => any_open(random),
    }
}

fn with_edge_bytes(picture: Picture, random: &mut Pseudorandom) -> Picture {
    Picture {
        bytes: random.pick(&edge_bytes(picture.width, picture.rows)),
        ..picture
    }
}

/// A picture with the upper half of its second register filled.
fn wide(picture: Picture, random: &mut Pseudorandom) -> WidePicture {
    WidePicture(picture, random.bits() as u32)
}

// ---- total_bytes

fn total(tally: &mut Tally, width: u32, height: u32, random: &mut Pseudorandom) {
    let upper = random.bits() << 32;
    let got = unsafe { library::ferghulta_total_bytes(width, height) };
    let again = unsafe { filled::ferghulta_total_bytes(upper | u64::from(width), upper | u64::from(height)) };
    let wanted = TotalAnswer::from(exact::total_bytes(width, height));
    tally.count(wanted.refusal, got == wanted && again == wanted, || {
        format!("width {width} height {height}: {got:?}, with registers filled {again:?}, wanted {wanted:?}")
    });
}

/// Every width with heights at the ends and any, every height with such widths, and any sizes.
pub fn total_bytes(effort: &Effort, random: &mut Pseudorandom) -> bool {
    let mut tally = Tally::new("total_bytes");
    for one in (0..=7700).step_by(effort.stride) {
        for other in SIZES.into_iter().chain([any_size(random), any_size(random)]) {
            total(&mut tally, one, other, random);
            total(&mut tally, other, one, random);
        }
    }
    for _ in 0..5 * effort.cases {
        total(&mut tally, any_size(random), any_size(random), random);
    }
    tally.end()
}

// ---- new, open, close

pub fn new(effort: &Effort) -> bool {
    let mut tally = Tally::new("new");
    for _ in 0..1 + effort.cases / 100 {
        let got = unsafe { library::ferghulta_new() };
        tally.count(0, got == Picture::unopened(0, 0), || format!("{got:?}"));
    }
    tally.end()
}

fn open_one(tally: &mut Tally, picture: Picture, arguments: [u32; 3], random: &mut Pseudorandom) {
    let [system, width, height] = arguments;
    let got = unsafe { library::ferghulta_open(picture, system, width, height) };
    let outcome = exact::open(picture.taken(), system, width, height);
    let wanted = PictureAnswer::of(picture, outcome);
    let agree = got == wanted && got == open_filled(picture, arguments, random);
    tally.count(wanted.refusal, agree, || {
        format!(
            "{picture:?} system {system} width {width} height {height}: {got:?}, wanted {wanted:?}"
        )
    });
}

/// The same call with the upper halves of the registers filled.
fn open_filled(picture: Picture, arguments: [u32; 3], random: &mut Pseudorandom) -> PictureAnswer {
    let upper = random.bits() << 32;
    let [system, width, height] = arguments.map(|argument| upper | u64::from(argument));
    unsafe { filled::ferghulta_open(wide(picture, random), system, width, height) }
}

fn any_size(random: &mut Pseudorandom) -> u32 {
    match random.below(4) {
        0 => random.bits() as u32,
        1 => random.pick(&SIZES),
        _ => random.below(8000) as u32,
    }
}

pub fn open(effort: &Effort, random: &mut Pseudorandom) -> bool {
    let mut tally = Tally::new("open");
    for picture in edge_pictures() {
        for place in (0..16 * 14 * 14).step_by(11 * effort.stride) {
            let system = SYSTEM_NUMBERS[place / 14 / 14];
            let arguments = [system, SIZES[place / 14 % 14], SIZES[place % 14]];
            open_one(&mut tally, picture, arguments, random);
        }
    }
    for _ in 0..5 * effort.cases {
        let arguments = [any_system(random), any_size(random), any_size(random)];
        open_one(&mut tally, any_picture(random), arguments, random);
        let bytes = random.bits() as u32;
        open_one(&mut tally, Picture::unopened(2, bytes), arguments, random);
    }
    tally.end()
}

fn close_one(tally: &mut Tally, picture: Picture, random: &mut Pseudorandom) {
    let got = unsafe { library::ferghulta_close(picture) };
    let again = unsafe { filled::ferghulta_close(wide(picture, random)) };
    let wanted = PictureAnswer::of(picture, exact::close(picture.taken()));
    tally.count(wanted.refusal, got == wanted && again == wanted, || {
        format!("{picture:?}: {got:?}, with a register filled {again:?}, wanted {wanted:?}")
    });
}

pub fn close(effort: &Effort, random: &mut Pseudorandom) -> bool {
    let mut tally = Tally::new("close");
    for picture in edge_pictures() {
        close_one(&mut tally, picture, random);
    }
    for _ in 0..10 * effort.cases {
        close_one(&mut tally, any_picture(random), random);
    }
    tally.end()
}

// ---- row

/// Lights of a row: any, dark, at the ends, or near them, whose codes may come back beyond nominal.
pub fn any_lights(count: usize, random: &mut Pseudorandom) -> Vec<u16> {
    let kind = random.below(5);
    let mut light = || match kind {
        0 => random.pick(&[0, 1, 1179, 1180, 1186, 1187, 65534, 65535]),
        1 => random.below(2000) as u16,
        2 => random.pick(&[0, u16::MAX]) ^ random.below(600) as u16,
        _ => random.bits() as u16,
    };
    (0..count).map(|_| light()).collect()
}

/// A row of any lights.
fn row_one(
    tally: &mut Tally,
    picture: Picture,
    count: usize,
    room: usize,
    random: &mut Pseudorandom,
) {
    let lights = any_lights(count, random);
    row_of(tally, picture, &lights, room, random);
}

/// The call has the register filled; lists of calls make it as it is declared.
fn row_of(
    tally: &mut Tally,
    picture: Picture,
    lights: &[u16],
    room: usize,
    random: &mut Pseudorandom,
) {
    let count = lights.len();
    let lights = Lent::holding(lights, random);
    let out = Lent::<u8>::blank(room, random);
    let wide = wide(picture, random);
    let got = unsafe { filled::ferghulta_row(wide, lights.pointer(), count, out.pointer(), room) };
    let (wanted, block) = row_wanted(picture, lights.part(), room);
    let agree = got == wanted && out.holds(&block) && lights.holds(&[]);
    tally.count(wanted.refusal, agree, || {
        format!(
            "{picture:?} room {room} {count} lights {:?}: {got:?}, wanted {wanted:?}; buffer as wanted: {}; lights as lent: {}",
            start(lights.part()),
            out.holds(&block),
            lights.holds(&[])
        )
    });
}

/// The first items, enough to tell a difference by.
pub fn start(items: &[u16]) -> &[u16] {
    &items[..items.len().min(30)]
}

/// The answer, and the bytes at the front of the buffer.
fn row_wanted(picture: Picture, lights: &[u16], room: usize) -> (PictureAnswer, Vec<u8>) {
    match exact::row(picture.taken(), lights, room) {
        Ok((state, block)) => (PictureAnswer::of(picture, Ok(state)), block),
        Err(refusal) => (PictureAnswer::of(picture, Err(refusal)), vec![]),
    }
}

/// Counts of lights and room for a width, half of them right.
fn any_counts(width: u16, random: &mut Pseudorandom) -> (usize, usize) {
    let width = usize::from(width).min(MOST_SAMPLES + 1);
    let (lights, room) = (3 * width, exact::block_bytes(width));
    if random.once_in(2) {
        return (lights, room);
    }
    let any = random.below(60);
    let fewer = lights.max(1) - 1;
    let lights = random.pick(&[lights, lights, lights + 1, lights + 3, fewer, 0, width, any]);
    let room = random.pick(&[room, room + 1, room + 9, room - 1, room - 6, 0, any]);
    (lights, room)
}

pub fn row(effort: &Effort, random: &mut Pseudorandom) -> bool {
    let mut tally = Tally::new("row");
    for picture in edge_pictures().into_iter().step_by(effort.stride) {
        // One that is not open is refused whatever the row is.
        let is_open = matches!(picture.taken(), exact::Picture::Open(_));
        for _ in 0..if is_open { 16 } else { 1 } {
            let (count, room) = any_counts(picture.width, random);
            row_one(&mut tally, picture, count, room, random);
        }
    }
    for system in 1..=4 {
        let opened = exact::open(exact::Picture::Fresh, system, 7680, 4320).unwrap();
        for (count, room) in [
            (23040, 46089),
            (23040, 46088),
            (23040, 46090),
            (23039, 46088),
        ] {
            row_one(&mut tally, opened.into(), count, room, random);
        }
    }
    for _ in 0..5 * effort.cases {
        let picture = any_picture(random);
        // A wide one mostly with few lights: it costs the time of a thousand.
        let narrow = random.within(0, 8);
        let few = picture.width > 8 && !random.once_in(500);
        let width = if few { narrow } else { picture.width };
        let (count, room) = any_counts(width, random);
        row_one(&mut tally, picture, count, room, random);
    }
    tally.end()
}

/// Rows that hold every light, as a grey and as each component alone.
pub fn rows_of_every_light(effort: &Effort, random: &mut Pseudorandom) -> bool {
    let mut tally = Tally::new("rows_of_every_light");
    let lights: Vec<u16> = (0..=u16::MAX).collect();
    for system in 1..=4 {
        for kept in [[1, 1, 1], [1, 0, 0], [0, 1, 0], [0, 0, 1]] {
            for part in lights.chunks(MOST_SAMPLES).step_by(effort.stride) {
                let opened = exact::open(exact::Picture::Fresh, system, part.len() as u32, 1);
                let samples: Vec<u16> = part.iter().flat_map(|k| kept.map(|of| of * k)).collect();
                let room = exact::block_bytes(part.len());
                row_of(&mut tally, opened.unwrap().into(), &samples, room, random);
            }
        }
    }
    tally.end()
}
