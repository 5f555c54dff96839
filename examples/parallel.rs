//! The rows of one picture, sent by several threads: each has its own copy, whose `rows` is the number of its next row.
//! `make example-rust` runs it; the blocks are those that are sent in turn.
use ferghulta::{Picture, Refusal, System};

const WIDTH: usize = 1920;
const HEIGHT: usize = 64;
const THREADS: usize = 4;

/// Grey that rises along the row and from row to row.
fn lights(row: usize) -> Vec<u16> {
    (0..3 * WIDTH).map(|j| ((j / 3) * 30 + row * 120) as u16).collect()
}

fn main() -> Result<(), Refusal> {
    let mut in_turn = vec![[0; 9 + 6 * WIDTH]; HEIGHT];
    let mut by_threads = in_turn.clone();

    let mut picture = Picture::new();
    picture.open(System::Bt2020Bits10, WIDTH as u32, HEIGHT as u32)?;
    let opened = picture.clone();
    for (row, block) in in_turn.iter_mut().enumerate() {
        picture.row(&lights(row), block)?;
    }
    picture.close()?;

    std::thread::scope(|scope| {
        for (part, blocks) in by_threads.chunks_mut(HEIGHT / THREADS).enumerate() {
            let first = part * HEIGHT / THREADS;
            let mut copy = opened.with_rows(first as u16);
            scope.spawn(move || {
                for (i, block) in blocks.iter_mut().enumerate() {
                    copy.row(&lights(first + i), block).expect("a row of an open picture");
                }
            });
        }
    });
    let mut joined = opened.with_rows(HEIGHT as u16);
    joined.close()?;

    assert!(in_turn == by_threads, "the blocks differ");
    assert_eq!(joined.bytes(), picture.bytes(), "the bytes differ");
    println!("{HEIGHT} rows sent by {THREADS} threads: the same blocks as in turn");
    Ok(())
}
