//! The cost of steps and of dates, in one run. From the repository: rt lib in crates/examination_c, then cargo run --release
//! here with RATTLE_LIB set to the kit's folder c.
mod book;
mod closing;
mod sweep;

use book::{Book, SILENT, SMALL, WIDE, Width};
use std::hint::black_box;
use sweep::Path;

const ROWS: u16 = 4096;
const TURNS: usize = 7;
const OPEN: u32 = 1;
const RUNS: u32 = 2;

mod c {
    unsafe extern "C" {
        /// The processor time of this program, in microseconds.
        pub safe fn clock() -> std::ffi::c_long;
        pub fn examination_walk_scanned(bytes: *const u8, length: usize, rows: u16, budget: u16) -> u32;
        pub fn examination_walk_remainder(bytes: *const u8, length: usize, rows: u16, budget: u16) -> u32;
        pub fn examination_dates(
            bytes: *const u8,
            length: usize,
            rows: u16,
            budget: u16,
            times: u16,
            space: *mut u32,
            places: usize,
        ) -> usize;
    }
}

/// The number of the state, then 16 bits for the steps.
fn scanned(bytes: &[u8], budget: u16) -> u32 {
    // SAFETY: the slice is lent for the call, with its own length.
    unsafe { c::examination_walk_scanned(bytes.as_ptr(), bytes.len(), ROWS, budget) }
}

fn remainder(bytes: &[u8], budget: u16) -> u32 {
    // SAFETY: the slice is lent for the call, with its own length.
    unsafe { c::examination_walk_remainder(bytes.as_ptr(), bytes.len(), ROWS, budget) }
}

fn dates(bytes: &[u8], times: u16, space: &mut [u32]) -> usize {
    let (places, space) = (space.len(), space.as_mut_ptr());
    // SAFETY: both slices are lent for the call, with their own lengths.
    unsafe { c::examination_dates(bytes.as_ptr(), bytes.len(), ROWS, u16::MAX, times, space, places) }
}

/// The least processor seconds of some turns for each of the works. They take turns, so that all meet the same
/// disturbances.
fn least<const N: usize>(mut works: [&mut dyn FnMut(); N]) -> [f64; N] {
    let mut least = [f64::MAX; N];
    for _ in 0..TURNS {
        for (work, least) in works.iter_mut().zip(&mut least) {
            let start = c::clock();
            work();
            let end = c::clock();
            *least = least.min((end - start) as f64 / 1e6);
        }
    }
    least
}

/// Where the blocks of steps end. All are into new rows, and the first row is the first chart's.
const ENDS: [u16; 4] = [0, 256, 1024, 4095];

/// Seconds a step in each block, and over all.
fn steps(bytes: &[u8], walk: fn(&[u8], u16) -> u32) -> ([f64; 3], f64) {
    let run = |budget: u16| assert_eq!(black_box(walk(bytes, budget)), OPEN * 65_536 + u32::from(budget));
    let times = least([&mut || run(ENDS[0]), &mut || run(ENDS[1]), &mut || run(ENDS[2]), &mut || run(ENDS[3])]);
    let block = |n: usize| (times[n + 1] - times[n]) / f64::from(ENDS[n + 1] - ENDS[n]);
    ([block(0), block(1), block(2)], (times[3] - times[0]) / f64::from(ENDS[3]))
}

fn print_steps(width: Width) {
    let bytes = width.countdown(10_000, false).bytes();
    let sample = closing::sample(width.places());
    let rounds = 200;
    let [closed] = least([&mut || {
        for _ in 0..rounds {
            let mut table = sample.clone();
            assert!(closing::close(black_box(&mut table), width.places()));
            black_box(&table);
        }
    }]);
    let closed = closed / f64::from(rounds);
    let (_, all) = steps(&bytes, remainder);
    for (name, walk) in [("remainder", remainder as fn(&[u8], u16) -> u32), ("scanned", scanned)] {
        let (blocks, mean) = steps(&bytes, walk);
        println!(
            "{:22} {name:9} {:6} {:9.0} {:8.2} {:8.2} {:8.2} {:9.2}",
            width.name,
            width.places(),
            1.0 / mean,
            blocks[1] / blocks[0],
            blocks[2] / blocks[0],
            mean / all,
            mean / closed,
        );
    }
}

/// The dates of a path of as many charts as there are rows, beside one plain sweep over its bounds.
fn print_dates(width: Width, name: &str, book: &Book) {
    let times = if width.messages == 1 { 100 } else { 4 };
    let bytes = book.bytes();
    let told = remainder(&bytes, u16::MAX);
    assert_eq!(told / 65_536, RUNS);
    let path = Path::through(book, usize::from(ROWS));
    let mut proved = vec![0; path.dates];
    assert_eq!(dates(&bytes, 1, &mut proved), path.dates);

    // They are a dating; that it is the earliest is proved.
    assert!(!path.forward(&mut proved));

    let mut space = vec![0; path.dates];
    let mut other = vec![0; path.dates];
    let [walk, dated, sweep] = least([
        &mut || assert_eq!(dates(&bytes, 0, &mut []), 0),
        &mut || assert_eq!(dates(&bytes, times, &mut space), path.dates),
        &mut || {
            other.fill(0);
            black_box(path.forward(black_box(&mut other)));
        },
    ]);
    let once = (dated - walk) / f64::from(times);
    println!("{:22} {name:28} {:8} {:8.2} {:8.2} {:8.2}", width.name, path.dates, once * 1e3, once / sweep, once / walk,);
}

fn main() {
    let cores = std::thread::available_parallelism().map_or(0, usize::from);
    println!("{cores} cores; processor time, the least of {TURNS} turns");
    println!();
    println!("steps, each to a new row; blocks against steps 1-256 of the same walk");
    println!("charts                 register  places   steps/s 257-1024   -4095  ÷remainder ÷closing");
    for width in [SMALL, WIDE, SILENT] {
        print_steps(width);
    }
    println!();
    println!("dates of a path of {ROWS} charts");
    println!("charts                 book                            dates       ms   ÷sweep    ÷walk");
    let distance = ROWS - 2;
    for width in [SMALL, WIDE, SILENT] {
        print_dates(width, "countdown", &width.countdown(distance, true));
        let mut late = width.late(distance);
        print_dates(width, "late", &late);
        for chart in &mut late.charts {
            chart.constraints.reverse();
        }
        print_dates(width, "late, constraints last first", &late);
    }
}
