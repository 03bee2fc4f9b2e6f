// Times entering unlike rows into both registers, in one run: nanoseconds per row, and the ratio. To run it from the
// repository: rt lib in crates/register_c, then cargo run --release here with RATTLE_LIB set to the kit's folder c.
use std::time::Instant;

unsafe extern "C" {
    safe fn register_enter_scanned(rows: u16) -> u16;
    safe fn register_enter_remainder(rows: u16) -> u16;
}

// The least of some runs, per row.
fn nanoseconds(enter: extern "C" fn(u16) -> u16, rows: u16) -> f64 {
    (0..20)
        .map(|_| {
            let start = Instant::now();
            assert_eq!(enter(rows), rows);
            start.elapsed().as_nanos() as f64 / f64::from(rows)
        })
        .fold(f64::INFINITY, f64::min)
}

fn main() {
    println!("rows  scanned ns/row  remainder ns/row  ratio");
    for rows in [256, 512, 1024, 2048, 4096] {
        let scanned = nanoseconds(register_enter_scanned, rows);
        let remainder = nanoseconds(register_enter_remainder, rows);
        println!("{rows:4}  {scanned:14.1}  {remainder:16.1}  {:5.1}", scanned / remainder);
    }
}
