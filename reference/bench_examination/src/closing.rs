//! Closing a table of ticks in plain Rust, as the benchmark of closing has it.

const NONE: i32 = i32::MAX;

fn follow(a: i32, b: i32) -> i32 {
    if a == NONE || b == NONE { NONE } else { a + b }
}

/// A table without a bad cycle in which each two places are linked.
pub fn sample(places: usize) -> Vec<i32> {
    let date = |place: usize| (place * 37 % 101) as i32;
    let slack = |from: usize, to: usize| if from == to { 0 } else { ((from * 7 + to * 13) % 50) as i32 };
    (0..places * places).map(|at| date(at % places) - date(at / places) + slack(at / places, at % places)).collect()
}

/// Closes it; false at a bad cycle.
pub fn close(table: &mut [i32], places: usize) -> bool {
    for k in 0..places {
        for s in 1..places {
            let i = if k + s < places { k + s } else { k + s - places };
            let head = table[i * places + k];
            for j in 0..places {
                let via = follow(head, table[k * places + j]);
                let old = table[i * places + j];
                table[i * places + j] = if via < old { via } else { old };
            }
            if table[i * places + i] < 0 {
                return false;
            }
        }
    }
    true
}
