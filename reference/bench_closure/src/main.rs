//! Closing 54 places at ticks: the proved code beside plain Rust, in one run.
//!
//! - `same`: the baseline, the proved text as Rust has it: the same numbers, tests and loops, with Rust's bounds checks.
//! - `rows`: the same with the rows of a round in their own order, as textbooks have it.
//! - `enum`: `same` over an enum of value or none, in place of a number that stands for none.
use std::hint::black_box;
use std::time::Instant;

const PLACES: usize = 54;
const ROUNDS: usize = 400;
const TURNS: usize = 15;

#[repr(C)]
#[derive(Clone, Copy, PartialEq)]
struct Ticks {
    count: i32,
}

const NONE: i32 = i32::MAX;

unsafe extern "C" {
    fn closure_close_ticks(table: *mut Ticks, length: usize, places: usize) -> u8;
}

fn proved(table: &mut [Ticks], places: usize) -> bool {
    // SAFETY: the slice is lent for the call, with its own length.
    unsafe { closure_close_ticks(table.as_mut_ptr(), table.len(), places) == 0 }
}

trait Weight: Copy {
    const UNIT: Self;
    fn is_given(self) -> bool;
    fn follow(self, next: Self) -> Self;
    fn is_better(self, other: Self) -> bool;
}

impl Weight for Ticks {
    const UNIT: Ticks = Ticks { count: 0 };

    fn is_given(self) -> bool {
        self.count == NONE || -10_000 <= self.count && self.count <= 10_000
    }

    fn follow(self, next: Ticks) -> Ticks {
        if self.count == NONE || next.count == NONE {
            Ticks { count: NONE }
        } else {
            Ticks { count: self.count + next.count }
        }
    }

    fn is_better(self, other: Ticks) -> bool {
        self.count < other.count
    }
}

impl Weight for Option<i32> {
    const UNIT: Option<i32> = Some(0);

    fn is_given(self) -> bool {
        self.is_none_or(|count| -10_000 <= count && count <= 10_000)
    }

    fn follow(self, next: Option<i32>) -> Option<i32> {
        match (self, next) {
            (Some(a), Some(b)) => Some(a + b),
            _ => None,
        }
    }

    fn is_better(self, other: Option<i32>) -> bool {
        match (self, other) {
            (Some(a), Some(b)) => a < b,
            (Some(_), None) => true,
            _ => false,
        }
    }
}

fn plain<W: Weight, const IN_ORDER: bool>(table: &mut [W], places: usize) -> bool {
    if places > 54 || table.len() != places * places || table.iter().any(|w| !w.is_given()) {
        return false;
    }
    if (0..places).any(|p| table[p * places + p].is_better(W::UNIT)) {
        return false;
    }
    for k in 0..places {
        for s in usize::from(!IN_ORDER)..places {
            let i = if IN_ORDER {
                s
            } else if k + s < places {
                k + s
            } else {
                k + s - places
            };
            let head = table[i * places + k];
            for j in 0..places {
                let via = head.follow(table[k * places + j]);
                let old = table[i * places + j];
                table[i * places + j] = if via.is_better(old) { via } else { old };
            }
            if table[i * places + i].is_better(W::UNIT) {
                return false;
            }
        }
    }
    true
}

/// A table without a bad cycle: a part of the links, and each at least the difference of two dates.
fn sample(share: u32) -> Vec<Option<i32>> {
    let mut state = 12_345u32;
    let mut random = || {
        state = state.wrapping_mul(1_664_525).wrapping_add(1_013_904_223);
        state >> 8
    };
    let dates: Vec<i32> = (0..PLACES).map(|_| (random() % 3_000) as i32).collect();
    let mut table = Vec::new();
    for i in 0..PLACES {
        for j in 0..PLACES {
            let slack = (random() % 4_000) as i32;
            let linked = i == j || random() % 100 < share;
            table.push(linked.then(|| if i == j { 0 } else { dates[j] - dates[i] + slack }));
        }
    }
    table
}

/// The mean time of one closing, in microseconds.
fn turn<W: Copy>(given: &[W], close: fn(&mut [W], usize) -> bool) -> f64 {
    let start = Instant::now();
    for _ in 0..ROUNDS {
        let mut table = given.to_vec();
        assert!(close(black_box(&mut table), PLACES));
        black_box(&table);
    }
    start.elapsed().as_secs_f64() * 1e6 / ROUNDS as f64
}

fn main() {
    println!("links   proved     same     rows     enum   proved/same");
    for share in [15, 60, 100] {
        let values = sample(share);
        let ticks: Vec<Ticks> = values.iter().map(|v| Ticks { count: v.unwrap_or(NONE) }).collect();
        let (mut one, mut other) = (ticks.clone(), ticks.clone());
        assert!(proved(&mut one, PLACES) && plain::<_, true>(&mut other, PLACES) && one == other);
        // Each in turn, so that all meet the same disturbances; the least time of each counts.
        let mut least = [f64::MAX; 4];
        for _ in 0..TURNS {
            let times = [
                turn(&ticks, proved),
                turn(&ticks, plain::<_, false>),
                turn(&ticks, plain::<_, true>),
                turn(&values, plain::<_, false>),
            ];
            for (least, time) in least.iter_mut().zip(times) {
                *least = least.min(time);
            }
        }
        let [proved, same, rows, values] = least;
        println!("{share:4}% {proved:8.1} {same:8.1} {rows:8.1} {values:8.1} {:13.2}", proved / same);
    }
    println!("microseconds a closing of {PLACES} places, the least of {TURNS} turns of {ROUNDS}");
}
