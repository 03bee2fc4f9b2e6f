//! What the generated books are like, and how fast the checker goes through them: `cargo run --release --example survey -- SEED COUNT`.

use std::collections::BTreeMap;
use std::time::Instant;

use checker::generate::{Random, any_book};
use checker::text::{CHECK_ROWS, check};
use checker::{Examination, Register, State, read_book};

fn main() {
    let mut numbers = std::env::args().skip(1).filter_map(|text| text.parse().ok());
    let seed = numbers.next().unwrap_or(1);
    let count = numbers.next().unwrap_or(10_000);
    let mut random = Random::new(seed);
    let books: Vec<Vec<u8>> = (0..count).map(|_| any_book(&mut random)).collect();

    let clock = Instant::now();
    let taken = books.iter().filter(|book| read_book(book).is_ok()).count();
    let reading = clock.elapsed().as_secs_f64();

    let clock = Instant::now();
    let mut slowest = 0.0_f64;
    let mut answers: BTreeMap<String, usize> = BTreeMap::new();
    for book in &books {
        let clock = Instant::now();
        let answer = check(book);
        slowest = slowest.max(clock.elapsed().as_secs_f64());
        *answers.entry(summary(book, &answer)).or_default() += 1;
    }
    let checking = clock.elapsed().as_secs_f64();

    for (answer, times) in answers {
        println!("{times:8} {answer}");
    }
    let rate = |seconds: f64| count as f64 / seconds;
    println!(
        "{count} books, {taken} taken; read {:.0} a second, check {:.0} a second, slowest check {slowest:.3} s",
        rate(reading),
        rate(checking)
    );
}

/// The state, with the number of charts and whether begin knew it, or number and layer of a refusal.
fn summary(book: &[u8], answer: &str) -> String {
    let first = answer.lines().next().unwrap_or_default();
    let mut register = Register::new(CHECK_ROWS).expect("there are registers of this capacity");
    let at_begin = match Examination::new().begin(&mut register, book) {
        Ok(State::Open) => "",
        _ => " at begin",
    };
    match first.split(' ').collect::<Vec<_>>()[..] {
        ["refused", number, layer, _] => format!("refused {number:>2} {layer}"),
        ["runs", charts] => format!("runs {charts:>3}{at_begin}"),
        _ => format!("{first}{at_begin}"),
    }
}
