//! The example books, good and damaged.

mod common;

use checker::text::check;
use checker::{Fault, read_book};
use common::book;

/// Each damaged book with its only fault.
const DAMAGED: [(&str, Fault); 16] = [
    ("bad-01-cut", Fault::RecordCut { place: 114 }),
    ("bad-02-mark", Fault::WrongMark),
    ("bad-02-version", Fault::WrongVersion),
    ("bad-03-stations", Fault::FieldOutOfRange { place: 5 }),
    ("bad-03-near-above-far", Fault::FieldOutOfRange { place: 11 }),
    ("bad-03-events-odd", Fault::FieldOutOfRange { place: 13 }),
    ("bad-04-trailing", Fault::TrailingBytes { place: 148 }),
    ("bad-05-station", Fault::BadEvent { place: 19 }),
    ("bad-05-kind", Fault::BadEvent { place: 34 }),
    ("bad-05-pairing", Fault::BadEvent { place: 31 }),
    ("bad-06-not-before", Fault::NotDirectlyBefore { place: 22 }),
    ("bad-07-constraint-interval", Fault::BadConstraintInterval { place: 22 }),
    ("bad-07-link-interval", Fault::BadLinkInterval { place: 46 }),
    ("bad-08-cyclic", Fault::CyclicOrder { place: 13 }),
    ("bad-09-no-chart", Fault::NoSuchChart { place: 114 }),
    ("bad-10-not-due", Fault::IntervalNotDue { place: 46 }),
];

#[test]
fn damaged_books_are_refused() {
    for (name, fault) in DAMAGED {
        assert_eq!(read_book(&book(name)), Err(fault), "{name}");
        assert_eq!(check(&book(name)), format!("{fault}\n"), "{name}");
    }
}

#[test]
fn good_books_are_taken() {
    for name in
        ["countdown", "countdown-near-2", "countdown-late", "countdown-100", "circle", "one-message", "one-message-near-0"]
    {
        assert!(read_book(&book(name)).is_ok(), "{name}");
    }
}

// The lines of a list that stands beside the books: it names every one of them, with an answer as text.
fn answers(list: &str) -> Vec<(String, Vec<u8>, String)> {
    let folder = format!("{}/../../books", env!("CARGO_MANIFEST_DIR"));
    let text = std::fs::read_to_string(format!("{folder}/{list}")).unwrap();
    let files = std::fs::read_dir(&folder).unwrap().map(|entry| entry.unwrap().file_name().into_string().unwrap());
    assert_eq!(files.filter(|file| file.ends_with(".book")).count(), text.lines().count());
    text.lines()
        .map(|line| {
            let (file, expected) = line.split_once(' ').unwrap();
            (file.to_string(), std::fs::read(format!("{folder}/{file}")).unwrap(), expected.to_string())
        })
        .collect()
}

#[test]
fn every_book_has_the_answer_of_the_list() {
    for (file, bytes, expected) in answers("answers") {
        let answer = read_book(&bytes).map_or_else(|fault| fault.to_string(), |_| "taken".to_string());
        assert_eq!(answer, expected, "{file}");
    }
}

/// The first line of the report, or the notice.
#[test]
fn every_book_has_the_verdict_of_the_list() {
    for (file, bytes, expected) in answers("verdicts") {
        assert_eq!(check(&bytes).lines().next(), Some(expected.as_str()), "{file}");
    }
}
