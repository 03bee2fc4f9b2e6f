//! What several tests use.
#![allow(dead_code)]

use checker::{Examination, Register, State};

/// The bytes of an example book.
pub fn book(name: &str) -> Vec<u8> {
    let path = format!("{}/../../books/{name}.book", env!("CARGO_MANIFEST_DIR"));
    std::fs::read(&path).unwrap_or_else(|error| panic!("{path}: {error}"))
}

/// A book with some of its bytes altered.
pub fn altered(name: &str, changes: &[(usize, u8)]) -> Vec<u8> {
    let mut bytes = book(name);
    for &(place, byte) in changes {
        bytes[place] = byte;
    }
    bytes
}

/// An examination that has begun this book, with its register.
pub fn begun(bytes: &[u8], rows: usize) -> (Examination, Register, State) {
    let mut register = Register::new(rows).expect("a capacity that a register may have");
    let mut examination = Examination::new();
    let state = examination.begin(&mut register, bytes).expect("a good book");
    (examination, register, state)
}

/// The same, advanced as far as it goes.
pub fn finished(bytes: &[u8], rows: usize) -> (Examination, Register) {
    let (mut examination, mut register, _) = begun(bytes, rows);
    while examination.step(&mut register).is_some() {}
    (examination, register)
}
