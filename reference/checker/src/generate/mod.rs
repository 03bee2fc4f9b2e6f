//! A generator of books: good ones and damaged ones.

mod damage;
mod good;
mod layout;
mod random;

pub use damage::{Damage, damage, damaged_book};
pub use good::good_book;
pub use layout::{Layout, encode};
pub use random::Random;

/// The bytes of a fresh book, one of four damaged.
pub fn any_book(random: &mut Random) -> Vec<u8> {
    if random.chance(1, 4) { damaged_book(random) } else { encode(&good_book(random)) }
}
