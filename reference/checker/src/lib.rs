//! An independent checker of chart books, written from the documentation alone.
//!
//! Every question is answered about the whole path: all bounds of all its charts and links are relaxed together. No profile
//! is ever continued, so a mistake in doing that shows as a difference.

pub mod bounds;
pub mod chart;
pub mod dating;
pub mod fault;
pub mod generate;
pub mod judge;
pub mod reader;
pub mod register;
pub mod text;
pub mod walk;

pub use chart::Book;
pub use fault::Fault;
pub use judge::{Judgement, judge};
pub use reader::read_book;
pub use register::Register;
pub use walk::{Examination, State};
