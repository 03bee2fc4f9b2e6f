//! What can be wrong with a book or a call.

use std::fmt;

/// A fault; its number, layer and place are what a notice tells.
#[derive(Debug, Clone, Copy, PartialEq, Eq, PartialOrd, Ord, Hash)]
pub enum Fault {
    RecordCut { place: usize },
    WrongMark,
    WrongVersion,
    FieldOutOfRange { place: usize },
    TrailingBytes { place: usize },
    BadEvent { place: usize },
    NotDirectlyBefore { place: usize },
    BadConstraintInterval { place: usize },
    BadLinkInterval { place: usize },
    CyclicOrder { place: usize },
    NoSuchChart { place: usize },
    IntervalNotDue { place: usize },
    NoCapacity,
    Idle,
    NotRunning,
    OffPath { charts: usize },
    TooLittleSpace { needed: usize },
    BadLinkNumber { position: usize },
    WrongDateCount { needed: usize },
}

impl Fault {
    pub fn number(self) -> u8 {
        match self {
            Fault::RecordCut { .. } => 1,
            Fault::WrongMark | Fault::WrongVersion => 2,
            Fault::FieldOutOfRange { .. } => 3,
            Fault::TrailingBytes { .. } => 4,
            Fault::BadEvent { .. } => 5,
            Fault::NotDirectlyBefore { .. } => 6,
            Fault::BadConstraintInterval { .. } | Fault::BadLinkInterval { .. } => 7,
            Fault::CyclicOrder { .. } => 8,
            Fault::NoSuchChart { .. } => 9,
            Fault::IntervalNotDue { .. } => 10,
            Fault::NoCapacity => 11,
            Fault::Idle => 12,
            Fault::NotRunning => 13,
            Fault::OffPath { .. } => 14,
            Fault::TooLittleSpace { .. } => 15,
            Fault::BadLinkNumber { .. } => 16,
            Fault::WrongDateCount { .. } => 17,
        }
    }

    /// 1 bytes, 2 chart, 3 link, 4 call. A bad interval is the one number that two layers share.
    pub fn layer(self) -> u8 {
        match (self, self.number()) {
            (Fault::BadConstraintInterval { .. }, _) => 2,
            (Fault::BadLinkInterval { .. }, _) => 3,
            (_, 1..=4) => 1,
            (_, 5 | 6 | 8) => 2,
            (_, 9 | 10) => 3,
            _ => 4,
        }
    }

    pub fn place(self) -> usize {
        match self {
            Fault::WrongMark | Fault::NoCapacity | Fault::Idle | Fault::NotRunning => 0,
            Fault::WrongVersion => 3,
            Fault::RecordCut { place }
            | Fault::FieldOutOfRange { place }
            | Fault::TrailingBytes { place }
            | Fault::BadEvent { place }
            | Fault::NotDirectlyBefore { place }
            | Fault::BadConstraintInterval { place }
            | Fault::BadLinkInterval { place }
            | Fault::CyclicOrder { place }
            | Fault::NoSuchChart { place }
            | Fault::IntervalNotDue { place } => place,
            Fault::OffPath { charts } => charts,
            Fault::TooLittleSpace { needed } | Fault::WrongDateCount { needed } => needed,
            Fault::BadLinkNumber { position } => position,
        }
    }
}

impl fmt::Display for Fault {
    fn fmt(&self, f: &mut fmt::Formatter<'_>) -> fmt::Result {
        write!(f, "refused {} {} {}", self.number(), self.layer(), self.place())
    }
}
