//! The register, as its meaning says: a list of rows and a capacity.

use crate::chart::MOST_STATIONS;

pub const MOST_ROWS: usize = 4_096;

/// Entry p, q: the largest difference of p's last date minus q's. Entries of unused stations are 0.
pub type Profile = [[i64; MOST_STATIONS]; MOST_STATIONS];

/// The row that a path without its last link belongs to, and that link.
#[derive(Debug, Clone, Copy, PartialEq, Eq)]
pub struct Origin {
    pub row: usize,
    pub link: usize,
}

#[derive(Debug, Clone, PartialEq, Eq)]
pub struct Row {
    pub chart: usize,
    pub profile: Profile,
    pub origin: Option<Origin>,
}

#[derive(Debug, Clone, Copy, PartialEq, Eq)]
pub enum Entered {
    Known(usize),
    New(usize),
    Full,
}

#[derive(Debug, Clone, PartialEq, Eq)]
pub struct Register {
    rows: Vec<Row>,
    capacity: usize,
}

impl Register {
    /// A register without rows, or none for a capacity that no register has.
    pub fn new(capacity: usize) -> Option<Register> {
        (capacity <= MOST_ROWS).then(|| Register { rows: Vec::new(), capacity })
    }

    /// Rows are known by chart and profile; where they came from does not count. Known is answered ahead of full.
    pub fn enter(&mut self, row: Row) -> Entered {
        let held = self.rows.iter().position(|held| held.chart == row.chart && held.profile == row.profile);
        match held {
            Some(place) => Entered::Known(place),
            None if self.rows.len() == self.capacity => Entered::Full,
            None => {
                self.rows.push(row);
                Entered::New(self.rows.len() - 1)
            }
        }
    }

    pub fn read(&self, place: usize) -> Option<&Row> {
        self.rows.get(place)
    }

    pub fn rows(&self) -> &[Row] {
        &self.rows
    }

    pub fn count(&self) -> usize {
        self.rows.len()
    }

    pub fn capacity(&self) -> usize {
        self.capacity
    }

    pub fn clear(&mut self) {
        self.rows.clear();
    }

    /// The links of the path that the row at this place stands for.
    pub fn links_to(&self, place: usize) -> Vec<usize> {
        let origins = std::iter::successors(self.rows[place].origin, |origin| self.rows[origin.row].origin);
        let mut links: Vec<usize> = origins.map(|origin| origin.link).collect();
        links.reverse();
        links
    }
}
