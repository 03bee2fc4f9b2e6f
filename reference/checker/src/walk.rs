//! The examination: begin, advance, verdict, leg and dates over a register.

use crate::bounds::{BookBounds, PathBounds};
use crate::chart::Book;
use crate::dating::{earliest_dating, profile};
use crate::fault::Fault;
use crate::reader::read_book;
use crate::register::{Entered, Origin, Profile, Register, Row};

#[derive(Debug, Clone, Copy, PartialEq, Eq, PartialOrd, Ord, Hash)]
pub enum State {
    Idle,
    Open,
    Runs,
    Empty,
    Spent,
}

impl State {
    pub fn code(self) -> u8 {
        match self {
            State::Idle => 0,
            State::Open => 1,
            State::Runs => 2,
            State::Empty => 3,
            State::Spent => 4,
        }
    }
}

/// A row and a link that begins at its chart.
#[derive(Debug, Clone, Copy, PartialEq, Eq)]
pub struct Pair {
    pub row: usize,
    pub link: usize,
}

/// What came of trying a pair: nothing, as the longer path cannot be dated, or what the register answered.
#[derive(Debug, Clone, Copy, PartialEq, Eq)]
pub enum Outcome {
    Undatable,
    Entered(Entered),
}

#[derive(Debug, Clone, Copy, PartialEq, Eq)]
pub struct Step {
    pub tried: Pair,
    pub outcome: Outcome,
}

/// The chart at a position of the path found, and the link that led to it.
#[derive(Debug, Clone, Copy, PartialEq, Eq)]
pub struct Leg {
    pub chart: usize,
    pub link: Option<usize>,
}

/// A position of the path found, with the earliest dates of its events.
#[derive(Debug, Clone, PartialEq, Eq)]
pub struct Stop {
    pub leg: Leg,
    pub dates: Vec<u32>,
}

/// An examination; idle until a book is taken. Its rows stand in a register that the caller hands to every call.
#[derive(Debug, Clone, Default)]
pub struct Examination {
    taken: Option<Taken>,
}

#[derive(Debug, Clone)]
struct Taken {
    book: Book,
    bounds: BookBounds,
    progress: Progress,
}

#[derive(Debug, Clone, Copy)]
enum Progress {
    /// The first pair that waits.
    Open(Pair),
    /// The row at which a final path was found.
    Runs(usize),
    Empty,
    Spent,
}

impl Examination {
    pub fn new() -> Examination {
        Examination::default()
    }

    pub fn state(&self) -> State {
        match self.taken.as_ref().map(|taken| taken.progress) {
            None => State::Idle,
            Some(Progress::Open(_)) => State::Open,
            Some(Progress::Runs(_)) => State::Runs,
            Some(Progress::Empty) => State::Empty,
            Some(Progress::Spent) => State::Spent,
        }
    }

    pub fn begin(&mut self, register: &mut Register, bytes: &[u8]) -> Result<State, Fault> {
        if register.capacity() == 0 {
            return Err(Fault::NoCapacity);
        }
        let book = read_book(bytes)?;
        let bounds = BookBounds::of(&book);
        register.clear();
        let mut taken = Taken { book, bounds, progress: Progress::Empty };
        taken.enter_first(register);
        self.taken = Some(taken);
        Ok(self.state())
    }

    /// Answers the steps made and the state.
    pub fn advance(&mut self, register: &mut Register, budget: u16) -> Result<(u16, State), Fault> {
        let taken = self.taken.as_mut().ok_or(Fault::Idle)?;
        let steps = (0..budget).take_while(|_| taken.step(register).is_some()).count();
        Ok((steps as u16, self.state()))
    }

    /// One step of the walk and what came of it, or none if the state is not open.
    pub fn step(&mut self, register: &mut Register) -> Option<Step> {
        self.taken.as_mut()?.step(register)
    }

    /// The state and, for runs, the number of charts on the path found.
    pub fn verdict(&self, register: &Register) -> (State, usize) {
        let charts = self.path_found(register).map_or(0, |path| path.positions());
        (self.state(), charts)
    }

    pub fn leg(&self, register: &Register, position: usize) -> Result<Leg, Fault> {
        leg_of(&self.path_found(register)?, position)
    }

    /// Writes the earliest dating to the front of the space and answers how many dates that are.
    pub fn dates(&self, register: &Register, space: &mut [u32]) -> Result<usize, Fault> {
        let stops = self.stops(register)?;
        let needed = stops.iter().map(|stop| stop.dates.len()).sum();
        let space = space.get_mut(..needed).ok_or(Fault::TooLittleSpace { needed })?;
        for (date, &earliest) in space.iter_mut().zip(stops.iter().flat_map(|stop| &stop.dates)) {
            *date = earliest;
        }
        Ok(needed)
    }

    /// The path found, position by position, with its earliest dating.
    pub fn stops(&self, register: &Register) -> Result<Vec<Stop>, Fault> {
        let path = self.path_found(register)?;
        let dating = earliest_dating(&path).expect("a path that was entered can be dated");
        let dates: Vec<u32> =
            dating.into_iter().map(|date| u32::try_from(date).expect("earliest dates are at least 0 and fit 32 bits")).collect();
        let stop = |position| Ok(Stop { leg: leg_of(&path, position)?, dates: dates[path.events_at(position)].to_vec() });
        (0..path.positions()).map(stop).collect()
    }

    fn path_found(&self, register: &Register) -> Result<PathBounds<'_>, Fault> {
        let taken = self.taken.as_ref().ok_or(Fault::Idle)?;
        match taken.progress {
            Progress::Runs(row) => Ok(taken.path(register.links_to(row))),
            _ => Err(Fault::NotRunning),
        }
    }
}

impl Taken {
    fn path(&self, links: Vec<usize>) -> PathBounds<'_> {
        self.bounds.path(self.book.visits(&links), links)
    }

    /// What begin does once the book is copied and the register cleared. The state is empty so far.
    fn enter_first(&mut self, register: &mut Register) {
        let chart = self.book.first;
        let Some(profile) = datable_profile(&self.path(Vec::new())) else {
            return;
        };
        register.enter(Row { chart, profile, origin: None });
        self.progress = if self.book.charts[chart].is_final {
            Progress::Runs(0)
        } else {
            self.progress_from(register, Pair { row: 0, link: 0 })
        };
    }

    fn step(&mut self, register: &mut Register) -> Option<Step> {
        let Progress::Open(tried) = self.progress else {
            return None;
        };
        let outcome = self.try_pair(register, tried);
        let chart = self.book.links[tried.link].to;
        self.progress = match outcome {
            Outcome::Entered(Entered::New(row)) if self.book.charts[chart].is_final => Progress::Runs(row),
            Outcome::Entered(Entered::Full) => Progress::Spent,
            _ => self.progress_from(register, Pair { link: tried.link + 1, ..tried }),
        };
        Some(Step { tried, outcome })
    }

    /// Follows the link from the row's path, and enters the longer path's row if it can be dated.
    fn try_pair(&self, register: &mut Register, pair: Pair) -> Outcome {
        let mut links = register.links_to(pair.row);
        links.push(pair.link);
        match datable_profile(&self.path(links)) {
            None => Outcome::Undatable,
            Some(profile) => {
                let origin = Some(Origin { row: pair.row, link: pair.link });
                let chart = self.book.links[pair.link].to;
                Outcome::Entered(register.enter(Row { chart, profile, origin }))
            }
        }
    }

    /// Open at the first pair that waits, or empty: every pair ahead of `next` has been tried.
    fn progress_from(&self, register: &Register, next: Pair) -> Progress {
        let pairs = (next.row..register.count()).flat_map(|row| {
            let untried = if row == next.row { next.link } else { 0 };
            (untried..self.book.links.len()).map(move |link| Pair { row, link })
        });
        let begins_at_row = |pair: &Pair| self.book.links[pair.link].from == register.rows()[pair.row].chart;
        pairs.into_iter().find(begins_at_row).map_or(Progress::Empty, Progress::Open)
    }
}

/// The profile of a path, or none if it cannot be dated. The dating is tried first, as it alone decides.
fn datable_profile(path: &PathBounds) -> Option<Profile> {
    earliest_dating(path)?;
    Some(profile(path).expect("a path with a dating has a profile"))
}

fn leg_of(path: &PathBounds, position: usize) -> Result<Leg, Fault> {
    let chart = *path.visits.get(position).ok_or(Fault::OffPath { charts: path.positions() })?;
    let link = position.checked_sub(1).map(|before| path.links[before]);
    Ok(Leg { chart, link })
}
