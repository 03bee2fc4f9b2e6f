//! What a book says: stations, charts, links and their times.

/// A link always holds intervals for this many stations.
pub const MOST_STATIONS: usize = 8;
/// The largest number of ticks that a book may name.
pub const MOST_TICKS: u16 = 10_000;

#[derive(Debug, Clone, Copy, PartialEq, Eq)]
pub enum Kind {
    Send,
    Receive,
}

#[derive(Debug, Clone, Copy, PartialEq, Eq)]
pub struct Event {
    pub station: usize,
    pub kind: Kind,
    pub pair: usize,
}

#[derive(Debug, Clone, Copy, PartialEq, Eq)]
pub struct Interval {
    pub lower: u16,
    pub upper: Option<u16>,
}

impl Interval {
    /// 0, none: what a link has for a station that is silent in either chart.
    pub const OPEN: Interval = Interval { lower: 0, upper: None };

    pub fn contains(self, difference: i64) -> bool {
        i64::from(self.lower) <= difference && self.upper.is_none_or(|upper| difference <= i64::from(upper))
    }
}

#[derive(Debug, Clone, Copy, PartialEq, Eq)]
pub struct Constraint {
    pub first: usize,
    pub second: usize,
    pub interval: Interval,
}

#[derive(Debug, Clone, PartialEq, Eq)]
pub struct Chart {
    pub events: Vec<Event>,
    pub constraints: Vec<Constraint>,
    pub is_final: bool,
}

#[derive(Debug, Clone, PartialEq, Eq)]
pub struct Link {
    pub from: usize,
    pub to: usize,
    pub intervals: [Interval; MOST_STATIONS],
}

#[derive(Debug, Clone, PartialEq, Eq)]
pub struct Book {
    pub stations: usize,
    pub charts: Vec<Chart>,
    pub first: usize,
    pub links: Vec<Link>,
    pub near: u16,
    pub far: u16,
}

impl Chart {
    pub fn is_silent(&self, station: usize) -> bool {
        self.events.iter().all(|event| event.station != station)
    }

    /// The station of each event of the full chart: working events as listed, then a silent one for each silent station.
    pub fn full_stations(&self, stations: usize) -> Vec<usize> {
        let silent = (0..stations).filter(|&station| self.is_silent(station));
        self.events.iter().map(|event| event.station).chain(silent).collect()
    }

    /// Whether event `a` is directly before event `b`: later on the same station, or the receive of the send `a`.
    pub fn is_directly_before(&self, a: usize, b: usize) -> bool {
        let (before, after) = (&self.events[a], &self.events[b]);
        (before.station == after.station && a < b) || (before.kind == Kind::Send && before.pair == b)
    }

    /// All pairs of working events of which the first is directly before the second.
    pub fn directly_before(&self) -> impl Iterator<Item = (usize, usize)> + '_ {
        let count = self.events.len();
        (0..count).flat_map(move |a| (0..count).filter(move |&b| self.is_directly_before(a, b)).map(move |b| (a, b)))
    }

    /// Whether no event comes before itself, by depth-first search: an event that is met again while its own search still
    /// goes on comes before itself.
    pub fn is_order_sound(&self) -> bool {
        let mut marks = vec![Mark::Unseen; self.events.len()];
        (0..self.events.len()).all(|event| self.search_is_sound(event, &mut marks))
    }

    fn search_is_sound(&self, event: usize, marks: &mut [Mark]) -> bool {
        match marks[event] {
            Mark::Done => return true,
            Mark::Searching => return false,
            Mark::Unseen => marks[event] = Mark::Searching,
        }
        let sound = (0..self.events.len()).all(|next| !self.is_directly_before(event, next) || self.search_is_sound(next, marks));
        marks[event] = Mark::Done;
        sound
    }
}

#[derive(Clone, Copy)]
enum Mark {
    Unseen,
    Searching,
    Done,
}

impl Book {
    /// The charts that a path visits, by position. The links are taken to be a path of this book.
    pub fn visits(&self, links: &[usize]) -> Vec<usize> {
        std::iter::once(self.first).chain(links.iter().map(|&link| self.links[link].to)).collect()
    }

    /// Whether a link's interval for this station has to be 0, none.
    pub fn is_open_due(&self, from: usize, to: usize, station: usize) -> bool {
        station >= self.stations || self.charts[from].is_silent(station) || self.charts[to].is_silent(station)
    }
}
