//! Books whose loop gives a new profile at each turn, and their bytes.

pub const STATIONS: usize = 8;

#[derive(Clone, Copy)]
pub struct Interval {
    pub lower: u16,
    pub upper: Option<u16>,
}

/// Any difference from 0 on.
const FREE: Interval = Interval { lower: 0, upper: None };

fn exactly(ticks: u16) -> Interval {
    Interval { lower: ticks, upper: Some(ticks) }
}

#[derive(Clone, Copy, PartialEq)]
pub struct Event {
    pub station: usize,
    pub is_send: bool,
    pub pair: usize,
}

pub struct Constraint {
    pub first: usize,
    pub second: usize,
    pub interval: Interval,
}

pub struct Chart {
    pub events: Vec<Event>,
    pub constraints: Vec<Constraint>,
    pub is_final: bool,
}

pub struct Link {
    pub from: usize,
    pub to: usize,
    pub intervals: [Interval; STATIONS],
}

pub struct Book {
    pub stations: usize,
    pub charts: Vec<Chart>,
    pub links: Vec<Link>,
    pub near: u16,
    pub far: u16,
}

/// How many stations a book has, how many of them send in pairs, and how many messages a chart has.
#[derive(Clone, Copy)]
pub struct Width {
    pub name: &'static str,
    pub stations: usize,
    pub pairs: usize,
    pub messages: usize,
}

pub const SMALL: Width = Width { name: "2 stations, 2 events", stations: 2, pairs: 1, messages: 1 };
pub const WIDE: Width = Width { name: "8 stations, 40 events", stations: 8, pairs: 4, messages: 20 };
/// Six stations are silent, so that a step has the most places there can be.
pub const SILENT: Width = Width { name: "the same, 6 silent", stations: 8, pairs: 1, messages: 20 };

impl Width {
    /// The places of a step's table: the stations, and the events of the full chart that is entered.
    pub fn places(self) -> usize {
        2 * self.stations + 2 * self.messages - 2 * self.pairs
    }

    /// The first stations send to as many that follow. All events of a station have one date, and where `after` is
    /// given, each message takes so long.
    fn chart(self, is_back: bool, after: Option<Interval>) -> Chart {
        let mut events = Vec::new();
        let mut constraints = Vec::new();
        for message in 0..self.messages {
            let early = message % self.pairs;
            let late = self.pairs + (message + message / self.pairs) % self.pairs;
            let (from, to) = if is_back { (late, early) } else { (early, late) };
            let send = events.len();
            events.push(Event { station: from, is_send: true, pair: send + 1 });
            events.push(Event { station: to, is_send: false, pair: send });
            constraints.extend(after.map(|interval| Constraint { first: send, second: send + 1, interval }));
        }
        for (second, event) in events.iter().enumerate() {
            let first = events[..second].iter().rposition(|other| other.station == event.station);
            constraints.extend(first.map(|first| Constraint { first, second, interval: exactly(0) }));
        }
        Chart { events, constraints, is_final: false }
    }

    fn link(self, from: usize, to: usize, early: Interval, late: Interval) -> Link {
        let mut intervals = [FREE; STATIONS];
        intervals[..self.pairs].fill(early);
        intervals[self.pairs..2 * self.pairs].fill(late);
        Link { from, to, intervals }
    }

    /// The late stations begin `distance` ticks ahead, and each turn takes one off. The way out opens at 0, if there is one.
    pub fn countdown(self, distance: u16, has_exit: bool) -> Book {
        let mut last = self.chart(true, None);
        last.is_final = true;
        let mut links = vec![self.link(0, 1, exactly(2), exactly(1)), self.link(1, 1, exactly(2), exactly(1))];
        if has_exit {
            links.push(self.link(1, 2, exactly(0), exactly(0)));
        }
        let charts = vec![self.chart(false, Some(exactly(distance))), self.chart(false, None), last];
        Book { stations: self.stations, charts, links, near: distance, far: distance }
    }

    /// Each turn lets the late stations get a tick further ahead; the last chart alone asks for all of them, so that it
    /// moves the dates of the whole path.
    pub fn late(self, distance: u16) -> Book {
        let mut last = self.chart(false, Some(exactly(distance)));
        last.is_final = true;
        let late = Interval { lower: 1, upper: Some(2) };
        let links =
            vec![self.link(0, 1, exactly(1), late), self.link(1, 1, exactly(1), late), self.link(1, 2, exactly(0), exactly(0))];
        let charts = vec![self.chart(false, Some(exactly(0))), self.chart(false, None), last];
        Book { stations: self.stations, charts, links, near: distance, far: distance }
    }
}

impl Book {
    pub fn bytes(&self) -> Vec<u8> {
        let mut bytes = b"TCM\x00\x01".to_vec();
        bytes.extend([self.stations, self.charts.len(), 0, self.links.len()].map(|field| field as u8));
        bytes.extend(self.near.to_be_bytes());
        bytes.extend(self.far.to_be_bytes());
        for chart in &self.charts {
            bytes.extend([chart.events.len() as u8, chart.constraints.len() as u8, chart.is_final.into()]);
            for event in &chart.events {
                bytes.extend([event.station as u8, if event.is_send { b'!' } else { b'?' }, event.pair as u8]);
            }
            for constraint in &chart.constraints {
                bytes.extend([constraint.first as u8, constraint.second as u8]);
                bytes.extend(interval_bytes(constraint.interval));
            }
        }
        for link in &self.links {
            bytes.extend([link.from as u8, link.to as u8]);
            bytes.extend(link.intervals.iter().copied().flat_map(interval_bytes));
        }
        bytes
    }
}

fn interval_bytes(interval: Interval) -> [u8; 4] {
    let [a, b] = interval.lower.to_be_bytes();
    let [c, d] = interval.upper.unwrap_or(0xFFFF).to_be_bytes();
    [a, b, c, d]
}
