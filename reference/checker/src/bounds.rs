//! The rules of a dating as bounds on differences of dates, over a whole path.

use std::ops::Range;

use crate::chart::{Book, Chart, Interval};

/// The date of `to` minus the date of `from` is at most `most`.
#[derive(Debug, Clone, Copy, PartialEq, Eq)]
pub struct Bound {
    pub from: usize,
    pub to: usize,
    pub most: i64,
}

impl Bound {
    fn reversed(self) -> Bound {
        Bound { from: self.to, to: self.from, most: self.most }
    }
}

/// The way in which bounds are followed: with `from` first, or with `to` first.
#[derive(Debug, Clone, Copy, PartialEq, Eq)]
pub enum Sense {
    Along,
    Against,
}

/// What a book asks of dates, prepared chart by chart.
#[derive(Debug, Clone)]
pub struct BookBounds {
    pub stations: usize,
    pub charts: Vec<ChartBounds>,
    pub links: Vec<Vec<Interval>>,
    pub near: i64,
    pub far: i64,
}

/// What a full chart asks. The bounds of near and far hold between any two events and are not listed.
#[derive(Debug, Clone)]
pub struct ChartBounds {
    /// All events; the first `working` of them are working events.
    pub events: usize,
    pub working: usize,
    /// The first and the last event of each station.
    pub first: Vec<usize>,
    pub last: Vec<usize>,
    along: Vec<Bound>,
    against: Vec<Bound>,
}

impl BookBounds {
    pub fn of(book: &Book) -> BookBounds {
        BookBounds {
            stations: book.stations,
            charts: book.charts.iter().map(|chart| ChartBounds::of(chart, book.stations)).collect(),
            links: book.links.iter().map(|link| link.intervals[..book.stations].to_vec()).collect(),
            near: book.near.into(),
            far: book.far.into(),
        }
    }

    /// The path by these charts and links; there is one chart more than links.
    pub fn path(&self, visits: Vec<usize>, links: Vec<usize>) -> PathBounds<'_> {
        let mut starts = vec![0];
        for &chart in &visits {
            starts.push(starts[starts.len() - 1] + self.charts[chart].events);
        }
        PathBounds { book: self, visits, links, starts }
    }
}

impl ChartBounds {
    fn of(chart: &Chart, stations: usize) -> ChartBounds {
        let full = chart.full_stations(stations);
        let first = |station| full.iter().position(|&on| on == station);
        let last = |station| full.iter().rposition(|&on| on == station);
        let along: Vec<Bound> = order_bounds(chart).chain(constraint_bounds(chart)).collect();
        ChartBounds {
            events: full.len(),
            working: chart.events.len(),
            first: (0..stations).filter_map(first).collect(),
            last: (0..stations).filter_map(last).collect(),
            against: along.iter().map(|bound| bound.reversed()).collect(),
            along,
        }
    }

    /// The bounds of order and constraints, so turned that `from` is where one follows them from.
    pub fn arcs(&self, sense: Sense) -> &[Bound] {
        match sense {
            Sense::Along => &self.along,
            Sense::Against => &self.against,
        }
    }
}

/// Rule 1. On a station the bound to the next event is enough: the others are sums of these.
fn order_bounds(chart: &Chart) -> impl Iterator<Item = Bound> + '_ {
    let is_skipping = |a: usize, b: usize| {
        let station = chart.events[a].station;
        station == chart.events[b].station && chart.events[a + 1..b].iter().any(|between| between.station == station)
    };
    chart.directly_before().filter(move |&(a, b)| !is_skipping(a, b)).map(|(a, b)| Bound { from: b, to: a, most: 0 })
}

/// Rule 2.
fn constraint_bounds(chart: &Chart) -> impl Iterator<Item = Bound> + '_ {
    chart.constraints.iter().flat_map(|constraint| interval_bounds(constraint.first, constraint.second, constraint.interval))
}

/// The bounds that put the date of `later` minus the date of `earlier` into an interval.
pub fn interval_bounds(earlier: usize, later: usize, interval: Interval) -> impl Iterator<Item = Bound> {
    let lower = Bound { from: later, to: earlier, most: -i64::from(interval.lower) };
    let upper = interval.upper.map(|upper| Bound { from: earlier, to: later, most: upper.into() });
    std::iter::once(lower).chain(upper)
}

/// A whole path; its events are numbered position after position.
#[derive(Debug, Clone)]
pub struct PathBounds<'a> {
    pub book: &'a BookBounds,
    pub visits: Vec<usize>,
    pub links: Vec<usize>,
    /// The number of the first event of each position, and at the end the number of all events.
    pub starts: Vec<usize>,
}

impl PathBounds<'_> {
    pub fn positions(&self) -> usize {
        self.visits.len()
    }

    pub fn events(&self) -> usize {
        self.starts[self.visits.len()]
    }

    /// The numbers of a position's events.
    pub fn events_at(&self, position: usize) -> Range<usize> {
        self.starts[position]..self.starts[position + 1]
    }

    pub fn chart(&self, position: usize) -> &ChartBounds {
        &self.book.charts[self.visits[position]]
    }

    /// A station's last event at a position, by its number on the path.
    pub fn last_event(&self, position: usize, station: usize) -> usize {
        self.starts[position] + self.chart(position).last[station]
    }

    pub fn first_event(&self, position: usize, station: usize) -> usize {
        self.starts[position] + self.chart(position).first[station]
    }

    /// Rule 3: the bounds of the link from a position to the next.
    pub fn link_bounds(&self, position: usize) -> impl Iterator<Item = Bound> + '_ {
        let intervals = &self.book.links[self.links[position]];
        intervals.iter().enumerate().flat_map(move |(station, &interval)| {
            let earlier = self.last_event(position, station);
            let later = self.first_event(position + 1, station);
            interval_bounds(earlier, later, interval)
        })
    }
}
