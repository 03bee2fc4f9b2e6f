//! All bounds of a path once each, in plain Rust.
use crate::book::{Book, Chart, Event, Interval};

/// The stations of the events of a full chart: the working ones, then one for each silent station.
fn full(book: &Book, chart: &Chart) -> Vec<usize> {
    let mut stations: Vec<usize> = chart.events.iter().map(|event| event.station).collect();
    let silent: Vec<usize> = (0..book.stations).filter(|station| !stations.contains(station)).collect();
    stations.extend(silent);
    stations
}

/// A path: its links, and for each position the chart and the place of its first date.
pub struct Path<'a> {
    book: &'a Book,
    links: Vec<usize>,
    charts: Vec<usize>,
    firsts: Vec<usize>,
    full: Vec<Vec<usize>>,
    pub dates: usize,
}

impl<'a> Path<'a> {
    /// Into the loop, round it, and out.
    pub fn through(book: &'a Book, charts: usize) -> Path<'a> {
        let mut links = vec![0];
        links.resize(charts - 2, 1);
        links.push(2);
        let full: Vec<Vec<usize>> = book.charts.iter().map(|chart| full(book, chart)).collect();
        let charts: Vec<usize> = std::iter::once(0).chain(links.iter().map(|&link| book.links[link].to)).collect();
        let mut dates = 0;
        let mut firsts = Vec::new();
        for &chart in &charts {
            firsts.push(dates);
            dates += full[chart].len();
        }
        Path { book, links, charts, firsts, full, dates }
    }

    /// Forward, each bound once. Did a date move?
    pub fn forward(&self, dates: &mut [u32]) -> bool {
        let mut changed = false;
        for position in 0..self.charts.len() {
            if position > 0 {
                changed |= self.raise_link(dates, position);
            }
            changed |= self.raise_chart(dates, position);
        }
        changed
    }

    fn raise_link(&self, dates: &mut [u32], position: usize) -> bool {
        let link = &self.book.links[self.links[position - 1]];
        let (left, entered) = (&self.full[link.from], &self.full[link.to]);
        let mut changed = false;
        for station in 0..self.book.stations {
            let last = left.iter().rposition(|&other| other == station);
            let first = entered.iter().position(|&other| other == station);
            if let (Some(last), Some(first)) = (last, first) {
                let (from, to) = (self.firsts[position - 1] + last, self.firsts[position] + first);
                changed |= raise_interval(dates, from, to, link.intervals[station]);
            }
        }
        changed
    }

    fn raise_chart(&self, dates: &mut [u32], position: usize) -> bool {
        let chart = &self.book.charts[self.charts[position]];
        let first = self.firsts[position];
        let dates = &mut dates[first..first + self.full[self.charts[position]].len()];
        let mut changed = false;
        for e in 0..chart.events.len() {
            for f in 0..chart.events.len() {
                if is_directly_before(&chart.events, e, f) {
                    changed |= raise(dates, f, dates[e]);
                }
            }
        }
        for constraint in &chart.constraints {
            changed |= raise_interval(dates, constraint.first, constraint.second, constraint.interval);
        }
        let working = chart.events.len();
        for e in 0..dates.len() {
            for f in 0..dates.len() {
                let drift = if e < working && f < working { self.book.near } else { self.book.far };
                changed |= raise(dates, f, dates[e].saturating_sub(u32::from(drift)));
            }
        }
        changed
    }
}

fn is_directly_before(events: &[Event], e: usize, f: usize) -> bool {
    if events[e].station == events[f].station { e < f } else { events[e].is_send && events[e].pair == f }
}

fn raise(dates: &mut [u32], at: usize, date: u32) -> bool {
    let is_raised = dates[at] < date;
    if is_raised {
        dates[at] = date;
    }
    is_raised
}

fn raise_interval(dates: &mut [u32], first: usize, second: usize, interval: Interval) -> bool {
    let mut changed = raise(dates, second, dates[first] + u32::from(interval.lower));
    if let Some(upper) = interval.upper {
        changed |= raise(dates, first, dates[second].saturating_sub(u32::from(upper)));
    }
    changed
}
