//! The bytes of a book, and where its records lie.

use crate::chart::{Book, Chart, Interval, Kind, Link};

pub fn encode(book: &Book) -> Vec<u8> {
    let mut bytes = b"TCM\x00\x01".to_vec();
    bytes.extend([book.stations, book.charts.len(), book.first, book.links.len()].map(|field| field as u8));
    bytes.extend(book.near.to_be_bytes());
    bytes.extend(book.far.to_be_bytes());
    for chart in &book.charts {
        bytes.extend(encode_chart(chart));
    }
    for link in &book.links {
        bytes.extend(encode_link(link));
    }
    bytes
}

pub fn encode_chart(chart: &Chart) -> Vec<u8> {
    let mut bytes = vec![chart.events.len() as u8, chart.constraints.len() as u8, chart.is_final.into()];
    for event in &chart.events {
        let kind = if event.kind == Kind::Send { b'!' } else { b'?' };
        bytes.extend([event.station as u8, kind, event.pair as u8]);
    }
    for constraint in &chart.constraints {
        bytes.extend([constraint.first as u8, constraint.second as u8]);
        bytes.extend(encode_interval(constraint.interval));
    }
    bytes
}

fn encode_link(link: &Link) -> Vec<u8> {
    let intervals = link.intervals.iter().copied().flat_map(encode_interval);
    [link.from as u8, link.to as u8].into_iter().chain(intervals).collect()
}

pub fn encode_interval(interval: Interval) -> [u8; 4] {
    let [a, b] = interval.lower.to_be_bytes();
    let [c, d] = interval.upper.unwrap_or(0xFFFF).to_be_bytes();
    [a, b, c, d]
}

/// The places of a book's records.
pub struct Layout {
    pub heads: Vec<usize>,
    pub links: usize,
}

pub const LINK_BYTES: usize = 34;

impl Layout {
    pub fn of(book: &Book) -> Layout {
        let mut place = 13;
        let mut heads = Vec::new();
        for chart in &book.charts {
            heads.push(place);
            place += 3 + 3 * chart.events.len() + 6 * chart.constraints.len();
        }
        Layout { heads, links: place }
    }

    pub fn event(&self, chart: usize, event: usize) -> usize {
        self.heads[chart] + 3 + 3 * event
    }

    pub fn constraint(&self, book: &Book, chart: usize, constraint: usize) -> usize {
        self.event(chart, book.charts[chart].events.len()) + 6 * constraint
    }

    pub fn link(&self, link: usize) -> usize {
        self.links + LINK_BYTES * link
    }

    /// The places of all records, and at the end that of the book's end.
    pub fn records(&self, book: &Book) -> Vec<usize> {
        let mut places = vec![0, 5];
        for (number, chart) in book.charts.iter().enumerate() {
            places.push(self.heads[number]);
            places.extend((0..chart.events.len()).map(|event| self.event(number, event)));
            places.extend((0..chart.constraints.len()).map(|constraint| self.constraint(book, number, constraint)));
        }
        places.extend((0..=book.links.len()).map(|link| self.link(link)));
        places
    }
}
