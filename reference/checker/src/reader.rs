//! The reader of books. The tests stand in the order in which faults are found, and `?` leaves at the first.

use crate::chart::{Book, Chart, Constraint, Event, Interval, Kind, Link, MOST_STATIONS, MOST_TICKS};
use crate::fault::Fault;

/// An upper end that stands for none.
const NONE: u16 = 0xFFFF;

/// Reads a book, or answers its first fault.
pub fn read_book(bytes: &[u8]) -> Result<Book, Fault> {
    let mut records = Records { bytes, place: 0 };
    read_mark(&mut records)?;
    let header = read_header(&mut records)?;
    let mut book = Book {
        stations: header.stations,
        charts: Vec::with_capacity(header.charts),
        first: header.first,
        links: Vec::with_capacity(header.links),
        near: header.near,
        far: header.far,
    };
    for _ in 0..header.charts {
        book.charts.push(read_chart(&mut records, header.stations)?);
    }
    for _ in 0..header.links {
        let link = read_link(&mut records, &book)?;
        book.links.push(link);
    }
    records.expect_end()?;
    Ok(book)
}

/// The bytes of a book, taken record by record from the front.
struct Records<'a> {
    bytes: &'a [u8],
    place: usize,
}

impl Records<'_> {
    /// The next record of N bytes and its place.
    fn next<const N: usize>(&mut self) -> Result<(usize, [u8; N]), Fault> {
        let place = self.place;
        let record = self.bytes[place..].first_chunk::<N>().ok_or(Fault::RecordCut { place })?;
        self.place += N;
        Ok((place, *record))
    }

    fn expect_end(&self) -> Result<(), Fault> {
        ensure(self.place == self.bytes.len(), Fault::TrailingBytes { place: self.place })
    }
}

fn ensure(holds: bool, fault: Fault) -> Result<(), Fault> {
    if holds { Ok(()) } else { Err(fault) }
}

fn wide(high: u8, low: u8) -> u16 {
    u16::from_be_bytes([high, low])
}

fn read_mark(records: &mut Records) -> Result<(), Fault> {
    let (_, [t, c, m, high, low]) = records.next()?;
    ensure([t, c, m] == *b"TCM", Fault::WrongMark)?;
    ensure(wide(high, low) == 1, Fault::WrongVersion)
}

struct Header {
    stations: usize,
    charts: usize,
    first: usize,
    links: usize,
    near: u16,
    far: u16,
}

fn read_header(records: &mut Records) -> Result<Header, Fault> {
    let (place, [stations, charts, first, links, near_high, near_low, far_high, far_low]) = records.next()?;
    let (near, far) = (wide(near_high, near_low), wide(far_high, far_low));
    let field = |offset| Fault::FieldOutOfRange { place: place + offset };
    ensure((2..=8).contains(&stations), field(0))?;
    ensure((1..=32).contains(&charts), field(1))?;
    ensure(first < charts, field(2))?;
    ensure(links <= 128, field(3))?;
    ensure(near <= MOST_TICKS, field(4))?;
    ensure((near..=MOST_TICKS).contains(&far), field(6))?;
    Ok(Header { stations: stations.into(), charts: charts.into(), first: first.into(), links: links.into(), near, far })
}

fn read_chart(records: &mut Records, stations: usize) -> Result<Chart, Fault> {
    let (head, [events, constraints, final_mark]) = records.next()?;
    let field = |offset| Fault::FieldOutOfRange { place: head + offset };
    ensure((2..=40).contains(&events) && events % 2 == 0, field(0))?;
    ensure(constraints <= 64, field(1))?;
    ensure(final_mark <= 1, field(2))?;
    let mut chart = Chart { events: read_events(records, stations, events)?, constraints: Vec::new(), is_final: final_mark == 1 };
    for _ in 0..constraints {
        let constraint = read_constraint(records, &chart)?;
        chart.constraints.push(constraint);
    }
    ensure(chart.is_order_sound(), Fault::CyclicOrder { place: head })?;
    Ok(chart)
}

/// Reads a chart's events, and tests their pairing once the last is read.
fn read_events(records: &mut Records, stations: usize, count: u8) -> Result<Vec<Event>, Fault> {
    let start = records.place;
    let events = (0..count).map(|_| read_event(records, stations, count)).collect::<Result<Vec<_>, _>>()?;
    match (0..events.len()).find(|&event| !is_well_paired(&events, event)) {
        Some(event) => Err(Fault::BadEvent { place: start + 3 * event }),
        None => Ok(events),
    }
}

fn read_event(records: &mut Records, stations: usize, count: u8) -> Result<Event, Fault> {
    let (place, [station, kind, pair]) = records.next()?;
    let fault = Fault::BadEvent { place };
    ensure(usize::from(station) < stations, fault)?;
    let kind = match kind {
        b'!' => Kind::Send,
        b'?' => Kind::Receive,
        _ => return Err(fault),
    };
    ensure(pair < count, fault)?;
    Ok(Event { station: station.into(), kind, pair: pair.into() })
}

fn is_well_paired(events: &[Event], number: usize) -> bool {
    let event = &events[number];
    let other = &events[event.pair];
    other.pair == number && other.kind != event.kind && other.station != event.station
}

fn read_constraint(records: &mut Records, chart: &Chart) -> Result<Constraint, Fault> {
    let (place, [first, second, interval @ ..]) = records.next::<6>()?;
    let (first, second) = (usize::from(first), usize::from(second));
    let exist = first < chart.events.len() && second < chart.events.len();
    ensure(exist && chart.is_directly_before(first, second), Fault::NotDirectlyBefore { place })?;
    let interval = read_interval(interval).ok_or(Fault::BadConstraintInterval { place })?;
    Ok(Constraint { first, second, interval })
}

/// The interval that these bytes say, if its ends are in range and in order.
fn read_interval([lower_high, lower_low, upper_high, upper_low]: [u8; 4]) -> Option<Interval> {
    let lower = wide(lower_high, lower_low);
    let upper = Some(wide(upper_high, upper_low)).filter(|&end| end != NONE);
    let good = lower <= MOST_TICKS && upper.is_none_or(|end| (lower..=MOST_TICKS).contains(&end));
    good.then_some(Interval { lower, upper })
}

fn read_link(records: &mut Records, book: &Book) -> Result<Link, Fault> {
    let (place, [from, to, ends @ ..]) = records.next::<34>()?;
    let (from, to) = (usize::from(from), usize::from(to));
    ensure(from < book.charts.len() && to < book.charts.len(), Fault::NoSuchChart { place })?;
    let mut intervals = [Interval::OPEN; MOST_STATIONS];
    for (station, (interval, &ends)) in intervals.iter_mut().zip(ends.as_chunks::<4>().0).enumerate() {
        *interval = read_interval(ends).ok_or(Fault::BadLinkInterval { place })?;
        let is_due = *interval == Interval::OPEN || !book.is_open_due(from, to, station);
        ensure(is_due, Fault::IntervalNotDue { place })?;
    }
    Ok(Link { from, to, intervals })
}
