//! Good books. Most of them are drawn around hidden dates, so that long paths can often be dated, and with small shifts
//! of them, so that a loop changes the profile at each turn.

use super::random::Random;
use crate::chart::{Book, Chart, Constraint, Event, Interval, Kind, Link, MOST_STATIONS, MOST_TICKS};

/// A fresh book that keeps all rules of the format.
pub fn good_book(random: &mut Random) -> Book {
    if random.chance(1, 4) { countdown_book(random) } else { scattered_book(random) }
}

/// How far the ends of an interval lie from the hidden difference.
#[derive(Debug, Clone, Copy)]
enum Fit {
    Exact,
    Close,
    Wide,
    NoUpper,
    Open,
    /// Drawn without a look at the difference.
    Wild,
}

/// The times of a book: what one tick is worth, and the fits of its intervals.
struct Times {
    unit: usize,
    fits: Vec<Fit>,
}

impl Times {
    fn draw(random: &mut Random) -> Times {
        const FITS: [Fit; 6] = [Fit::Exact, Fit::Close, Fit::Wide, Fit::NoUpper, Fit::Open, Fit::Wild];
        let count = random.between(1..=4);
        Times { unit: random.pick(&[1, 1, 1, 2, 3, 10, 100, 1_000]), fits: (0..count).map(|_| random.pick(&FITS)).collect() }
    }

    fn interval(&self, random: &mut Random, difference: i64) -> Interval {
        let most = i64::from(MOST_TICKS);
        let slack = random.between(0..=2 * self.unit) as i64;
        let (lower, upper) = match random.pick(&self.fits) {
            Fit::Exact => (difference, Some(difference)),
            Fit::Close => (difference - slack.min(1), Some(difference + slack.min(2))),
            Fit::Wide => (difference - slack, Some(difference + 4 * slack)),
            Fit::NoUpper => (difference - slack, None),
            Fit::Open => (0, None),
            Fit::Wild => {
                let lower = random.below(4 * self.unit + 1) as i64;
                (lower, random.chance(3, 4).then_some(lower + slack))
            }
        };
        let clamp = |end: i64| end.clamp(0, most) as u16;
        Interval { lower: clamp(lower), upper: upper.map(clamp) }
    }
}

/// Limits of what is drawn: at most so many messages and constraints in each chart.
struct Size {
    stations: usize,
    charts: usize,
    messages: usize,
    constraints: usize,
    links: usize,
}

impl Size {
    fn draw(random: &mut Random) -> Size {
        let (stations, charts, messages, constraints, links) = match random.below(1_000) {
            0..=599 => (3, 4, 2, 2, 8),
            600..=879 => (5, 8, 4, 6, 20),
            880..=979 => (8, 16, 8, 16, 48),
            980..=997 => (8, 32, 20, 64, 128),
            _ => return Size { stations: 8, charts: 32, messages: 20, constraints: 64, links: 128 },
        };
        Size {
            stations: random.between(2..=stations),
            charts: random.between(1..=charts),
            messages: random.between(1..=messages),
            constraints: random.between(0..=constraints),
            links: random.between(0..=links),
        }
    }

    fn is_largest(&self) -> bool {
        self.links == 128 && self.charts == 32
    }
}

/// A chart and the hidden date of each of its working events.
pub(super) struct Draft {
    pub chart: Chart,
    dates: Vec<i64>,
}

impl Draft {
    fn spread(&self) -> usize {
        self.dates.iter().max().map_or(0, |&date| date as usize)
    }

    /// How much a station moves on to a later chart that begins `after` ticks after this one.
    fn moves_on(&self, later: &Draft, station: usize, after: i64) -> Option<i64> {
        let last = self.chart.events.iter().rposition(|event| event.station == station)?;
        let first = later.chart.events.iter().position(|event| event.station == station)?;
        Some(after + later.dates[first] - self.dates[last])
    }
}

fn scattered_book(random: &mut Random) -> Book {
    let size = Size::draw(random);
    let times = Times::draw(random);
    let drafts: Vec<Draft> = (0..size.charts).map(|_| draw_chart(random, &size, &times)).collect();
    let mut order: Vec<usize> = (0..size.charts).collect();
    random.shuffle(&mut order);
    let links = draw_links(random, &size, &times, &drafts, &order);
    let spread = drafts.iter().map(Draft::spread).max().unwrap_or(0);
    let (near, far) = draw_drift(random, &times, spread, size.stations);
    let mut charts: Vec<Chart> = drafts.into_iter().map(|draft| draft.chart).collect();
    mark_finals(random, &mut charts, &order);
    Book { stations: size.stations, charts, first: order[0], links, near, far }
}

fn draw_chart(random: &mut Random, size: &Size, times: &Times) -> Draft {
    let messages = if size.is_largest() { size.messages } else { random.between(1..=size.messages) };
    let constraints = if size.is_largest() { size.constraints } else { random.between(0..=size.constraints) };
    let timeline = draw_timeline(random, size.stations, messages);
    let mut draft = list_events(random, &timeline, times);
    draft.chart.constraints = draw_constraints(random, &draft, constraints, times);
    draft
}

/// An event before it has a number: it knows its message.
#[derive(Debug, Clone, Copy)]
struct Occurrence {
    message: usize,
    station: usize,
    kind: Kind,
}

/// Messages in an order of their own, each send ahead of its receive, so no event comes before itself. Some stations stay
/// silent.
fn draw_timeline(random: &mut Random, stations: usize, messages: usize) -> Vec<Occurrence> {
    let mut active: Vec<usize> = (0..stations).collect();
    random.shuffle(&mut active);
    if random.chance(1, 2) {
        active.truncate(random.between(2..=stations));
    }
    let mut timeline = Vec::new();
    for message in 0..messages {
        random.shuffle(&mut active);
        let send = random.between(0..=timeline.len());
        timeline.insert(send, Occurrence { message, station: active[0], kind: Kind::Send });
        let receive = random.between(send + 1..=timeline.len());
        timeline.insert(receive, Occurrence { message, station: active[1], kind: Kind::Receive });
    }
    timeline
}

/// Lists the events of a timeline, either as they are or mixed anew with the order on each station kept; so a receive may
/// be listed ahead of its send.
fn list_events(random: &mut Random, timeline: &[Occurrence], times: &Times) -> Draft {
    let mut date = 0;
    let mut dated = Vec::new();
    for &occurrence in timeline {
        if !dated.is_empty() && random.chance(1, 2) {
            date += random.between(0..=2 * times.unit) as i64;
        }
        dated.push((occurrence, date));
    }
    if random.chance(1, 2) {
        dated = mix_stations(random, dated);
    }
    let events = number_events(&dated.iter().map(|&(occurrence, _)| occurrence).collect::<Vec<_>>());
    let chart = Chart { events, constraints: Vec::new(), is_final: false };
    Draft { chart, dates: dated.into_iter().map(|(_, date)| date).collect() }
}

fn mix_stations(random: &mut Random, mut rest: Vec<(Occurrence, i64)>) -> Vec<(Occurrence, i64)> {
    let mut mixed = Vec::new();
    while !rest.is_empty() {
        let (any, _) = rest[random.below(rest.len())];
        let next = rest.iter().position(|(occurrence, _)| occurrence.station == any.station);
        mixed.push(rest.remove(next.unwrap_or(0)));
    }
    mixed
}

fn number_events(listed: &[Occurrence]) -> Vec<Event> {
    let pair_of = |number: usize| {
        let is_pair = |(other, occurrence): (usize, &Occurrence)| other != number && occurrence.message == listed[number].message;
        listed.iter().enumerate().position(is_pair).expect("each message has two events")
    };
    let event = |(number, occurrence): (usize, &Occurrence)| Event {
        station: occurrence.station,
        kind: occurrence.kind,
        pair: pair_of(number),
    };
    listed.iter().enumerate().map(event).collect()
}

fn draw_constraints(random: &mut Random, draft: &Draft, count: usize, times: &Times) -> Vec<Constraint> {
    let candidates: Vec<(usize, usize)> = draft.chart.directly_before().collect();
    let constraint = |_| {
        let (first, second) = random.pick(&candidates);
        let interval = times.interval(random, draft.dates[second] - draft.dates[first]);
        Constraint { first, second, interval }
    };
    (0..count).map(constraint).collect()
}

/// A chart of a ring of stations each of which receives before it sends, so that events come before themselves; other
/// messages stand between. Needs two messages or more.
pub(super) fn cyclic_chart(random: &mut Random, stations: usize, messages: usize, constraints: usize) -> Chart {
    let ring = random.between(2..=stations.min(messages));
    let mut members: Vec<usize> = (0..stations).collect();
    random.shuffle(&mut members);
    let mut listed: Vec<Occurrence> = (0..ring)
        .flat_map(|place| {
            let station = members[place];
            let receive = Occurrence { message: (place + ring - 1) % ring, station, kind: Kind::Receive };
            [receive, Occurrence { message: place, station, kind: Kind::Send }]
        })
        .collect();
    for message in ring..messages {
        random.shuffle(&mut members);
        for (station, kind) in [(members[0], Kind::Send), (members[1], Kind::Receive)] {
            listed.insert(random.between(0..=listed.len()), Occurrence { message, station, kind });
        }
    }
    let mixed = mix_stations(random, listed.into_iter().map(|occurrence| (occurrence, 0)).collect());
    let events = number_events(&mixed.iter().map(|&(occurrence, _)| occurrence).collect::<Vec<_>>());
    let times = Times::draw(random);
    let mut draft =
        Draft { dates: vec![0; events.len()], chart: Chart { events, constraints: Vec::new(), is_final: random.chance(1, 2) } };
    draft.chart.constraints = draw_constraints(random, &draft, constraints, &times);
    draft.chart
}

/// Mostly each chart can be reached from an earlier one in `order`; the other links lead anywhere, also back.
fn draw_links(random: &mut Random, size: &Size, times: &Times, drafts: &[Draft], order: &[usize]) -> Vec<Link> {
    let mut ends: Vec<(usize, usize)> = (1..order.len())
        .filter_map(|place| {
            let source = random.below(place);
            random.chance(9, 10).then_some((order[source], order[place]))
        })
        .take(size.links)
        .collect();
    while ends.len() < size.links {
        let from = random.pick(order);
        ends.push((from, if random.chance(1, 3) { from } else { random.pick(order) }));
    }
    random.shuffle(&mut ends);
    ends.into_iter().map(|(from, to)| draw_link(random, times, drafts, from, to)).collect()
}

/// The later chart begins some ticks after the earlier one; a station may be shifted against the others.
fn draw_link(random: &mut Random, times: &Times, drafts: &[Draft], from: usize, to: usize) -> Link {
    let after = if random.chance(1, 2) { drafts[from].spread() } else { random.below(drafts[from].spread() + 1) };
    let mut intervals = [Interval::OPEN; MOST_STATIONS];
    for (station, interval) in intervals.iter_mut().enumerate() {
        if let Some(moved_on) = drafts[from].moves_on(&drafts[to], station, after as i64) {
            let shift = if random.chance(1, 3) { random.between(0..=times.unit) } else { 0 };
            *interval = times.interval(random, moved_on + shift as i64);
        }
    }
    Link { from, to, intervals }
}

/// Near and far: wide enough for the hidden dates, or tight, or anything.
fn draw_drift(random: &mut Random, times: &Times, spread: usize, stations: usize) -> (u16, u16) {
    let most = usize::from(MOST_TICKS);
    let near = match random.below(12) {
        0..=2 => spread,
        3..=6 => spread + random.between(0..=4 * times.unit),
        7 => spread.saturating_sub(1),
        8 => random.between(0..=2 * times.unit),
        9 => random.between(0..=most),
        10 => most,
        _ => 0,
    }
    .min(most);
    let far = match random.below(6) {
        0 => near,
        1 => near * (stations - 1),
        2 => random.between(near..=most),
        3 => most,
        _ => near + random.between(0..=2 * times.unit),
    }
    .clamp(near, most);
    (near as u16, far as u16)
}

fn mark_finals(random: &mut Random, charts: &mut [Chart], order: &[usize]) {
    let (first, last) = (order[0], order[order.len() - 1]);
    match random.below(10) {
        0 => (),
        1 => charts.iter_mut().for_each(|chart| chart.is_final = true),
        2..=5 => charts.iter_mut().for_each(|chart| chart.is_final = random.chance(1, 3)),
        _ => charts[last].is_final = true,
    }
    // A first chart that is final ends the walk at once.
    if order.len() > 1 && random.chance(4, 5) {
        charts[first].is_final = false;
    }
}

/// What a loop book is drawn by: station `ahead` begins `distance` ticks before `behind`, and each turn of a loop changes that.
struct Race {
    stations: usize,
    ahead: usize,
    behind: usize,
    distance: usize,
    times: Times,
}

impl Race {
    fn draw(random: &mut Random) -> Race {
        let stations = random.pick(&[2, 2, 2, 3, 3, 4, 5, 8]);
        let mut members: Vec<usize> = (0..stations).collect();
        random.shuffle(&mut members);
        let distance = match random.below(200) {
            0..=149 => random.between(0..=6),
            150..=194 => random.between(7..=24),
            _ => random.between(25..=120),
        };
        Race { stations, ahead: members[0], behind: members[1], distance, times: Times { unit: 1, fits: vec![Fit::Exact] } }
    }

    /// One message between the two, and sometimes one that brings in another station.
    fn chart(&self, random: &mut Random, from: usize, to: usize, interval: Option<Interval>) -> Chart {
        let mut events =
            vec![Event { station: from, kind: Kind::Send, pair: 1 }, Event { station: to, kind: Kind::Receive, pair: 0 }];
        let other = random.below(self.stations);
        if other != from && other != to && random.chance(1, 3) {
            // Listed first, so the message above stays each station's last.
            events = vec![
                Event { station: other, kind: Kind::Send, pair: 1 },
                Event { station: from, kind: Kind::Receive, pair: 0 },
                Event { station: from, kind: Kind::Send, pair: 3 },
                Event { station: to, kind: Kind::Receive, pair: 2 },
            ];
        }
        let last = events.len() - 1;
        let constraint = interval.map(|interval| Constraint { first: last - 1, second: last, interval });
        Chart { events, constraints: constraint.into_iter().collect(), is_final: false }
    }

    fn link(&self, random: &mut Random, charts: &[Chart], (from, to): (usize, usize), ahead: usize, behind: usize) -> Link {
        let mut intervals = [Interval::OPEN; MOST_STATIONS];
        for (station, interval) in intervals.iter_mut().enumerate().take(self.stations) {
            let moves_on = match station {
                _ if charts[from].is_silent(station) || charts[to].is_silent(station) => continue,
                _ if station == self.ahead => ahead,
                _ if station == self.behind => behind,
                _ => continue,
            };
            *interval = self.times.interval(random, moves_on as i64);
        }
        Link { from, to, intervals }
    }
}

/// A start chart, loops that have to be turned several times, and final charts that ask for a certain distance.
fn countdown_book(random: &mut Random) -> Book {
    let mut race = Race::draw(random);
    if random.chance(1, 4) {
        race.times.fits.extend([Fit::Exact, random.pick(&[Fit::Close, Fit::NoUpper, Fit::Wide])]);
    }
    let exactly = |ticks: usize| Some(Interval { lower: ticks as u16, upper: Some(ticks as u16) });
    let loops = random.between(1..=2);
    let finals = random.between(1..=2);
    let mut charts = vec![race.chart(random, race.ahead, race.behind, exactly(race.distance))];
    charts.extend((0..loops).map(|_| race.chart(random, race.ahead, race.behind, None)));
    for _ in 0..finals {
        let asked = random.chance(1, 4).then(|| random.between(0..=2)).and_then(exactly);
        charts.push(Chart { is_final: true, ..race.chart(random, race.behind, race.ahead, asked) });
    }
    let links = race_links(random, &race, &charts, loops);
    let near = race.distance + random.between(0..=3);
    let far = near + if random.chance(1, 2) { 0 } else { random.between(0..=near + 2) };
    let mut book = Book { stations: race.stations, charts, first: 0, links, near: near as u16, far: far as u16 };
    renumber(random, &mut book);
    book
}

/// Links into the loop charts, between them, round each, and out to the final charts.
fn race_links(random: &mut Random, race: &Race, charts: &[Chart], loops: usize) -> Vec<Link> {
    let mut links = vec![race.link(random, charts, (0, 1), 1, 1)];
    for chart in 1..=loops {
        for _ in 0..random.between(1..=2) {
            let base = random.between(0..=2);
            let gain = random.between(0..=3);
            let to = if random.chance(3, 4) { chart } else { random.between(1..=loops) };
            links.push(race.link(random, charts, (chart, to), base + gain, base));
        }
        if chart > 1 {
            let behind = random.between(0..=1);
            links.push(race.link(random, charts, (chart - 1, chart), 1, behind));
        }
        for end in loops + 1..charts.len() {
            let late = if random.chance(1, 4) { 1 } else { 0 };
            links.push(race.link(random, charts, (chart, end), 0, late));
        }
    }
    links
}

/// Numbers charts and links anew.
fn renumber(random: &mut Random, book: &mut Book) {
    let mut order: Vec<usize> = (0..book.charts.len()).collect();
    random.shuffle(&mut order);
    let place_of = |chart: usize| order.iter().position(|&old| old == chart).expect("each chart has a place");
    book.first = place_of(book.first);
    for link in &mut book.links {
        (link.from, link.to) = (place_of(link.from), place_of(link.to));
    }
    book.charts = order.iter().map(|&old| book.charts[old].clone()).collect();
    random.shuffle(&mut book.links);
}
