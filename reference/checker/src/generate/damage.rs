//! Damaged books: each kind of damage names the fault that it makes in a book that was good.

use super::good::{cyclic_chart, good_book};
use super::layout::{LINK_BYTES, Layout, encode, encode_chart, encode_interval};
use super::random::Random;
use crate::chart::{Book, Interval, Kind, MOST_STATIONS, MOST_TICKS};
use crate::fault::Fault;

/// What is done to a good book.
#[derive(Debug, Clone, Copy, PartialEq, Eq, Hash)]
pub enum Damage {
    Cut,
    Mark,
    Version,
    Stations,
    Charts,
    First,
    Links,
    Near,
    Far,
    NearAboveFar,
    Events,
    Constraints,
    FinalMark,
    Trailing,
    EventStation,
    EventKind,
    EventPair,
    OtherPair,
    SameKind,
    SameStation,
    ConstraintEvent,
    ConstraintReversed,
    ConstraintIndirect,
    ConstraintInterval,
    LinkInterval,
    Cyclic,
    LinkFrom,
    LinkTo,
    NotDue,
}

impl Damage {
    /// All damages, those of one test of the reader together.
    pub const GROUPS: [&[Damage]; 14] = [
        &[Damage::Cut],
        &[Damage::Mark, Damage::Version],
        &[Damage::Stations, Damage::Charts, Damage::First, Damage::Links],
        &[Damage::Near, Damage::Far, Damage::NearAboveFar],
        &[Damage::Events, Damage::Constraints, Damage::FinalMark],
        &[Damage::Trailing],
        &[Damage::EventStation, Damage::EventKind, Damage::EventPair],
        &[Damage::OtherPair, Damage::SameKind, Damage::SameStation],
        &[Damage::ConstraintEvent, Damage::ConstraintReversed, Damage::ConstraintIndirect],
        &[Damage::ConstraintInterval],
        &[Damage::Cyclic],
        &[Damage::LinkFrom, Damage::LinkTo],
        &[Damage::LinkInterval],
        &[Damage::NotDue],
    ];

    fn draw(random: &mut Random) -> Damage {
        let group = random.pick(&Damage::GROUPS);
        random.pick(group)
    }
}

/// The bytes of a book with one to four damages, or with some bytes of noise. What is refused first is the reader's affair;
/// noise may even leave a good book.
pub fn damaged_book(random: &mut Random) -> Vec<u8> {
    if random.chance(1, 12) {
        let bytes = encode(&good_book(random));
        return noisy(random, bytes);
    }
    let main = Damage::draw(random);
    let more = random.pick(&[0, 0, 0, 1, 1, 2, 3]);
    loop {
        let book = good_book(random);
        let mut spoiler = Spoiler::new(random, &book);
        if spoiler.apply(main).is_some() {
            (0..more).for_each(|_| spoiler.apply_another());
            return spoiler.bytes;
        }
    }
}

/// The bytes of a good book with one damage, and the fault that this makes; none if the book has nothing to damage so.
pub fn damage(random: &mut Random, book: &Book, damage: Damage) -> Option<(Vec<u8>, Fault)> {
    let mut spoiler = Spoiler::new(random, book);
    let fault = spoiler.apply(damage)?;
    Some((spoiler.bytes, fault))
}

fn noisy(random: &mut Random, mut bytes: Vec<u8>) -> Vec<u8> {
    for _ in 0..random.between(1..=3) {
        let place = random.below(bytes.len());
        bytes[place] = random.below(256) as u8;
    }
    bytes
}

struct Spoiler<'a> {
    random: &'a mut Random,
    book: &'a Book,
    layout: Layout,
    bytes: Vec<u8>,
}

impl<'a> Spoiler<'a> {
    fn new(random: &'a mut Random, book: &'a Book) -> Self {
        Spoiler { random, book, layout: Layout::of(book), bytes: encode(book) }
    }

    fn apply_another(&mut self) {
        let damage = Damage::draw(self.random);
        self.apply(damage);
    }

    fn apply(&mut self, damage: Damage) -> Option<Fault> {
        match damage {
            Damage::Cut => self.cut(),
            Damage::Trailing => self.trail(),
            Damage::Mark => self.spoil_mark(),
            Damage::Version => self.spoil_version(),
            Damage::Stations => self.spoil_field(5, |count| !(2..=8).contains(&count)),
            Damage::Charts => self.spoil_field(6, |count| !(1..=32).contains(&count)),
            Damage::First => {
                let charts = self.book.charts.len();
                self.spoil_field(7, |first| usize::from(first) >= charts)
            }
            Damage::Links => self.spoil_field(8, |count| count > 128),
            Damage::Near | Damage::Far | Damage::NearAboveFar => self.spoil_drift(damage),
            Damage::Events | Damage::Constraints | Damage::FinalMark => self.spoil_head(damage),
            Damage::EventStation | Damage::EventKind | Damage::EventPair => self.spoil_event(damage),
            Damage::OtherPair | Damage::SameKind | Damage::SameStation => self.spoil_pairing(damage),
            Damage::ConstraintEvent | Damage::ConstraintReversed | Damage::ConstraintIndirect => self.spoil_constraint(damage),
            Damage::ConstraintInterval => self.spoil_constraint_interval(),
            Damage::Cyclic => self.make_cyclic(),
            Damage::LinkFrom | Damage::LinkTo => self.spoil_link_end(damage),
            Damage::LinkInterval => self.spoil_link_interval(),
            Damage::NotDue => self.add_interval_not_due(),
        }
    }

    /// Writes over what stands at a place; an earlier damage may have cut it off.
    fn write(&mut self, place: usize, with: &[u8]) {
        for (byte, &new) in self.bytes.iter_mut().skip(place).zip(with) {
            *byte = new;
        }
    }

    /// A byte that is as wanted; the ends of what there is are tried often.
    fn byte(&mut self, wanted: impl Fn(u8) -> bool) -> u8 {
        let good: Vec<u8> = (0..=255).filter(|&byte| wanted(byte)).collect();
        match self.random.below(4) {
            0 => good[0],
            1 => good[good.len() - 1],
            _ => self.random.pick(&good),
        }
    }

    fn cut(&mut self) -> Option<Fault> {
        if self.bytes.is_empty() {
            return None;
        }
        let length = self.random.below(self.bytes.len());
        self.bytes.truncate(length);
        let records = self.layout.records(self.book);
        let place = records.windows(2).find(|ends| ends[1] > length).map_or(length, |ends| ends[0]);
        Some(Fault::RecordCut { place })
    }

    fn trail(&mut self) -> Option<Fault> {
        let place = self.bytes.len();
        for _ in 0..self.random.pick(&[1, 1, 2, LINK_BYTES]) {
            let byte = self.random.below(256) as u8;
            self.bytes.push(byte);
        }
        Some(Fault::TrailingBytes { place })
    }

    fn spoil_mark(&mut self) -> Option<Fault> {
        let place = self.random.below(3);
        let byte = self.byte(|byte| byte != b"TCM"[place]);
        self.write(place, &[byte]);
        Some(Fault::WrongMark)
    }

    fn spoil_version(&mut self) -> Option<Fault> {
        let version = self.random.pick(&[0_u16, 2, 0x0100, 0x0101, 0xFFFF]);
        self.write(3, &version.to_be_bytes());
        Some(Fault::WrongVersion)
    }

    fn spoil_field(&mut self, place: usize, is_bad: impl Fn(u8) -> bool) -> Option<Fault> {
        let byte = self.byte(is_bad);
        self.write(place, &[byte]);
        Some(Fault::FieldOutOfRange { place })
    }

    fn too_many_ticks(&mut self) -> u16 {
        let any = self.random.ticks(MOST_TICKS + 1..=0xFFFE);
        self.random.pick(&[MOST_TICKS + 1, 0xFFFE, any])
    }

    fn spoil_drift(&mut self, damage: Damage) -> Option<Fault> {
        let (place, ticks) = match damage {
            Damage::Near => (9, self.too_many_ticks()),
            Damage::Far => (11, self.too_many_ticks()),
            // Near above far is a fault of the far field, whichever was altered.
            _ if self.book.near > 0 => (11, self.random.ticks(0..=self.book.near - 1)),
            _ => return None,
        };
        self.write(place, &ticks.to_be_bytes());
        Some(Fault::FieldOutOfRange { place })
    }

    fn any_chart(&mut self) -> usize {
        self.random.below(self.book.charts.len())
    }

    fn spoil_head(&mut self, damage: Damage) -> Option<Fault> {
        let chart = self.any_chart();
        let head = self.layout.heads[chart];
        match damage {
            Damage::Events => self.spoil_field(head, |events| !(2..=40).contains(&events) || events % 2 == 1),
            Damage::Constraints => self.spoil_field(head + 1, |constraints| constraints > 64),
            _ => self.spoil_field(head + 2, |mark| mark > 1),
        }
    }

    fn spoil_event(&mut self, damage: Damage) -> Option<Fault> {
        let chart = self.any_chart();
        let events = self.book.charts[chart].events.len();
        let place = self.layout.event(chart, self.random.below(events));
        let stations = self.book.stations;
        let (offset, byte) = match damage {
            Damage::EventStation => (0, self.byte(|station| usize::from(station) >= stations)),
            Damage::EventKind => (1, self.byte(|kind| kind != b'!' && kind != b'?')),
            _ => (2, self.byte(|pair| usize::from(pair) >= events)),
        };
        self.write(place + offset, &[byte]);
        Some(Fault::BadEvent { place })
    }

    /// Spoils one of two paired events; both pairings fail, and that of the event listed first is found.
    fn spoil_pairing(&mut self, damage: Damage) -> Option<Fault> {
        let number = self.any_chart();
        let chart = &self.book.charts[number];
        let event = self.random.below(chart.events.len());
        let pair = chart.events[event].pair;
        let (offset, byte) = match damage {
            Damage::OtherPair => (2, self.byte(|other| usize::from(other) < chart.events.len() && usize::from(other) != pair)),
            Damage::SameKind => (1, if chart.events[pair].kind == Kind::Send { b'!' } else { b'?' }),
            _ => (0, chart.events[pair].station as u8),
        };
        self.write(self.layout.event(number, event) + offset, &[byte]);
        Some(Fault::BadEvent { place: self.layout.event(number, event.min(pair)) })
    }

    /// A chart that has constraints, and one of these.
    fn any_constraint(&mut self) -> Option<(usize, usize)> {
        let charts = 0..self.book.charts.len();
        let constrained: Vec<usize> = charts.filter(|&chart| !self.book.charts[chart].constraints.is_empty()).collect();
        if constrained.is_empty() {
            return None;
        }
        let chart = self.random.pick(&constrained);
        Some((chart, self.random.below(self.book.charts[chart].constraints.len())))
    }

    fn spoil_constraint(&mut self, damage: Damage) -> Option<Fault> {
        let (number, constraint) = self.any_constraint()?;
        let chart = &self.book.charts[number];
        let events = chart.events.len();
        let place = self.layout.constraint(self.book, number, constraint);
        let (first, second) = (chart.constraints[constraint].first as u8, chart.constraints[constraint].second as u8);
        let [first, second] = match damage {
            Damage::ConstraintEvent => {
                let beyond = self.byte(|event| usize::from(event) >= events);
                self.random.pick(&[[beyond, second], [first, beyond], [beyond, beyond]])
            }
            Damage::ConstraintReversed => self.random.pick(&[[second, first], [first, first]]),
            _ => {
                let unordered = |&(a, b): &(usize, usize)| !chart.is_directly_before(a, b);
                let pairs = (0..events).flat_map(|a| (0..events).map(move |b| (a, b)));
                let apart: Vec<(usize, usize)> = pairs.filter(unordered).collect();
                let (a, b) = self.random.pick(&apart);
                [a as u8, b as u8]
            }
        };
        self.write(place, &[first, second]);
        Some(Fault::NotDirectlyBefore { place })
    }

    /// The bytes of an interval whose ends are out of range or out of order.
    fn bad_interval(&mut self) -> [u8; 4] {
        let beyond = self.too_many_ticks();
        let lower = self.random.ticks(1..=MOST_TICKS);
        let below = self.random.ticks(0..=lower - 1);
        let (lower, upper) = match self.random.below(6) {
            0 => (beyond, None),
            1 => (0xFFFF, None),
            2 => (beyond, Some(beyond)),
            3 => (lower, Some(beyond)),
            4 => (lower, Some(lower - 1)),
            _ => (lower, Some(below)),
        };
        encode_interval(Interval { lower, upper })
    }

    fn spoil_constraint_interval(&mut self) -> Option<Fault> {
        let (chart, constraint) = self.any_constraint()?;
        let place = self.layout.constraint(self.book, chart, constraint);
        let interval = self.bad_interval();
        self.write(place + 2, &interval);
        Some(Fault::BadConstraintInterval { place })
    }

    /// Puts a chart of the same length with a cyclic order into the place of another.
    fn make_cyclic(&mut self) -> Option<Fault> {
        let number = self.any_chart();
        let chart = &self.book.charts[number];
        if chart.events.len() < 4 {
            return None;
        }
        let cyclic = cyclic_chart(self.random, self.book.stations, chart.events.len() / 2, chart.constraints.len());
        let place = self.layout.heads[number];
        self.write(place, &encode_chart(&cyclic));
        Some(Fault::CyclicOrder { place })
    }

    fn any_link(&mut self) -> Option<usize> {
        let links = self.book.links.len();
        (links > 0).then(|| self.random.below(links))
    }

    fn spoil_link_end(&mut self, damage: Damage) -> Option<Fault> {
        let link = self.any_link()?;
        let place = self.layout.link(link);
        let charts = self.book.charts.len();
        let byte = self.byte(|chart| usize::from(chart) >= charts);
        self.write(place + usize::from(damage == Damage::LinkTo), &[byte]);
        Some(Fault::NoSuchChart { place })
    }

    fn spoil_link_interval(&mut self) -> Option<Fault> {
        let link = self.any_link()?;
        let place = self.layout.link(link);
        let station = self.random.below(MOST_STATIONS);
        let interval = self.bad_interval();
        self.write(place + 2 + 4 * station, &interval);
        Some(Fault::BadLinkInterval { place })
    }

    fn add_interval_not_due(&mut self) -> Option<Fault> {
        let number = self.any_link()?;
        let link = &self.book.links[number];
        let not_due: Vec<usize> =
            (0..MOST_STATIONS).filter(|&station| self.book.is_open_due(link.from, link.to, station)).collect();
        if not_due.is_empty() {
            return None;
        }
        let station = self.random.pick(&not_due);
        let upper = self.random.ticks(0..=MOST_TICKS);
        let lower = self.random.ticks(0..=upper);
        let intervals = [(0, Some(0)), (0, Some(MOST_TICKS)), (1, None), (lower, Some(upper))];
        let (lower, upper) = self.random.pick(&intervals);
        let place = self.layout.link(number);
        self.write(place + 2 + 4 * station, &encode_interval(Interval { lower, upper }));
        Some(Fault::IntervalNotDue { place })
    }
}
