//! Datings of tiny books, found by trying all dates and asking the judge, which knows nothing of bounds.

use checker::bounds::BookBounds;
use checker::chart::{Book, Chart, Constraint, Event, Interval, Kind, Link};
use checker::dating::{earliest_dating, profile};
use checker::generate::{Random, encode};
use checker::{Judgement, judge};

/// The largest lower end of a link, and the largest far.
const MOST: u16 = 2;

fn interval(random: &mut Random, most_lower: u16) -> Interval {
    let lower = random.ticks(0..=most_lower);
    let upper = random.ticks(lower..=lower + 2);
    Interval { lower, upper: random.chance(2, 3).then_some(upper) }
}

/// Two or three stations, charts of one message, so that a path of two charts has at most six events.
fn tiny_book(random: &mut Random) -> Book {
    let stations = random.between(2..=3);
    let charts: Vec<Chart> = (0..2).map(|_| tiny_chart(random, stations)).collect();
    let far = random.ticks(0..=MOST);
    let mut intervals = [Interval::OPEN; 8];
    for (station, due) in intervals.iter_mut().enumerate().take(stations) {
        if !charts[0].is_silent(station) && !charts[1].is_silent(station) {
            *due = interval(random, MOST);
        }
    }
    let links = vec![Link { from: 0, to: 1, intervals }];
    Book { stations, charts, first: 0, links, near: random.ticks(0..=far), far }
}

fn tiny_chart(random: &mut Random, stations: usize) -> Chart {
    let from = random.below(stations);
    let to = (from + random.between(1..=stations - 1)) % stations;
    let events = vec![Event { station: from, kind: Kind::Send, pair: 1 }, Event { station: to, kind: Kind::Receive, pair: 0 }];
    let constraint = Constraint { first: 0, second: 1, interval: interval(random, MOST + 1) };
    Chart { events, constraints: if random.chance(1, 2) { vec![constraint] } else { vec![] }, is_final: false }
}

/// All lists of so many dates up to a largest one.
fn all_dates(events: usize, largest: u32) -> impl Iterator<Item = Vec<u32>> {
    let base = largest + 1;
    (0..base.pow(events as u32)).map(move |code| (0..events as u32).map(|event| code / base.pow(event) % base).collect())
}

#[test]
fn datings_are_those_that_the_judge_keeps() {
    let mut random = Random::new(11);
    let (mut dated, mut undated) = (0, 0);
    for _ in 0..150 {
        let book = tiny_book(&mut random);
        let links = vec![0; random.below(2)];
        let bytes = encode(&book);
        let bounds = BookBounds::of(&book);
        let path = bounds.path(book.visits(&links), links.clone());
        // A chart spreads over far, and need not come later after the last one than the largest lower end.
        let largest = u32::from(book.far) + links.len() as u32 * u32::from(MOST + book.far);
        let is_kept = |dates: &Vec<u32>| judge(&bytes, &links, dates) == Ok(Judgement::Kept);
        let datings: Vec<Vec<u32>> = all_dates(path.events(), largest).filter(is_kept).collect();
        if datings.is_empty() {
            undated += 1;
            assert_eq!(earliest_dating(&path), None);
            assert_eq!(profile(&path), None);
            continue;
        }
        dated += 1;
        let earliest_of = |event: usize| datings.iter().map(|dating| i64::from(dating[event])).min().unwrap();
        assert_eq!(earliest_dating(&path), Some((0..path.events()).map(earliest_of).collect()));
        let found = profile(&path).unwrap();
        let end = path.positions() - 1;
        for (p, q) in (0..book.stations).flat_map(|p| (0..book.stations).map(move |q| (p, q))) {
            let (p_last, q_last) = (path.last_event(end, p), path.last_event(end, q));
            let difference = |dating: &Vec<u32>| i64::from(dating[p_last]) - i64::from(dating[q_last]);
            assert_eq!(Some(found[p][q]), datings.iter().map(difference).max());
        }
    }
    assert!(dated > 40 && undated > 20, "{dated} dated, {undated} not");
}
