//! What the generator promises, and what must hold of every book that it makes.

use std::collections::BTreeSet;

use checker::bounds::BookBounds;
use checker::dating::earliest_dating;
use checker::generate::{Damage, Random, any_book, damage, damaged_book, encode, good_book};
use checker::register::Entered;
use checker::walk::Outcome;
use checker::{Book, Examination, Fault, Judgement, Register, State, judge, read_book};

const GOOD_BOOKS: usize = 5_000;

#[test]
fn good_books_are_taken_as_they_were_meant() {
    let mut random = Random::new(1);
    for _ in 0..GOOD_BOOKS {
        let book = good_book(&mut random);
        assert_eq!(read_book(&encode(&book)), Ok(book));
    }
}

#[test]
fn good_books_have_all_sizes() {
    let mut random = Random::new(2);
    let mut sizes = [const { BTreeSet::new() }; 5];
    let (mut several_finals, mut silent, mut small) = (0, 0, 0);
    for _ in 0..GOOD_BOOKS {
        let book = good_book(&mut random);
        let events = book.charts.iter().map(|chart| chart.events.len()).max().unwrap();
        let constraints = book.charts.iter().map(|chart| chart.constraints.len()).max().unwrap();
        let counts = [book.stations, book.charts.len(), events, constraints, book.links.len()];
        for (seen, count) in sizes.iter_mut().zip(counts) {
            seen.insert(count);
        }
        several_finals += usize::from(book.charts.iter().filter(|chart| chart.is_final).count() > 1);
        silent += usize::from(book.charts.iter().any(|chart| (0..book.stations).any(|station| chart.is_silent(station))));
        small += usize::from(book.charts.len() <= 4 && events <= 4);
    }
    let ends = sizes.map(|seen| (*seen.first().unwrap(), *seen.last().unwrap()));
    assert_eq!(ends, [(2, 8), (1, 32), (2, 40), (0, 64), (0, 128)]);
    assert!(several_finals > GOOD_BOOKS / 5 && silent > GOOD_BOOKS / 5 && small > GOOD_BOOKS / 2);
}

#[test]
fn each_damage_makes_the_fault_that_it_names() {
    let mut random = Random::new(3);
    let mut made = BTreeSet::new();
    for round in 0..20_000 {
        let book = good_book(&mut random);
        let group = Damage::GROUPS[round % Damage::GROUPS.len()];
        let kind = random.pick(group);
        if let Some((bytes, fault)) = damage(&mut random, &book, kind) {
            assert_eq!(read_book(&bytes), Err(fault), "{kind:?}");
            made.insert(format!("{kind:?}"));
        }
    }
    assert_eq!(made.len(), Damage::GROUPS.iter().map(|group| group.len()).sum());
}

#[test]
fn damaged_books_cover_every_refusal() {
    let mut random = Random::new(4);
    let faults: Vec<Fault> = (0..10_000).filter_map(|_| read_book(&damaged_book(&mut random)).err()).collect();
    let met: BTreeSet<(u8, u8)> = faults.iter().map(|fault| (fault.number(), fault.layer())).collect();
    let all = [(1, 1), (2, 1), (3, 1), (4, 1), (5, 2), (6, 2), (7, 2), (7, 3), (8, 2), (9, 3), (10, 3)];
    assert_eq!(met, BTreeSet::from(all));
    let header: BTreeSet<usize> =
        faults.iter().filter(|fault| fault.number() <= 3).map(|fault| fault.place()).filter(|&place| place < 16).collect();
    assert!([0, 3, 5, 6, 7, 8, 9, 11, 13, 14, 15].iter().all(|place| header.contains(place)), "{header:?}");
}

/// Every state and every outcome of a step is met, small registers make spent, and loops are turned many times.
#[test]
fn walks_meet_everything() {
    let mut random = Random::new(6);
    let mut states = BTreeSet::new();
    let mut outcomes = BTreeSet::new();
    let mut longest = 0;
    for _ in 0..2_000 {
        let bytes = encode(&good_book(&mut random));
        let mut register = Register::new(random.between(1..=30)).unwrap();
        let mut examination = Examination::new();
        states.insert((examination.begin(&mut register, &bytes).unwrap(), true));
        while let Some(step) = examination.step(&mut register) {
            outcomes.insert(match step.outcome {
                Outcome::Undatable => "undatable",
                Outcome::Entered(Entered::New(_)) => "new",
                Outcome::Entered(Entered::Known(_)) => "known",
                Outcome::Entered(Entered::Full) => "full",
            });
        }
        let (state, charts) = examination.verdict(&register);
        states.insert((state, false));
        longest = longest.max(charts);
    }
    let at_begin = [State::Open, State::Runs, State::Empty].map(|state| (state, true));
    let at_end = [State::Runs, State::Empty, State::Spent].map(|state| (state, false));
    assert_eq!(states, BTreeSet::from_iter(at_begin.into_iter().chain(at_end)));
    assert_eq!(outcomes.len(), 4);
    assert!(longest >= 15, "{longest}");
}

/// The dates that are shown keep all rules, and no single one of them can be lowered.
#[test]
fn dates_shown_are_judged_kept() {
    let mut random = Random::new(7);
    let mut shown = 0;
    for _ in 0..1_000 {
        let bytes = encode(&good_book(&mut random));
        let mut register = Register::new(20).unwrap();
        let mut examination = Examination::new();
        examination.begin(&mut register, &bytes).unwrap();
        examination.advance(&mut register, 500).unwrap();
        let Ok(stops) = examination.stops(&register) else {
            continue;
        };
        shown += 1;
        let links: Vec<usize> = stops.iter().filter_map(|stop| stop.leg.link).collect();
        let dates: Vec<u32> = stops.iter().flat_map(|stop| stop.dates.clone()).collect();
        assert_eq!(judge(&bytes, &links, &dates), Ok(Judgement::Kept));
        for event in (0..dates.len()).filter(|&event| dates[event] > 0) {
            let mut lowered = dates.clone();
            lowered[event] -= 1;
            assert_ne!(judge(&bytes, &links, &lowered), Ok(Judgement::Kept));
        }
    }
    assert!(shown > 300, "{shown}");
}

/// The first final path that can be dated, by number of charts and then by link numbers, with no thought of classes.
fn first_path_of_all(book: &Book, most_links: usize) -> Option<Vec<usize>> {
    let bounds = BookBounds::of(book);
    let mut paths = vec![Vec::new()];
    for _ in 0..=most_links {
        paths.retain(|links| earliest_dating(&bounds.path(book.visits(links), links.clone())).is_some());
        let ends_at = |links: &Vec<usize>| links.last().map_or(book.first, |&link| book.links[link].to);
        if let Some(found) = paths.iter().find(|links| book.charts[ends_at(links)].is_final) {
            return Some(found.clone());
        }
        let longer = |links: &Vec<usize>| {
            let onwards: Vec<usize> = (0..book.links.len()).filter(|&link| book.links[link].from == ends_at(links)).collect();
            onwards.into_iter().map(|link| [&links[..], &[link]].concat()).collect::<Vec<_>>()
        };
        paths = paths.iter().flat_map(longer).collect();
    }
    None
}

/// Keeping one path of each class loses nothing: the walk finds the path that a search of all paths finds first.
#[test]
fn walks_find_the_first_of_all_paths() {
    const MOST_LINKS: usize = 6;
    let mut random = Random::new(12);
    let (mut found, mut none) = (0, 0);
    while found + none < 600 {
        let book = good_book(&mut random);
        if book.links.is_empty() || book.links.len() > 6 {
            continue;
        }
        let mut register = Register::new(200).unwrap();
        let mut examination = Examination::new();
        examination.begin(&mut register, &encode(&book)).unwrap();
        while examination.step(&mut register).is_some() {}
        let walked = examination.stops(&register).ok().map(|stops| stops.iter().filter_map(|stop| stop.leg.link).collect());
        let short = walked.filter(|links: &Vec<usize>| links.len() <= MOST_LINKS);
        *(if short.is_some() { &mut found } else { &mut none }) += 1;
        assert_eq!(short, first_path_of_all(&book, MOST_LINKS));
    }
    assert!(found > 200 && none > 100, "{found} found, {none} none");
}

/// Budgets in pieces lead where one budget leads.
#[test]
fn budgets_add_up() {
    let mut random = Random::new(8);
    for _ in 0..500 {
        let bytes = encode(&good_book(&mut random));
        let mut whole = (Examination::new(), Register::new(12).unwrap());
        let mut parts = whole.clone();
        whole.0.begin(&mut whole.1, &bytes).unwrap();
        parts.0.begin(&mut parts.1, &bytes).unwrap();
        let (mut budget, mut steps) = (0, 0);
        for _ in 0..random.below(6) {
            let piece = random.ticks(0..=9);
            budget += piece;
            steps += parts.0.advance(&mut parts.1, piece).unwrap().0;
        }
        let (at_once, state) = whole.0.advance(&mut whole.1, budget).unwrap();
        assert_eq!((at_once, state, &whole.1), (steps, parts.0.state(), &parts.1));
    }
}

#[test]
fn the_same_seed_makes_the_same_books() {
    let books = |seed| {
        let mut random = Random::new(seed);
        (0..50).map(|_| any_book(&mut random)).collect::<Vec<_>>()
    };
    assert_eq!(books(9), books(9));
    assert_ne!(books(9), books(10));
}
