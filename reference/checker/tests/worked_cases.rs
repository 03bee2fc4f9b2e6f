//! The cases that the documentation works out by hand, with all their numbers.

mod common;

use checker::bounds::BookBounds;
use checker::dating::earliest_dating;
use checker::register::{Entered, Origin};
use checker::text::{check, report_text};
use checker::walk::{Leg, Outcome, Pair, Step};
use checker::{Fault, Judgement, State, judge, read_book};
use common::{altered, begun, book, finished};

const NEAR_2: [(usize, u8); 1] = [(10, 2)];
const LATE_LAST_LINK: [(usize, u8); 2] = [(121, 1), (123, 1)];

#[test]
fn one_message_runs_at_begin() {
    for rows in [1, 2, 64, 4_096] {
        let (examination, register, state) = begun(&book("one-message"), rows);
        assert_eq!(state, State::Runs);
        assert_eq!(register.count(), 1);
        assert_eq!(examination.verdict(&register), (State::Runs, 1));
        assert_eq!(examination.leg(&register, 0), Ok(Leg { chart: 0, link: None }));
        assert_eq!(examination.leg(&register, 1), Err(Fault::OffPath { charts: 1 }));
        let mut space = [9; 5];
        assert_eq!(examination.dates(&register, &mut space), Ok(3));
        assert_eq!(space, [0, 1, 0, 9, 9]);
        assert_eq!(report_text(&examination, &register).unwrap(), "runs 1\n- 0 0 1 0\n");
    }
}

#[test]
fn one_message_has_the_profile_of_the_table() {
    let (_, register, _) = begun(&book("one-message"), 1);
    let row = register.read(0).unwrap();
    assert_eq!((row.chart, row.origin), (0, None));
    let entries: Vec<&[i64]> = row.profile[..3].iter().map(|entries| &entries[..3]).collect();
    assert_eq!(entries, [[0, -1, 2], [3, 0, 3], [3, 2, 0]]);
    assert!(row.profile[3..].iter().flatten().all(|&entry| entry == 0));
}

/// Each profile entry of the table is reached by the dating that stands beside it.
#[test]
fn one_message_entries_are_reached() {
    let bytes = book("one-message");
    for dates in [[0, 1, 0], [0, 3, 0], [2, 3, 0], [0, 1, 3]] {
        assert_eq!(judge(&bytes, &[], &dates), Ok(Judgement::Kept));
    }
}

#[test]
fn one_message_near_0_is_empty_at_begin() {
    let (examination, register, state) = begun(&book("one-message-near-0"), 1);
    assert_eq!(state, State::Empty);
    assert_eq!(register.count(), 0);
    assert_eq!(examination.verdict(&register), (State::Empty, 0));
    assert_eq!(check(&book("one-message-near-0")), "empty\n");
}

fn tried(row: usize, link: usize, outcome: Outcome) -> Step {
    Step { tried: Pair { row, link }, outcome }
}

/// The first six steps of Countdown, which several cases share.
fn six_steps() -> Vec<Step> {
    let new = |place| Outcome::Entered(Entered::New(place));
    vec![
        tried(0, 0, new(1)),
        tried(1, 1, new(2)),
        tried(1, 2, Outcome::Undatable),
        tried(2, 1, new(3)),
        tried(2, 2, Outcome::Undatable),
        tried(3, 1, Outcome::Undatable),
    ]
}

#[test]
fn countdown_with_5_rows_runs_at_step_7() {
    let (mut examination, mut register, state) = begun(&book("countdown"), 5);
    assert_eq!(state, State::Open);
    for expected in six_steps() {
        assert_eq!(examination.step(&mut register), Some(expected));
    }
    assert_eq!(examination.verdict(&register), (State::Open, 0));
    assert_eq!(examination.step(&mut register), Some(tried(3, 2, Outcome::Entered(Entered::New(4)))));
    assert_eq!(examination.verdict(&register), (State::Runs, 5));
    assert_eq!(examination.step(&mut register), None);
}

#[test]
fn countdown_counts_the_steps_of_each_advance() {
    let (mut examination, mut register, _) = begun(&book("countdown"), 5);
    assert_eq!(examination.advance(&mut register, 0), Ok((0, State::Open)));
    assert_eq!(examination.advance(&mut register, 6), Ok((6, State::Open)));
    assert_eq!(examination.advance(&mut register, 65_535), Ok((1, State::Runs)));
    assert_eq!(examination.advance(&mut register, 65_535), Ok((0, State::Runs)));
}

#[test]
fn countdown_has_the_rows_of_the_table() {
    let (_, register) = finished(&book("countdown"), 5);
    let came = |row, link| Some(Origin { row, link });
    let expected =
        [(0, -3, 3, None), (1, -2, 2, came(0, 0)), (1, -1, 1, came(1, 1)), (1, 0, 0, came(2, 1)), (2, 0, 0, came(3, 2))];
    let rows: Vec<_> = register.rows().iter().map(|row| (row.chart, row.profile[0][1], row.profile[1][0], row.origin)).collect();
    assert_eq!(rows, expected);
}

#[test]
fn countdown_shows_its_path_and_dates() {
    let (examination, register) = finished(&book("countdown"), 64);
    let legs: Vec<_> = (0..5).map(|position| examination.leg(&register, position).unwrap()).collect();
    let charts: Vec<_> = legs.iter().map(|leg| leg.chart).collect();
    let links: Vec<_> = legs.iter().map(|leg| leg.link).collect();
    assert_eq!(charts, [0, 1, 1, 1, 2]);
    assert_eq!(links, [None, Some(0), Some(1), Some(1), Some(2)]);
    let mut space = [0; 10];
    assert_eq!(examination.dates(&register, &mut space), Ok(10));
    assert_eq!(space, [0, 3, 2, 4, 4, 5, 6, 6, 6, 6]);
    let text = "runs 5\n- 0 0 3\n0 1 2 4\n1 1 4 5\n1 1 6 6\n2 2 6 6\n";
    assert_eq!(text.len(), 47);
    assert_eq!(report_text(&examination, &register).unwrap(), text);
    assert_eq!(check(&book("countdown")), text);
}

#[test]
fn countdown_with_4_rows_is_spent_at_step_7() {
    let (mut examination, mut register, _) = begun(&book("countdown"), 4);
    assert_eq!(examination.advance(&mut register, 6), Ok((6, State::Open)));
    assert_eq!(examination.advance(&mut register, 10), Ok((1, State::Spent)));
    assert_eq!(examination.verdict(&register), (State::Spent, 0));
    assert_eq!(register.count(), 4);
    assert_eq!(report_text(&examination, &register).unwrap(), "spent\n");
}

#[test]
fn countdown_near_2_is_empty_at_begin() {
    let (_, register, state) = begun(&altered("countdown", &NEAR_2), 1);
    assert_eq!(state, State::Empty);
    assert_eq!(register.count(), 0);
}

#[test]
fn countdown_late_last_link_is_empty_after_7_steps() {
    let (mut examination, mut register, _) = begun(&altered("countdown", &LATE_LAST_LINK), 4);
    for expected in six_steps() {
        assert_eq!(examination.step(&mut register), Some(expected));
    }
    assert_eq!(examination.state(), State::Open);
    assert_eq!(examination.step(&mut register), Some(tried(3, 2, Outcome::Undatable)));
    assert_eq!(examination.state(), State::Empty);
    assert_eq!(register.count(), 4);
}

#[test]
fn countdown_is_judged() {
    let bytes = book("countdown");
    let dates = [0, 3, 2, 4, 4, 5, 6, 6, 6, 6];
    let with_last = |last| [&dates[..9], &[last]].concat();
    assert_eq!(judge(&bytes, &[0, 1, 1, 2], &dates), Ok(Judgement::Kept));
    assert_eq!(judge(&bytes, &[0, 1, 1, 2], &with_last(5)), Ok(Judgement::Broken { position: 4 }));
    assert_eq!(judge(&bytes, &[0, 1, 1, 2], &with_last(7)), Ok(Judgement::Broken { position: 4 }));
    assert_eq!(judge(&bytes, &[0, 2, 2], &[]), Err(Fault::BadLinkNumber { position: 2 }));
    assert_eq!(judge(&bytes, &[0, 1, 1, 2], &dates[..9]), Err(Fault::WrongDateCount { needed: 10 }));
}

/// Ask and answer of the page on meaning: constraints 0–1 in 2.. and 0–3 in 0..5, near 5, far 8, stations 2 and 3 silent.
fn ask_and_answer(near: u8) -> Vec<u8> {
    let header = [4, 1, 0, 0, 0, near, 0, 8];
    let events = [[0, b'!', 1], [1, b'?', 0], [1, b'!', 3], [0, b'?', 2]];
    let constraints = [[0, 1, 0, 2, 0xFF, 0xFF], [0, 3, 0, 0, 0, 5]];
    [&b"TCM\0\x01"[..], &header, &[4, 2, 1], &events.concat(), &constraints.concat()].concat()
}

#[test]
fn ask_and_answer_is_judged() {
    let judged = |dates: [u32; 6]| judge(&ask_and_answer(5), &[], &dates).unwrap();
    assert_eq!(judged([0, 2, 2, 2, 0, 0]), Judgement::Kept);
    for dates in [[0, 1, 2, 3, 0, 0], [0, 2, 1, 3, 0, 0], [0, 2, 2, 2, 0, 9]] {
        assert_eq!(judged(dates), Judgement::Broken { position: 0 });
    }
    assert_eq!(check(&ask_and_answer(5)), "runs 1\n- 0 0 2 2 2 0 0\n");
    assert_eq!(check(&ask_and_answer(1)), "empty\n");
}

/// With near 3 and far 5 a silent event may lie further off than a working one.
#[test]
fn silent_events_are_held_to_far() {
    let far_5 = altered("one-message", &[(12, 5)]);
    assert_eq!(judge(&far_5, &[], &[0, 1, 5]), Ok(Judgement::Kept));
    assert_eq!(judge(&far_5, &[], &[0, 1, 6]), Ok(Judgement::Broken { position: 0 }));
    assert_eq!(judge(&far_5, &[], &[0, 4, 4]), Ok(Judgement::Broken { position: 0 }));
}

/// A countdown from 600 turns its loop 599 times; every step dates the whole path anew.
#[test]
fn long_loops_are_walked_to_their_end() {
    let [high, low] = 600_u16.to_be_bytes();
    let changes = [(9, high), (10, low), (11, high), (12, low), (24, high), (25, low), (26, high), (27, low)];
    let (examination, register) = finished(&altered("countdown", &changes), 602);
    assert_eq!(examination.verdict(&register), (State::Runs, 602));
    let stops = examination.stops(&register).unwrap();
    assert_eq!(stops[601].dates, [1_200, 1_200]);
}

#[test]
fn paths_need_not_be_those_of_the_walk() {
    let book = read_book(&book("countdown")).unwrap();
    let bounds = BookBounds::of(&book);
    let dating = |links: Vec<usize>| earliest_dating(&bounds.path(book.visits(&links), links));
    assert_eq!(dating(vec![]), Some(vec![0, 3]));
    assert_eq!(dating(vec![0, 1]), Some(vec![0, 3, 2, 4, 4, 5]));
    assert_eq!(dating(vec![0, 1, 1, 1]), None);
    assert_eq!(dating(vec![0, 2]), None);
}
