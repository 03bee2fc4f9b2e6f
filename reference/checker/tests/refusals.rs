//! What is refused, in which order, and what a refusal leaves.

mod common;

use checker::text::{notice, report};
use checker::{Examination, Fault, Judgement, Register, State, judge, read_book};
use common::{altered, begun, book, finished};

/// Faults made in Countdown, from the one that is found last to the one that is found first.
const FAULTS_BACKWARDS: [(usize, u8, Fault); 21] = [
    (145, 1, Fault::IntervalNotDue { place: 114 }),
    (117, 1, Fault::BadLinkInterval { place: 114 }),
    (115, 3, Fault::NoSuchChart { place: 114 }),
    (90, 0xFF, Fault::BadLinkInterval { place: 80 }),
    (46, 32, Fault::NoSuchChart { place: 46 }),
    (45, 1, Fault::BadEvent { place: 40 }),
    (41, 0x20, Fault::BadEvent { place: 40 }),
    (39, 2, Fault::FieldOutOfRange { place: 39 }),
    (38, 65, Fault::FieldOutOfRange { place: 38 }),
    (37, 3, Fault::FieldOutOfRange { place: 37 }),
    (25, 4, Fault::BadConstraintInterval { place: 22 }),
    (22, 1, Fault::NotDirectlyBefore { place: 22 }),
    (19, 2, Fault::BadEvent { place: 19 }),
    (13, 42, Fault::FieldOutOfRange { place: 13 }),
    (12, 2, Fault::FieldOutOfRange { place: 11 }),
    (9, 0xFF, Fault::FieldOutOfRange { place: 9 }),
    (8, 129, Fault::FieldOutOfRange { place: 8 }),
    (7, 3, Fault::FieldOutOfRange { place: 7 }),
    (5, 1, Fault::FieldOutOfRange { place: 5 }),
    (4, 2, Fault::WrongVersion),
    (2, b'N', Fault::WrongMark),
];

#[test]
fn the_first_fault_is_named_among_many() {
    let mut bytes = book("countdown");
    bytes.push(0);
    assert_eq!(read_book(&bytes), Err(Fault::TrailingBytes { place: 148 }));
    for (place, byte, fault) in FAULTS_BACKWARDS {
        bytes[place] = byte;
        assert_eq!(read_book(&bytes), Err(fault), "{place}");
    }
}

#[test]
fn a_cut_book_is_refused_at_the_record_that_is_cut() {
    let bytes = book("countdown");
    let records = [0, 5, 13, 16, 19, 22, 28, 31, 34, 37, 40, 43, 46, 80, 114, 148];
    for length in 0..bytes.len() {
        let place = records.windows(2).find(|ends| length < ends[1]).unwrap()[0];
        assert_eq!(read_book(&bytes[..length]), Err(Fault::RecordCut { place }), "{length}");
    }
}

#[test]
fn a_link_is_tested_station_by_station() {
    // Stations 2 and 3 are unused. For one station the ends are tested first, and station 2 ahead of station 3.
    let bad_end_later = altered("countdown", &[(57, 1), (60, 0xFF), (61, 0xFE)]);
    assert_eq!(read_book(&bad_end_later), Err(Fault::IntervalNotDue { place: 46 }));
    let bad_end_unused = altered("countdown", &[(56, 0xFF)]);
    assert_eq!(read_book(&bad_end_unused), Err(Fault::BadLinkInterval { place: 46 }));
    let open_lower = altered("countdown", &[(57, 1)]);
    assert_eq!(read_book(&open_lower), Err(Fault::IntervalNotDue { place: 46 }));
}

#[test]
fn the_largest_ticks_are_taken_and_one_more_is_not() {
    let [high, low] = 10_000_u16.to_be_bytes();
    assert!(read_book(&altered("countdown", &[(11, high), (12, low), (26, high), (27, low)])).is_ok());
    assert_eq!(read_book(&altered("countdown", &[(11, high), (12, low + 1)])), Err(Fault::FieldOutOfRange { place: 11 }));
    let lower_none = altered("countdown", &[(24, 0xFF), (25, 0xFF), (26, 0xFF), (27, 0xFF)]);
    assert_eq!(read_book(&lower_none), Err(Fault::BadConstraintInterval { place: 22 }));
}

#[test]
fn an_idle_examination_refuses_all_but_begin_and_verdict() {
    let mut register = Register::new(3).unwrap();
    let mut examination = Examination::new();
    assert_eq!(examination.advance(&mut register, 1), Err(Fault::Idle));
    assert_eq!(examination.verdict(&register), (State::Idle, 0));
    assert_eq!(examination.leg(&register, 0), Err(Fault::Idle));
    assert_eq!(examination.dates(&register, &mut []), Err(Fault::Idle));
    assert_eq!(report(&examination, &register, &mut [], &mut []), Err(Fault::Idle));
}

#[test]
fn path_and_dates_are_refused_unless_the_state_is_runs() {
    let late = altered("countdown", &[(121, 1), (123, 1)]);
    let open = begun(&book("countdown"), 5);
    let cases =
        [((open.0, open.1), State::Open), (finished(&late, 64), State::Empty), (finished(&book("countdown"), 2), State::Spent)];
    for ((mut examination, mut register), state) in cases {
        assert_eq!(examination.verdict(&register), (state, 0));
        assert_eq!(examination.leg(&register, 9), Err(Fault::NotRunning));
        assert_eq!(examination.dates(&register, &mut []), Err(Fault::NotRunning));
        assert_eq!(examination.advance(&mut register, 0), Ok((0, state)));
    }
}

#[test]
fn capacity_is_tested_before_the_book() {
    let mut none = Register::new(0).unwrap();
    assert_eq!(Examination::new().begin(&mut none, &[]), Err(Fault::NoCapacity));
    assert_eq!(Examination::new().begin(&mut none, &book("countdown")), Err(Fault::NoCapacity));
    assert!(Register::new(4_096).is_some());
    assert!(Register::new(4_097).is_none());
}

#[test]
fn a_refused_begin_leaves_the_examination_as_it_was() {
    let (mut examination, mut register, _) = begun(&book("countdown"), 5);
    examination.advance(&mut register, 3).unwrap();
    let before = register.clone();
    assert_eq!(examination.begin(&mut register, b"TCM"), Err(Fault::RecordCut { place: 0 }));
    assert_eq!(register, before);
    assert_eq!(examination.advance(&mut register, 9), Ok((4, State::Runs)));
}

#[test]
fn begin_may_follow_any_state() {
    let (mut examination, mut register) = finished(&book("countdown"), 3);
    assert_eq!(examination.state(), State::Spent);
    assert_eq!(examination.begin(&mut register, &book("one-message")), Ok(State::Runs));
    assert_eq!(register.count(), 1);
    assert_eq!(examination.begin(&mut register, &book("one-message-near-0")), Ok(State::Empty));
    assert_eq!(register.count(), 0);
    assert_eq!(examination.begin(&mut register, &book("countdown")), Ok(State::Open));
    assert_eq!(register.count(), 1);
}

#[test]
fn too_little_space_is_refused_and_nothing_is_written() {
    let (examination, register) = finished(&book("countdown"), 5);
    let mut dates = [7; 9];
    assert_eq!(examination.dates(&register, &mut dates), Err(Fault::TooLittleSpace { needed: 10 }));
    assert_eq!(dates, [7; 9]);
    assert_eq!(examination.leg(&register, 5), Err(Fault::OffPath { charts: 5 }));
    let mut text = [b'x'; 48];
    assert_eq!(report(&examination, &register, &mut dates, &mut []), Err(Fault::TooLittleSpace { needed: 10 }));
    assert_eq!(report(&examination, &register, &mut [0; 10], &mut text[..46]), Err(Fault::TooLittleSpace { needed: 47 }));
    assert_eq!(text, [b'x'; 48]);
    assert_eq!(report(&examination, &register, &mut [0; 10], &mut text), Ok(47));
    assert_eq!(&text[..9], b"runs 5\n- ");
    assert_eq!(text[46..], *b"\nx");
}

#[test]
fn a_report_without_a_path_needs_no_working_space() {
    let (examination, register, _) = begun(&book("countdown"), 5);
    let mut text = [0; 5];
    assert_eq!(report(&examination, &register, &mut [], &mut text[..4]), Err(Fault::TooLittleSpace { needed: 5 }));
    assert_eq!(report(&examination, &register, &mut [], &mut text), Ok(5));
    assert_eq!(&text, b"open\n");
}

#[test]
fn a_notice_needs_its_space() {
    let mut text = [0; 17];
    assert_eq!(notice(Fault::TrailingBytes { place: 148 }, &mut text[..15]), Err(Fault::TooLittleSpace { needed: 16 }));
    assert_eq!(text, [0; 17]);
    assert_eq!(notice(Fault::TrailingBytes { place: 148 }, &mut text), Ok(16));
    assert_eq!(&text, b"refused 4 1 148\n\0");
}

#[test]
fn the_judge_tests_book_links_and_dates_in_turn() {
    assert_eq!(judge(b"", &[9], &[]), Err(Fault::RecordCut { place: 0 }));
    let bytes = book("countdown");
    assert_eq!(judge(&bytes, &[9], &[]), Err(Fault::BadLinkNumber { position: 0 }));
    assert_eq!(judge(&bytes, &[1], &[]), Err(Fault::BadLinkNumber { position: 0 }));
    assert_eq!(judge(&bytes, &[0, 3], &[]), Err(Fault::BadLinkNumber { position: 1 }));
    assert_eq!(judge(&bytes, &[], &[0]), Err(Fault::WrongDateCount { needed: 2 }));
    assert_eq!(judge(&bytes, &[], &[0, 3]), Ok(Judgement::Kept));
    assert_eq!(judge(&bytes, &[], &[u32::MAX, 0]), Ok(Judgement::Broken { position: 0 }));
}

#[test]
fn the_judge_takes_4095_links_and_no_more() {
    let bytes = book("countdown");
    let mut links = vec![1; 4_095];
    links[0] = 0;
    assert_eq!(judge(&bytes, &links, &[]), Err(Fault::WrongDateCount { needed: 8_192 }));
    links.push(1);
    assert_eq!(judge(&bytes, &links, &[]), Err(Fault::BadLinkNumber { position: 4_095 }));
    links[4_094] = 0;
    assert_eq!(judge(&bytes, &links, &[]), Err(Fault::BadLinkNumber { position: 4_094 }));
}

/// Numbers and layers as they are listed, one fault of each variant.
#[test]
fn every_fault_has_its_number_and_layer() {
    let listed = [
        (Fault::RecordCut { place: 7 }, "refused 1 1 7"),
        (Fault::WrongMark, "refused 2 1 0"),
        (Fault::WrongVersion, "refused 2 1 3"),
        (Fault::FieldOutOfRange { place: 7 }, "refused 3 1 7"),
        (Fault::TrailingBytes { place: 7 }, "refused 4 1 7"),
        (Fault::BadEvent { place: 7 }, "refused 5 2 7"),
        (Fault::NotDirectlyBefore { place: 7 }, "refused 6 2 7"),
        (Fault::BadConstraintInterval { place: 7 }, "refused 7 2 7"),
        (Fault::BadLinkInterval { place: 7 }, "refused 7 3 7"),
        (Fault::CyclicOrder { place: 7 }, "refused 8 2 7"),
        (Fault::NoSuchChart { place: 7 }, "refused 9 3 7"),
        (Fault::IntervalNotDue { place: 7 }, "refused 10 3 7"),
        (Fault::NoCapacity, "refused 11 4 0"),
        (Fault::Idle, "refused 12 4 0"),
        (Fault::NotRunning, "refused 13 4 0"),
        (Fault::OffPath { charts: 7 }, "refused 14 4 7"),
        (Fault::TooLittleSpace { needed: 7 }, "refused 15 4 7"),
        (Fault::BadLinkNumber { position: 7 }, "refused 16 4 7"),
        (Fault::WrongDateCount { needed: 7 }, "refused 17 4 7"),
    ];
    for (fault, text) in listed {
        assert_eq!(fault.to_string(), text);
    }
}
