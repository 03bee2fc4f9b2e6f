//! The register, by the example of its page.

use checker::Register;
use checker::register::{Entered, Origin, Row};

fn row(chart: usize, entry: i64) -> Row {
    let mut profile = [[0; 8]; 8];
    profile[0][1] = entry;
    Row { chart, profile, origin: None }
}

#[test]
fn rows_are_known_by_chart_and_profile() {
    let mut register = Register::new(2).unwrap();
    assert_eq!(register.enter(row(1, 5)), Entered::New(0));
    assert_eq!(register.enter(row(1, 6)), Entered::New(1));
    assert_eq!(register.enter(row(1, 5)), Entered::Known(0));
    let elsewhere = Row { origin: Some(Origin { row: 1, link: 3 }), ..row(1, 6) };
    assert_eq!(register.enter(elsewhere), Entered::Known(1));
    assert_eq!(register.enter(row(2, 5)), Entered::Full);
    assert_eq!(register.read(2), None);
    assert_eq!((register.count(), register.capacity()), (2, 2));
    register.clear();
    assert_eq!((register.count(), register.capacity()), (0, 2));
    assert_eq!(register.enter(row(2, 5)), Entered::New(0));
    assert_eq!(register.read(0), Some(&row(2, 5)));
}
