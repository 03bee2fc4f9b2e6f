//! Report and notice, and what the program for checking a book prints.

use crate::fault::Fault;
use crate::register::Register;
use crate::walk::{Examination, State, Stop};

/// The rows of the program for checking a book.
pub const CHECK_ROWS: usize = 64;

/// Writes the state of an examination as text and answers how many bytes that are.
pub fn report(examination: &Examination, register: &Register, working: &mut [u32], text: &mut [u8]) -> Result<usize, Fault> {
    let lines = report_text(examination, register)?;
    if examination.state() == State::Runs {
        examination.dates(register, working)?;
    }
    copy_text(&lines, text)
}

/// The report with as much space as it needs.
pub fn report_text(examination: &Examination, register: &Register) -> Result<String, Fault> {
    match examination.state() {
        State::Idle => Err(Fault::Idle),
        State::Open => Ok("open\n".to_string()),
        State::Empty => Ok("empty\n".to_string()),
        State::Spent => Ok("spent\n".to_string()),
        State::Runs => {
            let stops = examination.stops(register)?;
            let lines: String = stops.iter().map(stop_line).collect();
            Ok(format!("runs {}\n{lines}", stops.len()))
        }
    }
}

/// The link that led here, the chart and its dates.
fn stop_line(stop: &Stop) -> String {
    let link = stop.leg.link.map_or("-".to_string(), |link| link.to_string());
    let dates: String = stop.dates.iter().map(|date| format!(" {date}")).collect();
    format!("{link} {}{dates}\n", stop.leg.chart)
}

/// Writes a fault as text and answers how many bytes that are.
pub fn notice(fault: Fault, text: &mut [u8]) -> Result<usize, Fault> {
    copy_text(&notice_text(fault), text)
}

pub fn notice_text(fault: Fault) -> String {
    format!("{fault}\n")
}

fn copy_text(lines: &str, text: &mut [u8]) -> Result<usize, Fault> {
    let needed = lines.len();
    let space = text.get_mut(..needed).ok_or(Fault::TooLittleSpace { needed })?;
    space.copy_from_slice(lines.as_bytes());
    Ok(needed)
}

/// What the program for checking a book prints: the report of a whole walk, or the notice.
pub fn check(bytes: &[u8]) -> String {
    let mut register = Register::new(CHECK_ROWS).expect("there are registers of this capacity");
    let mut examination = Examination::new();
    if let Err(fault) = examination.begin(&mut register, bytes) {
        return notice_text(fault);
    }
    while examination.step(&mut register).is_some() {}
    report_text(&examination, &register).expect("a book is taken")
}
