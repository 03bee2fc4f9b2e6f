//! The independent checker as a program.

use std::io::{self, Read, Write};
use std::process::ExitCode;

use checker::generate::{Random, any_book};
use checker::register::Entered;
use checker::text::{check, notice_text};
use checker::walk::{Outcome, Step};
use checker::{Examination, Fault, Judgement, Register, State, judge, read_book};

const USAGE: &str = "usage: reference check FILE|-
       reference read FILE|-
       reference judge FILE|- LINKS / DATES
       reference walk FILE|- ROWS
       reference generate SEED COUNT";

fn main() -> ExitCode {
    let arguments: Vec<String> = std::env::args().skip(1).collect();
    let arguments: Vec<&str> = arguments.iter().map(String::as_str).collect();
    match run(&arguments) {
        Ok(()) => ExitCode::SUCCESS,
        Err(message) => {
            eprintln!("{message}");
            ExitCode::from(2)
        }
    }
}

fn run(arguments: &[&str]) -> Result<(), String> {
    match arguments {
        ["check", file] => print(&check(&read_bytes(file)?)),
        ["read", file] => print(&read_answer(&read_bytes(file)?)),
        ["judge", file, numbers @ ..] => print(&judge_answer(&read_bytes(file)?, &numbers.join(" "))?),
        ["walk", file, rows] => print_walk(&read_bytes(file)?, number(rows)?),
        ["generate", seed, count] => print_books(number(seed)?, number(count)?),
        _ => Err(USAGE.to_string()),
    }
}

fn read_bytes(file: &str) -> Result<Vec<u8>, String> {
    let mut bytes = Vec::new();
    let done = match file {
        "-" => io::stdin().read_to_end(&mut bytes).map(|_| bytes),
        _ => std::fs::read(file),
    };
    done.map_err(|error| format!("{file}: {error}"))
}

fn number<T: std::str::FromStr>(text: &str) -> Result<T, String> {
    text.parse().map_err(|_| format!("not a number that is wanted here: {text}"))
}

fn print(text: &str) -> Result<(), String> {
    io::stdout().write_all(text.as_bytes()).map_err(|error| error.to_string())
}

fn read_answer(bytes: &[u8]) -> String {
    read_book(bytes).map_or_else(notice_text, |_| "taken\n".to_string())
}

/// Links and dates are divided by a stroke.
fn judge_answer(bytes: &[u8], numbers: &str) -> Result<String, String> {
    let (links, dates) = numbers.split_once('/').ok_or(USAGE)?;
    let links = links.split_whitespace().map(number).collect::<Result<Vec<usize>, _>>()?;
    let dates = dates.split_whitespace().map(number).collect::<Result<Vec<u32>, _>>()?;
    Ok(match judge(bytes, &links, &dates) {
        Ok(Judgement::Kept) => "kept\n".to_string(),
        Ok(Judgement::Broken { position }) => format!("broken {position}\n"),
        Err(fault) => notice_text(fault),
    })
}

fn print_walk(bytes: &[u8], rows: usize) -> Result<(), String> {
    let mut register = Register::new(rows).ok_or("a register has at most 4,096 rows")?;
    let mut examination = Examination::new();
    match walk_lines(&mut examination, &mut register, bytes) {
        Ok(lines) => print(&lines),
        Err(fault) => print(&notice_text(fault)),
    }
}

fn walk_lines(examination: &mut Examination, register: &mut Register, bytes: &[u8]) -> Result<String, Fault> {
    let mut lines = format!("begin {}\n", state_name(examination.begin(register, bytes)?));
    for count in 1.. {
        let Some(step) = examination.step(register) else {
            break;
        };
        lines.push_str(&format!("step {count} {}\n", step_text(step)));
    }
    let (state, charts) = examination.verdict(register);
    Ok(format!("{lines}verdict {} {charts}\n", state_name(state)))
}

fn step_text(step: Step) -> String {
    let outcome = match step.outcome {
        Outcome::Undatable => "undatable".to_string(),
        Outcome::Entered(Entered::Known(place)) => format!("known {place}"),
        Outcome::Entered(Entered::New(place)) => format!("new {place}"),
        Outcome::Entered(Entered::Full) => "full".to_string(),
    };
    format!("row {} link {} {outcome}", step.tried.row, step.tried.link)
}

fn state_name(state: State) -> &'static str {
    match state {
        State::Idle => "idle",
        State::Open => "open",
        State::Runs => "runs",
        State::Empty => "empty",
        State::Spent => "spent",
    }
}

fn print_books(seed: u64, count: u64) -> Result<(), String> {
    let mut random = Random::new(seed);
    let mut out = io::BufWriter::new(io::stdout().lock());
    for _ in 0..count {
        let hex: String = any_book(&mut random).iter().map(|byte| format!("{byte:02x}")).collect();
        writeln!(out, "{hex}").map_err(|error| error.to_string())?;
    }
    out.flush().map_err(|error| error.to_string())
}
