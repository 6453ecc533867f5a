// The commands: answer and selftest, the desk's own command, and three for each kind of case.

mod bench;
mod bench_cases;
mod bench_tests;
mod benches;
mod break_bench;
mod cases;
mod compare;
mod damage;
mod desk;
mod desk_cases;
mod document;
mod draft;
mod fixed_sheets;
mod frames;
mod histories;
mod history_cases;
mod lent_bench;
mod list;
mod list_cases;
mod list_tests;
mod lists;
mod numbers;
mod random;
mod row_lists;
mod selftest;
mod sheet;
mod sheet_tests;
mod sheets;
mod tally;
mod text;

use std::io::{stdin, stdout, Read, Result, Write};
use std::process::ExitCode;

use compare::{compare, write_answers, write_cases, Kind};

const USAGE: &str = "second answer
second selftest
second desk SEED COUNT PROGRAM [ARG..]
second sheets SEED COUNT PROGRAM [ARG..]
second frames SEED COUNT
second answers
second histories SEED COUNT PROGRAM [ARG..]
second history-frames SEED COUNT
second history-answers
second lists SEED COUNT PROGRAM [ARG..]
second list-frames SEED COUNT
second list-answers
second benches SEED COUNT PROGRAM [ARG..]
second bench-frames SEED COUNT
second bench-answers";

fn main() -> ExitCode {
    let arguments: Vec<String> = std::env::args().skip(1).collect();
    let done_well = own_command(&arguments)
        .or_else(|| command_of::<sheets::Sheets>(&arguments))
        .or_else(|| command_of::<histories::Histories>(&arguments))
        .or_else(|| command_of::<lists::Lists>(&arguments))
        .or_else(|| command_of::<benches::Benches>(&arguments));
    match done_well {
        Some(true) => ExitCode::SUCCESS,
        Some(false) => ExitCode::FAILURE,
        None => {
            eprintln!("{USAGE}");
            ExitCode::from(2)
        }
    }
}

/// Whether the command was done well; nothing if it is another one.
fn own_command(arguments: &[String]) -> Option<bool> {
    let words: Vec<&str> = arguments.iter().map(String::as_str).collect();
    match words[..] {
        ["answer"] => Some(done(answer())),
        ["selftest"] => Some(selftest::run()),
        ["desk", seed, count, program, ..] => {
            let (seed, count) = (seed.parse().ok()?, count.parse().ok()?);
            Some(desk::compare(seed, count, program, &arguments[4..]))
        }
        _ => None,
    }
}

/// The three commands that each kind of case has.
fn command_of<K: Kind>(arguments: &[String]) -> Option<bool> {
    let words: Vec<&str> = arguments.iter().map(String::as_str).collect();
    match words[..] {
        [name, seed, count, program, ..] if name == K::NAME => {
            let (seed, count) = (seed.parse().ok()?, count.parse().ok()?);
            Some(compare::<K>(seed, count, program, &arguments[4..]))
        }
        [name, seed, count] if name == K::FRAMES => {
            let (seed, count) = (seed.parse().ok()?, count.parse().ok()?);
            Some(done(write_cases::<K>(seed, count)))
        }
        [name] if name == K::ANSWERS => Some(done(write_answers::<K>())),
        _ => None,
    }
}

fn done(result: Result<()>) -> bool {
    if let Err(error) = &result {
        eprintln!("{error}");
    }
    result.is_ok()
}

fn answer() -> Result<()> {
    let mut sheet = Vec::new();
    stdin()
        .take(text::MOST_BYTES as u64)
        .read_to_end(&mut sheet)?;
    stdout().write_all(&text::answer(&sheet))
}
