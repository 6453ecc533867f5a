// The comparison of the desk's own command: a process for each sheet, its text and its status.

use std::io::{Read, Result, Write};
use std::process::ChildStdin;
use std::thread;
use std::time::Duration;

use crate::compare::{complain, conclude, hex, start};
use crate::desk_cases::{written, Written};
use crate::sheets;
use crate::tally::Tally;
use crate::text::{outcome, text, Outcome};

/// So many processes run at a time.
const WORKERS: usize = 2;
/// How long a program may take until it reads, and how long the pauses of one sheet are together. A
/// slower program reads several pieces at once, and its answer is the same.
const START: Duration = Duration::from_millis(200);
const PAUSE: Duration = Duration::from_millis(120);

/// What a process gives for a sheet; no status if it was ended from outside.
#[derive(PartialEq, Eq)]
struct Given {
    text: Vec<u8>,
    status: Option<i32>,
}

/// Compares the fixed sheets and `count` more and prints what came of it; whether all were the same.
pub fn compare(seed: u64, count: u64, program: &str, arguments: &[String]) -> bool {
    let cases = written(seed, count);
    let outcomes: Vec<Outcome> = cases.iter().map(|case| outcome(&case.sheet)).collect();
    let is_same = |index: usize| {
        let given = run(program, arguments, &cases[index]);
        is_same(index, &cases[index], &wanted(&outcomes[index]), given)
    };
    if !all_in_shares(cases.len(), is_same) {
        return false;
    }
    let mut tally = Tally::requiring(&sheets::required());
    for outcome in &outcomes {
        sheets::count(&mut tally, outcome);
    }
    conclude("desk", &tally, cases.len())
}

/// Whether it holds for each index below `count`. Each worker takes its share and stops at the first
/// for which it doesn't.
fn all_in_shares(count: usize, holds: impl Fn(usize) -> bool + Sync) -> bool {
    let share = |from: usize| (from..count).step_by(WORKERS).all(&holds);
    thread::scope(|scope| {
        let start = |from| scope.spawn(move || share(from));
        let workers: Vec<_> = (0..WORKERS).map(start).collect();
        let hold = |worker: thread::ScopedJoinHandle<bool>| worker.join().is_ok_and(|hold| hold);
        workers.into_iter().all(hold)
    })
}

/// Status 0 where all rows are shown, 1 where one is not, 2 where the sheet is refused.
fn wanted(outcome: &Outcome) -> Given {
    let status = match outcome {
        Outcome::AllShown { .. } => 0,
        Outcome::NotShown { .. } => 1,
        Outcome::Refused(_) => 2,
    };
    Given {
        text: text(outcome),
        status: Some(status),
    }
}

fn run(program: &str, arguments: &[String], case: &Written) -> Result<Given> {
    let mut child = start(program, arguments)?;
    if let Some(input) = child.stdin.take() {
        write_pieces(input, case);
    }
    let mut text = Vec::new();
    if let Some(mut output) = child.stdout.take() {
        output.read_to_end(&mut text)?;
    }
    let status = child.wait()?.code();
    Ok(Given { text, status })
}

/// The program may stop reading before the end, so that a write that is not taken is no fault. A sheet
/// in pieces comes when the program is likely to wait for it, and the pause after a piece lets the
/// program read it alone. The input is closed at the end.
fn write_pieces(mut input: ChildStdin, case: &Written) {
    if case.pieces.len() > 1 {
        thread::sleep(START);
    }
    let pause = PAUSE / case.pieces.len() as u32;
    let mut rest = &case.sheet[..];
    for &length in &case.pieces {
        let (piece, after) = rest.split_at(length);
        let _ = input.write_all(piece).and_then(|()| input.flush());
        rest = after;
        if !rest.is_empty() {
            thread::sleep(pause);
        }
    }
}

fn is_same(index: usize, case: &Written, wanted: &Given, given: Result<Given>) -> bool {
    match given {
        Ok(given) if given == *wanted => true,
        Ok(given) => {
            show_difference(index, case, wanted, &given);
            false
        }
        Err(error) => complain(&format!("desk: case {index} has no answer: {error}")),
    }
}

fn show_difference(index: usize, case: &Written, wanted: &Given, given: &Given) {
    let shown = |given: &Given| {
        let status = given
            .status
            .map_or("none".to_string(), |code| code.to_string());
        format!("{}status {status}", String::from_utf8_lossy(&given.text))
    };
    println!(
        "desk: case {index} differs, {} bytes in pieces of {:?}\n{}\nown answer:\n{}\nprogram's answer:\n{}",
        case.sheet.len(),
        case.pieces,
        hex(&case.sheet),
        shown(wanted),
        shown(given)
    );
}
