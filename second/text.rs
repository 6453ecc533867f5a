// What the program prints for one sheet, as bytes, for any input.

use crate::list::{analyse, Answer, Refusal, Row, MOST_ROWS};
use crate::sheet::{read, Table};

pub const MOST_BYTES: usize = 1_024;

pub enum Outcome {
    AllShown {
        table: Table,
        bounds: Vec<u64>,
    },
    NotShown {
        table: Table,
        place: usize,
        bounds: Vec<u64>,
    },
    Refused(Refusal),
}

pub fn outcome(input: &[u8]) -> Outcome {
    let sheet = &input[..input.len().min(MOST_BYTES)];
    let table = match read(sheet) {
        Ok(table) => table,
        Err(refusal) => return Outcome::Refused(refusal),
    };
    let rows: Vec<Row> = table.rows.iter().map(|row| row.row).collect();
    match analyse(u64::from(table.cores), &rows, MOST_ROWS) {
        Answer::AllShown { bounds } => Outcome::AllShown { table, bounds },
        Answer::NotShown { place, bounds } => Outcome::NotShown {
            table,
            place,
            bounds,
        },
        Answer::Refused(refusal) => Outcome::Refused(refusal),
    }
}

pub fn text(outcome: &Outcome) -> Vec<u8> {
    let lines = match outcome {
        Outcome::AllShown { table, bounds } => {
            first_line(table) + &row_lines(table, bounds) + "all shown\n"
        }
        Outcome::NotShown {
            table,
            place,
            bounds,
        } => {
            let label = table.rows[place - 1].label;
            first_line(table) + &row_lines(table, bounds) + &format!("not shown {place} {label}\n")
        }
        Outcome::Refused(Refusal { number, place }) => format!("refused {number} {place}\n"),
    };
    lines.into_bytes()
}

pub fn answer(input: &[u8]) -> Vec<u8> {
    text(&outcome(input))
}

fn first_line(table: &Table) -> String {
    format!(
        "cores {} tick {} rows {}\n",
        table.cores,
        table.tick,
        table.rows.len()
    )
}

/// One line for each row that has a bound.
fn row_lines(table: &Table, bounds: &[u64]) -> String {
    let mut lines = String::new();
    for (index, (row, bound)) in table.rows.iter().zip(bounds).enumerate() {
        lines += &format!("{} {} {} {}\n", index + 1, row.label, bound, row.row.d);
    }
    lines
}
