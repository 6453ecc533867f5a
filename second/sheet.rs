// The order sheet reader: bytes to cores, tick length and rows in rising priority, or a refusal.

use crate::list::{refuse, Refusal, Row, MOST_ROWS};

pub const BOARD: u8 = 1;
pub const ROW: u8 = 2;
pub const END: u8 = 3;

#[derive(Clone, Debug, PartialEq, Eq)]
pub struct Table {
    pub cores: u8,
    pub tick: u16,
    pub rows: Vec<LabelledRow>,
}

#[derive(Clone, Copy, Debug, PartialEq, Eq)]
pub struct LabelledRow {
    pub label: u16,
    pub priority: u16,
    pub row: Row,
}

struct Board {
    cores: u8,
    tick: u16,
}

pub fn read(sheet: &[u8]) -> Result<Table, Refusal> {
    let mut board: Option<Board> = None;
    let mut rows: Vec<LabelledRow> = Vec::new();
    let mut at = 0;
    loop {
        let record = record_at(sheet, at, board.is_none())?;
        match &board {
            None => board = Some(read_board(record, at)?),
            Some(board) if record[0] == ROW => rows.push(read_row(record, at, board.tick, &rows)?),
            Some(board) => {
                check_end(sheet, record, at, rows.len())?;
                rows.sort_by_key(|row| row.priority);
                let (cores, tick) = (board.cores, board.tick);
                return Ok(Table { cores, tick, rows });
            }
        }
        at += record.len();
    }
}

/// The record that begins at `at`, after the checks that come before its fields: 11, 12, 13, 11.
fn record_at(sheet: &[u8], at: usize, first: bool) -> Result<&[u8], Refusal> {
    let Some(&kind) = sheet.get(at) else {
        return refuse_at(11, sheet.len());
    };
    let Some(length) = record_length(kind) else {
        return refuse_at(12, at);
    };
    if first != (kind == BOARD) {
        return refuse_at(13, at);
    }
    match sheet.get(at..at + length) {
        Some(record) => Ok(record),
        None => refuse_at(11, at),
    }
}

fn refuse_at<T>(number: u32, at: usize) -> Result<T, Refusal> {
    refuse(number, at as u64)
}

/// The kind byte and the body.
fn record_length(kind: u8) -> Option<usize> {
    match kind {
        BOARD => Some(1 + 3),
        ROW => Some(1 + 16),
        END => Some(1 + 1),
        _ => None,
    }
}

fn read_board(record: &[u8], at: usize) -> Result<Board, Refusal> {
    let (cores, tick) = (record[1], two_bytes(record, 2));
    if tick == 0 {
        return refuse_at(19, at);
    }
    Ok(Board { cores, tick })
}

fn read_row(
    record: &[u8],
    at: usize,
    tick: u16,
    before: &[LabelledRow],
) -> Result<LabelledRow, Refusal> {
    let (label, priority) = (two_bytes(record, 1), two_bytes(record, 3));
    if before.len() == MOST_ROWS {
        return refuse_at(14, at);
    }
    if priority == 0 || priority > 999 {
        return refuse_at(16, at);
    }
    if before.iter().any(|row| row.priority == priority) {
        return refuse_at(15, at);
    }
    let ticks = |field: usize| four_bytes(record, field) / u64::from(tick);
    let (c, d, t) = (ticks(5), ticks(9), ticks(13));
    let row = Row { c, d, t };
    Ok(LabelledRow {
        label,
        priority,
        row,
    })
}

fn check_end(sheet: &[u8], record: &[u8], at: usize, rows: usize) -> Result<(), Refusal> {
    if usize::from(record[1]) != rows {
        return refuse_at(17, at);
    }
    let after = at + record.len();
    if sheet.len() > after {
        return refuse_at(18, after);
    }
    Ok(())
}

fn two_bytes(record: &[u8], at: usize) -> u16 {
    u16::from(record[at]) * 256 + u16::from(record[at + 1])
}

fn four_bytes(record: &[u8], at: usize) -> u64 {
    u64::from(two_bytes(record, at)) * 65_536 + u64::from(two_bytes(record, at + 2))
}
