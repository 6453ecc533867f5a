// The sheets that are sent before the random ones: the document's own, and each number at least once.

use crate::document::{bytes, lists, SHEET};
use crate::draft::whole_ticks;

pub fn fixed() -> Vec<Vec<u8>> {
    let shorter = |d: &str| bytes(&SHEET.replace("00000190", d));
    let mut sheets = vec![
        bytes(SHEET),
        shorter("0000012C"),
        shorter("0000018F"),
        bytes(""),
        bytes("03 00"),
        bytes("07"),
        bytes(&format!("07 / {SHEET}")),
    ];
    sheets.extend(lists().iter().map(whole_ticks));
    sheets.extend(refused().into_iter().map(|refused| refused.sheet));
    sheets
}

/// A sheet that is turned away, with what the document gives for it.
pub struct Refused {
    pub name: &'static str,
    pub sheet: Vec<u8>,
    pub number: u32,
    pub place: u64,
}

/// Each number that a sheet can be turned away with, and those whose order tells.
pub fn refused() -> Vec<Refused> {
    let sheets = [kinds_and_cuts(), rows_and_ends(), lists_at_fault()];
    sheets.into_iter().flatten().collect()
}

fn sheet(name: &'static str, hex: &str, number: u32, place: u64) -> Refused {
    Refused {
        name,
        sheet: bytes(hex),
        number,
        place,
    }
}

const BOARD: &str = "01 01 0001";

fn row(priority: u64) -> String {
    format!("02 0000 {priority:04X} 00000001 00000001 00000001")
}

/// A board, one row, and what follows it.
fn first_row_then(rest: &str) -> String {
    format!("{BOARD} {} {rest}", row(1))
}

fn full_board_then(rest: &str) -> String {
    let full: String = (1..=32).map(row).collect();
    format!("{BOARD} {full} {rest}")
}

fn kinds_and_cuts() -> Vec<Refused> {
    vec![
        sheet("empty", "", 11, 0),
        sheet("end first", "03 00", 13, 0),
        sheet("kind 7 first", "07", 12, 0),
        sheet("row first, cut short", "02", 13, 0),
        sheet("board cut short", "01 01 00", 11, 0),
        sheet("only a board", BOARD, 11, 4),
        sheet("tick 0", "01 00 0000", 19, 0),
        sheet("kind 0 later", &format!("{BOARD} 00"), 12, 4),
        sheet("a later board, cut short", &format!("{BOARD} 01"), 13, 4),
        sheet("a row cut short", &first_row_then("02 00"), 11, 21),
        sheet("an end cut short", &first_row_then("03"), 11, 21),
        sheet("no end", &first_row_then(""), 11, 21),
        sheet("a 33rd row, cut short", &full_board_then("02"), 11, 548),
    ]
}

fn rows_and_ends() -> Vec<Refused> {
    let only = |priority: u64| format!("{BOARD} {}", row(priority));
    let a_33rd = |priority: u64| full_board_then(&row(priority));
    vec![
        sheet("priority 0", &only(0), 16, 4),
        sheet("priority 1,000", &only(1_000), 16, 4),
        sheet("priority 1 twice", &first_row_then(&row(1)), 15, 21),
        sheet("a 33rd row of priority 0", &a_33rd(0), 14, 548),
        sheet("a 33rd row of priority 1", &a_33rd(1), 14, 548),
        sheet(
            "wrong count, more bytes",
            &first_row_then("03 02 00"),
            17,
            21,
        ),
        sheet("more bytes", &first_row_then("03 01 00"), 18, 23),
        sheet("the sheet twice", &format!("{SHEET} {SHEET}"), 18, 57),
    ]
}

fn lists_at_fault() -> Vec<Refused> {
    let times = |c_d_t: &str| format!("{BOARD} / 02 0000 0001 {c_d_t} / 03 01");
    let on_board = |board: &str| format!("{board} {} 03 01", row(1));
    vec![
        sheet("no rows, no cores", "01 00 0001 03 00", 1, 0),
        sheet("no cores", &on_board("01 00 0001"), 2, 0),
        sheet("17 cores", &on_board("01 11 0001"), 2, 0),
        sheet("times below a tick", &on_board("01 01 0002"), 3, 1),
        sheet("D below C", &times("00000005 00000004 00000005"), 4, 1),
        sheet("T below D", &times("00000001 00000004 00000003"), 5, 1),
        sheet("T too large", &times("00000001 00000004 000F4241"), 6, 1),
    ]
}
