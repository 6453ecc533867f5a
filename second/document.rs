// What document 01 gives to check by hand, as cases: its sheet, and its lists with their cores.

use crate::list::Row;
use crate::row_lists::RowList;

pub const SHEET: &str = "01 02 0064 / 02 0065 0001 000000C8 000001F4 000001F4 / \
    02 006E 000A 000000C8 00000190 000003E8 / 02 0066 0002 0000012C 00000320 00000320 / 03 03";

/// The polls of the bench by hand: instant and place, each with its row's C as demand.
pub const POLLS_BY_HAND: [(u64, u64); 6] = [(0, 1), (0, 2), (0, 3), (4, 1), (6, 2), (8, 1)];

/// Each pair of digits is a byte; what is no digit only separates them for the eye.
pub fn bytes(hex: &str) -> Vec<u8> {
    let digits: Vec<u8> = hex
        .chars()
        .filter_map(|c| c.to_digit(16))
        .map(|digit| digit as u8)
        .collect();
    digits
        .chunks(2)
        .map(|pair| pair[0] * 16 + pair[1])
        .collect()
}

pub fn rows(list: &[(u64, u64, u64)]) -> Vec<Row> {
    list.iter().map(|&(c, d, t)| Row { c, d, t }).collect()
}

pub fn list(cores: u64, rows_of_list: &[(u64, u64, u64)]) -> RowList {
    let rows = rows(rows_of_list);
    RowList { cores, rows }
}

/// The lists of "Numbers to check by hand", in their order, those that are turned away too.
pub fn lists() -> Vec<RowList> {
    vec![
        list(2, &[(2, 5, 5), (3, 8, 8), (2, 4, 10)]),
        list(2, &[(2, 5, 5), (3, 8, 8), (2, 4, 10), (3, 20, 20)]),
        list(2, &[(2, 5, 5), (3, 8, 8), (2, 3, 10)]),
        list(1, &[(1, 4, 4), (2, 6, 6), (5, 12, 12)]),
        list(1, &[(1, 4, 4), (2, 6, 6), (5, 11, 12)]),
        list(1, &[(1, 1, 1)]),
        list(1, &[(1, 1, 1), (1, 1, 1)]),
        list(1, &[(1_000_000, 1_000_000, 1_000_000)]),
        list(1, &[(1_000_000, 1_000_000, 1_000_001)]),
        list(0, &[]),
        list(0, &[(0, 5, 5)]),
        list(1, &[(5, 4, 3)]),
    ]
}
