// The sheets for the desk's own command: full ones and long ones besides those of the comparison.

use crate::cases;
use crate::document::{bytes, SHEET};
use crate::draft::whole_ticks;
use crate::fixed_sheets;
use crate::list::Row;
use crate::random::Random;
use crate::row_lists::RowList;
use crate::text::MOST_BYTES;

/// A sheet, and the lengths of the pieces in which it is written.
pub struct Written {
    pub sheet: Vec<u8>,
    pub pieces: Vec<usize>,
}

pub fn written(seed: u64, count: u64) -> Vec<Written> {
    let mut sheets = fixed_sheets::fixed();
    sheets.extend([32, 33].map(full_sheet));
    sheets.extend((MOST_BYTES - 1..=1_100).map(long_sheet));
    sheets.extend((0..count).map(|index| cases::sheet(seed, index)));
    let random = &mut Random::new(seed);
    let in_pieces = |sheet: Vec<u8>| Written {
        pieces: pieces(random, sheet.len()),
        sheet,
    };
    sheets.into_iter().map(in_pieces).collect()
}

/// Rows that are all shown on 16 cores, as many as wanted.
fn full_sheet(count: u64) -> Vec<u8> {
    let row = |place: u64| Row {
        c: 1 + place % 3,
        d: 90 + place,
        t: 100 + place,
    };
    let rows = (1..=count).map(row).collect();
    whole_ticks(&RowList { cores: 16, rows })
}

/// A sheet of any length from 1,023 bytes on. What it comes to is settled by a byte near 60, one on
/// the way to 548, or the one at 550; what stands beyond 1,024 bytes would change that, or be
/// answered too, in a program that reads on.
fn long_sheet(length: usize) -> Vec<u8> {
    let filling = [0, 1, 2, 3, 7, 255][length / 6 % 6];
    let no_kind = [0, 4, 5, 7, 128, 255][length / 6 % 6];
    let row_after_row = || full_sheet(80);
    let kind_at = 4 + 17 * (4 + length % 28);
    let mut sheet = match length % 6 {
        0 => bytes(SHEET),
        1 => full_sheet(32),
        2 => row_after_row(),
        3 => with_byte(row_after_row(), kind_at, no_kind),
        4 => with_byte(row_after_row(), kind_at + 4, 2),
        _ => followed_by_another(filling),
    };
    sheet.resize(length, filling);
    sheet
}

fn with_byte(mut sheet: Vec<u8>, at: usize, byte: u8) -> Vec<u8> {
    sheet[at] = byte;
    sheet
}

/// A full sheet and a filling, and from the 1,025th byte on a sheet of its own.
fn followed_by_another(filling: u8) -> Vec<u8> {
    let mut sheet = full_sheet(32);
    sheet.resize(MOST_BYTES, filling);
    sheet.extend(bytes(SHEET));
    sheet
}

/// Mostly whole, since pieces take time; in a few pieces, byte after byte where the sheet is short, or
/// cut where the reading ends.
fn pieces(random: &mut Random, length: usize) -> Vec<usize> {
    match random.below(16) {
        0 if length <= 60 => vec![1; length],
        0 if length > MOST_BYTES => vec![MOST_BYTES, length - MOST_BYTES],
        0 | 1 => few_pieces(random, length),
        _ => vec![length],
    }
}

fn few_pieces(random: &mut Random, length: usize) -> Vec<usize> {
    let mut pieces = Vec::new();
    let mut left = length;
    for _ in 0..random.between(1, 3) {
        let piece = random.index(left + 1);
        pieces.push(piece);
        left -= piece;
    }
    pieces.push(left);
    pieces
}
