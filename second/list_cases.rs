// The lent lists that are sent: cores, entries of the bounds list, and rows of any 64-bit numbers.

use crate::document;
use crate::list::{Row, LARGEST_GAP, MOST_ROWS};
use crate::numbers::append;
use crate::random::Random;
use crate::row_lists::{self, RowList};

/// The most entries a bounds list has here, and the most rows.
const MOST_ENTRIES: u64 = 40;

/// The document's lists with bounds lists of several lengths, then each number and their order.
pub fn fixed() -> Vec<Vec<u8>> {
    let mut cases = Vec::new();
    for list in document::lists() {
        let exactly = list.rows.len() as u64;
        for entries in [32, exactly, exactly.saturating_sub(1), 0, MOST_ENTRIES] {
            cases.push(bytes(&list, entries));
        }
    }
    cases.extend(last_row_at_fault().iter().map(|list| bytes(list, 32)));
    cases.extend(
        turned_away()
            .iter()
            .map(|(list, entries)| bytes(list, *entries)),
    );
    cases
}

/// Only the 32nd row is at fault, with each number of a row, or is not shown.
fn last_row_at_fault() -> Vec<RowList> {
    let faults = [
        (0, 1, 1),
        (2, 1, 2),
        (1, 2, 1),
        (1, 2, 1_000_001),
        (1, 2, 2),
    ];
    let with_last = |fault: &(u64, u64, u64)| {
        let mut rows = vec![(1, 4, 4); 31];
        rows.push(*fault);
        document::list(8, &rows)
    };
    faults.iter().map(with_last).collect()
}

fn turned_away() -> Vec<(RowList, u64)> {
    let (large, half) = (u64::MAX, 1 << 63);
    vec![
        (document::list(17, &[(1, 1, 1); 33]), 0),
        (document::list(17, &[(1, 1, 1); 32]), 0),
        (document::list(1, &[(0, 0, 0); 40]), 40),
        (document::list(u64::from(u32::MAX), &[(1, 1, 1)]), 1),
        (document::list(65_537, &[(1, 1, 1)]), 1),
        (document::list(257, &[(1, 1, 1)]), 1),
        (document::list(16, &[(1, 1, 1); 32]), 31),
        (document::list(16, &[(1, 1, 1); 32]), 32),
        (document::list(1, &[(1, 4, 4), (0, 0, 0)]), 0),
        (document::list(1, &[(1, 4, 4), (2, 2, 1)]), 0),
        (document::list(1, &[(1, 4, 1_000_001), (0, 4, 4)]), 0),
        (document::list(1, &[(1, 1, 1), (1, 1, 1)]), 1),
        (document::list(1, &[(large, large, large)]), 1),
        (document::list(1, &[(large, large - 1, large)]), 1),
        (document::list(1, &[(half, half - 1, half)]), 1),
        (document::list(1, &[(half - 1, half, half - 1)]), 1),
        (document::list(1, &[(1 << 32, 5, 5)]), 1),
        (document::list(1, &[(1, 5, (1 << 32) + 5)]), 1),
    ]
}

/// List number `index` of a seed, as a frame's bytes.
pub fn list(seed: u64, index: u64) -> Vec<u8> {
    let random = &mut Random::for_case(seed, index);
    let mut list = sound_list(random);
    if random.one_in(3) {
        spoil(random, &mut list);
    }
    let entries = entries(random, list.rows.len() as u64);
    bytes(&list, entries)
}

fn bytes(list: &RowList, entries: u64) -> Vec<u8> {
    let mut bytes = Vec::new();
    append(&mut bytes, 4, list.cores);
    append(&mut bytes, 2, entries);
    for row in &list.rows {
        for length in [row.c, row.d, row.t] {
            append(&mut bytes, 8, length);
        }
    }
    bytes
}

/// Sound but for the number of rows, which is 0 or above 32 in some.
fn sound_list(random: &mut Random) -> RowList {
    match random.below(1_000) {
        0 => row_lists::large_times(random),
        1..=599 => row_lists::small(random),
        600..=699 => row_lists::many_carry_rows(random),
        700..=819 => many_rows(random, 9, MOST_ROWS as u64),
        820..=839 => many_rows(random, 33, MOST_ENTRIES),
        840..=859 => document::list(random.between(0, 17), &[]),
        _ => with_ties(random),
    }
}

fn many_rows(random: &mut Random, fewest: u64, most: u64) -> RowList {
    let count = random.between(fewest, most);
    row_lists::many_rows(random, count)
}

/// Some rows are the same as the one above, or all are.
fn with_ties(random: &mut Random) -> RowList {
    let mut list = row_lists::small(random);
    let all = random.one_in(3);
    for index in 1..list.rows.len() {
        if all || random.one_in(2) {
            list.rows[index] = list.rows[index - 1];
        }
    }
    list
}

/// None, one fewer than rows, far fewer, exactly as many, one more, many more.
fn entries(random: &mut Random, rows: u64) -> u64 {
    match random.below(20) {
        0 => 0,
        1 | 2 => rows.saturating_sub(1),
        3 => random.below(rows + 1),
        4..=9 => rows,
        10..=12 => (rows + 1).min(MOST_ENTRIES),
        13 | 14 => MOST_ENTRIES,
        _ => random.between(rows, MOST_ENTRIES),
    }
}

/// One fault or edge, or several at once, which show in which order the checks are made.
fn spoil(random: &mut Random, list: &mut RowList) {
    let several = random.one_in(3);
    let times = if several { random.between(2, 5) } else { 1 };
    for _ in 0..times {
        if list.rows.is_empty() || random.one_in(6) {
            list.cores = edge_cores(random, list.cores);
        } else {
            let index = random.index(list.rows.len());
            spoil_row(random, &mut list.rows[index]);
        }
    }
}

/// Numbers at the edges of what is taken and of their bytes, and ones whose last bytes are sound.
fn edge_cores(random: &mut Random, cores: u64) -> u64 {
    let largest = u64::from(u32::MAX);
    let edges = [0, 0, 1, 15, 16, 17, 17, 255, 256, 65_537, 1 << 31, largest];
    match random.below(4) {
        0 => cores + random.pick(&[256, 65_536, 1 << 24, 1 << 31]),
        _ => random.pick(&edges),
    }
}

fn spoil_row(random: &mut Random, row: &mut Row) {
    match random.below(9) {
        0 => {
            let edge = edge_length(random);
            *row = Row {
                c: edge,
                d: edge,
                t: edge,
            };
        }
        1 => {
            let mut edge = || edge_length(random);
            *row = Row {
                c: edge(),
                d: edge(),
                t: edge(),
            };
        }
        2 => row.c = 0,
        3 => row.d = row.c.saturating_sub(1),
        4 => row.t = row.d.saturating_sub(1),
        5 => row.t = LARGEST_GAP + random.below(3),
        6 => {
            let far = random.pick(&[1 << 32, 1 << 63, u64::MAX << 32, 256, 65_536]);
            let length = any_length(random, row);
            *length = length.wrapping_add(far);
        }
        _ => {
            let edge = edge_length(random);
            *any_length(random, row) = edge;
        }
    }
}

fn any_length<'a>(random: &mut Random, row: &'a mut Row) -> &'a mut u64 {
    match random.below(3) {
        0 => &mut row.c,
        1 => &mut row.d,
        _ => &mut row.t,
    }
}

fn edge_length(random: &mut Random) -> u64 {
    random.pick(&[
        0,
        1,
        LARGEST_GAP - 1,
        LARGEST_GAP,
        LARGEST_GAP + 1,
        1 << 31,
        1 << 32,
        (1 << 32) + 1,
        (1 << 63) - 1,
        1 << 63,
        u64::MAX,
    ])
}
