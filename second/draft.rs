// Drafts: sound sheets as records, with the rows of a row list.

use crate::list::Row;
use crate::numbers::append;
use crate::random::Random;
use crate::row_lists::{self, RowList};
use crate::sheet::{BOARD, END, ROW};

pub struct Draft {
    pub tick: u64,
    pub records: Vec<Vec<u8>>,
}

impl Draft {
    pub fn bytes(&self) -> Vec<u8> {
        self.records.concat()
    }
}

pub fn small(random: &mut Random) -> Draft {
    let list = row_lists::small(random);
    draft(random, &list, 65_535)
}

pub fn many_carry_rows(random: &mut Random) -> Draft {
    let list = row_lists::many_carry_rows(random);
    draft(random, &list, 65_535)
}

pub fn many_rows(random: &mut Random, count: u64) -> Draft {
    let list = row_lists::many_rows(random, count);
    draft(random, &list, 65_535)
}

/// The tick is short enough for the times to fit into four bytes.
pub fn large_times(random: &mut Random) -> Draft {
    let list = row_lists::large_times(random);
    draft(random, &list, 4_000)
}

pub fn no_rows(random: &mut Random) -> Draft {
    let cores = random.between(0, 17);
    let rows = Vec::new();
    draft(random, &RowList { cores, rows }, 65_535)
}

fn any_tick(random: &mut Random, longest: u64) -> u64 {
    match random.below(3) {
        0 => random.pick(&[1, 2, 10, 100, 250, 1_000, longest]),
        1 => random.between(1, 300),
        _ => random.between(1, longest),
    }
}

/// The records of a sound sheet: rows get rising priorities and are shuffled.
fn draft(random: &mut Random, list: &RowList, longest_tick: u64) -> Draft {
    let tick = any_tick(random, longest_tick);
    let priorities = rising_priorities(random, list.rows.len());
    let mut records: Vec<Vec<u8>> = list
        .rows
        .iter()
        .zip(priorities)
        .map(|(row, priority)| row_record(random, row, priority, tick))
        .collect();
    random.shuffle(&mut records);
    records.insert(0, board_record(list.cores, tick));
    records.push(vec![END, list.rows.len() as u8]);
    Draft { tick, records }
}

/// A list as a sheet with tick 1: the places as priorities, the labels from 101 on.
pub fn whole_ticks(list: &RowList) -> Vec<u8> {
    let mut sheet = board_record(list.cores, 1);
    for (place, row) in (1..).zip(&list.rows) {
        append(&mut sheet, 1, u64::from(ROW));
        append(&mut sheet, 2, 100 + place);
        append(&mut sheet, 2, place);
        for ticks in [row.c, row.d, row.t] {
            append(&mut sheet, 4, ticks);
        }
    }
    sheet.extend([END, list.rows.len() as u8]);
    sheet
}

/// Close numbers and wide ones, so that their order as text often differs from theirs as numbers.
fn rising_priorities(random: &mut Random, count: usize) -> Vec<u64> {
    let last = random.pick(&[0, 40, 120, 999]).max(count as u64 + 1);
    let mut priorities: Vec<u64> = (1..=last).collect();
    random.shuffle(&mut priorities);
    priorities.truncate(count);
    priorities.sort();
    priorities
}

fn board_record(cores: u64, tick: u64) -> Vec<u8> {
    let mut record = vec![BOARD, cores as u8];
    append(&mut record, 2, tick);
    record
}

fn row_record(random: &mut Random, row: &Row, priority: u64, tick: u64) -> Vec<u8> {
    let label = random.pick(&[0, 1, 101, 102, 110, 255, 256, 65_535]);
    let label = if random.one_in(3) {
        label
    } else {
        random.between(0, 999)
    };
    let mut record = vec![ROW];
    append(&mut record, 2, label);
    append(&mut record, 2, priority);
    let exact = random.one_in(2);
    for ticks in [row.c, row.d, row.t] {
        let remainder = if exact { 0 } else { random.below(tick) };
        append(&mut record, 4, ticks * tick + remainder);
    }
    record
}
