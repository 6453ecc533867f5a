// Damages: what turns a sound draft, or the bytes of a sheet, into a faulty or an edge one.

use crate::draft::Draft;
use crate::list::LARGEST_GAP;
use crate::random::Random;
use crate::sheet::ROW;

/// Where a field stands in its record.
#[derive(Clone, Copy)]
struct Field {
    at: usize,
    width: usize,
}

const CORES: Field = Field { at: 1, width: 1 };
const TICK: Field = Field { at: 2, width: 2 };
const LABEL: Field = Field { at: 1, width: 2 };
const PRIORITY: Field = Field { at: 3, width: 2 };
const C: Field = Field { at: 5, width: 4 };
const D: Field = Field { at: 9, width: 4 };
const T: Field = Field { at: 13, width: 4 };
const COUNT: Field = Field { at: 1, width: 1 };

impl Field {
    fn get(self, record: &[u8]) -> u64 {
        record[self.at..self.at + self.width]
            .iter()
            .fold(0, |number, &byte| number * 256 + u64::from(byte))
    }

    /// Numbers that do not fit become the largest that does.
    fn set(self, record: &mut [u8], number: u64) {
        let largest = (1 << (8 * self.width)) - 1;
        let bytes = number.min(largest).to_be_bytes();
        record[self.at..self.at + self.width].copy_from_slice(&bytes[8 - self.width..]);
    }
}

/// Where some row stands among the records; a draft with no rows has none.
fn any_row(random: &mut Random, draft: &Draft) -> Option<usize> {
    let rows: Vec<usize> = (0..draft.records.len())
        .filter(|&at| draft.records[at][0] == ROW)
        .collect();
    if rows.is_empty() {
        return None;
    }
    Some(random.pick(&rows))
}

pub fn edge_label(random: &mut Random, draft: &mut Draft) {
    if let Some(row) = any_row(random, draft) {
        let edge = random.pick(&[0, 1, 32_767, 32_768, 65_535]);
        LABEL.set(&mut draft.records[row], edge);
    }
}

pub fn edge_priority(random: &mut Random, draft: &mut Draft) {
    if let Some(row) = any_row(random, draft) {
        let edge = random.pick(&[0, 1, 2, 10, 255, 256, 998, 999, 1_000, 1_001, 65_535]);
        PRIORITY.set(&mut draft.records[row], edge);
    }
}

/// The last row's priority at an edge: a 33rd row is one too many whatever its priority.
pub fn edge_priority_in_last_row(random: &mut Random, draft: &mut Draft) {
    let last_row = draft.records.len() - 2;
    PRIORITY.set(
        &mut draft.records[last_row],
        random.pick(&[0, 1, 999, 1_000, 65_535]),
    );
}

pub fn same_priority(random: &mut Random, draft: &mut Draft) {
    if let (Some(one), Some(other)) = (any_row(random, draft), any_row(random, draft)) {
        let priority = PRIORITY.get(&draft.records[one]);
        PRIORITY.set(&mut draft.records[other], priority);
    }
}

pub fn edge_time(random: &mut Random, draft: &mut Draft) {
    if let Some(row) = any_row(random, draft) {
        let edge = edge_length(random, draft.tick);
        random.pick(&[C, D, T]).set(&mut draft.records[row], edge);
    }
}

/// All three times of a row at the same edge, where the checks 4 and 5 still let it through.
pub fn equal_times(random: &mut Random, draft: &mut Draft) {
    if let Some(row) = any_row(random, draft) {
        let edge = edge_length(random, draft.tick);
        for field in [C, D, T] {
            field.set(&mut draft.records[row], edge);
        }
    }
}

/// Each time of a row at an edge of its own, so that the row can have several faults.
pub fn edge_times(random: &mut Random, draft: &mut Draft) {
    if let Some(row) = any_row(random, draft) {
        for field in [C, D, T] {
            let edge = edge_length(random, draft.tick);
            field.set(&mut draft.records[row], edge);
        }
    }
}

/// A gap at its limit or just beyond, in a row that is otherwise sound.
pub fn edge_gap(random: &mut Random, draft: &mut Draft) {
    if let Some(row) = any_row(random, draft) {
        let limit = LARGEST_GAP * draft.tick;
        let edge = random.pick(&[limit - 1, limit, limit + draft.tick - 1, limit + draft.tick]);
        T.set(&mut draft.records[row], edge);
    }
}

/// One time of a row at another one of it, or just beside it.
pub fn close_times(random: &mut Random, draft: &mut Draft) {
    if let Some(row) = any_row(random, draft) {
        let record = &mut draft.records[row];
        let other = random.pick(&[C, D, T]).get(record);
        let step = random.pick(&[0, 1, draft.tick]);
        let beside = if random.one_in(2) {
            other + step
        } else {
            other.saturating_sub(step)
        };
        random.pick(&[C, D, T]).set(record, beside);
    }
}

/// Microseconds at the edges of the ticks and of the four bytes.
fn edge_length(random: &mut Random, tick: u64) -> u64 {
    let limit = LARGEST_GAP * tick;
    random.pick(&[
        0,
        1,
        tick - 1,
        tick,
        tick + 1,
        limit - 1,
        limit,
        limit + tick - 1,
        limit + tick,
        0x7FFF_FFFF,
        0x8000_0000,
        0xFFFF_FFFF,
    ])
}

pub fn edge_cores(random: &mut Random, draft: &mut Draft) {
    CORES.set(
        &mut draft.records[0],
        random.pick(&[0, 1, 2, 15, 16, 17, 127, 128, 255]),
    );
}

pub fn edge_tick(random: &mut Random, draft: &mut Draft) {
    let near = [draft.tick - 1, draft.tick + 1];
    let edge = random.pick(&[0, 0, 1, 255, 256, 32_768, 65_535, near[0], near[1]]);
    TICK.set(&mut draft.records[0], edge);
}

pub fn edge_count(random: &mut Random, draft: &mut Draft) {
    let end = draft.records.len() - 1;
    let count = COUNT.get(&draft.records[end]);
    let edge = random.pick(&[0, 1, 31, 32, 33, 255, count + 1, count.saturating_sub(1)]);
    COUNT.set(&mut draft.records[end], edge);
}

pub fn move_record(random: &mut Random, draft: &mut Draft) {
    let from = random.index(draft.records.len());
    let record = draft.records.remove(from);
    let to = random.index(draft.records.len() + 1);
    draft.records.insert(to, record);
}

pub fn double_record(random: &mut Random, draft: &mut Draft) {
    let from = random.index(draft.records.len());
    let record = draft.records[from].clone();
    let to = random.index(draft.records.len() + 1);
    draft.records.insert(to, record);
}

pub fn drop_record(random: &mut Random, draft: &mut Draft) {
    let at = random.index(draft.records.len());
    draft.records.remove(at);
}

/// Any cut, or one at the start or just beside the start of a record.
pub fn cut(random: &mut Random, draft: &Draft) -> Vec<u8> {
    let mut bytes = draft.bytes();
    let before: usize = draft
        .records
        .iter()
        .take(random.index(draft.records.len() + 1))
        .map(Vec::len)
        .sum();
    let length = match random.below(4) {
        0 => before,
        1 => before + 1,
        2 => before.saturating_sub(1),
        _ => random.index(bytes.len() + 1),
    };
    bytes.truncate(length);
    bytes
}

pub fn damage_bytes(random: &mut Random, bytes: &mut Vec<u8>) {
    for _ in 0..random.between(1, 3) {
        damage_byte(random, bytes);
    }
}

fn damage_byte(random: &mut Random, bytes: &mut Vec<u8>) {
    if bytes.is_empty() {
        return;
    }
    let at = random.index(bytes.len());
    match random.below(4) {
        0 => bytes[at] ^= 1 << random.below(8),
        1 => bytes[at] = random.pick(&[0, 1, 2, 3, 4, 127, 128, 255]),
        2 => bytes.insert(at, random.pick(&[0, 1, 2, 3, 4, 255])),
        _ => drop(bytes.remove(at)),
    }
}

/// A damaged kind byte of any record.
pub fn damage_kind(random: &mut Random, draft: &mut Draft) {
    let at = random.index(draft.records.len());
    draft.records[at][0] = random.pick(&[0, 1, 2, 3, 4, 5, 7, 128, 255]);
}

pub fn append_bytes(random: &mut Random, bytes: &mut Vec<u8>) {
    let more = random.between(1, 20) as usize;
    let more = if random.one_in(2) { 1 } else { more };
    bytes.extend(random.bytes(more));
}
