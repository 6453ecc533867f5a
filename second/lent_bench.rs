// A bench as it is lent, and the calls on it, in bytes.

use crate::bench::{Bench, BenchRow};
use crate::list::{Row, MOST_ROWS};
use crate::lists::row;
use crate::numbers::{append, number};

/// The length of a bench in bytes: cores, instant and row count, and always 32 entries.
pub const BENCH: usize = 14 + MOST_ROWS * ENTRY;
pub const CALL: usize = 17;
const ENTRY: usize = 49;

/// Where the released byte stands in the entry at `index`.
pub fn released_at(index: usize) -> usize {
    14 + index * ENTRY + 24
}

/// The table's rows are the bench's; the entries past them are there but never looked at.
#[derive(Clone)]
pub struct LentBench {
    pub bench: Bench,
    pub past: Vec<BenchRow>,
}

#[derive(Clone, Copy)]
pub enum Call {
    Release {
        place: u64,
        demand: u64,
    },
    Tick,
    /// So many ticks one after the other, whose answers are not given.
    Run {
        ticks: u64,
    },
}

pub const BLANK: BenchRow = BenchRow {
    row: Row { c: 0, d: 0, t: 0 },
    last_release: None,
    demand: 0,
    remaining: 0,
};

/// A count above 32 is a table of more rows than there are entries; those without one are blank.
pub fn read_bench(bytes: &[u8]) -> LentBench {
    let count = number(&bytes[12..14]) as usize;
    let mut rows: Vec<BenchRow> = bytes[14..].chunks(ENTRY).map(read_entry).collect();
    let past = rows.split_off(count.min(MOST_ROWS));
    rows.resize(count, BLANK);
    let bench = Bench {
        cores: number(&bytes[..4]),
        instant: number(&bytes[4..12]),
        rows,
    };
    LentBench { bench, past }
}

fn read_entry(bytes: &[u8]) -> BenchRow {
    let last_release = match bytes[24] {
        0 => None,
        _ => Some(number(&bytes[25..33])),
    };
    BenchRow {
        row: row(&bytes[..24]),
        last_release,
        demand: number(&bytes[33..41]),
        remaining: number(&bytes[41..]),
    }
}

pub fn write_bench(lent: &LentBench) -> Vec<u8> {
    let mut bytes = Vec::new();
    append(&mut bytes, 4, lent.bench.cores);
    append(&mut bytes, 8, lent.bench.instant);
    append(&mut bytes, 2, lent.bench.rows.len() as u64);
    for entry in lent.bench.rows.iter().take(MOST_ROWS).chain(&lent.past) {
        write_entry(&mut bytes, entry);
    }
    bytes
}

fn write_entry(bytes: &mut Vec<u8>, entry: &BenchRow) {
    for length in [entry.row.c, entry.row.d, entry.row.t] {
        append(bytes, 8, length);
    }
    append(bytes, 1, u64::from(entry.last_release.is_some()));
    append(bytes, 8, entry.last_release.unwrap_or(0));
    append(bytes, 8, entry.demand);
    append(bytes, 8, entry.remaining);
}

/// Only these three kinds are sent.
pub fn read_call(bytes: &[u8]) -> Call {
    let (place, demand) = (number(&bytes[1..9]), number(&bytes[9..]));
    match bytes[0] {
        1 => Call::Release { place, demand },
        2 => Call::Tick,
        _ => Call::Run { ticks: demand },
    }
}

pub fn write_call(bytes: &mut Vec<u8>, call: Call) {
    let (kind, place, demand) = match call {
        Call::Release { place, demand } => (1, place, demand),
        Call::Tick => (2, 0, 0),
        Call::Run { ticks } => (3, 0, ticks),
    };
    append(bytes, 1, kind);
    append(bytes, 8, place);
    append(bytes, 8, demand);
}
