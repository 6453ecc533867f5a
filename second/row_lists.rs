// Row lists that pass the checks 1 to 6, with rows near the edge of what the cores carry.

use crate::list::{Row, LARGEST_GAP, MOST_ROWS};
use crate::random::Random;

pub struct RowList {
    pub cores: u64,
    pub rows: Vec<Row>,
}

/// Mostly up to 8 rows with times up to a few hundred ticks.
pub fn small(random: &mut Random) -> RowList {
    let cores = random.pick(&[1, 1, 1, 2, 2, 2, 3, 3, 4, 5, 6, 16]);
    let fewest = if random.one_in(6) {
        1
    } else {
        (cores + 1).min(7)
    };
    let count = random.between(fewest, 8);
    let longest = random.pick(&[6, 15, 40, 120, 400]);
    let rows = near_edge_rows(random, cores, count, 2, longest);
    RowList { cores, rows }
}

/// Lists in which one carry-in row more or less tells: only rows below the first M can gain by
/// carrying in, so about twice as many rows as cores, all alike, and a last one with long windows.
pub fn many_carry_rows(random: &mut Random) -> RowList {
    let cores = random.between(2, 16);
    let count = (2 * cores + random.below(4)).min(MOST_ROWS as u64);
    let c = random.between(4, 30);
    let t = c * random.between(25, 60) / 10;
    let last_t = t * random.between(1, 6);
    let mut rows: Vec<Row> = (1..count)
        .map(|_| whole_gap_row(c - random.below(2), t + random.below(2)))
        .collect();
    rows.push(whole_gap_row(random.between(1, c), last_t));
    RowList { cores, rows }
}

fn whole_gap_row(c: u64, t: u64) -> Row {
    Row { c, d: t, t }
}

/// As many rows as wanted, also more than a list may have.
pub fn many_rows(random: &mut Random, count: u64) -> RowList {
    let cores = random.between(1, 16);
    let longest = random.pick(&[15, 40, 120]);
    let rows = near_edge_rows(random, cores, count, 5, longest);
    RowList { cores, rows }
}

/// Times up to the largest gap.
pub fn large_times(random: &mut Random) -> RowList {
    let cores = random.between(1, 3);
    let count = random.between(cores + 1, 5);
    let rows = near_edge_rows(random, cores, count, 200_000, LARGEST_GAP);
    RowList { cores, rows }
}

/// What the rows of one list have in common.
struct Manner {
    shortest: u64,
    longest: u64,
    lightest: u64,
    whole_gap: bool,
}

/// In half the lists D is T in each row: long lists with short deadlines end at their first rows.
/// Rows that are alike gain alike by carrying in, so that the number of carry-in rows tells most.
fn any_manner(random: &mut Random, shortest: u64, longest: u64) -> Manner {
    let alike = random.one_in(4);
    Manner {
        shortest: if alike {
            longest - longest / 8
        } else {
            shortest
        },
        longest,
        lightest: if alike { 90 } else { 1 },
        whole_gap: random.one_in(2),
    }
}

/// Rows that together need about as much as the cores give. In most lists they stand by rising
/// deadline, which is kinder to them, so that both outcomes are frequent.
fn near_edge_rows(
    random: &mut Random,
    cores: u64,
    count: u64,
    shortest: u64,
    longest: u64,
) -> Vec<Row> {
    let manner = any_manner(random, shortest, longest);
    let whole = cores * random.between(250, 1_050);
    let weights: Vec<u64> = (0..count)
        .map(|_| random.between(manner.lightest, 100))
        .collect();
    let all: u64 = weights.iter().sum();
    let share = |weight: u64| (whole * weight / all).min(1_000);
    let mut rows: Vec<Row> = weights
        .iter()
        .map(|&weight| near_edge_row(random, &manner, share(weight)))
        .collect();
    if !random.one_in(4) {
        rows.sort_by_key(|row| row.d);
    }
    rows
}

/// A row that needs `share` thousandths of a core.
fn near_edge_row(random: &mut Random, manner: &Manner, share: u64) -> Row {
    let t = random.between(manner.shortest, manner.longest);
    let c = (t * share / 1_000).max(1);
    let d = match random.below(4) {
        _ if manner.whole_gap => t,
        0 => random.between(c, t),
        1 | 2 => random.between(c.max(t - t / 4), t),
        _ => t,
    };
    Row { c, d, t }
}
