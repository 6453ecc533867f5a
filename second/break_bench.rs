// The clauses of number 29: benches that break just one, and such that just keep them.

use crate::bench::{Bench, LAST_INSTANT};
use crate::lent_bench::BLANK;
use crate::list::{LARGEST_GAP, MOST_CORES, MOST_ROWS};

/// How many ways there are to break one.
pub const CLAUSES: u64 = 13;

/// Breaks a clause by one, or by `far` more, in the row at `index` where the clause is about a row.
/// Nothing else of a sound bench is broken by it.
pub fn break_clause(bench: &mut Bench, which: u64, index: usize, far: u64) {
    match which {
        0 => bench.rows.clear(),
        1 => {
            let more = far.min(60_000) as usize;
            bench.rows.resize(MOST_ROWS + 1 + more, BLANK);
        }
        2 => bench.cores = 0,
        3 => {
            bench.cores = (MOST_CORES + 1)
                .saturating_add(far)
                .min(u64::from(u32::MAX))
        }
        4 => bench.instant = (LAST_INSTANT + 1).saturating_add(far),
        _ if index < bench.rows.len() => break_row(bench, which, index, far),
        _ => {}
    }
}

fn break_row(bench: &mut Bench, which: u64, index: usize, far: u64) {
    let instant = bench.instant;
    let entry = &mut bench.rows[index];
    match which {
        5 => {
            entry.row.c = 0;
            (entry.demand, entry.remaining) = (0, 0);
        }
        6 => entry.row.d = entry.row.c.saturating_sub(1),
        7 => entry.row.t = entry.row.d.saturating_sub(1),
        8 => entry.row.t = (LARGEST_GAP + 1).saturating_add(far),
        9 => entry.last_release = Some(instant.saturating_add(1).saturating_add(far)),
        10 => entry.demand = entry.row.c.saturating_add(1).saturating_add(far),
        11 => {
            // Below C, so that it is the demand that tells.
            entry.demand = entry.demand.min(entry.row.c.saturating_sub(1));
            entry.remaining = entry.demand.saturating_add(1).saturating_add(far);
            entry.last_release = entry.last_release.or(Some(instant));
        }
        _ => {
            entry.last_release = None;
            entry.demand = entry.demand.max(1).min(entry.row.c);
            entry.remaining = entry.demand;
        }
    }
}

/// Benches like the one given, each at the edge of a clause and still sound.
pub fn edges_kept(bench: &Bench) -> Vec<Bench> {
    let edges: [fn(&mut Bench); 9] = [
        |_| {},
        |bench| bench.rows.resize(MOST_ROWS, bench.rows[0]),
        |bench| bench.cores = MOST_CORES,
        |bench| bench.instant = LAST_INSTANT,
        |bench| bench.rows[0].row.t = LARGEST_GAP,
        |bench| bench.rows[0].row.d = bench.rows[0].row.c,
        |bench| bench.rows[0].last_release = Some(bench.instant),
        |bench| {
            // The whole demand, which is C, is still to do.
            let entry = &mut bench.rows[0];
            entry.demand = entry.row.c;
            entry.remaining = entry.demand;
        },
        |bench| {
            // Never released, and yet with a demand of which nothing remains.
            let entry = &mut bench.rows[0];
            entry.last_release = None;
            entry.remaining = 0;
        },
    ];
    let changed = |edge: &fn(&mut Bench)| {
        let mut bench = bench.clone();
        edge(&mut bench);
        bench
    };
    edges.iter().map(changed).collect()
}
