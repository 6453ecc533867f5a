// The histories that are sent: a row list and calls on its bench, near the edges of what is taken.

use crate::bench::Bench;
use crate::document::{list, rows as rows_of, POLLS_BY_HAND};
use crate::list::Row;
use crate::numbers::append;
use crate::random::Random;

const TICK: [u8; 6] = [2, 0, 0, 0, 0, 0];

/// The largest number of four bytes.
const LARGEST: u64 = u32::MAX as u64;

/// History number `index` of a seed, as a frame's bytes.
pub fn history(seed: u64, index: u64) -> Vec<u8> {
    let mut random = Random::for_case(seed, index);
    if random.one_in(60) {
        return too_short(&mut random);
    }
    let (cores, rows) = board(&mut random);
    let mut bytes = front(cores, &rows);
    let mut calls = calls(&mut random, cores, &rows);
    if random.one_in(20) {
        spoil(&mut random, &mut calls);
    }
    bytes.extend(calls);
    bytes
}

/// Cores and rows, most of them sound.
pub fn board(random: &mut Random) -> (u8, Vec<Row>) {
    (cores(random), rows(random))
}

/// The document's bench by hand, and each ending, fault of an opening and answer to a call.
pub fn fixed() -> Vec<Vec<u8>> {
    let mut histories = vec![by_hand(), with_each_refusal(), Vec::new(), vec![1, 1, 0]];
    let faulty = [
        list(0, &[]),
        list(0, &[(0, 5, 5)]),
        list(17, &[(1, 1, 1)]),
        list(1, &[(1, 4, 4), (0, 5, 5)]),
        list(1, &[(5, 4, 3)]),
        list(1, &[(1, 4, 3)]),
        list(1, &[(1, 4, 1_000_001)]),
    ];
    histories.extend(
        faulty
            .iter()
            .map(|list| front(list.cores as u8, &list.rows)),
    );
    let one_row = front(1, &[Row { c: 1, d: 1, t: 1 }]);
    let then = |calls: &[u8]| [&one_row[..], calls].concat();
    histories.push(then(&[0; 6]));
    histories.push(then(&TICK[..5]));
    // 1,365 answers of three bytes fit into 4,096.
    histories.push(then(&TICK.repeat(1_365)));
    histories.push(then(&TICK.repeat(1_366)));
    histories
}

/// Full demands at instant 0, row 1 again at 4 and 8, row 2 at 6: row 3 finishes at 12.
fn by_hand() -> Vec<u8> {
    let rows = rows_of(&[(1, 4, 4), (2, 6, 6), (5, 12, 12)]);
    let mut history = front(1, &rows);
    for instant in 0..12 {
        for place in 1..=3 {
            if POLLS_BY_HAND.contains(&(instant, place)) {
                history.extend(release(place, rows[place as usize - 1].c));
            }
        }
        history.extend(TICK);
    }
    history
}

fn with_each_refusal() -> Vec<u8> {
    let mut history = front(1, &rows_of(&[(3, 3, 3), (1, 3, 3)]));
    for (place, demand) in [(1, 3), (2, 1), (0, 0), (3, 0), (1, 0), (1, 4), (1, 1)] {
        history.extend(release(place, demand));
    }
    history.extend(TICK.repeat(3));
    for (place, demand) in [(2, 1), (2, 2), (1, 1)] {
        history.extend(release(place, demand));
    }
    history
}

fn release(place: u64, demand: u64) -> Vec<u8> {
    let mut call = vec![1, place as u8];
    append(&mut call, 4, demand);
    call
}

fn front(cores: u8, rows: &[Row]) -> Vec<u8> {
    let mut bytes = vec![cores, rows.len() as u8];
    for row in rows {
        for length in [row.c, row.d, row.t] {
            append(&mut bytes, 4, length);
        }
    }
    bytes
}

/// Fewer bytes than the rows take, or none at all.
fn too_short(random: &mut Random) -> Vec<u8> {
    let rows = random.between(1, 255);
    let length = random.below(2 + 12 * rows) as usize;
    let mut bytes = random.bytes(length);
    if length > 1 {
        bytes[1] = rows as u8;
    }
    bytes
}

fn cores(random: &mut Random) -> u8 {
    match random.below(40) {
        0 => random.pick(&[0, 17, 255]),
        1..=9 => random.between(5, 16) as u8,
        _ => random.between(1, 4) as u8,
    }
}

fn rows(random: &mut Random) -> Vec<Row> {
    let count = match random.below(40) {
        0 => random.pick(&[0, 33, 34, 255]),
        1..=3 => 32,
        4..=6 => random.between(9, 31),
        _ => random.between(1, 8),
    };
    let is_tight = random.one_in(3);
    let mut rows: Vec<Row> = (0..count).map(|_| row(random, is_tight)).collect();
    if count > 0 && random.one_in(25) {
        let place = random.index(rows.len());
        rows[place] = faulty(random, rows[place]);
    }
    rows
}

/// A sound row, mostly a short one. Tight rows are polled again while they wait for a core.
fn row(random: &mut Random, is_tight: bool) -> Row {
    let (most_c, most_more) = match random.below(30) {
        0 => (400_000, 300_000),
        1..=5 => (20, 40),
        _ if is_tight => (4, 2),
        _ => (4, 6),
    };
    let c = random.between(1, most_c);
    let d = c + random.below(most_more);
    let t = d + random.below(most_more);
    let t = if random.one_in(100) { 1_000_000 } else { t };
    Row { c, d, t }
}

fn faulty(random: &mut Random, row: Row) -> Row {
    match random.below(5) {
        0 => Row { c: 0, ..row },
        1 => Row {
            d: row.c - 1,
            ..row
        },
        2 => Row {
            t: row.d - 1,
            ..row
        },
        3 => Row {
            t: random.pick(&[1_000_001, LARGEST]),
            ..row
        },
        _ => Row { c: LARGEST, ..row },
    }
}

/// The calls are made beside a bench of their own, which tells how long ago each row was polled.
fn calls(random: &mut Random, cores: u8, rows: &[Row]) -> Vec<u8> {
    let count = match random.below(20) {
        0 => 0,
        1 => random.between(500, 1_300),
        2..=3 => random.between(150, 500),
        _ => random.between(1, 150),
    };
    let busy = random.between(1, 5);
    let mut bench = Bench::open(u64::from(cores), rows).ok();
    let mut calls = Vec::new();
    while calls.len() < 6 * count as usize {
        let demand_and_place = match &bench {
            Some(bench) if !random.one_in(25) => near_the_gap(random, bench, busy),
            _ if random.one_in(2) => None,
            _ => Some(wrong(random, rows)),
        };
        add_call(random, demand_and_place, &mut bench, &mut calls);
    }
    calls
}

/// A poll of a row whose gap ends at the next tick or has ended; sometimes of any row; nothing for a
/// tick.
pub fn near_the_gap(random: &mut Random, bench: &Bench, busy: u64) -> Option<(u64, u64)> {
    let is_near = |place: &usize| {
        let polled = &bench.rows[*place];
        let gap_ends = polled.last_release.map(|last| last + polled.row.t);
        gap_ends.map_or(true, |end| bench.instant + 1 >= end)
    };
    let near: Vec<usize> = (0..bench.rows.len()).filter(is_near).collect();
    let place = if !near.is_empty() && random.below(6) < busy {
        random.pick(&near)
    } else if random.one_in(20) {
        random.index(bench.rows.len())
    } else {
        return None;
    };
    Some((place as u64 + 1, demand(random, bench.rows[place].row)))
}

fn demand(random: &mut Random, row: Row) -> u64 {
    match random.below(16) {
        0 => 0,
        1 => row.c + 1,
        2 => random.pick(&[1_000_000, 1_000_000_001, LARGEST]),
        3..=5 => 1,
        6..=8 => random.between(1, row.c),
        _ => row.c,
    }
}

/// A poll with a wrong place, or of any row with any demand.
fn wrong(random: &mut Random, rows: &[Row]) -> (u64, u64) {
    let past = rows.len() as u8;
    let place = match random.below(6) {
        0 => 0,
        1 => past.wrapping_add(1),
        2 => 255,
        3 => random.byte(),
        _ => random.below(u64::from(past) + 1) as u8,
    };
    let demand = match random.below(4) {
        0 => random.next() & LARGEST,
        _ => random.below(6),
    };
    (u64::from(place), demand)
}

fn add_call(
    random: &mut Random,
    poll: Option<(u64, u64)>,
    bench: &mut Option<Bench>,
    calls: &mut Vec<u8>,
) {
    match poll {
        Some((place, demand)) => {
            calls.extend(release(place, demand));
            if let Some(bench) = bench {
                let _ = bench.release(place, demand);
            }
        }
        None => {
            calls.extend(TICK);
            if random.one_in(50) {
                // What stands after the kind of a tick is not looked at.
                let last = calls.len() - 5;
                calls[last..].copy_from_slice(&random.bytes(5));
            }
            if let Some(bench) = bench {
                let _ = bench.tick();
            }
        }
    }
}

/// A kind that no call has, or a last call that is cut.
fn spoil(random: &mut Random, calls: &mut Vec<u8>) {
    if calls.is_empty() || random.one_in(2) {
        let length = random.between(1, 5) as usize;
        let cut = random.pick(&[[1u8, 1, 0, 0, 0], [2, 0, 0, 0, 0], [0, 0, 0, 0, 0]]);
        calls.extend(&cut[..length]);
    } else {
        let place = random.index(calls.len() / 6) * 6;
        calls[place] = random.pick(&[0, 3, 4, 129, 255]);
    }
}
