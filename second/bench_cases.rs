// The hand-made benches that are sent and the calls on them: opened ones, such in mid-run, and
// broken ones.

use crate::bench::{Bench, BenchRow, LAST_INSTANT};
use crate::benches::run;
use crate::break_bench::{break_clause, edges_kept, CLAUSES};
use crate::document::{rows, POLLS_BY_HAND};
use crate::history_cases;
use crate::lent_bench::{
    released_at, write_bench, write_call, Call, LentBench, BENCH, BLANK, CALL,
};
use crate::list::{Row, MOST_ROWS};
use crate::random::Random;

const MOST_CALLS: u64 = 150;
const LONGEST_RUN: u64 = 100_000;

/// The document's bench by hand, the last instants, long responses, and each clause of number 29 kept
/// and broken.
pub fn fixed() -> Vec<Vec<u8>> {
    let mut cases = vec![by_hand(), long_poll(), last_instants()];
    let mut benches = edges_kept(&in_mid_run());
    benches.push(full_in_mid_run());
    benches.extend((0..CLAUSES).flat_map(broken_in_clause));
    cases.extend(benches.into_iter().map(called_in_each_way));
    cases
}

/// A clause broken in the first row, in the last one, and in the 32nd, by one and by far; and at the
/// last instant, where a tick has two reasons to be turned away.
fn broken_in_clause(which: u64) -> Vec<Bench> {
    let mut at_the_end = in_mid_run();
    at_the_end.instant = LAST_INSTANT;
    break_clause(&mut at_the_end, which, 0, 0);
    let mut benches = vec![at_the_end];
    for far in [0, u64::from(u32::MAX), u64::MAX] {
        for (mut bench, index) in [
            (in_mid_run(), 0),
            (in_mid_run(), 2),
            (full_in_mid_run(), MOST_ROWS - 1),
        ] {
            break_clause(&mut bench, which, index, far);
            benches.push(bench);
        }
    }
    benches
}

fn bytes(lent: &LentBench, calls: &[Call]) -> Vec<u8> {
    let mut bytes = write_bench(lent);
    for &call in calls {
        write_call(&mut bytes, call);
    }
    bytes
}

/// The entries past the table are blank.
fn lent(bench: Bench) -> LentBench {
    let past = vec![BLANK; MOST_ROWS.saturating_sub(bench.rows.len())];
    LentBench { bench, past }
}

fn release(place: u64, demand: u64) -> Call {
    Call::Release { place, demand }
}

/// Full demands at instant 0, row 1 again at 4 and 8, row 2 at 6: row 3 finishes at 12.
fn by_hand() -> Vec<u8> {
    let bench = fresh(1, &rows(&[(1, 4, 4), (2, 6, 6), (5, 12, 12)]));
    let mut calls = Vec::new();
    for instant in 0..12 {
        let polls = POLLS_BY_HAND.iter().filter(|poll| poll.0 == instant);
        let demand = |place: u64| bench.rows[place as usize - 1].row.c;
        calls.extend(polls.map(|poll| release(poll.1, demand(poll.1))));
        calls.push(Call::Tick);
    }
    bytes(&lent(bench), &calls)
}

/// A bench at instant 0 with nothing released, whether its table is sound or not.
fn fresh(cores: u64, rows: &[Row]) -> Bench {
    let entry = |&row| BenchRow { row, ..BLANK };
    Bench {
        cores,
        instant: 0,
        rows: rows.iter().map(entry).collect(),
    }
}

fn long_poll() -> Vec<u8> {
    let bench = fresh(1, &rows(&[(100_000, 200_000, 200_000)]));
    let calls = [
        release(1, 70_000),
        Call::Run { ticks: 69_999 },
        Call::Tick,
        Call::Tick,
    ];
    bytes(&lent(bench), &calls)
}

/// A poll that began at instant 0 ends with the last tick there is.
fn last_instants() -> Vec<u8> {
    let mut bench = fresh(2, &rows(&[(3, 3, 3), (5, 9, 1_000_000)]));
    bench.instant = LAST_INSTANT - 2;
    bench.rows[0] = polled(bench.rows[0].row, Some(0), 3, 2);
    let calls = [
        Call::Tick,
        Call::Tick,
        Call::Tick,
        release(1, 3),
        release(2, 5),
        Call::Run { ticks: 4 },
        release(2, 5),
        Call::Tick,
    ];
    bytes(&lent(bench), &calls)
}

fn polled(row: Row, last_release: Option<u64>, demand: u64, remaining: u64) -> BenchRow {
    BenchRow {
        row,
        last_release,
        demand,
        remaining,
    }
}

/// Sound: the first row is at work, the second was never polled, the third is polled just now.
pub fn in_mid_run() -> Bench {
    let table = rows(&[(4, 5, 20), (2, 9, 9), (3, 7, 30)]);
    let mut bench = fresh(1, &table);
    bench.instant = 1_000;
    bench.rows[0] = polled(table[0], Some(980), 3, 2);
    bench.rows[2] = polled(table[2], Some(1_000), 2, 1);
    bench
}

/// The same with 32 rows.
pub fn full_in_mid_run() -> Bench {
    let mut bench = in_mid_run();
    bench.rows.resize(MOST_ROWS, bench.rows[1]);
    bench
}

/// Calls that are turned away for their place or demand come first, while the rows could be polled.
fn called_in_each_way(bench: Bench) -> Vec<u8> {
    let past = bench.rows.len() as u64 + 1;
    let far = 1 << 32;
    let mut calls = Vec::new();
    for place in [0, past, 33, 256, 258, far, far + 2, u64::MAX] {
        calls.push(release(place, 1));
    }
    for demand in [0, 3, 256, 257, far, far + 1, u64::MAX] {
        calls.push(release(2, demand));
    }
    for place in [2, 1, 3, 32] {
        calls.extend([release(place, 1), Call::Tick]);
    }
    calls.extend([Call::Run { ticks: 5 }, release(1, 1), Call::Tick]);
    let mut lent = lent(bench);
    fill_with_noise(&mut Random::new(29), &mut lent);
    bytes(&lent, &calls)
}

/// Case number `index` of a seed, as a frame's bytes.
pub fn case(seed: u64, index: u64) -> Vec<u8> {
    let random = &mut Random::for_case(seed, index);
    let bench = bench(random);
    let mut lent = lent(bench);
    if random.one_in(2) {
        fill_with_noise(random, &mut lent);
    }
    let calls = calls(random, lent.bench.clone());
    let mut bytes = bytes(&lent, &calls);
    if random.one_in(20) {
        add_noise(random, &mut bytes);
    }
    bytes
}

fn bench(random: &mut Random) -> Bench {
    let (cores, rows) = history_cases::board(random);
    let mut bench = fresh(u64::from(cores), &rows);
    match random.below(100) {
        0..=54 => {}
        55..=84 => set_in_mid_run(random, &mut bench),
        85..=94 => {
            set_in_mid_run(random, &mut bench);
            break_some(random, &mut bench, 1);
        }
        _ => {
            set_in_mid_run(random, &mut bench);
            let times = random.between(2, 4);
            break_some(random, &mut bench, times);
        }
    }
    bench
}

/// Any state that number 29 lets through, if the table does.
fn set_in_mid_run(random: &mut Random, bench: &mut Bench) {
    bench.instant = instant(random);
    for entry in &mut bench.rows {
        *entry = in_some_state(random, entry.row, bench.instant);
    }
}

fn instant(random: &mut Random) -> u64 {
    match random.below(10) {
        0 => random.pick(&[0, 1, 65_535, 65_536, 1_000_000]),
        1 => random.pick(&[LAST_INSTANT - 2, LAST_INSTANT - 1, LAST_INSTANT]),
        2 => LAST_INSTANT - random.below(400),
        3..=5 => random.between(1, 400),
        6..=8 => random.between(1, 2_000_000),
        _ => random.between(1, LAST_INSTANT),
    }
}

fn in_some_state(random: &mut Random, row: Row, instant: u64) -> BenchRow {
    let demand = match random.below(4) {
        0 => random.below(row.c.saturating_add(1).max(1)),
        1 => row.c.min(1),
        _ => row.c,
    };
    let last_release = last_release(random, row, instant);
    let remaining = match random.below(5) {
        _ if last_release.is_none() => 0,
        0 | 1 => 0,
        2 => demand.min(random.between(1, 3)),
        3 => random.below(demand.saturating_add(1).max(1)),
        _ => demand,
    };
    polled(row, last_release, demand, remaining)
}

/// Never, now, about a gap ago, about 65,535 ticks ago, at any instant up to now, or at the first.
fn last_release(random: &mut Random, row: Row, instant: u64) -> Option<u64> {
    let ago = match random.below(8) {
        0 => return None,
        1 => 0,
        2 | 3 => row.t.saturating_add(random.below(3)).saturating_sub(1),
        4 => 65_535 + random.below(20),
        5 => random.below(row.t.clamp(1, 1_000_000)),
        6 => random.below(instant + 1),
        _ => instant,
    };
    Some(instant.saturating_sub(ago))
}

/// Clauses of number 29, broken by one or by far.
fn break_some(random: &mut Random, bench: &mut Bench, times: u64) {
    for _ in 0..times {
        let which = random.below(CLAUSES);
        let last = bench.rows.len().max(1) - 1;
        let index = if random.one_in(3) {
            last
        } else {
            random.index(last + 1)
        };
        let by_far = random.pick(&[1, 255, u64::from(u32::MAX), (1 << 63) - 1, u64::MAX]);
        let far = if random.one_in(2) { 0 } else { by_far };
        break_clause(bench, which, index, far);
    }
}

fn fill_with_noise(random: &mut Random, lent: &mut LentBench) {
    let fill = |entry: &mut BenchRow| *entry = noise(random);
    lent.past.iter_mut().for_each(fill);
}

/// An entry past the table: nothing of it is looked at.
fn noise(random: &mut Random) -> BenchRow {
    let [c, d, t] = [random.next(), random.next(), random.next()];
    let last_release = if random.one_in(2) {
        None
    } else {
        Some(random.next())
    };
    polled(Row { c, d, t }, last_release, random.next(), random.next())
}

/// The calls are made beside the bench itself, which tells how long ago each row was polled. A broken
/// bench turns all away, so that it gets few.
fn calls(random: &mut Random, mut bench: Bench) -> Vec<Call> {
    let is_sound = bench.broken().is_empty();
    let count = match random.below(20) {
        0 => 0,
        _ if !is_sound => random.between(2, 8),
        _ => random.between(1, MOST_CALLS),
    };
    let busy = random.between(1, 5);
    let mut calls = Vec::new();
    for _ in 0..count {
        let call = match random.below(24) {
            0 => wrong(random, &bench),
            1 | 2 if is_sound => run_some(random, &bench),
            1 | 2 => Call::Run { ticks: 3 },
            _ if is_sound => near_the_gap(random, &bench, busy),
            _ if random.one_in(2) => Call::Tick,
            _ => wrong(random, &bench),
        };
        apply(&mut bench, call);
        calls.push(call);
    }
    calls
}

fn apply(bench: &mut Bench, call: Call) {
    match call {
        Call::Release { place, demand } => drop(bench.release(place, demand)),
        Call::Tick => drop(bench.tick()),
        Call::Run { ticks } => run(bench, ticks),
    }
}

fn near_the_gap(random: &mut Random, bench: &Bench, busy: u64) -> Call {
    match history_cases::near_the_gap(random, bench, busy) {
        Some((place, demand)) => release(place, demand),
        None => Call::Tick,
    }
}

/// A poll with a wrong place, or of any row with a demand at an edge; some have last bytes that alone
/// would be right.
fn wrong(random: &mut Random, bench: &Bench) -> Call {
    let count = bench.rows.len() as u64;
    let sound = random.between(1, count.max(1));
    let far = random.pick(&[256, 65_536, 1 << 32, 1 << 63]);
    let place = match random.below(8) {
        0 => 0,
        1 => count + 1,
        2 => random.pick(&[32, 33, 255, 256, (1 << 32) + 1, u64::MAX]),
        3 => sound + far,
        _ => sound,
    };
    let c = bench
        .rows
        .get(sound as usize - 1)
        .map_or(1, |entry| entry.row.c);
    let demand = match random.below(7) {
        0 => 0,
        1 => c,
        2 => c.saturating_add(1),
        3 => random.pick(&[1 << 32, (1 << 32) + 1, 1 << 63, u64::MAX]),
        4 => c.saturating_add(far),
        _ => 1,
    };
    release(place, demand)
}

/// Mostly few ticks. Some runs end just before a poll or a gap does, and a few are long.
fn run_some(random: &mut Random, bench: &Bench) -> Call {
    let longest = if random.one_in(40) { LONGEST_RUN } else { 300 };
    let entry = random.pick(&bench.rows);
    let ticks = match random.below(6) {
        0 => entry.remaining.saturating_sub(random.below(3)),
        1 => {
            let gap_ends = entry.last_release.unwrap_or(0) + entry.row.t;
            gap_ends.saturating_sub(bench.instant + random.below(3))
        }
        2 => random.between(1, longest),
        _ => random.between(1, 20),
    };
    Call::Run {
        ticks: ticks.min(longest),
    }
}

/// What the format doesn't look at: the place and demand of a tick, the place of a run. A released
/// byte that isn't 0 may be any other.
fn add_noise(random: &mut Random, bytes: &mut [u8]) {
    for index in 0..MOST_ROWS {
        let released = &mut bytes[released_at(index)];
        if *released != 0 {
            *released = random.pick(&[1, 2, 128, 255]);
        }
    }
    for call in bytes[BENCH..].chunks_mut(CALL) {
        let noise = random.bytes(CALL);
        match call[0] {
            2 => call[1..].copy_from_slice(&noise[1..]),
            3 => call[1..9].copy_from_slice(&noise[1..9]),
            _ => {}
        }
    }
}
