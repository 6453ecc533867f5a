// The self-test's benches: by hand, with each refusal, broken ones, and random histories.

use crate::bench::{Bench, Clause, Finish, LAST_INSTANT};
use crate::bench_cases::{full_in_mid_run, in_mid_run};
use crate::break_bench::{break_clause, edges_kept, CLAUSES};
use crate::document::rows;
use crate::lent_bench::{read_bench, released_at, write_bench, BENCH};
use crate::list::Row;
use crate::random::Random;
use crate::selftest::{random_list, refusal, shown_bounds, Tests};

pub fn run(tests: &mut Tests) {
    bench_by_hand(tests);
    bench_refusals(tests);
    broken_benches(tests);
    clauses(tests);
    benches_in_bytes(tests);
    random_benches(tests);
}

fn opened(cores: u64, list: &[(u64, u64, u64)]) -> Bench {
    Bench::open(cores, &rows(list)).expect("the rows pass 1 to 6")
}

fn bench_by_hand(tests: &mut Tests) {
    let mut bench = opened(1, &[(1, 4, 4), (2, 6, 6), (5, 12, 12)]);
    let polls = [
        (0, 1, 1),
        (0, 2, 2),
        (0, 3, 5),
        (4, 1, 1),
        (6, 2, 2),
        (8, 1, 1),
    ];
    let mut finished = Vec::new();
    for instant in 0..12 {
        for (_, place, demand) in polls.iter().filter(|poll| poll.0 == instant) {
            tests.same("a poll starts", bench.release(*place, *demand), Ok(()));
        }
        let ended = bench.tick().expect("the bench ticks");
        finished.extend(
            ended
                .iter()
                .map(|finish| (bench.instant, finish.place, finish.response)),
        );
    }
    let wanted = vec![
        (1, 1, 1),
        (3, 2, 3),
        (5, 1, 1),
        (8, 2, 2),
        (9, 1, 1),
        (12, 3, 12),
    ];
    tests.same("the bench by hand", finished, wanted);

    let mut bench = opened(2, &[(1, 4, 4), (2, 6, 6), (1, 12, 12)]);
    for place in [3, 2, 1] {
        tests.same("a poll starts", bench.release(place, 1), Ok(()));
    }
    let both = vec![
        Finish {
            place: 1,
            response: 1,
        },
        Finish {
            place: 2,
            response: 1,
        },
    ];
    tests.same("two finish in one tick", bench.tick(), Ok(both));
    tests.same(
        "then the third",
        bench.tick(),
        Ok(vec![Finish {
            place: 3,
            response: 2,
        }]),
    );
    tests.same("then nothing", bench.tick(), Ok(vec![]));
}

fn bench_refusals(tests: &mut Tests) {
    tests.same(
        "opening without rows or cores",
        Bench::open(0, &[]),
        Err(refusal(1, 0)),
    );
    tests.same(
        "opening without cores",
        Bench::open(0, &rows(&[(0, 1, 1)])),
        Err(refusal(2, 0)),
    );
    tests.same(
        "opening with C 0",
        Bench::open(1, &rows(&[(1, 1, 1), (0, 1, 1)])),
        Err(refusal(3, 2)),
    );

    let mut bench = opened(1, &[(3, 3, 3), (1, 3, 3)]);
    let full_demands = [bench.release(1, 3), bench.release(2, 1)];
    tests.same("full demands", full_demands, [Ok(()), Ok(())]);
    let mut turned_away = |bench: &Bench, place: u64, demand: u64, number: u32| {
        let mut lent = bench.clone();
        tests.same(
            "release",
            lent.release(place, demand),
            Err(refusal(number, place)),
        );
        tests.same("a refused release changes nothing", &lent, bench);
    };
    turned_away(&bench, 0, 0, 20);
    turned_away(&bench, 3, 0, 20);
    turned_away(&bench, 1, 0, 23);
    turned_away(&bench, 1, 4, 23);
    turned_away(&bench, 1, 1, 22);
    for _ in 0..3 {
        bench.tick().expect("the bench ticks");
    }
    turned_away(&bench, 2, 1, 21);
    turned_away(&bench, 2, 2, 23);
    tests.same(
        "a release exactly T after the last one",
        bench.release(1, 1),
        Ok(()),
    );

    bench.instant = LAST_INSTANT;
    let last = bench.clone();
    tests.same(
        "tick at the last instant",
        bench.tick(),
        Err(refusal(24, 0)),
    );
    tests.same("a refused tick changes nothing", bench, last);
}

type Break = fn(&mut Bench);

fn broken_benches(tests: &mut Tests) {
    let breaks: [(&str, Break); 9] = [
        ("no rows", |bench| bench.rows.clear()),
        ("no cores", |bench| bench.cores = 0),
        ("C 0", |bench| bench.rows[1].row.c = 0),
        ("T below D", |bench| bench.rows[1].row.t = 1),
        ("an instant too late", |bench| {
            bench.instant = LAST_INSTANT + 1
        }),
        ("a release to come", |bench| {
            bench.rows[0].last_release = Some(1)
        }),
        ("a demand above C", |bench| bench.rows[0].demand = 4),
        ("a remainder above its demand", |bench| {
            bench.rows[0].demand = 2
        }),
        ("work never released", |bench| {
            bench.rows[0].last_release = None
        }),
    ];
    for (name, broken) in breaks {
        let mut bench = opened(1, &[(3, 3, 3), (1, 3, 3)]);
        tests.same(name, bench.release(1, 3), Ok(()));
        broken(&mut bench);
        let before = bench.clone();
        tests.same(name, bench.release(9, 0), Err(refusal(29, 0)));
        tests.same(name, bench.tick(), Err(refusal(29, 0)));
        tests.same(name, bench, before);
    }
}

/// Each way to break a clause of number 29 breaks that clause alone, and the edges break none.
fn clauses(tests: &mut Tests) {
    let wanted = [
        Clause::Table(1),
        Clause::Table(1),
        Clause::Table(2),
        Clause::Table(2),
        Clause::Instant,
        Clause::Table(3),
        Clause::Table(4),
        Clause::Table(5),
        Clause::Table(6),
        Clause::LastRelease,
        Clause::Demand,
        Clause::Remainder,
        Clause::NeverReleased,
    ];
    for (which, clause) in (0..CLAUSES).zip(wanted) {
        for (index, far) in [(0, 0), (1, 0), (2, 1 << 32), (2, u64::MAX)] {
            let mut bench = in_mid_run();
            break_clause(&mut bench, which, index, far);
            tests.same("a clause is broken", bench.broken(), vec![clause]);
            let mut bench = full_in_mid_run();
            break_clause(&mut bench, which, 31, far);
            tests.same("and in the 32nd row", bench.broken(), vec![clause]);
        }
    }
    for bench in edges_kept(&in_mid_run()) {
        tests.same("an edge is kept", bench.broken(), vec![]);
    }
}

/// A bench comes out of its bytes as it went in, with what stands past its table.
fn benches_in_bytes(tests: &mut Tests) {
    let bytes: Vec<u8> = (0..BENCH).map(|at| at as u8).collect();
    for count in [0, 1, 31, 32, 33, 65_535] {
        let mut bytes = bytes.clone();
        bytes[12..14].copy_from_slice(&(count as u16).to_be_bytes());
        (0..32).for_each(|index| bytes[released_at(index)] = 1);
        let lent = read_bench(&bytes);
        tests.same("rows of a bench", lent.bench.rows.len(), count);
        tests.same("a bench in bytes", write_bench(&lent), bytes);
    }
}

/// Random histories on random boards: each tick serves the highest rows, no unit is lost, and no
/// poll takes longer than its bound.
fn random_benches(tests: &mut Tests) {
    let random = &mut Random::new(29);
    let mut faults = Vec::new();
    for _ in 0..2_000 {
        let (cores, list) = random_list(random, 20);
        let bounds = shown_bounds(cores, &list);
        if !history_keeps(random, cores, &list, &bounds) {
            faults.push((cores, list));
        }
    }
    tests.same("random benches", faults, vec![]);
}

fn history_keeps(random: &mut Random, cores: u64, list: &[Row], bounds: &[u64]) -> bool {
    let mut bench = Bench::open(cores, list).expect("the rows pass 1 to 6");
    let mut accepted = vec![0; list.len()];
    let mut served = vec![0; list.len()];
    let eager = random.one_in(2);
    for _ in 0..200 {
        add(&mut accepted, &release_some(random, eager, &mut bench));
        let before = remaining(&bench);
        let finished = bench.tick().expect("the bench ticks");
        let units: Vec<u64> = before
            .iter()
            .zip(remaining(&bench))
            .map(|(had, has)| had - has)
            .collect();
        add(&mut served, &units);
        if units != wanted_units(cores, &before)
            || finished.iter().any(|finish| is_late(finish, bounds))
        {
            return false;
        }
    }
    add(&mut served, &remaining(&bench));
    accepted == served
}

/// The demands accepted. An eager history polls each row as soon and as long as it may.
fn release_some(random: &mut Random, eager: bool, bench: &mut Bench) -> Vec<u64> {
    let mut demands = vec![0; bench.rows.len()];
    for (index, accepted) in demands.iter_mut().enumerate() {
        let c = bench.rows[index].row.c;
        let demand = if eager { c } else { random.below(c + 2) };
        if (eager || random.one_in(3)) && bench.release(index as u64 + 1, demand).is_ok() {
            *accepted = demand;
        }
    }
    demands
}

fn wanted_units(cores: u64, remaining: &[u64]) -> Vec<u64> {
    let mut units = vec![0; remaining.len()];
    let waiting = (0..remaining.len()).filter(|&index| remaining[index] > 0);
    waiting
        .take(cores as usize)
        .for_each(|index| units[index] = 1);
    units
}

fn remaining(bench: &Bench) -> Vec<u64> {
    bench.rows.iter().map(|polled| polled.remaining).collect()
}

fn add(sums: &mut [u64], more: &[u64]) {
    sums.iter_mut()
        .zip(more)
        .for_each(|(sum, number)| *sum += number);
}

/// Rows without a bound are never late.
fn is_late(finish: &Finish, bounds: &[u64]) -> bool {
    bounds
        .get(finish.place - 1)
        .is_some_and(|&bound| finish.response > bound)
}
