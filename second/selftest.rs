// The self-test: runs all tests; here the document's lists and slips, and choices against gains.

use std::fmt::Debug;

use crate::bench_tests;
use crate::document::rows;
use crate::list::{
    analyse, bound, choices, every_choice_below, interferences, largest_by_gains, work_with_carry,
    work_without_carry, Answer, Interference, Refusal, Row,
};
use crate::list_tests;
use crate::random::Random;
use crate::sheet_tests;

#[derive(Default)]
pub struct Tests {
    passed: u64,
    failed: u64,
}

impl Tests {
    pub fn same<T: PartialEq + Debug>(&mut self, name: &str, given: T, wanted: T) {
        if given == wanted {
            self.passed += 1;
        } else {
            self.failed += 1;
            println!("{name}: {given:?}, wanted {wanted:?}");
        }
    }
}

/// Whether all passed.
pub fn run() -> bool {
    let mut tests = Tests::default();
    windows(&mut tests);
    lists(&mut tests);
    list_refusals(&mut tests);
    slips(&mut tests);
    choices_and_gains(&mut tests);
    list_tests::run(&mut tests);
    sheet_tests::run(&mut tests);
    bench_tests::run(&mut tests);
    println!("{} passed, {} failed", tests.passed, tests.failed);
    tests.failed == 0
}

pub fn refusal(number: u32, place: u64) -> Refusal {
    Refusal { number, place }
}

fn windows(tests: &mut Tests) {
    let row = Row { c: 2, d: 5, t: 5 };
    for (x, wanted) in [(5, 2), (6, 3)] {
        tests.same(
            &format!("without carry-in, x {x}"),
            work_without_carry(x, row),
            wanted,
        );
    }
    let row = Row { c: 2, d: 6, t: 6 };
    for (x, wanted) in [(1, 2), (5, 2), (6, 3), (7, 3), (8, 4)] {
        tests.same(
            &format!("with carry-in, x {x}"),
            work_with_carry(x, row, 3),
            wanted,
        );
    }
}

fn lists(tests: &mut Tests) {
    let mut shown = |cores: u64, list: &[(u64, u64, u64)], bounds: &[u64]| {
        let given = analyse(cores, &rows(list), 32);
        tests.same(
            &format!("M {cores}, {list:?}"),
            given,
            Answer::AllShown {
                bounds: bounds.to_vec(),
            },
        );
    };
    shown(2, &[(2, 5, 5), (3, 8, 8), (2, 4, 10)], &[2, 3, 4]);
    shown(
        2,
        &[(2, 5, 5), (3, 8, 8), (2, 4, 10), (3, 20, 20)],
        &[2, 3, 4, 7],
    );
    shown(1, &[(1, 4, 4), (2, 6, 6), (5, 12, 12)], &[1, 3, 12]);
    shown(1, &[(1, 1, 1)], &[1]);
    shown(1, &[(1_000_000, 1_000_000, 1_000_000)], &[1_000_000]);

    let mut not_shown = |cores: u64, list: &[(u64, u64, u64)], place: usize, bounds: &[u64]| {
        let given = analyse(cores, &rows(list), 32);
        tests.same(
            &format!("M {cores}, {list:?}"),
            given,
            Answer::NotShown {
                place,
                bounds: bounds.to_vec(),
            },
        );
    };
    not_shown(2, &[(2, 5, 5), (3, 8, 8), (2, 3, 10)], 3, &[2, 3]);
    not_shown(1, &[(1, 4, 4), (2, 6, 6), (5, 11, 12)], 3, &[1, 3]);
    not_shown(1, &[(1, 1, 1), (1, 1, 1)], 2, &[1]);
}

fn list_refusals(tests: &mut Tests) {
    let mut refused =
        |cores: u64, list: &[(u64, u64, u64)], entries: usize, number: u32, place: u64| {
            let given = analyse(cores, &rows(list), entries);
            let name = format!(
                "M {cores}, {} rows, {entries} entries, number {number}",
                list.len()
            );
            tests.same(&name, given, Answer::Refused(refusal(number, place)));
        };
    refused(1, &[(1_000_000, 1_000_000, 1_000_001)], 32, 6, 1);
    refused(0, &[], 32, 1, 0);
    refused(0, &[(0, 5, 5)], 32, 2, 0);
    refused(1, &[(5, 4, 3)], 32, 4, 1);
    refused(17, &[(1, 1, 1); 33], 0, 1, 0);
    refused(17, &[(1, 1, 1); 32], 0, 2, 0);
    refused(16, &[(1, 1, 1); 32], 31, 7, 0);
    refused(1, &[(1, 4, 4), (0, 0, 0)], 0, 3, 2);
    refused(1, &[(1, 4, 4), (2, 2, 1)], 0, 5, 2);
    refused(1, &[(1, 4, 1_000_001), (0, 4, 4)], 0, 6, 1);
    refused(1, &[(1, 1, 1), (1, 1, 1)], 1, 7, 0);
}

/// Slips 1 and 4 give other numbers than the rule.
fn slips(tests: &mut Tests) {
    let as_text = analyse(2, &rows(&[(2, 5, 5), (2, 4, 10), (3, 8, 8)]), 32);
    tests.same(
        "slip 1, priorities as text",
        as_text,
        Answer::AllShown {
            bounds: vec![2, 2, 5],
        },
    );

    let above = rows(&[(1, 4, 4), (2, 6, 6)]);
    let row = Row {
        c: 5,
        d: 100,
        t: 100,
    };
    tests.same(
        "no row carries in",
        bound(1, 0, row, &above, &[1, 3]),
        Some(12),
    );
    tests.same(
        "slip 4, every row carries in",
        bound(1, 2, row, &above, &[1, 3]),
        Some(15),
    );
}

/// Cores and rows that pass 1 to 6, not much heavier than what the cores carry.
pub fn random_list(random: &mut Random, longest: u64) -> (u64, Vec<Row>) {
    random_list_up_to(random, 5, 9, longest)
}

fn random_list_up_to(
    random: &mut Random,
    most_cores: u64,
    most_rows: u64,
    longest: u64,
) -> (u64, Vec<Row>) {
    let cores = random.between(1, most_cores);
    let count = random.between(1, most_rows);
    let whole_gap = random.one_in(2);
    let mut list = Vec::new();
    for _ in 0..count {
        let t = random.between(1, longest);
        let most = (t * cores / count).clamp(1, t);
        let c = random.between(1, most);
        let d = if whole_gap { t } else { random.between(c, t) };
        list.push(Row { c, d, t });
    }
    (cores, list)
}

/// The bounds of the rows that are shown.
pub fn shown_bounds(cores: u64, list: &[Row]) -> Vec<u64> {
    match analyse(cores, list, 32) {
        Answer::AllShown { bounds } | Answer::NotShown { bounds, .. } => bounds,
        Answer::Refused(refusal) => panic!("a random list is refused: {:?}", refusal),
    }
}

/// Going through every choice and taking the largest gains have to say the same.
fn choices_and_gains(tests: &mut Tests) {
    tests.same("choices of at most 2 of 4", choices(4, 2), 11);
    tests.same("choices of at most 15 of 31", choices(31, 15), 1 << 30);
    let random = &mut Random::new(2);
    let mut faults = 0;
    for _ in 0..20_000 {
        let (cores, list) = random_list(random, 40);
        faults += u64::from(!windows_agree(cores, &list));
    }
    tests.same("choices and gains, lists", faults, 0);
    for _ in 0..10_000 {
        let (cores, list) = random_list_up_to(random, 16, 14, 40);
        faults += u64::from(!windows_agree(cores, &list));
    }
    tests.same("choices and gains, longer lists", faults, 0);
    for _ in 0..10_000 {
        faults += u64::from(!any_numbers_agree(random));
    }
    tests.same("choices and gains, any numbers", faults, 0);
}

/// Every window of every row whose rows above are all shown.
fn windows_agree(cores: u64, list: &[Row]) -> bool {
    let bounds = shown_bounds(cores, list);
    let carries = cores as usize - 1;
    list.iter()
        .take(bounds.len() + 1)
        .enumerate()
        .all(|(index, row)| {
            (row.c..=row.d).all(|x| {
                let parts = interferences(x, *row, &list[..index], &bounds);
                let largest = largest_by_gains(&parts, carries);
                let passes = every_choice_below(&parts, carries, 0, cores * (x - row.c + 1));
                is_largest(&parts, carries, largest) && passes == (largest / cores + row.c <= x)
            })
        })
}

/// Also where a carry-in row would add less than a plain one, which no list of rows gives.
fn any_numbers_agree(random: &mut Random) -> bool {
    let count = random.between(1, 14);
    let mut number = || random.below(20);
    let parts: Vec<Interference> = (0..count)
        .map(|_| Interference {
            plain: number(),
            carry: number(),
        })
        .collect();
    (0..=15).all(|carries| is_largest(&parts, carries, largest_by_gains(&parts, carries)))
}

/// Some choice reaches the sum and none goes beyond.
fn is_largest(parts: &[Interference], carries: usize, sum: u64) -> bool {
    every_choice_below(parts, carries, 0, sum + 1) && !every_choice_below(parts, carries, 0, sum)
}
