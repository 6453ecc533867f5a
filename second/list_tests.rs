// The self-test's lent lists: numbers of 64 bits, and what the bounds list holds afterwards.

use crate::document::rows;
use crate::lists::{lend, Lent};
use crate::selftest::Tests;

pub fn run(tests: &mut Tests) {
    bounds_lists(tests);
    large_numbers(tests);
}

/// Number, place and the entries that are no longer what they were, each with its index.
fn changed(lent: &Lent) -> (u32, u64, Vec<(usize, u64)>) {
    let untouched = lend(0, &[], 0).array;
    let changed = lent.array.iter().zip(untouched).enumerate();
    let changed = changed.filter(|(_, (after, before))| *after != before);
    let entries = changed.map(|(index, (&after, _))| (index, after)).collect();
    (lent.number, lent.place, entries)
}

fn bounds_lists(tests: &mut Tests) {
    let mut leaves = |list: &[(u64, u64, u64)], entries: usize, wanted: (u32, u64, &[_])| {
        let given = changed(&lend(2, &rows(list), entries));
        let wanted = (wanted.0, wanted.1, wanted.2.to_vec());
        tests.same(&format!("{list:?}, {entries} entries"), given, wanted);
    };
    let shown = [(2, 5, 5), (3, 8, 8), (2, 4, 10)];
    leaves(&shown, 3, (0, 0, &[(4, 2), (5, 3), (6, 4)]));
    leaves(&shown, 40, (0, 0, &[(4, 2), (5, 3), (6, 4)]));
    leaves(&shown, 2, (7, 0, &[]));
    leaves(&shown, 0, (7, 0, &[]));
    leaves(
        &[(2, 5, 5), (3, 8, 8), (2, 3, 10)],
        3,
        (8, 3, &[(4, 2), (5, 3)]),
    );
    leaves(&[(2, 5, 5), (3, 8, 8), (0, 4, 10)], 3, (3, 3, &[]));
    leaves(&[], 0, (1, 0, &[]));
}

fn large_numbers(tests: &mut Tests) {
    let mut refused = |cores: u64, list: &[(u64, u64, u64)], number: u32, place: u64| {
        let given = changed(&lend(cores, &rows(list), 1));
        tests.same(
            &format!("M {cores}, {list:?}"),
            given,
            (number, place, vec![]),
        );
    };
    let (large, half) = (u64::MAX, 1 << 63);
    refused((1 << 32) - 1, &[(1, 1, 1)], 2, 0);
    refused(65_537, &[(1, 1, 1)], 2, 0);
    refused(1, &[(large, large, large)], 6, 1);
    refused(1, &[(large, 1, large)], 4, 1);
    refused(1, &[(half, half - 1, half)], 4, 1);
    refused(1, &[(half - 1, half, half - 1)], 5, 1);
    refused(1, &[(1 << 32, 5, 5)], 4, 1);
    refused(1, &[(1, 5, (1 << 32) + 5)], 6, 1);
}
