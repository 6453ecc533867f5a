// The sheets to compare, as bytes, each made from a seed and its index.

use crate::damage;
use crate::draft::{self, Draft};
use crate::random::Random;
use crate::text::MOST_BYTES;

const LONGEST: usize = 1_100;

pub fn sheet(seed: u64, index: u64) -> Vec<u8> {
    let random = &mut Random::for_case(seed, index);
    match random.below(1_000) {
        0..=1 => draft::large_times(random).bytes(),
        2..=519 => draft::small(random).bytes(),
        520..=699 => with_edge(random),
        700..=769 => with_records_wrong(random),
        770..=819 => with_several(random),
        820..=849 => cut(random),
        850..=889 => damaged(random),
        890..=904 => continued(random),
        905..=939 => with_many_rows(random),
        940..=969 => draft::many_carry_rows(random).bytes(),
        970..=979 => draft::no_rows(random).bytes(),
        980..=989 => noise(random),
        990..=991 => Vec::new(),
        _ => long(random),
    }
}

fn with_edge(random: &mut Random) -> Vec<u8> {
    let mut draft = draft::small(random);
    edge(random, &mut draft);
    draft.bytes()
}

fn edge(random: &mut Random, draft: &mut Draft) {
    match random.below(11) {
        0 => damage::edge_label(random, draft),
        1 => damage::edge_priority(random, draft),
        2 => damage::same_priority(random, draft),
        3 => damage::edge_time(random, draft),
        4 => damage::equal_times(random, draft),
        5 => damage::edge_gap(random, draft),
        6 => damage::close_times(random, draft),
        7 => damage::edge_cores(random, draft),
        8 => damage::edge_tick(random, draft),
        9 => damage::edge_times(random, draft),
        _ => damage::edge_count(random, draft),
    }
}

fn with_records_wrong(random: &mut Random) -> Vec<u8> {
    let mut draft = draft::small(random);
    wrong_record(random, &mut draft);
    draft.bytes()
}

fn wrong_record(random: &mut Random, draft: &mut Draft) {
    match random.below(4) {
        0 => damage::move_record(random, draft),
        1 => damage::double_record(random, draft),
        2 => damage::drop_record(random, draft),
        _ => damage::damage_kind(random, draft),
    }
}

/// Several faults at once show in which order the checks are made. Edges come first, since they
/// need the board at the head and the end record at the tail.
fn with_several(random: &mut Random) -> Vec<u8> {
    let mut draft = if random.one_in(10) {
        draft::no_rows(random)
    } else {
        draft::small(random)
    };
    for _ in 0..random.between(2, 5) {
        edge(random, &mut draft);
    }
    if random.one_in(2) {
        wrong_record(random, &mut draft);
    }
    let mut bytes = if random.one_in(4) {
        damage::cut(random, &draft)
    } else {
        draft.bytes()
    };
    if random.one_in(4) {
        damage::append_bytes(random, &mut bytes);
    }
    bytes
}

fn cut(random: &mut Random) -> Vec<u8> {
    let draft = draft::small(random);
    damage::cut(random, &draft)
}

fn damaged(random: &mut Random) -> Vec<u8> {
    let mut bytes = draft::small(random).bytes();
    damage::damage_bytes(random, &mut bytes);
    bytes
}

fn continued(random: &mut Random) -> Vec<u8> {
    let mut bytes = draft::small(random).bytes();
    damage::append_bytes(random, &mut bytes);
    bytes
}

fn with_many_rows(random: &mut Random) -> Vec<u8> {
    let count = if random.one_in(2) {
        random.between(9, 30)
    } else {
        random.between(31, 33)
    };
    let mut draft = draft::many_rows(random, count);
    match random.below(10) {
        0 => edge(random, &mut draft),
        1 => wrong_record(random, &mut draft),
        2 => damage::edge_priority_in_last_row(random, &mut draft),
        _ => (),
    }
    draft.bytes()
}

/// Bytes of no sheet: any values, or few and small ones, so that some of them begin as records do.
fn noise(random: &mut Random) -> Vec<u8> {
    let length = random.index(80);
    let mut bytes = random.bytes(length);
    if random.one_in(2) {
        bytes.iter_mut().for_each(|byte| *byte %= 4);
    }
    if random.one_in(2) && !bytes.is_empty() {
        bytes[0] = 1;
    }
    bytes
}

/// As long as the program reads, and longer: a sound sheet and a filling, or row after row.
fn long(random: &mut Random) -> Vec<u8> {
    let length = match random.below(3) {
        0 => MOST_BYTES,
        1 => random.pick(&[MOST_BYTES - 1, MOST_BYTES + 1, LONGEST]),
        _ => MOST_BYTES + random.index(LONGEST - MOST_BYTES + 1),
    };
    let mut bytes = match random.below(3) {
        0 => draft::small(random).bytes(),
        1 => draft::many_rows(random, 32).bytes(),
        _ => draft::many_rows(random, 70).bytes(),
    };
    let filling = random.pick(&[0, 2, 3, 255]);
    bytes.resize(length, filling);
    bytes
}
