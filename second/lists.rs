// The comparison of lists: the analysis of a lent row list, and what it leaves in the bounds list.

use crate::compare::Kind;
use crate::list::{analyse, Answer, Row};
use crate::list_cases;
use crate::numbers::{append, number};
use crate::tally::{numbered, Entry, Tally};

pub struct Lists;

/// The caller's whole array, of which the bounds list is a part: what stands around it tells of a
/// write beside it.
const ARRAY: usize = 48;
const FIRST_LENT: usize = 4;
const BEFORE: u64 = 0xA5A5_A5A5_A5A5_A500;

pub struct Lent {
    pub number: u32,
    pub place: u64,
    pub array: Vec<u64>,
}

impl Kind for Lists {
    const NAME: &'static str = "lists";
    const FRAMES: &'static str = "list-frames";
    const ANSWERS: &'static str = "list-answers";
    type Own = Lent;

    fn fixed() -> Vec<Vec<u8>> {
        list_cases::fixed()
    }

    fn random(seed: u64, index: u64) -> Vec<u8> {
        list_cases::list(seed, index)
    }

    fn own(case: &[u8]) -> Lent {
        let rows: Vec<Row> = case[6..].chunks(24).map(row).collect();
        lend(number(&case[..4]), &rows, number(&case[4..6]) as usize)
    }

    fn bytes(own: &Lent) -> Vec<u8> {
        let mut bytes = Vec::new();
        append(&mut bytes, 4, u64::from(own.number));
        append(&mut bytes, 4, own.place);
        for &entry in &own.array {
            append(&mut bytes, 8, entry);
        }
        bytes
    }

    fn required() -> Vec<Entry> {
        numbered(ANSWERED, &[0, 1, 2, 3, 4, 5, 6, 7, 8])
    }

    fn count(tally: &mut Tally, own: &Lent) {
        tally.add_number(ANSWERED, u64::from(own.number));
        if own.number == 8 {
            tally.add_number("not shown (8), by place", own.place);
        }
    }
}

const ANSWERED: &str = "answered, by number";

/// C, D and T in eight bytes each.
pub fn row(bytes: &[u8]) -> Row {
    Row {
        c: number(&bytes[..8]),
        d: number(&bytes[8..16]),
        t: number(&bytes[16..24]),
    }
}

/// The answer for a list, with number and place 0 where all rows are shown, and the array after it.
pub fn lend(cores: u64, rows: &[Row], entries: usize) -> Lent {
    let (number, place, bounds) = match analyse(cores, rows, entries) {
        Answer::AllShown { bounds } => (0, 0, bounds),
        Answer::NotShown { place, bounds } => (8, place as u64, bounds),
        Answer::Refused(refusal) => (refusal.number, refusal.place, Vec::new()),
    };
    let mut array: Vec<u64> = (BEFORE..).take(ARRAY).collect();
    array[FIRST_LENT..FIRST_LENT + bounds.len()].copy_from_slice(&bounds);
    Lent {
        number,
        place,
        array,
    }
}
