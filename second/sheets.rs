// The comparison of sheets: what is printed for each.

use crate::cases;
use crate::compare::Kind;
use crate::fixed_sheets;
use crate::tally::{numbered, Entry, Tally};
use crate::text::{outcome, text, Outcome};

pub struct Sheets;

impl Kind for Sheets {
    const NAME: &'static str = "sheets";
    const FRAMES: &'static str = "frames";
    const ANSWERS: &'static str = "answers";
    type Own = Outcome;

    fn fixed() -> Vec<Vec<u8>> {
        fixed_sheets::fixed()
    }

    fn random(seed: u64, index: u64) -> Vec<u8> {
        cases::sheet(seed, index)
    }

    fn own(case: &[u8]) -> Outcome {
        outcome(case)
    }

    fn bytes(own: &Outcome) -> Vec<u8> {
        text(own)
    }

    fn required() -> Vec<Entry> {
        required()
    }

    fn count(tally: &mut Tally, own: &Outcome) {
        count(tally, own);
    }

    fn show(answer: &[u8]) -> String {
        String::from_utf8_lossy(answer).into_owned()
    }
}

const ALL_SHOWN: &str = "all shown";
const ABOVE_C: &str = "all shown, a bound above its C";
const NOT_SHOWN: &str = "not shown (8)";
const REFUSED: &str = "refused, by number";

/// All that a sheet can come to. The program lends 32 entries for the bounds, so 7 is never given.
pub fn required() -> Vec<Entry> {
    let mut entries = vec![(ALL_SHOWN, None), (ABOVE_C, None), (NOT_SHOWN, None)];
    let numbers: Vec<u64> = (1..=6).chain(11..=19).collect();
    entries.extend(numbered(REFUSED, &numbers));
    entries
}

pub fn count(tally: &mut Tally, outcome: &Outcome) {
    match outcome {
        Outcome::AllShown { table, bounds } => {
            tally.add(ALL_SHOWN);
            let mut lines = table.rows.iter().zip(bounds);
            if lines.any(|(row, &bound)| bound > row.row.c) {
                tally.add(ABOVE_C);
            }
        }
        Outcome::NotShown { place, .. } => {
            tally.add(NOT_SHOWN);
            tally.add_number("not shown (8), by place", *place as u64);
        }
        Outcome::Refused(refusal) => tally.add_number(REFUSED, u64::from(refusal.number)),
    }
}
