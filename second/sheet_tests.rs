// The self-test's sheets: the document's own sheet, and each refusal of the reader in its order.

use crate::document::{bytes, SHEET};
use crate::fixed_sheets::refused;
use crate::selftest::Tests;
use crate::text::answer;

pub fn run(tests: &mut Tests) {
    sheets(tests);
    sheet_refusals(tests);
}

fn printed(sheet: &[u8]) -> String {
    String::from_utf8_lossy(&answer(sheet)).into_owned()
}

fn sheets(tests: &mut Tests) {
    let mut prints = |name: &str, sheet: &[u8], wanted: &str| {
        tests.same(name, printed(sheet), wanted.to_string());
    };
    let head = "cores 2 tick 100 rows 3\n1 101 2 5\n2 102 3 8\n";
    prints(
        "the document's sheet",
        &bytes(SHEET),
        &format!("{head}3 110 4 4\nall shown\n"),
    );

    let shorter = SHEET.replace("00000190", "0000018F");
    prints(
        "the third row with D 3",
        &bytes(&shorter),
        &format!("{head}not shown 3 110\n"),
    );

    let mut long = bytes(SHEET);
    long.resize(5_000, 0);
    prints("5,000 bytes", &long, "refused 18 57\n");
}

fn sheet_refusals(tests: &mut Tests) {
    for case in refused() {
        let wanted = format!("refused {} {}\n", case.number, case.place);
        tests.same(case.name, printed(&case.sheet), wanted);
    }
}
