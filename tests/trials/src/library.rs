//! The proved library, through its safe wrapper.

use crate::refusals::Sheets;
use crate::renamings;

/// The number that checking returns.
pub fn check(sheets: &Sheets) -> u32 {
    let checked = takwishan::check(&sheets.rules, &sheets.question, &sheets.union);
    checked.err().map_or(0, takwishan::Refusal::number)
}

/// Number and count that drawing returns; the list is written.
pub fn answer(sheets: &Sheets, list: &mut [u8]) -> (u32, u64) {
    let drawn = takwishan::outcome(&sheets.rules, &sheets.question, &sheets.union, &sheets.facts, list);
    (drawn.number, drawn.count)
}

/// Start and length of the part of the sheet that showing returns.
pub fn member(sheet: &[u8], m: usize) -> (usize, usize) {
    let part = takwishan::member(sheet, m);
    (part.as_ptr() as usize - sheet.as_ptr() as usize, part.len())
}

/// Number, count of members and length of the union that writing returns; the sheet is written.
pub fn write(rules: &[u8], question: &[u8], sheet: &mut [u8]) -> (u32, u64, u64) {
    let written = takwishan::write_outcome(rules, question, sheet);
    (written.number, written.count, written.length)
}

/// Everything that comparing two questions returns.
pub fn rename(first: &[u8], second: &[u8]) -> renamings::Outcome {
    let takwishan::RenameOutcome { number, found, targets } = takwishan::rename_outcome(first, second);
    renamings::Outcome { number, found, targets }
}

/// Number and count of steps that explaining a tuple returns; the list of steps is written.
pub fn explain(sheets: &Sheets, tuple: &[u8], steps: &mut [u8]) -> (u32, u64) {
    let Sheets {
        rules,
        question,
        union,
        facts,
    } = sheets;
    let explained = takwishan::explain_outcome(rules, question, union, facts, tuple, steps);
    (explained.number, explained.count)
}
