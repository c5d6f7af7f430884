//! Compares the library with the second implementation on sheets by chance, sound and damaged. Fails if they differ anywhere, or
//! if too few of the cases were of the kinds that matter. Arguments: seed and number of cases.

mod dense_counts;
mod explain_counts;
#[cfg(test)]
mod explain_faults;
mod lent;
#[cfg(test)]
mod memo_search;
#[cfg(test)]
mod memo_tables;
mod near_counts;
mod pair_counts;
mod rename_counts;
#[cfg(test)]
mod rename_faults;
mod tally;
mod writing;

use std::process::ExitCode;
use tally::Tally;
use trials::chance::Chance;
use trials::many_members::Plan;
use trials::refusals::Sheets;
use trials::write::{self, Draft};
use trials::{cards, damage, damage_bytes, damage_pairs, limits, make, many_members};

const SEED: u64 = 20_070_713;
const CASES: u64 = 24_000;
/// One in so many cases has a second one beside it: rules and a question that lead to many unlike questions.
const ONE_OF_MANY_IN: u64 = 100;
/// One in so many of those has a third beside it, with a clash of helper and role.
const ONE_CLASH_IN: u64 = 5;
/// One in so many has a near miss beside it, and a needed fact at some place.
const ONE_NEAR_MISS_IN: u64 = 5;
/// One in so many has a dense case beside it.
const ONE_DENSE_IN: u64 = 12;
/// One in so many has a pair of questions beside it, to be renamed.
const ONE_RENAMING_IN: u64 = 2;
/// In one of so many, and in every one that is refused, tuples are explained too.
const ONE_EXPLAINED_IN: u64 = 7;
/// One in so many has a case beside it that is made for explaining.
const ONE_DEEP_IN: u64 = 6;
/// One in so many is damaged so that two numbers hold whose order matters.
const ONE_ORDER_IN: usize = 30;
/// Differences that are printed before the run is given up.
const MOST_DIFFERENCES: usize = 10;

/// A draft of the usual kind, at times one that reaches a limit.
fn draft(case: u64, chance: &mut Chance) -> Draft {
    match (case % 2_000, case % 50) {
        (501, _) => limits::widest(chance),
        (1_001, _) => limits::most_rules(chance),
        (1_501, _) => limits::most_facts(chance),
        (251 | 751 | 1_251 | 1_751, _) => limits::many_answers(chance),
        (_, 17) if case % 500 < 50 => limits::most_rules_with_pairs(chance),
        (_, 0) => limits::look_alike(chance),
        _ => make::draft(chance),
    }
}

/// Numbers that hold together after damage aimed at both, in the order of the aims: what is packed first comes first, and 11 needs the
/// union that 18 has closed again.
const TOGETHER: [[u32; 2]; 6] = [[17, 2], [17, 3], [18, 5], [18, 11], [18, 12], [18, 13]];

/// What the damage of a case is aimed at: up to three refusals.
fn aims(chance: &mut Chance) -> Vec<u32> {
    if chance.one_in(ONE_ORDER_IN) {
        return chance.of(&TOGETHER).to_vec();
    }
    let wounds = chance.weighed(&[40, 42, 13, 5]);
    let aim = |chance: &mut Chance| match chance.below(3) {
        0 => chance.from(7, 11) as u32,
        _ => chance.of(&[0, 1, 2, 3, 4, 5, 6, 7, 8, 9, 10, 11, 12, 13, 17, 18, 18]),
    };
    (0..wounds).map(|_| aim(chance)).collect()
}

/// Sheets of one case: as they are made, or damaged.
fn sheets_of(case: u64, chance: &mut Chance) -> Sheets {
    let mut draft = draft(case, chance);
    let mut later = Vec::new();
    for aim in aims(chance) {
        if !damage::draft(aim, &mut draft, chance) {
            later.push(aim);
        }
    }
    let mut sheets = draft.sheets(chance);
    for aim in later {
        damage_bytes::bytes(aim, &mut sheets, chance);
    }
    sheets
}

/// Rules and a question, packed. There are no facts, or rather a sheet of them that is refused, so that facts are made for the union that
/// is written.
fn packed((rules, question): &Plan, chance: &mut Chance) -> Sheets {
    Sheets {
        rules: write::rules(rules, chance),
        question: write::question(question, chance),
        union: vec![],
        facts: vec![0],
    }
}

/// Rules and a question that lead to many unlike questions; at times damaged, so that 1 to 5 and 17 come before 15, and at times beside
/// a clash of helper and role, so that 18 does.
fn compare_many(tally: &mut Tally, case: u64, chance: &mut Chance) {
    let turn = case / ONE_OF_MANY_IN;
    let mut plan = many_members::plan(turn, chance);
    let mut sheets = packed(&plan, chance);
    if chance.one_in(8) {
        damage_bytes::bytes(chance.of(&[1, 2, 3, 17]), &mut sheets, chance);
    }
    tally.compare_write(&format!("case {case}, many members"), &sheets, chance);
    if turn % ONE_CLASH_IN == 0 {
        damage_pairs::clash_idly(&mut plan.0, chance);
        let sheets = packed(&plan, chance);
        tally.compare_write(&format!("case {case}, many members and a clash"), &sheets, chance);
    }
}

fn run(seed: u64, cases: u64) -> bool {
    let mut tally = Tally::default();
    let mut chance = Chance::new(seed);
    for card in cards::cards() {
        tally.compare_check(&card.name, &card.sheets);
        tally.compare_answer(&card.name, &card.sheets, &card.expected, &mut chance);
        tally.compare_members(&card.name, &card.sheets, &mut chance);
        tally.compare_write(&card.name, &card.sheets, &mut chance);
        tally.compare_explain(&card.name, &card.sheets, &mut Chance::new(seed));
    }
    println!("seed {seed}, {cases} cases");
    for case in 0..cases {
        // each case has a seed of its own, so that one can be looked at alone
        let mut chance = Chance::new(seed.wrapping_mul(1_000_003).wrapping_add(case));
        let sheets = sheets_of(case, &mut chance);
        let is_refused = tally.compare(&format!("case {case}"), &sheets, &mut chance);
        tally.compare_write(&format!("case {case}"), &sheets, &mut chance);
        if case % ONE_OF_MANY_IN == 0 {
            compare_many(&mut tally, case, &mut chance);
        }
        if case % ONE_NEAR_MISS_IN == 0 {
            tally.compare_near(&format!("case {case}"), case / ONE_NEAR_MISS_IN, &mut chance);
        }
        if case % ONE_DENSE_IN == 0 {
            tally.compare_dense(seed, case / ONE_DENSE_IN);
        }
        if case % ONE_RENAMING_IN == 0 {
            tally.compare_rename(seed, case / ONE_RENAMING_IN);
        }
        if is_refused || case % ONE_EXPLAINED_IN == 0 {
            tally.compare_explain(&format!("case {case}"), &sheets, &mut chance);
        }
        if case % ONE_DEEP_IN == 0 {
            tally.compare_deep(seed, case / ONE_DEEP_IN);
        }
        if tally.differences >= MOST_DIFFERENCES {
            println!("given up after {} cases", case + 1);
            break;
        }
    }
    tally.told()
}

fn main() -> ExitCode {
    let mut arguments = std::env::args().skip(1).map(|word| word.parse::<u64>());
    let number = |given: Option<Result<u64, _>>, usual| match given {
        None => Ok(usual),
        Some(result) => result.map_err(|_: std::num::ParseIntError| ()),
    };
    let (Ok(seed), Ok(cases), None) = (
        number(arguments.next(), SEED),
        number(arguments.next(), CASES),
        arguments.next(),
    ) else {
        eprintln!("usage: trials [SEED [CASES]]");
        return ExitCode::from(2);
    };
    match run(seed, cases) {
        true => ExitCode::SUCCESS,
        false => {
            eprintln!("trials: a difference, or too few cases of a kind");
            ExitCode::FAILURE
        }
    }
}
