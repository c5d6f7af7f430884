//! The cards of tests/vectors, K1 to K12 among them, with what they must give.

use crate::refusals::{Outcome, Sheets};
pub use ::vectors::hex;

pub struct Card {
    pub name: String,
    pub sheets: Sheets,
    pub expected: Outcome,
}

fn card(case: ::vectors::Case) -> Card {
    let (number, count, list) = case.outcome();
    Card {
        name: case.name,
        sheets: Sheets {
            rules: case.rules,
            question: case.question,
            union: case.union,
            facts: case.facts,
        },
        expected: Outcome { number, count, list },
    }
}

/// Every card.
pub fn cards() -> Vec<Card> {
    ::vectors::all().into_iter().map(card).collect()
}
