//! Names one below another, 511 of them: a tuple of the lowest is explained by 511 steps.
use super::relations::{ask, chain, having, layers};
use super::sheets::{var, Atom, Rule};
use super::{full_sheet, Case, Draw, SHORT};

const STEPS: u64 = 511;

/// The names in a row begin with this one.
const TOP: u64 = 1000;

fn one_atom() -> Case {
    let rules: Vec<Rule> = (0..STEPS).map(|k| Rule::concept(TOP + k + 1, TOP + k)).collect();
    let question = ask(&[0], vec![Atom::Concept(TOP, var(0))]);
    let facts = having(TOP + STEPS, (0, 5_000));
    full_sheet("511 steps, one atom", &rules, &question, facts, SHORT)
}

/// A chain of eight whose last role is the top of the row; how far below it a fact of that role stands goes by its first object.
fn eight_atoms(name: &str, below: impl Fn(u64) -> u64, answers: &[usize]) -> Case {
    let rules: Vec<Rule> = (0..STEPS).map(|k| Rule::role(TOP + k + 1, TOP + k)).collect();
    let roles = [20, 21, 22, 23, 24, 25, 26, TOP];
    let mut facts = layers(&roles, 1_000, &mut Draw::new());
    for fact in facts.iter_mut().filter(|fact| fact.1 == TOP) {
        fact.1 = TOP + below(fact.2);
    }
    full_sheet(name, &rules, &ask(answers, chain(&roles)), facts, SHORT)
}

pub fn cases() -> Vec<Case> {
    vec![
        one_atom(),
        eight_atoms("511 steps, chain of eight", |_| STEPS, &[0, 8]),
        eight_atoms("0 to 511 steps, chain of eight", |x| x % (STEPS + 1), &[0, 8]),
        eight_atoms("511 steps, chain of eight, none asked", |_| STEPS, &[]),
    ]
}
