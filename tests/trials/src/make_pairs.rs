//! Pairs of a kind 3 and its kind 4 by chance, and questions for which a filler matters (T-04 of the change requests).

use crate::chance::Chance;
use crate::make::{description, Names};
use crate::rewrite::kept_once;
use crate::rule_sheet::{helper, plain, Written};
use crate::sheets::{Atom, Description, Question, Rule, Term};

/// Plain rules beside pairs, which are three rules each: with more, most unions would be too long.
const MOST_PLAIN: usize = 5;

/// How many pairs a case is to have: in a third of the cases one to three.
pub fn how_many(chance: &mut Chance) -> usize {
    match chance.one_in(3) {
        true => 1 + chance.weighed(&[6, 3, 1]),
        false => 0,
    }
}

/// Leaves the helpers of so many pairs to them: a role that is one of them, and at times another, becomes the next below. Concepts may
/// have a helper's number.
pub fn leave_helpers(names: &mut Names, pairs: usize, chance: &mut Chance) {
    if pairs == 0 {
        return;
    }
    for role in &mut names.roles {
        if *role > helper(pairs) || chance.one_in(8) {
            *role = helper(pairs);
        }
    }
    if chance.one_in(4) {
        let at = chance.below(names.concepts.len());
        names.concepts[at] = helper(chance.below(pairs));
    }
}

/// "Has the role to something" or "something has the role to it".
pub fn in_some_direction(role: u16, chance: &mut Chance) -> Description {
    match chance.one_in(2) {
        true => Description::To(role),
        false => Description::From(role),
    }
}

fn right(names: &Names, chance: &mut Chance) -> Description {
    in_some_direction(chance.of(&names.roles), chance)
}

pub fn pair(names: &Names, chance: &mut Chance) -> Written {
    Written::Qualified {
        left: description(names, chance),
        right: right(names, chance),
        filler: chance.of(&names.concepts),
    }
}

/// Pairs that go round for ever once something bears the concept: one whose filler is its left side, or two that lead to each other.
fn circle(pairs: usize, names: &Names, chance: &mut Chance) -> Vec<Written> {
    let (one, other) = (chance.of(&names.concepts), chance.of(&names.concepts));
    let mut pair = |left: u16, filler: u16| Written::Qualified {
        left: Description::Concept(left),
        right: right(names, chance),
        filler,
    };
    match pairs {
        1 => vec![pair(one, one)],
        _ => vec![pair(one, other), pair(other, one)],
    }
}

/// So many pairs.
fn pairs(many: usize, names: &Names, chance: &mut Chance) -> Vec<Written> {
    let mut pairs = match chance.one_in(3) {
        true => circle(many, names, chance),
        false => Vec::new(),
    };
    while pairs.len() < many {
        pairs.push(pair(names, chance));
    }
    pairs
}

/// What a pair says of its bearer and the thing at the far end: role and filler.
fn said((right, filler): (Description, u16), bearer: Term, end: Term) -> [Atom<Term>; 2] {
    let role = match right {
        Description::From(p) => Atom::Role(p, end, bearer),
        Description::To(p) | Description::Concept(p) => Atom::Role(p, bearer, end),
    };
    [role, Atom::Concept(filler, end)]
}

/// What is asked of the end besides, or of the bearer: another pair from there, a prong to the same end, a concept, or some role.
fn company(pairs: &[(Description, u16)], names: &Names, variables: &[Term], chance: &mut Chance) -> Vec<Atom<Term>> {
    let (bearer, end, new) = (variables[0], variables[1], chance.of(&variables[2..4]));
    match chance.below(5) {
        0 => said(chance.of(pairs), end, new).to_vec(),
        1 => said(chance.of(pairs), bearer, end).to_vec(),
        2 => said(chance.of(pairs), new, end)[..1].to_vec(),
        3 => vec![Atom::Concept(chance.of(&names.concepts), chance.of(&[bearer, end]))],
        _ => vec![Atom::Role(chance.of(&names.roles), bearer, new)],
    }
}

/// A question about role and filler of one thing, at times with more beside them, at times without the filler.
fn question(pairs: &[(Description, u16)], names: &Names, chance: &mut Chance) -> Question {
    let mut variables: Vec<Term> = (0..=31).map(Term::Variable).collect();
    if chance.one_in(2) {
        chance.shuffle(&mut variables);
    }
    let asked = if chance.one_in(8) { 1 } else { 2 };
    let mut atoms = said(chance.of(pairs), variables[0], variables[1])[..asked].to_vec();
    for _ in 0..chance.weighed(&[5, 4, 2]) {
        atoms.extend(company(pairs, names, &variables, chance));
    }
    chance.shuffle(&mut atoms);
    let answers = match chance.below(8) {
        0 | 1 => vec![],
        2 => vec![variables[0]; 2],
        // the end is an object then, and no unnamed thing
        3 => variables[..2].to_vec(),
        _ => vec![variables[0]],
    };
    Question {
        answers,
        atoms: kept_once(atoms),
    }
}

/// The rules with so many pairs among them; half of the questions are about those.
pub fn with_pairs(
    many: usize,
    names: &Names,
    (mut rules, usual): (Vec<Rule>, Question),
    chance: &mut Chance,
) -> (Vec<Written>, Question) {
    if many == 0 {
        return (plain(&rules), usual);
    }
    rules.truncate(chance.from(0, MOST_PLAIN));
    let pairs = pairs(many, names, chance);
    let said = |pair: &Written| match *pair {
        Written::Qualified { right, filler, .. } => Some((right, filler)),
        Written::Plain(_) => None,
    };
    let rights = Vec::from_iter(pairs.iter().filter_map(said));
    let mut all = [plain(&rules), pairs].concat();
    chance.shuffle(&mut all);
    let question = match chance.one_in(2) {
        true => question(&rights, names, chance),
        false => usual,
    };
    (all, question)
}
