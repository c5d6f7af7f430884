//! Refusal 18: a helper number as a role in a written rule, the question or a fact. A concept may have such a number, a filler too, and
//! members are not judged.

use crate::rule_sheet::{helper, pairs, Written};
use crate::sheets::{Atom, Description, Fact, Question, Rule};

/// The helper roles in use, one a pair.
#[derive(Clone, Copy)]
pub struct Helpers {
    pairs: usize,
}

/// The places in which 18 looks for one; a pair's role is told apart by whose helper it is.
#[derive(Clone, Copy, PartialEq, Eq, PartialOrd, Ord, Debug)]
pub enum Place {
    LeftOf1,
    RightOf1,
    LeftOf2,
    RightOf2,
    LeftOf3,
    OwnRoleOf3,
    EarlierRoleOf3,
    LaterRoleOf3,
    Question,
    Fact,
}

impl Helpers {
    pub fn of(rules: &[Written]) -> Helpers {
        Helpers { pairs: pairs(rules) }
    }

    pub fn has(self, role: u16) -> bool {
        role > self.next_below()
    }

    /// The highest role that is no helper.
    pub fn next_below(self) -> u16 {
        helper(self.pairs)
    }

    /// Whether some atom has a helper for its role.
    pub fn stand_in<T>(self, atoms: &[Atom<T>]) -> bool {
        let is_helper = |atom: &Atom<T>| matches!(atom, Atom::Role(role, _, _) if self.has(*role));
        atoms.iter().any(is_helper)
    }

    /// The places of these where a helper stands as a role, each once. A sheet that cannot be read has none.
    pub fn places(self, rules: &[Written], question: Option<&Question>, facts: Option<&[Fact]>) -> Vec<Place> {
        let mut places = Vec::new();
        let mut pair = 0;
        for &rule in rules {
            let roles = roles(rule, helper(pair)).into_iter();
            places.extend(roles.filter(|(_, role)| self.has(*role)).map(|(place, _)| place));
            pair += usize::from(rule.is_qualified());
        }
        if question.is_some_and(|question| self.stand_in(&question.atoms)) {
            places.push(Place::Question);
        }
        if facts.is_some_and(|facts| self.stand_in(facts)) {
            places.push(Place::Fact);
        }
        places.sort();
        places.dedup();
        places
    }
}

/// The description's role.
fn role(description: Description) -> Option<u16> {
    match description {
        Description::Concept(_) => None,
        Description::To(role) | Description::From(role) => Some(role),
    }
}

/// The roles of a rule as written, and where they stand; `own` is its helper if it is a pair.
fn roles(rule: Written, own: u16) -> Vec<(Place, u16)> {
    let sides = match rule {
        Written::Plain(Rule::Bears(left, right)) => [(Place::LeftOf1, role(left)), (Place::RightOf1, role(right))],
        Written::Plain(Rule::Implies { left, right, .. }) => {
            [(Place::LeftOf2, Some(left)), (Place::RightOf2, Some(right))]
        }
        Written::Qualified { left, right, .. } => {
            let place = match role(right) {
                Some(role) if role > own => Place::EarlierRoleOf3,
                Some(role) if role < own => Place::LaterRoleOf3,
                _ => Place::OwnRoleOf3,
            };
            [(Place::LeftOf3, role(left)), (place, role(right))]
        }
    };
    let standing = |(place, role): (Place, Option<u16>)| Some((place, role?));
    sides.into_iter().filter_map(standing).collect()
}

/// The places where 18's condition holds, in sheets as far as they can be read.
pub fn clashes(rules: &[Written], question: Option<&Question>, facts: Option<&[Fact]>) -> Vec<Place> {
    Helpers::of(rules).places(rules, question, facts)
}

/// Refusal 18, after all others of the call but 14 to 16.
pub fn no_clash(rules: &[Written], question: &Question, facts: &[Fact]) -> Result<(), u32> {
    match clashes(rules, Some(question), Some(facts)).is_empty() {
        true => Ok(()),
        false => Err(18),
    }
}
