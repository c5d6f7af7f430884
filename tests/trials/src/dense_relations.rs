//! Dense relations, and what stands beside them: few facts or none of some names, and rules that lead from those to others.

use crate::chance::Chance;
use crate::rule_sheet::Written;
use crate::sheets::{Atom, Description, Fact, Question, Rule, Term};
use std::collections::BTreeSet;

/// How a relation over some objects looks.
#[derive(Clone, Copy, PartialEq, Eq, Debug)]
pub enum Shape {
    /// Every two, and each with itself.
    Complete,
    /// Each of the first half to each of the second.
    Bipartite,
    /// The same in both directions: no ring of an odd number has a match.
    BothWays,
    /// In three layers, each of one to each of the next: no chain of three has a match.
    Layers,
    /// Every two in one direction, by chance.
    Tournament,
    /// Each to every later one: no ring has a match.
    Ascending,
    /// Every second pair, or every fourth, by chance: what one object leads to another often does not.
    Half,
    Quarter,
    /// Each to the next and to the seventh after it, round and round: many objects, few facts of each.
    Steps,
}

pub const SHAPES: [Shape; 9] = [
    Shape::Complete,
    Shape::Bipartite,
    Shape::BothWays,
    Shape::Layers,
    Shape::Tournament,
    Shape::Ascending,
    Shape::Half,
    Shape::Quarter,
    Shape::Steps,
];

impl Shape {
    /// Whether the object at the one place has the relation to that at the other, of so many.
    fn relates(self, from: usize, to: usize, many: usize, chance: &mut Chance) -> bool {
        let half = |at: usize| 2 * at / many;
        let layer = |at: usize| 3 * at / many;
        match self {
            Shape::Complete => true,
            Shape::Bipartite => half(from) < half(to),
            Shape::BothWays => half(from) != half(to),
            Shape::Layers => layer(from) + 1 == layer(to),
            Shape::Tournament => false,
            Shape::Ascending => from < to,
            Shape::Half => chance.one_in(2),
            Shape::Quarter => chance.one_in(4),
            Shape::Steps => to == (from + 1) % many || to == (from + 7) % many,
        }
    }

    /// How many objects have about so many pairs.
    pub fn objects_for(self, pairs: usize) -> usize {
        let square = match self {
            Shape::Complete => pairs,
            Shape::Bipartite | Shape::Quarter => 4 * pairs,
            Shape::Layers => 9 * pairs / 2,
            Shape::Steps => return pairs / 2,
            _ => 2 * pairs,
        };
        square.isqrt()
    }

    /// How many objects, and how many roles of this shape over them, have about so many facts together.
    pub fn objects_and_roles(self, facts: usize, chance: &mut Chance) -> (usize, usize) {
        let roles = chance.weighed(&[6, 3, 2]) + 1;
        (self.objects_for(facts / roles).max(3), roles)
    }

    /// The pairs of objects that the relation has.
    pub fn pairs(self, objects: &[u16], chance: &mut Chance) -> Vec<(u16, u16)> {
        let many = objects.len();
        let mut pairs = Vec::new();
        for from in 0..many {
            for to in 0..many {
                if self.relates(from, to, many, chance) {
                    pairs.push((objects[from], objects[to]));
                }
                if self == Shape::Tournament && from < to {
                    let (one, two) = if chance.one_in(2) { (from, to) } else { (to, from) };
                    pairs.push((objects[one], objects[two]));
                }
            }
        }
        pairs
    }
}

/// What stands in questions, rules and facts.
pub struct Names {
    pub objects: Vec<u16>,
    /// Objects that the dense relations do not have.
    pub strangers: Vec<u16>,
    /// Roles with a dense relation, and one with a dense relation over strangers.
    pub dense: Vec<u16>,
    pub apart: u16,
    /// A role with few facts, one with none, and one that rules have on the left.
    pub thin: u16,
    pub bare: u16,
    pub below: u16,
    /// Concepts: borne by all objects, by few, by none, and one that rules have on the left.
    pub all: u16,
    pub few: u16,
    pub none: u16,
    pub under: u16,
}

/// So many objects, none twice, with lost tags in none, few or half of the places.
fn objects(many: usize, chance: &mut Chance) -> Vec<u16> {
    let lost = chance.of(&[0, 0, 1, 3, many / 2]).min(512);
    let base = chance.of(&[0, 1, 250, 60_000, 65_024 - (many - lost)]);
    let mut all: Vec<u16> = (base..base + many - lost).map(|object| object as u16).collect();
    // from the first lost tag on, and from the last one back
    let tag = |i: usize| if i % 2 == 0 { 65_024 + i / 2 } else { 65_535 - i / 2 };
    all.extend((0..lost).map(|i| tag(i) as u16));
    chance.shuffle(&mut all);
    all
}

/// Names for so many objects in so many dense relations.
pub fn names(many: usize, dense: usize, chance: &mut Chance) -> Names {
    let mut roles: Vec<u16> = vec![0, 2, 4, 8, 9, 15, 16, 17, 100, 2_048, 4_095];
    chance.shuffle(&mut roles);
    let mut concepts = vec![0, 1, 2, 5, 16, 2_048, 4_095];
    chance.shuffle(&mut concepts);
    let mut objects = objects(many + chance.from(2, 2 + many / 4), chance);
    Names {
        strangers: objects.split_off(many),
        objects,
        dense: roles[..dense].to_vec(),
        apart: roles[3],
        thin: roles[4],
        bare: roles[5],
        below: roles[6],
        all: concepts[0],
        few: concepts[1],
        none: concepts[2],
        under: concepts[3],
    }
}

fn role_facts(role: u16, pairs: Vec<(u16, u16)>) -> impl Iterator<Item = Fact> {
    pairs.into_iter().map(move |(one, two)| Atom::Role(role, one, two))
}

impl Names {
    fn any_object(&self, chance: &mut Chance) -> u16 {
        let strangers = chance.one_in(3);
        chance.of(if strangers { &self.strangers } else { &self.objects })
    }

    /// So many facts of a role by chance.
    fn pairs(&self, role: u16, many: usize, chance: &mut Chance) -> Vec<Fact> {
        let mut pair = || Atom::Role(role, self.any_object(chance), self.any_object(chance));
        (0..many).map(|_| pair()).collect()
    }

    /// So many facts of a concept by chance.
    fn bearers(&self, concept: u16, many: usize, chance: &mut Chance) -> Vec<Fact> {
        let mut bearer = || Atom::Concept(concept, self.any_object(chance));
        (0..many).map(|_| bearer()).collect()
    }

    /// Facts of all that stand here, at most so many.
    pub fn facts(&self, shape: Shape, most: usize, chance: &mut Chance) -> Vec<Fact> {
        let many = self.objects.len();
        let mut facts = self.pairs(self.thin, chance.from(1, 4), chance);
        facts.extend(self.pairs(self.below, chance.of(&[1, 3, many / 2]), chance));
        facts.extend(self.bearers(self.few, chance.from(1, 2), chance));
        facts.extend(self.bearers(self.under, chance.of(&[1, 2, many / 2]), chance));
        facts.extend(role_facts(self.apart, Shape::Complete.pairs(&self.strangers, chance)));
        for (i, &role) in self.dense.iter().enumerate() {
            let shape = if i > 0 && chance.one_in(2) {
                chance.of(&SHAPES)
            } else {
                shape
            };
            facts.extend(role_facts(role, shape.pairs(&self.objects, chance)));
        }
        if chance.one_in(2) {
            facts.extend(self.objects.iter().map(|&object| Atom::Concept(self.all, object)));
        }
        // each once, those made first kept where there are too many
        let mut kept = BTreeSet::new();
        facts.retain(|&fact| kept.len() < most && kept.insert(fact));
        chance.shuffle(&mut facts);
        facts
    }
}

/// What a bearer may bear on the left of a rule.
fn left(names: &Names, chance: &mut Chance) -> Description {
    let role = chance.of(&[names.thin, names.below, names.below, names.dense[0]]);
    match chance.below(6) {
        0..=2 => Description::Concept(names.under),
        3 => Description::Concept(names.few),
        4 => Description::To(role),
        _ => Description::From(role),
    }
}

/// A rule that may apply to the atom, whose left side has facts.
fn rule_for(names: &Names, atom: Atom<Term>, chance: &mut Chance) -> Rule {
    match atom {
        Atom::Concept(a, _) => Rule::Bears(left(names, chance), Description::Concept(a)),
        Atom::Role(right, _, _) if chance.one_in(2) => Rule::Implies {
            left: chance.of(&[names.below, names.below, names.thin, names.dense[0]]),
            right,
            exchanged: chance.one_in(2),
        },
        Atom::Role(p, _, _) if chance.one_in(2) => Rule::Bears(left(names, chance), Description::To(p)),
        Atom::Role(p, _, _) => Rule::Bears(left(names, chance), Description::From(p)),
    }
}

/// What the bearers of two atoms have in common that lead to one variable by one role: once they are merged, a rule may apply.
fn fork(atoms: &[Atom<Term>]) -> Option<Description> {
    let forks = atoms.iter().enumerate().flat_map(|(i, &one)| {
        let others = atoms[i + 1..].iter();
        others.filter_map(move |&other| match (one, other) {
            (Atom::Role(p, _, t @ Term::Variable(_)), Atom::Role(q, _, u)) if p == q && t == u => {
                Some(Description::To(p))
            }
            (Atom::Role(p, t @ Term::Variable(_), _), Atom::Role(q, u, _)) if p == q && t == u => {
                Some(Description::From(p))
            }
            _ => None,
        })
    });
    forks.last()
}

/// A rule that gives a role gives a filler too, at times.
fn qualified(rule: Rule, names: &Names, chance: &mut Chance) -> Written {
    match rule {
        Rule::Bears(left, right @ (Description::To(_) | Description::From(_))) if chance.one_in(3) => {
            let filler = chance.of(&[names.all, names.few, names.none, names.under]);
            Written::Qualified { left, right, filler }
        }
        rule => Written::Plain(rule),
    }
}

/// A few rules that may apply to the question, most of them to what is not dense: there they lead to few members, and out of dead ends.
/// Pairs are among them if they may be.
pub fn rules(names: &Names, question: &Question, pairs: bool, chance: &mut Chance) -> Vec<Written> {
    let atoms = &question.atoms;
    let is_dense = |atom: &&Atom<Term>| matches!(atom, Atom::Role(p, _, _) if names.dense.contains(p));
    let thin = Vec::from_iter(atoms.iter().filter(|atom| !is_dense(atom)).copied());
    let mut rules = Vec::new();
    for _ in 0..chance.weighed(&[1, 4, 4, 2]) {
        let from = if thin.is_empty() || chance.one_in(4) {
            atoms
        } else {
            &thin
        };
        let atom = chance.of(from);
        rules.push(rule_for(names, atom, chance));
    }
    if chance.one_in(4) {
        rules.push(Rule::Bears(left(names, chance), Description::Concept(names.under)));
    }
    if let (Some(right), true) = (fork(atoms), chance.one_in(2)) {
        rules.push(Rule::Bears(left(names, chance), right));
    }
    let written = |rule| match pairs {
        true => qualified(rule, names, chance),
        false => Written::Plain(rule),
    };
    rules.into_iter().map(written).collect()
}

#[cfg(test)]
mod tests {
    use super::*;

    #[test]
    fn relations_have_about_as_many_pairs_as_they_are_made_for() {
        let chance = &mut Chance::new(1);
        for shape in SHAPES {
            for wanted in [40, 300, 1_500] {
                let objects = Vec::from_iter(0..shape.objects_for(wanted) as u16);
                let pairs = shape.pairs(&objects, chance).len();
                assert!(
                    pairs > wanted / 2 && pairs <= wanted + wanted / 4,
                    "{shape:?}: {pairs} for {wanted}"
                );
            }
        }
    }
}
