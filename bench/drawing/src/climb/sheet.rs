//! A sheet as the climb changes it: a question, rules, and relations of certain shapes, with the case and the code that it stands for.
use crate::cases::relations::{dense, drawn, having, loops, onward, round, steps, tournament};
use crate::cases::sheets::{Atom, Fact, Query, Rule, Term};
use crate::cases::{filled, written, Case, Draw, MIDDLE, MOST_FACTS};

/// A rule by the name of the function that makes it.
#[derive(Clone, Copy)]
pub enum Law {
    Concept(u64, u64),
    Some(u64, u64),
    SomeTo(u64, u64),
    Role(u64, u64),
    Exchanged(u64, u64),
}

impl Law {
    fn rule(self) -> Rule {
        match self {
            Law::Concept(lower, upper) => Rule::concept(lower, upper),
            Law::Some(concept, role) => Rule::some(concept, role),
            Law::SomeTo(concept, role) => Rule::some_to(concept, role),
            Law::Role(lower, upper) => Rule::role(lower, upper),
            Law::Exchanged(lower, upper) => Rule::exchanged(lower, upper),
        }
    }

    fn code(self) -> String {
        match self {
            Law::Concept(lower, upper) => format!("Rule::concept({lower}, {upper})"),
            Law::Some(concept, role) => format!("Rule::some({concept}, {role})"),
            Law::SomeTo(concept, role) => format!("Rule::some_to({concept}, {role})"),
            Law::Role(lower, upper) => format!("Rule::role({lower}, {upper})"),
            Law::Exchanged(lower, upper) => format!("Rule::exchanged({lower}, {upper})"),
        }
    }
}

#[derive(Clone, Copy, PartialEq)]
pub enum Shape {
    Dense,
    /// so many pairs, drawn
    Drawn(u64),
    Tournament,
    /// so many parts
    Round(u64),
    Steps(u64),
    Onward(u64),
    Loops,
    /// objects that have a concept
    Having,
}

/// The facts of a name: from so many objects to so many, each from a first one on. Not all shapes use all numbers.
#[derive(Clone, Copy)]
pub struct Relation {
    pub name: u64,
    pub shape: Shape,
    pub from: (u64, u64),
    pub to: (u64, u64),
}

impl Relation {
    pub fn count(&self) -> u64 {
        let (wide, high) = (self.from.1, self.to.1);
        match self.shape {
            Shape::Dense => wide * high,
            Shape::Drawn(count) => count,
            Shape::Tournament => wide * wide.saturating_sub(1) / 2,
            Shape::Round(parts) => parts * wide * wide,
            Shape::Steps(parts) => (parts - 1) * wide * wide,
            Shape::Onward(parts) => parts * (parts - 1) / 2 * wide * wide,
            Shape::Loops | Shape::Having => wide,
        }
    }

    fn facts(&self) -> Vec<Fact> {
        let Relation { name, from, to, .. } = *self;
        match self.shape {
            Shape::Dense => dense(name, from, to),
            Shape::Drawn(count) => drawn(name, count, from, to, &mut Draw::new()),
            Shape::Tournament => tournament(name, from.1, &mut Draw::new()),
            Shape::Round(parts) => round(name, parts, from.1),
            Shape::Steps(parts) => steps(name, parts, from.1),
            Shape::Onward(parts) => onward(name, parts, from.1),
            Shape::Loops => loops(name, from),
            Shape::Having => having(name, from),
        }
    }

    fn code(&self) -> String {
        let Relation { name, from, to, .. } = *self;
        match self.shape {
            Shape::Dense => format!("dense({name}, {from:?}, {to:?})"),
            Shape::Drawn(count) => format!("drawn({name}, {count}, {from:?}, {to:?}, &mut Draw::new())"),
            Shape::Tournament => format!("tournament({name}, {}, &mut Draw::new())", from.1),
            Shape::Round(parts) => format!("round({name}, {parts}, {})", from.1),
            Shape::Steps(parts) => format!("steps({name}, {parts}, {})", from.1),
            Shape::Onward(parts) => format!("onward({name}, {parts}, {})", from.1),
            Shape::Loops => format!("loops({name}, {from:?})"),
            Shape::Having => format!("having({name}, {from:?})"),
        }
    }

    /// A little smaller.
    fn shrink(&mut self) {
        let less = |n: u64| (n - n.div_ceil(32)).max(1);
        match &mut self.shape {
            Shape::Drawn(count) => *count = less(*count),
            Shape::Dense if self.to.1 > self.from.1 => self.to.1 = less(self.to.1),
            _ => self.from.1 = less(self.from.1),
        }
    }
}

#[derive(Clone)]
pub struct Sheet {
    pub query: Query,
    pub laws: Vec<Law>,
    pub relations: Vec<Relation>,
}

fn term_code(term: Term) -> String {
    match term {
        Term::Variable(v) => format!("var({v})"),
        Term::Object(object) => format!("Term::Object({object})"),
    }
}

fn atom_code(atom: Atom) -> String {
    match atom {
        Atom::Role(name, Term::Variable(from), Term::Variable(to)) => format!("role({name}, {from}, {to})"),
        Atom::Role(name, from, to) => format!("Atom::Role({name}, {}, {})", term_code(from), term_code(to)),
        Atom::Concept(name, term) => format!("Atom::Concept({name}, {})", term_code(term)),
    }
}

impl Sheet {
    /// Its largest relations made smaller until there are at most so many facts.
    pub fn fit(&mut self, most: usize) {
        while self.relations.iter().map(Relation::count).sum::<u64>() > most as u64 {
            if let Some(largest) = self.relations.iter_mut().max_by_key(|relation| relation.count()) {
                largest.shrink();
            }
        }
    }

    /// A small sheet in full size: about three times as many objects, ten times as many facts.
    pub fn enlarged(mut self) -> Sheet {
        let more = |size: &mut u64| *size = (*size * 10).div_ceil(3);
        for relation in &mut self.relations {
            more(&mut relation.from.1);
            more(&mut relation.to.1);
            if let Shape::Drawn(count) = &mut relation.shape {
                *count *= 11;
            }
        }
        self.fit(MOST_FACTS);
        self
    }

    /// `None` if the question is not sound or the union has more than 512 members. A small sheet is not filled, so that the tables for it
    /// are small too; and so is its list.
    pub fn case(&self, full: bool) -> Option<Case> {
        let facts = self.relations.iter().flat_map(Relation::facts).collect();
        let rules: Vec<Rule> = self.laws.iter().map(|law| law.rule()).collect();
        let (facts, list) = if full {
            (filled(facts, &mut Draw::new()), MIDDLE)
        } else {
            (facts, MIDDLE / 12)
        };
        written("climbed", &rules, &self.query, facts, list)
    }

    /// Whether roles between different variables go round; two between the same variables do not.
    pub fn has_ring(&self) -> bool {
        let mut part: [u64; 32] = std::array::from_fn(|v| v as u64);
        let mut pairs: Vec<(u64, u64)> = self.query.atoms.iter().filter_map(|&atom| pair(atom)).collect();
        pairs.sort();
        pairs.dedup();
        pairs.into_iter().any(|(from, to)| {
            let (old, new) = (part[from as usize], part[to as usize]);
            part.iter_mut()
                .filter(|part| **part == old)
                .for_each(|part| *part = new);
            old == new
        })
    }

    /// What stands in `cases/bad` for it.
    pub fn code(&self) -> String {
        let list = |items: Vec<String>| items.join(", ");
        let facts = list(self.relations.iter().map(Relation::code).collect());
        let answers = list(self.query.answers.iter().map(|&term| term_code(term)).collect());
        let atoms = list(self.query.atoms.iter().map(|&atom| atom_code(atom)).collect());
        let rules = list(self.laws.iter().map(|law| law.code()).collect());
        let group = if self.has_ring() { "cyclic" } else { "acyclic" };
        format!(
            "let facts = [{facts}].concat();\nlet answers = vec![{answers}];\nlet atoms = vec![{atoms}];\n\
             lines.{group}(\"found: \", &[{rules}], Query {{ answers, atoms }}, facts);"
        )
    }
}

/// The two different variables of a role, the lower one first.
fn pair(atom: Atom) -> Option<(u64, u64)> {
    match atom {
        Atom::Role(_, Term::Variable(x), Term::Variable(y)) if x != y => Some((x.min(y), x.max(y))),
        _ => None,
    }
}
