//! Alike: a one-to-one renaming of variables carries answer terms to answer terms in order and the set of atoms to the set of
//! atoms. The questions compared have no atom twice.

use crate::sheets::{Atom, Question, Term};
use std::collections::hash_map::DefaultHasher;
use std::collections::HashMap;
use std::hash::{Hash, Hasher};

/// Part of a one-to-one renaming, in both directions.
#[derive(Clone, Copy, Default)]
pub struct Renaming {
    pub forth: [Option<u8>; 32],
    back: [Option<u8>; 32],
}

impl Renaming {
    /// Extends the renaming so that it carries `from` to `to`; false if that cannot be.
    pub fn carry(&mut self, from: Term, to: Term) -> bool {
        match (from, to) {
            (Term::Object(a), Term::Object(b)) => a == b,
            (Term::Variable(x), Term::Variable(y)) => {
                let forth = *self.forth[x as usize].get_or_insert(y);
                let back = *self.back[y as usize].get_or_insert(x);
                forth == y && back == x
            }
            _ => false,
        }
    }

    pub fn carry_atom(&mut self, from: Atom<Term>, to: Atom<Term>) -> bool {
        match (from, to) {
            (Atom::Concept(a, t), Atom::Concept(b, u)) => a == b && self.carry(t, u),
            (Atom::Role(p, t, u), Atom::Role(q, v, w)) => p == q && self.carry(t, v) && self.carry(u, w),
            _ => false,
        }
    }
}

/// Whether the renaming extends so that it carries the atoms one by one to atoms not taken yet.
fn carries(from: &[Atom<Term>], to: &[Atom<Term>], taken: u32, renaming: Renaming) -> bool {
    let Some((&first, rest)) = from.split_first() else {
        return true;
    };
    to.iter().enumerate().any(|(i, &target)| {
        let mut longer = renaming;
        taken >> i & 1 == 0 && longer.carry_atom(first, target) && carries(rest, to, taken | 1 << i, longer)
    })
}

pub fn alike(a: &Question, b: &Question) -> bool {
    let mut renaming = Renaming::default();
    a.answers.len() == b.answers.len()
        && a.atoms.len() == b.atoms.len()
        && a.answers.iter().zip(&b.answers).all(|(&s, &t)| renaming.carry(s, t))
        && carries(&a.atoms, &b.atoms, 0, renaming)
}

/// A number that questions alike have in common: each variable is known only by the places where it stands.
fn outline(question: &Question) -> u64 {
    fn hash(of: impl Hash) -> u64 {
        let mut hasher = DefaultHasher::new();
        of.hash(&mut hasher);
        hasher.finish()
    }
    let mut places: [Vec<(u8, u16, usize)>; 32] = Default::default();
    let mut note = |term: Term, place| {
        if let Term::Variable(x) = term {
            places[x as usize].push(place);
        }
    };
    for (i, &answer) in question.answers.iter().enumerate() {
        note(answer, (0, 0, i));
    }
    for &atom in &question.atoms {
        let (kind, number) = match atom {
            Atom::Concept(a, _) => (1, a),
            Atom::Role(p, _, _) => (2, p),
        };
        for (i, term) in atom.terms().enumerate() {
            note(term, (kind, number, i));
        }
    }
    let known = places.map(|mut list| {
        list.sort();
        hash(list)
    });
    let seen = |term: Term| match term {
        Term::Variable(x) => (0, known[x as usize]),
        Term::Object(a) => (1, u64::from(a)),
    };
    let mut atoms: Vec<_> = question.atoms.iter().map(|atom| hash(atom.map(seen))).collect();
    atoms.sort();
    hash((atoms, question.answers.iter().map(|&t| seen(t)).collect::<Vec<_>>()))
}

/// Questions by outline, so that one alike to a given one is found without comparing them all.
#[derive(Default)]
pub struct Classes {
    known: HashMap<u64, Vec<(usize, Question)>>,
}

impl Classes {
    /// The first question put in that is alike to this one.
    pub fn find(&self, question: &Question) -> Option<usize> {
        let same = self.known.get(&outline(question))?;
        same.iter()
            .find(|(_, other)| alike(other, question))
            .map(|&(index, _)| index)
    }

    pub fn put(&mut self, index: usize, question: Question) {
        self.known
            .entry(outline(&question))
            .or_default()
            .push((index, question));
    }
}
