//! The rewriting steps: a rule on an atom, a merge of two atoms.
use super::words::{is_variable, Atom, Query, Rule, Term};

/// Whether the term is an unbound variable: it stands in one place of the atoms and in no answer term.
fn unbound(query: &Query, term: Term) -> bool {
    let places = query.atoms().iter().flat_map(|atom| atom.terms());
    is_variable(term)
        && !query.answers().contains(&term)
        && places.filter(|&place| place == term).count() == 1
}

/// The lowest variable that stands nowhere in the query.
fn fresh(query: &Query) -> Term {
    (!query.variables()).trailing_zeros()
}

/// Whether the rule's right side has the atom's predicate.
pub fn names(rule: Rule, atom: Atom) -> bool {
    let concept = rule.kind() == 1 && rule.right_form() == 0;
    rule.right() == atom.number() && concept != atom.is_role()
}

/// The atom that the rule makes of an atom of the query, if it fits.
fn rewritten(query: &Query, rule: Rule, atom: Atom) -> Option<Atom> {
    if !names(rule, atom) {
        return None;
    }
    if rule.kind() == 2 {
        return Some(match rule.right_form() {
            0 => Atom::role(rule.left(), atom.first(), atom.second()),
            _ => Atom::role(rule.left(), atom.second(), atom.first()),
        });
    }
    let bearer = match rule.right_form() {
        0 => Some(atom.first()),
        1 => unbound(query, atom.second()).then(|| atom.first()),
        _ => unbound(query, atom.first()).then(|| atom.second()),
    }?;
    Some(match rule.left_form() {
        0 => Atom::concept(rule.left(), bearer),
        1 => Atom::role(rule.left(), bearer, fresh(query)),
        _ => Atom::role(rule.left(), fresh(query), bearer),
    })
}

/// The rule on the atom with index i.
pub fn rule_step(query: &Query, i: usize, rule: Rule) -> Option<Query> {
    let made = rewritten(query, rule, *query.atoms().get(i)?)?;
    let mut result = query.emptied();
    for (k, &atom) in query.atoms().iter().enumerate() {
        result.add(if k == i { made } else { atom });
    }
    Some(result)
}

/// Where each variable goes.
struct Replacement([Term; 32]);

impl Replacement {
    fn apply(&self, term: Term) -> Term {
        match is_variable(term) {
            true => self.0[term as usize],
            false => term,
        }
    }

    /// Sends both terms to one, if that can be: an object before a variable, else the lower variable.
    fn bind(&mut self, s: Term, t: Term) -> Option<()> {
        let (s, t) = (self.apply(s), self.apply(t));
        let (from, to) = match (is_variable(s), is_variable(t)) {
            (true, true) => (s.max(t), s.min(t)),
            (true, false) => (s, t),
            (false, true) => (t, s),
            (false, false) => return (s == t).then_some(()),
        };
        for target in &mut self.0 {
            if *target == from {
                *target = to;
            }
        }
        Some(())
    }
}

/// The most general replacement that makes two atoms equal.
fn unifier(a: Atom, b: Atom) -> Option<Replacement> {
    if a.predicate() != b.predicate() {
        return None;
    }
    let mut replacement = Replacement(std::array::from_fn(|v| v as Term));
    replacement.bind(a.first(), b.first())?;
    if a.is_role() {
        replacement.bind(a.second(), b.second())?;
    }
    Some(replacement)
}

/// The atom with index i merged with the later one with index j.
pub fn merge_step(query: &Query, i: usize, j: usize) -> Option<Query> {
    if j <= i {
        return None;
    }
    let later = *query.atoms().get(j)?;
    let replacement = unifier(query.atoms()[i], later)?;
    Some(query.map(|term| replacement.apply(term)))
}
