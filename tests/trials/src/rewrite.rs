//! The steps of PerfectRef, and the closure of a question under all of them.

use crate::alike::Classes;
use crate::sheets::{Atom, Description, Question, Rule, Step, Term};

pub const QUESTION_ITSELF: Step = Step {
    kind: 0,
    parent: 0,
    atom: 0,
    other: 0,
};

/// A variable is loose if it stands exactly once in the atoms and not among the answer terms.
fn loose(question: &Question, term: Term) -> bool {
    let places = question
        .atoms
        .iter()
        .flat_map(|atom| atom.terms())
        .filter(|t| *t == term)
        .count();
    matches!(term, Term::Variable(_)) && places == 1 && !question.answers.contains(&term)
}

/// The lowest variable that stands nowhere in the question.
fn fresh(question: &Question) -> Term {
    let stands = |v: &Term| question.answers.contains(v) || question.atoms.iter().any(|a| a.terms().any(|t| t == *v));
    (0..=31)
        .map(Term::Variable)
        .find(|v| !stands(v))
        .expect("a question has at most 16 variables")
}

/// What a description says of a term.
fn described(description: Description, term: Term, fresh: Term) -> Atom<Term> {
    match description {
        Description::Concept(a) => Atom::Concept(a, term),
        Description::To(p) => Atom::Role(p, term, fresh),
        Description::From(p) => Atom::Role(p, fresh, term),
    }
}

/// What the atom becomes by the rule, if the rule applies to it.
fn rewritten(question: &Question, atom: Atom<Term>, rule: Rule) -> Option<Atom<Term>> {
    match (rule, atom) {
        (Rule::Bears(left, right), _) => {
            let bearer = match (right, atom) {
                (Description::Concept(a), Atom::Concept(b, t)) if a == b => Some(t),
                (Description::To(p), Atom::Role(q, t, u)) if p == q && loose(question, u) => Some(t),
                (Description::From(p), Atom::Role(q, u, t)) if p == q && loose(question, u) => Some(t),
                _ => None,
            };
            Some(described(left, bearer?, fresh(question)))
        }
        (Rule::Implies { left, right, exchanged }, Atom::Role(p, t, u)) if p == right => Some(if exchanged {
            Atom::Role(left, u, t)
        } else {
            Atom::Role(left, t, u)
        }),
        _ => None,
    }
}

/// Equal atoms are kept once.
pub fn kept_once(atoms: Vec<Atom<Term>>) -> Vec<Atom<Term>> {
    let mut kept = Vec::new();
    for atom in atoms {
        if !kept.contains(&atom) {
            kept.push(atom);
        }
    }
    kept
}

/// The step that uses a rule on the atom at this index.
pub fn by_rule(question: &Question, atom: usize, rule: Rule) -> Option<Question> {
    let mut atoms = question.atoms.clone();
    atoms[atom] = rewritten(question, atoms[atom], rule)?;
    Some(Question {
        answers: question.answers.clone(),
        atoms: kept_once(atoms),
    })
}

/// One term stands for the other from here on: an object for a variable, the lower of two variables for the higher.
fn replaced(question: Question, a: Term, b: Term) -> Option<Question> {
    let (stays, goes) = match (a, b) {
        (Term::Object(_), Term::Object(_)) => return None,
        (Term::Object(_), Term::Variable(_)) => (a, b),
        (Term::Variable(_), Term::Object(_)) => (b, a),
        _ => (a.min(b), a.max(b)),
    };
    let swap = |t: Term| if t == goes { stays } else { t };
    Some(Question {
        answers: question.answers.into_iter().map(swap).collect(),
        atoms: question.atoms.into_iter().map(|atom| atom.map(swap)).collect(),
    })
}

/// The step that merges the two atoms at these indices.
pub fn merged(question: &Question, one: usize, two: usize) -> Option<Question> {
    let places = match (question.atoms[one], question.atoms[two]) {
        (Atom::Concept(a, _), Atom::Concept(b, _)) if a == b => 1,
        (Atom::Role(p, _, _), Atom::Role(q, _, _)) if p == q => 2,
        _ => return None,
    };
    let mut result = question.clone();
    for place in 0..places {
        let a = result.atoms[one].terms().nth(place)?;
        let b = result.atoms[two].terms().nth(place)?;
        if a != b {
            result = replaced(result, a, b)?;
        }
    }
    result.atoms = kept_once(result.atoms);
    Some(result)
}

/// What a step written beside a later member makes of its parent; none if an index doesn't exist or the step doesn't apply.
pub fn result(step: Step, parent: &Question, rules: &[Rule]) -> Option<Question> {
    let atom = step.atom as usize;
    let other = step.other as usize;
    if atom >= parent.atoms.len() {
        return None;
    }
    match step.kind {
        1 => by_rule(parent, atom, *rules.get(other)?),
        2 if atom < other && other < parent.atoms.len() => merged(parent, atom, other),
        _ => None,
    }
}

/// Every step from the question of member `parent`, with its result.
pub fn steps(parent: usize, question: &Question, rules: &[Rule], merges: bool) -> Vec<(Step, Question)> {
    let atoms = question.atoms.len();
    let uses = (0..atoms).flat_map(|atom| (0..rules.len()).map(move |rule| (1, atom, rule)));
    let pairs = (0..atoms).flat_map(|one| (one + 1..atoms).map(move |two| (2, one, two)));
    uses.chain(pairs.filter(|_| merges))
        .map(|(kind, atom, other)| Step {
            kind,
            parent: parent as u16,
            atom: atom as u8,
            other: other as u16,
        })
        .filter_map(|step| result(step, question, rules).map(|question| (step, question)))
        .collect()
}

/// The question and all that steps lead to, one of each class, each with the step that led there first. `pick` says which of so
/// many waiting steps comes next, `dress` how a result is written. None if there are more than `most` classes.
pub fn closure(
    question: &Question,
    rules: &[Rule],
    merges: bool,
    most: usize,
    pick: &mut dyn FnMut(usize) -> usize,
    dress: &mut dyn FnMut(Question) -> Question,
) -> Option<Vec<(Step, Question)>> {
    let mut members = vec![(QUESTION_ITSELF, question.clone())];
    let mut classes = Classes::default();
    classes.put(0, question.clone());
    let mut waiting = steps(0, question, rules, merges);
    while !waiting.is_empty() {
        let (step, result) = waiting.swap_remove(pick(waiting.len()));
        if classes.find(&result).is_none() {
            if members.len() == most {
                return None;
            }
            let result = dress(result);
            let index = members.len();
            waiting.extend(steps(index, &result, rules, merges));
            classes.put(index, result.clone());
            members.push((step, result));
        }
    }
    Some(members)
}

/// The closure as it comes, results written as the steps leave them.
pub fn plain_closure(question: &Question, rules: &[Rule], merges: bool, most: usize) -> Option<Vec<(Step, Question)>> {
    closure(question, rules, merges, most, &mut |many| many - 1, &mut |q| q)
}
