//! What kind of pair two sound questions are, by every renaming of the one to the other: how a slip about which renaming to take, or
//! whether there is one, would show.

use crate::join::variables;
use crate::rename_cases::Pair;
use crate::renamings::{by_maps, carries, Targets, NO_TARGET};
use crate::sheets::{Atom, Question, Term};
use std::collections::BTreeSet;

/// What is counted of pairs with a renaming, and how often it must be met.
pub const KINDS_OF_ALIKE: [(&str, u64); 10] = [
    ("with more than one", 300),
    ("with another one if the sources are taken falling", 100),
    ("with another one if the smallest way back is turned round", 50),
    ("with another list the other way round", 100),
    (
        "where the lowest target in a source's places is not taken before and leads nowhere",
        100,
    ),
    ("with 31 among the sources and among the targets", 100),
    ("without variables", 20),
    ("with one variable twice among the answer terms", 100),
    ("with an object among the answer terms", 100),
    ("with one that the roles as written do not allow", 100),
];

/// The same of pairs without one.
pub const KINDS_OF_UNLIKE: [(&str, u64); 6] = [
    ("that share a key", 300),
    ("with one but for the answer terms", 100),
    ("with one but for the objects", 50),
    ("with one but for an atom of the first", 40),
    ("with one but for an atom of the second", 40),
    ("where a map of two sources to one target would do", 40),
];

/// Maps that take two sources to one target are tried up to so many sources.
const MOST_SOURCES: usize = 5;

/// Where a variable stands: 0 and its place among the answer terms, 1 or 2 with a concept or role and the place there.
type Places = Vec<(u8, u16, usize)>;

fn places(question: &Question, x: u8) -> Places {
    let is_x = |term: Term| term == Term::Variable(x);
    let mut all = Places::new();
    let answers = question.answers.iter().enumerate().filter(|(_, &t)| is_x(t));
    all.extend(answers.map(|(i, _)| (0, 0, i)));
    for atom in &question.atoms {
        let (kind, number) = match *atom {
            Atom::Concept(a, _) => (1, a),
            Atom::Role(p, ..) => (2, p),
        };
        let here = atom.terms().enumerate().filter(|&(_, t)| is_x(t));
        all.extend(here.map(|(i, _)| (kind, number, i)));
    }
    all.sort();
    all
}

/// A term as a key has it: the object, or where the variable stands.
#[derive(PartialEq, Eq, PartialOrd, Ord)]
enum Seen {
    Object(u16),
    Variable(Places),
}

/// What questions alike have in common: the number of variables, the answer terms, and the atoms in any order, each with whether both its
/// terms are the same.
#[derive(PartialEq, Eq)]
pub struct Key {
    variables: usize,
    answers: Vec<Seen>,
    atoms: Vec<(Atom<Seen>, bool)>,
}

pub fn key(question: &Question) -> Key {
    let seen = |term: Term| match term {
        Term::Object(object) => Seen::Object(object),
        Term::Variable(x) => Seen::Variable(places(question, x)),
    };
    let is_loop = |atom: &Atom<Term>| matches!(atom, Atom::Role(_, t, u) if t == u);
    let mut atoms = Vec::from_iter(question.atoms.iter().map(|atom| (atom.map(seen), is_loop(atom))));
    atoms.sort();
    Key {
        variables: variables(&question.atoms).len(),
        answers: question.answers.iter().map(|&term| seen(term)).collect(),
        atoms,
    }
}

/// The list of the way back.
pub fn turned(targets: &Targets) -> Targets {
    let mut back = [NO_TARGET; 32];
    for (source, &target) in targets.iter().enumerate() {
        if target != NO_TARGET {
            back[target as usize] = source as u8;
        }
    }
    back
}

/// The renaming whose targets, taken by falling source, are the smallest list.
fn smallest_falling(fitting: &[Targets]) -> Option<Targets> {
    let falling = |targets: &&Targets| Vec::from_iter(targets.iter().rev().copied());
    fitting.iter().min_by_key(falling).copied()
}

/// Whether for some source the lowest target that stands in the same places and is not taken before is not the smallest renaming's.
fn greed_fails(first: &Question, second: &Question, smallest: &Targets) -> bool {
    let mut taken = BTreeSet::new();
    variables(&first.atoms).into_iter().any(|x| {
        let own = places(first, x);
        let fits = |y: &u8| !taken.contains(y) && places(second, *y) == own;
        let lowest = variables(&second.atoms).into_iter().find(fits);
        let target = smallest[x as usize];
        taken.insert(target);
        lowest != Some(target)
    })
}

/// Whether some map, one-to-one or not, carries the first question to the second; false if there are too many variables.
fn some_map_carries(first: &Question, second: &Question) -> bool {
    let (sources, targets) = (variables(&first.atoms), Vec::from_iter(variables(&second.atoms)));
    if sources.len() > MOST_SOURCES {
        return false;
    }
    (0..targets.len().pow(sources.len() as u32)).any(|which| {
        let mut map = [NO_TARGET; 32];
        let mut left = which;
        for &source in &sources {
            map[source as usize] = targets[left % targets.len()];
            left /= targets.len();
        }
        carries(first, second, &map)
    })
}

/// The question without its answer terms.
fn without_answers(question: &Question) -> Question {
    Question {
        answers: vec![],
        atoms: question.atoms.clone(),
    }
}

/// The question with one object in place of all.
fn without_objects(question: &Question) -> Question {
    let blind = |term: Term| match term {
        Term::Object(_) => Term::Object(0),
        variable => variable,
    };
    Question {
        answers: question.answers.iter().copied().map(blind).collect(),
        atoms: question.atoms.iter().map(|atom| atom.map(blind)).collect(),
    }
}

/// The question without one of its atoms, for each of them.
fn without_an_atom(question: &Question) -> impl Iterator<Item = Question> + '_ {
    (0..question.atoms.len()).map(|at| {
        let mut fewer = question.clone();
        fewer.atoms.remove(at);
        fewer
    })
}

/// The atoms of a sheet as written.
fn atoms_written(sheet: &[u8]) -> Vec<&[u8]> {
    let terms = usize::from(sheet[0] >> 4);
    sheet[1 + 3 * terms..].chunks(6).collect()
}

/// Kinds and numbers of a sheet's atoms as written, in any order.
fn predicates_written(sheet: &[u8]) -> Vec<u16> {
    let number = |atom: &[u8]| u16::from_be_bytes([atom[0], atom[1]]) >> 2;
    let mut all = Vec::from_iter(atoms_written(sheet).into_iter().map(number));
    all.sort();
    all
}

/// Whether a sheet that is whole has one atom twice as written.
pub fn is_twice_as_written(sheet: &[u8]) -> bool {
    let atoms = atoms_written(sheet);
    (1..atoms.len()).any(|i| atoms[..i].contains(&atoms[i]))
}

fn repeats_a_variable(answers: &[Term]) -> bool {
    (1..answers.len()).any(|i| matches!(answers[i], Term::Variable(_)) && answers[..i].contains(&answers[i]))
}

/// Which lines of `KINDS_OF_ALIKE` hold of a pair with these renamings, one at least.
pub fn of_alike(
    pair: &Pair,
    (first, second): &(Question, Question),
    fitting: &[Targets],
) -> [bool; KINDS_OF_ALIKE.len()] {
    let smallest = fitting.iter().min().expect("a renaming");
    let back = fitting.iter().map(turned).min().expect("a renaming");
    let answers = &first.answers;
    [
        fitting.len() > 1,
        smallest_falling(fitting) != Some(*smallest),
        turned(&back) != *smallest,
        back != *smallest,
        greed_fails(first, second, smallest),
        smallest[31] != NO_TARGET && smallest.contains(&31),
        variables(&first.atoms).is_empty(),
        repeats_a_variable(answers),
        answers.iter().any(|t| matches!(t, Term::Object(_))),
        predicates_written(&pair.first) != predicates_written(&pair.second),
    ]
}

fn has_renaming(first: &Question, second: &Question) -> bool {
    by_maps(first, second).is_some_and(|fitting| !fitting.is_empty())
}

/// Which lines of `KINDS_OF_UNLIKE` hold of a pair without a renaming.
pub fn of_unlike((first, second): &(Question, Question)) -> [bool; KINDS_OF_UNLIKE.len()] {
    let (one, other) = (first.atoms.len(), second.atoms.len());
    [
        key(first) == key(second),
        has_renaming(&without_answers(first), &without_answers(second)),
        has_renaming(&without_objects(first), &without_objects(second)),
        one == other + 1 && without_an_atom(first).any(|fewer| has_renaming(&fewer, second)),
        one + 1 == other && without_an_atom(second).any(|fewer| has_renaming(first, &fewer)),
        some_map_carries(first, second),
    ]
}
