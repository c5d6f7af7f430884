//! Alike, and by which names (T-05): the smallest of the renamings that fit. Where the questions have few variables every one-to-one map
//! is tried. Otherwise every way to pair the atoms is, since each variable stands in an atom.

use crate::alike::Renaming;
use crate::join::variables;
use crate::sheets::{self, Atom, Question, Term};

/// The target of each source variable; `NO_TARGET` at the places of those that have none.
pub type Targets = [u8; 32];

pub const NO_TARGET: u8 = 32;

/// Every map is tried if there are so many variables at most.
pub const MOST_TRIED: usize = 7;

#[derive(Clone, Copy, PartialEq, Eq, Debug)]
pub struct Outcome {
    pub number: u32,
    pub found: u32,
    pub targets: Targets,
}

impl Outcome {
    pub fn refused(number: u32) -> Outcome {
        Outcome {
            number,
            ..Outcome::of(None)
        }
    }

    pub fn of(renaming: Option<Targets>) -> Outcome {
        Outcome {
            number: 0,
            found: u32::from(renaming.is_some()),
            targets: renaming.unwrap_or([NO_TARGET; 32]),
        }
    }
}

/// The term by its new name.
pub fn carried(term: Term, targets: &Targets) -> Term {
    match term {
        Term::Variable(x) => Term::Variable(targets[x as usize]),
        object => object,
    }
}

/// Whether the map carries answer terms to answer terms in order and the set of atoms to the set of atoms.
pub fn carries(first: &Question, second: &Question, targets: &Targets) -> bool {
    let answers = first.answers.iter().map(|&term| carried(term, targets));
    let images = first.atoms.iter().map(|atom| atom.map(|t| carried(t, targets)));
    answers.eq(second.answers.iter().copied())
        && images.clone().all(|image| second.atoms.contains(&image))
        && second
            .atoms
            .iter()
            .all(|&atom| images.clone().any(|image| image == atom))
}

/// Every one-to-one map of the sources to targets that are left.
fn each_map(sources: &[u8], left: &mut Vec<u8>, map: &mut Targets, tried: &mut dyn FnMut(&Targets)) {
    let Some((&source, others)) = sources.split_first() else {
        return tried(map);
    };
    for at in 0..left.len() {
        let target = left.remove(at);
        map[source as usize] = target;
        each_map(others, left, map, tried);
        left.insert(at, target);
    }
}

/// How many variables the question of the two has that has more.
pub fn most_variables(first: &Question, second: &Question) -> usize {
    variables(&first.atoms).len().max(variables(&second.atoms).len())
}

/// Every renaming of the first question to the second, all one-to-one maps having been tried; none if there are too many of those.
pub fn by_maps(first: &Question, second: &Question) -> Option<Vec<Targets>> {
    if most_variables(first, second) > MOST_TRIED {
        return None;
    }
    let sources = Vec::from_iter(variables(&first.atoms));
    let mut targets = Vec::from_iter(variables(&second.atoms));
    let mut fitting = Vec::new();
    each_map(&sources, &mut targets, &mut [NO_TARGET; 32], &mut |map| {
        if carries(first, second, map) {
            fitting.push(*map);
        }
    });
    Some(fitting)
}

/// Every renaming that extends this one and carries the atoms one by one to atoms not taken yet.
fn each_pairing(
    from: &[Atom<Term>],
    to: &[Atom<Term>],
    taken: u32,
    renaming: Renaming,
    found: &mut dyn FnMut(Targets),
) {
    let Some((&first, others)) = from.split_first() else {
        return found(renaming.forth.map(|target| target.unwrap_or(NO_TARGET)));
    };
    for (i, &target) in to.iter().enumerate() {
        let mut longer = renaming;
        if taken >> i & 1 == 0 && longer.carry_atom(first, target) {
            each_pairing(others, to, taken | 1 << i, longer, found);
        }
    }
}

/// The smallest renaming and how many there are, every way to pair the atoms having been tried.
pub fn by_atoms(first: &Question, second: &Question) -> (Option<Targets>, usize) {
    let mut renaming = Renaming::default();
    let mut answers = first.answers.iter().zip(&second.answers);
    let carried = first.answers.len() == second.answers.len() && answers.all(|(&s, &t)| renaming.carry(s, t));
    let (mut smallest, mut many) = (None, 0);
    if carried && first.atoms.len() == second.atoms.len() {
        each_pairing(&first.atoms, &second.atoms, 0, renaming, &mut |targets| {
            smallest = Some(smallest.map_or(targets, |other: Targets| other.min(targets)));
            many += 1;
        });
    }
    (smallest, many)
}

/// The smallest renaming and how many there are: by maps, or by atoms where there are too many of those.
pub fn smallest(first: &Question, second: &Question) -> (Option<Targets>, usize) {
    match by_maps(first, second) {
        Some(fitting) => (fitting.iter().min().copied(), fitting.len()),
        None => by_atoms(first, second),
    }
}

/// Both questions as read, or the first refusal: 3, 4 and 5 of the first sheet, then those of the second.
pub fn read(first: &[u8], second: &[u8]) -> Result<(Question, Question), u32> {
    Ok((sheets::question(first)?, sheets::question(second)?))
}

/// What the call gives.
pub fn rename(first: &[u8], second: &[u8]) -> Outcome {
    match read(first, second) {
        Err(number) => Outcome::refused(number),
        Ok((first, second)) => Outcome::of(smallest(&first, &second).0),
    }
}
