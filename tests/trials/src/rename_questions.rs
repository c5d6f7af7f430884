//! Questions for renamings: in many of them variables have equal parts, so that several renamings fit, or almost do.

use crate::chance::Chance;
use crate::join::variables;
use crate::make;
use crate::sheets::{Atom, Question, Term};

const MOST_ATOMS: usize = 8;

/// The lower of two partners.
const PARTNERED: [u16; 4] = [0, 2, 4, 6];

/// Which variables the role atoms join.
type Edges = Vec<(u8, u8)>;

/// Lengths of rings beside each other, of seven variables at most, and of eight.
const FEW_RINGS: [&[u8]; 12] = [
    &[2],
    &[3],
    &[4],
    &[5],
    &[6],
    &[7],
    &[2, 2],
    &[2, 3],
    &[3, 3],
    &[2, 4],
    &[3, 4],
    &[2, 2, 2],
];
const MANY_RINGS: [&[u8]; 6] = [&[8], &[4, 4], &[3, 5], &[2, 6], &[2, 3, 3], &[2, 2, 2, 2]];

/// What is copied: an edge, a loop, chains, forks, and a loop with an edge.
const PARTS: [&[(u8, u8)]; 6] = [
    &[(0, 1)],
    &[(0, 0)],
    &[(0, 1), (1, 2)],
    &[(0, 1), (2, 1)],
    &[(0, 1), (0, 2)],
    &[(0, 0), (0, 1)],
];

fn rings(lengths: &[u8]) -> Edges {
    let mut edges = Edges::new();
    for &around in lengths {
        let from = edges.len() as u8;
        edges.extend((0..around).map(|x| (from + x, from + (x + 1) % around)));
    }
    edges
}

/// Each of so many variables with each of so many others: a star if there is one on a side.
fn each_with_each(left: usize, right: usize) -> Edges {
    let (left, right) = (left as u8, right as u8);
    (0..left).flat_map(|x| (0..right).map(move |y| (x, left + y))).collect()
}

/// Every two of so many variables, in both directions.
fn clique(many: u8) -> Edges {
    let others = |x| (0..many).filter(move |&y| y != x);
    (0..many).flat_map(|x| others(x).map(move |y| (x, y))).collect()
}

/// The part more than once, as often as there is room for its atoms and its variables, or less often.
fn copies(part: &[(u8, u8)], most_variables: usize, chance: &mut Chance) -> Edges {
    let own = 1 + part.iter().map(|&(x, y)| x.max(y)).max().unwrap_or(0);
    let most = (most_variables / own as usize).min(MOST_ATOMS / part.len());
    let many = chance.from(2, most) as u8;
    let copy = |i: u8| part.iter().map(move |&(x, y)| (x + i * own, y + i * own));
    (0..many).flat_map(copy).collect()
}

/// A tree of seven variables, or only a part of it.
fn tree(chance: &mut Chance) -> Edges {
    let mut edges = vec![(0, 1), (0, 2), (1, 3), (1, 4), (2, 5), (2, 6)];
    edges.truncate(chance.from(3, 6));
    edges
}

fn any_edges(chance: &mut Chance) -> Edges {
    let variables = chance.from(2, 6);
    let mut any = || chance.below(variables) as u8;
    (0..MOST_ATOMS).map(|_| (any(), any())).collect()
}

/// Edges over at most seven variables.
fn few_edges(chance: &mut Chance) -> Edges {
    match chance.below(14) {
        0..=2 => rings(chance.of(&FEW_RINGS)),
        3 => each_with_each(1, chance.from(2, 6)),
        4 => each_with_each(chance.from(2, 6), 1),
        5 => each_with_each(2, chance.from(2, 4)),
        6 => clique(chance.from(2, 3) as u8),
        7..=11 => copies(chance.of(&PARTS), 7, chance),
        12 => tree(chance),
        _ => any_edges(chance),
    }
}

/// Edges over sixteen variables at most, mostly eight or more.
fn many_edges(chance: &mut Chance) -> Edges {
    match chance.below(6) {
        0 | 1 => rings(chance.of(&MANY_RINGS)),
        2 => each_with_each(1, chance.from(7, 8)),
        3 => each_with_each(chance.from(7, 8), 1),
        4 => copies(chance.of(&PARTS), 16, chance),
        _ => (0..8).map(|x| (x, x + 1)).collect(),
    }
}

/// Concepts for some variables, for all of them or for none.
fn marks(edges: &[(u8, u8)], concepts: &[u16], chance: &mut Chance) -> Vec<Atom<Term>> {
    let mut bearers = Vec::from_iter(edges.iter().flat_map(|&(x, y)| [x, y]));
    chance.shuffle(&mut bearers);
    let one_concept = chance.one_in(2);
    match chance.below(4) {
        0 | 1 => bearers.clear(),
        2 => bearers.truncate(chance.from(1, 4)),
        _ => {}
    }
    let concept = |chance: &mut Chance| if one_concept { concepts[0] } else { chance.of(concepts) };
    let mark = |x| Atom::Concept(concept(chance), Term::Variable(x));
    bearers.into_iter().map(mark).collect()
}

/// At times an object in place of a variable, of every variable, or at a single place.
fn put_object(atoms: &mut [Atom<Term>], objects: &[u16], chance: &mut Chance) {
    let new = Term::Object(chance.of(objects));
    let Some(old) = chance.of(atoms).terms().next() else {
        return;
    };
    let put = |t: Term| if t == old { new } else { t };
    match chance.below(40) {
        0..=5 => atoms.iter_mut().for_each(|atom| *atom = atom.map(put)),
        6 => atoms
            .iter_mut()
            .for_each(|atom| *atom = atom.map(|_| Term::Object(chance.of(objects)))),
        7..=9 => {
            let at = chance.below(atoms.len());
            atoms[at] = atoms[at].map(put);
        }
        _ => {}
    }
}

/// Each atom once, and no more than there may be.
fn kept(atoms: Vec<Atom<Term>>) -> Vec<Atom<Term>> {
    let mut once: Vec<Atom<Term>> = Vec::new();
    for atom in atoms {
        if once.len() < MOST_ATOMS && !once.contains(&atom) {
            once.push(atom);
        }
    }
    once
}

/// None to four answer terms, often none, at times one twice or an object.
fn answers(atoms: &[Atom<Term>], objects: &[u16], chance: &mut Chance) -> Vec<Term> {
    let standing = Vec::from_iter(variables(atoms));
    let answer = |chance: &mut Chance| match standing.is_empty() || chance.one_in(8) {
        true => Term::Object(chance.of(objects)),
        false => Term::Variable(chance.of(&standing)),
    };
    let many = chance.weighed(&[14, 3, 3, 2, 2]);
    (0..many).map(|_| answer(chance)).collect()
}

/// A question in which variables have equal parts, over seven variables at most or over more.
pub fn even(large: bool, chance: &mut Chance) -> Question {
    let names = make::names(chance);
    let edges = if large { many_edges(chance) } else { few_edges(chance) };
    let (one_role, loops_are_concepts) = (!chance.one_in(4), chance.one_in(2));
    let main = if chance.one_in(3) {
        chance.of(&PARTNERED)
    } else {
        names.roles[0]
    };
    let atom = |&(x, y): &(u8, u8)| {
        let role = if one_role { main } else { chance.of(&names.roles) };
        match x == y && loops_are_concepts {
            true => Atom::Concept(names.concepts[0], Term::Variable(x)),
            false => Atom::Role(role, Term::Variable(x), Term::Variable(y)),
        }
    };
    let mut atoms = Vec::from_iter(edges.iter().map(atom));
    atoms.extend(marks(&edges, &names.concepts, chance));
    put_object(&mut atoms, &names.objects, chance);
    let atoms = kept(atoms);
    Question {
        answers: answers(&atoms, &names.objects, chance),
        atoms,
    }
}

/// Two questions over the same few names.
pub fn two_usual(chance: &mut Chance) -> [Question; 2] {
    let names = make::names(chance);
    [(); 2].map(|_| make::question(&names, chance))
}
