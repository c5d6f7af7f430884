//! Questions over dense relations: chains, stars, trees, rings, cliques and products, with dead ends, repeated variables and objects.

use crate::chance::Chance;
use crate::dense_relations::Names;
use crate::sheets::{Atom, Question, Term};

pub const MOST_ATOMS: usize = 8;

/// Which variables the role atoms of a question join.
#[derive(Clone, Copy, PartialEq, Eq, Debug)]
pub enum Outline {
    Chain,
    Star,
    Tree,
    /// So many atoms round.
    Ring(usize),
    /// Every two of three or four variables.
    Clique,
    /// Atoms that share no variable.
    Product,
}

impl Outline {
    /// An outline by turns; rings of each length in turn.
    pub fn in_turn(turn: usize) -> Outline {
        match turn % 9 {
            0 | 1 => Outline::Chain,
            2 => Outline::Star,
            3 => Outline::Tree,
            4..=6 => Outline::Ring(3 + turn / 9 % 6),
            7 => Outline::Clique,
            _ => Outline::Product,
        }
    }

    /// The pairs of variables that an atom stands for; at most `most` atoms but for a ring.
    pub fn edges(self, most: usize, chance: &mut Chance) -> Vec<(u8, u8)> {
        let many = chance.from(3.min(most), most) as u8;
        match self {
            Outline::Chain => (0..many).map(|x| (x, x + 1)).collect(),
            Outline::Star => (0..many).map(|x| (0, x + 1)).collect(),
            Outline::Tree => (0..many).map(|x| (chance.from(0, x as usize) as u8, x + 1)).collect(),
            Outline::Ring(around) => (0..around as u8).map(|x| (x, (x + 1) % around as u8)).collect(),
            Outline::Clique => {
                let many = chance.of(&[3, 4, 4]);
                (0..many).flat_map(|x| (x + 1..many).map(move |y| (x, y))).collect()
            }
            Outline::Product => (0..chance.from(2, 4) as u8).map(|x| (2 * x, 2 * x + 1)).collect(),
        }
    }
}

/// The atoms of an outline, by one role or several, in one direction or both.
fn atoms(names: &Names, outline: Outline, most: usize, chance: &mut Chance) -> Vec<Atom<Term>> {
    let (one_role, one_way) = (chance.one_in(3), chance.one_in(2));
    let edges = outline.edges(most, chance);
    let atom = |(x, y)| {
        let role = if one_role {
            names.dense[0]
        } else {
            chance.of(&names.dense)
        };
        let (from, to) = if one_way || chance.one_in(2) { (x, y) } else { (y, x) };
        Atom::Role(role, Term::Variable(from), Term::Variable(to))
    };
    edges.into_iter().map(atom).collect()
}

/// A variable of some atom: the last one, which is at an end of a chain, or any.
fn some_variable(atoms: &[Atom<Term>], chance: &mut Chance) -> Term {
    let standing = Vec::from_iter(standing(atoms));
    if chance.one_in(2) {
        standing[standing.len() - 1]
    } else {
        chance.of(&standing)
    }
}

fn standing(atoms: &[Atom<Term>]) -> impl Iterator<Item = Term> + '_ {
    let variable = |t: &Term| matches!(t, Term::Variable(_));
    atoms.iter().flat_map(|atom| atom.terms()).filter(variable)
}

/// An atom that few objects fit, or none, beside the others; or one of the others made such.
fn put_dead_end(names: &Names, atoms: &mut Vec<Atom<Term>>, chance: &mut Chance) {
    let x = some_variable(atoms, chance);
    let new = Term::Variable(20);
    let role = chance.of(&[names.apart, names.apart, names.thin, names.bare]);
    let at = chance.below(atoms.len());
    let atom = match (chance.below(8), atoms[at]) {
        (0, _) => Atom::Concept(names.few, x),
        (1, _) => Atom::Concept(names.none, x),
        (2, _) => Atom::Concept(names.under, x),
        (3 | 4, _) => Atom::Role(role, x, new),
        (5, _) => Atom::Role(role, new, x),
        (_, Atom::Role(_, t, u)) => {
            atoms[at] = Atom::Role(role, t, u);
            return;
        }
        (_, Atom::Concept(..)) => return,
    };
    if atoms.len() < MOST_ATOMS {
        atoms.insert(chance.of(&[0, atoms.len() / 2, atoms.len()]), atom);
    }
}

/// An atom with one variable twice, in place of another or beside it.
fn put_loop(names: &Names, atoms: &mut Vec<Atom<Term>>, chance: &mut Chance) {
    let x = some_variable(atoms, chance);
    let role = chance.of(&names.dense);
    if atoms.len() < MOST_ATOMS && chance.one_in(2) {
        atoms.push(Atom::Role(role, x, x));
    } else {
        let at = chance.below(atoms.len());
        atoms[at] = Atom::Role(role, x, x);
    }
}

/// One more atom that leads to an end of another by the same role: merged they are one, and the end is loose.
fn put_fork(atoms: &mut Vec<Atom<Term>>, chance: &mut Chance) {
    let new = Term::Variable(21);
    if let (true, Atom::Role(p, t, u)) = (atoms.len() < MOST_ATOMS, chance.of(atoms)) {
        atoms.push(match chance.one_in(2) {
            true => Atom::Role(p, new, u),
            false => Atom::Role(p, t, new),
        });
    }
}

/// Objects in an atom at the first place, the second or both: in place of the variables of an atom, or in one more.
fn put_objects(names: &Names, atoms: &mut Vec<Atom<Term>>, chance: &mut Chance) {
    let object = Term::Object(chance.of(&names.objects));
    let other = Term::Object(chance.of(&names.objects));
    let at = chance.below(atoms.len());
    let (role, first, second) = match atoms[at] {
        Atom::Role(p, first, second) => (p, first, second),
        Atom::Concept(_, t) => (names.dense[0], t, t),
    };
    let atom = match chance.below(3) {
        0 => Atom::Role(role, object, second),
        1 => Atom::Role(role, first, object),
        _ => Atom::Role(role, object, other),
    };
    if atoms.len() < MOST_ATOMS && chance.one_in(2) {
        atoms.push(atom);
    } else {
        atoms[at] = atom;
    }
}

/// The answer terms: variables, some of them twice, at times an object, which may be a lost tag.
fn answers(names: &Names, atoms: &[Atom<Term>], chance: &mut Chance) -> Vec<Term> {
    let standing = Vec::from_iter(standing(atoms));
    let one_object_in = chance.of(&[6, 40, 1_000]);
    let objects = [chance.of(&names.objects), 65_023, 65_024, 65_535];
    let term = |chance: &mut Chance| match standing.is_empty() || chance.one_in(one_object_in) {
        true => Term::Object(chance.of(&objects)),
        false => chance.of(&standing),
    };
    let many = chance.weighed(&[4, 8, 6, 4, 4]);
    (0..many).map(|_| term(chance)).collect()
}

/// The answer terms of a plain question: none, or variables far from each other, so that one of them is open for long.
fn far_ends(atoms: &[Atom<Term>], chance: &mut Chance) -> Vec<Term> {
    let mut standing = Vec::from_iter(standing(atoms));
    standing.sort();
    standing.dedup();
    // around a ring the last is next to the first
    let (first, last) = (standing[0], standing[standing.len() - 1]);
    let far = chance.of(&[last, last, standing[standing.len() / 2]]);
    match chance.weighed(&[4, 8, 1, 1]) {
        0 => vec![],
        1 => vec![far, first],
        2 => vec![first, far, first],
        _ => vec![first, far, chance.of(&standing), far],
    }
}

fn each_once(atoms: Vec<Atom<Term>>) -> Vec<Atom<Term>> {
    let mut once = Vec::new();
    for atom in atoms {
        if !once.contains(&atom) {
            once.push(atom);
        }
    }
    once
}

/// A question of an outline alone.
pub fn plain(names: &Names, outline: Outline, most: usize, chance: &mut Chance) -> Question {
    let mut atoms = atoms(names, outline, most, chance);
    if chance.one_in(8) {
        put_fork(&mut atoms, chance);
    }
    let answers = far_ends(&atoms, chance);
    Question { answers, atoms }
}

/// A question that meets none of 3 to 5, with at most so many atoms in its outline, and with dead ends, loops and objects.
pub fn question(names: &Names, outline: Outline, most: usize, chance: &mut Chance) -> Question {
    let mut atoms = atoms(names, outline, most, chance);
    if chance.one_in(4) {
        put_loop(names, &mut atoms, chance);
    }
    if chance.one_in(4) {
        put_fork(&mut atoms, chance);
    }
    if !chance.one_in(3) {
        put_dead_end(names, &mut atoms, chance);
    }
    for _ in 0..chance.weighed(&[5, 4, 2]) {
        put_objects(names, &mut atoms, chance);
    }
    let atoms = each_once(atoms);
    let answers = answers(names, &atoms, chance);
    Question { answers, atoms }
}
