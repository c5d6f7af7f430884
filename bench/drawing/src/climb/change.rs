//! Sheets by chance, and sheets that differ a little from a given one.
use super::sheet::{Law, Relation, Shape, Sheet};
use crate::cases::sheets::{var, Atom, Query, Term};
use crate::cases::Draw;

const ROLES: [u64; 4] = [20, 21, 22, 23];
const CONCEPTS: [u64; 2] = [5, 6];

/// Where the objects of relations begin: those of rounds and steps do at each thousand.
const BEGINS: [u64; 5] = [0, 1000, 2000, 50, 3000];

const MOST_ATOMS: usize = 8;
const MOST_ANSWERS: usize = 4;
const MOST_LAWS: usize = 3;
const MOST_RELATIONS: usize = 6;

/// One of the items, mostly of the first.
fn early<T: Copy>(items: &[T], draw: &mut Draw) -> T {
    let most = 1 + draw.below(items.len() as u64);
    items[draw.below(most) as usize]
}

fn any(length: usize, draw: &mut Draw) -> usize {
    draw.below(length as u64) as usize
}

/// A variable of the question, or now and then a new one.
fn variable(query: &Query, draw: &mut Draw) -> Term {
    let mut used: Vec<u64> = query.atoms.iter().flat_map(|&atom| variables(atom)).collect();
    used.sort();
    used.dedup();
    let new = (0..16).find(|v| !used.contains(v)).unwrap_or(0);
    let turn = any(used.len() + 2, draw);
    var(*used.get(turn).unwrap_or(&new) as usize)
}

fn variables(atom: Atom) -> Vec<u64> {
    let terms = match atom {
        Atom::Concept(_, term) => vec![term],
        Atom::Role(_, from, to) => vec![from, to],
    };
    let variable = |term| match term {
        Term::Variable(v) => Some(v),
        Term::Object(_) => None,
    };
    terms.into_iter().filter_map(variable).collect()
}

fn atom(query: &Query, draw: &mut Draw) -> Atom {
    if draw.below(10) == 0 {
        return Atom::Concept(early(&CONCEPTS, draw), variable(query, draw));
    }
    Atom::Role(early(&ROLES, draw), variable(query, draw), variable(query, draw))
}

/// A variable that some atom has.
fn answer(query: &Query, draw: &mut Draw) -> Option<Term> {
    let variables = variables(query.atoms[any(query.atoms.len(), draw)]);
    let v = variables.get(any(variables.len().max(1), draw))?;
    Some(var(*v as usize))
}

fn law(draw: &mut Draw) -> Law {
    let (one, other) = (early(&ROLES, draw), early(&ROLES, draw));
    let concept = early(&CONCEPTS, draw);
    match draw.below(8) {
        0 => Law::Concept(CONCEPTS[1], CONCEPTS[0]),
        1 => Law::Some(concept, one),
        2 => Law::SomeTo(concept, one),
        3 | 4 => Law::Role(one, other),
        5 => Law::Exchanged(one, other),
        _ => Law::Exchanged(one, one),
    }
}

/// A name for the facts of this shape.
fn name(shape: Shape, draw: &mut Draw) -> u64 {
    match shape {
        Shape::Having => early(&CONCEPTS, draw),
        _ => early(&ROLES, draw),
    }
}

fn relation(draw: &mut Draw) -> Relation {
    let parts = 2 + draw.below(4);
    let count = 100 << draw.below(7);
    let shapes = [
        Shape::Dense,
        Shape::Tournament,
        Shape::Round(parts),
        Shape::Drawn(count),
        Shape::Onward(parts),
        Shape::Steps(parts),
        Shape::Loops,
        Shape::Having,
    ];
    let shape = shapes[any(shapes.len(), draw)];
    let side = |draw: &mut Draw| {
        let most = 4 << draw.below(7);
        (early(&BEGINS, draw), 1 + draw.below(most))
    };
    Relation {
        name: name(shape, draw),
        shape,
        from: side(draw),
        to: side(draw),
    }
}

/// A number near a number, or one far off.
fn near(number: u64, draw: &mut Draw) -> u64 {
    let next = match draw.below(6) {
        0 => number * 2,
        1 => number / 2,
        2 => number + 1,
        3 => number - 1,
        4 => number + number / 8,
        _ => number - number / 8,
    };
    next.clamp(1, 9_000)
}

fn change_relation(relation: &mut Relation, draw: &mut Draw) {
    match draw.below(8) {
        0 => relation.name = name(relation.shape, draw),
        1 => relation.from.0 = early(&BEGINS, draw),
        2 => relation.to.0 = early(&BEGINS, draw),
        3 => std::mem::swap(&mut relation.from, &mut relation.to),
        4 => relation.to.1 = near(relation.to.1, draw),
        5 => match &mut relation.shape {
            Shape::Drawn(count) => *count = near(*count, draw),
            Shape::Round(parts) | Shape::Steps(parts) | Shape::Onward(parts) => *parts = 2 + draw.below(6),
            _ => relation.from.1 = near(relation.from.1, draw),
        },
        _ => relation.from.1 = near(relation.from.1, draw),
    }
}

fn change_relations(relations: &mut Vec<Relation>, draw: &mut Draw) {
    let i = any(relations.len(), draw);
    match draw.below(8) {
        0 if relations.len() < MOST_RELATIONS => relations.push(relation(draw)),
        1 if relations.len() > 1 => {
            relations.swap_remove(i);
        }
        2 => relations[i] = relation(draw),
        3 if relations.len() < MOST_RELATIONS => {
            let mut other = relations[i];
            other.name = name(other.shape, draw);
            relations.push(other);
        }
        _ => change_relation(&mut relations[i], draw),
    }
}

/// One term of an atom changed, or its name, or its places exchanged.
fn change_atom(query: &mut Query, i: usize, draw: &mut Draw) {
    let term = variable(query, draw);
    let changed = match (query.atoms[i], draw.below(4)) {
        (Atom::Concept(name, _), 0 | 1) => Atom::Concept(name, term),
        (Atom::Concept(..), _) => atom(query, draw),
        (Atom::Role(_, from, to), 0) => Atom::Role(early(&ROLES, draw), from, to),
        (Atom::Role(name, from, to), 1) => Atom::Role(name, to, from),
        (Atom::Role(name, from, _), 2) => Atom::Role(name, from, term),
        (Atom::Role(name, _, to), _) => Atom::Role(name, term, to),
    };
    query.atoms[i] = changed;
}

fn change_atoms(query: &mut Query, draw: &mut Draw) {
    let i = any(query.atoms.len(), draw);
    match draw.below(8) {
        0 | 1 if query.atoms.len() < MOST_ATOMS => query.atoms.push(atom(query, draw)),
        2 if query.atoms.len() > 1 => {
            query.atoms.remove(i);
        }
        3 => {
            let j = any(query.atoms.len(), draw);
            query.atoms.swap(i, j);
        }
        4 => query.atoms[i] = atom(query, draw),
        _ => change_atom(query, i, draw),
    }
}

fn change_answers(query: &mut Query, draw: &mut Draw) {
    let count = query.answers.len();
    match (draw.below(3), answer(query, draw)) {
        (0, _) if count > 0 => {
            query.answers.remove(any(count, draw));
        }
        (1, Some(term)) if count > 0 => query.answers[any(count, draw)] = term,
        (_, Some(term)) if count < MOST_ANSWERS => query.answers.push(term),
        _ => {}
    }
}

fn change_laws(laws: &mut Vec<Law>, draw: &mut Draw) {
    let count = laws.len();
    match draw.below(3) {
        0 if count > 0 => {
            laws.remove(any(count, draw));
        }
        1 if count > 0 => laws[any(count, draw)] = law(draw),
        _ if count < MOST_LAWS => laws.push(law(draw)),
        _ => {}
    }
}

/// A sheet of at most so many facts that differs from this one in one to three things.
pub fn changed(sheet: &Sheet, most: usize, draw: &mut Draw) -> Sheet {
    let mut other = sheet.clone();
    for _ in 0..1 + draw.below(3) {
        match draw.below(12) {
            0..=4 => change_atoms(&mut other.query, draw),
            5 => change_answers(&mut other.query, draw),
            6 | 7 => change_laws(&mut other.laws, draw),
            _ => change_relations(&mut other.relations, draw),
        }
    }
    other.fit(most);
    other
}

/// A sheet of some roles over a few relations.
pub fn by_chance(draw: &mut Draw) -> Sheet {
    let mut query = Query {
        answers: Vec::new(),
        atoms: vec![Atom::Role(ROLES[0], var(0), var(1))],
    };
    for _ in 0..1 + draw.below(7) {
        query.atoms.push(atom(&query, draw));
    }
    for _ in 0..draw.below(4) {
        query.answers.extend(answer(&query, draw));
    }
    let laws = (0..draw.below(3)).map(|_| law(draw)).collect();
    let relations = (0..1 + draw.below(4)).map(|_| relation(draw)).collect();
    Sheet { query, laws, relations }
}
