//! Relations and questions of certain shapes.
use super::sheets::{var, Atom, Fact, Query, Rule, Term};
use super::Draw;

/// Each of so many objects from `x` on, to each of so many from `y` on.
pub fn dense(role: u64, (x, wide): (u64, u64), (y, high): (u64, u64)) -> Vec<Fact> {
    let pairs = (x..x + wide).flat_map(|first| (y..y + high).map(move |second| (first, second)));
    pairs.map(|(first, second)| (true, role, first, second)).collect()
}

/// Each of so many objects to each.
pub fn square(role: u64, side: u64) -> Vec<Fact> {
    dense(role, (0, side), (0, side))
}

/// Of each two different objects one to the other, drawn.
pub fn tournament(role: u64, size: u64, draw: &mut Draw) -> Vec<Fact> {
    let pairs = (0..size).flat_map(|x| (0..x).map(move |y| (x, y)));
    let turned = pairs.map(|(x, y)| if draw.below(2) == 0 { (x, y) } else { (y, x) });
    turned.map(|(x, y)| (true, role, x, y)).collect()
}

/// So many parts in a round, each object of a part to each of the next; with two parts, both ways between them.
pub fn round(role: u64, parts: u64, size: u64) -> Vec<Fact> {
    let at = |part: u64| (1000 * (part % parts), size);
    (0..parts)
        .flat_map(|part| dense(role, at(part), at(part + 1)))
        .collect()
}

/// So many parts one after the other, each object of a part to each of the next.
pub fn steps(role: u64, parts: u64, size: u64) -> Vec<Fact> {
    let at = |part: u64| (1000 * part, size);
    let pairs = (1..parts).map(|part| dense(role, at(part - 1), at(part)));
    pairs.flatten().collect()
}

/// The same, to each of all later ones.
pub fn onward(role: u64, parts: u64, size: u64) -> Vec<Fact> {
    let at = |part: u64| (1000 * part, size);
    let pairs = (0..parts).flat_map(|to| (0..to).map(move |from| (from, to)));
    pairs.flat_map(|(from, to)| dense(role, at(from), at(to))).collect()
}

/// One fact for each object of a layer to one of the next, drawn; the layers' names are given.
pub fn layers(names: &[u64], width: u64, draw: &mut Draw) -> Vec<Fact> {
    let mut facts = Vec::new();
    for (layer, &name) in (0..).zip(names) {
        let mut targets: Vec<u64> = (0..width).collect();
        draw.shuffle(&mut targets);
        let pairs = (0..width).zip(targets);
        facts.extend(pairs.map(|(x, y)| (true, name, layer * width + x, layer * width + width + y)));
    }
    facts
}

/// So many pairs of a role, drawn.
pub fn drawn(role: u64, count: u64, (x, wide): (u64, u64), (y, high): (u64, u64), draw: &mut Draw) -> Vec<Fact> {
    let mut pair = |_| (true, role, x + draw.below(wide), y + draw.below(high));
    (0..count).map(&mut pair).collect()
}

/// So many of the facts, drawn.
pub fn thinned(mut facts: Vec<Fact>, count: usize, draw: &mut Draw) -> Vec<Fact> {
    draw.shuffle(&mut facts);
    facts.truncate(count);
    facts
}

/// Each of so many objects from `x` on to itself.
pub fn loops(role: u64, (x, count): (u64, u64)) -> Vec<Fact> {
    (x..x + count).map(|object| (true, role, object, object)).collect()
}

/// So many objects from `x` on have the concept.
pub fn having(concept: u64, (x, count): (u64, u64)) -> Vec<Fact> {
    (x..x + count).map(|object| (false, concept, object, 0)).collect()
}

pub fn role(name: u64, from: usize, to: usize) -> Atom {
    Atom::Role(name, var(from), var(to))
}

/// Roles between variables.
pub fn roles(edges: &[(u64, usize, usize)]) -> Vec<Atom> {
    edges.iter().map(|&(name, from, to)| role(name, from, to)).collect()
}

pub fn ask(answers: &[usize], atoms: Vec<Atom>) -> Query {
    let answers = answers.iter().map(|&v| var(v)).collect();
    Query { answers, atoms }
}

/// Each role from the object that the one before leads to.
pub fn chain(names: &[u64]) -> Vec<Atom> {
    names
        .iter()
        .enumerate()
        .map(|(i, &name)| role(name, i, i + 1))
        .collect()
}

/// The same, the last role leading back to the first object.
pub fn ring(names: &[u64]) -> Vec<Atom> {
    let next = |i: usize| (i + 1) % names.len();
    names
        .iter()
        .enumerate()
        .map(|(i, &name)| role(name, i, next(i)))
        .collect()
}

/// Each role from the same object.
pub fn star(names: &[u64]) -> Vec<Atom> {
    names
        .iter()
        .enumerate()
        .map(|(i, &name)| role(name, 0, i + 1))
        .collect()
}

/// Roles that share no variable.
pub fn apart(names: &[u64]) -> Vec<Atom> {
    names
        .iter()
        .enumerate()
        .map(|(i, &name)| role(name, 2 * i, 2 * i + 1))
        .collect()
}

/// Two from the first object, two from each of these, one from two of those.
pub fn tree(name: u64) -> Vec<Atom> {
    let edges = [(0, 1), (0, 2), (1, 3), (1, 4), (2, 5), (2, 6), (3, 7), (4, 8)];
    edges.iter().map(|&(from, to)| role(name, from, to)).collect()
}

/// Each of four objects to each later one.
pub fn clique(name: u64) -> Vec<Atom> {
    let pairs = (0..4).flat_map(|to| (0..to).map(move |from| (from, to)));
    pairs.map(|(from, to)| role(name, from, to)).collect()
}

/// The k-th name below a role's name; 0 is the name itself.
pub fn lower(name: u64, k: u64) -> u64 {
    match k {
        0 => name,
        _ => 100 * (name - 19) + k - 1,
    }
}

/// A rule for each name below a role's: of each role, how many names it has in all.
pub fn names(counts: &[(u64, u64)]) -> Vec<Rule> {
    let rules = counts
        .iter()
        .flat_map(|&(name, count)| (1..count).map(move |k| Rule::role(lower(name, k), name)));
    rules.collect()
}

/// The facts' roles given one of their names each, drawn.
pub fn spread(facts: Vec<Fact>, counts: &[(u64, u64)], draw: &mut Draw) -> Vec<Fact> {
    let mut named = |fact: Fact| match counts.iter().find(|(name, _)| fact.0 && fact.1 == *name) {
        Some(&(name, count)) => (true, lower(name, draw.below(count)), fact.2, fact.3),
        None => fact,
    };
    facts.into_iter().map(&mut named).collect()
}

/// The facts under each name of their role.
pub fn under_all(facts: &[Fact], counts: &[(u64, u64)]) -> Vec<Fact> {
    let all = counts.iter().flat_map(|&(name, count)| {
        let of_name = facts.iter().filter(move |fact| fact.1 == name);
        of_name.flat_map(move |fact| (0..count).map(move |k| (true, lower(name, k), fact.2, fact.3)))
    });
    all.collect()
}

/// The question with an object in place of a variable.
pub fn with_object(query: Query, variable: usize, object: u64) -> Query {
    let put = |term: Term| {
        if term == var(variable) {
            Term::Object(object)
        } else {
            term
        }
    };
    let atoms = query.atoms.into_iter().map(|atom| match atom {
        Atom::Concept(name, t) => Atom::Concept(name, put(t)),
        Atom::Role(name, t, u) => Atom::Role(name, put(t), put(u)),
    });
    Query {
        answers: query.answers,
        atoms: atoms.collect(),
    }
}
