//! Bad sheets whose questions have no ring.
use super::{Group, Lines, NO_RULES, P, Q};
use crate::cases::relations::{
    apart, ask, chain, dense, drawn, having, loops, names, onward, role, roles, square, star, thinned, tournament,
    tree, under_all,
};
use crate::cases::sheets::{var, Atom, Fact, Rule};
use crate::cases::{full_sheet_in, Draw, Order, SHORT};

pub fn add(lines: &mut Lines) {
    products(lines);
    dead_in_the_middle(lines);
    dead_layers(lines);
    trees(lines);
    small_trees(lines);
    one_answer(lines);
    too_many(lines);
    found(lines);
    found_ahead(lines);
    found_last(lines);
}

/// Products of atoms that share no variable, with a dead end at the end.
fn products(lines: &mut Lines) {
    let mut query = ask(&[], apart(&[P, P]));
    query.atoms.push(Atom::Concept(6, var(4)));
    lines.acyclic("P(x,y), P(z,w), Q(s), no Q", NO_RULES, query, square(P, 99));
    let answered: [(&[usize], &str); 3] = [
        (&[], "seven apart, a role to itself that has none"),
        (&[0], "the same, one asked"),
        (&[0, 14], "the same, two asked"),
    ];
    for (answers, name) in answered {
        let mut query = ask(answers, apart(&[P; 7]));
        query.atoms.push(role(Q, 14, 14));
        let mut facts = square(P, 99);
        facts.push((true, Q, 1, 2));
        lines.acyclic(name, NO_RULES, query, facts);
    }
    let query = ask(&[0, 2, 4, 6], apart(&[P; 8]));
    lines.acyclic("eight apart, four asked", NO_RULES, query, square(P, 100));
    let query = ask(&[0], apart(&[P; 8]));
    lines.acyclic("eight apart, one asked", NO_RULES, query, square(P, 100));
}

/// A chain over a dense relation, its fourth role's facts such that it has no match.
fn dead_in_the_middle(lines: &mut Lines) {
    let mut facts = square(P, 99);
    facts.extend([(true, Q, 5_000, 5_001), (true, Q, 5, 5_001), (true, Q, 5_000, 5)]);
    let roles = [P, P, P, Q, P, P, P, P];
    let asked: [&[usize]; 4] = [&[], &[0], &[8], &[0, 8]];
    for answers in asked {
        let name = format!("dead in the middle of eight, {} asked", answers.len());
        lines.acyclic(&name, NO_RULES, ask(answers, chain(&roles)), facts.clone());
    }
}

/// The roles of eight layers, and how many names each has where there are 512 choices.
const LAYERS: [u64; 8] = [20, 21, 22, 23, 24, 25, 26, 27];
const NAMES: [(u64, u64); 8] = [(20, 2), (21, 2), (22, 2), (23, 2), (24, 2), (25, 2), (26, 2), (27, 4)];

/// Seven dense layers of so many objects, and an eighth one whose facts are given.
fn layers(side: u64, last: impl Fn(u64) -> (u64, u64)) -> Vec<Fact> {
    let layer = |r: u64| (100 * (r - 20), side);
    let mut facts: Vec<Fact> = (20..27).flat_map(|r| dense(r, layer(r), layer(r + 1))).collect();
    facts.extend((0..side).map(last).map(|(x, y)| (true, 27, x, y)));
    facts
}

/// The last layer apart from the others.
fn dead_layers(lines: &mut Lines) {
    let (query, apart) = (ask(&[0], chain(&LAYERS)), |x| (5_000 + x, x));
    lines.acyclic("dense layers, dead end", NO_RULES, query.clone(), layers(37, apart));
    let facts = under_all(&layers(26, apart), &NAMES);
    lines.acyclic("dense layers with names, dead end", &names(&NAMES), query, facts);
}

/// Chains, stars and trees over dense relations and over a tournament.
fn trees(lines: &mut Lines) {
    let relations = [
        ("100 x 100", square(P, 100)),
        ("tournament", tournament(P, 141, &mut Draw::new())),
    ];
    let (chain_of_eight, star_of_eight) = (chain(&[P; 8]), star(&[P; 8]));
    let shapes: [(&str, &[usize], &[Atom]); 8] = [
        ("chain of eight, both ends asked", &[0, 8], &chain_of_eight),
        ("chain of eight, middle asked", &[4], &chain_of_eight),
        ("star of eight, middle asked", &[0], &star_of_eight),
        ("star of eight, two leaves asked", &[1, 2], &star_of_eight),
        ("star of eight, four leaves asked", &[1, 2, 3, 4], &star_of_eight),
        ("tree of eight, root asked", &[0], &tree(P)),
        ("tree of eight, two leaves asked", &[7, 8], &tree(P)),
        ("tree of eight, four asked", &[1, 2, 3, 4], &tree(P)),
    ];
    let both_ways: [(&str, &[usize], &[Atom]); 2] = [
        ("star of eight both ways, two leaves asked", &[1, 2], &star_of_eight),
        ("chain of four both ways, both ends asked", &[0, 4], &chain(&[P; 4])),
    ];
    for (said, facts) in relations {
        let mut add = |shape: &str, rules: &[Rule], answers: &[usize], atoms: &[Atom]| {
            let name = format!("{shape}, {said}");
            lines.acyclic(&name, rules, ask(answers, atoms.to_vec()), facts.clone());
        };
        for (shape, answers, atoms) in shapes {
            add(shape, NO_RULES, answers, atoms);
        }
        for (shape, answers, atoms) in both_ways {
            add(shape, &[Rule::both_ways(P)], answers, atoms);
        }
    }
}

/// The same over few objects.
fn small_trees(lines: &mut Lines) {
    let query = ask(&[0, 8, 0, 8], chain(&[P; 8]));
    lines.acyclic("chain of eight, both ends twice, 8 x 8", NO_RULES, query, square(P, 8));
    let query = ask(&[1, 2, 3, 4], star(&[P; 8]));
    lines.acyclic("star of eight, four asked, 8 x 8", NO_RULES, query, square(P, 8));
}

/// Every match gives the same answer: all objects of a dense relation lead to one object.
fn one_answer(lines: &mut Lines) {
    let mut facts = square(P, 99);
    facts.extend((0..99).map(|x| (true, Q, x, 5_000)));
    let roles = [P, P, P, P, P, P, P, Q];
    let query = ask(&[8], chain(&roles));
    lines.acyclic("chain of eight, all answers equal", NO_RULES, query, facts.clone());
    let query = ask(&[8, 8, 8, 8], star(&roles));
    lines.acyclic("star of eight, all answers equal", NO_RULES, query, facts);
    let facts = under_all(&layers(26, |x| (700 + x, 5_000)), &NAMES);
    let query = ask(&[8], chain(&LAYERS));
    lines.acyclic(
        "dense layers with names, all answers equal",
        &names(&NAMES),
        query,
        facts,
    );
}

/// Answers that do not fit: the facts in each order, the answer terms in both.
fn too_many(lines: &mut Lines) {
    for order in [Order::Rising, Order::Drawn, Order::Falling] {
        for answers in [[1, 2], [2, 1]] {
            let [one, other] = answers;
            let said = order.said();
            let name = format!("star of eight, leaves {one} and {other} asked, do not fit, facts {said}");
            let query = ask(&answers, star(&[P; 8]));
            let case = full_sheet_in(order, &name, NO_RULES, &query, square(P, 100), SHORT);
            lines.add(Group::Acyclic, case);
        }
    }
}

/// What hill climbing came to: both ends asked of a chain with a role to itself in the middle, in both directions, so that each of many
/// members finds all pairs again; and two questions apart, of which the later one has few matches and is gone through for each match of
/// the first.
fn found(lines: &mut Lines) {
    let mut facts = drawn(P, 9_800, (0, 178), (0, 178), &mut Draw::new());
    facts.extend(loops(P, (0, 178)));
    let edges = [(3, 1), (0, 1), (4, 2), (3, 3), (3, 2), (1, 0), (6, 5)];
    let query = ask(&[0, 4], roles(&edges.map(|(from, to)| (P, from, to))));
    let name = "found: chain with a role to itself both ways, ends asked, pairs of 178";
    lines.acyclic(name, &[Rule::both_ways(P)], query, facts);

    let draw = &mut Draw::new();
    let mut facts = dense(P, (50, 668), (100, 14));
    facts.extend(loops(P, (50, 668)));
    let mut facts = thinned(facts, 3_333, draw);
    facts.extend(under_all(&thinned(square(Q, 100), 3_333, draw), &[(Q, 2)]));
    let edges = [(Q, 2, 3), (P, 0, 1), (P, 4, 3), (Q, 7, 4), (Q, 5, 6), (Q, 2, 8)];
    let query = ask(&[1, 1, 4, 3], roles(&edges));
    lines.acyclic(
        "found: two asked apart, the later with few matches",
        &names(&[(Q, 2)]),
        query,
        facts,
    );
}

/// The same with looking ahead: a chain of four both ways, its ends asked, and a branch of two at its middle, so that the middle is told
/// apart for each pair of ends where the branch comes last; and three asked of a tree, whose tuples are come to often and are found in the
/// list only, since the table forgets them.
fn found_ahead(lines: &mut Lines) {
    let mut query = ask(&[7, 8], roles(&[(P, 3, 7), (P, 1, 3), (P, 1, 4), (P, 4, 8), (P, 0, 1)]));
    query.atoms.push(Atom::Concept(5, var(0)));
    let facts = [square(P, 99), having(5, (0, 99))].concat();
    let name = "found: chain of four both ways, ends asked, a branch of two at its middle";
    lines.acyclic(name, &[Rule::both_ways(P)], query, facts);

    let edges = [(5, 1), (2, 6), (1, 4), (2, 0), (5, 2), (1, 3), (4, 8), (3, 7)];
    let query = ask(&[7, 8, 2], roles(&edges.map(|(from, to)| (P, from, to))));
    let facts = [dense(P, (0, 74), (0, 77)), onward(P, 2, 64)].concat();
    lines.acyclic("found: tree of eight, three asked, do not fit", NO_RULES, query, facts);
}

/// With the order of atoms as it is now: the ends of three branches of a tree, so that three variables tell apart what is below, more than
/// the memo has entries for; and a chain of four both ways, its ends asked, with a role to itself beside its middle.
fn found_last(lines: &mut Lines) {
    let edges = [(2, 0), (1, 3), (2, 6), (1, 4), (3, 7), (4, 8), (1, 5), (5, 2)];
    let query = ask(&[7, 8, 2], roles(&edges.map(|(from, to)| (P, from, to))));
    let facts = [square(P, 70), onward(P, 2, 70)].concat();
    let name = "found: tree of eight, three branches, ends asked, do not fit";
    lines.acyclic(name, NO_RULES, query, facts);

    let edges = [(7, 3), (0, 0), (4, 8), (1, 3), (1, 4), (1, 0)];
    let query = ask(&[7, 8], roles(&edges.map(|(from, to)| (P, from, to))));
    let name = "found: chain of four both ways, ends asked, beside it a role to itself";
    lines.acyclic(name, &[Rule::both_ways(P)], query, dense(P, (0, 98), (0, 100)));
}
