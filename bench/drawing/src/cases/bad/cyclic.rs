//! Bad sheets whose questions have rings or cliques.
use super::{Lines, NO_RULES, P, Q, R};
use crate::cases::relations::{
    ask, clique, dense, loops, lower, names, onward, ring, role, roles, round, square, steps, tournament,
};
use crate::cases::sheets::{Fact, Query, Rule};
use crate::cases::Draw;

pub fn add(lines: &mut Lines) {
    rings(lines);
    cliques(lines);
    found(lines);
    found_ahead(lines);
    found_last(lines);
}

/// Rings, and a ring that nothing closes.
fn rings(lines: &mut Lines) {
    let relations = [
        ("100 x 100", square(P, 100)),
        ("tournament", tournament(P, 141, &mut Draw::new())),
        ("two parts", round(P, 2, 70)),
    ];
    for (said, facts) in relations {
        let mut add = |shape: &str, rules: &[Rule], query: Query| {
            lines.cyclic(&format!("{shape}, {said}"), rules, query, facts.clone());
        };
        add("ring of eight", NO_RULES, ask(&[], ring(&[P; 8])));
        add("ring of eight, two asked", NO_RULES, ask(&[0, 4], ring(&[P; 8])));
        add("ring of eight, four asked", NO_RULES, ask(&[0, 2, 4, 6], ring(&[P; 8])));
        add("ring of seven, one asked", NO_RULES, ask(&[0], ring(&[P; 7])));
        add(
            "ring of seven both ways",
            &[Rule::both_ways(P)],
            ask(&[], ring(&[P; 7])),
        );
    }
    let counts = [(20, 2), (21, 2), (22, 2), (23, 2), (24, 2), (25, 2), (26, 2), (27, 3)];
    let mut draw = Draw::new();
    let each = counts
        .iter()
        .flat_map(|&(name, count)| (0..count).map(move |k| lower(name, k)));
    let facts: Vec<Fact> = each.flat_map(|name| tournament(name, 34, &mut draw)).collect();
    let roles: Vec<u64> = (20..28).collect();
    for answers in [&[][..], &[0, 4]] {
        let name = format!("ring of eight with names, {} asked, tournaments", answers.len());
        lines.cyclic(&name, &names(&counts), ask(answers, ring(&roles)), facts.clone());
    }
}

/// Cliques of four, where there are some and where there are none.
fn cliques(lines: &mut Lines) {
    let relations = [
        ("100 x 100", square(P, 100)),
        ("tournament", tournament(P, 141, &mut Draw::new())),
        ("three parts", onward(P, 3, 57)),
        ("three parts in a round", round(P, 3, 57)),
    ];
    for (said, facts) in relations {
        for answers in [&[][..], &[3]] {
            let asked = answers.len();
            let query = ask(answers, clique(P));
            let name = format!("clique, {asked} asked, {said}");
            lines.cyclic(&name, NO_RULES, query.clone(), facts.clone());
            let name = format!("clique both ways, {asked} asked, {said}");
            lines.cyclic(&name, &[Rule::both_ways(P)], query, facts.clone());
        }
    }
    let mut query = ask(&[0], clique(P));
    query.atoms.extend([role(P, 3, 4), role(Q, 4, 5)]);
    let mut facts = square(P, 99);
    facts.push((true, Q, 9_000, 9_001));
    lines.cyclic("clique with a dead end", NO_RULES, query, facts);
}

/// What hill climbing came to: a ring of four, at two of its objects one that is asked, so that each pair of the two is come to for each
/// pair of the ring; and two rings that only roles from an object to itself close.
fn found(lines: &mut Lines) {
    let ring_of_four = [(P, 0, 1), (P, 0, 4), (Q, 4, 7), (Q, 1, 7)];
    let beside = [(P, 6, 1), (P, 5, 4), (Q, 1, 2), (P, 2, 3)];
    let query = ask(&[6, 5], roles(&[ring_of_four, beside].concat()));
    let mut facts = dense(P, (0, 140), (0, 35));
    facts.extend(square(Q, 70));
    let name = "found: ring of four with two asked beside it, 140 x 35 and 70 x 70";
    lines.cyclic(name, &[Rule::exchanged(P, Q)], query, facts);

    let edges = [(4, 0), (2, 1), (2, 3), (3, 4), (4, 1), (0, 1), (8, 0)];
    let query = ask(&[1, 0, 2, 3], roles(&edges.map(|(from, to)| (P, from, to))));
    let mut facts = round(P, 2, 70);
    facts.extend(loops(P, (100, 74)));
    let name = "found: rings of three and four that share a role, two parts, loops";
    lines.cyclic(name, NO_RULES, query, facts);
}

/// The same with looking ahead: a ring of three and one of five that share a role, over layers, with names and directions; and three rings
/// of three in a row, four of their objects asked, which two parts do not close.
fn found_ahead(lines: &mut Lines) {
    let one = [(P, 7, 1), (R, 1, 5), (Q, 0, 4), (P, 0, 2)];
    let other = [(R, 2, 1), (Q, 0, 2), (Q, 7, 5), (Q, 7, 4)];
    let query = ask(&[5, 4, 5, 0], roles(&[one, other].concat()));
    let mut facts = [steps(P, 3, 30), dense(P, (3000, 47), (1000, 47)), steps(Q, 3, 32)].concat();
    facts.extend([onward(R, 4, 17), round(R, 3, 27)].concat());
    let name = "found: rings of three and five that share a role, layers";
    lines.cyclic(name, &[Rule::role(P, Q), Rule::both_ways(R)], query, facts);

    let edges = [(4, 0), (1, 0), (4, 3), (4, 1), (1, 2), (2, 1), (2, 3), (2, 4)];
    let query = ask(&[1, 0, 2, 3], roles(&edges.map(|(from, to)| (P, from, to))));
    let name = "found: three rings of three in a row, four asked, two parts";
    lines.cyclic(name, NO_RULES, query, round(P, 2, 70));
}

/// With the first of equal atoms taken: three rings of three at one object, which two parts do not close, nor a third one behind them. With
/// rings closed first: a clique and one role more, both ways, two asked, over three parts.
fn found_last(lines: &mut Lines) {
    let edges = [(0, 4), (4, 2), (1, 4), (1, 6), (0, 3), (3, 4), (2, 0), (2, 1)];
    let query = ask(&[1, 0, 2, 3], roles(&edges.map(|(from, to)| (P, from, to))));
    let facts = [round(P, 2, 70), steps(P, 3, 10)].concat();
    let name = "found: three rings of three at one object, four asked, two parts";
    lines.cyclic(name, NO_RULES, query, facts);

    let edges = [(0, 1), (2, 1), (1, 3), (0, 3), (0, 2), (2, 3), (3, 2)];
    let query = ask(&[3, 0], roles(&edges.map(|(from, to)| (P, from, to))));
    let name = "found: clique and a role back both ways, two asked, three parts";
    lines.cyclic(name, &[Rule::both_ways(P)], query, onward(P, 3, 57));
}
