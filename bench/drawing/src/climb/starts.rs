//! Sheets to climb from: the worst of those that `cases/bad` has.
use super::sheet::{Law, Relation, Shape, Sheet};
use crate::cases::relations::{ask, chain, clique, ring, roles, star, tree};
use crate::cases::sheets::Atom;

const P: u64 = 20;
const Q: u64 = 21;
const R: u64 = 22;

fn sheet(answers: &[usize], atoms: Vec<Atom>, laws: &[Law], relations: &[Relation]) -> Sheet {
    Sheet {
        query: ask(answers, atoms),
        laws: laws.to_vec(),
        relations: relations.to_vec(),
    }
}

fn relation(name: u64, shape: Shape, from: (u64, u64), to: (u64, u64)) -> Relation {
    Relation { name, shape, from, to }
}

fn square(name: u64, side: u64) -> Relation {
    relation(name, Shape::Dense, (0, side), (0, side))
}

/// Trees, chains and stars over dense relations.
fn without_rings() -> Vec<Sheet> {
    let both_ways = [Law::Exchanged(P, P)];
    let dead = [square(P, 99), relation(Q, Shape::Dense, (5, 1), (5_001, 1))];
    let pairs = [
        relation(P, Shape::Drawn(9_800), (0, 178), (0, 178)),
        relation(P, Shape::Loops, (0, 178), (0, 1)),
    ];
    let with_loop = [
        (P, 3, 1),
        (P, 0, 1),
        (P, 4, 2),
        (P, 3, 3),
        (P, 3, 2),
        (P, 1, 0),
        (P, 6, 5),
    ];
    let few = [
        relation(P, Shape::Drawn(3_333), (50, 668), (100, 14)),
        relation(Q, Shape::Drawn(3_333), (0, 100), (0, 100)),
        relation(22, Shape::Drawn(3_333), (0, 100), (0, 100)),
    ];
    let apart = [(Q, 2, 3), (P, 0, 1), (P, 4, 3), (Q, 7, 4), (Q, 5, 6), (Q, 2, 8)];
    vec![
        sheet(&[7, 8], tree(P), &[], &[square(P, 100)]),
        sheet(&[1, 2, 3, 4], tree(P), &[], &[square(P, 100)]),
        sheet(&[1, 2], star(&[P; 8]), &both_ways, &[square(P, 100)]),
        sheet(&[0, 4], chain(&[P; 4]), &both_ways, &[square(P, 100)]),
        sheet(&[0, 8], chain(&[P, P, P, Q, P, P, P, P]), &[], &dead),
        sheet(&[0, 4], roles(&with_loop), &both_ways, &pairs),
        sheet(&[1, 1, 4, 3], roles(&apart), &[Law::Role(22, Q)], &few),
    ]
}

/// Rings and cliques, over relations that close them and over some that do not.
fn with_rings() -> Vec<Sheet> {
    let both_ways = [Law::Exchanged(P, P)];
    let tournament = [relation(P, Shape::Tournament, (0, 141), (0, 1))];
    let (two, three) = (
        relation(P, Shape::Round(2), (0, 70), (0, 1)),
        relation(P, Shape::Onward(3), (0, 57), (0, 1)),
    );
    let beside = [
        (P, 0, 1),
        (P, 0, 4),
        (Q, 4, 7),
        (Q, 1, 7),
        (P, 6, 1),
        (P, 5, 4),
        (Q, 1, 2),
        (P, 2, 3),
    ];
    let wide = [relation(P, Shape::Dense, (0, 140), (0, 35)), square(Q, 70)];
    let shared = [
        (P, 4, 0),
        (P, 2, 1),
        (P, 2, 3),
        (P, 3, 4),
        (P, 4, 1),
        (P, 0, 1),
        (P, 8, 0),
    ];
    let with_loops = [two, relation(P, Shape::Loops, (100, 74), (0, 1))];
    vec![
        sheet(&[0, 4], ring(&[P; 8]), &[], &tournament),
        sheet(&[], ring(&[P; 7]), &both_ways, &[two]),
        sheet(&[3], clique(P), &both_ways, &[three]),
        sheet(&[3], clique(P), &both_ways, &tournament),
        sheet(&[6, 5], roles(&beside), &[Law::Exchanged(P, Q)], &wide),
        sheet(&[1, 0, 2, 3], roles(&shared), &[], &with_loops),
    ]
}

/// What was found with looking ahead.
fn found_without_rings() -> Vec<Sheet> {
    let branch = [(3, 7), (1, 3), (1, 4), (4, 8), (0, 1), (0, 0)].map(|(from, to)| (P, from, to));
    let three = [(5, 1), (2, 6), (1, 4), (2, 0), (5, 2), (1, 3), (4, 8), (3, 7)].map(|(from, to)| (P, from, to));
    let parts = relation(P, Shape::Onward(2), (0, 64), (0, 1));
    let wide = relation(P, Shape::Dense, (0, 74), (0, 77));
    vec![
        sheet(&[7, 8], roles(&branch), &[Law::Exchanged(P, P)], &[square(P, 100)]),
        sheet(&[7, 8, 2], roles(&three), &[], &[wide, parts]),
    ]
}

fn found_with_rings() -> Vec<Sheet> {
    let of = |name: u64, shape: Shape, size: u64| relation(name, shape, (0, size), (0, 1));
    let layers = [
        of(P, Shape::Steps(3), 30),
        relation(P, Shape::Dense, (3000, 47), (1000, 47)),
        of(Q, Shape::Steps(3), 32),
        of(R, Shape::Onward(4), 17),
        of(R, Shape::Round(3), 27),
    ];
    let one = [(P, 7, 1), (R, 1, 5), (Q, 0, 4), (P, 0, 2)];
    let other = [(R, 2, 1), (Q, 0, 2), (Q, 7, 5), (Q, 7, 4)];
    let names = [Law::Role(P, Q), Law::Exchanged(R, R)];
    let row = [(4, 0), (1, 0), (4, 3), (4, 1), (1, 2), (2, 1), (2, 3), (2, 4)].map(|(from, to)| (P, from, to));
    vec![
        sheet(&[5, 4, 5, 0], roles(&[one, other].concat()), &names, &layers),
        sheet(&[1, 0, 2, 3], roles(&row), &[], &[of(P, Shape::Round(2), 70)]),
    ]
}

pub fn of(rings: bool) -> Vec<Sheet> {
    if rings {
        [with_rings(), found_with_rings()].concat()
    } else {
        [without_rings(), found_without_rings()].concat()
    }
}
