//! Full-size work: questions that a register may well ask of 10,000 facts, over unions of some hundred members, with answers that fit into
//! the program's list; and two calls that are small.
use super::relations::{ask, chain, dense, drawn, layers, names, role, spread, star, with_object};
use super::sheets::{var, Atom, Fact, Query, Rule};
use super::{full_sheet, written, Case, Draw, SHORT};

/// A concept with four below it, and so on: 341 in five levels.
fn taxonomy() -> Case {
    let rules: Vec<Rule> = (1..341).map(|k| Rule::concept(1000 + k, 1000 + (k - 1) / 4)).collect();
    let mut draw = Draw::new();
    let facts = (0..10_000).map(|_| (false, 1000 + draw.below(400), draw.below(16_000), 0));
    let question = ask(&[0], vec![Atom::Concept(1000, var(0))]);
    full_sheet("one atom, taxonomy", &rules, &question, facts.collect(), SHORT)
}

/// A join of two roles with 13 and 17 names.
fn join() -> Case {
    let (counts, mut draw) = ([(20, 13), (21, 17)], Draw::new());
    let mut facts = drawn(20, 5_000, (0, 5_000), (10_000, 8_000), &mut draw);
    facts.extend(drawn(21, 5_000, (10_000, 8_000), (20_000, 5_000), &mut draw));
    let facts = spread(facts, &counts, &mut draw);
    let question = ask(&[0, 2], chain(&[20, 21]));
    full_sheet("join of two", &names(&counts), &question, facts, SHORT)
}

/// A concept of 17 names and a role of 13.
fn concept_join() -> Case {
    let mut draw = Draw::new();
    let mut rules = names(&[(20, 13)]);
    rules.extend((1..17).map(|k| Rule::concept(1000 + k, 1000)));
    let facts = drawn(20, 5_000, (0, 3_000), (0, 3_000), &mut draw);
    let mut facts = spread(facts, &[(20, 13)], &mut draw);
    facts.extend((0..5_000).map(|_| (false, 1000 + draw.below(17), draw.below(3_000), 0)));
    let question = ask(&[0, 1], vec![Atom::Concept(1000, var(0)), role(20, 0, 1)]);
    full_sheet("concept and role", &rules, &question, facts, SHORT)
}

/// A chain of four of one role, with another name for it, and a concept that has it to something: 79 members with the merges.
fn chain_of_four(name: &str, answers: &[usize], objects: u64) -> Case {
    let mut draw = Draw::new();
    let mut facts = drawn(20, 5_000, (0, objects), (0, objects), &mut draw);
    facts.extend(drawn(21, 5_000, (0, objects), (0, objects), &mut draw));
    let rules = [Rule::role(21, 20), Rule::some(5, 20)];
    full_sheet(name, &rules, &ask(answers, chain(&[20; 4])), facts, SHORT)
}

fn star_of_eight() -> Case {
    let mut draw = Draw::new();
    let mut facts = drawn(20, 9_000, (0, 3_000), (0, 3_000), &mut draw);
    facts.extend((0..1_000).map(|x| (false, 5, 2_500 + x, 0)));
    let question = ask(&[0], star(&[20; 8]));
    full_sheet("star of eight", &[Rule::some(5, 20)], &question, facts, SHORT)
}

/// Five dense relations one after the other and a concept that none of the last objects has.
fn dead_ends() -> Case {
    let counts = [(20, 2), (21, 2), (22, 2), (23, 2), (24, 8)];
    let mut draw = Draw::new();
    let mut facts: Vec<Fact> = Vec::new();
    for (k, (name, _)) in (0..).zip(counts) {
        facts.extend(dense(name, (100 * k, 44), (100 * k + 100, 44)));
    }
    let mut facts = spread(facts, &counts, &mut draw);
    facts.extend((0..40).map(|x| (false, 5, 5_000 + x, 0)));
    let mut question = ask(&[0], chain(&[20, 21, 22, 23, 24]));
    question.atoms.push(Atom::Concept(5, var(5)));
    full_sheet("dead ends, dense, six atoms", &names(&counts), &question, facts, SHORT)
}

/// Chains of eight over 512 choices of names.
fn eight_atoms(name: &str, change: impl Fn(Query) -> Query) -> Case {
    let roles: Vec<u64> = (20..28).collect();
    let counts: Vec<(u64, u64)> = roles.iter().map(|&r| (r, if r == 27 { 4 } else { 2 })).collect();
    let mut draw = Draw::new();
    let facts = spread(layers(&roles, 1_000, &mut draw), &counts, &mut draw);
    let question = change(ask(&[0, 8], chain(&roles)));
    full_sheet(name, &names(&counts), &question, facts, SHORT)
}

/// 01's first card: each concept 1 is driven by something; who is driven?
fn first_card() -> Case {
    let question = Query {
        answers: vec![var(0)],
        atoms: vec![role(1, 0, 1)],
    };
    let facts = vec![(false, 1, 7, 0), (true, 1, 9, 3)];
    written("K1", &[Rule::some_to(1, 0)], &question, facts, SHORT).expect("two members")
}

fn small_register() -> Case {
    let mut draw = Draw::new();
    let mut facts = drawn(20, 30, (0, 30), (0, 30), &mut draw);
    facts.extend(drawn(21, 30, (0, 30), (0, 30), &mut draw));
    let facts = super::Order::Drawn.of(facts, &mut draw);
    let rules = [Rule::role(21, 20), Rule::some(5, 20)];
    let question = ask(&[0, 2], chain(&[20; 2]));
    written("small register", &rules, &question, facts, SHORT).expect("few members")
}

pub fn cases() -> Vec<Case> {
    vec![
        taxonomy(),
        join(),
        concept_join(),
        chain_of_four("chain of four, both ends asked", &[0, 4], 14_000),
        chain_of_four("chain of four, first asked", &[0], 7_000),
        star_of_eight(),
        dead_ends(),
        eight_atoms("chain of eight, both ends asked", |query| query),
        eight_atoms("chain of eight, last asked", |query| ask(&[8], query.atoms)),
        eight_atoms("chain of eight from one object", |query| {
            with_object(ask(&[8], query.atoms), 0, 17)
        }),
        small_register(),
        first_card(),
    ]
}
