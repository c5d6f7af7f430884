//! Bad sheets: unions that pass 1 to 10 and are closed, or nearly so, so that the check does all its work.
use super::unions::{concept_rule, made, object, role_rule, Numbering, Sheet};
use super::words::{Atom, Query, Rule, Term};
use crate::MOST_MEMBERS;

/// A role with no partner, further ones counting up from it.
pub const P: u32 = 16;
/// A concept.
pub const A: u32 = 1;
const MOST_RULES: usize = 512;

/// The rules, and the last of them again until there are 512.
pub fn filled(mut rules: Vec<Rule>) -> Vec<Rule> {
    let last = rules[rules.len() - 1];
    rules.resize(MOST_RULES, last);
    rules
}

/// The rules over and over until there are 512.
pub fn repeated(rules: Vec<Rule>) -> Vec<Rule> {
    rules.iter().copied().cycle().take(MOST_RULES).collect()
}

fn sheet(rules: Vec<Rule>, atoms: &[Atom], numbering: Numbering) -> Sheet {
    made(&rules, Query::new(&[], atoms), numbering, MOST_MEMBERS)
}

/// Roles apart from each other, so many of one role that a rule turns round, and others beside it that have so many names each: the
/// rule that is repeated fits every atom of the first role.
pub fn named_apart(first: u32, names: &[u32], rule: Rule, numbering: Numbering) -> Sheet {
    let mut rules = Vec::new();
    let mut atoms: Vec<Atom> = (0..first).map(|i| Atom::role(P, i + 1, i + 17)).collect();
    for (i, &count) in (0..).zip(names) {
        let role = P + 64 * (i + 1);
        atoms.push(Atom::role(role, first + i + 1, first + i + 17));
        rules.extend((1..count).map(|name| role_rule(role + name, role + name - 1, false)));
    }
    rules.push(rule);
    sheet(filled(rules), &atoms, numbering)
}

/// P(0,8), P(1,9), .., P(7,15): roles apart from each other, with four names that all imply each other.
pub fn apart(names: u32, numbering: Numbering) -> Sheet {
    let atoms: Vec<Atom> = (0..8).map(|i| Atom::role(P, i, i + 8)).collect();
    sheet(repeated(all_to_all(names)), &atoms, numbering)
}

/// Roles apart, with four names that imply each other in all six ways that there are: 96 rules, no two of them the same.
pub fn every_way(numbering: Numbering) -> Sheet {
    let atoms: Vec<Atom> = (0..8).map(|i| Atom::role(P, i, i + 8)).collect();
    let mut rules = Vec::new();
    for left in P..P + 4 {
        for right in P..P + 4 {
            rules.extend([false, true].map(|exchanged| role_rule(left, right, exchanged)));
            for (form, other) in [(1, 1), (1, 2), (2, 1), (2, 2)] {
                rules.push(concept_rule((form, left), (other, right)));
            }
        }
    }
    sheet(rules, &atoms, numbering)
}

/// Two atoms with 22 names that all imply each other, beside six that stay: 484 rules that differ, 484 members of eight atoms.
pub fn two_named(numbering: Numbering) -> Sheet {
    let mut atoms = vec![Atom::role(P, object(1), 0), Atom::role(P, object(2), 1)];
    atoms.extend((0..6).map(|i| Atom::role(P + 64 + i, 2 + i, 8 + i)));
    sheet(all_to_all(22), &atoms, numbering)
}

/// Every one of so many roles implies every one, itself included.
fn all_to_all(names: u32) -> Vec<Rule> {
    let pairs = (0..names).flat_map(|left| (0..names).map(move |right| (left, right)));
    pairs
        .map(|(left, right)| role_rule(P + left, P + right, false))
        .collect()
}

/// A star with two names and both directions.
pub fn star(numbering: Numbering) -> Sheet {
    let atoms: Vec<Atom> = (1..9).map(|leaf| Atom::role(P, 0, leaf)).collect();
    let rules = vec![
        role_rule(P, P, true),
        role_rule(P + 1, P, false),
        role_rule(P, P + 1, true),
        role_rule(P + 1, P + 1, true),
    ];
    sheet(repeated(rules), &atoms, numbering)
}

/// Rings of the given lengths in one role; the variables of a ring stand apart by `stride`.
pub fn rings(lengths: &[u32], rules: Vec<Rule>, numbering: Numbering) -> Sheet {
    let mut atoms = Vec::new();
    let mut start = 0;
    for &length in lengths {
        for i in 0..length {
            atoms.push(Atom::role(P, start + i, start + (i + 1) % length));
        }
        start += length;
    }
    sheet(rules, &atoms, numbering)
}

/// A ring whose atoms have eight roles, in two names each.
pub fn named_ring(numbering: Numbering) -> Sheet {
    let atoms: Vec<Atom> = (0..8).map(|i| Atom::role(P + i, i, (i + 1) % 8)).collect();
    let mut rules: Vec<Rule> = (0..8)
        .map(|i| role_rule(P + 16 + i, P + i, false))
        .collect();
    rules.push(role_rule(P + 32, P + 16, false));
    rules.extend((0..8).map(|i| role_rule(P + i, P + i, false)));
    sheet(repeated(rules), &atoms, numbering)
}

/// Three rows of three, with six roles to the right, two down.
pub fn grid(numbering: Numbering) -> Sheet {
    let at = |row: Term, column: Term| 3 * row + column;
    let mut atoms = Vec::new();
    for row in 0..3 {
        for column in 0..2 {
            atoms.push(Atom::role(P, at(row, column), at(row, column + 1)));
        }
    }
    atoms.push(Atom::role(P + 1, at(0, 0), at(1, 0)));
    atoms.push(Atom::role(P + 1, at(1, 0), at(2, 0)));
    sheet(filled(vec![role_rule(P, P, false)]), &atoms, numbering)
}

/// All sets of up to eight of nine concepts of one variable.
pub fn concepts(numbering: Numbering) -> Sheet {
    let atoms: Vec<Atom> = (0..8).map(|i| Atom::concept(A + i, 0)).collect();
    let pairs = (0..9).flat_map(|left| (0..9).map(move |right| (left, right)));
    let rules = pairs.map(|(left, right)| concept_rule((0, A + left), (0, A + right)));
    sheet(repeated(rules.collect()), &atoms, numbering)
}

/// So many concepts, each but the first below the one that `above` says; the first is asked for.
pub fn taxonomy(names: usize, above: impl Fn(usize) -> usize) -> Sheet {
    let concept = |i: usize| (0, A + i as u32);
    let rules = (1..names).map(|i| concept_rule(concept(i), concept(above(i))));
    let question = Query::new(&[0], &[Atom::concept(A, 0)]);
    made(
        &rules.collect::<Vec<Rule>>(),
        question,
        Numbering::Kept,
        MOST_MEMBERS,
    )
}

/// Two roles joined, so many names below each and as many rules for others: what a register's question is like.
pub fn joined(names: u32, others: u32) -> Sheet {
    let below = |role: u32| (1..names).map(move |i| role_rule(role + i, role, false));
    let other = (0..others).map(|i| concept_rule((0, 600 + i), (0, 599 + i)));
    let rules: Vec<Rule> = below(P).chain(below(P + 64)).chain(other).collect();
    let atoms = [Atom::role(P, 0, 1), Atom::role(P + 64, 1, 2)];
    made(
        &rules,
        Query::new(&[0], &atoms),
        Numbering::Kept,
        MOST_MEMBERS,
    )
}

type Maker = Box<dyn Fn() -> Sheet>;

/// All of them, with their names.
pub fn all() -> Vec<(String, Maker)> {
    let mut all: Vec<(String, Maker)> = Vec::new();
    let mut add = |name: &str, maker: Maker| all.push((name.to_string(), maker));
    let flip = || vec![role_rule(P, P, true)];
    let same = || vec![role_rule(P, P, false)];
    let numbering = Numbering::Reversed;
    add(
        "roles apart, four names",
        Box::new(move || apart(4, numbering)),
    );
    let (turn, renew) = (role_rule(P, P, true), concept_rule((1, P), (1, P)));
    let drawn = Numbering::Drawn(1);
    add(
        "apart and named, turned",
        Box::new(move || named_apart(5, &[5, 5, 4], turn, drawn)),
    );
    add(
        "apart and named, renewed",
        Box::new(move || named_apart(5, &[5, 5, 4], renew, Numbering::Above)),
    );
    add(
        "roles apart, every rule differs",
        Box::new(move || every_way(numbering)),
    );
    add(
        "names for two, 484 rules differ",
        Box::new(move || two_named(numbering)),
    );
    add("star", Box::new(move || star(numbering)));
    add(
        "ring of eight",
        Box::new(move || rings(&[8], filled(same()), numbering)),
    );
    add(
        "ring of eight, turned",
        Box::new(move || rings(&[8], filled(flip()), numbering)),
    );
    add(
        "two rings of four",
        Box::new(move || rings(&[4, 4], filled(same()), numbering)),
    );
    add(
        "two rings of four, turned",
        Box::new(move || rings(&[4, 4], filled(flip()), numbering)),
    );
    add(
        "rings of 3, 3 and 2",
        Box::new(move || rings(&[3, 3, 2], filled(same()), numbering)),
    );
    add(
        "ring of eight names",
        Box::new(move || named_ring(numbering)),
    );
    add("grid", Box::new(move || grid(numbering)));
    add(
        "sets of nine concepts",
        Box::new(move || concepts(numbering)),
    );
    all
}

/// Sheets that are not bad, for the check alone: taxonomies, a register's question, and small ones.
pub fn common() -> Vec<(String, Sheet)> {
    let half = |i: usize| (i - 1) / 2;
    let three = [
        role_rule(P + 1, P, false),
        concept_rule((0, A), (1, P + 1)),
        concept_rule((0, A + 1), (1, P + 1)),
    ];
    let question = Query::new(&[0], &[Atom::role(P + 1, 0, 1), Atom::role(P, 0, 1)]);
    let one = [concept_rule((0, A), (1, P))];
    vec![
        (
            "taxonomy, one below each",
            taxonomy(MOST_MEMBERS, |i| i - 1),
        ),
        ("taxonomy, two below each", taxonomy(MOST_MEMBERS, half)),
        ("taxonomy, one level", taxonomy(MOST_MEMBERS, |_| 0)),
        ("taxonomy, 341 names", taxonomy(341, |i| (i - 1) / 4)),
        ("taxonomy, 64 names", taxonomy(64, half)),
        ("taxonomy, 8 names", taxonomy(8, half)),
        ("joined, 20 names each", joined(20, 400)),
        ("joined, 8 names each", joined(8, 0)),
        ("three rules", made(&three, question, Numbering::Kept, 9)),
        (
            "one rule",
            made(
                &one,
                Query::new(&[0], &[Atom::role(P, 0, 1)]),
                Numbering::Kept,
                9,
            ),
        ),
        (
            "no rule",
            made(
                &[],
                Query::new(&[0], &[Atom::concept(A, 0)]),
                Numbering::Kept,
                9,
            ),
        ),
    ]
    .into_iter()
    .map(|(name, sheet)| (name.to_string(), sheet))
    .collect()
}
