//! 01's cards and the unions of the source documents, checked from bytes by both.
use super::unions::{concept_rule, made, role_rule, Numbering, Sheet};
use super::words::{Atom, Query, Rule, Term};
use super::{check, Counts, Member};
use crate::proved;

/// A concept's and a role's number that the cards use.
const A: u32 = 1;
const B: u32 = 2;
const P: u32 = 16;
const S: u32 = 17;
const R: u32 = 18;

/// The form of a description: a name, has the role, is reached by the role.
const NAME: u32 = 0;
const HAS: u32 = 1;
const REACHED: u32 = 2;

fn both(name: &str, rules: &[u8], question: &[u8], union: &[u8], expected: u32) {
    let number = proved::check(rules, question, union);
    let plain = check(rules, question, union, &mut Counts::default());
    assert_eq!((number, plain), (expected, expected), "card {name}");
    println!("card {name}: {number}");
}

/// A card whose union is made by the steps: the number of its members, then the check of the whole, then of it without its last member.
fn vector(name: &str, rules: &[Rule], answers: &[Term], atoms: &[Atom], members: usize) {
    let sheet = made(rules, Query::new(answers, atoms), Numbering::Kept, 512);
    assert_eq!(sheet.members.len(), members, "members of {name}");
    let bytes = sheet.bytes();
    both(name, &bytes.rules, &bytes.question, &bytes.union, 0);
    if members > 1 {
        let short = Sheet {
            members: sheet.members[..members - 1].to_vec(),
            ..sheet
        };
        let bytes = short.bytes();
        both(
            &format!("{name}, one short"),
            &bytes.rules,
            &bytes.question,
            &bytes.union,
            11,
        );
    }
}

/// The cards of tests/vectors, and K1 with a sheet missing.
fn cards() {
    for case in vectors::all() {
        let number = case.checked();
        both(&case.name, &case.rules, &case.question, &case.union, number);
    }
    let k1 = vectors::case("K1");
    both("no question", &k1.rules, &[], &k1.union, 3);
    both("no union", &k1.rules, &k1.question, &[], 6);
}

/// A union written by hand, with the steps beside its members.
fn written(name: &str, rules: &[Rule], members: &[(u32, Query)], expected: u32) {
    let member = |&(step, query): &(u32, Query)| Member { step, query };
    let sheet = Sheet {
        rules: rules.to_vec(),
        members: members.iter().map(member).collect(),
        closed: expected == 0,
    };
    let bytes = sheet.bytes();
    both(name, &bytes.rules, &bytes.question, &bytes.union, expected);
}

fn by_rule(parent: u32, atom: u32, rule: u32) -> u32 {
    1 << 30 | parent << 20 | atom << 16 | rule
}

fn by_merge(parent: u32, atom: u32, other: u32) -> u32 {
    2 << 30 | parent << 20 | atom << 16 | other
}

fn k3_to_k6() {
    let p = |x, y| Atom::role(P, x, y);
    let a = |x| Atom::concept(A, x);
    let has = [concept_rule((NAME, A), (HAS, P))];
    let k3 = [
        (0, Query::new(&[0], &[p(0, 1), p(2, 1)])),
        (by_merge(0, 0, 1), Query::new(&[0], &[p(0, 1)])),
        (by_rule(1, 0, 0), Query::new(&[0], &[a(0)])),
    ];
    written("K3", &has, &k3, 0);
    written("K4", &has, &k3[..1], 11);
    let loops = [has[0], concept_rule((REACHED, P), (NAME, A))];
    let k5 = [
        (0, Query::new(&[], &[p(0, 1), p(1, 2)])),
        (by_rule(0, 1, 0), Query::new(&[], &[p(0, 1), a(1)])),
        (by_merge(0, 0, 1), Query::new(&[], &[p(0, 0)])),
        (by_rule(1, 1, 1), Query::new(&[], &[p(0, 1), p(2, 1)])),
        (by_merge(3, 0, 1), Query::new(&[], &[p(0, 1)])),
        (by_rule(4, 0, 0), Query::new(&[], &[a(0)])),
    ];
    written("K5", &loops, &k5, 0);
    written("K5, one short", &loops, &k5[..5], 11);
    written("K6", &has, &[(0, Query::new(&[0, 1], &[p(0, 1)]))], 0);
}

fn made_unions() {
    let p = |x, y| Atom::role(P, x, y);
    let s = |x, y| Atom::role(S, x, y);
    let r = |x, y| Atom::role(R, x, y);
    let a = |x| Atom::concept(A, x);
    let b = |x| Atom::concept(B, x);
    let has = concept_rule((NAME, A), (HAS, P));
    let student = [has, concept_rule((REACHED, P), (NAME, B))];
    vector("003, 3.1", &student, &[0], &[p(0, 1), b(1)], 4);
    vector("003, example 1", &[has], &[0], &[p(0, 1), p(2, 1), b(2)], 3);
    vector("003, example 3, first", &[has], &[0], &[a(0), p(0, 1)], 2);
    vector(
        "003, example 3, second",
        &[has],
        &[0],
        &[a(0), p(0, 1), b(1)],
        1,
    );
    let round = [
        concept_rule((NAME, B), (HAS, S)),
        concept_rule((REACHED, S), (NAME, B)),
    ];
    vector("003, 2.4", &round, &[0], &[s(0, 1), s(1, 2)], 7);
    let mut first = vec![role_rule(S, P, false), concept_rule((NAME, A), (HAS, S))];
    vector("004, example 1", &first, &[0], &[s(0, 1), p(0, 1)], 3);
    first.push(concept_rule((NAME, B), (HAS, S)));
    vector(
        "004, example 1, appended",
        &first,
        &[0],
        &[s(0, 1), p(0, 1)],
        4,
    );
    let mut second = vec![role_rule(S, P, false), concept_rule((NAME, A), (HAS, S))];
    vector("004, example 2", &second, &[0], &[r(0, 1), p(0, 1)], 2);
    second.push(role_rule(P, R, false));
    vector(
        "004, example 2, appended",
        &second,
        &[0],
        &[r(0, 1), p(0, 1)],
        6,
    );
    vector("loop", &[has], &[], &[p(0, 0)], 1);
    vector(
        "zero bits",
        &[concept_rule((NAME, B), (HAS, P))],
        &[1],
        &[p(1, 0), a(1)],
        2,
    );
}

pub fn run() {
    cards();
    k3_to_k6();
    made_unions();
}
