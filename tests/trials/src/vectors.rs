//! Tests of the second implementation itself: the cards, unions that the source documents give, and the places where it is easy
//! to go wrong.

use crate::alike::alike;
use crate::cards::{cards, hex};
use crate::chance::Chance;
use crate::chase::Held;
use crate::refusals::{check, draw, refused, Outcome, Sheets};
use crate::rewrite::{merged, plain_closure};
use crate::rule_sheet::{self, as_read, Written};
use crate::sheets::{self, Atom, Description, Fact, Question, Rule, Term};
use crate::write;
use Description::{Concept, From, To};

pub const A: u16 = 1;
pub const B: u16 = 2;
// one role without a partner, one that is its own, two of the table's pairs
pub const P: u16 = 16;
const R: u16 = 8;
const S: u16 = 0;

pub fn bears(left: Description, right: Description) -> Written {
    Written::Plain(Rule::Bears(left, right))
}

pub fn implies(left: u16, right: u16) -> Written {
    implies_either_way(left, right, false)
}

pub fn implies_either_way(left: u16, right: u16, exchanged: bool) -> Written {
    Written::Plain(Rule::Implies { left, right, exchanged })
}

/// Terms from a letter or a digit: u to z are variables 29 to 31, 0, .. in this order: x is 0; a digit is an object.
fn term(c: char) -> Term {
    match c {
        '0'..='9' => Term::Object(c as u16 - '0' as u16),
        _ => Term::Variable(match c {
            'x' => 0,
            'y' => 1,
            'z' => 2,
            'w' => 3,
            'v' => 31,
            _ => panic!("no term {c}"),
        }),
    }
}

/// A question such as `question("x", &[(P, "xy"), (A, "y")])`: one letter after a number is a concept, two are a role.
pub fn question(answers: &str, atoms: &[(u16, &str)]) -> Question {
    let atom = |&(number, terms): &(u16, &str)| {
        let terms: Vec<Term> = terms.chars().map(term).collect();
        match terms[..] {
            [t] => Atom::Concept(number, t),
            [t, u] => Atom::Role(number, t, u),
            _ => panic!("one or two terms"),
        }
    };
    Question {
        answers: answers.chars().map(term).collect(),
        atoms: atoms.iter().map(atom).collect(),
    }
}

fn outcome(sheets: &Sheets, length: usize) -> Outcome {
    match draw(sheets, 100_000) {
        Err(number) => refused(number, length),
        Ok(drawn) => drawn.expect("few things").outcome(length),
    }
}

#[test]
fn the_cards() {
    for card in cards() {
        let got = outcome(&card.sheets, card.expected.list.len());
        assert_eq!(got, card.expected, "{}", card.name);
    }
}

/// The closure has these members up to renaming and no others; closing again from the packed sheets is accepted.
pub fn closes_to(rules: &[Written], from: Question, members: &[Question]) {
    let closure = plain_closure(&from, &as_read(rules), true, 512).expect("few members");
    for member in members {
        assert_eq!(
            closure.iter().filter(|(_, q)| alike(q, member)).count(),
            1,
            "{member:?} in {closure:?}"
        );
    }
    assert_eq!(closure.len(), members.len(), "{closure:?}");
    let chance = &mut Chance::new(1);
    let sheets = Sheets {
        rules: write::rules(rules, chance),
        question: write::question(&from, chance),
        union: write::union(&closure, chance),
        facts: vec![],
    };
    assert!(check(&sheets).is_ok());
}

#[test]
fn card_5_has_six_members() {
    let rules = [bears(Concept(A), To(P)), bears(From(P), Concept(A))];
    let members = [
        question("", &[(P, "xy"), (P, "yz")]),
        question("", &[(P, "xy"), (A, "y")]),
        question("", &[(P, "xx")]),
        question("", &[(P, "xy"), (P, "wy")]),
        question("", &[(P, "xy")]),
        question("", &[(A, "x")]),
    ];
    closes_to(&rules, members[0].clone(), &members);
}

#[test]
fn source_003_section_3_1() {
    let (teaches, professor, student) = (P, A, B);
    let rules = [
        bears(Concept(professor), To(teaches)),
        bears(From(teaches), Concept(student)),
    ];
    let members = [
        question("x", &[(teaches, "xy"), (student, "y")]),
        question("x", &[(teaches, "xy"), (teaches, "zy")]),
        question("x", &[(teaches, "xy")]),
        question("x", &[(professor, "x")]),
    ];
    closes_to(&rules, members[0].clone(), &members);
}

#[test]
fn source_003_example_1() {
    let members = [
        question("x", &[(R, "xy"), (R, "zy"), (B, "z")]),
        question("x", &[(R, "xy"), (B, "x")]),
        question("x", &[(A, "x"), (B, "x")]),
    ];
    closes_to(&[bears(Concept(A), To(R))], members[0].clone(), &members);
}

#[test]
fn source_003_example_3() {
    let rules = [bears(Concept(A), To(R))];
    let members = [question("x", &[(A, "x"), (R, "xy")]), question("x", &[(A, "x")])];
    closes_to(&rules, members[0].clone(), &members);
    let bound = [question("x", &[(A, "x"), (R, "xy"), (B, "y")])];
    closes_to(&rules, bound[0].clone(), &bound);
}

#[test]
fn source_003_section_2_4() {
    let rules = [bears(Concept(B), To(S)), bears(From(S), Concept(B))];
    let members = [
        question("x", &[(S, "xy"), (S, "yz")]),
        question("x", &[(S, "xy"), (B, "y")]),
        question("x", &[(S, "xy"), (S, "wy")]),
        question("x", &[(S, "xy")]),
        question("x", &[(S, "xx")]),
        question("x", &[(B, "x")]),
        question("x", &[(S, "zx")]),
    ];
    closes_to(&rules, members[0].clone(), &members);
}

#[test]
fn source_004_example_1() {
    let mut rules = vec![implies(S, P), bears(Concept(A), To(S))];
    let mut members = vec![
        question("x", &[(S, "xy"), (P, "xy")]),
        question("x", &[(S, "xy")]),
        question("x", &[(A, "x")]),
    ];
    closes_to(&rules, members[0].clone(), &members);
    rules.push(bears(Concept(B), To(S)));
    members.push(question("x", &[(B, "x")]));
    closes_to(&rules, members[0].clone(), &members);
}

#[test]
fn source_004_example_2() {
    let mut rules = vec![implies(S, P), bears(Concept(A), To(S))];
    let mut members = vec![
        question("x", &[(R, "xy"), (P, "xy")]),
        question("x", &[(R, "xy"), (S, "xy")]),
    ];
    closes_to(&rules, members[0].clone(), &members);
    rules.push(implies(P, R));
    members.push(question("x", &[(P, "xy")]));
    members.push(question("x", &[(P, "xy"), (S, "xy")]));
    members.push(question("x", &[(S, "xy")]));
    members.push(question("x", &[(A, "x")]));
    assert_eq!(members.len(), 6);
    closes_to(&rules, members[0].clone(), &members);
}

#[test]
fn a_loop_is_matched_by_no_unnamed_thing() {
    let rules = [bears(Concept(A), To(P))];
    let loop_ = question("", &[(P, "xx")]);
    closes_to(&rules, loop_.clone(), &[loop_.clone()]);
    let held = Held::rounds(&rules, &[Fact::Concept(A, 5)], 1, 100).expect("few things");
    assert!(held.tuples(&loop_).is_empty());
    assert_eq!(held.tuples(&question("", &[(P, "xy")])).len(), 1);
}

#[test]
fn zero_bits_are_no_variable_0() {
    // answer v1 of P(v1,v0), A(v1)
    let members = [
        question("y", &[(P, "yx"), (A, "y")]),
        question("y", &[(B, "y"), (A, "y")]),
    ];
    closes_to(&[bears(Concept(B), To(P))], members[0].clone(), &members);
}

#[test]
fn merging_reaches_answer_terms() {
    let both = question("xy", &[(A, "x"), (A, "y")]);
    assert_eq!(merged(&both, 0, 1), Some(question("xx", &[(A, "x")])));
    assert_eq!(
        merged(&question("", &[(P, "x5"), (P, "yy")]), 0, 1),
        Some(question("", &[(P, "55")]))
    );
    assert_eq!(merged(&question("", &[(P, "x5"), (P, "x6")]), 0, 1), None);
    assert_eq!(merged(&question("", &[(A, "x"), (B, "x")]), 0, 1), None);
    let three = question("", &[(P, "xy"), (P, "zy"), (P, "wy"), (A, "z"), (A, "x")]);
    assert_eq!(
        merged(&three, 0, 1),
        Some(question("", &[(P, "xy"), (P, "wy"), (A, "x")]))
    );
}

#[test]
fn alike_is_one_to_one() {
    assert!(alike(
        &question("x", &[(P, "xy"), (A, "y")]),
        &question("z", &[(A, "v"), (P, "zv")])
    ));
    assert!(!alike(&question("", &[(P, "xy")]), &question("", &[(P, "xx")])));
    assert!(!alike(&question("", &[(P, "xx")]), &question("", &[(P, "xy")])));
    assert!(!alike(&question("xy", &[(P, "xy")]), &question("yx", &[(P, "xy")])));
    assert!(!alike(&question("", &[(P, "x5")]), &question("", &[(P, "xy")])));
    assert!(!alike(&question("x", &[(P, "xy")]), &question("x", &[(P, "yx")])));
}

#[test]
fn partners_are_read_once() {
    // feeds(3,4) and fed by(4,3) are one fact; roles 8 and 16 stay; a concept's number stays
    let facts = sheets::facts(&hex(
        "80 02 00 03 00 04  80 03 00 04 00 03  80 08 00 04 00 03  00 03 00 04 00 00",
    ))
    .unwrap();
    assert_eq!(facts[0], facts[1]);
    assert_eq!(facts[2], Fact::Role(8, 4, 3));
    assert_eq!(facts[3], Fact::Concept(3, 4));
    // driven by implies fed by: both flip, which is drives implies feeds
    let written = |bytes: &str| rule_sheet::rules(&hex(bytes)).unwrap().written;
    assert_eq!(written("20 00 40 03"), [implies(0, 2)]);
    assert_eq!(written("20 00 40 02"), [implies_either_way(0, 2, true)]);
    // who is driven by something: form 1 of role 1 is form 2 of role 0
    assert_eq!(written("14 00 60 07"), [bears(From(0), To(6))]);
}

#[test]
fn rounds_that_never_end() {
    let rules = [bears(Concept(A), To(P)), bears(From(P), Concept(A))];
    let facts = [Fact::Concept(A, 5)];
    let chain = question("x", &[(P, "xy"), (P, "yz"), (P, "zw"), (P, "wv")]);
    let held = Held::rounds(&rules, &facts, 4, 1000).expect("one chain");
    assert!(held.never_end(&rules));
    assert_eq!(held.tuples(&chain), [vec![5]].into());
    assert!(!Held::rounds(&rules[..1], &facts, 4, 1000)
        .expect("one thing")
        .never_end(&rules[..1]));
    let untouched = [Fact::Concept(B, 5)];
    assert!(!Held::rounds(&rules, &untouched, 4, 1000)
        .expect("one thing")
        .never_end(&rules));
}

#[test]
fn objects_as_answers_need_no_fact() {
    let held = Held::facts(&[Fact::Role(P, 3, 4)]);
    assert_eq!(held.tuples(&question("9x9", &[(P, "xy")])), [vec![9, 3, 9]].into());
    assert!(held.tuples(&question("x", &[(P, "x9")])).is_empty());
    assert_eq!(held.tuples(&question("", &[(P, "34")])).len(), 1);
}
