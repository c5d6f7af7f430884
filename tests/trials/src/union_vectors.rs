//! Tests of writing in the second implementation: unions worked out by hand from 02's sentences, and the edges.

use crate::cards::{cards, hex};
use crate::chance::Chance;
use crate::many_members::{fork, taxonomy};
use crate::refusals::{check, Sheets};
use crate::rule_sheet::{as_read, Written};
use crate::sheets::{Description, Question, Step};
use crate::unions::{reached, refused, union, Union};
use crate::vectors::{bears, implies, question, A, B, P};
use crate::write;
use Description::{Concept, From, To};

/// A step: kind, parent, atom, other.
pub fn step((kind, parent, atom, other): (u8, u16, u8, u16)) -> Step {
    Step {
        kind,
        parent,
        atom,
        other,
    }
}

/// The union has these members with these steps, in this order and written so.
pub fn writes(rules: &[Written], expected: &[((u8, u16, u8, u16), Question)]) {
    let expected: Vec<(Step, Question)> = expected.iter().map(|(s, q)| (step(*s), q.clone())).collect();
    assert_eq!(reached(&expected[0].1, &as_read(rules), 512), expected);
    let chance = &mut Chance::new(1);
    let sheets = Sheets {
        rules: write::rules(rules, chance),
        question: write::question(&expected[0].1, chance),
        union: write::union_as_read(&expected),
        facts: vec![],
    };
    assert!(check(&sheets).is_ok());
}

fn packed((rules, question): (Vec<Written>, Question)) -> Result<Union, (u32, bool)> {
    let chance = &mut Chance::new(1);
    union(&write::rules(&rules, chance), &write::question(&question, chance))
}

#[test]
fn card_1_and_cases_of_t_02_are_written_as_they_are_stored() {
    let stored = cards()
        .into_iter()
        .filter(|card| card.name == "K1" || card.name.starts_with("T02-"));
    for card in stored {
        let written = union(&card.sheets.rules, &card.sheets.question).ok().expect("a union");
        assert_eq!(written.bytes, card.sheets.union, "{}", card.name);
    }
}

#[test]
fn card_3() {
    let members = [
        ((0, 0, 0, 0), question("x", &[(P, "xy"), (P, "zy")])),
        ((2, 0, 0, 1), question("x", &[(P, "xy")])),
        ((1, 1, 0, 0), question("x", &[(A, "x")])),
    ];
    writes(&[bears(Concept(A), To(P))], &members);
}

#[test]
fn card_5() {
    let rules = [bears(Concept(A), To(P)), bears(From(P), Concept(A))];
    let members = [
        ((0, 0, 0, 0), question("", &[(P, "xy"), (P, "yz")])),
        ((1, 0, 1, 0), question("", &[(P, "xy"), (A, "y")])),
        ((2, 0, 0, 1), question("", &[(P, "xx")])),
        ((1, 1, 1, 1), question("", &[(P, "xy"), (P, "zy")])),
        ((2, 3, 0, 1), question("", &[(P, "xy")])),
        ((1, 4, 0, 0), question("", &[(A, "x")])),
    ];
    writes(&rules, &members);
}

#[test]
fn card_6() {
    let alone = [((0, 0, 0, 0), question("xy", &[(P, "xy")]))];
    writes(&[bears(Concept(A), To(P))], &alone);
}

#[test]
fn atoms_come_before_rules_and_rules_before_pairs() {
    let (c, d) = (3, 4);
    let rules = [bears(Concept(c), Concept(B)), bears(Concept(d), Concept(A))];
    let members = [
        ((0, 0, 0, 0), question("x", &[(A, "x"), (B, "x"), (B, "y")])),
        ((1, 0, 0, 1), question("x", &[(d, "x"), (B, "x"), (B, "y")])),
        ((1, 0, 1, 0), question("x", &[(A, "x"), (c, "x"), (B, "y")])),
        ((1, 0, 2, 0), question("x", &[(A, "x"), (B, "x"), (c, "y")])),
        ((2, 0, 1, 2), question("x", &[(A, "x"), (B, "x")])),
    ];
    let expected = members.map(|(s, q)| (step(s), q));
    assert_eq!(reached(&expected[0].1, &as_read(&rules), 5), expected);
}

#[test]
fn a_result_that_is_appended_counts_at_once() {
    // both rules make the same of the atom, and the second result is alike to the first
    let rules = [implies(9, P), implies(9, P), bears(To(P), To(P))];
    let members = [
        ((0, 0, 0, 0), question("x", &[(P, "xy")])),
        ((1, 0, 0, 0), question("x", &[(9, "xy")])),
    ];
    writes(&rules, &members);
}

#[test]
fn merges_are_named_by_02() {
    // the lowest variable of three, an object before a variable, answer terms too
    let three = question("y", &[(P, "zw"), (P, "wy")]);
    writes(
        &[],
        &[((0, 0, 0, 0), three), ((2, 0, 0, 1), question("y", &[(P, "yy")]))],
    );
    let object = question("x", &[(P, "x5"), (P, "yy")]);
    writes(
        &[],
        &[((0, 0, 0, 0), object), ((2, 0, 0, 1), question("5", &[(P, "55")]))],
    );
    // a changed atom keeps its place, and of equal atoms the first stays
    let places = question("", &[(A, "z"), (P, "yz"), (P, "yx"), (A, "x")]);
    let merged = reached(&places, &[], 2);
    assert_eq!(merged[1].0, step((2, 0, 0, 3)));
    assert_eq!(merged[1].1, question("", &[(A, "x"), (P, "yx")]));
    let changed = question("x", &[(A, "x"), (P, "xx"), (B, "x")]);
    let by_rule = ((1, 0, 0, 0), question("x", &[(B, "x"), (P, "xx")]));
    writes(&[bears(Concept(B), Concept(A))], &[((0, 0, 0, 0), changed), by_rule]);
}

#[test]
fn a_fresh_variable_is_the_lowest_that_stands_nowhere() {
    // x and z stand, so y is fresh although the step takes v away
    let from = question("xz", &[(P, "xv"), (A, "z")]);
    let made = ((1, 0, 0, 0), question("xz", &[(9, "xy"), (A, "z")]));
    writes(&[bears(To(9), To(P))], &[((0, 0, 0, 0), from), made]);
}

#[test]
fn roles_are_written_as_read() {
    // driven by(x,y) is drives(y,x)
    let written = union(&[], &hex("11 00 00 00  80 04 00 00 00 01"))
        .ok()
        .expect("a union");
    let expected = hex("00 01  00 00 00 00  11 00 00 00  80 00 00 02 00 00");
    assert_eq!(written.bytes, expected);
}

#[test]
fn the_edges_of_the_sheet() {
    let written = packed((vec![], question("x", &[(P, "xy")]))).ok().expect("a union");
    let length = written.bytes.len();
    assert_eq!(length, 2 + 4 + 1 + 3 + 6);
    assert_eq!(written.outcome(length - 1), refused(16, length - 1));
    assert_eq!(written.outcome(0), refused(16, 0));
    let fits = written.outcome(length);
    assert_eq!((fits.number, fits.count, fits.length), (0, 1, length as u64));
    let longer = written.outcome(length + 3);
    assert_eq!(longer.length, length as u64);
    assert_eq!(longer.sheet, [written.bytes, vec![0; 3]].concat());
}

#[test]
fn exactly_512_are_allowed() {
    let chance = &mut Chance::new(5);
    for plan in [taxonomy(512, chance), fork(512, chance)] {
        let written = packed(plan).ok().expect("a union");
        assert_eq!(written.outcome(33_282).count, 512);
    }
    for plan in [taxonomy(513, chance), fork(513, chance)] {
        assert_eq!(packed(plan).err(), Some((15, true)));
    }
}

#[test]
fn merges_are_needed_where_rules_alone_reach_less() {
    let rules = vec![bears(Concept(A), To(P))];
    let forked = packed((rules.clone(), question("x", &[(P, "xy"), (P, "zy")])));
    assert!(forked.ok().expect("a union").needs_merge());
    let plain = packed((rules, question("x", &[(P, "xy")])));
    assert!(!plain.ok().expect("a union").needs_merge());
}
