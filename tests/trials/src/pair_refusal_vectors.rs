//! Tests of 17 and 18 in the second implementation: each cause, the near misses beside them, and the order of the numbers.

use crate::causes::{of_17, CAUSES_OF_17};
use crate::chance::Chance;
use crate::helpers::{clashes, Place};
use crate::pair_vectors::{qualified, F, G, Q};
use crate::refusals::{check, conditions, draw, finds_a_tuple, Sheets};
use crate::rewrite::plain_closure;
use crate::rule_sheet::{self, as_read, Record, Written};
use crate::sheets::{Atom, Description, Fact, Question};
use crate::unions::union;
use crate::vectors::{bears, implies, implies_either_way, question, A, B, P};
use crate::write::{self, record};
use Description::{Concept, From, To};

#[test]
fn each_cause_of_17_alone() {
    let other = record(1, (0, A), (0, B));
    let role = record(3, (0, A), (1, P));
    let filler = record(4, (0, F), (0, 0));
    let left = |form: u32| record(3, (form, A), (1, P));
    let right = |form: u32| record(3, (0, A), (form, P));
    let sheets = [
        vec![other, role],
        vec![role, other],
        vec![role, role, filler],
        vec![filler, other],
        vec![other, filler],
        vec![role, filler, filler],
        vec![left(3), filler],
        vec![right(0), filler],
        vec![right(3), filler],
        vec![role, record(4, (2, F), (0, 0))],
        vec![role, record(4, (0, F), (1, 0))],
        vec![role, record(4, (0, F), (0, 2048))],
        [vec![other; 510], vec![role, filler]].concat(),
        [vec![other; 508], vec![role, filler, role, filler]].concat(),
    ];
    for (i, records) in sheets.iter().enumerate() {
        let bytes = write::records(records);
        assert_eq!(rule_sheet::conditions(&bytes), [17], "{}", CAUSES_OF_17[i].1);
        assert_eq!(of_17(&bytes), [i], "{}", CAUSES_OF_17[i].1);
    }
    for form in 0..3 {
        let bytes = write::records(&[left(form), filler, record(3, (form, A), (2, P)), filler]);
        assert!(rule_sheet::rules(&bytes).is_ok());
        assert!(of_17(&bytes).is_empty());
    }
}

#[test]
fn exactly_512_rules_as_read_pass() {
    let other = record(2, (0, P), (1, Q));
    let pair = [record(3, (0, A), (1, P)), record(4, (0, F), (0, 0))];
    let sheet = |others: usize, many: usize| [vec![other; others], pair.repeat(many)].concat();
    let number = |records: &[Record]| rule_sheet::rules(&write::records(records)).err();
    for (others, many) in [(509, 1), (512, 0), (2, 170), (506, 2)] {
        assert_eq!(number(&sheet(others, many)), None, "{others} and {many}");
    }
    for (others, many) in [(510, 1), (0, 171), (507, 2), (0, 256)] {
        assert_eq!(number(&sheet(others, many)), Some(17), "{others} and {many}");
    }
    // the length comes first
    assert_eq!(number(&sheet(511, 1)), Some(1));
}

#[test]
fn other_kinds_are_judged_first_wherever_they_stand() {
    let role = record(3, (0, A), (1, P));
    let filler = record(4, (0, F), (0, 0));
    for bad in [
        record(5, (0, A), (0, B)),
        record(0, (0, 0), (0, 0)),
        record(2, (1, P), (0, Q)),
        record(1, (3, A), (0, B)),
    ] {
        for records in [
            vec![role, bad],
            vec![bad, filler],
            vec![filler, bad],
            vec![role, bad, filler],
        ] {
            assert_eq!(rule_sheet::conditions(&write::records(&records)), [2, 17]);
        }
        let beside_a_pair = [role, filler, bad];
        assert_eq!(rule_sheet::conditions(&write::records(&beside_a_pair)), [2]);
    }
}

/// Sheets with the question's own union.
fn closed(rules: &[Written], question: &Question, facts: &[Fact]) -> Sheets {
    let chance = &mut Chance::new(1);
    let members = plain_closure(question, &as_read(rules), true, 512).expect("few members");
    Sheets {
        rules: write::rules(rules, chance),
        question: write::question(question, chance),
        union: write::union(&members, chance),
        facts: write::facts(facts, chance),
    }
}

/// The numbers of checking, drawing and writing.
fn numbers(sheets: &Sheets) -> [u32; 3] {
    let checked = check(sheets).err().unwrap_or(0);
    let drawn = draw(sheets, 1_000).err().unwrap_or(0);
    let written = union(&sheets.rules, &sheets.question).err();
    assert_eq!(conditions(sheets).first().copied().unwrap_or(0), drawn);
    [checked, drawn, written.map_or(0, |(number, _)| number)]
}

fn some_question() -> Question {
    question("x", &[(P, "xy"), (F, "y")])
}

#[test]
fn each_cause_of_18_alone() {
    let pair = qualified(Concept(A), To(P), F);
    let rules = [
        (bears(To(4095), Concept(B)), Place::LeftOf1),
        (bears(From(4095), Concept(B)), Place::LeftOf1),
        (bears(Concept(B), To(4095)), Place::RightOf1),
        (bears(Concept(B), From(4095)), Place::RightOf1),
        (implies(4095, Q), Place::LeftOf2),
        (implies_either_way(Q, 4095, true), Place::RightOf2),
        (qualified(To(4095), To(Q), G), Place::LeftOf3),
        (qualified(From(4094), To(Q), G), Place::LeftOf3),
        (qualified(Concept(B), From(4094), G), Place::OwnRoleOf3),
        (qualified(Concept(B), To(4095), G), Place::EarlierRoleOf3),
    ];
    for (rule, place) in rules {
        let rules = [pair, rule];
        assert_eq!(clashes(&rules, Some(&some_question()), None), [place], "{rule:?}");
        let sheets = closed(&rules, &some_question(), &[Fact::Concept(A, 5)]);
        assert_eq!(numbers(&sheets), [18; 3], "{rule:?}");
    }
    let later = [qualified(Concept(B), To(4094), G), pair];
    assert_eq!(clashes(&later, None, None), [Place::LaterRoleOf3]);
    assert_eq!(numbers(&closed(&later, &some_question(), &[])), [18; 3]);
    let asked = question("x", &[(P, "xy"), (4095, "yz")]);
    assert_eq!(clashes(&[pair], Some(&asked), None), [Place::Question]);
    assert_eq!(numbers(&closed(&[pair], &asked, &[])), [18; 3]);
    // a fact is none of checking's and writing's sheets
    let facts = [Fact::Concept(A, 5), Fact::Role(4095, 5, 6)];
    assert_eq!(clashes(&[pair], Some(&some_question()), Some(&facts)), [Place::Fact]);
    assert_eq!(numbers(&closed(&[pair], &some_question(), &facts)), [0, 18, 0]);
}

#[test]
fn near_misses_of_18() {
    let pair = qualified(Concept(4095), To(4094), 4095);
    let others = [
        bears(Concept(4095), Concept(B)),
        implies(4094, Q),
        bears(To(4094), To(4094)),
    ];
    let asked = question("x", &[(4094, "xy"), (4095, "y")]);
    let facts = [Fact::Concept(4095, 5), Fact::Role(4094, 5, 6)];
    let sheets = closed(&[&[pair], &others[..]].concat(), &asked, &facts);
    // concepts, a filler and the role next below have such numbers, and members use the helper
    assert_eq!(numbers(&sheets), [0; 3]);
    let members = check(&sheets).ok().expect("accepted").members;
    let uses = |atom: &Atom<_>| matches!(atom, Atom::Role(4095, _, _));
    assert!(members.iter().any(|member| member.question.atoms.iter().any(uses)));
    // a second pair makes it a helper
    let second = [pair, qualified(Concept(A), To(P), F)];
    assert_eq!(clashes(&second, None, None), [Place::LaterRoleOf3]);
    // without pairs every role is free
    let free = [bears(To(4095), From(4095)), implies(4095, P)];
    let facts = [Fact::Role(4095, 5, 6)];
    assert_eq!(numbers(&closed(&free, &question("x", &[(4095, "xy")]), &facts)), [0; 3]);
}

#[test]
fn the_order_of_17_and_18() {
    let pair = qualified(Concept(A), To(P), F);
    let clash = [pair, bears(To(4095), Concept(F))];
    let facts = [Fact::Concept(A, 5)];
    let sound = closed(&clash, &some_question(), &facts);
    assert_eq!(numbers(&sound), [18; 3]);
    // 14 holds of an empty list, and 18 comes before it
    assert!(finds_a_tuple(&sound));
    let with = |change: fn(&mut Sheets)| {
        let mut sheets = sound.clone();
        change(&mut sheets);
        numbers(&sheets)
    };
    // 17 comes before 3, 3 before 18
    assert_eq!(with(|sheets| sheets.rules.truncate(4)), [17; 3]);
    let truncated = |sheets: &mut Sheets| {
        sheets.rules.truncate(4);
        sheets.question.truncate(9);
    };
    assert_eq!(with(truncated), [17; 3]);
    assert_eq!(with(|sheets| sheets.question.truncate(9)), [3; 3]);
    // an open union is 11, whatever the numbers
    let open = closed(&[], &some_question(), &[]).union;
    let opened = Sheets {
        union: open,
        ..sound.clone()
    };
    assert_eq!(numbers(&opened), [11, 11, 18]);
    // facts that cannot be read come before a clash in rules
    assert_eq!(with(|sheets| sheets.facts.push(0)), [18, 12, 18]);
    assert_eq!(with(|sheets| sheets.facts[0] |= 0x40), [18, 13, 18]);
}

#[test]
fn a_clash_comes_before_too_many_questions() {
    let concept_rules = |(above, many): (u16, u16)| (1..many).map(move |below| (above + below, above));
    let factors = [(100, 24), (200, 24)];
    let tree = factors.into_iter().flat_map(concept_rules);
    let mut rules = Vec::from_iter(tree.map(|(below, above)| bears(Concept(below), Concept(above))));
    let asked = question("x", &[(100, "x"), (200, "x")]);
    let number = |rules: &[Written]| {
        let chance = &mut Chance::new(1);
        union(&write::rules(rules, chance), &write::question(&asked, chance)).err()
    };
    assert_eq!(number(&rules), Some((15, false)));
    rules.push(qualified(Concept(A), To(P), F));
    assert_eq!(number(&rules), Some((15, false)));
    rules.push(bears(To(4095), Concept(B)));
    assert_eq!(number(&rules), Some((18, false)));
}
