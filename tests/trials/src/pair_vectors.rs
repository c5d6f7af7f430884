//! Tests of pairs in the second implementation (T-04 of the change requests): how they are read, and rounds and unions worked out by hand.

use crate::cards::hex;
use crate::chance::Chance;
use crate::chase::Held;
use crate::make::small_draft;
use crate::refusals::by_rounds;
use crate::rule_sheet::{self, as_read, pairs, plain, RuleSheet, Written};
use crate::sheets::{Atom, Description, Fact, Question, Rule};
use crate::union_vectors::writes;
use crate::vectors::{bears, closes_to, implies, question, A, B, P};
use crate::write;
use Description::{Concept, From, To};

pub const F: u16 = 30;
pub const G: u16 = 31;
pub const Q: u16 = 17;

pub fn qualified(left: Description, right: Description, filler: u16) -> Written {
    Written::Qualified { left, right, filler }
}

fn held(rules: &[Written], facts: &[Fact]) -> Held {
    Held::rounds(rules, facts, 4, 1_000).expect("few things")
}

/// How many tuples the question has in the rounds from A(5).
fn from_a(rules: &[Written], question: &Question) -> usize {
    held(rules, &[Fact::Concept(A, 5)]).tuples(question).len()
}

fn read(bytes: &str) -> Result<RuleSheet, u32> {
    rule_sheet::rules(&hex(bytes))
}

#[test]
fn each_pump_has_a_motor_that_is_a_drive() {
    // pump 20, has part 5, motor 21: each pump is what something is part of, 4, and that is a motor
    let sheet = read("30 05 10 05  40 05 40 00").unwrap();
    assert_eq!(sheet.written, [qualified(Concept(20), From(4), 21)]);
    let expected = [
        bears(Concept(20), From(4095)),
        implies(4095, 4),
        bears(To(4095), Concept(21)),
    ];
    assert_eq!(plain(&sheet.read), expected);
    let has_motor = question("x", &[(4, "yx"), (21, "y")]);
    let pump = [Fact::Concept(20, 7)];
    assert_eq!(
        by_rounds(&sheet.written, &has_motor, &pump, 100),
        Some([vec![7]].into())
    );
    // without the filler, a part and no motor
    let role_only = sheet.written[0].without_filler();
    assert_eq!(role_only, bears(Concept(20), From(4)));
    assert_eq!(by_rounds(&[role_only], &has_motor, &pump, 100), Some([].into()));
}

#[test]
fn partners_turn_helper_and_far_end_and_never_the_implication() {
    // drives (0) to something, and driven by (1) from something: one rule in two spellings
    let to = read("30 00 50 00  40 07 80 00").unwrap();
    let turned = read("30 00 60 01  40 07 80 00").unwrap();
    assert_eq!(to.written, [qualified(Concept(1), To(0), F)]);
    assert_eq!(to.written, turned.written);
    let three = [
        bears(Concept(1), To(4095)),
        implies(4095, 0),
        bears(From(4095), Concept(F)),
    ];
    assert_eq!(plain(&to.read), three);
    assert_eq!(plain(&turned.read), three);
    // the other way round
    let from = read("30 00 50 01  40 07 80 00").unwrap();
    let three = [
        bears(Concept(1), From(4095)),
        implies(4095, 0),
        bears(To(4095), Concept(F)),
    ];
    assert_eq!(plain(&from.read), three);
    // the left side as in kind 1: who is driven by something drives something that is an F
    let left = read("34 00 50 00  40 07 80 00  38 00 10 10  40 07 80 00").unwrap();
    assert_eq!(
        left.written,
        [qualified(From(0), To(0), F), qualified(From(0), To(16), F)]
    );
}

#[test]
fn helpers_are_numbered_down_in_sheet_order_and_indices_count_rules_as_read() {
    let rules = [
        bears(Concept(A), Concept(B)),
        qualified(Concept(A), To(P), F),
        implies(P, Q),
        qualified(To(Q), From(P), G),
    ];
    let expected = [
        bears(Concept(A), Concept(B)),
        bears(Concept(A), To(4095)),
        implies(4095, P),
        bears(From(4095), Concept(F)),
        implies(P, Q),
        bears(To(Q), From(4094)),
        implies(4094, P),
        bears(To(4094), Concept(G)),
    ];
    assert_eq!(plain(&as_read(&rules)), expected);
    let bytes = write::rules(&rules, &mut Chance::new(1));
    assert_eq!(bytes.len(), 4 * 6);
    assert_eq!(rule_sheet::rules(&bytes).unwrap().written, rules);
}

#[test]
fn role_and_filler_are_of_one_thing() {
    let both = question("", &[(P, "xy"), (F, "y")]);
    assert_eq!(from_a(&[qualified(Concept(A), To(P), F)], &both), 1);
    assert_eq!(from_a(&[qualified(Concept(A), From(P), F)], &both), 0);
    let from = question("", &[(P, "yx"), (F, "y")]);
    assert_eq!(from_a(&[qualified(Concept(A), From(P), F)], &from), 1);
    // it is the thing's own filler, and the bearer has none
    assert_eq!(
        from_a(
            &[qualified(Concept(A), To(P), F)],
            &question("", &[(P, "xy"), (F, "x")])
        ),
        0
    );
    // two rules give two things
    let two = [bears(Concept(A), To(Q)), qualified(Concept(A), To(P), F)];
    assert_eq!(from_a(&two, &question("", &[(Q, "xy"), (F, "y")])), 0);
    assert_eq!(from_a(&two, &question("", &[(Q, "xy"), (P, "xz"), (F, "z")])), 1);
    let fillers = [qualified(Concept(A), To(P), F), qualified(Concept(A), To(P), G)];
    assert_eq!(from_a(&fillers, &question("", &[(P, "xy"), (F, "y"), (G, "y")])), 0);
    assert_eq!(
        from_a(&fillers, &question("", &[(P, "xy"), (F, "y"), (P, "xz"), (G, "z")])),
        1
    );
    let plain_too = [bears(Concept(A), To(P)), qualified(Concept(A), To(P), F)];
    let facts = [Fact::Concept(A, 5)];
    let things = held(&plain_too, &facts).fitting(Atom::Role(P, None, None));
    assert_eq!(things.len(), 2);
    assert_eq!(
        held(&plain_too, &facts)
            .fitting(Atom::<Option<u32>>::Concept(F, None))
            .len(),
        1
    );
    // and no helper stands in the rounds
    assert!(held(&plain_too, &facts)
        .fitting(Atom::Role(4095, None, None))
        .is_empty());
}

#[test]
fn role_and_filler_come_in_one_round_and_lead_on() {
    // the filler leads to a thing further down, the role back to the bearer
    let rules = [
        qualified(Concept(A), To(P), F),
        qualified(Concept(F), From(Q), G),
        bears(To(P), Concept(B)),
    ];
    let chain = question("x", &[(P, "xy"), (F, "y"), (Q, "zy"), (G, "z"), (B, "x")]);
    let facts = [Fact::Concept(A, 5)];
    assert_eq!(held(&rules, &facts).tuples(&chain), [vec![5]].into());
    assert!(!held(&rules, &facts).never_end(&rules));
}

#[test]
fn rounds_that_never_end_by_a_pair() {
    let rules = [qualified(Concept(A), To(P), A)];
    let facts = [Fact::Concept(A, 5)];
    let chain = question("x", &[(P, "xy"), (P, "yz"), (P, "zw"), (P, "wv")]);
    assert!(held(&rules, &facts).never_end(&rules));
    assert_eq!(held(&rules, &facts).tuples(&chain), [vec![5]].into());
    let role_only = [rules[0].without_filler()];
    assert!(!held(&role_only, &facts).never_end(&role_only));
    assert!(held(&role_only, &facts).tuples(&chain).is_empty());
    let two = [qualified(Concept(A), To(P), B), qualified(Concept(B), From(Q), A)];
    assert!(held(&two, &facts).never_end(&two));
    assert!(!held(&two, &[Fact::Concept(G, 5)]).never_end(&two));
}

#[test]
fn a_union_over_a_helper_by_hand() {
    let h = 4095;
    let rules = [qualified(Concept(A), To(P), F)];
    let members = [
        ((0, 0, 0, 0), question("x", &[(P, "xy"), (F, "y")])),
        ((1, 0, 0, 1), question("x", &[(h, "xy"), (F, "y")])),
        ((1, 0, 1, 2), question("x", &[(P, "xy"), (h, "zy")])),
        ((1, 1, 1, 2), question("x", &[(h, "xy"), (h, "zy")])),
        ((2, 3, 0, 1), question("x", &[(h, "xy")])),
        ((1, 4, 0, 0), question("x", &[(A, "x")])),
    ];
    writes(&rules, &members);
    // as the answer is the thing itself, no object will do, and the steps end with the helper
    let thing = [
        question("y", &[(P, "xy"), (F, "y")]),
        question("y", &[(h, "xy"), (F, "y")]),
        question("y", &[(P, "xy"), (h, "zy")]),
        question("y", &[(h, "xy"), (h, "zy")]),
        question("y", &[(h, "xy")]),
    ];
    closes_to(&rules, thing[0].clone(), &thing);
}

#[test]
fn the_three_rules_lead_to_the_same_answers_as_the_direct_rounds() {
    let chance = &mut Chance::new(11);
    let (mut met, mut answered) = (0, 0);
    while met < 1_500 {
        let draft = small_draft(5, 48, chance);
        if pairs(&draft.rules) == 0 {
            continue;
        }
        let by = |rules: &[Written]| by_rounds(rules, &draft.question, &draft.facts, 2_000);
        let direct = by(&draft.rules);
        if let (Some(direct), Some(by_three)) = (direct, by(&plain(&as_read(&draft.rules)))) {
            met += 1;
            answered += usize::from(!direct.is_empty());
            assert_eq!(direct, by_three, "{draft:?}");
        }
    }
    assert!(answered > 500, "{answered}");
}

#[test]
fn a_pair_is_one_rule_of_two_records() {
    let rule = Written::Plain(Rule::Bears(Concept(A), To(P)));
    assert!(!rule.is_qualified());
    assert_eq!(pairs(&[rule, qualified(Concept(A), To(P), F)]), 1);
    let bytes = write::rules(&[qualified(Concept(A), To(P), F)], &mut Chance::new(1));
    assert_eq!(bytes, hex("30 00 50 10  40 07 80 00"));
}
