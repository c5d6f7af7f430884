//! Sheets at the limits: the largest union, as many rules and facts as there may be, atoms that all look alike.

use crate::chance::Chance;
use crate::helpers::{clashes, Helpers};
use crate::make::{draft, dressed, names, rule, some_facts, union};
use crate::rule_sheet::{pairs, plain, Written, MOST_RULES};
use crate::sheets::{Atom, Description, Question, Rule, Term, MOST_MEMBERS};
use crate::write::Draft;

/// Eight concepts of one variable, each reached from others: 2 x 2 x 2 x 2 x 2 x 2 x 2 x 4 = 512 members, the most there may be.
pub fn widest(chance: &mut Chance) -> Draft {
    let concept = Description::Concept;
    let mut rules: Vec<Rule> = (0..8).map(|a| Rule::Bears(concept(100 + a), concept(a))).collect();
    rules.push(Rule::Bears(concept(200), concept(7)));
    rules.push(Rule::Bears(concept(300), concept(7)));
    let variable = Term::Variable(chance.below(32) as u8);
    let question = Question {
        answers: vec![variable],
        atoms: (0..8).map(|a| Atom::Concept(a, variable)).collect(),
    };
    let facts = (0..8)
        .map(|a| Atom::Concept(if chance.one_in(2) { a } else { 100 + a }, 9))
        .collect();
    let members = union(&question, &rules, MOST_MEMBERS, chance).expect("512 members and no more");
    Draft {
        rules: plain(&rules),
        question,
        members,
        facts,
    }
}

/// A question whose atoms all look alike: edges of one role apart from each other, or in one or two rings.
pub fn look_alike(chance: &mut Chance) -> Draft {
    loop {
        let names = names(chance);
        let role = chance.of(&names.roles);
        let many = chance.from(2, 8) as u8;
        let ring = chance.from(1, many as usize) as u8;
        let apart = chance.one_in(2);
        let next = |x: u8| match x {
            _ if apart => x + 16,
            _ if x + 1 == ring => 0,
            _ if x + 1 == many => ring,
            _ => x + 1,
        };
        let atoms = (0..many)
            .map(|x| Atom::Role(role, Term::Variable(x), Term::Variable(next(x))))
            .collect();
        let question = dressed(Question { answers: vec![], atoms }, chance);
        let rules: Vec<Rule> = (0..chance.below(3)).map(|_| rule(&names, chance)).collect();
        if let Some(members) = union(&question, &rules, MOST_MEMBERS, chance) {
            let facts = some_facts(&names, Helpers::of(&[]), &members, chance);
            return Draft {
                rules: plain(&rules),
                question,
                members,
                facts,
            };
        }
    }
}

/// A rule that changes nothing: no question has its right side.
fn idle(number: usize) -> Written {
    let idle = 3000 + number as u16;
    Written::Plain(Rule::Bears(
        Description::Concept(idle),
        Description::Concept(idle + 512),
    ))
}

/// As many rules as there may be: those of a small draft among others that change nothing.
pub fn most_rules(chance: &mut Chance) -> Draft {
    let mut draft = draft(chance);
    for number in draft.rules_as_read().len()..MOST_RULES {
        draft.rules.push(idle(number));
    }
    draft
}

/// The same with pairs, which are three rules each as read: few pairs, or as many as there may be.
pub fn most_rules_with_pairs(chance: &mut Chance) -> Draft {
    loop {
        let mut draft = draft(chance);
        let mut read = draft.rules_as_read().len();
        let many = chance.of(&[1, 3, 60, MOST_RULES]);
        while pairs(&draft.rules) < many && read + 3 <= MOST_RULES {
            draft.rules.push(Written::Qualified {
                left: Description::Concept(3000 + read as u16),
                right: chance.of(&[Description::To(2_900), Description::From(2_900)]),
                filler: 2_901,
            });
            read += 3;
        }
        draft.rules.extend((read..MOST_RULES).map(idle));
        // a role of the draft may be a helper now
        if clashes(&draft.rules, Some(&draft.question), Some(&draft.facts)).is_empty() {
            return draft;
        }
    }
}

/// As many facts as there may be, most of them repeated, with a question of one or two atoms.
pub fn most_facts(chance: &mut Chance) -> Draft {
    let mut draft = loop {
        let draft = draft(chance);
        if draft.question.atoms.len() <= 2 && !draft.facts.is_empty() {
            break draft;
        }
    };
    while draft.facts.len() < 10_000 {
        let fact = chance.of(&draft.facts);
        let object = if chance.one_in(200) {
            chance.from(0, 65535) as u16
        } else {
            fact.terms().next().unwrap_or(0)
        };
        draft.facts.push(match fact {
            Atom::Concept(a, _) => Atom::Concept(a, object),
            Atom::Role(p, _, u) => Atom::Role(p, object, u),
        });
    }
    chance.shuffle(&mut draft.facts);
    draft
}

/// Hundreds or thousands of answers: one concept, one role, or every pair of two concepts' bearers, by a rule in part.
pub fn many_answers(chance: &mut Chance) -> Draft {
    let (a, b, p) = (1, 2, chance.of(&[0, 8, 16]));
    let (x, y) = (Term::Variable(3), Term::Variable(0));
    let (answers, atoms, many) = match chance.below(3) {
        0 => (vec![x], vec![Atom::Concept(a, x)], chance.from(200, 3_000)),
        1 => (vec![x, y, x], vec![Atom::Role(p, x, y)], chance.from(200, 2_000)),
        _ => (
            vec![y, x],
            vec![Atom::Concept(a, x), Atom::Concept(b, y)],
            chance.from(30, 90),
        ),
    };
    let rules = vec![
        Rule::Bears(Description::Concept(77), Description::Concept(a)),
        Rule::Implies {
            left: 77,
            right: p,
            exchanged: true,
        },
    ];
    let question = Question { answers, atoms };
    let mut facts = Vec::new();
    for _ in 0..many {
        let (one, two) = (chance.below(65_536) as u16, chance.below(65_536) as u16);
        facts.push(match chance.of(&question.atoms) {
            Atom::Concept(c, _) => Atom::Concept(if c == a && chance.one_in(2) { 77 } else { c }, one),
            Atom::Role(r, _, _) => Atom::Role(if chance.one_in(2) { 77 } else { r }, one, two),
        });
    }
    let members = union(&question, &rules, MOST_MEMBERS, chance).expect("few members");
    Draft {
        rules: plain(&rules),
        question,
        members,
        facts,
    }
}
