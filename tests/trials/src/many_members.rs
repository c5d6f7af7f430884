//! Rules and questions that lead to about 512 unlike questions, or to many more: for the union that the register writes, and for 15.

use crate::chance::Chance;
use crate::make;
use crate::rule_sheet::{as_read, plain, Written, MOST_RULES};
use crate::sheets::{Atom, Description, Question, Rule, Term};
use crate::unions::reached;

/// Rules, and a question for them.
pub type Plan = (Vec<Written>, Question);

/// So many names, none twice, as they are read: the higher of two partners is left out.
fn names(many: usize, chance: &mut Chance) -> Vec<u16> {
    let mut all: Vec<u16> = (0..4096).filter(|name| ![1, 3, 5, 7].contains(name)).collect();
    chance.shuffle(&mut all);
    if chance.one_in(2) {
        // among them some that have a partner
        let at = all.iter().position(|name| *name == 2).expect("one of the names");
        all.swap(at, 0);
    }
    all.truncate(many);
    all
}

/// Variables, none twice.
fn variables(many: usize, chance: &mut Chance) -> Vec<Term> {
    let mut all: Vec<Term> = (0..=31).map(Term::Variable).collect();
    chance.shuffle(&mut all);
    all.truncate(many);
    all
}

/// Each name but the first with one before it: far or near, so that some trees are wide and some deep.
fn tree(names: &[u16], chance: &mut Chance) -> Vec<(u16, u16)> {
    let near = chance.of(&[1, 3, 40, 600]);
    let above = |i: usize, chance: &mut Chance| names[chance.from(i.saturating_sub(near), i - 1)];
    (1..names.len()).map(|i| (names[i], above(i, chance))).collect()
}

/// The rules in another order, and at times one of them again, but no pair: that would have a helper of its own.
fn in_some_order(mut rules: Vec<Written>, chance: &mut Chance) -> Vec<Written> {
    if as_read(&rules).len() < MOST_RULES && !rules.is_empty() && chance.one_in(3) {
        let again = chance.of(&rules);
        rules.extend((!again.is_qualified()).then_some(again));
    }
    if !chance.one_in(4) {
        chance.shuffle(&mut rules);
    }
    rules
}

fn concept_rules(tree: Vec<(u16, u16)>) -> impl Iterator<Item = Written> {
    let rule = |(below, above)| Rule::Bears(Description::Concept(below), Description::Concept(above));
    tree.into_iter().map(rule).map(Written::Plain)
}

/// One atom, and a tree of names below its own: as many members as names.
pub fn taxonomy(many: usize, chance: &mut Chance) -> Plan {
    let names = names(many, chance);
    let tree = tree(&names, chance);
    let ends = variables(2, chance);
    if chance.one_in(2) {
        let question = Question {
            answers: vec![ends[0]; chance.below(3)],
            atoms: vec![Atom::Concept(names[0], ends[0])],
        };
        return (in_some_order(concept_rules(tree).collect(), chance), question);
    }
    let second = chance.of(&[ends[0], ends[1], Term::Object(65_535)]);
    let question = Question {
        answers: vec![ends[0]; chance.below(2)],
        atoms: vec![Atom::Role(names[0], ends[0], second)],
    };
    let mut rules = Vec::new();
    for (left, right) in tree {
        let exchanged = chance.one_in(2);
        rules.push(Rule::Implies { left, right, exchanged });
    }
    (in_some_order(plain(&rules), chance), question)
}

/// Two or three atoms of one role that lead to or from one thing, which only a merge makes loose.
#[derive(Clone, Copy)]
struct Fork {
    prongs: usize,
    answers: usize,
    /// Whether "has the role" is a pair, so that the thing bears a filler, and whether the filler is asked for.
    qualified: bool,
    filler_asked: bool,
}

/// A fork, and a tree of so many names below "has the role".
fn fork_of(many: usize, fork: Fork, chance: &mut Chance) -> Plan {
    // beside a pair, 4,095 is a helper, and the next below is none
    let highest = if fork.qualified { 4094 } else { 4095 };
    let (role, to) = (chance.of(&[0, 2, 8, 16, highest]), chance.one_in(2));
    let ends = variables(fork.prongs + 1, chance);
    let shared = ends[fork.prongs];
    let atom = |&end: &Term| match to {
        true => Atom::Role(role, end, shared),
        false => Atom::Role(role, shared, end),
    };
    let mut names = names(many + 1, chance);
    let filler = names.pop().expect("one more than many");
    let mut atoms: Vec<Atom<Term>> = ends[..fork.prongs].iter().map(atom).collect();
    atoms.extend(fork.filler_asked.then_some(Atom::Concept(filler, shared)));
    let right = match to {
        true => Description::To(role),
        false => Description::From(role),
    };
    let left = Description::Concept(names[0]);
    let mut rules = vec![match fork.qualified {
        true => Written::Qualified { left, right, filler },
        false => Written::Plain(Rule::Bears(left, right)),
    }];
    rules.extend(concept_rules(tree(&names, chance)));
    let answers = ends[..fork.answers].to_vec();
    (in_some_order(rules, chance), Question { answers, atoms })
}

/// A fork with so many members: one name is tried first, and each further name is one more member.
pub fn fork(many: usize, chance: &mut Chance) -> Plan {
    let (prongs, qualified) = (chance.from(2, 3), chance.one_in(2));
    let fork = Fork {
        prongs,
        answers: chance.from(0, prongs),
        qualified,
        filler_asked: qualified && chance.one_in(2),
    };
    let (rules, question) = fork_of(1, fork, chance);
    let others = reached(&question, &as_read(&rules), many).len() - 1;
    fork_of(many - others, fork, chance)
}

/// Concepts with so many names each, their own among them: as many members as the product says.
fn product_of(factors: &[usize], chance: &mut Chance) -> Plan {
    let names = names(factors.iter().sum(), chance);
    let variables = variables(chance.from(1, factors.len()), chance);
    let mut rest = &names[..];
    let (mut rules, mut atoms) = (Vec::new(), Vec::new());
    for &factor in factors {
        let (own, others) = rest.split_at(factor);
        rest = others;
        rules.extend(concept_rules(tree(own, chance)));
        atoms.push(Atom::Concept(own[0], chance.of(&variables)));
    }
    let standing = atoms[0].terms().next().expect("a concept has a term");
    let answers = vec![standing; chance.below(3)];
    (in_some_order(rules, chance), Question { answers, atoms })
}

/// Factors, at most so many, multiplied by each other in some way.
fn joined(mut factors: Vec<usize>, most: usize, chance: &mut Chance) -> Vec<usize> {
    let many = chance.from(1, most);
    while factors.len() > many {
        let last = factors.pop().expect("more than one");
        let at = chance.below(factors.len());
        factors[at] *= last;
    }
    chance.shuffle(&mut factors);
    factors
}

/// 512 members, by 2 x 2 x .. in up to eight atoms.
pub fn product_512(chance: &mut Chance) -> Plan {
    let factors = joined(vec![2; 9], 8, chance);
    product_of(&factors, chance)
}

/// The longest union: 512 members, each of four answer terms and eight atoms.
pub fn longest(chance: &mut Chance) -> Plan {
    let mut factors = vec![4, 2, 2, 2, 2, 2, 2, 2];
    chance.shuffle(&mut factors);
    let (rules, mut question) = product_of(&factors, chance);
    let standing: Vec<Term> = question.atoms.iter().flat_map(|atom| atom.terms()).collect();
    question.answers = (0..4).map(|_| chance.of(&standing)).collect();
    (rules, question)
}

/// 513 unlike questions, by 3 x 3 x 3 x 19 in up to four atoms.
pub fn product_513(chance: &mut Chance) -> Plan {
    let factors = joined(vec![19, 3, 3, 3], 4, chance);
    product_of(&factors, chance)
}

/// More than 513, by far at times.
pub fn product_of_more(chance: &mut Chance) -> Plan {
    loop {
        let factors: Vec<usize> = (0..chance.from(2, 8)).map(|_| chance.from(2, 40)).collect();
        if factors.iter().product::<usize>() > 513 && factors.iter().sum::<usize>() <= MOST_RULES {
            return product_of(&factors, chance);
        }
    }
}

/// Rules and question by chance that lead to more unlike questions than the usual sheets have.
pub fn wild(chance: &mut Chance) -> Plan {
    loop {
        let (_, rules, question) = make::plan(chance);
        if reached(&question, &as_read(&rules), 49).len() == 49 {
            return (rules, question);
        }
    }
}

/// A plan of one of these kinds, by turns.
pub fn plan(turn: u64, chance: &mut Chance) -> Plan {
    match turn % 12 {
        0 => taxonomy(512, chance),
        1 => taxonomy(513, chance),
        2 => fork(512, chance),
        3 => fork(513, chance),
        4 => product_512(chance),
        5 => product_513(chance),
        6 | 10 => product_of_more(chance),
        7 => taxonomy(chance.from(250, 511), chance),
        8 => fork(chance.from(250, 511), chance),
        9 => longest(chance),
        _ => wild(chance),
    }
}

#[cfg(test)]
mod tests {
    use super::*;
    use crate::rule_sheet::pairs;

    #[test]
    fn plans_have_the_members_that_they_say() {
        for seed in 0..6 {
            let chance = &mut Chance::new(seed);
            for (turn, many) in [(0, 512), (1, 513), (2, 512), (3, 513), (4, 512), (5, 513), (6, 600)] {
                let (rules, question) = plan(turn, chance);
                let rules = as_read(&rules);
                assert!(rules.len() <= MOST_RULES, "{} rules", rules.len());
                let found = reached(&question, &rules, 600).len();
                match turn {
                    6 => assert!(found > 513, "{found}"),
                    _ => assert_eq!(found, many, "turn {turn}, seed {seed}"),
                }
            }
        }
    }

    #[test]
    fn the_longest_union_has_33_282_bytes() {
        let (rules, question) = longest(&mut Chance::new(1));
        let members = reached(&question, &as_read(&rules), 600);
        assert_eq!(crate::write::union_as_read(&members).len(), 33_282);
    }

    #[test]
    fn forks_merge_and_some_are_qualified() {
        let mut qualified = 0;
        for seed in 0..12 {
            let (rules, question) = fork(512, &mut Chance::new(seed));
            let members = reached(&question, &as_read(&rules), 512);
            let merges = members.iter().filter(|(step, _)| step.kind == 2).count();
            assert!(merges >= question.atoms.len() - 1, "{merges}");
            qualified += pairs(&rules);
        }
        assert!(qualified > 1, "{qualified}");
    }
}
