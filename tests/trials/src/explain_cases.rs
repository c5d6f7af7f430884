//! Sheets for explaining: unions in any order and dress, and facts for a member that has many steps behind it, merges and rules of pairs
//! among them.

use crate::chance::Chance;
use crate::damage;
use crate::damage_bytes;
use crate::helpers::Helpers;
use crate::join::variables;
use crate::make::{self, matched_by};
use crate::make_pairs::in_some_direction;
use crate::many_members::{fork, taxonomy, Plan};
use crate::refusals::{Sheets, ORDER};
use crate::rule_sheet::{as_read, pairs, plain, Written};
use crate::sheets::{Atom, Description, Fact, Question, Rule, Step, Term, MOST_MEMBERS};
use crate::unions::reached;
use crate::write::Draft;

/// Plans whose unions have more members than this are made anew.
const MOST: usize = 48;
/// One in so many turns has a union of 512 members, one after the other.
const ONE_LONGEST_IN: u64 = 200;
/// One in so many others is damaged, half of the time so that a helper is a role.
const ONE_DAMAGED_IN: u64 = 4;
/// One in so many lacks a fact, so that there may be no answer.
const ONE_LACKING_IN: usize = 6;
/// Objects with one byte and with two, some of them lost tags or beside these.
const OBJECTS: [u16; 8] = [3, 5, 7, 300, 4_660, 65_023, 65_024, 65_535];

/// A rung of a ladder: a concept or "has a role", no two alike.
fn rungs(many: usize, chance: &mut Chance) -> Vec<Description> {
    let rung = |i: usize, chance: &mut Chance| match chance.one_in(2) {
        true => Description::Concept(20 + i as u16),
        false => in_some_direction(20 + i as u16, chance),
    };
    (0..many).map(|i| rung(i, chance)).collect()
}

/// What a description says of a term, another term being the something.
fn said(description: Description, term: Term, other: Term) -> Atom<Term> {
    match description {
        Description::Concept(a) => Atom::Concept(a, term),
        Description::To(p) => Atom::Role(p, term, other),
        Description::From(p) => Atom::Role(p, other, term),
    }
}

/// Each rung bears the one before it, which the question asks of some variable; beside it there may be an atom that no rule is about.
fn ladder(chance: &mut Chance) -> Plan {
    let rungs = rungs(chance.from(4, 9), chance);
    let mut rules = Vec::from_iter(rungs.windows(2).map(|pair| Rule::Bears(pair[1], pair[0])));
    chance.shuffle(&mut rules);
    let x = |chance: &mut Chance| Term::Variable(chance.below(6) as u8);
    let (asked, beside) = (x(chance), x(chance));
    let mut atoms = vec![said(rungs[0], asked, Term::Variable(31))];
    match chance.below(3) {
        0 => atoms.push(Atom::Concept(10, beside)),
        1 => atoms.push(Atom::Role(10, asked, beside)),
        _ => {}
    }
    let answers = vec![asked; chance.below(3)];
    (plain(&rules), Question { answers, atoms })
}

/// The question with two atoms more that differ in a variable alone, so that two renamings fit every step that leaves both.
fn with_twins((rules, mut question): Plan, chance: &mut Chance) -> Plan {
    let standing = variables(&question.atoms);
    let free = Vec::from_iter((0..32).filter(|x| !standing.contains(x)).map(Term::Variable));
    if question.atoms.len() > 6 || standing.is_empty() {
        return (rules, question);
    }
    let x = Term::Variable(chance.of(&Vec::from_iter(standing)));
    let (at, role) = (chance.below(free.len() - 1), in_some_direction(3_000, chance));
    for twin in &free[at..at + 2] {
        let place = chance.from(0, question.atoms.len());
        question.atoms.insert(place, said(role, x, *twin));
    }
    (rules, question)
}

/// Rules and question of the usual kind, with a pair if that is asked for.
fn usual(with_pair: bool, chance: &mut Chance) -> Plan {
    loop {
        let (_, rules, question) = make::plan(chance);
        if !with_pair || pairs(&rules) > 0 {
            return (rules, question);
        }
    }
}

fn plan(turn: u64, chance: &mut Chance) -> Plan {
    match turn % 8 {
        0 | 1 => fork(chance.from(10, 30), chance),
        2 => usual(false, chance),
        3 | 4 => usual(true, chance),
        5 => taxonomy(chance.from(4, 30), chance),
        6 => ladder(chance),
        _ => {
            let plan = ladder(chance);
            with_twins(plan, chance)
        }
    }
}

/// How many steps each member has behind it.
fn depths(members: &[(Step, Question)]) -> Vec<usize> {
    let mut depths = vec![0];
    for (step, _) in &members[1..] {
        depths.push(depths[step.parent as usize] + 1);
    }
    depths
}

/// Of three members by chance the one with most steps behind it, none of them with a helper, which no fact may have.
fn deep_member(members: &[(Step, Question)], helpers: Helpers, chance: &mut Chance) -> usize {
    let depths = depths(members);
    let open = |&m: &usize| !helpers.stand_in(&members[m].1.atoms);
    let open = Vec::from_iter((0..members.len()).filter(open));
    let three = [chance.of(&open), chance.of(&open), chance.of(&open)];
    three.into_iter().max_by_key(|&m| depths[m]).unwrap_or(0)
}

/// Facts that one such member matches, or two, and at times all of them but one.
fn facts(members: &[(Step, Question)], helpers: Helpers, chance: &mut Chance) -> Vec<Fact> {
    let mut facts = Vec::new();
    for _ in 0..chance.from(1, 2) {
        let member = deep_member(members, helpers, chance);
        facts.extend(matched_by(&members[member].1, &OBJECTS, chance));
    }
    chance.shuffle(&mut facts);
    if chance.one_in(ONE_LACKING_IN) {
        facts.pop();
    }
    facts
}

/// The union of a plan as the register writes it, or in any order and dress; none if it has too many members.
fn union((rules, question): &Plan, chance: &mut Chance) -> Option<Vec<(Step, Question)>> {
    let rules = as_read(rules);
    match chance.one_in(4) {
        true => Some(reached(question, &rules, MOST + 1)).filter(|members| members.len() <= MOST),
        false => make::union(question, &rules, MOST, chance),
    }
}

fn draft(turn: u64, chance: &mut Chance) -> Draft {
    loop {
        let plan = plan(turn, chance);
        if let Some(members) = union(&plan, chance) {
            let (rules, question) = plan;
            let facts = facts(&members, Helpers::of(&rules), chance);
            return Draft {
                rules,
                question,
                members,
                facts,
            };
        }
    }
}

/// 512 concepts, each below the one before it, and facts about the last and another: steps, members and rules of two bytes.
fn longest(chance: &mut Chance) -> Draft {
    let concept = |number: usize| Description::Concept(number as u16);
    let rule = |number: usize| Written::Plain(Rule::Bears(concept(number + 1), concept(number)));
    let mut rules = Vec::from_iter((0..MOST_MEMBERS - 1).map(rule));
    chance.shuffle(&mut rules);
    let variable = Term::Variable(chance.below(32) as u8);
    let question = Question {
        answers: vec![variable; chance.from(0, 2)],
        atoms: vec![Atom::Concept(0, variable)],
    };
    let members = make::union(&question, &as_read(&rules), MOST_MEMBERS, chance).expect("as many members as concepts");
    let fact = |number: usize, object: u16| Atom::Concept(number as u16, object);
    let last = MOST_MEMBERS - 1;
    Draft {
        facts: vec![fact(last, 5), fact(chance.from(250, last), 300)],
        rules,
        question,
        members,
    }
}

/// What damage is aimed at.
fn aim(chance: &mut Chance) -> u32 {
    match chance.one_in(2) {
        true => 18,
        false => chance.of(&ORDER),
    }
}

/// The sheets of this turn.
pub fn sheets(seed: u64, turn: u64) -> Sheets {
    let chance = &mut Chance::new(seed.wrapping_mul(9_000_011).wrapping_add(turn));
    if turn % ONE_LONGEST_IN == ONE_LONGEST_IN - 1 {
        return longest(chance).sheets(chance);
    }
    let mut draft = draft(turn, chance);
    // by turns of eight, so that plans of every kind are damaged
    if turn / 8 % ONE_DAMAGED_IN != 0 {
        return draft.sheets(chance);
    }
    let aim = aim(chance);
    let is_made = damage::draft(aim, &mut draft, chance);
    let mut sheets = draft.sheets(chance);
    if !is_made {
        damage_bytes::bytes(aim, &mut sheets, chance);
    }
    sheets
}
