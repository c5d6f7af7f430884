//! Sheets by chance: few names, so that rules, question and facts have to do with each other; roles of all three kinds of the
//! partner table; rules that run in circles, pairs among them; unions made by closing the question under all steps.

use crate::chance::Chance;
use crate::helpers::Helpers;
use crate::make_pairs;
use crate::rewrite;
use crate::rule_sheet::{as_read, Written};
use crate::sheets::{Atom, Description, Fact, Question, Rule, Step, Term, MOST_MEMBERS};
use crate::write::Draft;

pub struct Names {
    pub concepts: Vec<u16>,
    pub roles: Vec<u16>,
    pub objects: Vec<u16>,
}

fn role(chance: &mut Chance) -> u16 {
    match chance.below(3) {
        0 => chance.of(&[0, 2, 4, 6]),
        1 => chance.from(8, 15) as u16,
        _ => chance.of(&[16, 17, 18, 100, 2048, 4095]),
    }
}

/// An object, at times at an edge; lost tags, and what is beside them, have this weight against 12.
fn object(lost: usize, chance: &mut Chance) -> u16 {
    match chance.weighed(&[9, 3, lost]) {
        0 => chance.from(0, 9) as u16,
        1 => chance.of(&[0, 1, 31, 256, 65_023]),
        _ => chance.of(&[65_023, 65_024, 65_024, 65_025, 65_300, 65_534, 65_535, 65_535]),
    }
}

pub fn names(chance: &mut Chance) -> Names {
    let roles: Vec<u16> = (0..1 + chance.weighed(&[4, 4, 2])).map(|_| role(chance)).collect();
    let mut concepts = Vec::new();
    for _ in 0..1 + chance.weighed(&[3, 4, 3]) {
        // at times a concept has the number of a role
        let concept = if chance.one_in(3) {
            chance.of(&roles)
        } else {
            chance.of(&[0, 1, 2, 3, 5, 4095])
        };
        concepts.push(concept);
    }
    let lost = chance.of(&[0, 0, 2, 6]);
    let objects = (0..chance.from(1, 6)).map(|_| object(lost, chance)).collect();
    Names {
        concepts,
        roles,
        objects,
    }
}

pub fn description(names: &Names, chance: &mut Chance) -> Description {
    match chance.below(3) {
        0 => Description::Concept(chance.of(&names.concepts)),
        1 => Description::To(chance.of(&names.roles)),
        _ => Description::From(chance.of(&names.roles)),
    }
}

pub fn rule(names: &Names, chance: &mut Chance) -> Rule {
    if chance.one_in(4) {
        let (left, right) = (chance.of(&names.roles), chance.of(&names.roles));
        Rule::Implies {
            left,
            right,
            exchanged: chance.one_in(2),
        }
    } else {
        Rule::Bears(description(names, chance), description(names, chance))
    }
}

/// Two rules that go round for ever once something bears the concept.
fn circle(names: &Names, chance: &mut Chance) -> [Rule; 2] {
    let concept = Description::Concept(chance.of(&names.concepts));
    let role = chance.of(&names.roles);
    match chance.one_in(2) {
        true => [
            Rule::Bears(concept, Description::To(role)),
            Rule::Bears(Description::From(role), concept),
        ],
        false => [
            Rule::Bears(concept, Description::From(role)),
            Rule::Bears(Description::To(role), concept),
        ],
    }
}

fn rules(names: &Names, chance: &mut Chance) -> Vec<Rule> {
    let many = chance.weighed(&[4, 10, 14, 14, 12, 8, 4, 2]);
    let mut rules: Vec<Rule> = (0..many).map(|_| rule(names, chance)).collect();
    if chance.one_in(3) {
        rules.extend(circle(names, chance));
    }
    if !rules.is_empty() && chance.one_in(8) {
        rules.push(chance.of(&rules));
    }
    chance.shuffle(&mut rules);
    rules
}

/// One more atom, beside a role atom at one of its ends: P(x,y) gets P(z,y) or P(x,z) for company, which a merge takes back.
fn fork(atoms: &mut Vec<Atom<Term>>, chance: &mut Chance) {
    let new = Term::Variable(chance.below(32) as u8);
    if atoms.iter().any(|atom| atom.terms().any(|t| t == new)) {
        return;
    }
    if let Atom::Role(p, t, u) = chance.of(atoms) {
        atoms.push(if chance.one_in(2) {
            Atom::Role(p, t, new)
        } else {
            Atom::Role(p, new, u)
        });
    }
}

/// Rules and a question in which some role leads from two or three variables to one that stands nowhere else: only when the atoms
/// are merged is it loose, and only then the first rule applies.
fn forked(names: &Names, chance: &mut Chance) -> (Vec<Rule>, Question) {
    let role = chance.of(&names.roles);
    let to = chance.one_in(2);
    let right = if to {
        Description::To(role)
    } else {
        Description::From(role)
    };
    let mut rules = vec![Rule::Bears(description(names, chance), right)];
    rules.extend((0..chance.below(4)).map(|_| rule(names, chance)));
    chance.shuffle(&mut rules);
    let mut variables: Vec<Term> = (0..=31).map(Term::Variable).collect();
    chance.shuffle(&mut variables);
    let (shared, rest) = variables.split_first().expect("32 variables");
    let prongs = &rest[..chance.from(2, 3)];
    let prong = |&t: &Term| {
        if to {
            Atom::Role(role, t, *shared)
        } else {
            Atom::Role(role, *shared, t)
        }
    };
    let mut atoms: Vec<Atom<Term>> = prongs.iter().map(prong).collect();
    for _ in 0..chance.below(3) {
        let atom = match chance.one_in(2) {
            true => Atom::Concept(chance.of(&names.concepts), chance.of(prongs)),
            false => Atom::Role(chance.of(&names.roles), chance.of(prongs), rest[chance.from(3, 4)]),
        };
        if !atoms.contains(&atom) {
            atoms.push(atom);
        }
    }
    chance.shuffle(&mut atoms);
    let answers = (0..chance.below(4)).map(|_| chance.of(prongs)).collect();
    (rules, Question { answers, atoms })
}

/// A question that meets none of 3 to 5.
pub fn question(names: &Names, chance: &mut Chance) -> Question {
    let many = 1 + chance.weighed(&[15, 30, 25, 15, 6, 4, 3, 2]);
    let mut variables: Vec<u8> = (0..=31).collect();
    if chance.one_in(2) {
        chance.shuffle(&mut variables);
    }
    variables.truncate(chance.from(1, many + 1));
    let one_object_in = chance.of(&[4, 10, 10, 1000]);
    let term = |chance: &mut Chance| match chance.one_in(one_object_in) {
        true => Term::Object(chance.of(&names.objects)),
        false => Term::Variable(chance.of(&variables)),
    };
    let one_concept_in = chance.of(&[2, 3, 5]);
    let mut atoms = Vec::new();
    for _ in 0..4 * many {
        let atom = if chance.one_in(one_concept_in) {
            Atom::Concept(chance.of(&names.concepts), term(chance))
        } else {
            Atom::Role(chance.of(&names.roles), term(chance), term(chance))
        };
        if atoms.len() < many && !atoms.contains(&atom) {
            atoms.push(atom);
        }
    }
    if atoms.len() < 8 && chance.one_in(3) {
        fork(&mut atoms, chance);
    }
    let standing: Vec<Term> = atoms
        .iter()
        .flat_map(|a| a.terms())
        .filter(|t| matches!(t, Term::Variable(_)))
        .collect();
    let answers = (0..chance.weighed(&[25, 35, 20, 10, 10]))
        .map(|_| match standing.is_empty() || chance.one_in(10) {
            true => Term::Object(chance.of(&names.objects)),
            false => chance.of(&standing),
        })
        .collect();
    Question { answers, atoms }
}

fn facts(names: &Names, many: usize, chance: &mut Chance) -> Vec<Fact> {
    let mut facts: Vec<Fact> = Vec::new();
    for _ in 0..many {
        let (first, second) = (chance.of(&names.objects), chance.of(&names.objects));
        let fact = match chance.one_in(2) {
            true => Atom::Concept(chance.of(&names.concepts), first),
            false => Atom::Role(chance.of(&names.roles), first, second),
        };
        facts.push(if !facts.is_empty() && chance.one_in(12) {
            chance.of(&facts)
        } else {
            fact
        });
    }
    facts
}

/// Facts that a member's question matches.
pub fn matched_by(question: &Question, objects: &[u16], chance: &mut Chance) -> Vec<Fact> {
    let distinct = chance.one_in(2);
    let one_lost_in = chance.of(&[2, 4, 1000]);
    let images: Vec<u16> = (0..32)
        .map(|x| match distinct {
            true if chance.one_in(one_lost_in) => 65_024 + x,
            true => 40 + x,
            false => chance.of(objects),
        })
        .collect();
    let image = |term: Term| match term {
        Term::Variable(x) => images[x as usize],
        Term::Object(object) => object,
    };
    question.atoms.iter().map(|atom| atom.map(image)).collect()
}

/// Whether a merge, and a rule after it, led to this member.
fn rule_after_merge(members: &[(Step, Question)], mut at: usize) -> bool {
    let by_rule = members[at].0.kind == 1;
    while at > 0 && members[at].0.kind != 2 {
        at = members[at].0.parent as usize;
    }
    by_rule && at > 0
}

/// Facts by chance, and at times such that a later member has an answer, one that needs a merge if there is one. No fact may have a
/// helper, so a member that uses one is passed over.
pub fn some_facts(names: &Names, helpers: Helpers, members: &[(Step, Question)], chance: &mut Chance) -> Vec<Fact> {
    let wish = chance.below(4);
    let open = (1..members.len()).filter(|&m| !helpers.stand_in(&members[m].1.atoms));
    let open = Vec::from_iter(open);
    let mut later = open.clone();
    later.retain(|&m| rule_after_merge(members, m));
    if wish < 2 || later.is_empty() {
        later = open;
    }
    if wish == 0 || later.is_empty() {
        let many = chance.weighed(&[1, 3, 3, 3, 2, 2, 2, 2, 2, 1, 1, 1, 1]);
        return facts(names, many, chance);
    }
    let mut all = facts(names, chance.below(4), chance);
    all.extend(matched_by(&members[chance.of(&later)].1, &names.objects, chance));
    chance.shuffle(&mut all);
    all
}

/// The same question with its variables renamed one to one and its atoms in another order.
pub fn dressed(question: Question, chance: &mut Chance) -> Question {
    let mut targets: Vec<u8> = (0..=31).collect();
    let renames = !chance.one_in(4);
    if renames {
        chance.shuffle(&mut targets);
    }
    let rename = |term: Term| match term {
        Term::Variable(x) => Term::Variable(targets[x as usize]),
        object => object,
    };
    let mut atoms: Vec<_> = question.atoms.into_iter().map(|atom| atom.map(rename)).collect();
    if !chance.one_in(4) {
        chance.shuffle(&mut atoms);
    }
    Question {
        answers: question.answers.into_iter().map(rename).collect(),
        atoms,
    }
}

/// The union of a question, members in an order and dress by chance; none if it has more than `most` members.
pub fn union(question: &Question, rules: &[Rule], most: usize, chance: &mut Chance) -> Option<Vec<(Step, Question)>> {
    let seed = chance.bits();
    let by_turns = chance.one_in(3);
    let mut turns = Chance::new(seed);
    let mut pick = |many: usize| if by_turns { many - 1 } else { turns.below(many) };
    rewrite::closure(question, rules, true, most, &mut pick, &mut |q| dressed(q, chance))
}

/// Names, rules over them and a question.
pub type Plan = (Names, Vec<Written>, Question);

pub fn plan(chance: &mut Chance) -> Plan {
    let mut names = names(chance);
    let pairs = make_pairs::how_many(chance);
    make_pairs::leave_helpers(&mut names, pairs, chance);
    let usual = match chance.one_in(5) {
        true => forked(&names, chance),
        false => (rules(&names, chance), question(&names, chance)),
    };
    let (rules, question) = make_pairs::with_pairs(pairs, &names, usual, chance);
    (names, rules, question)
}

/// Sheets that are accepted, with these rules and this question; none if the union has more than `most` members.
fn closed((names, rules, question): Plan, most: usize, chance: &mut Chance) -> Option<Draft> {
    let members = union(&question, &as_read(&rules), most, chance)?;
    let facts = some_facts(&names, Helpers::of(&rules), &members, chance);
    Some(Draft {
        rules,
        question,
        members,
        facts,
    })
}

/// Sheets that are accepted.
pub fn draft(chance: &mut Chance) -> Draft {
    loop {
        let plan = plan(chance);
        let most = if chance.one_in(40) { MOST_MEMBERS } else { 48 };
        if let Some(draft) = closed(plan, most, chance) {
            return draft;
        }
    }
}

/// Sheets that are accepted, with at most so many atoms in a question and so many members.
pub fn small_draft(most_atoms: usize, most_members: usize, chance: &mut Chance) -> Draft {
    loop {
        let plan = plan(chance);
        if plan.2.atoms.len() <= most_atoms {
            if let Some(draft) = closed(plan, most_members, chance) {
                return draft;
            }
        }
    }
}
