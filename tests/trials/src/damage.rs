//! Damage to sheets before they are packed, aimed at a refusal. What a damaged sheet then meets is judged on its bytes alone: the
//! aim is no claim.

use crate::chance::Chance;
use crate::damage_pairs;
use crate::make::dressed;
use crate::rewrite;
use crate::rule_sheet::Written;
use crate::sheets::{Atom, Description, Question, Rule, Step, Term};
use crate::write::Draft;

/// A variable or an object by chance.
fn any_term(chance: &mut Chance) -> Term {
    match chance.one_in(3) {
        true => Term::Object(chance.below(10) as u16),
        false => Term::Variable(chance.below(32) as u8),
    }
}

fn absent_variable(question: &Question, chance: &mut Chance) -> Term {
    loop {
        let variable = Term::Variable(chance.below(32) as u8);
        if !question.atoms.iter().any(|atom| atom.terms().any(|t| t == variable)) {
            return variable;
        }
    }
}

/// An answer variable that stands in no atom. One already there is replaced, so that the count stays, unless there is none.
pub fn lose_answer(question: &mut Question, chance: &mut Chance) {
    let absent = absent_variable(question, chance);
    if question.answers.is_empty() {
        question.answers.push(absent);
    } else {
        let at = chance.below(question.answers.len());
        question.answers[at] = absent;
    }
}

/// One atom twice.
pub fn repeat_atom(question: &mut Question, chance: &mut Chance) {
    if question.atoms.is_empty() {
        return;
    }
    let atom = chance.of(&question.atoms);
    if question.atoms.len() < 8 {
        let at = chance.from(0, question.atoms.len());
        question.atoms.insert(at, atom);
    } else {
        let at = chance.below(8);
        question.atoms[at] = atom;
    }
}

/// Another number of answer terms, the question still sound by itself.
fn other_count(question: &mut Question, chance: &mut Chance) {
    if question.answers.len() == 4 || (!question.answers.is_empty() && chance.one_in(2)) {
        question.answers.pop();
    } else {
        question.answers.push(Term::Object(7));
    }
}

/// A near miss of alike: one variable for two, two for one, or two that change places in one atom or in the answer terms.
pub fn rename_badly(question: &mut Question, chance: &mut Chance) {
    let is_variable = |t: &Term| matches!(t, Term::Variable(_));
    let standing: Vec<Term> = question
        .atoms
        .iter()
        .flat_map(|atom| atom.terms())
        .filter(is_variable)
        .collect();
    if standing.is_empty() {
        return;
    }
    let (one, two) = (chance.of(&standing), chance.of(&standing));
    let exchange = |t: Term| match t {
        _ if t == one => two,
        _ if t == two => one,
        _ => t,
    };
    let at = chance.below(question.atoms.len());
    match chance.below(4) {
        0 | 1 => {
            let join = |t: Term| if t == one { two } else { t };
            question.answers = question.answers.iter().copied().map(join).collect();
            question.atoms = question.atoms.iter().map(|atom| atom.map(join)).collect();
        }
        2 => {
            let new = absent_variable(question, chance);
            question.atoms[at] = question.atoms[at].map(|t| if t == one { new } else { t });
        }
        _ if chance.one_in(2) => question.atoms[at] = question.atoms[at].map(exchange),
        _ => question.answers = question.answers.iter().copied().map(exchange).collect(),
    }
}

/// A change of one place of a question, small enough to be overlooked.
pub fn change_place(question: &mut Question, chance: &mut Chance) {
    if question.atoms.is_empty() {
        return;
    }
    let at = chance.below(question.atoms.len());
    let atom = question.atoms[at];
    match chance.below(10) {
        0 => {
            question.atoms[at] = match atom {
                Atom::Concept(a, t) => Atom::Concept(a ^ 1, t),
                Atom::Role(p, t, u) => Atom::Role(p ^ 2, t, u),
            }
        }
        1 | 2 => {
            let place = chance.below(2);
            let new = any_term(chance);
            let mut index = 0;
            question.atoms[at] = atom.map(|t| {
                index += 1;
                if index - 1 == place {
                    new
                } else {
                    t
                }
            });
        }
        3 | 4 => {
            let terms: Vec<Term> = question.atoms.iter().flat_map(|atom| atom.terms()).collect();
            let (new, place) = (chance.of(&terms), chance.below(2));
            let mut index = 0;
            question.atoms[at] = atom.map(|t| {
                index += 1;
                if index - 1 == place {
                    new
                } else {
                    t
                }
            });
        }
        5 => {
            if let Atom::Role(p, t, u) = atom {
                question.atoms[at] = Atom::Role(p, u, t);
            }
        }
        6 if question.atoms.len() > 1 => {
            question.atoms.remove(at);
        }
        7 if question.atoms.len() < 8 => {
            let new = match atom {
                Atom::Concept(a, _) => Atom::Concept(a, any_term(chance)),
                Atom::Role(p, t, _) => Atom::Role(p, t, any_term(chance)),
            };
            question.atoms.push(new);
        }
        8 if question.answers.len() > 1 => chance.shuffle(&mut question.answers),
        9 if !question.answers.is_empty() => {
            let terms: Vec<Term> = question.atoms.iter().flat_map(|atom| atom.terms()).collect();
            let at = chance.below(question.answers.len());
            question.answers[at] = chance.of(&terms);
        }
        _ => {
            question.atoms[at] = match atom {
                Atom::Concept(a, t) => Atom::Role(a, t, t),
                Atom::Role(p, t, _) => Atom::Concept(p, t),
            }
        }
    }
}

/// A count out of range in a question that is whole otherwise: 5 or more answer terms, no atom, or 9 or more.
fn count_out_of_range(question: &mut Question, chance: &mut Chance) {
    let more = chance.weighed(&[6, 1, 1, 1, 1, 1, 1]);
    match chance.below(3) {
        0 => question.answers.resize(5 + more, Term::Object(7)),
        1 => question.atoms.clear(),
        _ => {
            let new = (question.atoms.len()..9 + more).map(|i| Atom::Concept(500 + i as u16, Term::Object(7)));
            question.atoms.extend(new);
        }
    }
}

/// Copies of members up to a count around the highest that is allowed.
fn many_members(draft: &mut Draft, chance: &mut Chance) {
    let many = chance.of(&[511, 512, 513, 513, 514, 600]);
    let copies = draft.members.clone();
    while draft.members.len() < many {
        draft.members.push(copies[chance.below(copies.len())].clone());
    }
}

/// Aims at 6 within the members: too many, one that would meet 3, 4 or 5, or one or all with another number of answer terms.
fn spoil_member(draft: &mut Draft, chance: &mut Chance) {
    if draft.members.is_empty() {
        return;
    }
    let at = chance.below(draft.members.len());
    match chance.below(7) {
        0 => lose_answer(&mut draft.members[at].1, chance),
        1 => repeat_atom(&mut draft.members[at].1, chance),
        2 => other_count(&mut draft.members[at].1, chance),
        3 => {
            let down = draft.question.answers.len() == 4;
            for (_, question) in &mut draft.members {
                match down {
                    true => drop(question.answers.pop()),
                    false => question.answers.push(Term::Object(7)),
                }
            }
        }
        4 => many_members(draft, chance),
        5 => count_out_of_range(&mut draft.members[at].1, chance),
        _ => draft.members.clear(),
    }
}

/// Aims at 7: a step beside member 0, or one that differs from the question by names or order only, or more.
fn spoil_member_0(draft: &mut Draft, chance: &mut Chance) {
    let Some((step, question)) = draft.members.first_mut() else {
        return;
    };
    match chance.below(7) {
        0 => step.kind = chance.from(1, 3) as u8,
        1 => step.parent = 1 << chance.below(10),
        2 => step.atom = 1 << chance.below(4),
        3 => step.other = 1 << chance.below(16),
        4 => *question = dressed(question.clone(), chance),
        5 => draft.question = dressed(draft.question.clone(), chance),
        _ => change_place(question, chance),
    }
}

fn any_later(draft: &Draft, chance: &mut Chance) -> Option<usize> {
    (draft.members.len() > 1).then(|| chance.from(1, draft.members.len() - 1))
}

/// Aims at 8: a later step that is none, or does not apply.
fn spoil_step(draft: &mut Draft, chance: &mut Chance) {
    if draft.members.is_empty() {
        return;
    }
    let at = any_later(draft, chance).unwrap_or_else(|| {
        let question = dressed(draft.members[0].1.clone(), chance);
        draft.members.push((rewrite::QUESTION_ITSELF, question));
        1
    });
    let many = draft.members.len();
    // indices go by the rules as read
    let rules = draft.rules_as_read().len() as u16;
    let step = &mut draft.members[at].0;
    match chance.below(14) {
        0 => *step = rewrite::QUESTION_ITSELF,
        1 => step.kind = chance.of(&[0, 3]),
        2 => step.parent = chance.of(&[at, at, at + 1, many, many - 1]) as u16,
        12 | 13 => step.parent = at as u16,
        3 => step.parent = chance.below(1024) as u16,
        4 => step.parent = chance.below(at) as u16,
        5 => step.atom = chance.below(16) as u8,
        6 => step.other = chance.of(&[rules, rules + 1, 511, 512, 65535]),
        7 => step.other += chance.of(&[16, 32, 256, 512, 4096, 32768]),
        8 => step.other = chance.below(rules as usize + 1) as u16,
        9 => step.kind = 3 - step.kind.clamp(1, 2),
        10 => {
            *step = Step {
                kind: 2,
                other: chance.from(0, step.atom as usize) as u16,
                ..*step
            }
        }
        _ => {
            *step = Step {
                kind: 2,
                atom: chance.below(8) as u8,
                other: chance.below(9) as u16,
                ..*step
            }
        }
    }
}

/// Aims at 9: a later member that its step does not lead to.
fn spoil_result(draft: &mut Draft, chance: &mut Chance) {
    let Some(mut at) = any_later(draft, chance) else {
        return;
    };
    // rather one that none comes from, or a later step will not apply
    for _ in 0..chance.of(&[0, 8, 8]) {
        if draft.members.iter().skip(1).any(|(step, _)| step.parent as usize == at) {
            at = chance.from(1, draft.members.len() - 1);
        }
    }
    match chance.below(12) {
        2..=6 => rename_badly(&mut draft.members[at].1, chance),
        0 => draft.members[at].0.parent = chance.below(at) as u16,
        1 => {
            let other = chance.below(draft.members.len());
            draft.members[at].1 = dressed(draft.members[other].1.clone(), chance);
        }
        _ => change_place(&mut draft.members[at].1, chance),
    }
}

/// Puts a member into the list; steps beside later members follow theirs.
fn insert(draft: &mut Draft, at: usize, step: Step, question: Question) {
    for (step, _) in &mut draft.members {
        if step.parent as usize >= at && step.kind != 0 {
            step.parent += 1;
        }
    }
    draft.members.insert(at, (step, question));
}

/// Aims at 10: one more member, by a step that applies and leads to a question alike to a member.
fn repeat_member(draft: &mut Draft, chance: &mut Chance) {
    let many = draft.members.len();
    if many == 0 || many >= 600 {
        return;
    }
    let rules = draft.rules_as_read();
    for _ in 0..8 {
        let parent = chance.below(many);
        let steps = rewrite::steps(parent, &draft.members[parent].1, &rules, true);
        if steps.is_empty() {
            continue;
        }
        let (step, result) = steps[chance.below(steps.len())].clone();
        let result = dressed(result, chance);
        let at = if chance.one_in(2) {
            many
        } else {
            chance.from(parent + 1, many)
        };
        insert(draft, at, step, result);
        return;
    }
    let at = chance.below(many);
    let (step, question) = draft.members[at].clone();
    let question = dressed(question, chance);
    draft.members.push((step, question));
}

/// Takes a member out of the list, if none comes from it; whether it did.
fn remove(draft: &mut Draft, at: usize) -> bool {
    let parent_of_some = draft.members.iter().skip(1).any(|(step, _)| step.parent as usize == at);
    if at == 0 || parent_of_some {
        return false;
    }
    draft.members.remove(at);
    for (step, _) in &mut draft.members {
        if step.parent as usize > at {
            step.parent -= 1;
        }
    }
    true
}

/// Aims at 11: a member taken away, or a rule put in, at times a pair.
fn open_up(draft: &mut Draft, chance: &mut Chance) {
    let many = draft.members.len();
    if many > 1 && !chance.one_in(4) {
        if chance.one_in(3) {
            draft.members.truncate(chance.from(1, many - 1));
            return;
        }
        let start = chance.below(many);
        for turn in 0..many {
            if remove(draft, (start + turn) % many) {
                return;
            }
        }
    }
    if draft.question.atoms.is_empty() {
        return;
    }
    let right = match chance.of(&draft.question.atoms) {
        Atom::Concept(a, _) => Description::Concept(a),
        Atom::Role(p, _, _) if chance.one_in(2) => Description::To(p),
        Atom::Role(p, _, _) => Description::From(p),
    };
    let left = Description::Concept(77);
    draft.rules.push(match (right, chance.below(3)) {
        (Description::To(right), 0) => Written::Plain(Rule::Implies {
            left: 77,
            right,
            exchanged: chance.one_in(2),
        }),
        (Description::To(_) | Description::From(_), 1) => Written::Qualified {
            left,
            right,
            filler: 78,
        },
        _ => Written::Plain(Rule::Bears(left, right)),
    });
}

/// Lets a more general member stand for one that is taken away with all that comes from it: the merged ones first.
fn shrink(draft: &mut Draft, chance: &mut Chance) {
    let merges: Vec<usize> = (1..draft.members.len())
        .filter(|&m| draft.members[m].0.kind == 2)
        .collect();
    if merges.is_empty() {
        return open_up(draft, chance);
    }
    let mut gone = vec![chance.of(&merges)];
    for m in 1..draft.members.len() {
        if gone.contains(&(draft.members[m].0.parent as usize)) && !gone.contains(&m) {
            gone.push(m);
        }
    }
    gone.sort();
    for &m in gone.iter().rev() {
        remove(draft, m);
    }
}

/// Changes a draft; true if there is a way to aim at this refusal before the sheets are packed.
pub fn draft(aim: u32, draft: &mut Draft, chance: &mut Chance) -> bool {
    match aim {
        3 if chance.one_in(3) => count_out_of_range(&mut draft.question, chance),
        4 => lose_answer(&mut draft.question, chance),
        5 => repeat_atom(&mut draft.question, chance),
        6 if chance.one_in(2) => spoil_member(draft, chance),
        7 => spoil_member_0(draft, chance),
        8 => spoil_step(draft, chance),
        9 => spoil_result(draft, chance),
        10 => repeat_member(draft, chance),
        11 if chance.one_in(4) => shrink(draft, chance),
        11 => open_up(draft, chance),
        18 => damage_pairs::clash(draft, chance),
        _ => return false,
    }
    true
}
