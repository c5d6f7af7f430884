//! Damage aimed at each cause of 17, in the records of a packed rule sheet, and of 18, in a draft.

use crate::causes::{Malformed, CAUSES_OF_17, CAUSES_OF_18};
use crate::chance::Chance;
use crate::helpers::{Helpers, Place};
use crate::make::{description, union, Names};
use crate::make_pairs::{in_some_direction, pair};
use crate::rule_sheet::{self, helper, pairs, Record, Written, MOST_RULES};
use crate::sheets::{Atom, Description, Rule, Term};
use crate::write::{self, record, Draft};

/// A union that would have more members than this is not made anew.
const MOST_MEMBERS: usize = 64;
/// Clashes that are tried before the draft is left as it is.
const TRIES: usize = 6;

fn small(chance: &mut Chance) -> u16 {
    chance.of(&[0, 1, 2, 3, 5, 7, 8, 16, 100, 2048, 4095])
}

/// A kind 3 as it must be.
fn role_record(chance: &mut Chance) -> Record {
    let left = (chance.below(3) as u32, small(chance));
    let right = (chance.from(1, 2) as u32, small(chance));
    record(3, left, right)
}

/// A kind 4 as it must be.
fn filler_record(chance: &mut Chance) -> Record {
    record(4, (0, small(chance)), (0, 0))
}

/// A rule of kind 1 or 2, which changes nothing.
fn idle_record(chance: &mut Chance) -> Record {
    record(chance.from(1, 2) as u32, (0, 3_000), (0, 3_001))
}

/// A place where records can be put in without parting a pair.
fn gap(records: &[Record], chance: &mut Chance) -> usize {
    let parts_none = |at: &usize| *at == 0 || records[at - 1].kind != 3;
    chance.of(&Vec::from_iter((0..=records.len()).filter(parts_none)))
}

fn put(records: &mut Vec<Record>, at: usize, new: &[Record]) {
    records.splice(at..at, new.iter().copied());
}

/// The place of a pair, which is put in if there is none.
fn some_pair(records: &mut Vec<Record>, chance: &mut Chance) -> usize {
    let is_pair = |at: &usize| (records[*at].kind, records[at + 1].kind) == (3, 4);
    let there = Vec::from_iter((0..records.len().saturating_sub(1)).filter(is_pair));
    if !there.is_empty() {
        return chance.of(&there);
    }
    let at = gap(records, chance);
    put(records, at, &[role_record(chance), filler_record(chance)]);
    at
}

/// Pairs and others put in up to so many rules as read: as few pairs as the length of the sheet allows, or nearly as many as there may be.
fn fill(records: &mut Vec<Record>, total: usize, chance: &mut Chance) {
    some_pair(records, chance);
    let count = |records: &[Record], kind: u32| records.iter().filter(|record| record.kind == kind).count();
    let read = |records: &[Record]| records.len() + count(records, 3);
    let least = total - MOST_RULES;
    let many = chance.of(&[least, least, least + 2, total / 4, total / 3]);
    while count(records, 3) < many && read(records) + 3 <= total {
        let at = gap(records, chance);
        put(records, at, &[role_record(chance), filler_record(chance)]);
    }
    while read(records) < total {
        let at = gap(records, chance);
        put(records, at, &[idle_record(chance)]);
    }
}

/// Makes the records meet 17 by this cause.
fn spoil_by(cause: Malformed, records: &mut Vec<Record>, chance: &mut Chance) {
    let at = match cause {
        Malformed::LastIs3 | Malformed::FirstIs4 | Malformed::Exactly513 | Malformed::Over513 => 0,
        _ => some_pair(records, chance),
    };
    match cause {
        Malformed::LastIs3 => records.push(role_record(chance)),
        Malformed::OtherAfter3 => records[at + 1] = idle_record(chance),
        Malformed::ThirdAfter3 => put(records, at, &[role_record(chance)]),
        Malformed::FirstIs4 => put(records, 0, &[filler_record(chance)]),
        Malformed::OtherBefore4 => records[at] = idle_record(chance),
        Malformed::FourthBefore4 => put(records, at + 2, &[filler_record(chance)]),
        Malformed::LeftFormOf3 => records[at].left_form = 3,
        Malformed::ConceptRightOf3 => records[at].right_form = 0,
        Malformed::RightFormOf3 => records[at].right_form = 3,
        Malformed::LeftFormOf4 => records[at + 1].left_form = chance.from(1, 3) as u32,
        Malformed::RightFormOf4 => records[at + 1].right_form = chance.from(1, 3) as u32,
        Malformed::RightNumberOf4 => records[at + 1].right = 1 << chance.below(12),
        Malformed::Exactly513 => fill(records, MOST_RULES + 1, chance),
        Malformed::Over513 => {
            let total = MOST_RULES + chance.of(&[2, 2, 3, 60]);
            fill(records, total, chance);
        }
    }
}

/// Aims at 17 in a packed sheet.
pub fn spoil(bytes: &mut Vec<u8>, chance: &mut Chance) {
    if let Some(mut records) = rule_sheet::records(bytes) {
        let (cause, _) = chance.of(&CAUSES_OF_17);
        spoil_by(cause, &mut records, chance);
        *bytes = write::records(&records);
    }
}

/// What stands in the question, no helper among its roles, and some objects.
fn names_of(draft: &Draft) -> Names {
    let helpers = Helpers::of(&draft.rules);
    let (mut concepts, mut roles) = (vec![1], vec![16]);
    for atom in &draft.question.atoms {
        match *atom {
            Atom::Concept(a, _) => concepts.push(a),
            Atom::Role(p, _, _) if !helpers.has(p) => roles.push(p),
            Atom::Role(..) => (),
        }
    }
    let objects = draft.facts.iter().flat_map(|fact| fact.terms()).chain([5]).collect();
    Names {
        concepts,
        roles,
        objects,
    }
}

/// The same pair with another left side or another role.
fn changed(pair: Written, new_left: Option<Description>, new_right: Option<Description>) -> Written {
    match pair {
        Written::Qualified { left, right, filler } => Written::Qualified {
            left: new_left.unwrap_or(left),
            right: new_right.unwrap_or(right),
            filler,
        },
        plain => plain,
    }
}

/// A rule with a helper as a role in this place, which is none of a pair's role.
fn clashing_rule(place: Place, names: &Names, helper: u16, chance: &mut Chance) -> Written {
    let (clashing, role) = (in_some_direction(helper, chance), chance.of(&names.roles));
    let (usual, exchanged) = (description(names, chance), chance.one_in(2));
    let implies = |left: u16, right: u16| Written::Plain(Rule::Implies { left, right, exchanged });
    match place {
        Place::LeftOf1 => Written::Plain(Rule::Bears(clashing, usual)),
        Place::RightOf1 => Written::Plain(Rule::Bears(usual, clashing)),
        Place::LeftOf2 => implies(helper, role),
        Place::RightOf2 => implies(role, helper),
        _ => changed(pair(names, chance), Some(clashing), None),
    }
}

/// A pair whose role is a helper: its own, that of a pair before it, or that of a pair after it; put in where it is so.
fn clash_in_role(place: Place, draft: &mut Draft, chance: &mut Chance) {
    let known = pairs(&draft.rules);
    let at = match place {
        Place::EarlierRoleOf3 => draft.rules.len(),
        Place::LaterRoleOf3 => 0,
        _ => chance.from(0, draft.rules.len()),
    };
    let own = pairs(&draft.rules[..at]);
    let whose = match place {
        Place::EarlierRoleOf3 => chance.below(own),
        Place::LaterRoleOf3 => chance.from(1, known),
        _ => own,
    };
    let right = in_some_direction(helper(whose), chance);
    let new = changed(pair(&names_of(draft), chance), None, Some(right));
    draft.rules.insert(at, new);
}

/// A helper for the role of some atom, of a new one if there is no other.
fn clash_in_question(draft: &mut Draft, chance: &mut Chance) {
    let role = helper(chance.below(pairs(&draft.rules)));
    let atoms = &mut draft.question.atoms;
    let is_role = |i: &usize| matches!(atoms[*i], Atom::Role(..));
    let roles = Vec::from_iter((0..atoms.len()).filter(is_role));
    if !roles.is_empty() && chance.one_in(2) {
        let at = chance.of(&roles);
        atoms[at] = match atoms[at] {
            Atom::Role(_, t, u) => Atom::Role(role, t, u),
            concept => concept,
        };
    } else if atoms.len() < 8 {
        let terms = Vec::from_iter(atoms.iter().flat_map(|atom| atom.terms()).chain([Term::Variable(9)]));
        let (first, second) = (chance.of(&terms), chance.of(&terms));
        atoms.push(Atom::Role(role, first, second));
    }
}

/// Puts a helper as a role in this place; a pair is put in before that if there is none.
fn clash_at(place: Place, draft: &mut Draft, chance: &mut Chance) {
    if pairs(&draft.rules) == 0 {
        let at = chance.from(0, draft.rules.len());
        let pair = pair(&names_of(draft), chance);
        draft.rules.insert(at, pair);
    }
    match place {
        Place::Question => clash_in_question(draft, chance),
        Place::Fact => {
            let objects = names_of(draft).objects;
            let role = helper(chance.below(pairs(&draft.rules)));
            let fact = Atom::Role(role, chance.of(&objects), chance.of(&objects));
            let at = chance.from(0, draft.facts.len());
            draft.facts.insert(at, fact);
        }
        Place::OwnRoleOf3 | Place::EarlierRoleOf3 | Place::LaterRoleOf3 => clash_in_role(place, draft, chance),
        _ => {
            let helper = helper(chance.below(pairs(&draft.rules)));
            let rule = clashing_rule(place, &names_of(draft), helper, chance);
            let at = chance.from(0, draft.rules.len());
            draft.rules.insert(at, rule);
        }
    }
}

/// Aims at 18. The union is closed again with the clashing numbers as they stand, for 7 to 11 come before; if it would be too long, the
/// draft stays as it is.
pub fn clash(draft: &mut Draft, chance: &mut Chance) {
    let (place, _) = chance.of(&CAUSES_OF_18);
    for _ in 0..TRIES {
        let mut clashing = draft.clone();
        clash_at(place, &mut clashing, chance);
        if (&clashing.rules, &clashing.question) != (&draft.rules, &draft.question) {
            match union(&clashing.question, &clashing.rules_as_read(), MOST_MEMBERS, chance) {
                Some(members) => clashing.members = members,
                None => continue,
            }
        }
        *draft = clashing;
        return;
    }
}

/// A pair and a rule with a helper for a role, both of which change nothing.
pub fn clash_idly(rules: &mut Vec<Written>, chance: &mut Chance) {
    let idle = Description::Concept(2_900);
    let pair = Written::Qualified {
        left: idle,
        right: in_some_direction(2_901, chance),
        filler: 2_902,
    };
    let clashing = in_some_direction(helper(pairs(rules)), chance);
    let at = chance.from(0, rules.len());
    rules.insert(at, pair);
    let at = chance.from(0, rules.len());
    rules.insert(at, Written::Plain(Rule::Bears(clashing, Description::Concept(2_903))));
}

#[cfg(test)]
mod tests {
    use super::*;
    use crate::causes::{of_17, of_18};
    use crate::helpers::clashes;
    use crate::make;
    use crate::refusals::{check, draw};

    #[test]
    fn each_cause_of_17_is_met_alone() {
        let chance = &mut Chance::new(3);
        for (i, (cause, told)) in CAUSES_OF_17.into_iter().enumerate() {
            for _ in 0..40 {
                let draft = make::small_draft(3, 16, chance);
                let mut records = rule_sheet::records(&write::rules(&draft.rules, chance)).expect("few rules");
                spoil_by(cause, &mut records, chance);
                let bytes = write::records(&records);
                assert_eq!(rule_sheet::conditions(&bytes), [17], "{told}");
                assert_eq!(of_17(&bytes), [i], "{told}");
            }
        }
    }

    #[test]
    fn each_cause_of_18_is_met() {
        let chance = &mut Chance::new(4);
        for (i, (place, told)) in CAUSES_OF_18.into_iter().enumerate() {
            let mut alone = 0;
            for _ in 0..40 {
                let mut draft = make::small_draft(3, 16, chance);
                clash_at(place, &mut draft, chance);
                let rules = draft.rules_as_read();
                if let Some(members) = make::union(&draft.question, &rules, 512, chance) {
                    draft.members = members;
                    let sheets = draft.sheets(chance);
                    let places = clashes(&draft.rules, Some(&draft.question), Some(&draft.facts));
                    alone += u64::from(of_18(&places) == [i]);
                    let checked = check(&sheets).err().unwrap_or(0);
                    assert_eq!(checked == 18, places != [Place::Fact], "{told}: {places:?}");
                    assert_eq!(draw(&sheets, 10).err(), Some(18), "{told}: {places:?}");
                }
            }
            assert!(alone >= 20, "{told}: {alone}");
        }
    }
}
