//! What kind of case an accepted one is that has to do with pairs and helpers, by the second implementation alone.

use crate::chase::Held;
use crate::helpers::Helpers;
use crate::refusals::{by_rounds, Drawn, Sheets};
use crate::rule_sheet::{pairs, records, Record, Written, MOST_RULES};
use crate::sheets::{Atom, Description, Rule};

/// What is counted of accepted cases, and how often it must be met.
pub const KINDS: [(&str, u64); 12] = [
    ("with an answer that needs a filler", 300),
    (
        "with an answer that needs a filler, and a pair's role written as the higher of two partners",
        50,
    ),
    (
        "with an answer that needs a filler, a pair that leads to its thing and one that comes from it",
        40,
    ),
    ("with rounds that never end, and would end without the pairs", 100),
    ("with rounds that never end, and would end without the fillers", 100),
    ("with a member that uses a helper", 100),
    ("with a member that uses two helpers", 100),
    ("with a pair, and a concept of a helper's number that is no filler", 100),
    ("with a filler of a helper's number", 100),
    ("with a pair, and the role next below the helpers", 100),
    ("without a pair, with role 4,095", 100),
    ("with a pair, and exactly 512 rules as read", 5),
];

/// Which lines of `KINDS` hold of sheets that are accepted, drawn from within so many things.
pub fn of(sheets: &Sheets, drawn: &Drawn, most: usize) -> [bool; KINDS.len()] {
    let rules = &drawn.accepted.rules;
    let helpers = Helpers::of(&rules.written);
    let has_pair = pairs(&rules.written) > 0;
    let filler = has_pair && needs_filler(drawn, most);
    let only_plain = |rule: &Written| (!rule.is_qualified()).then_some(*rule);
    let role_only = |rule: &Written| Some(rule.without_filler());
    let many_used = helpers_used(drawn, helpers);
    let next_below = has_role(drawn, helpers.next_below());
    [
        filler,
        filler && has_higher_partner(&sheets.rules),
        filler && has_both_directions(&rules.written),
        has_pair && drawn.never_ends && ends_with(drawn, only_plain, most),
        has_pair && drawn.never_ends && ends_with(drawn, role_only, most),
        many_used > 0,
        many_used > 1,
        has_concept_of(drawn, helpers),
        rules.written.iter().any(|rule| has_filler_of(rule, helpers)),
        has_pair && next_below,
        !has_pair && next_below,
        has_pair && rules.read.len() == MOST_RULES,
    ]
}

/// Whether there is an answer that the rounds do not give if each pair gives its role alone.
fn needs_filler(drawn: &Drawn, most: usize) -> bool {
    let accepted = &drawn.accepted;
    let without = Vec::from_iter(accepted.rules.written.iter().map(|rule| rule.without_filler()));
    let fewer = by_rounds(&without, &accepted.question, &drawn.facts, most);
    fewer.is_some_and(|fewer| fewer != drawn.answers)
}

/// Whether the rounds have an end under what this leaves of the rules.
fn ends_with(drawn: &Drawn, left: impl Fn(&Written) -> Option<Written>, most: usize) -> bool {
    let rules = Vec::from_iter(drawn.accepted.rules.written.iter().filter_map(left));
    // one atom is enough to tell
    let held = Held::rounds(&rules, &drawn.facts, 1, most);
    held.is_some_and(|held| !held.never_end(&rules))
}

/// Whether the role of some kind 3 on the sheet is the higher of two partners.
fn has_higher_partner(rules: &[u8]) -> bool {
    let is_higher = |record: &Record| record.kind == 3 && [1, 3, 5, 7].contains(&record.right);
    records(rules).is_some_and(|records| records.iter().any(is_higher))
}

fn has_both_directions(rules: &[Written]) -> bool {
    let has = |to: bool| {
        let is_so = |rule: &Written| match rule {
            Written::Qualified { right, .. } => to == matches!(right, Description::To(_)),
            Written::Plain(_) => false,
        };
        rules.iter().any(is_so)
    };
    has(true) && has(false)
}

/// The most helpers that one member uses.
fn helpers_used(drawn: &Drawn, helpers: Helpers) -> usize {
    let members = drawn.accepted.members.iter();
    let used = members.map(|member| {
        let helper = |atom: &Atom<_>| match *atom {
            Atom::Role(p, _, _) if helpers.has(p) => Some(p),
            _ => None,
        };
        let mut used = Vec::from_iter(member.question.atoms.iter().filter_map(helper));
        used.sort();
        used.dedup();
        used.len()
    });
    used.max().unwrap_or(0)
}

fn has_filler_of(rule: &Written, helpers: Helpers) -> bool {
    matches!(rule, Written::Qualified { filler, .. } if helpers.has(*filler))
}

/// The descriptions of a rule as written.
fn descriptions(rule: &Written) -> Vec<Description> {
    match *rule {
        Written::Plain(Rule::Bears(left, right)) | Written::Qualified { left, right, .. } => vec![left, right],
        Written::Plain(Rule::Implies { left, right, .. }) => vec![Description::To(left), Description::To(right)],
    }
}

/// Whether a rule has a concept of a helper's number, fillers left out, or question or facts have.
fn has_concept_of(drawn: &Drawn, helpers: Helpers) -> bool {
    let named = |description: &Description| matches!(description, Description::Concept(a) if helpers.has(*a));
    let in_rule = |rule: &Written| descriptions(rule).iter().any(named);
    let accepted = &drawn.accepted;
    accepted.rules.written.iter().any(in_rule)
        || has_concept(&accepted.question.atoms, helpers)
        || has_concept(&drawn.facts, helpers)
}

fn has_concept<T>(atoms: &[Atom<T>], helpers: Helpers) -> bool {
    atoms
        .iter()
        .any(|atom| matches!(atom, Atom::Concept(a, _) if helpers.has(*a)))
}

/// Whether a written rule, the question or a fact has this role.
fn has_role(drawn: &Drawn, role: u16) -> bool {
    let named = |description: &Description| match *description {
        Description::To(p) | Description::From(p) => p == role,
        Description::Concept(_) => false,
    };
    let accepted = &drawn.accepted;
    accepted
        .rules
        .written
        .iter()
        .any(|rule| descriptions(rule).iter().any(named))
        || is_role_of(&accepted.question.atoms, role)
        || is_role_of(&drawn.facts, role)
}

fn is_role_of<T>(atoms: &[Atom<T>], role: u16) -> bool {
    atoms
        .iter()
        .any(|atom| matches!(atom, Atom::Role(p, _, _) if *p == role))
}
