//! What the desk turns back, judged on the bytes of the sheets, and what it hands out otherwise. The answers expected come from
//! rules, facts and question by rounds alone, never from the union.

use crate::alike::{alike, Classes};
use crate::chase::Held;
use crate::helpers::{clashes, no_clash};
use crate::lost_tags;
use crate::rewrite;
use crate::rule_sheet::{self, RuleSheet, Written};
use crate::sheets::{self, Fact, Member, Question, Rule};
use std::collections::BTreeSet;

#[derive(Clone, Debug, Default, PartialEq, Eq)]
pub struct Sheets {
    pub rules: Vec<u8>,
    pub question: Vec<u8>,
    pub union: Vec<u8>,
    pub facts: Vec<u8>,
}

/// Sheets that meet none of 1 to 11 and 17, as read.
pub struct Accepted {
    pub rules: RuleSheet,
    pub question: Question,
    pub members: Vec<Member>,
}

/// Refusal 7's condition.
fn member_0_differs(question: &Question, members: &[Member]) -> bool {
    members[0].step != rewrite::QUESTION_ITSELF || members[0].question != *question
}

/// Refusals 8 and 9: all of 8 before any of 9. A step is applied to its parent as written in the sheet.
fn steps_hold(rules: &[Rule], members: &[Member]) -> Result<(), u32> {
    let mut results = Vec::new();
    for (index, member) in members.iter().enumerate().skip(1) {
        let parent = member.step.parent as usize;
        if parent >= index {
            return Err(8);
        }
        results.push(rewrite::result(member.step, &members[parent].question, rules).ok_or(8u32)?);
    }
    let led_there = |(result, member): (&Question, &Member)| alike(result, &member.question);
    match results.iter().zip(&members[1..]).all(led_there) {
        true => Ok(()),
        false => Err(9),
    }
}

/// Refusals 10 and 11.
fn closed(rules: &[Rule], members: &[Member]) -> Result<(), u32> {
    let mut classes = Classes::default();
    for (index, member) in members.iter().enumerate() {
        if classes.find(&member.question).is_some() {
            return Err(10);
        }
        classes.put(index, member.question.clone());
    }
    for (index, member) in members.iter().enumerate() {
        let steps = rewrite::steps(index, &member.question, rules, true);
        if steps.iter().any(|(_, result)| classes.find(result).is_none()) {
            return Err(11);
        }
    }
    Ok(())
}

/// The numbers in the order in which they decide, 14 to 16, 19 and 20 left out: each call has those of its sheets in this order.
pub const ORDER: [u32; 15] = [1, 2, 17, 3, 4, 5, 6, 7, 8, 9, 10, 11, 12, 13, 18];

/// The numbers of 1 to 11 and 17, which come before 18 in checking and before 12 in drawing.
pub fn closed_union(sheets: &Sheets) -> Result<Accepted, u32> {
    let rules = rule_sheet::rules(&sheets.rules)?;
    let question = sheets::question(&sheets.question)?;
    let members = sheets::union(&sheets.union, question.answers.len())?;
    if member_0_differs(&question, &members) {
        return Err(7);
    }
    steps_hold(&rules.read, &members)?;
    closed(&rules.read, &members)?;
    Ok(Accepted {
        rules,
        question,
        members,
    })
}

/// Checking a union: refusals 1 to 11 and 17, then 18.
pub fn check(sheets: &Sheets) -> Result<Accepted, u32> {
    let accepted = closed_union(sheets)?;
    no_clash(&accepted.rules.written, &accepted.question, &[])?;
    Ok(accepted)
}

/// Every number of drawing but 14 whose condition holds, each looked at for itself as far as the sheets can be read; the first is what
/// the call returns. For counting cases in which an earlier refusal hides a later one, and as a test of `draw`.
pub fn conditions(sheets: &Sheets) -> Vec<u32> {
    let rules = rule_sheet::rules(&sheets.rules);
    let question = sheets::question(&sheets.question);
    let facts = sheets::facts(&sheets.facts);
    let mut all = rule_sheet::conditions(&sheets.rules);
    all.extend([question.as_ref().err(), facts.as_ref().err()].into_iter().flatten());
    if let Ok(RuleSheet { written, .. }) = &rules {
        let places = clashes(written, question.as_ref().ok(), facts.as_deref().ok());
        all.extend((!places.is_empty()).then_some(18));
    }
    if let Ok(question) = question {
        all.extend(union_conditions(rules.ok(), &question, &sheets.union));
    }
    all.sort_by_key(|number| ORDER.iter().position(|other| other == number));
    all
}

/// Which of 6 to 11 hold beside this question.
fn union_conditions(rules: Option<RuleSheet>, question: &Question, union: &[u8]) -> Vec<u32> {
    let Ok(members) = sheets::union(union, question.answers.len()) else {
        return vec![6];
    };
    let mut all = Vec::new();
    if member_0_differs(question, &members) {
        all.push(7);
    }
    let is_alike = |i: usize| {
        members[..i]
            .iter()
            .any(|earlier| alike(&earlier.question, &members[i].question))
    };
    if (0..members.len()).any(is_alike) {
        all.push(10);
    }
    if let Some(rules) = rules {
        all.extend(step_conditions(&rules.read, &members));
    }
    all
}

/// Which of 8, 9 and 11 hold.
fn step_conditions(rules: &[Rule], members: &[Member]) -> Vec<u32> {
    let result = |(index, member): (usize, &Member)| {
        let parent = members[..index].get(member.step.parent as usize)?;
        rewrite::result(member.step, &parent.question, rules)
    };
    let later = || members.iter().enumerate().skip(1);
    let mut classes = Classes::default();
    for (index, member) in members.iter().enumerate() {
        classes.put(index, member.question.clone());
    }
    let leads_out = |member: &Member| {
        let steps = rewrite::steps(0, &member.question, rules, true);
        steps.iter().any(|(_, result)| classes.find(result).is_none())
    };
    let mut all = Vec::new();
    if later().any(|one| result(one).is_none()) {
        all.push(8);
    }
    if later().any(|one| result(one).is_some_and(|result| !alike(&result, &one.1.question))) {
        all.push(9);
    }
    if members.iter().any(leads_out) {
        all.push(11);
    }
    all
}

/// What drawing answers leads to, but for the list's length.
pub struct Drawn {
    pub accepted: Accepted,
    pub facts: Vec<Fact>,
    pub answers: BTreeSet<Vec<u16>>,
    /// Tuples that are no answers only because they hold a lost tag.
    pub left_out: BTreeSet<Vec<u16>>,
    /// Answers of which every match of the question in the rounds sends some term to a lost tag.
    by_lost_tags: BTreeSet<Vec<u16>>,
    pub never_ends: bool,
}

/// Refusals 1 to 13 and 17, then 18, then the answers by rounds; `Ok(None)` if these take more than `most` things.
pub fn draw(sheets: &Sheets, most: usize) -> Result<Option<Drawn>, u32> {
    let accepted = closed_union(sheets)?;
    let facts = sheets::facts(&sheets.facts)?;
    let rules = &accepted.rules.written;
    no_clash(rules, &accepted.question, &facts)?;
    let atoms = accepted.question.atoms.len();
    Ok(Held::rounds(rules, &facts, atoms, most).map(|held| {
        let (answers, left_out) = lost_tags::parted(held.tuples(&accepted.question));
        let otherwise = held.tuples_avoiding(&accepted.question, lost_tags::is_lost);
        Drawn {
            by_lost_tags: answers.difference(&otherwise).cloned().collect(),
            answers,
            left_out,
            never_ends: held.never_end(&accepted.rules.written),
            accepted,
            facts,
        }
    }))
}

/// The answers by rounds, from rules, facts and question alone; none if that takes more than `most` things.
pub fn by_rounds(rules: &[Written], question: &Question, facts: &[Fact], most: usize) -> Option<BTreeSet<Vec<u16>>> {
    let held = Held::rounds(rules, facts, question.atoms.len(), most)?;
    Some(lost_tags::parted(held.tuples(question)).0)
}

#[derive(Clone, Debug, PartialEq, Eq)]
pub struct Outcome {
    pub number: u32,
    pub count: u64,
    pub list: Vec<u8>,
}

pub fn refused(number: u32, length: usize) -> Outcome {
    Outcome {
        number,
        count: 0,
        list: vec![0; length],
    }
}

/// Number, count and all bytes of a list of this length: refusal 14, or the answers ascending and zeros after them.
pub fn listed(answers: &BTreeSet<Vec<u16>>, length: usize) -> Outcome {
    let objects = answers.iter().flatten();
    let mut list: Vec<u8> = objects.flat_map(|object| object.to_be_bytes()).collect();
    if length < list.len() {
        return refused(14, length);
    }
    list.resize(length, 0);
    Outcome {
        number: 0,
        count: answers.len() as u64,
        list,
    }
}

impl Drawn {
    /// Bytes that a tuple takes.
    pub fn tuple(&self) -> usize {
        2 * self.accepted.question.answers.len()
    }

    /// Bytes that the list must have: what is left out takes no room.
    pub fn needed(&self) -> usize {
        self.tuple() * self.answers.len()
    }

    /// Number, count and all bytes of a list of this length.
    pub fn outcome(&self, length: usize) -> Outcome {
        listed(&self.answers, length)
    }

    /// What the first reader finds with these questions: the tuples without a lost tag that are answers of one of them in round 0.
    pub fn from_facts<'a>(&self, questions: impl Iterator<Item = &'a Question>) -> BTreeSet<Vec<u16>> {
        first_reader(&self.facts, questions)
    }

    /// Whether there is an answer every match of which sends some term to a lost tag: the question's in the rounds, and any member's in
    /// the facts.
    pub fn needs_lost_tag(&self) -> bool {
        let tagged: Vec<Fact> = self
            .facts
            .iter()
            .filter(|fact| !lost_tags::holds_one(fact.terms()))
            .copied()
            .collect();
        let members = self.accepted.members.iter().map(|member| &member.question);
        !self.by_lost_tags.is_subset(&first_reader(&tagged, members))
    }
}

/// Whether the members find a tuple in the facts that takes room, so that an empty list would meet 14 if nothing came before it.
pub fn finds_a_tuple(sheets: &Sheets) -> bool {
    let (Ok(accepted), Ok(facts)) = (closed_union(sheets), sheets::facts(&sheets.facts)) else {
        return false;
    };
    let members = accepted.members.iter().map(|member| &member.question);
    !accepted.question.answers.is_empty() && !first_reader(&facts, members).is_empty()
}

fn first_reader<'a>(facts: &[Fact], questions: impl Iterator<Item = &'a Question>) -> BTreeSet<Vec<u16>> {
    let held = Held::facts(facts);
    lost_tags::parted(questions.flat_map(|question| held.tuples(question)).collect()).0
}
