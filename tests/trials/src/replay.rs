//! Following a list of steps from member 0 forward, as it was handed back: each step is made, its result renamed and put in the order of
//! its member, and the last must yield the tuple. Nothing here looks for the steps.

use crate::chase::Held;
use crate::explain::{objects, Ground, PLACE};
use crate::join::variables;
use crate::refusals::{by_rounds, Accepted};
use crate::renamings::{carried, Targets, NO_TARGET};
use crate::rewrite;
use crate::rule_sheet::{places_as_written, plain, Written};
use crate::sheets::{Question, Step, Term};
use std::collections::{BTreeMap, BTreeSet};

/// Rounds that take more things than this are not played out.
const MOST_THINGS: usize = 2_000;

/// Tuples that the rounds give, if they were played out.
type Given = Option<BTreeSet<Vec<u16>>>;

pub struct Replay<'a> {
    ground: &'a Ground,
    held: Held,
    /// What the question has for answers if only these rules, by their index as read, conclude: as read, and as written.
    given: BTreeMap<BTreeSet<usize>, [Given; 2]>,
}

/// A place as its bytes have it.
struct Packed<'a> {
    member: usize,
    step: Step,
    targets: &'a [u8],
}

fn number(bytes: &[u8]) -> u16 {
    bytes.iter().fold(0, |number, &byte| number << 8 | u16::from(byte))
}

fn place(bytes: &[u8]) -> Packed<'_> {
    Packed {
        member: usize::from(number(&bytes[..2])),
        step: Step {
            kind: bytes[2],
            parent: number(&bytes[3..5]),
            atom: bytes[5],
            other: number(&bytes[6..8]),
        },
        targets: &bytes[8..],
    }
}

/// The question by its new names; none if a variable that stands has no target, two have the same, or another has one.
fn renamed(question: &Question, targets: &[u8]) -> Option<Question> {
    let targets: &Targets = targets.try_into().ok()?;
    let standing = variables(&question.atoms);
    let has_target = |x: u8| targets[usize::from(x)] != NO_TARGET;
    let images = BTreeSet::from_iter(standing.iter().map(|&x| targets[usize::from(x)]));
    let fits = (0..32).all(|x| has_target(x) == standing.contains(&x));
    let is_renaming = fits && images.len() == standing.len() && images.iter().all(|&y| y < NO_TARGET);
    is_renaming.then(|| Question {
        answers: question.answers.iter().map(|&t| carried(t, targets)).collect(),
        atoms: question
            .atoms
            .iter()
            .map(|atom| atom.map(|t| carried(t, targets)))
            .collect(),
    })
}

/// The question with its atoms in the order of another; those that the other lacks come last.
fn in_order_of(mut question: Question, other: &Question) -> Question {
    let place = |atom: &_| other.atoms.iter().position(|a| a == atom);
    question.atoms.sort_by_key(|atom| place(atom).unwrap_or(usize::MAX));
    question
}

/// The question whether the tuple is an answer: its objects stand for the answer terms. None if they cannot.
fn asked_of(question: &Question, tuple: &[u16]) -> Option<Question> {
    let mut objects = [None; 32];
    for (&term, &object) in question.answers.iter().zip(tuple) {
        let known = match term {
            Term::Variable(x) => *objects[usize::from(x)].get_or_insert(object),
            Term::Object(known) => known,
        };
        if known != object {
            return None;
        }
    }
    let put = |term: Term| match term {
        Term::Variable(x) => objects[usize::from(x)].map_or(term, Term::Object),
        object => object,
    };
    Some(Question {
        answers: vec![],
        atoms: question.atoms.iter().map(|atom| atom.map(put)).collect(),
    })
}

impl<'a> Replay<'a> {
    pub fn new(ground: &'a Ground) -> Replay<'a> {
        Replay {
            held: Held::facts(&ground.facts),
            ground,
            given: BTreeMap::new(),
        }
    }

    /// The question to which the step of this place leads from the one before it, which must be the member as read.
    fn stepped(&self, from: (usize, &Question), place: &Packed) -> Result<Question, String> {
        let Accepted { rules, members, .. } = &self.ground.accepted;
        let (before, question) = from;
        let member = members.get(place.member).ok_or("a member that is not there")?;
        if usize::from(place.step.parent) != before || place.step != member.step {
            return Err(format!("another step beside member {}", place.member));
        }
        let result = rewrite::result(place.step, question, &rules.read).ok_or("a step that does not apply")?;
        let renamed = renamed(&result, place.targets).ok_or("targets that are no renaming")?;
        match in_order_of(renamed, &member.question) {
            arrived if arrived == member.question => Ok(arrived),
            _ => Err(format!("another question than member {}", place.member)),
        }
    }

    fn yields(&self, question: &Question, tuple: &[u16]) -> bool {
        asked_of(question, tuple).is_some_and(|question| !self.held.tuples(&question).is_empty())
    }

    /// Whether the tuple follows from the facts by these rules alone: as read, each with its index, and as written, a pair being there if
    /// one of its three is. None where the rounds of either take too many things.
    fn suffice(&mut self, named: &BTreeSet<usize>, tuple: &[u16]) -> Option<bool> {
        let ground = self.ground;
        let given = self
            .given
            .entry(named.clone())
            .or_insert_with(|| by_these_rules(ground, named));
        let [as_read, as_written] = given;
        let follows = |given: &Given| given.as_ref().map(|given| given.contains(tuple));
        Some(follows(as_read)? && follows(as_written)?)
    }

    /// Where the steps lead from member 0: a member with its question, by the rules that the steps name.
    fn led(&self, steps: &[u8]) -> Result<(usize, Question, BTreeSet<usize>), String> {
        let (mut at, mut question) = (0, self.ground.accepted.members[0].question.clone());
        let mut named = BTreeSet::new();
        for bytes in steps.rchunks(PLACE) {
            let place = place(bytes);
            question = self.stepped((at, &question), &place)?;
            at = place.member;
            named.extend((place.step.kind == 1).then_some(usize::from(place.step.other)));
        }
        Ok((at, question, named))
    }

    /// Follows the list. What is handed back is whether it could be judged that the rules named suffice, or else what is wrong.
    pub fn follow(&mut self, tuple: &[u8], count: u64, list: &[u8]) -> Result<bool, String> {
        let places = (list.len() / PLACE) as u64;
        if count > places {
            return Err("more steps than places".to_string());
        }
        let (steps, unused) = list.split_at(PLACE * count as usize);
        if unused.iter().any(|&byte| byte != 0) {
            return Err("unused places that are not zero".to_string());
        }
        let tuple = objects(tuple);
        let members = &self.ground.accepted.members;
        let (at, question, named) = self.led(steps)?;
        if !self.yields(&question, &tuple) {
            return Err(format!("member {at} does not yield the tuple"));
        }
        if members[..at].iter().any(|lower| self.yields(&lower.question, &tuple)) {
            return Err(format!("a member below {at} yields the tuple"));
        }
        // a merge's parent stands before it and yields all that it yields
        if members[at].step.kind == 2 {
            return Err(format!("member {at}, which a merge made, is the lowest"));
        }
        match self.suffice(&named, &tuple) {
            Some(false) => Err(format!("rules {named:?} are not enough")),
            judged => Ok(judged.is_some()),
        }
    }
}

/// The tuples that follow by these rules alone, as read and as written. An unnamed thing is known by its rule, so leaving the others out
/// is the same as letting them conclude nothing.
fn by_these_rules(ground: &Ground, named: &BTreeSet<usize>) -> [Given; 2] {
    let Accepted { rules, question, .. } = &ground.accepted;
    let read = Vec::from_iter(named.iter().map(|&index| rules.read[index]));
    let places = places_as_written(&rules.written);
    let kept = BTreeSet::from_iter(named.iter().map(|&index| places[index]));
    let written: Vec<Written> = kept.iter().map(|&place| rules.written[place]).collect();
    [plain(&read), written].map(|rules| by_rounds(&rules, question, &ground.facts, MOST_THINGS))
}
