//! Facts that differ from a needed one in one bit, and needed facts at every place near the ends of sheets of every length. A fact is
//! needed if, by the rounds, other answers come without it.

use crate::chance::Chance;
use crate::helpers::Helpers;
use crate::make;
use crate::refusals::by_rounds;
use crate::scan::{self, Fault, FIRST, SECOND};
use crate::sheets::Fact;
use crate::write::Draft;
use std::collections::BTreeSet;

/// Few and short, so that a plain scan through all of them takes no time.
const MOST_ATOMS: usize = 4;
const MOST_MEMBERS: usize = 16;
const MOST_THINGS: usize = 400;
const MOST_FACTS: usize = 10_000;

/// Drafts that are tried before a case is given up.
const TRIES: usize = 40;

/// A draft of sheets that are accepted, and the answers by the rounds.
pub struct Case {
    pub draft: Draft,
    pub answers: BTreeSet<Vec<u16>>,
}

/// What a scan with this fault finds in these facts.
fn found(draft: &Draft, facts: &[Fact], fault: Option<Fault>) -> BTreeSet<Vec<u16>> {
    scan::answers(facts, draft.members.iter().map(|(_, question)| question), fault)
}

/// The answers from these facts by the rounds; none if that takes too many things, or if a fact has a helper for its role.
fn answers(draft: &Draft, facts: &[Fact]) -> Option<BTreeSet<Vec<u16>>> {
    if Helpers::of(&draft.rules).stand_in(facts) {
        return None;
    }
    by_rounds(&draft.rules, &draft.question, facts, MOST_THINGS)
}

fn without(facts: &[Fact], at: usize) -> Vec<Fact> {
    [&facts[..at], &facts[at + 1..]].concat()
}

/// Whether other answers than these come without the fact at this place.
fn needs(draft: &Draft, at: usize, all: &BTreeSet<Vec<u16>>) -> bool {
    answers(draft, &without(&draft.facts, at)).is_some_and(|fewer| fewer != *all)
}

/// A small draft by chance that has an answer.
fn by_chance(chance: &mut Chance) -> Draft {
    loop {
        let draft = make::small_draft(MOST_ATOMS, MOST_MEMBERS, chance);
        if !found(&draft, &draft.facts, None).is_empty() {
            return draft;
        }
    }
}

/// The places of the facts, in an order by chance.
fn places(draft: &Draft, chance: &mut Chance) -> Vec<usize> {
    let mut places = Vec::from_iter(0..draft.facts.len());
    chance.shuffle(&mut places);
    places
}

/// What becomes of a needed fact.
#[derive(Clone, Copy, PartialEq, Eq, PartialOrd, Ord, Debug)]
pub enum Way {
    /// Its neighbour stands in its place.
    InPlace,
    /// It stays, and its neighbour stands before or after it.
    Beside,
}

/// The fact with one bit of its word turned.
fn neighbour(fact: Fact, bit: u32) -> Option<Fact> {
    scan::fact(scan::word(fact) ^ 1 << bit)
}

/// The same, but objects in which the bit does not stand are others at times: whoever does not see the bit finds more than before.
fn odd_neighbour(facts: &[Fact], fact: Fact, bit: u32, chance: &mut Chance) -> Option<Fact> {
    let mut objects: Vec<u16> = facts.iter().flat_map(|fact| fact.terms()).collect();
    // two more that no draft has: what is found with them is new
    objects.extend([77, 7_777]);
    let mut word = scan::word(fact) ^ 1 << bit;
    for field in [FIRST, SECOND] {
        if !field.contains(&bit) && chance.one_in(2) {
            word = word & !scan::ones(field.clone()) | u64::from(chance.of(&objects)) << field.start;
        }
    }
    // a concept has no second object
    scan::fact(word).or_else(|| scan::fact(word & !scan::ones(SECOND)))
}

/// The facts with a neighbour of the one at this place; none if there is none, or if a scan with the fault finds what it should.
fn turned(draft: &Draft, at: usize, way: Way, fault: Fault, chance: &mut Chance) -> Option<Vec<Fact>> {
    let mut facts = draft.facts.clone();
    let fact = facts[at];
    match way {
        Way::InPlace => facts[at] = neighbour(fact, fault.bit)?,
        Way::Beside => facts.insert(
            at + chance.below(2),
            odd_neighbour(&draft.facts, fact, fault.bit, chance)?,
        ),
    }
    (found(draft, &facts, Some(fault)) != found(draft, &facts, None)).then_some(facts)
}

/// A case in which a needed fact has a neighbour by the bit of the fault, and a scan with the fault finds other answers than there are.
pub fn near_miss(way: Way, fault: Fault, chance: &mut Chance) -> Option<Case> {
    (0..TRIES).find_map(|_| {
        let mut draft = by_chance(chance);
        let (facts, answers) = places(&draft, chance).into_iter().find_map(|at| {
            let facts = turned(&draft, at, way, fault, chance)?;
            let all = answers(&draft, &draft.facts)?;
            let answers = answers(&draft, &facts)?;
            let counts = answers != found(&draft, &facts, Some(fault)) && needs(&draft, at, &all);
            counts.then_some((facts, answers))
        })?;
        draft.facts = facts;
        Some(Case { draft, answers })
    })
}

/// Where a needed fact is to stand.
#[derive(Clone, Copy, PartialEq, Eq, PartialOrd, Ord, Debug)]
pub struct Spot {
    /// The last place is 0; none for the first place.
    pub from_end: Option<usize>,
    /// What the sheet's length leaves, divided by 8.
    pub rest: usize,
}

impl Spot {
    /// A length that is fit for this spot and so many other facts; on a full sheet the greatest.
    fn length(self, others: usize, full: bool, chance: &mut Chance) -> usize {
        if full {
            return MOST_FACTS - (MOST_FACTS + 8 - self.rest) % 8;
        }
        let least = others.max(self.from_end.unwrap_or(0)) + 1;
        least + (self.rest + 8 - least % 8) % 8 + 8 * chance.of(&[0, 0, 1, 3])
    }
}

/// Facts up to this number: copies of one that has another predicate on a full sheet, else neighbours by any bit.
fn pad(facts: &mut Vec<Fact>, like: Fact, many: usize, full: bool, chance: &mut Chance) {
    let idle = neighbour(like, 42).expect("a number from 1,024 up has no partner");
    while facts.len() < many {
        let from = if facts.is_empty() { like } else { chance.of(facts) };
        let fact = if full {
            Some(idle)
        } else {
            neighbour(from, chance.below(48) as u32)
        };
        facts.extend(fact);
    }
}

/// A case in which a needed fact stands there, and whether one next to it has the same predicate and is needed too. A full sheet has as
/// many facts as it may have in this spot.
pub fn placed(spot: Spot, full: bool, chance: &mut Chance) -> Option<(Case, bool)> {
    (0..TRIES).find_map(|_| {
        let mut draft = by_chance(chance);
        let all = found(&draft, &draft.facts, None);
        let mut places = places(&draft, chance).into_iter();
        let at = places.find(|&at| found(&draft, &without(&draft.facts, at), None) != all)?;
        let fact = draft.facts.remove(at);
        let length = spot.length(draft.facts.len(), full, chance);
        pad(&mut draft.facts, fact, length - 1, full, chance);
        chance.shuffle(&mut draft.facts);
        let at = spot.from_end.map_or(0, |from_end| length - 1 - from_end);
        draft.facts.insert(at, fact);
        let answers = answers(&draft, &draft.facts).filter(|all| needs(&draft, at, all))?;
        let twin = has_needed_twin(&draft, at, &answers);
        Some((Case { draft, answers }, twin))
    })
}

/// Whether a fact next to this place has the same predicate as the one there, and is needed.
fn has_needed_twin(draft: &Draft, at: usize, all: &BTreeSet<Vec<u16>>) -> bool {
    let predicate = |at: usize| draft.facts.get(at).map(|&fact| scan::word(fact) >> FIRST.end);
    [at.wrapping_sub(1), at + 1]
        .into_iter()
        .any(|beside| predicate(beside) == predicate(at) && needs(draft, beside, all))
}

#[cfg(test)]
mod tests {
    use super::*;
    use crate::sheets::Atom;

    /// How many facts are one bit beside this one.
    fn neighbours(fact: Fact) -> usize {
        (0..64).filter_map(|bit| neighbour(fact, bit)).count()
    }

    #[test]
    fn neighbours_are_sound_and_as_read() {
        // kind, number and objects; the kind only if the second object is zero
        assert_eq!(neighbours(Atom::Role(16, 5, 0)), 1 + 12 + 16 + 16);
        assert_eq!(neighbours(Atom::Role(16, 5, 7)), 12 + 16 + 16);
        assert_eq!(neighbours(Atom::Concept(16, 5)), 1 + 12 + 16);
        // role 1 is read as role 0
        assert_eq!(neighbours(Atom::Role(0, 5, 7)), 11 + 16 + 16);
        assert_eq!(neighbour(Atom::Concept(16, 5), 47), Some(Atom::Role(16, 5, 0)));
        assert_eq!(neighbour(Atom::Role(16, 5, 7), 0), Some(Atom::Role(16, 5, 6)));
    }
}
