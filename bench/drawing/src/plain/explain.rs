//! Explaining in plain Rust, as the library does it: the lowest member that yields a tuple, then the steps from it back to the question,
//! each made again, and the smallest renaming from what it makes to the member. Tables are of full size.
//!
//! Steps and renaming are those of `bench/src/check/`.
use super::memo::{Memo, Tuples};
use super::orders::Orders;
use super::plan::Plan;
use super::read::{Atom, Member, Members, Query, ATOMS, OBJECT, VARIABLES};
use super::search::Search;
use super::{put_in_orders, List, Uncounted, NONE_BOUND};
use crate::cases::Case;
use crate::Drawn;
use std::cell::Cell;

#[allow(dead_code)]
#[rustfmt::skip]
#[path = "../../../src/check/key.rs"]
mod key;
#[allow(dead_code)]
#[rustfmt::skip]
#[path = "../../../src/check/renaming.rs"]
mod renaming;
#[rustfmt::skip]
#[path = "../../../src/check/steps.rs"]
mod steps;
#[allow(dead_code)]
#[rustfmt::skip]
#[path = "../../../src/check/words.rs"]
mod words;

/// The bytes of a step.
pub const STEP: usize = 40;

const NO_ANSWER: Drawn = Drawn { number: 19, count: 0 };
const TOO_SHORT: Drawn = Drawn { number: 20, count: 0 };

/// The query with its terms replaced, equal atoms kept once.
fn replaced(query: &Query, to: impl Fn(u32) -> u32) -> Query {
    let (answers, atoms) = (query.answers.map(&to), [Atom::default(); ATOMS]);
    let mut made = Query {
        answers,
        atoms,
        size: 0,
        ..*query
    };
    for atom in &query.atoms[..query.size] {
        let (first, second) = (to(atom.first), to(atom.second));
        let atom = Atom { first, second, ..*atom };
        if !made.atoms[..made.size].contains(&atom) {
            made.atoms[made.size] = atom;
            made.size += 1;
        }
    }
    made
}

/// The query whose answer terms are made the tuple's objects, if they can be.
fn bound_to(query: &Query, tuple: &[u8]) -> Option<Query> {
    let mut targets: [u32; VARIABLES] = std::array::from_fn(|v| v as u32);
    let to = |targets: &[u32; VARIABLES], term: u32| match term {
        OBJECT.. => term,
        _ => targets[term as usize % VARIABLES],
    };
    for (&term, object) in query.answers[..query.terms].iter().zip(tuple.as_chunks().0) {
        let object = OBJECT | u16::from_be_bytes(*object) as u32;
        let now = to(&targets, term);
        if now < OBJECT {
            targets[now as usize % VARIABLES] = object;
        } else if now != object {
            return None;
        }
    }
    Some(replaced(query, |term| to(&targets, term)))
}

/// Whether the member yields the tuple.
fn yields(search: &mut Search<Uncounted>, query: &Query, tuple: &[u8]) -> bool {
    let bound = bound_to(query, tuple);
    let Some(plan) = bound.and_then(|query| Plan::of(query, &search.orders)) else {
        return false;
    };
    search.memo.begin(plan.query.size);
    search.draw(&plan, 0, &NONE_BOUND);
    search.list.count() > 0
}

/// The members up to the lowest that yields the tuple, if one does. One that a merge made is not asked: its parent yields all that it does.
fn lowest(case: &Case, tuple: &[u8]) -> Option<Vec<Member>> {
    let (mut one, mut two) = ([0; 10_000], [0; 10_000]);
    let count = put_in_orders(case, &mut one, &mut two);
    let (mut memo, mut tuples, mut list) = ([0; 7 * 2048], [0; 32], [0; 8]);
    let mut search = Search {
        orders: Orders {
            words: [&one[..count], &two[..count]],
        },
        memo: Memo::over(&mut memo),
        tuples: Tuples::over(&mut tuples),
        list: List::over(&mut list, tuple.len()),
        work: Uncounted,
    };
    let mut tried = Vec::with_capacity(512);
    for member in Members::of(&case.union) {
        let found = !member.merged && yields(&mut search, &member.query, tuple);
        tried.push(member);
        if found {
            return Some(tried);
        }
    }
    None
}

/// The query in the words of the plain check.
fn in_words(query: &Query) -> words::Query {
    let term = |term: u32| match term {
        OBJECT.. => words::OBJECT | (term - OBJECT),
        _ => term,
    };
    let atom = |atom: &Atom| match atom.predicate >> 15 {
        0 => words::Atom::concept(atom.predicate as u32, term(atom.first)),
        _ => words::Atom::role(atom.predicate as u32 & 0xfff, term(atom.first), term(atom.second)),
    };
    let mut atoms = [words::Atom::default(); ATOMS];
    for (place, own) in atoms.iter_mut().zip(&query.atoms[..query.size]) {
        *place = atom(own);
    }
    words::Query::new(&query.answers.map(term)[..query.terms], &atoms[..query.size])
}

fn parent(step: u32) -> usize {
    (step >> 20 & 0x3ff) as usize
}

/// Writes the step that leads to member k. Of the rules only those are read that steps use: no case has pairs or a partner's name in them.
fn write_step(rules: &[u8], members: &[Member], k: usize, place: &mut [u8; STEP]) {
    let step = members[k].step;
    let (kind, atom, other) = (step >> 30, step >> 16 & 15, step & 0xffff);
    let query = in_words(&members[parent(step)].query);
    let result = match kind {
        1 => {
            let rule = rules.as_chunks().0[other as usize];
            steps::rule_step(&query, atom as usize, words::Rule(u32::from_be_bytes(rule)))
        }
        _ => steps::merge_step(&query, atom as usize, other as usize),
    };
    let member = in_words(&members[k].query);
    let targets = result.and_then(|result| renaming::rename_alike(&result, &member, &Cell::new(0)));
    place[..2].copy_from_slice(&(k as u16).to_be_bytes());
    place[2] = kind as u8;
    place[3..5].copy_from_slice(&(parent(step) as u16).to_be_bytes());
    place[5] = atom as u8;
    place[6..8].copy_from_slice(&(other as u16).to_be_bytes());
    place[8..].copy_from_slice(&targets.expect("the union is accepted"));
}

/// How many parents there are from the last member up.
fn parents(members: &[Member]) -> usize {
    let up = |&k: &usize| Some(parent(members[k].step));
    std::iter::successors(Some(members.len() - 1), up)
        .take_while(|&k| k > 0)
        .count()
}

/// The steps behind a tuple, zeros after them; 19 and zeros alone if it is none, 20 if they do not fit. The union is accepted.
#[inline(never)]
pub fn explain(case: &Case, tuple: &[u8], list: &mut [u8]) -> Drawn {
    list.fill(0);
    let Some(members) = lowest(case, tuple) else {
        return NO_ANSWER;
    };
    let count = parents(&members);
    let Some(places) = list.as_chunks_mut().0.get_mut(..count) else {
        return TOO_SHORT;
    };
    let mut k = members.len() - 1;
    for place in places {
        write_step(&case.rules, &members, k, place);
        k = parent(members[k].step);
    }
    Drawn { number: 0, count }
}
