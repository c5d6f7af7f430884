//! Unions made by applying every step until nothing new comes (PerfectRef), packed into sheets with the steps written beside
//! the members.
use super::steps::{merge_step, rule_step};
use super::words::{Atom, Query, Rule, Term, OBJECT};
use super::{alike, key_of, Counts, Member};
use crate::MOST_MEMBERS;
use std::collections::{HashMap, HashSet};

/// Rules and a union; its first member is the question.
#[derive(Clone)]
pub struct Sheet {
    pub rules: Vec<Rule>,
    pub members: Vec<Member>,
    /// whether no step leads outside
    pub closed: bool,
}

/// The left description is below the right one: each a form and a number.
pub fn concept_rule(left: (u32, u32), right: (u32, u32)) -> Rule {
    Rule(1 << 28 | left.0 << 26 | left.1 << 14 | right.0 << 12 | right.1)
}

/// The left role implies the right one, the arguments kept or exchanged.
pub fn role_rule(left: u32, right: u32, exchanged: bool) -> Rule {
    Rule(2 << 28 | left << 14 | (exchanged as u32) << 12 | right)
}

/// The term of an object.
pub fn object(number: u32) -> Term {
    OBJECT + number
}

/// How the members that are made are written: the first member always stands as the question does.
#[derive(Clone, Copy, PartialEq, Debug)]
pub enum Numbering {
    /// as the step gives it
    Kept,
    /// the last variable to stand first, so that the right target is tried last
    Reversed,
    /// the same, and 0 left out, so that a fresh variable is the first that the search assigns
    Above,
    /// numbers, with gaps, and atoms in an order drawn anew for each member
    Drawn(u64),
}

/// Numbers that look drawn at random and are the same in each run.
pub struct Draw(pub u64);

impl Draw {
    pub fn below(&mut self, bound: usize) -> usize {
        self.0 ^= self.0 << 13;
        self.0 ^= self.0 >> 7;
        self.0 ^= self.0 << 17;
        (self.0 >> 11) as usize % bound
    }

    pub fn shuffle<T>(&mut self, items: &mut [T]) {
        for i in (1..items.len()).rev() {
            items.swap(i, self.below(i + 1));
        }
    }
}

/// The variables of a query in the order in which they stand in its atoms.
fn in_order(query: &Query) -> Vec<Term> {
    let mut variables = Vec::new();
    for term in query.atoms().iter().flat_map(|atom| atom.terms()) {
        if term < 32 && !variables.contains(&term) {
            variables.push(term);
        }
    }
    variables
}

/// The same query with other numbers, given in the order of its variables' standing, and its atoms in another order.
pub fn renumbered(query: &Query, numbers: &[Term], order: &[usize]) -> Query {
    let mut to = [0; 32];
    for (variable, &number) in in_order(query).into_iter().zip(numbers) {
        to[variable as usize] = number;
    }
    let made = query.map(|term| if term < 32 { to[term as usize] } else { term });
    let atoms: Vec<Atom> = order.iter().map(|&i| made.atoms()[i]).collect();
    Query::new(made.answers(), &atoms)
}

impl Numbering {
    pub fn apply(self, query: &Query, salt: usize) -> Query {
        let count = in_order(query).len();
        let mut numbers: Vec<Term> = (0..count as Term).collect();
        let mut order: Vec<usize> = (0..query.atoms().len()).collect();
        match self {
            Numbering::Kept => return *query,
            Numbering::Reversed => numbers.reverse(),
            Numbering::Above => numbers = (1..=count as Term).rev().collect(),
            Numbering::Drawn(seed) => {
                let mut draw = Draw(seed.wrapping_mul(0x9e37_79b9) ^ (salt as u64 + 1) << 32);
                numbers = (0..count as Term + 2).collect();
                draw.shuffle(&mut numbers);
                draw.shuffle(&mut order);
            }
        }
        renumbered(query, &numbers, &order)
    }
}

/// The union of a question under rules, each member written as the numbering says; cut off at `most` members.
pub fn made(rules: &[Rule], question: Query, numbering: Numbering, most: usize) -> Sheet {
    let counts = Counts::default();
    let mut seen = HashSet::new();
    let distinct = rules
        .iter()
        .enumerate()
        .filter(|(_, rule)| seen.insert(rule.0));
    let distinct: Vec<(usize, Rule)> = distinct.map(|(k, &rule)| (k, rule)).collect();
    let mut members = vec![Member {
        step: 0,
        query: question,
    }];
    let mut by_key: HashMap<u64, Vec<usize>> = HashMap::from([(key_of(&question), vec![0])]);
    let mut closed = true;
    let mut parent = 0;
    while parent < members.len() {
        let query = members[parent].query;
        let size = query.atoms().len();
        let by_rule = (0..size).flat_map(|i| {
            distinct.iter().filter_map(move |&(k, rule)| {
                Some((1 << 30 | i << 16 | k, rule_step(&query, i, rule)?))
            })
        });
        let by_merge = (0..size).flat_map(|i| {
            (i + 1..size)
                .filter_map(move |j| Some((2 << 30 | i << 16 | j, merge_step(&query, i, j)?)))
        });
        for (step, result) in by_rule.chain(by_merge) {
            let bucket = by_key.entry(key_of(&result)).or_default();
            let known = |&k: &usize| alike(&result, &members[k].query, &counts);
            if bucket.iter().any(known) {
                continue;
            }
            if members.len() == most {
                closed = false;
                continue;
            }
            bucket.push(members.len());
            members.push(Member {
                step: (step | parent << 20) as u32,
                query: numbering.apply(&result, members.len()),
            });
        }
        parent += 1;
    }
    Sheet {
        rules: rules.to_vec(),
        members,
        closed,
    }
}

/// The low bytes of a number, the most significant first.
fn put(sheet: &mut Vec<u8>, number: u64, bytes: usize) {
    sheet.extend(&number.to_be_bytes()[8 - bytes..]);
}

fn term_bits(term: Term) -> u64 {
    (term >> 24 << 16 | term & 0xffff) as u64
}

/// The question sheet of a query.
pub fn packed(query: &Query) -> Vec<u8> {
    let mut sheet = Vec::new();
    put(
        &mut sheet,
        (query.answers().len() << 4 | query.atoms().len()) as u64,
        1,
    );
    for &answer in query.answers() {
        put(&mut sheet, term_bits(answer), 3);
    }
    for atom in query.atoms() {
        let second = if atom.is_role() {
            term_bits(atom.second())
        } else {
            0
        };
        let head = (atom.is_role() as u64) << 47 | (atom.number() as u64) << 34;
        put(&mut sheet, head | term_bits(atom.first()) << 17 | second, 6);
    }
    sheet
}

/// The three sheets that a check takes.
pub struct Bytes {
    pub rules: Vec<u8>,
    pub question: Vec<u8>,
    pub union: Vec<u8>,
}

impl Sheet {
    pub fn bytes(&self) -> Bytes {
        assert!(self.rules.len() <= 512 && self.members.len() <= MOST_MEMBERS);
        let mut union = Vec::new();
        put(&mut union, self.members.len() as u64, 2);
        for member in &self.members {
            put(&mut union, member.step as u64, 4);
            union.extend(packed(&member.query));
        }
        Bytes {
            rules: self
                .rules
                .iter()
                .flat_map(|rule| rule.0.to_be_bytes())
                .collect(),
            question: packed(&self.members[0].query),
            union,
        }
    }
}
