//! The check of a union in plain Rust, with the proved library's algorithm: refusals 1, 2, 17, 3 to 11 and 18 in this order, keys computed
//! once, a comparison up to renaming only where two keys agree. It is written with references, slices and iterators, and nothing is
//! allocated but the tables.
pub mod bad;
pub mod cards;
pub mod compare;
mod key;
pub mod measure;
pub mod reading;
mod renaming;
pub mod search;
pub mod steps;
pub mod unions;
pub mod words;

pub use key::key_of;
use reading::{clashes, read_question, read_rules};
use std::cell::Cell;
use steps::{merge_step, names, rule_step};
use words::{Query, Rule};

use crate::{plain, MOST_MEMBERS, PARTNERS, ROW};

/// A question and the 32 bits of the step written beside it.
#[derive(Clone, Copy)]
pub struct Member {
    pub step: u32,
    pub query: Query,
}

/// What a check did.
#[derive(Default)]
pub struct Counts {
    /// comparisons up to renaming for 10 and 11, and how many of them said no
    pub compared: u64,
    pub unlike: u64,
    /// members that a key passed over
    pub passed: u64,
    /// questions that steps led to, for 11
    pub results: u64,
    /// how often a partial renaming was tested, in all comparisons
    pub tests: Cell<u64>,
}

/// The smallest renaming that carries p to q: where each variable of p goes, 32 for the others.
pub fn rename(p: &Query, q: &Query, counts: &Counts) -> Option<[u8; 32]> {
    renaming::rename(p, q, &counts.tests)
}

pub fn alike(p: &Query, q: &Query, counts: &Counts) -> bool {
    renaming::alike(p, q, &counts.tests)
}

/// Whether the query, which has this key, is alike to one of the members, which have those keys.
pub fn alike_to_one(
    query: &Query,
    key: u64,
    members: &[Member],
    keys: &[u64],
    counts: &mut Counts,
) -> bool {
    for (member, &other) in members.iter().zip(keys) {
        if other != key {
            counts.passed += 1;
            continue;
        }
        counts.compared += 1;
        if alike(query, &member.query, counts) {
            return true;
        }
        counts.unlike += 1;
    }
    false
}

/// Words chained by their place: for each place the number after the last word there, for each word the number after the one before it
/// at its place, 0 where there is none.
struct Chains {
    heads: [u16; PLACES],
    links: [u16; PLACES],
}

const PLACES: usize = 512;
/// From so many members on there is an index of their keys, and from so many rules on, too, chains of these.
const MANY: usize = 16;

fn place(word: u64) -> usize {
    (word % PLACES as u64) as usize
}

impl Chains {
    fn of(words: impl Iterator<Item = u64>) -> Chains {
        let mut chains = Chains {
            heads: [0; PLACES],
            links: [0; PLACES],
        };
        for (link, (j, word)) in chains.links.iter_mut().zip((1..).zip(words)) {
            *link = std::mem::replace(&mut chains.heads[place(word)], j);
        }
        chains
    }

    /// The words at the place of the wanted one, the last first.
    fn along(&self, wanted: u64) -> impl Iterator<Item = usize> + '_ {
        let next = |at: u16| at.checked_sub(1).map(usize::from);
        std::iter::successors(next(self.heads[place(wanted)]), move |&j| {
            next(self.links[j])
        })
    }
}

/// Each rule once, chained by the name of its right side, which is the low bits of its word.
struct RuleChains {
    rules: Vec<Rule>,
    chains: Chains,
}

impl RuleChains {
    fn of(rules: &[Rule]) -> RuleChains {
        let mut distinct: Vec<Rule> = Vec::with_capacity(rules.len());
        let (mut heads, mut links) = ([0; PLACES], [0; PLACES]);
        for &rule in rules {
            // multiplicative hashing: all bits of the word decide
            let head: &mut u16 = &mut heads[(rule.0.wrapping_mul(2654435761) >> 23) as usize];
            let mut at = *head;
            while at > 0 && distinct[at as usize - 1] != rule {
                at = links[at as usize - 1];
            }
            if at == 0 {
                links[distinct.len()] = *head;
                distinct.push(rule);
                *head = distinct.len() as u16;
            }
        }
        let chains = Chains::of(distinct.iter().map(|rule| rule.0 as u64));
        RuleChains {
            rules: distinct,
            chains,
        }
    }
}

/// Rules, members and the members' keys, with an index of these where members are many, and chains of the rules where both are.
struct Union<'a> {
    rules: &'a [Rule],
    chained: Option<RuleChains>,
    members: &'a [Member],
    keys: Vec<u64>,
    index: Option<Chains>,
}

/// What the step beside member k yields.
fn yielded(rules: &[Rule], members: &[Member], k: usize) -> Option<Query> {
    let step = members[k].step;
    let parent = (step >> 20 & 0x3ff) as usize;
    let (atom, other) = ((step >> 16 & 15) as usize, (step & 0xffff) as usize);
    if parent >= k {
        return None;
    }
    let query = &members[parent].query;
    match step >> 30 {
        1 => rule_step(query, atom, *rules.get(other)?),
        2 => merge_step(query, atom, other),
        _ => None,
    }
}

impl Union<'_> {
    /// Whether the query is alike to a member from number `from` on.
    fn alike_from(&self, query: &Query, key: u64, from: usize, counts: &mut Counts) -> bool {
        let Some(index) = &self.index else {
            let members = &self.members[from..];
            return alike_to_one(query, key, members, &self.keys[from..], counts);
        };
        index.along(key).take_while(|&j| from <= j).any(|j| {
            let (members, keys) = (&self.members[j..=j], &self.keys[j..=j]);
            alike_to_one(query, key, members, keys, counts)
        })
    }

    fn refuses10(&self, counts: &mut Counts) -> bool {
        (0..self.members.len())
            .any(|i| self.alike_from(&self.members[i].query, self.keys[i], i + 1, counts))
    }

    /// Whether a step leads to a question that is alike to no member.
    fn outside(&self, result: Option<Query>, counts: &mut Counts) -> bool {
        result.is_some_and(|query| {
            counts.results += 1;
            !self.alike_from(&query, key_of(&query), 0, counts)
        })
    }

    /// Whether some rule leads outside from atom i. A rule for another predicate makes nothing, and one that stands earlier needs no
    /// second try.
    fn rules_lead_outside(&self, query: &Query, i: usize, counts: &mut Counts) -> bool {
        let atom = query.atoms()[i];
        let mut leads = |rule| names(rule, atom) && self.outside(rule_step(query, i, rule), counts);
        if let Some(RuleChains { rules, chains }) = &self.chained {
            return chains.along(atom.number() as u64).any(|k| leads(rules[k]));
        }
        let mut rules = self.rules.iter().enumerate();
        rules.any(|(k, rule)| names(*rule, atom) && !self.rules[..k].contains(rule) && leads(*rule))
    }

    fn refuses11(&self, counts: &mut Counts) -> bool {
        self.members.iter().any(|Member { query, .. }| {
            let size = query.atoms().len();
            (0..size).any(|i| self.rules_lead_outside(query, i, counts))
                || (0..size)
                    .any(|i| (i + 1..size).any(|j| self.outside(merge_step(query, i, j), counts)))
        })
    }
}

/// The first of refusals 7 to 11, or 0.
fn check_union(rules: &[Rule], question: &Query, members: &[Member], counts: &mut Counts) -> u32 {
    if members[0].step != 0
        || members[0].query.answers() != question.answers()
        || members[0].query.atoms() != question.atoms()
    {
        return 7;
    }
    // 8 and 9 in one pass where neither applies; 8, over the whole union, comes first
    for k in 1..members.len() {
        let Some(query) = yielded(rules, members, k) else {
            return 8;
        };
        if !alike(&query, &members[k].query, counts) {
            let fails = |k: usize| yielded(rules, members, k).is_none();
            return if (k + 1..members.len()).any(fails) {
                8
            } else {
                9
            };
        }
    }
    let keys: Vec<u64> = members.iter().map(|member| key_of(&member.query)).collect();
    let many = MANY <= members.len();
    let index = many.then(|| Chains::of(keys.iter().copied()));
    let chained = (many && MANY <= rules.len()).then(|| RuleChains::of(rules));
    let union = Union {
        rules,
        chained,
        members,
        keys,
        index,
    };
    if union.refuses10(counts) {
        return 10;
    }
    if union.refuses11(counts) {
        return 11;
    }
    0
}

fn refusal(records: &[u8], question: &[u8], union: &[u8], counts: &mut Counts) -> Result<u32, u32> {
    let rules = read_rules(records, &PARTNERS)?;
    let question = read_question(question, &PARTNERS)?;
    let mut table = vec![0; ROW * MOST_MEMBERS];
    let read = plain::read_union(union, &PARTNERS, question.answers().len(), &mut table);
    if read.number != 0 {
        return Err(read.number);
    }
    let rows = &table.as_chunks().0[..read.count];
    let member = |row: &[u64; ROW]| Member {
        step: row[0] as u32,
        query: Query::from_row(row),
    };
    let members: Vec<Member> = rows.iter().map(member).collect();
    match check_union(&rules, &question, &members, counts) {
        0 if clashes(records, &question) => Ok(18),
        number => Ok(number),
    }
}

/// The number of the first refusal of 1, 2, 17, 3 to 11 and 18 that applies, 0 where the union is accepted.
#[inline(never)]
pub fn check(rules: &[u8], question: &[u8], union: &[u8], counts: &mut Counts) -> u32 {
    refusal(rules, question, union, counts).unwrap_or_else(|number| number)
}
