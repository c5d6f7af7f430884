//! A search for bad sheets, apart from `make bench`: for the unions whose check takes most tests, then for the pairs of queries with one
//! key whose renaming does. What it finds is written down in `bad` and in `rename`.
use super::bad::{A, P};
use super::unions::{concept_rule, made, object, role_rule, Draw, Numbering, Sheet};
use super::words::{Atom, Query, Rule, Term};
use super::{alike, key_of, rename, Counts};
use crate::MOST_MEMBERS;
use std::collections::HashMap;

const ROUNDS: usize = 12;
const TRIES: usize = 4_000;

fn atom(draw: &mut Draw, variables: usize, roles: usize) -> Atom {
    let role = P + draw.below(roles) as u32;
    Atom::role(
        role,
        draw.below(variables) as Term,
        draw.below(variables) as Term,
    )
}

/// The atoms with one changed, or two made to exchange their second terms, which often leaves the key.
fn changed(draw: &mut Draw, atoms: &mut [Atom], variables: usize, roles: usize) {
    let i = draw.below(atoms.len());
    let j = draw.below(atoms.len());
    let (a, b) = (atoms[i], atoms[j]);
    if draw.below(2) == 0 || a.predicate() != b.predicate() {
        atoms[i] = atom(draw, variables, roles);
    } else {
        atoms[i] = Atom::role(a.number(), a.first(), b.second());
        atoms[j] = Atom::role(b.number(), b.first(), a.second());
    }
}

/// Tests that the search for a renaming takes, and whether there is one; nothing if an atom is there twice.
fn cost(p: &[Atom], q: &[Atom]) -> Option<(u64, bool)> {
    let (p, q) = (Query::new(&[], p), Query::new(&[], q));
    if p.atoms().len() < 8 || q.atoms().len() < 8 || key_of(&p) != key_of(&q) {
        return None;
    }
    let counts = Counts::default();
    let found = rename(&p, &q, &counts).is_some();
    Some((counts.tests.get(), found))
}

/// The atoms with their variables permuted.
fn permuted(draw: &mut Draw, atoms: &[Atom]) -> Vec<Atom> {
    let mut to: Vec<Term> = (0..16).collect();
    draw.shuffle(&mut to);
    let mut made: Vec<Atom> = atoms
        .iter()
        .map(|a| Atom::role(a.number(), to[a.first() as usize], to[a.second() as usize]))
        .collect();
    draw.shuffle(&mut made);
    made
}

/// The worst pair with one key that hill climbing finds, alike or not.
fn worst_pair(wanted: bool, rounds: usize) {
    let mut worst: (u64, Vec<Atom>, Vec<Atom>) = (0, Vec::new(), Vec::new());
    for round in 0..rounds {
        let mut draw = Draw(0x9e37_79b9_7f4a_7c15 ^ (round as u64 + 1) << 20);
        let (variables, roles) = (4 + draw.below(13), 1 + draw.below(3));
        let mut p: Vec<Atom> = (0..8).map(|_| atom(&mut draw, variables, roles)).collect();
        let mut q = p.clone();
        if !wanted {
            // rings apart from each other and one ring: no local test tells them apart
            let ring = |from: Term, length: Term| {
                (0..length).map(move |i| Atom::role(P, from + i, from + (i + 1) % length))
            };
            let lengths: &[Term] = [
                &[4, 4][..],
                &[6, 2],
                &[5, 3],
                &[3, 3, 2],
                &[4, 2, 2],
                &[2, 2, 2, 2],
            ][round % 6];
            let starts = lengths.iter().scan(0, |at, &length| {
                *at += length;
                Some((*at - length, length))
            });
            p = starts.flat_map(|(at, length)| ring(at, length)).collect();
            q = ring(0, 8).collect();
            if round % 2 == 1 {
                std::mem::swap(&mut p, &mut q);
            }
        }
        let mut best = 0;
        for _ in 0..TRIES {
            let (mut other_p, mut other_q) = (p.clone(), q.clone());
            match draw.below(4) {
                0 => {
                    changed(&mut draw, &mut other_p, variables, roles);
                    other_q = other_p.clone();
                    if !wanted {
                        changed(&mut draw, &mut other_q, variables, roles);
                    }
                    other_q = permuted(&mut draw, &other_q);
                }
                1 => changed(&mut draw, &mut other_q, variables, roles),
                2 => other_q = permuted(&mut draw, &q),
                _ => other_p = permuted(&mut draw, &p),
            }
            match cost(&other_p, &other_q) {
                Some((tests, found)) if found == wanted && tests >= best => {
                    (p, q, best) = (other_p, other_q, tests);
                }
                _ => {}
            }
        }
        if best > worst.0 {
            worst = (best, p, q);
            let show = |atoms: &[Atom]| {
                let all: Vec<String> = atoms
                    .iter()
                    .map(|a| format!("{}({},{})", a.number(), a.first(), a.second()))
                    .collect();
                all.join(" ")
            };
            println!(
                "round {round}: {} tests, alike {wanted}: {} | {}",
                worst.0,
                show(&worst.1),
                show(&worst.2)
            );
        }
    }
}

/// A question and the rules that make its union, before one of the rules is repeated to fill the sheet.
#[derive(Clone)]
struct Plan {
    atoms: Vec<Atom>,
    rules: Vec<Rule>,
    numbering: Numbering,
}

/// Tests that the check takes for 11 in all, if the rule that costs most is repeated until there are 512, and which rule that is.
fn estimate(sheet: &Sheet, distinct: bool) -> (u64, usize) {
    let counts = Counts::default();
    let mut by_key: HashMap<u64, Vec<usize>> = HashMap::new();
    for (k, member) in sheet.members.iter().enumerate() {
        by_key.entry(key_of(&member.query)).or_default().push(k);
    }
    let mut by_rule = vec![0; sheet.rules.len()];
    for member in &sheet.members {
        for (k, &rule) in sheet.rules.iter().enumerate() {
            let before = counts.tests.get();
            for i in 0..member.query.atoms().len() {
                let Some(result) = super::steps::rule_step(&member.query, i, rule) else {
                    continue;
                };
                let bucket = by_key
                    .get(&key_of(&result))
                    .map_or(&[][..], |bucket| bucket);
                let _ = bucket
                    .iter()
                    .any(|&j| alike(&result, &sheet.members[j].query, &counts));
            }
            by_rule[k] += counts.tests.get() - before;
        }
    }
    let total: u64 = by_rule.iter().sum();
    let (rule, most) = by_rule
        .iter()
        .copied()
        .enumerate()
        .max_by_key(|&(_, tests)| tests)
        .unwrap_or((0, 0));
    let more = if distinct {
        0
    } else {
        (512 - sheet.rules.len()) as u64
    };
    (total + more * most, rule)
}

fn plan(draw: &mut Draw) -> Plan {
    let size = 5 + draw.below(4);
    let mut plan = Plan {
        atoms: Vec::new(),
        rules: Vec::new(),
        numbering: Numbering::Reversed,
    };
    let variables = 4 + draw.below(13);
    while plan.atoms.len() < size {
        let made = any_atom(draw, variables);
        if !plan.atoms.contains(&made) {
            plan.atoms.push(made);
        }
    }
    for _ in 0..1 + draw.below(5) {
        plan.rules.push(any_rule(draw));
    }
    plan
}

fn any_atom(draw: &mut Draw, variables: usize) -> Atom {
    let role = P + draw.below(4) as u32;
    let first = match draw.below(4) {
        0 => object(draw.below(8) as u32),
        _ => draw.below(variables) as Term,
    };
    match draw.below(10) {
        0 => Atom::concept(A + draw.below(2) as u32, first),
        _ => Atom::role(role, first, draw.below(variables) as Term),
    }
}

fn any_rule(draw: &mut Draw) -> Rule {
    let (left, right) = (P + draw.below(5) as u32, P + draw.below(5) as u32);
    match draw.below(8) {
        0 => concept_rule((0, A), (1, right)),
        1 => concept_rule((1 + draw.below(2) as u32, left), (1, right)),
        3 => {
            let form = 1 + draw.below(2) as u32;
            concept_rule((form, right), (form, right))
        }
        2 => concept_rule((1, left), (0, A + draw.below(2) as u32)),
        _ => role_rule(left, right, draw.below(3) == 0),
    }
}

fn varied(draw: &mut Draw, from: &Plan) -> Plan {
    let mut plan = from.clone();
    for _ in 0..1 + draw.below(2) {
        match draw.below(6) {
            0 => {
                let i = draw.below(plan.atoms.len());
                let made = any_atom(draw, 16);
                if !plan.atoms.contains(&made) {
                    plan.atoms[i] = made;
                }
            }
            1 if plan.atoms.len() < 8 => {
                let made = any_atom(draw, 16);
                if !plan.atoms.contains(&made) {
                    plan.atoms.push(made);
                }
            }
            2 => {
                let i = draw.below(plan.rules.len());
                plan.rules[i] = any_rule(draw);
            }
            3 => plan.rules.push(any_rule(draw)),
            4 if plan.rules.len() > 1 => {
                let i = draw.below(plan.rules.len());
                plan.rules.remove(i);
            }
            _ => {
                plan.numbering = match draw.below(4) {
                    0 => Numbering::Reversed,
                    1 => Numbering::Kept,
                    2 => Numbering::Above,
                    _ => Numbering::Drawn(draw.below(1000) as u64),
                }
            }
        }
    }
    plan
}

/// The worst union that hill climbing finds; only closed ones count.
fn worst_union(distinct: bool, seconds: f64) {
    let begin = super::measure::processor_time();
    let mut worst = 0;
    let mut round = 0u64;
    while super::measure::processor_time() - begin < seconds {
        round += 1;
        let mut draw = Draw(0x2545_f491_4f6c_dd1d ^ round << 24);
        let mut best = 0;
        let mut at = plan(&mut draw);
        let mut idle = 0;
        while idle < 60 && super::measure::processor_time() - begin < seconds {
            idle += 1;
            let next = varied(&mut draw, &at);
            let sheet = made(
                &next.rules,
                Query::new(&[], &next.atoms),
                next.numbering,
                MOST_MEMBERS,
            );
            if !sheet.closed {
                continue;
            }
            let (tests, rule) = estimate(&sheet, distinct);
            if tests >= best {
                if tests > best {
                    idle = 0;
                }
                (best, at) = (tests, next.clone());
                if best > worst {
                    worst = best;
                    println!(
                        "round {round}: {} members, {worst} tests, rule {rule} most: {next:?}",
                        sheet.members.len()
                    );
                }
            }
        }
    }
}

/// How many pairs of members share a key, being unlike, and how many tests it takes to compare them.
fn shared_keys(sheet: &Sheet) -> (u64, u64) {
    let counts = Counts::default();
    let mut by_key: HashMap<u64, Vec<usize>> = HashMap::new();
    let mut pairs = 0;
    for (k, member) in sheet.members.iter().enumerate() {
        let bucket = by_key.entry(key_of(&member.query)).or_default();
        for &j in bucket.iter() {
            pairs += 1;
            assert!(!alike(&sheet.members[j].query, &member.query, &counts));
        }
        bucket.push(k);
    }
    (pairs, counts.tests.get())
}

/// The union in which most tests go into pairs of members that share a key; it need not be closed, since 10 comes before 11.
fn worst_keys(seconds: f64) {
    let begin = super::measure::processor_time();
    let mut worst = 0;
    let mut round = 0u64;
    while super::measure::processor_time() - begin < seconds {
        round += 1;
        let mut draw = Draw(0x5851_f42d_4c95_7f2d ^ round << 24);
        let mut best = 0;
        let mut at = plan(&mut draw);
        let mut idle = 0;
        while idle < 60 && super::measure::processor_time() - begin < seconds {
            idle += 1;
            let next = varied(&mut draw, &at);
            let sheet = made(
                &next.rules,
                Query::new(&[], &next.atoms),
                next.numbering,
                MOST_MEMBERS,
            );
            let (pairs, tests) = shared_keys(&sheet);
            if tests >= best {
                if tests > best {
                    idle = 0;
                }
                (best, at) = (tests, next.clone());
                if best > worst {
                    worst = best;
                    println!(
                        "round {round}: {} members, {pairs} pairs, {worst} tests: {next:?}",
                        sheet.members.len()
                    );
                }
            }
        }
    }
}

impl std::fmt::Debug for Plan {
    fn fmt(&self, f: &mut std::fmt::Formatter<'_>) -> std::fmt::Result {
        let atoms: Vec<String> = self
            .atoms
            .iter()
            .map(|a| format!("{}({},{})", a.number(), a.first(), a.second()))
            .collect();
        let rules: Vec<String> = self.rules.iter().map(|r| format!("{:08x}", r.0)).collect();
        write!(
            f,
            "{} | {} | {:?}",
            atoms.join(" "),
            rules.join(" "),
            self.numbering
        )
    }
}

pub fn run() {
    let seconds = std::env::args()
        .nth(2)
        .and_then(|text| text.parse().ok())
        .unwrap_or(60.0);
    println!("unions with members that share a key");
    worst_keys(seconds);
    println!("unions, every rule once");
    worst_union(true, seconds);
    println!("unions, one rule repeated");
    worst_union(false, seconds);
    println!("pairs with one key that are not alike");
    worst_pair(false, ROUNDS);
    println!("pairs that are alike");
    worst_pair(true, ROUNDS);
}
