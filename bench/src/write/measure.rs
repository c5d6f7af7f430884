//! Times of the proved writer and of the plain one: on rules and questions of the sheets that are bad for the check, and on taxonomies.
//! Times are this thread's processor time, the least of some repetitions.
use super::compare::both;
use super::{write, LONGEST};
use crate::check::bad::{self, A};
use crate::check::measure::{seconds, ENOUGH, MOST_REPETITIONS};
use crate::check::unions::{concept_rule, packed, Bytes, Draw};
use crate::check::words::{Atom, Query, Rule};
use crate::check::Counts;
use crate::{proved, MOST_MEMBERS};

/// Rules and a question.
struct Case {
    name: String,
    rules: Vec<u8>,
    question: Vec<u8>,
}

/// So many concepts, each but the first below the one that `above` says; the first is asked for.
fn taxonomy(name: &str, names: usize, above: impl Fn(usize) -> usize) -> Case {
    let concept = |i: usize| (0, A + i as u32);
    let rules: Vec<Rule> = (1..names)
        .map(|i| concept_rule(concept(i), concept(above(i))))
        .collect();
    Case {
        name: name.to_string(),
        rules: rules.iter().flat_map(|rule| rule.0.to_be_bytes()).collect(),
        question: packed(&Query::new(&[0], &[Atom::concept(A, 0)])),
    }
}

fn cases() -> Vec<Case> {
    let bad = bad::all().into_iter().map(|(name, sheet)| {
        let Bytes {
            rules, question, ..
        } = sheet().bytes();
        Case {
            name,
            rules,
            question,
        }
    });
    let mut all: Vec<Case> = bad.collect();
    all.push(taxonomy("taxonomy, one level", MOST_MEMBERS, |_| 0));
    all.push(taxonomy("taxonomy, two below each", MOST_MEMBERS, |i| {
        (i - 1) / 2
    }));
    all.push(taxonomy("taxonomy, one below each", MOST_MEMBERS, |i| {
        i - 1
    }));
    all.push(taxonomy("taxonomy, 513 names", MOST_MEMBERS + 1, |i| {
        (i - 1) / 2
    }));
    let seen: Vec<usize> = (0..MOST_MEMBERS)
        .map(|i| Draw(0x9e37 + 77 * i as u64).below(i.max(1)))
        .collect();
    all.push(taxonomy("taxonomy, drawn", MOST_MEMBERS, move |i| seen[i]));
    all
}

/// What was measured on one case.
struct Measured {
    name: String,
    members: u64,
    number: u32,
    proved: f64,
    plain: f64,
    counts: Counts,
}

/// Both writers on one case, taking turns, after their bytes were compared.
fn measured(case: &Case) -> Measured {
    let Case {
        name,
        rules,
        question,
    } = case;
    let written = both(name, rules, question, LONGEST);
    let mut best = Measured {
        name: name.clone(),
        members: written.count,
        number: written.number,
        proved: f64::INFINITY,
        plain: f64::INFINITY,
        counts: Counts::default(),
    };
    let mut sheet = vec![0; LONGEST];
    let mut spent = 0.0;
    for repetition in 0..MOST_REPETITIONS {
        let mut counts = Counts::default();
        let (proved, _) = seconds(|| proved::write(rules, question, &mut sheet));
        let (plain, _) = seconds(|| write(rules, question, &mut sheet, &mut counts));
        best.proved = best.proved.min(proved);
        best.plain = best.plain.min(plain);
        best.counts = counts;
        spent += proved + plain;
        if repetition > 0 && spent > ENOUGH {
            break;
        }
    }
    best
}

impl Measured {
    fn print(&self) {
        let counts = &self.counts;
        println!(
            "{:<34} {:>4} {:>4} {:>10.2} {:>10.2} {:>6.2} {:>9} {:>9} {:>8} {:>11} {:>7.1}",
            self.name,
            self.members,
            self.number,
            self.proved * 1e3,
            self.plain * 1e3,
            self.proved / self.plain,
            counts.results,
            counts.compared,
            counts.unlike,
            counts.passed,
            counts.tests.get() as f64 / counts.compared.max(1) as f64,
        );
    }
}

pub fn run() {
    println!("write: milliseconds of processor time, the least of some repetitions, worst first; number 0 is a union written");
    println!(
        "{:<34} {:>4} {:>4} {:>10} {:>10} {:>6} {:>9} {:>9} {:>8} {:>11} {:>7}",
        "rules and question",
        "memb",
        "no.",
        "proved",
        "plain",
        "ratio",
        "results",
        "compared",
        "unlike",
        "passed over",
        "tests"
    );
    let mut all: Vec<Measured> = cases()
        .iter()
        .map(|case| {
            eprintln!("measuring: {}", case.name);
            measured(case)
        })
        .collect();
    all.sort_by(|a, b| b.proved.total_cmp(&a.proved));
    all.iter().for_each(Measured::print);
}
