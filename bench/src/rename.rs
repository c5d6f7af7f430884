//! The smallest renaming of one question into another: what the proved library and the plain program give, byte by byte, and their times
//! for a call. A difference stops the run.
use crate::check::compare::{damage, question};
use crate::check::measure::several;
use crate::check::reading::read_question;
use crate::check::unions::{packed, renumbered, Draw};
use crate::check::words::{Atom, Query, Term};
use crate::check::{bad, key_of, Counts};
use crate::{check, proved, PARTNERS};
use std::collections::HashMap;

/// What comparing two questions gives: the refusal's number, 0 for none; 1 if there is a renaming; where each variable of the first goes,
/// 32 for the others, and for all if there is none.
#[repr(C)]
#[derive(Clone, Copy, PartialEq, Eq, Debug)]
pub struct Renaming {
    pub number: u32,
    pub found: u32,
    pub targets: [u8; 32],
}

/// The smallest renaming, or nothing; or the first refusal of 3, 4 and 5 of the first sheet and then of the second.
fn renaming(first: &[u8], second: &[u8], counts: &Counts) -> Result<Option<[u8; 32]>, u32> {
    let first = read_question(first, &PARTNERS)?;
    let second = read_question(second, &PARTNERS)?;
    Ok(check::rename(&first, &second, counts))
}

/// The plain program.
#[inline(never)]
fn rename(first: &[u8], second: &[u8], counts: &Counts) -> Renaming {
    let (number, found) = match renaming(first, second, counts) {
        Ok(found) => (0, found),
        Err(number) => (number, None),
    };
    Renaming {
        number,
        found: found.is_some() as u32,
        targets: found.unwrap_or([32; 32]),
    }
}

/// What both give on two sheets.
fn both(first: &[u8], second: &[u8]) -> Renaming {
    let given = proved::rename(first, second);
    let plain = rename(first, second, &Counts::default());
    if given != plain {
        eprintln!("THE RENAMINGS DIFFER: proved {given:?}, plain {plain:?}");
        eprintln!("first {first:02x?}\nsecond {second:02x?}");
        std::process::exit(1);
    }
    given
}

/// The same question with other variables and its atoms in another order.
fn shuffled(draw: &mut Draw, query: &Query) -> Query {
    let mut numbers: Vec<Term> = (0..32).collect();
    let mut order: Vec<usize> = (0..query.atoms().len()).collect();
    draw.shuffle(&mut numbers);
    draw.shuffle(&mut order);
    renumbered(query, &numbers, &order)
}

/// Pairs of question sheets.
type Pairs = Vec<[Vec<u8>; 2]>;

/// Pairs with a name.
struct Group {
    name: &'static str,
    pairs: Pairs,
}

/// Pairs of the members of one union: each with itself shuffled, with those that share its key, and with the one after it.
fn of_members(draw: &mut Draw, members: &[Query], groups: &mut [Group; 3]) {
    let [renamed, one_key, others] = groups;
    let mut by_key: HashMap<u64, Vec<&Query>> = HashMap::new();
    for query in members {
        let other = shuffled(draw, query);
        renamed.pairs.push([packed(query), packed(&other)]);
        let seen = by_key.entry(key_of(query)).or_default();
        for before in seen.iter() {
            one_key.pairs.push([packed(before), packed(&other)]);
            one_key.pairs.push([packed(&other), packed(before)]);
        }
        seen.push(query);
    }
    let next = members
        .windows(2)
        .map(|two| [packed(&two[0]), packed(&two[1])]);
    others.pairs.extend(next);
}

/// Roles of one name; the terms are given in a row.
fn roles(terms: [Term; 16]) -> Vec<u8> {
    let two = terms.as_chunks().0.iter();
    let atoms = two.map(|&[first, second]| Atom::role(bad::P, first, second));
    packed(&Query::new(&[], &atoms.collect::<Vec<Atom>>()))
}

/// The pairs that took most tests in `search`, and both turned: one ring of eight and two rings, and two questions that are alike.
fn climbed() -> Pairs {
    let rings = [
        roles([6, 10, 10, 14, 13, 12, 12, 0, 0, 6, 1, 3, 3, 13, 14, 1]),
        roles([0, 10, 6, 0, 9, 6, 5, 15, 10, 9, 15, 13, 13, 12, 12, 5]),
    ];
    let alike = [
        roles([10, 7, 10, 15, 9, 3, 13, 1, 12, 0, 14, 8, 12, 14, 11, 4]),
        roles([13, 3, 12, 7, 15, 10, 10, 0, 11, 5, 13, 4, 15, 8, 14, 6]),
    ];
    let turned = |[first, second]: &[Vec<u8>; 2]| [second.clone(), first.clone()];
    vec![turned(&rings), turned(&alike), rings, alike]
}

/// All pairs that are timed.
fn groups() -> Vec<Group> {
    let names = [
        "a member, shuffled",
        "members with one key",
        "members side by side",
    ];
    let mut groups = names.map(|name| Group {
        name,
        pairs: Vec::new(),
    });
    let mut draw = Draw(0x9e37_79b9_7f4a_7c15);
    let bad = bad::all().into_iter().map(|(_, sheet)| sheet());
    for sheet in bad.chain(bad::common().into_iter().map(|(_, sheet)| sheet)) {
        let members: Vec<Query> = sheet.members.iter().map(|member| member.query).collect();
        of_members(&mut draw, &members, &mut groups);
    }
    let climbed = Group {
        name: "found by climbing",
        pairs: climbed(),
    };
    groups.into_iter().chain([climbed]).collect()
}

/// Compares what both give on random small questions: with themselves shuffled, with each other, damaged. It counts what is given: 0 no
/// renaming, 1 a renaming, else the refusal's number.
fn compare(questions: usize, seen: &mut [usize; 8]) {
    let mut draw = Draw(0x2545_f491_4f6c_dd1d);
    let mut last = packed(&question(&mut draw));
    for _ in 0..questions {
        let query = question(&mut draw);
        let pair = [packed(&query), packed(&shuffled(&mut draw, &query))];
        let mut count = |given: Renaming| seen[(given.number + given.found) as usize] += 1;
        count(both(&pair[0], &pair[1]));
        count(both(&pair[1], &last));
        for _ in 0..4 {
            let mut pair = pair.clone();
            for _ in 0..1 + draw.below(2) {
                let which = draw.below(2);
                damage(&mut draw, &mut pair[which]);
            }
            count(both(&pair[0], &pair[1]));
        }
        [last, _] = pair;
    }
}

/// Microseconds of a call, the least of some turns, and tests of a partial renaming.
struct Times {
    proved: f64,
    plain: f64,
    tests: u64,
}

const TURNS: usize = 4;
/// A turn takes about so many seconds.
const TURN: f64 = 2e-5;

fn timed([first, second]: &[Vec<u8>; 2]) -> Times {
    let mut best = Times {
        proved: f64::INFINITY,
        plain: f64::INFINITY,
        tests: 0,
    };
    let mut calls = 1;
    for _ in 0..TURNS {
        let (proved, _) = several(calls, || proved::rename(first, second));
        let (plain, tests) = several(calls, || {
            let counts = Counts::default();
            (rename(first, second, &counts), counts.tests.get())
        });
        calls = 1 + (TURN / proved) as usize;
        best.proved = best.proved.min(proved * 1e6);
        best.plain = best.plain.min(plain * 1e6);
        best.tests = tests.1;
    }
    best
}

/// The best, the median and the worst of a group, by the proved library's time.
fn measure(group: &Group) {
    let mut times: Vec<Times> = group.pairs.iter().map(timed).collect();
    times.sort_by(|a, b| a.proved.total_cmp(&b.proved));
    let last = times.len() - 1;
    for (which, at) in [("best", 0), ("median", last / 2), ("worst", last)] {
        let Times {
            proved,
            plain,
            tests,
        } = times[at];
        let ratio = proved / plain;
        println!(
            "{:<22} {:>6} {which:<7} {proved:>9.2} {plain:>9.2} {ratio:>6.2} {tests:>6}",
            group.name,
            times.len()
        );
    }
}

/// Compares what both give, on so many random questions and on the pairs that are then timed.
pub fn run(questions: usize) {
    let mut seen = [0; 8];
    compare(questions, &mut seen);
    let groups = groups();
    for [first, second] in groups.iter().flat_map(|group| &group.pairs) {
        let given = both(first, second);
        seen[(given.number + given.found) as usize] += 1;
    }
    let total: usize = seen.iter().sum();
    println!("compared {total} pairs of questions: both gave the same number and the same renaming on each");
    println!(
        "none: {}, found: {}, 3: {}, 4: {}, 5: {}",
        seen[0], seen[1], seen[3], seen[4], seen[5]
    );
    println!("rename: microseconds of processor time for a call, the least of some turns; by the proved library's time");
    println!(
        "{:<22} {:>6} {:<7} {:>9} {:>9} {:>6} {:>6}",
        "pairs", "number", "", "proved", "plain", "ratio", "tests"
    );
    groups.iter().for_each(measure);
}
