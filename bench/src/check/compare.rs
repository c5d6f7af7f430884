//! The numbers of both checks on random small sheets, sound and damaged. A difference stops the run.
use super::reading::FIRST_HELPER;
use super::unions::{concept_rule, made, object, role_rule, Bytes, Draw, Numbering};
use super::words::{Atom, Query, Rule, Term};
use super::{check, Counts};
use crate::plain::as_read;
use crate::{proved, PARTNERS};

/// A random role of 0 to 3 and 16, partners among them; at times the first helper.
fn role(draw: &mut Draw) -> u32 {
    match draw.below(64) {
        0 => FIRST_HELPER,
        other => [0, 1, 2, 3, 16][other % 5],
    }
}

/// So many random rules, as records: in some sheets many of them are pairs.
pub fn records(draw: &mut Draw, count: usize) -> Vec<Rule> {
    let pairs = draw.below(2) == 0;
    let mut records = Vec::new();
    for _ in 0..count {
        match pairs && draw.below(3) == 0 {
            true => records.extend(pair(draw)),
            false => records.push(rule(draw)),
        }
    }
    records
}

/// A kind 3 and its kind 4.
fn pair(draw: &mut Draw) -> [Rule; 2] {
    let left = match draw.below(3) as u32 {
        0 => (0, draw.below(2) as u32),
        form => (form, role(draw)),
    };
    let right = (1 + draw.below(2) as u32, role(draw));
    let Rule(word) = concept_rule(left, right);
    let filler = draw.below(2) as u32;
    [Rule(word + (2 << 28)), Rule(4 << 28 | filler << 14)]
}

/// A random rule over two concepts and some roles.
fn rule(draw: &mut Draw) -> Rule {
    let (left, right) = (role(draw), role(draw));
    if draw.below(3) == 0 {
        return role_rule(left, right, draw.below(2) == 0);
    }
    let mut side = |role: u32| match draw.below(3) as u32 {
        0 => (0, draw.below(2) as u32),
        form => (form, role),
    };
    let (left, right) = (side(left), side(right));
    concept_rule(left, right)
}

fn term(draw: &mut Draw, variables: usize) -> Term {
    match draw.below(6) {
        0 => object(draw.below(2) as u32),
        _ => draw.below(variables) as Term,
    }
}

/// A random question of up to four atoms.
pub fn question(draw: &mut Draw) -> Query {
    let size = 1 + draw.below(4);
    let variables = 1 + draw.below(5);
    let mut atoms: Vec<Atom> = Vec::new();
    for _ in 0..size {
        let first = term(draw, variables);
        let atom = match draw.below(3) {
            0 => Atom::concept(draw.below(2) as u32, first),
            _ => {
                let (role, _) = as_read(role(draw) as u16, &PARTNERS);
                Atom::role(role as u32, first, term(draw, variables))
            }
        };
        if !atoms.contains(&atom) {
            atoms.push(atom);
        }
    }
    let arity = draw.below(4).saturating_sub(1);
    let answers: Vec<Term> = (0..arity)
        .map(|_| atoms[draw.below(atoms.len())].first())
        .collect();
    Query::new(&answers, &atoms)
}

/// One of the three sheets damaged.
pub fn damaged(draw: &mut Draw, bytes: &mut Bytes) {
    let sheet = match draw.below(6) {
        0 => &mut bytes.rules,
        1 => &mut bytes.question,
        _ => &mut bytes.union,
    };
    damage(draw, sheet);
}

/// Damages a sheet: a bit turned, a byte changed, bytes cut off or added.
pub fn damage(draw: &mut Draw, sheet: &mut Vec<u8>) {
    if sheet.is_empty() {
        return sheet.push(draw.below(256) as u8);
    }
    let at = draw.below(sheet.len());
    match draw.below(8) {
        0 => sheet.truncate(at),
        1 => sheet.push(draw.below(256) as u8),
        2 => sheet[at] = draw.below(256) as u8,
        3 => sheet[at] = sheet[at].wrapping_add(1),
        _ => sheet[at] ^= 1 << draw.below(8),
    }
}

pub fn run(sheets: usize) {
    let mut draw = Draw(0x2545_f491_4f6c_dd1d);
    let mut seen = [0usize; 19];
    let mut compare = |bytes: &Bytes| {
        let Bytes {
            rules,
            question,
            union,
        } = bytes;
        let number = proved::check(rules, question, union);
        let plain = check(rules, question, union, &mut Counts::default());
        if number != plain {
            eprintln!("THE CHECKS DIFFER: proved {number}, plain {plain}");
            eprintln!("rules {rules:02x?}\nquestion {question:02x?}\nunion {union:02x?}");
            std::process::exit(1);
        }
        seen[number as usize] += 1;
    };
    for _ in 0..sheets {
        // in one sheet of eight so many, some of them repeated, that they are chained
        let many = draw.below(8) == 0;
        let count = if many {
            12 + draw.below(40)
        } else {
            draw.below(6)
        };
        let rules = records(&mut draw, count);
        let numbering = match draw.below(3) {
            0 => Numbering::Kept,
            1 => Numbering::Reversed,
            _ => Numbering::Drawn(draw.below(1 << 30) as u64),
        };
        let most = match many {
            true => 12 + draw.below(60),
            false => [512, 40, 1 + draw.below(6)][draw.below(3)],
        };
        // the rules' partners are read, so that the steps are those of the sheet
        let packed: Vec<u8> = rules.iter().flat_map(|rule| rule.0.to_be_bytes()).collect();
        let read = super::reading::read_rules(&packed, &PARTNERS).expect("the rules are sound");
        let mut sheet = made(&read, question(&mut draw), numbering, most);
        sheet.rules = rules;
        compare(&sheet.bytes());
        for _ in 0..8 {
            let mut bytes = sheet.bytes();
            for _ in 0..1 + draw.below(2) {
                damaged(&mut draw, &mut bytes);
            }
            compare(&bytes);
        }
        if sheet.members.len() > 2 {
            let (i, j) = (
                1 + draw.below(sheet.members.len() - 1),
                draw.below(sheet.members.len()),
            );
            let mut other = sheet.clone();
            other.members[i].query = other.members[j].query;
            compare(&other.bytes());
            other = sheet.clone();
            other.members.swap(i, j);
            compare(&other.bytes());
            other = sheet.clone();
            let again = other.members[i];
            other.members.truncate(511);
            other.members.push(again);
            compare(&other.bytes());
        }
    }
    let total: usize = seen.iter().sum();
    println!("compared {total} sheets: both checks gave the same number on each");
    let numbers: Vec<String> = (0..12)
        .chain([17, 18])
        .map(|number| format!("{number}: {}", seen[number]))
        .collect();
    println!("numbers given: {}", numbers.join(", "));
}
